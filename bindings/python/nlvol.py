"""nlvol for Python: a file system with continuous snapshots, in memory, opened from and saved as one file.

It needs libnlvol.so alone (bin/library builds it): beside this module, where NLVOL_LIBRARY says, or where the
system finds it.

>>> with new() as v:
...     v.write_bytes("/notes", b"first draft")
...     first = v.mkcp(snapshot=True, moment=60)
...     v.write_bytes("/notes", b"final")
...     v.read_bytes("/notes"), v.at(first).read_bytes("/notes")
(b'final', b'first draft')

A path is bytes, or a str that is taken as the system takes names of files. A moment is in whole seconds since 1970;
where none is given, it is the clock's. A volume may be used by several threads: one call at a time goes on."""

from __future__ import annotations

import ctypes
import ctypes.util
import errno
import fcntl
import os
import stat
import threading
import time
import warnings
from typing import Iterator, NamedTuple, Type, Union

__all__ = [
    "Amount",
    "Attributes",
    "Checkpoint",
    "Config",
    "Entry",
    "Info",
    "Refused",
    "Room",
    "Segment",
    "Tree",
    "Volume",
    "config",
    "create",
    "load",
    "new",
    "open",
    "version",
]

Name = Union[str, bytes]
_open_file = open

# ---- refusals


class Refused(OSError):
    """A call that was refused: all is as it was before it. `errno` is that of the like refusal in POSIX, `status`
    the library's number, of bytes that are no image `condition` says which condition they fail first, and of a
    configuration `line` the number of the first line that can't be read.

    >>> with new() as v:
    ...     v.read_bytes("/a")
    Traceback (most recent call last):
      ..
    nlvol.NotFound: [Errno 2] there is nothing at this path: '/a'
    """

    status = 0
    condition = 0
    line = 0


def _refusal(name: str, number: int, text: str, kind: Type[OSError] = OSError) -> tuple[type, int, str]:
    bases = (Refused,) if kind is OSError else (Refused, kind)
    made = type(name, bases, {"__doc__": text + ".", "__module__": __name__})
    globals()[name] = made
    __all__.append(name)
    return made, number, text


_REFUSALS = {
    1: _refusal("NotFound", errno.ENOENT, "there is nothing at this path", FileNotFoundError),
    2: _refusal("NotDirectory", errno.ENOTDIR, "this is no directory", NotADirectoryError),
    3: _refusal("IsDirectory", errno.EISDIR, "this is a directory", IsADirectoryError),
    4: _refusal("Exists", errno.EEXIST, "there is something at this path", FileExistsError),
    5: _refusal("NotEmpty", errno.ENOTEMPTY, "the directory is not empty"),
    6: _refusal("BadName", errno.EINVAL, "a part of the path is no name"),
    7: _refusal("BadPath", errno.EINVAL, "this is no path, or not one that the call takes"),
    8: _refusal("IntoItself", errno.EINVAL, "a directory cannot go below itself"),
    9: _refusal("TooBig", errno.EFBIG, "a limit on sizes would be passed"),
    10: _refusal("NoCheckpoint", errno.ENOENT, "this checkpoint is not kept"),
    11: _refusal("IsSnapshot", errno.EBUSY, "the checkpoint is a snapshot"),
    12: _refusal("NotSnapshot", errno.EINVAL, "the checkpoint is no snapshot"),
    13: _refusal("Mounted", errno.EBUSY, "the snapshot is mounted"),
    14: _refusal("Latest", errno.EBUSY, "the latest checkpoint stays"),
    15: _refusal("BadRange", errno.EINVAL, "a number is out of range"),
    16: _refusal("NoSpace", errno.ENOSPC, "there is no space"),
    17: _refusal("Fault", errno.EIO, "the device failed"),
    18: _refusal("NoMemory", errno.ENOMEM, "there is no memory"),
    19: _refusal("BadMount", errno.EINVAL, "there is no such mount"),
    20: _refusal("SegmentActive", errno.EBUSY, "the segment is being written"),
    21: _refusal("SegmentClean", errno.EINVAL, "the segment is clean"),
    22: _refusal("StillNeeded", errno.EBUSY, "the segment holds a needed block"),
    23: _refusal("SegmentError", errno.EIO, "a write to the segment failed"),
    24: _refusal("BadImage", errno.EINVAL, "the bytes are no image"),
    25: _refusal("NumbersSpent", errno.EOVERFLOW, "the numbers are spent"),
    26: _refusal("BadGeometry", errno.EINVAL, "no volume has this geometry"),
    27: _refusal("BadConfig", errno.EINVAL, "the configuration cannot be read"),
    64: _refusal("Closed", errno.EBADF, "the volume is closed"),
    65: _refusal("WrongArgument", errno.EINVAL, "a flag or an index is none"),
    66: _refusal("Unsettled", errno.EBUSY, "the current tree may differ from the latest checkpoint"),
}


def _raise(status: int, path: Name | None, line: int = 0) -> None:
    made, number, text = _REFUSALS[status & 255]
    error = made(number, text) if path is None else made(number, text, path)
    error.status, error.condition, error.line = status & 255, status >> 8, line
    raise error


# ---- the library


class _Handle(ctypes.Structure):
    _fields_ = [("at", ctypes.c_void_p), ("is_open", ctypes.c_uint8)]


def _of_numbers(name: str, *fields: str) -> type:
    return type(name, (ctypes.Structure,), {"_fields_": [(field, ctypes.c_uint64) for field in fields]})


_Object = _of_numbers("_Object", "kind", "size")
_Row = _of_numbers("_Row", "number", "stamp", "inodes", "flags")
_Range = _of_numbers("_Range", "removed", "stayed")
_Info = _of_numbers("_Info", "segments", "blocks", "clean", "checkpoints", "snapshots", "latest", "dirty")
_Segment = _of_numbers("_Segment", "state", "stamp", "used", "needed")
_Move = _of_numbers("_Move", "moved", "left")
_Room = _of_numbers("_Room", "blocks", "free")
_Amount = _of_numbers("_Amount", "number", "is_percent")
_Attributes = _of_numbers("_Attributes", "mode", "owner", "group", "is_negative", "seconds", "nanoseconds")


class _Line(ctypes.Structure):
    _fields_ = [("name_size", ctypes.c_uint64), ("target_size", ctypes.c_uint64), ("attributes", _Attributes)]


class _Config(ctypes.Structure):
    _fields_ = [
        ("protection_period", ctypes.c_uint64),
        ("min_clean_segments", _Amount),
        ("max_clean_segments", _Amount),
        ("nsegments_per_clean", ctypes.c_uint64),
        ("mc_nsegments_per_clean", ctypes.c_uint64),
        ("min_reclaimable_blocks", _Amount),
        ("mc_min_reclaimable_blocks", _Amount),
    ]


_u32, _u64 = ctypes.c_uint32, ctypes.c_uint64
_to = ctypes.POINTER
_bytes = [ctypes.c_char_p, ctypes.c_size_t]

# The parameters of each call behind its handle.
_CALLS = {
    "format": [_u32, _u32, _u64],
    "open": _bytes,
    "image": [_to(_u64)],
    "image_read": [_u64, *_bytes, _to(_u64)],
    "create": _bytes,
    "mkdir": _bytes,
    "unlink": _bytes,
    "rmdir": _bytes,
    "rename": [*_bytes, *_bytes],
    "truncate": [*_bytes, _u64],
    "write": [*_bytes, _u64, *_bytes],
    "read": [_u64, *_bytes, _u64, *_bytes, _to(_u64)],
    "stat": [_u64, *_bytes, _to(_Object)],
    "list": [_u64, *_bytes, _to(_u64)],
    "name": [_u64, *_bytes, _to(_Object)],
    "mkcp": [_u32, _u64, _to(_u64)],
    "sync": [_u64, _to(_u64)],
    "chcp": [_u64, _u32],
    "rmcp": [_u64],
    "rmcp_range": [_u64, _u64, _to(_Range)],
    "expire": [_u64, _u64, _to(_u64)],
    "lscp": [_u32, _u64, _to(_Row), ctypes.c_size_t, _to(_u64)],
    "info": [_to(_Info)],
    "segment": [_u32, _to(_Segment)],
    "resize": [_u32],
    "move": [_u32, _u32, _u64, _to(_Move)],
    "retire": [_u32],
    "room": [_to(_Room)],
    "room_bound": [_to(_Room)],
    "manifest_read": [*_bytes, _to(_Attributes), _to(_u64)],
    "manifest_line": [_u64, *_bytes, *_bytes, _to(_Line)],
    "manifest_begin": [_to(_Attributes)],
    "manifest_add": [*_bytes, *_bytes, _to(_Attributes)],
    "manifest_bytes": [_to(_u64)],
}


def _found() -> ctypes.CDLL:
    beside = os.path.join(os.path.dirname(os.path.abspath(__file__)), "libnlvol.so")
    for path in (os.environ.get("NLVOL_LIBRARY"), beside if os.path.exists(beside) else None):
        if path:
            return ctypes.CDLL(path)
    found = ctypes.util.find_library("nlvol")
    if not found:
        raise ImportError("libnlvol.so is not there: bin/library builds it, and NLVOL_LIBRARY says where it is")
    return ctypes.CDLL(found)


def _declared(library: ctypes.CDLL) -> ctypes.CDLL:
    for name, parameters in _CALLS.items():
        call = getattr(library, "nlvol_" + name)
        call.argtypes, call.restype = [_to(_Handle), *parameters], _u32
    for name in ("close", "release"):
        call = getattr(library, "nlvol_" + name)
        call.argtypes, call.restype = [_to(_Handle)], None
    library.nlvol_version.argtypes, library.nlvol_version.restype = [], _u32
    library.nlvol_config.argtypes, library.nlvol_config.restype = [*_bytes, _to(_Config), _to(_u64)], _u32
    return library


_library = _declared(_found())

_MOST = 2**64 - 1


def version() -> str:
    """The library's version.

    >>> version().count(".")
    2
    """
    number = _library.nlvol_version()
    return f"{number >> 16}.{number >> 8 & 255}.{number & 255}"


def config(text: bytes) -> Config:
    """Reads a configuration of cleaning, in the language of nilfs_cleanerd.conf(5).

    >>> config(b"protection_period 60\\nmin_clean_segments 5 # of them").protection_period
    60
    >>> config(b"").max_clean_segments
    Amount(number=20, is_percent=True)
    >>> try:
    ...     config(b"protection_period 60\\nprotection 5")
    ... except BadConfig as error:
    ...     error.line
    2
    """
    told, line, text = _Config(), _u64(), _flat(text)
    status = _library.nlvol_config(text, len(text), ctypes.byref(told), ctypes.byref(line))
    if status:
        _raise(status, None, line.value)
    values = [getattr(told, name) for name in Config._fields]
    return Config(*(Amount(it.number, bool(it.is_percent)) if isinstance(it, _Amount) else it for it in values))


# ---- what is told


class Entry(NamedTuple):
    """What stands at a path: a file with its size in bytes, or a directory with the number of its names."""

    is_dir: bool
    size: int


class Checkpoint(NamedTuple):
    """A kept checkpoint. A minor one was made by the volume itself."""

    number: int
    moment: int
    inodes: int
    snapshot: bool
    minor: bool


class Info(NamedTuple):
    """A volume in numbers. `blocks` is how many blocks of 1,024 bytes a segment has."""

    segments: int
    blocks: int
    clean: int
    checkpoints: int
    snapshots: int
    latest: int
    dirty: bool


class Segment(NamedTuple):
    """A segment. Its state is 'clean', 'dirty', 'active' or 'error'; `used` and `needed` are blocks."""

    number: int
    state: str
    stamp: int
    used: int
    needed: int


class Room(NamedTuple):
    """How many blocks of 1,024 bytes a checkpoint writes, and how many it has room for."""

    blocks: int
    free: int


class Amount(NamedTuple):
    """So many segments or blocks, or so many hundredths of them."""

    number: int
    is_percent: bool


class Config(NamedTuple):
    """A configuration of cleaning, under the names of nilfs_cleanerd.conf(5). The period is in seconds."""

    protection_period: int
    min_clean_segments: Amount
    max_clean_segments: Amount
    nsegments_per_clean: int
    mc_nsegments_per_clean: int
    min_reclaimable_blocks: Amount
    mc_min_reclaimable_blocks: Amount


class Attributes(NamedTuple):
    """What a manifest of nlkeep tells of a file, a directory or a symbolic link, which alone has a target. The time is
    that of the last change, in nanoseconds from 1970 on."""

    mode: int
    owner: int
    group: int
    time: int
    target: Name | None = None


_STATES = ("clean", "dirty", "active", "error")

# ---- trees


class Tree:
    """A tree that is read: the current one of a volume, or that of a kept checkpoint."""

    def __init__(self, volume: Volume, at: int):
        self._volume, self._at = volume, at

    def stat(self, path: Name) -> Entry:
        """What stands at a path.

        >>> with new() as v:
        ...     v.write_bytes("/a", b"12345")
        ...     v.stat("/a"), v.stat("/")
        (Entry(is_dir=False, size=5), Entry(is_dir=True, size=1))
        """
        told = _Object()
        self._volume._call("stat", self._at, *_spelled(path), told, path=path)
        return Entry(told.kind == 1, told.size)

    def exists(self, path: Name) -> bool:
        """Whether something stands at a path."""
        try:
            self.stat(path)
        except (FileNotFoundError, NotADirectoryError):
            return False
        return True

    def read(self, path: Name, offset: int = 0, size: int = _MOST) -> bytes:
        """The bytes of a file from an offset on, at most so many."""
        with self._volume._lock:
            entry = self.stat(path)
            room = 0 if entry.is_dir else min(size, max(entry.size - offset, 0))
            into, count = ctypes.create_string_buffer(room + 1), _u64()
            self._volume._call("read", self._at, *_spelled(path), offset, into, room, count, path=path)
            return into.raw[: count.value]

    def read_bytes(self, path: Name) -> bytes:
        """All bytes of a file."""
        return self.read(path)

    def scandir(self, path: Name = "/") -> list[tuple[Name, bool]]:
        """The names of a directory, each with whether it is one, ascending by bytes.

        >>> with new() as v:
        ...     v.mkdir("/d")
        ...     v.write_bytes("/a", b"")
        ...     v.scandir()
        [('a', False), ('d', True)]
        """
        with self._volume._lock:
            count, into, told, names = _u64(), ctypes.create_string_buffer(255), _Object(), []
            self._volume._call("list", self._at, *_spelled(path), count, path=path)
            for index in range(count.value):
                self._volume._call("name", index, into, 255, told)
                name = into.raw[: told.size]
                names.append((name if isinstance(path, bytes) else os.fsdecode(name), told.kind == 1))
            self._volume._release()
            return names

    def listdir(self, path: Name = "/") -> list[Name]:
        """The names of a directory, ascending by bytes."""
        return [name for name, _ in self.scandir(path)]

    def manifest(self, path: Name = "/") -> dict[Name, Attributes]:
        """What the manifest of a directory tells: of itself under '.', and of the files and links in it. Nothing where
        it has none. nlkeep and nlfuse write such manifests.

        >>> with new() as v:
        ...     v.write_bytes("/.nlkeep", b"#mtree\\n. type=dir mode=0755 uid=0 gid=0 time=5.000000000\\n")
        ...     v.manifest()["."]
        Attributes(mode=493, owner=0, group=0, time=5000000000, target=None)
        """
        beside = path.rstrip("/") + "/.nlkeep" if isinstance(path, str) else path.rstrip(b"/") + b"/.nlkeep"
        own, count = _Attributes(), _u64()
        with self._volume._lock:
            try:
                text = self.read_bytes(beside)
                self._volume._call("manifest_read", text, len(text), own, count)
            except (FileNotFoundError, WrongArgument):  # noqa: F821
                return {}
            lines = [self._line(index, isinstance(path, bytes)) for index in range(count.value)]
            self._volume._release()
        return {b"." if isinstance(path, bytes) else ".": _told(own), **dict(lines)}

    def _line(self, index: int, as_bytes: bool) -> tuple[Name, Attributes]:
        name, target, line = ctypes.create_string_buffer(255), ctypes.create_string_buffer(65536), _Line()
        self._volume._call("manifest_line", index, name, 255, target, 65536, line)
        spelled = [name.raw[: line.name_size], target.raw[: line.target_size] or None]
        if not as_bytes:
            spelled = [it and os.fsdecode(it) for it in spelled]
        return spelled[0], _told(line.attributes)._replace(target=spelled[1])

    def walk(self, path: str = "/") -> Iterator[tuple[str, list[str], list[str]]]:
        """Each directory from a path on, with the names of directories and of files in it, as `os.walk`."""
        entries = self.scandir(path)
        folders = [name for name, is_dir in entries if is_dir]
        yield path, folders, [name for name, is_dir in entries if not is_dir]
        for name in folders:
            yield from self.walk(path.rstrip("/") + "/" + name)


def _told(told: _Attributes) -> Attributes:
    seconds = -told.seconds if told.is_negative else told.seconds
    return Attributes(told.mode, told.owner, told.group, seconds * 10**9 + told.nanoseconds)


def _spelled(path: Name) -> tuple[bytes, int]:
    spelled = os.fsencode(path)
    return spelled, len(spelled)


def _flat(data) -> bytes:
    """All bytes of a buffer, whatever its items are. What is no buffer is refused by a TypeError."""
    return data if isinstance(data, bytes) else memoryview(data).tobytes()


def _given(argument, kind):
    """What a call gets of an argument. A number that is out of its range would be cut to it by ctypes."""
    if isinstance(argument, (ctypes.Structure, _u64)):
        return ctypes.byref(argument)
    if isinstance(argument, int) and not 0 <= argument < 1 << 8 * ctypes.sizeof(kind):
        raise OverflowError(f"{argument} is out of range")
    return argument


def _now(moment: int | None) -> int:
    return int(time.time()) if moment is None else moment


# ---- volumes


class Volume(Tree):
    """A volume in memory, and its current tree. As a context it is closed at the end; where it came from a file, it
    is saved there before that, unless an exception comes. Where that save is refused it stays open."""

    def __init__(self) -> None:
        self._at = 0
        self._handle, self._lock = _Handle(), threading.RLock()
        self._path: str | None = None
        self._file = None

    @property
    def _volume(self) -> Volume:
        # It doesn't hold itself, so it ends where the last one who holds it lets it go.
        return self

    def _call(self, name: str, *arguments, path: Name | None = None) -> None:
        given = [_given(it, kind) for it, kind in zip(arguments, _CALLS[name])]
        with self._lock:
            status = getattr(_library, "nlvol_" + name)(ctypes.byref(self._handle), *given)
        if status:
            _raise(status, path)

    def _number(self, name: str, *arguments) -> int:
        number = _u64()
        self._call(name, *arguments, number)
        return number.value

    def _release(self) -> None:
        _library.nlvol_release(ctypes.byref(self._handle))

    # ---- changes of the current tree

    def create(self, path: Name) -> None:
        """Makes an empty file."""
        self._call("create", *_spelled(path), path=path)

    def mkdir(self, path: Name) -> None:
        """Makes an empty directory."""
        self._call("mkdir", *_spelled(path), path=path)

    def unlink(self, path: Name) -> None:
        """Removes a file."""
        self._call("unlink", *_spelled(path), path=path)

    def rmdir(self, path: Name) -> None:
        """Removes an empty directory."""
        self._call("rmdir", *_spelled(path), path=path)

    def rename(self, old: Name, new: Name) -> None:
        """Gives what stands at a path another one, as `os.rename`."""
        self._call("rename", *_spelled(old), *_spelled(new), path=old)

    def truncate(self, path: Name, size: int) -> None:
        """Sets where a file ends. Where that is past its end, zeros stand between."""
        self._call("truncate", *_spelled(path), size, path=path)

    def write(self, path: Name, offset: int, data: bytes) -> None:
        """Writes bytes over those of a file from an offset on, all of them or none. A buffer of other items, such as
        an `array`, is written as its bytes."""
        data = _flat(data)
        self._call("write", *_spelled(path), offset, data, len(data), path=path)

    def write_bytes(self, path: Name, data: bytes) -> None:
        """Makes a file of these bytes, in the place of a file that is there, as `pathlib.Path.write_bytes`. Refused, it
        leaves the file as it was, or none.

        >>> with new() as v:
        ...     v.write_bytes("/a", b"longer")
        ...     v.write_bytes("/a", b"short")
        ...     v.read_bytes("/a")
        b'short'
        """
        data = _flat(data)
        with self._lock:
            is_new = not self.exists(path)
            if is_new:
                self.create(path)
            try:
                self.write(path, 0, data)
            except Refused:
                if is_new:
                    self.unlink(path)
                raise
            self.truncate(path, len(data))

    # ---- checkpoints

    def mkcp(self, snapshot: bool = False, moment: int | None = None) -> int:
        """Makes a checkpoint of the current tree, be something changed or not, and answers its number."""
        return self._number("mkcp", int(bool(snapshot)), _now(moment))

    def sync(self, moment: int | None = None) -> int:
        """Makes a checkpoint where something may have changed since the latest one, and answers the latest one's
        number."""
        return self._number("sync", _now(moment))

    def chcp(self, number: int, snapshot: bool) -> None:
        """Makes a checkpoint a snapshot, or a plain one."""
        self._call("chcp", number, int(bool(snapshot)))

    def rmcp(self, first: int, last: int | None = None) -> tuple[int, int]:
        """Removes a plain checkpoint, or those of a range; then snapshots and the latest one stay. Answers how many
        were removed, and how many stay.

        >>> with new() as v:
        ...     made = [v.mkcp(snapshot=number == 1, moment=number) for number in range(4)]
        ...     v.rmcp(1, 5), [row.number for row in v.checkpoints()]
        ((3, 2), [3, 5])
        """
        if last is None:
            self._call("rmcp", first)
            return 1, 0
        told = _Range()
        self._call("rmcp_range", first, last, told)
        return told.removed, told.stayed

    def expire(self, period: int, moment: int | None = None) -> int:
        """Removes the plain checkpoints that a period before the moment no longer protects. Answers how many."""
        return self._number("expire", _now(moment), period)

    def checkpoints(self, snapshots: bool = False, minor: bool = False) -> Iterator[Checkpoint]:
        """The kept checkpoints, ascending: all, or snapshots alone; with minor ones too.

        >>> with new(moment=0) as v:
        ...     number = v.mkcp(snapshot=True, moment=60)
        ...     [row.number for row in v.checkpoints()], next(v.checkpoints(snapshots=True))
        ([1, 2], Checkpoint(number=2, moment=60, inodes=1, snapshot=True, minor=False))
        """
        flags, rows, count, first = int(bool(snapshots)) + 2 * int(bool(minor)), (_Row * 64)(), _u64(), 0
        while True:
            with self._lock:
                self._call("lscp", flags, first, rows, 64, count)
                found = [
                    Checkpoint(row.number, row.stamp, row.inodes, bool(row.flags & 1), bool(row.flags & 2))
                    for row in rows[: count.value]
                ]
            yield from found
            if len(found) < 64:
                return
            first = found[-1].number + 1

    def at(self, number: int) -> Tree:
        """The tree of a kept checkpoint, be it a snapshot or plain."""
        if number < 1:
            raise ValueError("checkpoints have numbers from 1 on")
        return Tree(self, number)

    # ---- segments

    def info(self) -> Info:
        """The volume in numbers.

        >>> with new(segments=8, blocks=16) as v:
        ...     v.info()
        Info(segments=8, blocks=16, clean=7, checkpoints=1, snapshots=0, latest=1, dirty=False)
        """
        told = _Info()
        self._call("info", told)
        return Info(
            told.segments, told.blocks, told.clean, told.checkpoints, told.snapshots, told.latest, bool(told.dirty)
        )

    def segments(self) -> list[Segment]:
        """All segments, by their numbers from 0 on."""
        with self._lock:
            return [self._segment(number) for number in range(self.info().segments)]

    def _segment(self, number: int) -> Segment:
        told = _Segment()
        self._call("segment", number, told)
        return Segment(number, _STATES[told.state], told.stamp, told.used, told.needed)

    def resize(self, segments: int) -> None:
        """Makes the volume one of so many segments. It never shrinks."""
        self._call("resize", segments)

    def move(self, segment: int, limit: int = 30, moment: int | None = None) -> tuple[int, int]:
        """Moves the first so many needed blocks of a segment elsewhere, and answers how many it moved and how many
        are left. Where there are any, the latest checkpoint is kept once more, as a minor one."""
        told = _Move()
        self._call("move", segment, limit, _now(moment), told)
        return told.moved, told.left

    def retire(self, segment: int) -> None:
        """Leaves a segment clean in which no block is needed."""
        self._call("retire", segment)

    def room(self, exact: bool = True) -> Room:
        """How many blocks the next checkpoint writes, and how many it has room for; where these are fewer, and only
        there, it is refused by `NoSpace`. That takes as long as the checkpoint without its writes. Else it is as many
        as it writes, or more, which takes hardly any time.

        >>> with new(segments=8, blocks=16) as v:
        ...     v.write_bytes("/a", bytes(20000))
        ...     room = v.room()
        ...     room.blocks > 20, room.blocks < room.free, v.room(exact=False).blocks >= room.blocks
        (True, True, True)
        """
        told = _Room()
        self._call("room" if exact else "room_bound", told)
        return Room(told.blocks, told.free)

    # ---- images

    def image(self, moment: int | None = None) -> bytes:
        """The bytes that `load` takes. Before that it is synced.

        >>> with new() as v:
        ...     v.write_bytes("/a", b"1")
        ...     image = v.image()
        >>> with load(image) as v:
        ...     v.read_bytes("/a")
        b'1'
        """
        with self._lock:
            self.sync(moment)
            room = self._number("image")
            into, count = ctypes.create_string_buffer(room), _u64()
            self._call("image_read", 0, into, room, count)
            self._release()
            return into.raw[: count.value]

    def save(self, path: str | None = None, moment: int | None = None) -> None:
        """Puts the image into a file, in the place of what is there: it is written beside it, and then renamed. With
        no path it is the file that the volume came from. Refused, it leaves the file and the volume as they were. What
        saves of that file that were cut off have left beside it is removed, with a warning."""
        with self._lock:
            place = self._path if path is None else os.path.realpath(path)
            if place is None:
                raise ValueError("the volume came from no file: say where to save it")
            is_new = place == self._path and self._file is None
            image = self.image(moment)
            if place == self._path and not is_new:
                _clear_sides(place)
            written = _written(place, image, is_new)
            if place == self._path:
                _close_file(self._file)
                self._file = written
            else:
                written.close()

    def close(self) -> None:
        """Closes the volume, and saves nothing. A closed one stays closed."""
        with self._lock:
            _library.nlvol_close(ctypes.byref(self._handle))
            _close_file(self._file)
            self._file = None

    def __enter__(self) -> Volume:
        return self

    def __exit__(self, kind, value, trace) -> None:
        if kind is None and self._path is not None and self._handle.is_open:
            self.save()
        self.close()

    def __del__(self) -> None:
        if getattr(self, "_handle", None) is None or _library is None:
            return
        if self._handle.is_open and self._path is not None:
            warnings.warn(f"unclosed volume of {self._path!r}", ResourceWarning, source=self)
        _library.nlvol_close(ctypes.byref(self._handle))
        _close_file(self._file)


# ---- files


def _locked(file) -> None:
    """Takes the lock that nlvol and nlkeep take of an image. Refused where another program has it."""
    try:
        fcntl.flock(file, fcntl.LOCK_EX | fcntl.LOCK_NB)
    except BlockingIOError:
        raise BlockingIOError(errno.EWOULDBLOCK, "another program has the image in use", file.name) from None


def _due_length(first: bytes) -> int:
    """How long an image of the counts in its first block is."""
    segments, blocks, kept = (int.from_bytes(first[at:end], "little") for at, end in ((8, 12), (12, 16), (16, 24)))
    tables = 1024 + 16 * segments + 24 * segments * blocks + 160 * kept
    return -(-tables // 1024) * 1024 + 1024 * segments * blocks


def _bytes_in(file) -> bytes:
    """The bytes of an image; of a file that hasn't the length of one its first block, which is refused alike."""
    first = file.read(1024)
    size = os.fstat(file.fileno()).st_size
    return first + file.read(size - 1024) if len(first) == 1024 and _due_length(first) == size else first


def _close_file(file) -> None:
    if file is not None:
        file.close()


_SIDES, _MOST_BYTES = 100, 240


def _sides(path: str) -> Iterator[str]:
    """The names that nlvol, nlkeep and nlfuse give a new image before it takes its place."""
    folder, name = os.path.split(os.fsencode(path))
    cut = name[:_MOST_BYTES]
    while len(cut) < len(name) and cut and name[len(cut)] & 0xC0 == 0x80:
        cut = cut[:-1]
    for number in range(_SIDES):
        yield os.fsdecode(os.path.join(folder, b".%s.nlvol-save-%d" % (cut, number)))


def _leads_to(path: str, descriptor: int) -> bool:
    try:
        return os.path.samestat(os.lstat(path), os.fstat(descriptor))
    except FileNotFoundError:
        return False


def _is_locked(descriptor: int) -> bool:
    """Takes the lock of a file beside an image. Refused where there are none, and False where another has it."""
    try:
        fcntl.flock(descriptor, fcntl.LOCK_EX | fcntl.LOCK_NB)
    except BlockingIOError:
        return False
    return True


def _is_left(descriptor: int) -> bool:
    told = os.fstat(descriptor)
    return stat.S_ISREG(told.st_mode) and told.st_nlink == 1 and told.st_uid == os.geteuid()


def _is_image(descriptor: int) -> bool:
    """Whether the bytes of a file may be an image."""
    try:
        with os.fdopen(os.dup(descriptor), "rb") as file:
            load(_bytes_in(file))
    except Refused as error:
        return error.status != 24
    return True


def _clear_side(side: str) -> None:
    descriptor = os.open(side, os.O_RDWR | os.O_NOFOLLOW | os.O_NONBLOCK | os.O_CLOEXEC)
    try:
        if not _is_locked(descriptor) or not _is_left(descriptor) or not _leads_to(side, descriptor):
            return
        if _is_image(descriptor):
            warnings.warn(f"left, since it is an image: {side}", stacklevel=4)
        else:
            os.unlink(side)
            warnings.warn(f"removed, since a save was cut off: {side}", stacklevel=4)
    finally:
        os.close(descriptor)


def _clear_sides(path: str) -> None:
    """Takes away what saves of an image that were cut off have left, while the image's lock is held."""
    if len(os.path.basename(os.fsencode(path))) > _MOST_BYTES:
        return
    for side in _sides(path):
        try:
            if stat.S_ISREG(os.lstat(side).st_mode):
                _clear_side(side)
        except OSError:
            pass  # it is not there, another program was faster, or there are no locks


def _made_side(path: str) -> tuple[int, str]:
    """A new file beside an image, for its owner alone, and its path. It is locked where there are locks."""
    for side in _sides(path):
        try:
            descriptor = os.open(side, os.O_RDWR | os.O_CREAT | os.O_EXCL | os.O_CLOEXEC, 0o600)
        except FileExistsError:
            continue
        try:
            is_own = _is_locked(descriptor)
        except OSError:
            is_own = True
        if is_own and _leads_to(side, descriptor):
            return descriptor, side
        os.close(descriptor)
    raise FileExistsError(errno.EEXIST, "all names of a new image are taken beside it", path)


def _give_name(aside: str, path: str) -> None:
    """Gives a file a name at which nothing stands."""
    try:
        os.link(aside, path)
    except FileExistsError:
        raise
    except OSError:
        # where there are no hard links
        if os.path.lexists(path):
            raise FileExistsError(errno.EEXIST, os.strerror(errno.EEXIST), path) from None
        os.rename(aside, path)
    else:
        os.unlink(aside)


def _store_folder(path: str) -> None:
    try:
        at = os.open(os.path.dirname(path) or ".", os.O_RDONLY)
    except OSError:
        return
    try:
        os.fsync(at)
    except OSError:
        pass  # some file systems don't store folders by themselves
    finally:
        os.close(at)


def _written(path: str, image: bytes, is_new: bool):
    """The file of an image, locked, which has taken the place of what was at the path; refused where it is to be a new
    one, and something is there. A new one is its owner's alone."""
    descriptor, aside = _made_side(path)
    file = os.fdopen(descriptor, "r+b")
    try:
        file.write(image)
        file.flush()
        if os.path.exists(path):
            os.fchmod(descriptor, os.stat(path).st_mode & 0o7777)
        os.fsync(descriptor)
        if is_new:
            _give_name(aside, path)
        else:
            os.rename(aside, path)
    except BaseException:
        file.close()
        os.unlink(aside)
        raise
    _store_folder(path)
    return file


# ---- the ways to a volume


def new(segments: int = 64, blocks: int = 64, moment: int | None = None) -> Volume:
    """A new volume of no file, with checkpoint 1 of the root alone.

    >>> new(segments=1)
    Traceback (most recent call last):
      ..
    nlvol.BadGeometry: [Errno 22] no volume has this geometry
    """
    volume = Volume()
    volume._call("format", segments, blocks, _now(moment))
    return volume


def load(image: bytes) -> Volume:
    """The volume of an image, of no file.

    >>> load(b"no image").close()
    Traceback (most recent call last):
      ..
    nlvol.BadImage: [Errno 22] the bytes are no image
    """
    volume, image = Volume(), _flat(image)
    volume._call("open", image, len(image))
    return volume


def open(path: str) -> Volume:
    """The volume of the image in a file, which is locked until the volume is closed. `create` makes such a file.

    >>> import tempfile
    >>> path = os.path.join(tempfile.mkdtemp(), "notes.img")
    >>> with create(path) as v:
    ...     v.write_bytes("/a", b"1")
    >>> with open(path) as v:
    ...     v.read_bytes("/a")
    b'1'
    """
    place = os.path.realpath(path)
    file = _open_file(place, "r+b")
    try:
        _locked(file)
        while not os.path.samestat(os.fstat(file.fileno()), os.stat(place)):
            # Another program has just saved it.
            file.close()
            file = _open_file(place, "r+b")
            _locked(file)
        volume = load(_bytes_in(file))
    except BaseException:
        file.close()
        raise
    volume._path, volume._file = place, file
    return volume


def create(path: str, segments: int = 64, blocks: int = 64, moment: int | None = None) -> Volume:
    """A new volume that is saved into a new file. Refused where the file is there."""
    place = os.path.realpath(path)
    if os.path.lexists(place):
        raise FileExistsError(errno.EEXIST, os.strerror(errno.EEXIST), path)
    volume = new(segments, blocks, moment)
    volume._path = place
    return volume


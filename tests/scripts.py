"""Scripts on the model of volumes: what their lines print, the status that they end with, and the volume that
they leave.

It takes every line, and of the refusals of file calls only that of a name that isn't there. For developers.
"""

from cleaning import Configuration, Round
from lines import Usage, command_of
from volume import ACTIVE, DIRECTORY, FILE, ROOT, Refused

# The numbers of refusals.
REFUSALS = {
    "NotFound": 1,
    "NoCheckpoint": 10,
    "IsSnapshot": 11,
    "NotSnapshot": 12,
    "Mounted": 13,
    "Latest": 14,
    "BadRange": 15,
    "NoSpace": 16,
    "BadMount": 19,
    "NumbersSpent": 25,
    "BadGeometry": 26,
}


def line_of(columns, values):
    """Values in their columns, numbers at the right end, and no blanks behind the last one."""
    return " ".join(
        f"{value:>{width}}" if width > 0 else f"{value:<{-width}}"
        for width, value in zip(columns, values)
    )


def segment_lines(volume, with_clean, with_needed):
    columns = (8, 12, -4, 8, 8) if with_needed else (8, 12, -4, 8)
    lines = [line_of(columns, ("SEGNUM", "MOMENT", "STAT", "NBLOCKS", "NEEDED"))]
    for number, segment in enumerate(volume.segments):
        if segment.flags or with_clean:
            state = "ad-" if segment.flags & ACTIVE else "-d-" if segment.flags else "---"
            needed = len(volume.needed_numbers(number))
            lines.append(line_of(columns, (number, segment.stamp, state, segment.used, needed)))
    return lines


def selected(kept, options):
    """The checkpoints that a listing shows, in its order. A snapshot is shown whatever made it."""
    first = options.get("i")
    found = []
    for c in reversed(kept) if "r" in options else kept:
        is_behind = first is None or (c.number <= first if "r" in options else c.number >= first)
        is_hidden = "s" in options or (c.is_minor and "a" not in options)
        if is_behind and (c.is_snapshot or not is_hidden):
            found.append(c)
    return found[: options.get("n")]


def checkpoint_lines(kept):
    columns = (8, 12, -4, -3, 8)
    lines = [line_of(columns, ("CNO", "MOMENT", "MODE", "FLG", "ICNT"))]
    for c in kept:
        mode, flag = "ss" if c.is_snapshot else "cp", "i" if c.is_minor else "-"
        lines.append(line_of(columns, (c.number, c.stamp, mode, flag, c.inodes)))
    return lines


class Session:
    """A script's run on a volume: what it printed so far, the moment, the mounts, and whether something is
    dirty."""

    def __init__(self, volume, configuration=Configuration()):
        self.volume = volume
        self.configuration = configuration
        self.line = 0
        self.printed = []
        self.moment = 0
        self.mounts = {}
        self.given = 0
        self.is_dirty = False
        # 2 behind a line that is usage, else 1 behind a refusal.
        self.status = 0

    def run(self, script):
        """Runs a script, and gives what it prints."""
        for self.line, line in enumerate(script.split(b"\n"), 1):
            try:
                if command := command_of(line):
                    name, options, operands = command
                    self.printed += getattr(self, "do_" + name)(options, *operands) or []
            except Usage:
                self.printed.append(f"{self.line}: usage")
                self.status = 2
            except Refused as refusal:
                self.printed.append(self.refused(refusal))
        return "".join(line + "\n" for line in self.printed)

    def told(self, refusal):
        """The number and the name of a refusal, which counts for the status."""
        name = str(refusal)
        self.status = max(self.status, 1)
        return f"error {REFUSALS[name]} {name}"

    def refused(self, refusal, checkpoint=""):
        """What tells of a refusal of the line, or of one of its checkpoints."""
        return f"{self.line}: {checkpoint}{self.told(refusal)}"

    def end(self):
        """The image that --save writes in the end."""
        if self.is_dirty:
            self.volume.checkpoint(self.moment)
        return self.volume.image()

    def refused_end(self):
        """What is told where the end is refused."""
        try:
            self.end()
        except Refused as refusal:
            return self.told(refusal)
        raise AssertionError("the end isn't refused")

    def changes(self):
        self.is_dirty = True

    def inodes(self, options):
        """The inodes of the current tree, or of a mount."""
        if "m" not in options:
            return self.volume.inodes
        return self.mounted(options["m"]).files

    def mounted(self, mount):
        """The checkpoint that a mount shows."""
        if mount not in self.mounts:
            raise Refused("BadMount")
        return self.mounts[mount]

    def inode_at(self, options, path):
        """The inode that a path names."""
        inodes = self.inodes(options)
        inode = inodes[ROOT]
        for part in path.encode().split(b"/")[1:]:
            if part:
                if part not in inode.names:
                    raise Refused("NotFound")
                inode = inodes[inode.names[part][0]]
        return inode

    # -- file calls

    def do_create(self, _, path):
        self.volume.create(path)
        self.changes()

    def do_mkdir(self, _, path):
        self.volume.mkdir(path)
        self.changes()

    def do_rm(self, _, path):
        self.volume.drop(path)
        self.changes()

    do_rmdir = do_rm

    def do_mv(self, _, old, new):
        if old != new:
            self.volume.rename(old, new)
            self.changes()

    def write(self, path, offset, data):
        self.volume.write(path, offset, data)
        if data:
            self.changes()

    def do_write(self, _, path, offset, text):
        self.write(path, offset, text.encode())

    def do_fill(self, _, path, offset, byte, count):
        self.write(path, offset, bytes([byte]) * count)

    def do_truncate(self, options, path, size):
        self.inode_at(options, path).truncate(size)
        self.changes()

    def do_cat(self, options, path):
        return [self.inode_at(options, path).read().decode("latin-1")]

    def do_catm(self, _, mount, *paths):
        self.mounted(mount)
        return [line for path in paths for line in self.read_of({"m": mount}, path)]

    def read_of(self, options, path):
        """A file's bytes, or the refusal that stands in its place."""
        try:
            return self.do_cat(options, path)
        except Refused as refusal:
            return [self.refused(refusal)]

    def do_stat(self, options, path):
        inode = self.inode_at(options, path)
        return [f"file {inode.size}" if inode.kind == FILE else f"dir {len(inode.names)}"]

    def do_ls(self, options, path):
        names = self.inode_at(options, path).names
        return [name.decode() + "/" * (names[name][1] == DIRECTORY) for name in sorted(names)]

    # -- checkpoints, mounts and rounds

    def do_at(self, _, moment):
        self.moment = moment

    def do_mkcp(self, options):
        number = self.volume.checkpoint(self.moment, "s" in options)
        self.is_dirty = False
        return [str(number)]

    def do_chcp(self, _, is_snapshot, *numbers):
        return [line for number in numbers for line in self.set_mode(number, is_snapshot)]

    def set_mode(self, number, is_snapshot):
        try:
            checkpoint = self.volume.kept_at(number)
            if checkpoint in self.mounts.values() and not is_snapshot:
                raise Refused("Mounted")
            checkpoint.is_snapshot = is_snapshot
        except Refused as refusal:
            return [self.refused(refusal, f"{number}: ")]
        return []

    def do_lscp(self, options):
        return checkpoint_lines(selected(self.volume.kept, options))

    def do_rmcp(self, options, *ranges):
        latest = self.volume.kept[-1].number
        hidden = ("NoCheckpoint", "IsSnapshot") if "f" in options else ()
        stay = [reason for asked in ranges for reason in self.remove(asked, latest)]
        return [self.refused(why, checkpoint) for checkpoint, why in stay if why not in hidden]

    def remove(self, asked, latest):
        """What stays of a checkpoint, or of a range, each with the reason."""
        is_range = isinstance(asked, tuple)
        try:
            if is_range:
                first, last = asked
                stay = self.volume.remove_range(first, latest if last is None else last)
                return [(f"{number}: ", why) for number, why in stay]
            self.volume.remove(asked)
        except Refused as refusal:
            return [("" if is_range else f"{asked}: ", str(refusal))]
        return []

    def do_clean(self, _):
        done = Round(self.volume, self.moment, self.configuration)
        told = [f"expired {done.expired} moved {done.moved} freed {done.freed}"]
        return told + [self.refused(done.refusal)] if done.refusal else told

    def do_lssu(self, options):
        return segment_lines(self.volume, "a" in options, "l" in options)

    def do_resize(self, _, segments):
        self.volume.resize(segments)

    def do_mount(self, _, number):
        checkpoint = self.volume.kept_at(number)
        if not checkpoint.is_snapshot:
            raise Refused("NotSnapshot")
        self.given += 1
        self.mounts[self.given] = checkpoint
        return [str(self.given)]

    def do_umount(self, _, mount):
        self.mounted(mount)
        del self.mounts[mount]

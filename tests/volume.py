"""A model of volumes by the rules of docs/SPECIFICATION.md, without the program: which blocks a checkpoint
writes, under which numbers and where, and how an image spells them. For developers: tests/images.py makes
images and expected output with it."""

import struct

BLOCK = 1024
# An end that hasn't come.
NO_END = 2**64 - 1

# The marks of images: the first, of versions without minor checkpoints, and the present one.
FIRST_MARK, SECOND_MARK = b"NLVOL001", b"NLVOL002"

# The kinds of inodes, and those with fixed numbers.
FILE, DIRECTORY, FILE_OF_INODES = 1, 2, 3
ROOT, INODES = 2, 6

# The kinds of roots.
EMPTY, CHAIN, TREE = 0, 1, 2

# A log has at most 30 payload blocks, a node 128 slots, and a node of a chain that of the next node behind
# 127 for data.
LOG = 30
SLOTS = 128
CHAIN_SLOTS = 127

# Flags of a segment.
ACTIVE, DIRTY = 1, 2

# As many segments as a volume can have, and as many blocks.
MOST_SEGMENTS, MOST_BLOCKS = 4096, 262144


# ---- the spelling of blocks and entries


def padded(data, size):
    assert len(data) <= size
    return bytes(data) + bytes(size - len(data))


def whole_blocks(data):
    return padded(data, -(-len(data) // BLOCK) * BLOCK)


def inode_record(kind, size, root):
    """An inode with a root: the root's kind, its height and its number."""
    root_kind, height, number = root
    return padded(struct.pack("<BBB5xQQ", kind, root_kind, height, size, number), 128)


def node_block(numbers):
    return struct.pack("<128Q", *numbers)


def directory_blocks(names):
    """The records of a directory, ascending by name, as many in each block as fit."""
    blocks = []
    for name in sorted(names):
        inode, kind = names[name]
        record = struct.pack("<IBB", inode, kind, len(name)) + name
        if not blocks or len(blocks[-1]) + len(record) > BLOCK:
            blocks.append(b"")
        blocks[-1] += record
    return {i: padded(block, BLOCK) for i, block in enumerate(blocks)}


def summary_block(births, checkpoint, moment):
    header = padded(struct.pack("<4sHxxQQ", b"NLSG", len(births), moment, checkpoint), 64)
    records = b"".join(struct.pack("<QQQB7x", b.number, b.inode, b.offset, b.level) for b in births)
    return padded(header + records, BLOCK)


# ---- the blocks of a file


class Birth:
    """A block that a checkpoint writes: its number, its place and its bytes."""

    def __init__(self, number, inode, offset, level, data):
        self.number, self.inode, self.offset, self.level, self.data = number, inode, offset, level, data


class Blocks:
    """What an inode has at a checkpoint: number and bytes of each block by its index, and the numbers of the
    nodes by level and position."""

    def __init__(self, kind, data):
        self.kind = kind if data else EMPTY
        self.data = data
        self.nodes = {}

    def places(self):
        """Levels and positions of the nodes above the data: in a chain all up to the last one that names
        data, in a tree those with data below, up to the least level that has one node alone, the first."""
        if self.kind == EMPTY:
            return []
        last = max(self.data)
        if self.kind == CHAIN:
            return [(1, p) for p in range(last // CHAIN_SLOTS + 1)]
        level, positions, places = 0, set(self.data), []
        while level == 0 or max(positions) > 0:
            level += 1
            positions = {p // SLOTS for p in positions}
            places += [(level, p) for p in sorted(positions)]
        return places

    def node(self, level, position):
        """The bytes of the node at a place."""
        if self.kind == CHAIN:
            first = CHAIN_SLOTS * position
            numbers = [self.data[i][0] if i in self.data else 0 for i in range(first, first + CHAIN_SLOTS)]
            return node_block(numbers + [self.nodes.get((1, position + 1), 0)])
        below = range(SLOTS * position, SLOTS * position + SLOTS)
        if level == 1:
            return node_block([self.data[i][0] if i in self.data else 0 for i in below])
        return node_block([self.nodes.get((level - 1, p), 0) for p in below])

    def root(self):
        """Kind, height and number of the root."""
        if self.kind == EMPTY:
            return (EMPTY, 0, 0)
        height = max(level for level, _ in self.nodes)
        return (self.kind, 0 if self.kind == CHAIN else height, self.nodes[(height, 0)])


NOTHING = Blocks(EMPTY, {})


# ---- volumes


class Inode:
    """An inode of the current tree: the blocks of a file, or the names in a directory."""

    def __init__(self, kind):
        self.kind = kind
        self.size = 0
        self.blocks = {}
        self.names = {}

    def pages(self):
        return dict(self.blocks) if self.kind == FILE else directory_blocks(self.names)

    def write(self, offset, data):
        end = offset + len(data)
        for i in range(offset // BLOCK, -(-end // BLOCK) if data else 0):
            first, last = max(offset - BLOCK * i, 0), min(end - BLOCK * i, BLOCK)
            page = self.blocks.get(i, bytes(BLOCK))
            start = BLOCK * i + first - offset
            self.blocks[i] = page[:first] + data[start : start + last - first] + page[last:]
        if data:
            self.size = max(self.size, end)

    def truncate(self, size):
        self.blocks = {i: page for i, page in self.blocks.items() if BLOCK * i < size}
        last = size // BLOCK
        if last in self.blocks:
            self.blocks[last] = padded(self.blocks[last][: size % BLOCK], BLOCK)
        self.size = size

    def read(self):
        whole = b"".join(self.blocks.get(i, bytes(BLOCK)) for i in range(-(-self.size // BLOCK)))
        return whole[: self.size]


class Segment:
    def __init__(self):
        # Used blocks with the summaries, and without.
        self.stamp, self.used, self.payload, self.flags = 0, 0, 0, 0


class Checkpoint:
    def __init__(self, number, stamp, is_snapshot, inodes, record, files):
        self.number, self.stamp, self.is_snapshot = number, stamp, is_snapshot
        self.inodes, self.record = inodes, record
        # Whether the volume made it by itself, as it moved blocks.
        self.is_minor = False
        # The names and the bytes, as a mount shows them.
        self.files = files

    def flags(self):
        return self.is_snapshot + 2 * self.is_minor

    def minor(self, moment):
        """The same tree once more, as the volume keeps it by itself under the next number."""
        stamp = max(moment, self.stamp)
        made = Checkpoint(self.number + 1, stamp, False, self.inodes, self.record, self.files)
        made.is_minor = True
        return made


class Refused(Exception):
    """A call is refused, by a name of the table of refusals."""


class Volume:
    """A volume just formatted, and what calls make of it. What older versions wrote has chains."""

    def __init__(self, segments, blocks, kind=TREE):
        self.kind = kind
        self.segment_blocks = blocks
        self.segments = [Segment() for _ in range(segments)]
        self.device = {}
        # Block, start and end of each number in use, and the page that it stands for.
        self.numbers = {}
        self.pages = {}
        self.kept = []
        self.inodes = {ROOT: Inode(DIRECTORY)}
        # The blocks of each inode at the latest checkpoint.
        self.latest = {}
        self.checkpoint(0)

    # -- file calls

    def parent_of(self, path):
        """The directory above a path, and the path's last name."""
        *way, name = path.encode().split(b"/")[1:]
        inode = self.inodes[ROOT]
        for part in way:
            inode = self.inodes[inode.names[part][0]]
        return inode, name

    def file_at(self, path):
        parent, name = self.parent_of(path)
        if name not in parent.names:
            raise Refused("NotFound")
        return self.inodes[parent.names[name][0]]

    def add(self, path, kind):
        parent, name = self.parent_of(path)
        assert name not in parent.names
        number = 11
        while number in self.inodes:
            number += 1
        self.inodes[number] = Inode(kind)
        parent.names[name] = (number, kind)

    def create(self, path):
        self.add(path, FILE)

    def mkdir(self, path):
        self.add(path, DIRECTORY)

    def drop(self, path):
        """Takes out a file, or a directory without names."""
        self.file_at(path)
        parent, name = self.parent_of(path)
        number, _ = parent.names.pop(name)
        assert not self.inodes[number].names
        del self.inodes[number]

    def rename(self, old, new):
        """Moves what is at a path to another one, where nothing or a file is."""
        source, old_name = self.parent_of(old)
        target, new_name = self.parent_of(new)
        if new_name in target.names:
            del self.inodes[target.names[new_name][0]]
        target.names[new_name] = source.names.pop(old_name)

    def write(self, path, offset, data):
        self.file_at(path).write(offset, data)

    # -- checkpoints

    def kept_at(self, number):
        """The kept checkpoint of a number."""
        for c in self.kept:
            if c.number == number:
                return c
        raise Refused("NoCheckpoint")

    def why_it_stays(self, c):
        """The refusal that a removal of a kept checkpoint meets, if it meets one."""
        return "IsSnapshot" if c.is_snapshot else "Latest" if c is self.kept[-1] else None

    def remove(self, number):
        why = self.why_it_stays(self.kept_at(number))
        if why:
            raise Refused(why)
        self.kept = [c for c in self.kept if c.number != number]

    def remove_range(self, first, last):
        """Removes what a range lets go, and gives the numbers that stay, each with the reason."""
        if first == 0 or last < first:
            raise Refused("BadRange")
        inside = [c for c in self.kept if first <= c.number <= last]
        if not inside:
            raise Refused("NoCheckpoint")
        stay = [(c.number, self.why_it_stays(c)) for c in inside if self.why_it_stays(c)]
        self.kept = [c for c in self.kept if c not in inside or self.why_it_stays(c)]
        return stay

    def next_number(self):
        number = self.kept[-1].number + 1
        if number == NO_END:
            raise Refused("NumbersSpent")
        return number

    def checkpoint(self, moment, is_snapshot=False):
        """Writes what differs from the latest checkpoint: inodes ascending, the file of inodes last."""
        number, stamp = 1, moment
        if self.kept:
            number, stamp = self.next_number(), max(moment, self.kept[-1].stamp)
        births, ended, blocks = [], [], {}
        free = self.free_numbers()
        for inode in sorted(set(self.inodes) | set(self.latest) - {INODES}):
            pages = self.inodes[inode].pages() if inode in self.inodes else {}
            blocks[inode] = self.change(inode, pages, free, births, ended)
        blocks[INODES] = self.change(INODES, self.pages_of_inodes(blocks), free, births, ended)
        if not self.fits(len(births)):
            raise Refused("NoSpace")
        self.append(births, number, stamp)
        for old in ended:
            self.numbers[old][2] = number
        self.latest = {inode: had for inode, had in blocks.items() if inode == INODES or inode in self.inodes}
        had = blocks[INODES]
        record = inode_record(FILE_OF_INODES, BLOCK * (max(had.data) + 1), had.root())
        self.kept.append(Checkpoint(number, stamp, is_snapshot, len(self.inodes), record, self.files()))
        return number

    def files(self):
        """A copy of the tree: each directory's names, and each file's blocks and size."""
        copy = {}
        for number, inode in self.inodes.items():
            copy[number] = Inode(inode.kind)
            copied = copy[number]
            copied.size, copied.blocks, copied.names = inode.size, dict(inode.blocks), dict(inode.names)
        return copy

    def pages_of_inodes(self, blocks):
        """The blocks of the file of inodes: eight records in each, and none where no inode is in use."""
        pages = {}
        for number, inode in self.inodes.items():
            had = blocks[number]
            size = inode.size if inode.kind == FILE else BLOCK * len(had.data)
            page = pages.setdefault(number // 8, bytearray(BLOCK))
            page[number % 8 * 128 : number % 8 * 128 + 128] = inode_record(inode.kind, size, had.root())
        return {i: bytes(page) for i, page in pages.items()}

    def change(self, inode, pages, free, births, ended):
        """What an inode with these pages has. What is new is a birth: the data by index, then the nodes by
        level and position."""
        old = self.latest.get(inode, NOTHING)
        differ = [
            i
            for i in sorted(set(pages) | set(old.data))
            if i not in pages or old.data.get(i, (0, b""))[1] != pages[i]
        ]
        if not differ:
            return old
        ended += [old.data[i][0] for i in differ if i in old.data]
        data = {i: old.data[i] for i in pages if i in old.data}
        for i in differ:
            if i in pages:
                births.append(Birth(next(free), inode, i, 0, pages[i]))
                data[i] = (births[-1].number, pages[i])
        new = Blocks(self.kind, data)
        above = {(level, i // SLOTS**level) for i in differ for level in (1, 2, 3)}
        is_kept = new.kind == TREE and old.kind == TREE
        written = []
        for place in new.places():
            if is_kept and place in old.nodes and place not in above:
                new.nodes[place] = old.nodes[place]
                continue
            level, position = place
            written.append(Birth(next(free), inode, position, level, b""))
            new.nodes[place] = written[-1].number
        for birth in written:
            birth.data = new.node(birth.level, birth.offset)
        births += written
        ended += [number for place, number in old.nodes.items() if new.nodes.get(place) != number]
        return new

    def free_numbers(self):
        """The numbers that aren't in use, ascending."""
        number = 1
        while True:
            if number not in self.numbers:
                yield number
            number += 1

    # -- logs

    def active(self):
        return next((s for s in self.segments if s.flags & ACTIVE), None)

    def fits(self, count, reserve=2):
        """Whether there is room for so much payload, where so many clean segments are left, as a checkpoint
        leaves two."""
        active = self.active()
        left = self.segment_blocks - active.used if active else 0
        clean = sum(s.flags == 0 for s in self.segments)
        while count:
            if left < 2:
                if clean <= reserve:
                    return False
                left, clean = self.segment_blocks, clean - 1
            taken = min(count, LOG, left - 1)
            left, count = left - taken - 1, count - taken
        return True

    def append(self, births, checkpoint, moment):
        """Places logs: in the active segment as long as a summary and a block fit, else in the lowest clean
        one. A number that is in use already keeps its period."""
        first = 0
        while first < len(births):
            active = self.active()
            if active is None or self.segment_blocks - active.used < 2:
                active = self.take(active)
            log = births[first : first + min(LOG, self.segment_blocks - active.used - 1)]
            first += len(log)
            block = self.segments.index(active) * self.segment_blocks + active.used
            self.device[block] = summary_block(log, checkpoint, moment)
            for birth in log:
                block += 1
                self.device[block] = birth.data
                self.numbers.setdefault(birth.number, [block, checkpoint, NO_END])[0] = block
                self.pages[birth.number] = birth
            active.used += 1 + len(log)
            active.payload += len(log)
            active.stamp = moment

    def take(self, active):
        """The lowest clean segment becomes the active one."""
        clean = [s for s in self.segments if s.flags == 0]
        if active is not None:
            active.flags = DIRTY
        clean[0].flags = ACTIVE | DIRTY
        return clean[0]

    # -- what is needed, and what cleans a segment

    def needed_numbers(self, segment, kept=None):
        """The numbers whose pages stand in a segment and that haven't ended, or belong to one of the kept
        checkpoints, by block."""
        kept = self.kept if kept is None else kept
        found = []
        for number, (block, start, end) in self.numbers.items():
            is_needed = end == NO_END or any(start <= c.number < end for c in kept)
            if is_needed and block // self.segment_blocks == segment:
                found.append((block, number))
        return [number for _, number in sorted(found)]

    def move(self, numbers, moment):
        """Writes the pages of numbers elsewhere, into any clean segment, and keeps the latest checkpoint's
        tree once more. No number starts or ends there."""
        checkpoint = self.next_number()
        if not self.fits(len(numbers), reserve=0):
            raise Refused("NoSpace")
        self.append([self.pages[number] for number in numbers], checkpoint, moment)
        self.kept.append(self.kept[-1].minor(moment))

    def retire(self, segment):
        """Takes the numbers of a segment out of use, and makes it clean."""
        assert not self.needed_numbers(segment)
        first = segment * self.segment_blocks
        blocks = range(first, first + self.segment_blocks)
        for number in [n for n, (block, _, _) in self.numbers.items() if block in blocks]:
            del self.numbers[number], self.pages[number]
        self.device = {block: data for block, data in self.device.items() if block not in blocks}
        self.segments[segment] = Segment()

    def resize(self, segments):
        """Adds clean segments behind the others."""
        if segments < len(self.segments):
            raise Refused("BadRange")
        if segments > MOST_SEGMENTS or segments * self.segment_blocks > MOST_BLOCKS:
            raise Refused("BadGeometry")
        self.segments += [Segment() for _ in range(segments - len(self.segments))]

    # -- the image

    def image(self, mark=SECOND_MARK):
        blocks = len(self.segments) * self.segment_blocks
        superblock = struct.pack("<8sIIQ", mark, len(self.segments), self.segment_blocks, len(self.kept))
        meta = b"".join(struct.pack("<QII", s.stamp, s.used, s.flags) for s in self.segments)
        meta += b"".join(struct.pack("<QQQ", *self.numbers.get(n, (0, 0, 0))) for n in range(1, blocks + 1))
        for c in self.kept:
            meta += struct.pack("<QQI4xQ", c.number, c.stamp, c.flags(), c.inodes) + c.record
        device = b"".join(self.device.get(b, bytes(BLOCK)) for b in range(blocks))
        return padded(superblock, BLOCK) + whole_blocks(meta) + device


class Places:
    """Where the parts of a volume's image lie."""

    def __init__(self, volume):
        self.volume = volume
        self.segment = BLOCK
        self.number = self.segment + 16 * len(volume.segments)
        self.checkpoint = self.number + 24 * len(volume.segments) * volume.segment_blocks
        self.padding = self.checkpoint + 160 * len(volume.kept)
        self.block = -(-self.padding // BLOCK) * BLOCK

    def entry_of_segment(self, segment):
        return self.segment + 16 * segment

    def entry_of_number(self, number):
        return self.number + 24 * (number - 1)

    def entry_of_checkpoint(self, k):
        return self.checkpoint + 160 * k

    def start_of_block(self, block):
        return self.block + BLOCK * block

    def page_of(self, number):
        return self.start_of_block(self.volume.numbers[number][0])

    def inode_of(self, inode):
        """Where the inode of the latest checkpoint stands."""
        return self.page_of(self.volume.latest[INODES].data[inode // 8][0]) + 128 * (inode % 8)

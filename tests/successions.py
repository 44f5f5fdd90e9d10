"""Images of 50 checkpoints, made by tests/volume.py, of which the last one has a fault, or none: each differs
from the one before in a few blocks. A fault is what opening could miss where it passes over what the one before
had at the same place."""

import struct

from volume import CHAIN, DIRECTORY, FILE, INODES, NO_END, ROOT, TREE, Places, Volume

CHECKPOINTS = 50

# Where the fields of an inode, of the entry of a number, and of that of a checkpoint begin.
INODE_ROOT_KIND, INODE_HEIGHT, INODE_SIZE = 1, 2, 8
NUMBER_START, NUMBER_END = 8, 16
CHECKPOINT_INODES, CHECKPOINT_RECORD = 24, 32


class Succession:
    """A volume whose file /a had another first block at each checkpoint, and its image, which may be changed."""

    # The numbers of the inodes, as they were made.
    INODE = {"/a": 11, "/b": 12, "/d": 13, "/d/c": 14, "/long": 15, "/e": 16, "/d/g": 17}

    def __init__(self, last=("/b", 0), removed=(), each=None, end=None):
        """The last checkpoint has another block of this file, or nothing else; some checkpoints are removed. A
        call changes the volume before each of the checkpoints with another block of /a, and one before the last
        one."""
        volume = Volume(16, 64, CHAIN)
        volume.create("/a")
        volume.create("/b")
        volume.mkdir("/d")
        volume.create("/d/c")
        volume.create("/long")
        volume.write("/d/c", 0, b"in a chain")
        volume.write("/long", 0, b"in a chain of two nodes")
        volume.write("/long", 1024 * 150, b"under the second one")
        volume.checkpoint(0)
        volume.kind = TREE
        volume.write("/a", 0, b"first" + bytes(1019) + b"second")
        volume.write("/b", 0, b"of b")
        volume.create("/e")
        volume.create("/d/g")
        while volume.kept[-1].number < CHECKPOINTS - 1:
            volume.write("/a", 0, b"%05d" % volume.kept[-1].number)
            if each:
                each(volume)
            volume.checkpoint(0)
        if last:
            path, block = last
            volume.write(path, 1024 * block, b"last")
        if end:
            end(volume)
        volume.checkpoint(0)
        for number in removed:
            volume.remove(number)
        self.volume, self.places = volume, Places(volume)
        self.image = bytearray(volume.image())

    # -- places

    def inode(self, path):
        return self.places.inode_of(self.INODE[path])

    def slot(self, inode, k):
        """Slot K of the node that an inode of the last checkpoint has."""
        return self.places.page_of(self.volume.latest[inode].nodes[(1, 0)]) + 8 * k

    def number(self, path, block):
        """The number of a block of a file."""
        return self.volume.latest[self.INODE[path]].data[block][0]

    def period(self, number, field):
        return self.places.entry_of_number(number) + field

    def entry(self, k, field):
        return self.places.entry_of_checkpoint(k) + field

    # -- changes

    def put(self, place, number, count=8):
        self.image[place : place + count] = number.to_bytes(count, "little")
        return self

    def got(self, place, count=8):
        return int.from_bytes(self.image[place : place + count], "little")

    def more(self, place, count=8):
        return self.put(place, self.got(place, count) + 1, count)


def sound():
    return Succession()


def equal_trees():
    """The last two have one tree."""
    return Succession(last=None)


# ---- shape


def shared():
    """/b names a number that /a has, under a node that is the one before's."""
    it = Succession()
    return it.put(it.slot(it.INODE["/b"], 0), it.number("/a", 1))


def shared_node():
    """/d/c has the node of /a, which is the one before's."""
    it = Succession()
    root = struct.pack("<BBB5xQQ", FILE, TREE, 1, 1030, it.volume.latest[it.INODE["/a"]].nodes[(1, 0)])
    it.image[it.inode("/d/c") : it.inode("/d/c") + len(root)] = root
    return it


def exchanged():
    """The two first numbers of /a change places: a number that moves is met once as before."""
    it = Succession(last=("/a", 2))
    one, other = it.slot(it.INODE["/a"], 0), it.slot(it.INODE["/a"], 1)
    first, second = it.got(one), it.got(other)
    return it.put(one, second).put(other, first)


def twice_in_a_file():
    """/a has a number of the one before at its place, and at another one too."""
    it = Succession(last=("/a", 2))
    return it.put(it.slot(it.INODE["/a"], 3), it.number("/a", 1))


def chain_as_tree():
    """The node of /d/c, with a number of data alone, becomes that of a tree: all stands where it stood."""
    it = Succession()
    return it.put(it.inode("/d/c") + INODE_ROOT_KIND, TREE, 1).put(it.inode("/d/c") + INODE_HEIGHT, 1, 1)


def long_chain_as_tree():
    """The first node of /long becomes that of a tree: its last slot has data then, and what the second node
    names is met no more."""
    it = Succession()
    return it.put(it.inode("/long") + INODE_ROOT_KIND, TREE, 1).put(it.inode("/long") + INODE_HEIGHT, 1, 1)


# ---- trees


def file_as_directory():
    """/a becomes a directory, with the root that it had."""
    it = Succession()
    return it.put(it.inode("/a"), DIRECTORY, 1)


def moved_inodes():
    """A block of the file of inodes stands at another index."""
    it = Succession()
    number = it.got(it.slot(INODES, 1))
    it.put(it.slot(INODES, 1), 0).put(it.slot(INODES, 3), number)
    return it.put(it.entry(CHECKPOINTS - 1, CHECKPOINT_RECORD + INODE_SIZE), 4 * 1024)


def shorter():
    """/a ends before its last bytes, with the root that it had."""
    it = Succession()
    return it.put(it.inode("/a") + INODE_SIZE, 1024 + 3)


def told_wrongly():
    """The last two have one tree, of which the last one tells an inode more."""
    it = Succession(last=None)
    return it.more(it.entry(CHECKPOINTS - 1, CHECKPOINT_INODES))


def unnamed():
    """An inode more, which no record names."""
    it = Succession(last=("/e", 0))
    it.put(it.inode("/d/g") + 128, FILE, 1)
    return it.more(it.entry(CHECKPOINTS - 1, CHECKPOINT_INODES))


# ---- trees, where inodes come and go


def come_and_go():
    """Each checkpoint has a file that the one before has not, and not the one that that has. In between so many
    come that the file of inodes has a block more, and go again."""
    more = [f"/d/{k}" for k in range(8)]

    def each(volume):
        number = volume.kept[-1].number
        volume.create(f"/come{number}")
        if f"come{number - 1}".encode() in volume.inodes[ROOT].names:
            volume.drop(f"/come{number - 1}")
        if number == 20:
            for path in more:
                volume.create(path)
        if number == 30:
            for path in more:
                volume.drop(path)

    return Succession(each=each)


def another_kind():
    """The number of a file that goes becomes that of a directory, with a file in it."""

    def end(volume):
        volume.drop("/b")
        volume.mkdir("/f")
        volume.create("/f/f")

    return Succession(last=None, end=end)


def moved_directory():
    """A directory moves into another one, which comes."""

    def end(volume):
        volume.mkdir("/f")
        volume.rename("/d", "/f/d")

    return Succession(last=None, end=end)


def comes_unnamed():
    """Two files come, and one of them has no name."""

    def end(volume):
        volume.create("/new")
        volume.create("/unnamed")
        del volume.inodes[ROOT].names[b"unnamed"]

    return Succession(end=end)


def comes_counted_wrongly():
    """A file comes, and one more is told."""
    it = Succession(end=lambda volume: volume.create("/new"))
    return it.more(it.entry(CHECKPOINTS - 1, CHECKPOINT_INODES))


def names_what_went():
    """A file goes whose name stays, beside one that comes."""

    def end(volume):
        volume.create("/new")
        del volume.inodes[Succession.INODE["/b"]]

    return Succession(last=None, end=end)


def full_directory_goes():
    """A directory goes though it has files, which stay."""

    def end(volume):
        del volume.inodes[ROOT].names[b"d"]
        del volume.inodes[Succession.INODE["/d"]]

    return Succession(end=end)


def cycle():
    """Two directories come that name each other, and nothing else names them."""

    def end(volume):
        volume.mkdir("/f")
        volume.mkdir("/h")
        names = volume.inodes[ROOT].names
        one, other = names.pop(b"f"), names.pop(b"h")
        volume.inodes[one[0]].names[b"h"] = other
        volume.inodes[other[0]].names[b"f"] = one

    return Succession(end=end)


def cycle_of_moved():
    """A directory moves into itself."""

    def end(volume):
        volume.mkdir("/d/f")
        inside, _ = volume.inodes[Succession.INODE["/d"]].names[b"f"]
        volume.inodes[inside].names[b"d"] = volume.inodes[ROOT].names.pop(b"d")

    return Succession(end=end)


def named_twice():
    """A file gets a second name, in another directory."""

    def end(volume):
        volume.inodes[Succession.INODE["/d"]].names[b"again"] = volume.inodes[ROOT].names[b"b"]

    return Succession(end=end)


# ---- periods


def ended():
    """A number ends by the last checkpoint, which meets it."""
    it = Succession()
    return it.put(it.period(it.number("/a", 1), NUMBER_END), CHECKPOINTS)


def ended_between():
    """A number ends by a checkpoint that was removed, and the last one, behind it, meets it."""
    it = Succession(removed=[CHECKPOINTS - 1])
    return it.put(it.period(it.number("/a", 1), NUMBER_END), CHECKPOINTS - 1)


def begun_nowhere():
    """A number that a removed checkpoint alone met begins by the last checkpoint, which doesn't meet it."""
    it = Succession(removed=[20])
    number = next(n for n, (_, start, end) in it.volume.numbers.items() if (start, end) == (20, 21))
    return it.put(it.period(number, NUMBER_START), CHECKPOINTS).put(it.period(number, NUMBER_END), NO_END)


def left_out():
    """/a no longer has a number whose period goes on."""
    it = Succession(last=("/a", 2))
    return it.put(it.slot(it.INODE["/a"], 1), 0)


# ---- the order of conditions


def tree_before_shape():
    """The first checkpoint tells an inode more than it has, and the last one shares a number."""
    it = shared()
    return it.more(it.entry(0, CHECKPOINT_INODES))


def periods_before_tree():
    """The first checkpoint doesn't meet a number of its period, and the last one has an unnamed inode."""
    it = unnamed()
    return it.put(it.period(it.number("/d/c", 0), NUMBER_START), 1)


def image_of(name):
    """The image of a name. None where there is none."""
    made = {it.__name__: it for it in (
        sound, equal_trees, shared, shared_node, exchanged, twice_in_a_file, chain_as_tree, long_chain_as_tree,
        file_as_directory, moved_inodes, shorter, told_wrongly, unnamed, come_and_go, another_kind,
        moved_directory, comes_unnamed, comes_counted_wrongly, names_what_went, full_directory_goes, cycle,
        cycle_of_moved, named_twice, ended, ended_between, begun_nowhere, left_out, tree_before_shape,
        periods_before_tree)}.get(name)
    return made and bytes(made().image)

"""The images that tests/changes and tests/hostile change. The model of tests/volume.py makes most of them,
without the program; of some, images.py wrote the files of tests/data."""

from cleaning import Configuration, Round
from images import contents, four
from volume import Volume

# Files that are changed too: two with chains, under the first mark; chains and trees; minor checkpoints.
FILES = ["old.img", "chain300.img", "old_rewritten.img", "minors.img"]


def overwritten():
    """Four checkpoints, the last three of them with another byte each. Checkpoint 3 is a snapshot."""
    return four()


def moved():
    """Files and directories that come, go, move and end elsewhere; and a file with a hole."""
    volume = Volume(16, 8)
    volume.mkdir("/d")
    volume.mkdir("/d/e")
    volume.create("/d/e/f")
    volume.write("/d/e/f", 1000, b"a" * 3000)
    volume.create("/g")
    volume.write("/g", 0, b"two words")
    volume.checkpoint(0)
    volume.rename("/g", "/d/g")
    volume.file_at("/d/e/f").truncate(2000)
    volume.checkpoint(0, is_snapshot=True)
    volume.drop("/d/g")
    volume.create("/h")
    volume.write("/h", 5000, b"b" * 2000)
    volume.checkpoint(0)
    volume.remove(1)
    volume.remove(2)
    return volume


def named():
    """More inodes than a block of them has, and more names than a block of a directory takes. One
    checkpoint."""
    volume = Volume(8, 16)
    volume.mkdir("/d")
    for last in "123456789abcde":
        volume.create("/d/one-of-the-names-that-are-so-long-that-a-block-takes-but-some-of-them-" + last)
    volume.checkpoint(0)
    volume.remove(1)
    return volume


def high():
    """Trees of nodes with a height of 2 and of 3, and parts of them that stay where a block changes."""
    volume = Volume(16, 8)
    volume.create("/two")
    volume.write("/two", 0, b"a" * 1024)
    volume.write("/two", 200000, b"text")
    volume.create("/three")
    volume.write("/three", 20000000, b"text")
    volume.checkpoint(0, is_snapshot=True)
    volume.write("/two", 200000, b"x")
    volume.write("/three", 100, b"y")
    volume.checkpoint(0)
    return volume


# Rounds take any segment with a block to give back, and few checkpoints are protected.
ROUNDS = """
protection_period 50
max_clean_segments 100%
min_reclaimable_blocks 1
"""


def clean(volume, moment):
    assert Round(volume, moment, Configuration(ROUNDS)).refusal is None


def cleaned():
    """A file that is written over while rounds move blocks, free segments and let checkpoints go."""
    volume = Volume(16, 8)
    volume.create("/log")
    volume.create("/kept")
    volume.write("/kept", 0, b"a" * 3000)
    volume.checkpoint(10)
    volume.write("/log", 0, b"one")
    volume.checkpoint(20, is_snapshot=True)
    volume.write("/log", 0, b"b" * 2500)
    volume.checkpoint(60)
    clean(volume, 60)
    volume.write("/log", 1000, b"three")
    volume.checkpoint(100)
    clean(volume, 100)
    volume.write("/log", 500, b"c" * 600)
    volume.checkpoint(120)
    clean(volume, 120)
    clean(volume, 120)
    return volume


def new():
    return Volume(8, 4)


def origins():
    """Each image, by its name."""
    made = {make.__name__: make().image() for make in (overwritten, moved, named, high, cleaned, new)}
    made.update((name, contents("data", name)) for name in FILES)
    return made

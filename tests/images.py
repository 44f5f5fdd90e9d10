#!/usr/bin/env python3
"""Makes the images of tests/data by the formats of docs/SPECIFICATION.md, without the program, and what is
due of rows that clean, that save or that list what is needed.

Each is written from the rules, which tests/volume.py keeps: which blocks a checkpoint writes, under which
numbers and where, and how an image spells them. So a row that opens or saves one compares the program with
the rules, not with itself. Of an image too large to be kept there is the sum that cksum prints. For
developers: the gate doesn't run it.

usage: tests/images.py [--check]   (with --check nothing is written, and the files that differ are told)
"""

import glob
import os
import struct
import subprocess
import sys

from cleaning import Configuration, Round
from scripts import Session
from volume import CHAIN, FIRST_MARK, NO_END, TREE, Places, Volume

FOLDER = os.path.dirname(os.path.realpath(__file__))


def contents(*path):
    """The bytes of a file of this folder. None where there is no such file."""
    path = os.path.join(FOLDER, *path)
    if not os.path.exists(path):
        return None
    with open(path, "rb") as file:
        return file.read()


def configuration(name):
    return Configuration(contents("data", name).decode())


# ---- the volumes


def formatted():
    """8 segments of 4 blocks, new."""
    return Volume(8, 4)


def chain300():
    """A file of 300 blocks as an older version wrote it, and so a chain of three nodes."""
    volume = Volume(16, 32, CHAIN)
    volume.create("/f")
    volume.write("/f", 0, b"a" * 307200)
    volume.checkpoint(0, is_snapshot=True)
    return volume


def snapshot(kind=TREE):
    """Two checkpoints: 2 is a snapshot, and 3 has other bytes in /d/f, and the stamp of 2. Checkpoint 1 is
    removed."""
    volume = Volume(8, 4, kind)
    volume.mkdir("/d")
    volume.create("/d/f")
    volume.write("/d/f", 0, b"old")
    volume.checkpoint(50, is_snapshot=True)
    volume.write("/d/f", 0, b"new bytes")
    volume.checkpoint(20)
    volume.remove(1)
    return volume


def four():
    """Four checkpoints of a file that is written over, of which 3 is a snapshot."""
    volume = Volume(16, 4)
    volume.create("/f")
    volume.write("/f", 0, b"A")
    volume.checkpoint(10)
    volume.write("/f", 0, b"B")
    volume.checkpoint(20, is_snapshot=True)
    volume.write("/f", 0, b"C")
    volume.checkpoint(30)
    return volume


def keep(kind=TREE):
    """What examples/keep.nlvol leaves: the last checkpoint is that of the end."""
    volume = Volume(8, 8, kind)
    volume.mkdir("/notes")
    volume.create("/notes/plan")
    volume.write("/notes/plan", 0, b"first draft")
    volume.checkpoint(60, is_snapshot=True)
    volume.write("/notes/plan", 0, b"final")
    volume.checkpoint(120)
    return volume


def opened(volume):
    """A volume of an older version, as it goes on: what is written gets trees."""
    volume.kind = TREE
    return volume


def rewritten():
    """What an older version kept, with the bytes of a file written again, and then a name more in its
    directory."""
    volume = opened(keep(CHAIN))
    volume.write("/notes/plan", 0, b"final draft")
    volume.checkpoint(180)
    volume.create("/notes/next")
    volume.checkpoint(240)
    return volume


def high():
    """A file with blocks at 128 and at the greatest index: a tree of height 3, with two nodes of level 2."""
    volume = Volume(8, 4)
    volume.create("/f")
    volume.write("/f", 131072, b"low")
    volume.write("/f", 67108860, b"high")
    volume.checkpoint(0)
    return volume


def grown():
    """What the row a_full_volume_grows leaves: 16 segments, where there were 8."""
    volume = Volume(8, 4)
    volume.create("/f")
    for byte in b"A", b"B":
        volume.write("/f", 0, byte)
        volume.checkpoint(0)
    volume.write("/f", 0, b"C")
    volume.resize(16)
    volume.checkpoint(0)
    return volume


def minors():
    """What the row saved_minors leaves: a snapshot, a plain checkpoint, two minor ones of which the first
    became a snapshot, and a plain one."""
    volume = Volume(16, 8)
    volume.create("/f")
    for byte in b"A", b"B", b"C":
        volume.write("/f", 0, byte)
        volume.checkpoint(0, is_snapshot=byte == b"A")
    Round(volume, 0, configuration("every_segment.conf"))
    volume.write("/f", 0, b"D")
    volume.checkpoint(0)
    volume.kept_at(5).is_snapshot = True
    return volume


def two():
    """A file was removed between two others, before the checkpoint: inode 12 is free."""
    volume = Volume(8, 4)
    for path in "/a", "/b", "/c":
        volume.create(path)
    volume.drop("/b")
    volume.checkpoint(0)
    return volume


def last_number():
    """A file that is written over, and one number left for checkpoints."""
    volume = Volume(8, 4)
    volume.create("/f")
    for byte in b"A", b"B":
        volume.write("/f", 0, byte)
        volume.checkpoint(0)
    # As if a checkpoint had been made under each number between without a change, and removed again.
    volume.checkpoint(0)
    volume.kept[-1].number = NO_END - 2
    return volume


# ---- images with a fault


def changed(image, offset, data):
    """The image with other bytes at an offset. They do differ."""
    assert image[offset : offset + len(data)] != data
    return image[:offset] + data + image[offset + len(data) :]


def u64(value):
    return struct.pack("<Q", value)


def file_of(volume, path):
    """The number of a file's inode."""
    parent, name = volume.parent_of(path)
    return parent.names[name][0]


def broken_chain():
    """The last node of a chain leads into itself."""
    volume = snapshot(CHAIN)
    node = volume.latest[file_of(volume, "/d/f")].nodes[(1, 0)]
    return changed(volume.image(), Places(volume).page_of(node) + 8 * 127, u64(node))


def bad_images():
    """For each condition an image that fails it first: that of snapshot() with one change."""
    volume = snapshot()
    image = volume.image()
    at = Places(volume)
    page = volume.latest[file_of(volume, "/d/f")].data[0][0]
    # The number of the file's block in checkpoint 2, which ended at checkpoint 3.
    old_page = next(
        n
        for n, (block, _, end) in volume.numbers.items()
        if end == 3 and volume.device[block][:3] == b"old"
    )
    return {
        # The mark is NLVOL003.
        "condition1.img": changed(image, 7, b"3"),
        # 7 segments.
        "condition2.img": changed(image, 8, b"\x07"),
        # A byte behind the last block.
        "condition3.img": image + b"\0",
        # The last segment, a clean one, has a stamp.
        "condition4.img": changed(image, at.entry_of_segment(7), b"\x01"),
        # Checkpoint 3 has an earlier stamp than checkpoint 2.
        "condition5.img": changed(image, at.entry_of_checkpoint(1) + 8, b"\x0a"),
        # Number 1 has the block of number 2.
        "condition6.img": changed(image, at.entry_of_number(1), u64(volume.numbers[2][0])),
        # The first record of the first log names number 3.
        "condition7.img": changed(image, at.start_of_block(0) + 64, u64(3)),
        "condition8.img": broken_chain(),
        # A byte behind the end of the file.
        "condition9.img": changed(image, at.page_of(page) + 9, b"!"),
        # The file's block of checkpoint 2 hasn't ended, and checkpoint 3 doesn't meet it.
        "condition10.img": changed(image, at.entry_of_number(old_page) + 16, u64(NO_END)),
        # The last byte of the last segment.
        "condition11.img": changed(image, len(image) - 1, b"\x01"),
    }


def bad_flags():
    """Images that fail condition 5 by the flags of a checkpoint: those of snapshot() with one change."""
    volume = snapshot()
    old = volume.image(FIRST_MARK)
    at = [Places(volume).entry_of_checkpoint(k) + 16 for k in (0, 1)]
    return {
        # Of an older version, which has no minor checkpoints: 3 is plain and minor, or 2 is a snapshot and
        # minor.
        "first_mark_with_flag_2.img": changed(old, at[1], b"\x02"),
        "first_mark_with_flag_3.img": changed(old, at[0], b"\x03"),
        "flag_4.img": changed(volume.image(), at[1], b"\x04"),
    }


def bad_trees():
    """Images that fail condition 8 by the tree of a file: that of snapshot() or high() with one change."""
    volume = snapshot()
    image = volume.image()
    at = Places(volume)
    blocks = volume.latest[file_of(volume, "/d/f")]
    inode = at.inode_of(file_of(volume, "/d/f"))
    node = at.page_of(blocks.nodes[(1, 0)])
    page = blocks.data[0][0]
    unused = len(volume.segments) * volume.segment_blocks
    assert unused not in volume.numbers
    large = high()
    top = Places(large).page_of(large.latest[file_of(large, "/f")].nodes[(3, 0)])
    return {
        "tree_node_of_zeros.img": changed(image, node, u64(0)),
        "tree_of_height_0.img": changed(image, inode + 2, b"\x00"),
        "tree_of_height_4.img": changed(image, inode + 2, b"\x04"),
        "tree_with_top_0.img": changed(image, inode + 16, u64(0)),
        # The block has indices 0 and 1.
        "tree_number_twice.img": changed(image, node + 8, u64(page)),
        # Its block is the last number, which isn't in use.
        "tree_without_a_page.img": changed(image, node, u64(unused)),
        # The topmost node names the first one below alone.
        "tree_too_high.img": changed(large.image(), top + 24, u64(0)),
    }


def images():
    made = {
        "formatted.img": formatted().image(),
        "chain300.img": chain300().image(FIRST_MARK),
        "snapshot.img": snapshot().image(),
        "four.img": four().image(),
        "keep.img": keep().image(),
        "old.img": keep(CHAIN).image(FIRST_MARK),
        "old_rewritten.img": rewritten().image(),
        "high.img": high().image(),
        "grown.img": grown().image(),
        "first_mark.img": snapshot().image(FIRST_MARK),
        "minors.img": minors().image(),
        "last_number.img": last_number().image(),
        "two.img": two().image(),
    }
    # Sizes and places that the formats give for these volumes.
    assert len(made["formatted.img"]) == 35840
    assert len(made["four.img"]) == 69632
    assert len(made["grown.img"]) == 69632
    assert len(made["chain300.img"]) == 538624
    # The end of number 5.
    assert made["four.img"][1392] == 3
    # The flags of the five checkpoints.
    places = Places(minors())
    flags = [made["minors.img"][places.entry_of_checkpoint(k) + 16] for k in range(5)]
    assert flags == [1, 0, 3, 2, 0]
    # Number 5 ends a checkpoint later, where nothing meets it.
    made["four_changed.img"] = changed(made["four.img"], 1392, b"\x04")
    # Without the last byte.
    made["cut.img"] = made["formatted.img"][:-1]
    made.update(bad_images())
    made.update(bad_flags())
    made.update(bad_trees())
    return made


# ---- rows

# Volumes that rows open.
OPENED = {
    "chain300.img": lambda: opened(chain300()),
    "first_mark.img": snapshot,
    "formatted.img": formatted,
    "four.img": four,
    "grown.img": grown,
    "high.img": high,
    "last_number.img": last_number,
    "minors.img": minors,
    "old.img": lambda: opened(keep(CHAIN)),
    "snapshot.img": snapshot,
    "two.img": two,
}

# Rows whose output and status are made here.
ROWS = [
    "a_full_volume_grows",
    "a_grown_volume_goes_on",
    "a_volume_of_most_segments",
    "chain_becomes_a_tree",
    "cleaning",
    "configuration_forms",
    "configuration_of_all_keywords",
    "configuration_without_lines",
    "dirty_tree_across_a_round",
    "expiry_at_the_end_of_a_period",
    "expiry_before_the_end_of_a_period",
    "expiry_by_boundary",
    "expiry_leaves_the_latest",
    "keep",
    "longest_period",
    "minors_beside_a_snapshot",
    "minors_expire_in_later_rounds",
    "minors_of_a_round",
    "most_of_a_round",
    "moves_of_many_blocks",
    "needed_after_each_event",
    "needed_after_overwrites",
    "needed_by_a_plain_checkpoint",
    "needed_in_a_new_volume",
    "needed_in_an_opened_volume",
    "numbers_end_in_a_round",
    "old_files_stay",
    "oldest_segments_first",
    "open_a_high_tree",
    "open_and_clean",
    "open_minors",
    "open_two_files",
    "room_for_a_checkpoint",
    "round_after_overwrites",
    "round_by_the_standard_values",
    "round_from_five_blocks",
    "round_from_four_blocks",
    "round_from_six_blocks",
    "round_under_a_mount",
    "rounds_by_the_standard_values",
    "save_refused",
    "save_refused_over_an_image",
    "save_without_a_number",
    "saved_after_a_refusal",
    "saved_after_usage",
    "saved_as_opened",
    "saved_chain",
    "saved_dirty",
    "saved_dirty_behind_a_round",
    "saved_formatted",
    "saved_four",
    "saved_minors",
    "saved_over_a_longer_file",
    "saved_snapshot",
    "saved_tree",
    "saved_where_it_was_opened",
    "saved_with_the_second_mark",
    "shares_are_of_present_segments",
    "stamps_of_moves",
    "tree_of_four_nodes",
    "trees_about_a_node",
    "trees_of_one_block",
    "trees_of_three_levels",
    "two_thousand_overwrites",
    "usage_clean",
]


def sum_of(image):
    """Sum and size, as cksum prints them."""
    return subprocess.run(["cksum"], input=image, stdout=subprocess.PIPE, check=True).stdout.decode().strip()


def script_of(name):
    """The script of a row, as a path in this folder. The row's other files have that path with an ending."""
    [script] = glob.glob(os.path.join(FOLDER, "rows", "*", f"{name}.nlvol"))
    return os.path.relpath(script, FOLDER)


def arguments_of(name):
    """The values of the options that a row's program is started with."""
    words = (contents(script_of(name) + ".args") or b"").decode().replace("=", "\n").split()
    return dict(zip(words[::2], words[1::2]))


def row_of(name):
    """A row's session, and what it prints."""
    given = arguments_of(name)
    if "--open" in given:
        volume = OPENED[given["--open"]]()
    else:
        volume = Volume(int(given.get("--segments", 64)), int(given.get("--blocks", 64)))
    session = Session(volume, configuration(given["--conf"]) if "--conf" in given else Configuration())
    return session, session.run(contents(script_of(name)))


def rows(data):
    """The expected output of rows, with the sum of what they save where no image is kept, or the refusal
    where they save none; and the file of all statuses."""
    made = {}
    statuses = dict(line.split() for line in contents("statuses").decode().splitlines())
    for name in ROWS:
        session, printed = row_of(name)
        script = script_of(name)
        made[f"{script}.stdout"] = printed.encode()
        saved = (contents(f"{script}.saved") or b"").decode().split()
        if saved:
            image = session.end()
            if len(saved) == 2:
                assert image == data[saved[1]], name
            else:
                made[f"{script}.saved"] = f"{saved[0]} {sum_of(image)}\n".encode()
        elif "--save" in arguments_of(name):
            made[f"{script}.stderr"] = f"save: {session.refused_end()}\n".encode()
        statuses[name] = session.status
    made["statuses"] = "".join(f"{name} {statuses[name]}\n" for name in sorted(statuses)).encode()
    return made


def settle(made, is_check):
    """Writes files, or tells how many differ."""
    differ = 0
    for name, data in made.items():
        if contents(name) == data:
            continue
        path = os.path.join(FOLDER, name)
        if is_check:
            differ += 1
            print(f"{path} differs")
        else:
            with open(path, "wb") as file:
                file.write(data)
    return differ


def main(words):
    if words not in ([], ["--check"]):
        sys.exit("usage: tests/images.py [--check]")
    data = images()
    made = {f"data/{name}": image for name, image in data.items()}
    made.update(rows(data))
    return 1 if settle(made, words == ["--check"]) else 0


if __name__ == "__main__":
    sys.exit(main(sys.argv[1:]))

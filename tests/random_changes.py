"""Random changes of images. There are no check sums that they could fail at, so they are made to look right:
most take what is in use, and change it by little, or put in its place what stands elsewhere in its part. A
seed gives the same changes each time, under every version of Python."""

import struct
from collections import Counter
from random import Random

from origins import origins
from verdicts import CONDITIONS, verdicts_on
from volume import BLOCK

# The bytes of the superblock up to those that are zero in each image, and of each kind of entry.
SUPERBLOCK, SEGMENT, NUMBER, CHECKPOINT = 24, 16, 24, 160

FIELD = 8

# The most steps of a change.
MOST_STEPS = 8


def below(rng, end):
    """A random number below an end. All versions of Python have the same random(), but not the rest."""
    return int(rng.random() * end)


def any_of(rng, items):
    return items[below(rng, len(items))]


# ---- the parts of an image


class Part:
    """Records of one size: their places. Each begins at a multiple of 8."""

    def __init__(self, size, places):
        self.size, self.places = size, places


def used_part(image, first, end, size):
    """The records between two places, without those that are all zero."""
    return Part(size, [place for place in range(first, end, size) if any(image[place : place + size])])


class Start:
    """An image that is changed: its name, and the parts that changes take, each as often as it is wanted."""

    def __init__(self, name, image):
        self.name, self.image = name, image
        segments, segment_blocks = struct.unpack_from("<II", image, 8)
        total = segments * segment_blocks
        numbers = BLOCK + SEGMENT * segments
        checkpoints = numbers + NUMBER * total
        blocks = len(image) - BLOCK * total
        whole = Part(BLOCK, range(0, len(image), BLOCK))
        self.parts = [
            used_part(image, 0, SUPERBLOCK, SUPERBLOCK),
            *[used_part(image, BLOCK, numbers, SEGMENT)] * 2,
            *[used_part(image, numbers, checkpoints, NUMBER)] * 3,
            *[used_part(image, checkpoints, blocks, CHECKPOINT)] * 3,
            *[used_part(image, blocks, len(image), BLOCK)] * 5,
            *[whole] * 2,
        ]

    def changed(self, rng):
        """The image with one part changed, half the times in one step, else in up to eight."""
        part = any_of(rng, self.parts)
        steps = 1
        if below(rng, 2) == 0:
            steps += below(rng, MOST_STEPS)
        image = bytearray(self.image)
        for _ in range(steps):
            step(rng, image, part)
        return bytes(image)


# ---- steps


def any_byte(rng, image, record, size):
    """The place of any byte of a record. Three of four times it is one behind which no zeros stand."""
    place = record + below(rng, size)
    if below(rng, 4) == 0:
        return place
    end = record + size
    return next((used for used in range(place, end) if image[used]), place)


def field_of(byte):
    """The place of the field that has a byte."""
    return byte // FIELD * FIELD


def move_number(image, field, by):
    (number,) = struct.unpack_from("<Q", image, field)
    struct.pack_into("<Q", image, field, (number + by) % 2**64)


def exchange(image, one, other, count):
    """Exchanges so many bytes with those of another place."""
    there, here = image[other : other + count], image[one : one + count]
    image[one : one + count], image[other : other + count] = there, here


def step(rng, image, part):
    """Changes a byte or a field, or exchanges two fields or records, of those of a part."""
    record, other = any_of(rng, part.places), any_of(rng, part.places)
    byte = any_byte(rng, image, record, part.size)
    field = field_of(byte)
    near = field_of(any_byte(rng, image, record, part.size))
    far = field_of(any_byte(rng, image, other, part.size))
    kind = below(rng, 9)
    if kind == 0:
        image[byte] = below(rng, 256)
    elif kind == 1:
        image[byte] ^= 1 << below(rng, 8)
    elif kind in (2, 3):
        move_number(image, field, below(rng, 7) - 3)
    elif kind == 4:
        image[field : field + FIELD] = image[near : near + FIELD]
    elif kind == 5:
        image[field : field + FIELD] = image[far : far + FIELD]
    elif kind == 6:
        exchange(image, near, field, FIELD)
    elif kind == 7:
        exchange(image, other + field - record, field, FIELD)
    else:
        exchange(image, record, other, part.size)


# ---- trials


class Trial:
    """A changed image, its start, and how many trials were made before."""

    def __init__(self, place, start, image):
        self.place, self.start, self.image = place, start, image

    def tell(self, verdict):
        """Tells of what is never due, and which bytes differ from those of the start."""
        print(f"behind {self.place} trials: {self.start.name}, with")
        for place, (old, byte) in enumerate(zip(self.start.image, self.image)):
            if old != byte:
                print(f"byte {place}: {byte} for {old}")
        print(verdict)


def trials(rng, starts, count, tally):
    """So many random changes, each of any start, with the changed image. What is left as it was is counted
    alone."""
    for place in range(count):
        start = any_of(rng, starts)
        image = start.changed(rng)
        if image == start.image:
            tally["unchanged"] += 1
        else:
            yield Trial(place, start, image), image


def tell_tally(tally):
    for verdict in ["unchanged", "kept"] + CONDITIONS:
        print(f"{verdict}: {tally[verdict]}")


def try_changes(program, count, seed):
    """Makes so many random changes, and tells how many came to what. The tally, and whether each changed
    image was refused or kept; it ends at one that wasn't."""
    starts = [Start(name, image) for name, image in origins().items()]
    print(f"seed {seed}, {len(starts)} images, {count} trials")
    tally = Counter()
    for trial, verdict in verdicts_on(program, trials(Random(seed), starts, count, tally)):
        if verdict.startswith("changed"):
            trial.tell(verdict)
            return tally, False
        tally[verdict] += 1
    tell_tally(tally)
    print("each was refused or kept")
    return tally, True

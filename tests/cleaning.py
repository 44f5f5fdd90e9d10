"""Rounds of cleaning on the model of volumes, by the rules of docs/SPECIFICATION.md, without the program.
For developers."""

from volume import DIRTY, LOG, Refused

# The values where a configuration gives none.
STANDARD = {
    "protection_period": "3600",
    "min_clean_segments": "10%",
    "max_clean_segments": "20%",
    "nsegments_per_clean": "2",
    "mc_nsegments_per_clean": "4",
    "min_reclaimable_blocks": "10%",
    "mc_min_reclaimable_blocks": "1%",
}


class Configuration:
    """The values of a configuration without a bad line."""

    def __init__(self, text=""):
        self.values = dict(STANDARD)
        for line in text.splitlines():
            words = line.split("#")[0].split()
            if len(words) == 2:
                self.values[words[0]] = words[1]

    def number(self, keyword):
        return int(self.values[keyword])

    def amount(self, keyword, whole):
        """A number, or hundredths of a whole, rounded down."""
        value = self.values[keyword]
        return whole * int(value[:-1]) // 100 if value.endswith("%") else int(value)


def expired(volume, moment, period):
    """The kept checkpoints that an expiry takes out."""
    protected = [c.number for c in volume.kept if c.stamp + period > moment]
    boundary = min(protected, default=volume.kept[-1].number)
    return [c for c in volume.kept[:-1] if c.number < boundary and not c.is_snapshot]


def plan(volume, moment, configuration):
    """The segments that a round takes, in their order."""
    count = len(volume.segments)
    clean = sum(s.flags == 0 for s in volume.segments)
    if clean >= configuration.amount("max_clean_segments", count):
        return []
    hurry = "mc_" if clean < configuration.amount("min_clean_segments", count) else ""
    least = configuration.amount(hurry + "min_reclaimable_blocks", volume.segment_blocks)
    gone = expired(volume, moment, configuration.number("protection_period"))
    stay = [c for c in volume.kept if c not in gone]
    found = []
    for k, segment in enumerate(volume.segments):
        if segment.flags == DIRTY and segment.payload - len(volume.needed_numbers(k, stay)) >= least:
            found.append((segment.stamp, k))
    return [k for _, k in sorted(found)][: configuration.number(hurry + "nsegments_per_clean")]


class Round:
    """What a round came to: how many checkpoints expired, blocks were moved and segments freed, and what
    ended it."""

    def __init__(self, volume, moment, configuration):
        self.expired, self.moved, self.freed, self.refusal = 0, 0, 0, None
        taken = plan(volume, moment, configuration)
        gone = expired(volume, moment, configuration.number("protection_period"))
        volume.kept = [c for c in volume.kept if c not in gone]
        self.expired = len(gone)
        try:
            for segment in taken:
                self.clean(volume, segment, moment)
        except Refused as refusal:
            self.refusal = refusal

    def clean(self, volume, segment, moment):
        """Moves what is needed, as much at a time as a log takes, and retires the segment."""
        while numbers := volume.needed_numbers(segment)[:LOG]:
            volume.move(numbers, moment)
            self.moved += len(numbers)
        volume.retire(segment)
        self.freed += 1

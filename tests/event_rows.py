"""Rows of events, as files have them, and as `nl_trials rows` does them. tests/events and tests/sweep read
and compare them by this.

A row begins with a line `volume SEGMENTS BLOCKS`, which makes a new volume; behind that may stand `put N`,
`get N` or `growth N`, for a call on its device that fails, and `torn` behind `put N`, if zeros are in the place of
the old page then. The other lines are `EVENT = REPLY` or `QUESTION
= REPLY`, and `#` begins a comment. `nl_trials rows` does each event on a pen and on a shared volume with
one port. Where these two differ, in a reply or in the end, it prints a line that is never due. A call that
is refused by `Memory` is done again; a line that is never due stands where something was changed by the
refusal, and `refused N` in the end. The status is 3 where memory was refused to the program itself. What is
due is worked out from docs/SPECIFICATION.md, or by tests/volume.py, and not by the program.

`{FIRST..LAST}` stands for each number from FIRST to LAST, in as many digits as FIRST has, and
`{FIRST..LAST..STEP}` for each one that is a STEP behind another. A line `volume` with it makes as many rows,
an event or a question as many lines with one reply, and a word of a reply as many words.

| Line | What it does |
|---|---|
| `create PATH [PART COUNT]` | makes a file; its path ends with the part so many times |
| `mkdir PATH`, `unlink PATH`, `rmdir PATH` | file calls |
| `rename FROM TO`, `truncate PATH SIZE` | file calls |
| `write PATH OFFSET [TEXT]`, `fill PATH OFFSET BYTE COUNT` | writes a text, or so many bytes of a number |
| `read PATH OFFSET [LENGTH]`, `ls PATH`, `stat PATH` | asks the current tree |
| `mounted NUMBER`, `kept NUMBER` before one of these three | asks a mount; a kept checkpoint |
| `checkpoint MODE [MOMENT]`, `chcp NUMBER MODE` | MODE is `plain` or `snapshot` |
| `rmcp NUMBER`, `range FIRST LAST` | |
| `expire MOMENT PERIOD`, `move SEGMENT LIMIT`, `retire SEGMENT`, `resize SEGMENTS` | |
| `listing`, with `reverse`, `snapshots`, `minor`, `from NUMBER`, `count COUNT` | |
| `mount CHECKPOINT`, `unmount NUMBER` | |
| `sync MOMENT`, `clean SEGMENT SEGMENT MOMENT` | calls after libnilfs |
| `round` | a planned round: how many checkpoints expired, blocks were moved and segments freed |
| `keep PAGES`, `warm MOUNT PATH LENGTH` | from now on the port keeps at most so many pages; those of a file |
| `pages` | how many pages it keeps |
| `close` | how many bytes the image has, if it opens to the same volume |
| `close cut`, `close OFFSET OLD NEW` | the condition that it breaks without its last byte, or with another |
| `kept NUMBER`, `checkpoints` | number, stamp, mode, inodes; latest number, how many, how many snapshots |
| `segment SEGMENT`, `segments` | state, stamp, used blocks; how many, clean ones, dirty ones |
| `needed SEGMENT` | how many needed blocks |
| `blocks SEGMENT` | of each payload block: block, inode, offset, level, and the block of its number |
| `number NUMBER` | block, start, end of a virtual block number |
| `written CHECKPOINT` | `born`, which numbers start there, `ended`, how many end there: of a new volume |
"""
import os
import re
import subprocess
import sys

from programs import TESTS

# The forms of lines. The program takes a word that is no number as 0, so a slip would not show there.
WORD, NUMBER, MODE = r' \S+', r' \d+', r' (plain|snapshot)'
ASK = f'read{WORD}{NUMBER}({NUMBER})?|(ls|stat){WORD}'
FORMS = [
    f'create({WORD}({WORD}{NUMBER})?)?',
    f'(mkdir|unlink|rmdir){WORD}',
    f'rename{WORD}{WORD}',
    f'truncate{WORD}{NUMBER}',
    f'write{WORD}{NUMBER}({WORD})?',
    f'fill{WORD}{NUMBER}{NUMBER}{NUMBER}',
    ASK,
    f'(mounted|kept){NUMBER} ({ASK})',
    f'checkpoint{MODE}({NUMBER})?',
    f'chcp{NUMBER}{MODE}',
    f'(rmcp|mount|unmount|retire|resize|sync){NUMBER}',
    f'(range|expire|move){NUMBER}{NUMBER}',
    f'clean{NUMBER}{NUMBER}{NUMBER}|close( cut|{NUMBER}{NUMBER}{NUMBER})?',
    f'keep{NUMBER}|warm{NUMBER}{WORD}{NUMBER}|pages|round',
    f'listing( reverse| snapshots| minor| from{NUMBER}| count{NUMBER})*',
    f'(kept|segment|needed|blocks|number|written){NUMBER}',
    'checkpoints|segments',
]
LINE = re.compile('|'.join(FORMS))
VOLUME = re.compile(f'volume{NUMBER}{NUMBER}( put{NUMBER}( torn)?| (get|growth){NUMBER})?')
RANGE = re.compile(r'{(\d+)\.\.(\d+)(\.\.(\d+))?}')


def expanded(text):
    """The texts that a text with ranges stands for."""
    found = RANGE.search(text)
    if not found:
        return [text]
    first, last, _, step = found.groups()
    numbers = [str(n).zfill(len(first)) for n in range(int(first), int(last) + 1, int(step or 1))]
    if not numbers:
        sys.exit(f'{text}: a range of no number')
    return [text[:found.start()] + n + rest for n in numbers for rest in expanded(text[found.end():])]


class Row:
    """A volume: where it begins, its first line, and pairs of what is done and what is due."""

    def __init__(self, place, volume):
        self.place = f'{place}: {volume}'
        self.volume = volume
        self.lines = []

    def asked(self, done):
        """The lines that the program is given for one of the row."""
        if not done.startswith('written '):
            return [done]
        _, segments, blocks, *_ = self.volume.split()
        return [f'number {n}' for n in range(1, int(segments) * int(blocks) + 1)]


def written(checkpoint, numbers):
    """What is told of a checkpoint by the lines of all numbers, each `number BLOCK START END` or `free`. Of
    those that start there the first and the last are told, or all where one between them doesn't."""
    born = [n for n, told in enumerate(numbers, 1) if told[2:3] == [checkpoint]]
    ended = sum(told[3:] == [checkpoint] for told in numbers)
    if born == list(range(born[0], born[-1] + 1) if born else []):
        born = born[:1] + born[-1:]
    return ['born'] + [str(n) for n in born] + ['ended', str(ended)]


def rows_of(folder):
    """The rows of all files of a folder of tests/data."""
    folder = os.path.join(TESTS, 'data', folder)
    return [row for name in sorted(os.listdir(folder)) for row in rows_of_file(folder, name)]


def rows_of_file(folder, name):
    """The rows of a file. A line that is none ends the run."""
    rows, present = [], []
    with open(os.path.join(folder, name), encoding='ascii') as file:
        for number, line in enumerate(file, 1):
            line = line.strip()
            if line == '' or line.startswith('#'):
                continue
            done, _, due = line.partition(' = ')
            each = expanded(done)
            if not due and all(map(VOLUME.fullmatch, each)):
                present = [Row(f'{name}:{number}', volume) for volume in each]
                rows += present
            elif present and due and all(map(LINE.fullmatch, each)):
                words = [word for given in due.split() for word in expanded(given)]
                for row in present:
                    row.lines += [(one, words) for one in each]
            else:
                sys.exit(f'{name}:{number}: not a line of a row')
    return rows


def printed_by(program, row):
    """What the program prints of a row behind its first line, as words; nothing where it doesn't end well."""
    lines = [row.volume] + [asked for done, _ in row.lines for asked in row.asked(done)]
    try:
        ran = subprocess.run([program, 'rows'], input='\n'.join(lines) + '\n', capture_output=True,
                             encoding='latin-1', timeout=600, check=False)
    except subprocess.TimeoutExpired:
        print(f'{row.place}: it did not end')
        return []
    if ran.returncode != 0 or ran.stderr != '':
        print(f'{row.place}: status {ran.returncode}, and not 0; or errors: {ran.stderr}')
        return []
    return [line.split() for line in ran.stdout.splitlines()][1:]


def told_by(done, printed):
    """What a line of a row comes to, by what is printed for it."""
    if done.startswith('written '):
        return written(done.split()[1], printed)
    return [word for words in printed for word in words]


def is_as_due(row, printed):
    """Whether a row comes to what is due. Tells of the first line that doesn't."""
    place = 0
    for done, due in row.lines:
        end = place + len(row.asked(done))
        told = told_by(done, printed[place:end])
        if due != told or end > len(printed):
            print(f"{row.place}: {done}: '{' '.join(told)}', and not '{' '.join(due)}'")
            return False
        place = end
    if place < len(printed):
        rest = [' '.join(told) for told in printed[place:]]
        print(f'{row.place}: {place} lines are due, and not {len(printed)}: {rest}')
        return False
    return True

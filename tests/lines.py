"""Lines of scripts by the rules of docs/SPECIFICATION.md, without the program: words, options and numbers.
For developers."""

# The greatest number that is read.
MOST = 2**64 - 1


class Usage(Exception):
    """A line is no command."""


# ---- words


def words_of(line):
    """The words of a line. Blanks part them, and so does the end of one that is quoted."""
    words = []
    while line := line.lstrip(" \t"):
        if line[0] == '"':
            if '"' not in line[1:]:
                raise Usage
            word, line = line[1:].split('"', 1)
        else:
            end = min((line.index(blank) for blank in " \t" if blank in line), default=len(line))
            word, line = line[:end], line[end:]
        words.append(word)
    return words


# ---- what a word stands for


def word(text):
    return text


def number(text, most=MOST):
    """Digits alone, up to the most."""
    if not text or set(text) - set("0123456789") or int(text) > most:
        raise Usage
    return int(text)


def byte(text):
    return number(text, 255)


def mode(text):
    """Whether a checkpoint is to be a snapshot."""
    if text not in ("cp", "ss"):
        raise Usage
    return text == "ss"


def checkpoints(text):
    """A number; or the ends of a range, the last one None where it is the latest checkpoint."""
    if ".." not in text:
        return number(text)
    first, last = text.split("..", 1)
    if not first and not last:
        raise Usage
    return number(first) if first else 1, number(last) if last else None


# ---- commands


class Form:
    """What a command takes: options that stand alone and options that have a number, by their letters, and
    its operands. The last operand may come several times."""

    def __init__(self, *operands, alone="", valued="", is_repeated=False):
        self.operands, self.alone, self.valued, self.is_repeated = operands, alone, valued, is_repeated

    def split(self, words):
        """The options by their letters, and the other words."""
        options, others = {}, []
        words = iter(words)
        for text in words:
            if text == "--":
                others += words
            elif text.startswith("-"):
                self.take_options(text, words, options)
            else:
                others.append(text)
        return options, others

    def take_options(self, text, words, options):
        """The options of a word, with the value that ends it or is the next word."""
        letters = text[1:]
        if not letters:
            raise Usage
        while letters:
            letter, letters = letters[0], letters[1:]
            if letter in options:
                raise Usage
            if letter in self.alone:
                options[letter] = True
            elif letter in self.valued:
                value = letters.removeprefix("=") or (next(words, "") if not letters else "")
                options[letter], letters = number(value), ""
            else:
                raise Usage

    def read(self, words):
        """The options, and what the operands stand for."""
        options, others = self.split(words)
        kinds = list(self.operands)
        if self.is_repeated:
            kinds += kinds[-1:] * (len(others) - len(kinds))
        if len(kinds) != len(others):
            raise Usage
        return options, [kind(text) for kind, text in zip(kinds, others)]


FORMS = {
    "at": Form(number),
    "mkcp": Form(alone="s"),
    "chcp": Form(mode, number, is_repeated=True),
    "lscp": Form(alone="rsa", valued="in"),
    "rmcp": Form(checkpoints, alone="f", is_repeated=True),
    "lssu": Form(alone="al"),
    "clean": Form(),
    "mount": Form(number),
    "umount": Form(number),
    "resize": Form(number),
    "create": Form(word),
    "mkdir": Form(word),
    "rm": Form(word),
    "rmdir": Form(word),
    "mv": Form(word, word),
    "write": Form(word, number, word),
    "fill": Form(word, number, byte, number),
    "truncate": Form(word, number),
    "cat": Form(word, valued="m"),
    "catm": Form(number, word, is_repeated=True),
    "ls": Form(word, valued="m"),
    "stat": Form(word, valued="m"),
}


def command_of(line):
    """The name of a line's command, its options and its operands. None where the line does nothing."""
    try:
        text = line.decode()
    except UnicodeDecodeError:
        raise Usage from None
    words = [] if text.startswith("#") else words_of(text)
    if not words:
        return None
    if words[0] not in FORMS:
        raise Usage
    return words[0], *FORMS[words[0]].read(words[1:])

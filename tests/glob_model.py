"""What a glob leaves out, by Python's regular expressions."""
import re

# What stands for any number of folders, also none, and for what may stand behind a match.
FOLDERS, BELOW, OR_BELOW = "(?:.*/)?", "/.*", "(?:/.*)?"


class NoGlob(Exception):
    """A text is no glob."""


class Reading:
    """A text, of which some is read."""

    def __init__(self, text):
        self.text = text

    def begins(self, *texts):
        return self.text.startswith(texts)

    def next(self):
        if not self.text:
            raise NoGlob
        letter, self.text = self.text[0], self.text[1:]
        return letter

    def member(self):
        letter = self.next()
        return self.next() if letter == "\\" else letter

    def range(self):
        """A character, or those from one to another."""
        first = last = self.member()
        if self.begins("-") and not self.begins("-]"):
            self.next()
            last = self.member()
        if last < first:
            raise NoGlob
        return f"\\U{ord(first):08x}-\\U{ord(last):08x}"

    def brackets(self):
        """The characters in brackets, behind the `[`."""
        others = "^" if self.begins("!", "^") and self.next() else ""
        ranges = [self.range()]
        while not self.begins("]"):
            ranges.append(self.range())
        self.next()
        return f"(?!/)[{others}{''.join(ranges)}]"

    def stars(self, starts):
        """What stars stand for, behind the first, and whether a component begins behind them."""
        rest = self.text.lstrip("*")
        several, self.text = rest != self.text, rest
        if several and starts and self.begins("/"):
            self.next()
            return FOLDERS, True
        return ".*" if several else "[^/]*", False

    def part(self, starts):
        letter = self.next()
        if letter == "*":
            return self.stars(starts)
        if letter == "?":
            return "[^/]", False
        if letter == "[":
            return self.brackets(), False
        if letter == "\\":
            return re.escape(self.next()), False
        return re.escape(letter), letter == "/"


def pattern_of(glob):
    """The regular expression of the whole paths that a glob leaves out."""
    found = "" if "/" in glob[:-1] or glob.startswith("/") else FOLDERS
    reading, starts = Reading(glob.removeprefix("/")), True
    if not reading.text:
        raise NoGlob
    while reading.text not in ("", "/"):
        part, starts = reading.part(starts)
        found += part
    return re.compile(found + (BELOW if reading.text else OR_BELOW), re.S)


def left_out(globs, paths):
    """The paths that one of these globs leaves out."""
    patterns = [pattern_of(glob) for glob in globs]
    return {path for path in paths if any(pattern.fullmatch(path) for pattern in patterns)}


def first_that_is_none(globs):
    """The number of the first text that is no glob, or None."""
    for number, glob in enumerate(globs):
        try:
            pattern_of(glob)
        except NoGlob:
            return number
    return None


NAMES = ["a", "b", "ab", "ba", "a.b", ".a", "*", "[", "]", "\\", "-", "!", "\u00e9", "aa", "bab", "^", "?", "\U0001f600", "abab", "\n"]
BITS = ["a", "b", "a", "b", "*", "*", "?", "**", "/", "/", "**/", "[ab]", "[!a]", "[^b]", "[a-b]", "[b-a]", "[]a]", "[]", "[", "]",
        "\\", "\\*", "\\/", "\\a", "-", "!", "^", "\u00e9", "[\u00e0-\u00ff]", "[a-]", "[!]a]", "[\\]a]", "[+-9]", ".", "***", "[/]",
        "[!/]", "[--a]", "\U0001f600", "[a\\-b]", "[\U0001f5ff-\U0001f601]"]


def some_paths(draw, count):
    """Paths of files that can stand in one folder."""
    files, folders = set(), set()
    for _ in range(count):
        parts = ["".join(draw.choices(NAMES, k=draw.choice([1, 1, 2]))) for _ in range(draw.randrange(1, 5))]
        above = {"/".join(parts[:at]) for at in range(1, len(parts))}
        if not above & files and "/".join(parts) not in folders:
            files.add("/".join(parts))
            folders |= above
    return sorted(files)


def some_glob(draw, paths):
    """A glob of any parts, or one that is made of one of these paths."""
    if draw.random() < 0.5:
        return "".join(draw.choices(BITS, k=draw.randrange(0, 8)))
    found = ""
    for letter in draw.choice(paths):
        kind = draw.random()
        found += ("*" if kind < 0.15 else "?" if kind < 0.25 and letter != "/" else "" if kind < 0.3 else "**/" if kind < 0.33
                  else f"\\{letter}" if letter in "*?[\\" and kind < 0.9 else letter)
    if draw.random() < 0.5:
        found = found[:draw.randrange(len(found) + 1)] + draw.choice(["", "*", "/", "**", "/*", "/**", "**/"])
    return found

"""The command line: a command, its options in any place, and its arguments."""
import os
import re

from many.ends import Help, Misuse

LETTERS = {"j": "jobs", "q": "quiet", "h": "help", "V": "version"}
VALUED = {"jobs", "parts", "hosts", "keep", "name", "piece-length", "exclude", "file"}
OF_RUNS, OF_PARTS, OF_CHECKS = {"jobs", "hosts", "anew"}, {"parts", "keep"}, {"bad", "json", "extra", "summary", "quiet"}
OF_TORRENTS = {"name", "piece-length", "hybrid", "exclude", "follow-symlinks", "skip-special"}
TAKES = {
    "check": OF_RUNS | OF_PARTS | OF_CHECKS,
    "create": OF_RUNS | OF_PARTS | OF_TORRENTS | {"no-clobber", "file"},
    "archive": OF_RUNS | OF_CHECKS,
    "slurm": OF_PARTS | {"anew", "submit"},
}
ARGUMENTS = {"check": 2, "create": 2, "archive": 3, "slurm": 2}


class Words(dict):
    """The options of a command by their names. `places` has its arguments, `given` what `btcheck create` is given of it."""

    def __init__(self, command, words):
        super().__init__()
        self.command, self.places, self.given, self.rest = command, [], [], words[::-1]
        while self.rest:
            word = self.rest.pop()
            if word == "--":
                self.places += self.rest[::-1]
                break
            if word.startswith("--"):
                name, *value = word[2:].split("=", 1)
                self.take(name, f"--{name}", value)
            elif word.startswith("-") and word != "-":
                self.take_letter(word[1], word[2:])
            else:
                self.places.append(word)
        self.see()

    def take_letter(self, letter, more):
        """An option of one letter: behind it stand its value or further letters."""
        name = LETTERS.get(letter, "")
        if name in VALUED:
            return self.take(name, f"-{letter}", [re.sub("^=", "", more)] if more else [])
        if more:
            self.rest.append(f"-{more}")
        self.take(name, f"-{letter}", [])

    def take(self, name, said, value):
        """An option, with the value that was written with it."""
        if name == "help":
            raise Help
        if name not in TAKES[self.command]:
            is_known = any(name in names for names in TAKES.values())
            raise Misuse(f"{self.command} takes no {said}" if is_known else f"there is no option {said}")
        if name in VALUED and not value:
            value = [self.rest.pop()] if self.rest else []
        if len(value) != (name in VALUED):
            raise Misuse(f"{said} takes no value" if value else f"{said} needs a value")
        self[name] = value[0] if value else ""
        if name in OF_TORRENTS:
            self.given.append("=".join([f"--{name}", *value]))

    def see(self):
        """Refuses what is seen to be wrong without btcheck."""
        for name in ("jobs", "parts"):
            if name in self and not re.fullmatch("[1-9][0-9]{0,4}", self[name]):
                raise Misuse(f"--{name} needs a number from 1 to 99999")
        if len(self.places) != ARGUMENTS[self.command] - ("file" in self):
            raise Misuse(f"{self.command} needs other arguments")
        if self.command == "create" and not {"name", "piece-length"} <= self.keys():
            raise Misuse("create needs --name and --piece-length")

    def folder(self):
        """The argument DIR, or the folder that the file of --file is in."""
        if "file" in self:
            return os.path.dirname(self["file"]) or "."
        return self.places[0 if self.command == "create" else 1]

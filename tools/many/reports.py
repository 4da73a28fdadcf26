"""What is printed of the reports of a round."""
import collections
import contextlib
import json
import os

from many.lines import ALL_GOOD, is_of_unread, is_whole, kind_of
from many.texts import counted, is_utf8, object_line, on_one_line, put, raw, tell


class Reports:
    """The reports of these torrents, in a folder."""

    def __init__(self, folder, names, as_json):
        self.folder, self.names, self.as_json = folder, names, as_json
        self.tally, self.faults = collections.Counter(), 0

    def are_whole(self):
        """Whether each torrent has a whole report, or an error."""
        return all(is_whole(f"{self.folder}/{name}.report") or os.path.exists(f"{self.folder}/{name}.error") for name in self.names)

    def put(self, kind):
        """Prints the lines of all reports of a kind, with the torrents' names; of whole reports those of what is not good."""
        for name in sorted(self.names, key=lambda name: raw(f"{name}.{kind}")):
            with contextlib.suppress(FileNotFoundError), open(f"{self.folder}/{name}.{kind}", "rb") as lines:
                self.faults += kind == "error"
                told = [self.line(name, kind, line.rstrip(b"\n")) for line in lines if self.is_printed(kind, line)]
                if told:
                    put(b"".join(told))

    def is_printed(self, kind, line):
        """Whether a line of this kind of text is printed: of reasons those why a file was not read."""
        if kind == "reasons":
            return is_of_unread(line)
        return kind != "report" or self.is_told(line)

    def is_told(self, line):
        """Counts a line of a report. Tells whether it is of what is not good."""
        kind = kind_of(line)
        self.tally[kind] += 1
        return kind not in ALL_GOOD

    def line(self, name, kind, line):
        """A line with the torrent's name before it, or in it."""
        if not self.as_json:
            return raw(f"{on_one_line(name)}: ") + line + b"\n"
        what, _, text = line.partition(b": ")
        value = json.loads(line) if kind == "report" else {"kind": what.decode(errors="replace"), "text": text.decode(errors="replace")}
        return object_line(value | ({"torrent": name} if is_utf8(name) else {"torrent_hex": raw(name).hex()}))

    def tell_count(self):
        """Tells how many torrents are good."""
        good = self.tally["yes"]
        others = len(self.names) - good - self.faults
        more = f", {others} not good" * (others > 0) + f", {self.faults} with a fault" * (self.faults > 0)
        tell(f"{counted(len(self.names), 'torrent')}, {good} good{more}\n".encode())

    def status(self):
        """0 if all is good, 1 if something is not, 2 if there was a fault."""
        return 2 if self.faults else int(self.tally["yes"] < len(self.names))

"""One torrent in parts: which of them are there, how the others are done, and how far they are."""
import itertools
import os
import re
import shutil
import sys
import threading
from bisect import bisect_right

from many.crew import Task, processors
from many.ends import Fault
from many.looks import remove
from many.runs import Run, place_of
from many.texts import counted, raw, say, tell

# How a line begins that each part says of what it leaves out, as the listing before them did.
LEFT_OUT = b"left out: "


def begin_parts(words, crew, about, beside):
    """The folder of a run in parts, the number of parts, and whether it goes on with what was stopped."""
    run = Run(place_of(words, about, beside), crew)
    about = {**about, "parts": count_of_parts(words, about, run.known("about"))}
    is_on = run.goes_on(about, "anew" in words)
    os.makedirs(run.path("parts"), exist_ok=True)
    run.link("folder", words.folder())
    return run, about["parts"], is_on


def count_of_parts(words, about, known):
    """Into how many parts a run is cut. If nobody says, one that was stopped stays cut as it was."""
    if "parts" in words:
        return int(words["parts"])
    if known == {**about, "parts": known.get("parts")}:
        return known["parts"]
    return 64 if "hosts" in words or words.command == "slurm" else jobs_of(words)


def jobs_of(words):
    """How many are to run at once."""
    return int(words.get("jobs", 0)) or processors()


class Parts:
    """The parts of a check, or of a torrent that is made. `files` has the length of each file by its path, in their order."""

    def __init__(self, words, crew, run, files, count):
        self.words, self.crew, self.run, self.count = words, crew, run, count
        self.files, self.ends = len(files), [0, *itertools.accumulate(files.values())]
        self.first, self.done, self.at_work = set(), set(), {}

    def there(self):
        """The parts that are whole."""
        return {int(name) for name in os.listdir(self.run.path("parts")) if name.isdigit()}

    def path(self, part):
        """Where a part is kept."""
        return self.run.path(f"parts/{part}")

    def paths(self):
        """The parts as arguments, in the folder of the run."""
        return sorted(f"parts/{part}" for part in self.there())

    def task(self, part, words):
        """The task that does a part by these words."""
        return Task(f"parts/{part}", f"errors/{part}.reasons", f"errors/{part}.error", words)

    def forget(self, parts, why):
        """Has these parts done anew."""
        for part in parts:
            remove(self.path(part))
        if parts:
            say(f"{len(parts)} of {counted(self.count, 'part')} anew: {why}")

    def do(self, task_of, begun):
        """Does each part that is not there. If one then still is not, that is a fault."""
        self.first = self.there()
        if self.first:
            say(f"{len(self.first)} of {self.count} parts are there already")
        self.make_errors()
        todo = [part for part in range(1, self.count + 1) if part not in self.first]
        if "hosts" in self.words:
            self.crew.keep_afar([task_of(part) for part in todo], self.words, self.far)
        else:
            self.crew.work(todo, lambda part: self.keep(part, task_of(part), begun), min(jobs_of(self.words), len(todo)), self.near)
        is_whole = len(self.there()) == self.count
        self.tell_reasons(is_whole)
        if not is_whole:
            raise Fault("not all parts are done; the same line goes on")

    def make_errors(self):
        """The folder for what parts have to say of faults, with nothing in it."""
        shutil.rmtree(self.run.path("errors"), ignore_errors=True)
        os.mkdir(self.run.path("errors"))

    def keep(self, part, task, begun):
        """Does a part here."""
        self.at_work[threading.get_ident()] = part
        if self.crew.keep(task, f"{begun}/{part}"):
            self.done.add(part)
        del self.at_work[threading.get_ident()]

    def tell_reasons(self, is_whole):
        """Why there is no part, and on a terminal why files could not be read, each line once."""
        kind = ".reasons" if is_whole else ".error"
        told = {}
        for name in sorted(os.listdir(self.run.path("errors"))):
            if name.endswith(kind) and (sys.stderr.isatty() or not is_whole):
                with open(self.run.path(f"errors/{name}"), "rb") as file:
                    told.update(dict.fromkeys(line for line in file if not line.startswith(LEFT_OUT)))
        tell(b"".join(map(self.named, told)))

    def named(self, line):
        """A line with the paths of DIR and of TORRENT in place of their links."""
        line = re.sub(rb"^(\w+: (?:[\w :]+ )?)folder(?:(/)/*|$)",
                      lambda found: found[1] + raw(self.words.folder()) + (found[2] or b""), line)
        return re.sub(rb"^(hint: try check )torrent ", lambda found: found[1] + raw(self.words.places[0]) + b" ", line)

    def share(self, part):
        """From which byte to which a part goes, of all files one behind the other."""
        each = self.ends[-1] // self.count
        return (part - 1) * each, self.ends[-1] if part == self.count else part * each

    def near(self):
        """The line of progress, by what the processes here have read."""
        read = self.crew.read_now()
        spans = [self.share(part) for part in list(self.done)]
        for thread, part in list(self.at_work.items()):
            start, end = self.share(part)
            spans.append((start, min(end, start + read.get(thread, 0))))
        files = sum(bisect_right(self.ends, end, 1) - bisect_right(self.ends, start, 1) for start, end in spans)
        return self.line(len(self.done), f"{files} of ", spans)

    def far(self):
        """The line of progress, by the parts that other machines have done."""
        done = self.there() - self.first
        return self.line(len(done), "", map(self.share, done))

    def line(self, done, files, spans):
        """How many parts and files are done, and which bytes of all."""
        before, now = (sum(end - start for start, end in them) for them in (map(self.share, self.first), spans))
        rate = self.crew.screen.rate(now, self.ends[-1] - before)
        return f"{len(self.first) + done} of {counted(self.count, 'part')}, {files}{counted(self.files, 'file')}, {rate}"

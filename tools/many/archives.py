"""`btcheck-many archive`: a round over all torrents of a folder, whose reports are kept."""
import contextlib
import json
import os
import stat
import subprocess
import threading
import time

from many.checks import tell_summary
from many.crew import Task, processors
from many.ends import Fault
from many.lines import files_shown, is_whole
from many.looks import begins, look, looks_below, remove, size_of
from many.parts import jobs_of
from many.reports import Reports
from many.runs import Run, digest
from many.texts import counted, is_utf8, on_one_line, reason, say, some

KINDS = ("report", "reasons", "error")


def archive(words, crew):
    """Checks all torrents of a folder, keeps their reports, and prints what is not good."""
    for folder in words.places[:2]:
        if not os.path.isdir(folder):
            raise Fault(f"there is no folder {folder}")
    its = Round(words, crew)
    names = its.check_all()
    reports = Reports(its.reports, names, "json" in words)
    if not reports.are_whole():
        raise Fault("not all torrents are done; the same line goes on")
    for kind in KINDS:
        reports.put(kind)
    if "quiet" not in words:
        reports.tell_count()
    if "summary" in words:
        tell_summary(reports.tally, its.read, crew.screen)
    its.run.leave()
    return reports.status()


class Round:
    """A round. It keeps in REPORTS/.btcheck-many, for each torrent that it begins with, how its files stand then."""

    def __init__(self, words, crew):
        self.words, self.crew = words, crew
        self.torrents, self.content, self.reports = words.places
        self.options = [f"--{name}" for name in ("bad", "json", "extra") if name in words]
        self.before = self.total = self.done = self.files = self.read = 0

    def check_all(self):
        """Checks each torrent that is not done, and those that come meanwhile. Gives the names of all."""
        names = self.listed(say_cannot_list)
        if not names:
            raise Fault("there is no torrent")
        done = self.begin(names)
        self.before = len(done)
        with open(self.run.path("looks"), "ab") as self.looks:
            self.looks.write(b"\n")  # (the last line may be cut)
            while todo := {name: names[name] for name in sorted(names.keys() - done)}:
                self.total = len(names)
                self.check(todo)
                done |= todo.keys()
                before, names = names, self.listed()
                self.forget(before.keys() - names.keys())
                if came := names.keys() - done:
                    say(f"{counted(len(came), 'torrent')} came meanwhile: {some(came)}")
        return names

    def listed(self, onerror=None):
        """Where each torrent is below TORRENTS, by its name. A folder is no torrent, whatever its name."""
        found, own = {}, os.path.realpath(f"{self.reports}/.btcheck-many")
        for at, folders, names in os.walk(self.torrents, onerror=onerror):
            folders[:] = [name for name in folders if os.path.realpath(f"{at}/{name}") != own]
            for name in names:
                path = f"{at}/{name}"
                if not name.endswith(".torrent") or os.path.isdir(path):
                    continue
                if name[:-8] in found:
                    raise Fault(f"two torrents have the name {on_one_line(name)}")
                found[name[:-8]] = os.path.relpath(path, self.torrents)
        return found

    def begin(self, names):
        """Enters the folder of the round. Gives the torrents that are done, of a round that was stopped."""
        try:
            os.makedirs(self.reports, exist_ok=True)
        except OSError as why:
            raise Fault(f"cannot make the folder of reports{reason(why)}") from why
        self.run = Run(f"{self.reports}/.btcheck-many", self.crew)
        is_on = self.run.goes_on({"command": "archive", "torrents": os.path.realpath(self.torrents),
                                  "content": os.path.realpath(self.content), "options": self.options}, "anew" in self.words)
        for name in ("torrents", "content", "reports"):
            self.run.link(name, getattr(self, name))
        os.makedirs(self.run.path("links"), exist_ok=True)
        self.begun = self.run.begin(time.time_ns())
        return self.still_done(names) if is_on else self.begin_anew(names)

    def begin_anew(self, names):
        """Removes the reports of the round before: what is kept of these torrents, and all else that is a report of a check."""
        self.forget(names)
        for entry in list(os.scandir(self.reports)):
            if entry.is_file(follow_symlinks=False) and is_kept(entry.path):
                remove(entry.path)
        return set()

    def still_done(self, names):
        """The torrents whose reports still hold. What is kept of others is forgotten, and what changed is said."""
        stands = {}
        with contextlib.suppress(FileNotFoundError), open(self.run.path("looks"), "rb") as looks:
            for line in looks:
                with contextlib.suppress(ValueError, KeyError, TypeError):
                    known = json.loads(line)
                    stands[known["name"]] = known["torrent"] == names.get(known["name"]) and self.stands(**known)
        done = {name for name, holds in stands.items() if holds and is_whole(self.path(name, "report"))}
        anew = {name for name in stands.keys() & names.keys() - done if os.path.exists(self.path(name, "report"))}
        self.forget((names.keys() | stands.keys()) - done)
        say(f"goes on with the round that was stopped: {len(done)} of {counted(len(names), 'torrent')} are done")
        if anew:
            say(f"{counted(len(anew), 'torrent')} anew, since files changed: {some(anew)}")
        return done

    def stands(self, name, torrent, named, folder, looks):
        """Whether a torrent and its files stand as they did when it was begun with."""
        return folder == self.folder(name, named) and looks == self.looks_now(torrent, folder, looks.keys() - {""})

    def looks_now(self, torrent, folder, paths):
        """How a torrent, whose path is empty here, and its files stand."""
        return {"": look(f"{self.torrents}/{torrent}"), **looks_below(f"{self.content}/{folder}", paths)}

    def folder(self, name, named):
        """Where below CONTENT the files of a torrent lie. Its names come from strangers: they lead to a folder there alone."""
        for each in (name, named):
            if each not in ("", ".", "..") and "/" not in each and os.path.isdir(f"{self.content}/{each}"):
                return each
        return "."

    def path(self, name, kind):
        """Where something is kept of a torrent."""
        return f"{self.reports}/{name}.{kind}"

    def forget(self, names):
        """Removes what is kept of these torrents."""
        for name in names:
            for kind in KINDS:
                remove(self.path(name, kind))

    def check(self, todo):
        """Checks these torrents, here or on other machines."""
        if "hosts" not in self.words:
            return self.crew.work(todo.items(), self.check_one, min(jobs_of(self.words), len(todo)), self.near)
        tasks = []
        self.crew.work(todo.items(), lambda item: tasks.append(self.task(*item)), processors(),
                       lambda: f"looked at {len(tasks)} of {counted(len(todo), 'torrent')}")
        self.read += sum(size for _, _, size in tasks)
        self.crew.keep_afar([task for task, _, _ in tasks], self.words, self.far)

    def check_one(self, item):
        """Checks one torrent here."""
        task, files, size = self.task(*item)
        self.crew.keep(task, f"{self.begun}/{threading.get_ident()}")
        with self.crew.turn:
            self.done, self.files, self.read = self.done + 1, self.files + files, self.read + size

    def task(self, name, torrent):
        """The task that checks a torrent, now that it is noted how its files stand; their number, and their bytes."""
        named, files = self.shown(f"{self.torrents}/{torrent}")
        folder = self.folder(name, named)
        looks = self.looks_now(torrent, folder, files)
        line = {"name": name, "torrent": torrent, "named": named, "folder": folder, "looks": looks}
        with self.crew.turn:
            self.looks.write(json.dumps(line).encode() + b"\n")
            self.looks.flush()
        places = self.places(name, f"torrents/{torrent}", "content" if folder == "." else f"content/{folder}")
        kept = (f"reports/{name}.{kind}" for kind in KINDS)
        return Task(*kept, ["check", *places, "--reasons", *self.options]), len(files), sum(size_of(looks[path]) for path in files)

    def shown(self, path):
        """The name of a torrent, and its files; nothing of one that `check` will not open."""
        with contextlib.suppress(OSError):
            if stat.S_ISREG(os.stat(path).st_mode):
                with open(path, "rb") as source:
                    status, text, _ = self.crew.spawn([self.crew.btcheck, "show", "/dev/stdin"], subprocess.PIPE, source=source)
                return files_shown(text) if status == 0 else ("", {})
        return "", {}

    def places(self, name, torrent, folder):
        """The paths of a torrent and of its folder as arguments: links where btcheck does not take them."""
        if is_utf8(torrent + folder):
            return torrent, folder
        links = f"links/{digest(name)}.torrent", f"links/{digest(name)}.folder"
        for link, to in zip(links, (torrent, folder)):
            self.run.link(link, self.run.path(to))
        return links

    def near(self):
        """The line of progress of a round here."""
        rate = self.crew.screen.rate(self.read + sum(self.crew.read_now().values()))
        return f"{self.before + self.done} of {counted(self.total, 'torrent')}, {counted(self.files, 'file')}, {rate}"

    def far(self):
        """The line of progress of a round on other machines."""
        done = sum(name.endswith((".report", ".error")) for name in os.listdir(self.reports))
        return f"{min(done, self.total)} of {counted(self.total, 'torrent')}"


def say_cannot_list(why):
    """A folder below TORRENTS cannot be listed."""
    say(f"cannot list {why.filename}: {os.strerror(why.errno).lower()}")


def is_kept(path):
    """Whether a file is what a round keeps of a torrent."""
    if path.endswith(".report"):
        return is_whole(path)
    if path.endswith(".error"):
        return begins(path, b"fault: ")
    return path.endswith(".reasons") and (begins(path, b"reason: ") or begins(path, b"hint: "))

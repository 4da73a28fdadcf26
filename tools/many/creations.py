"""`btcheck-many create`: one torrent is made in parts."""
import hashlib
import io
import os
import subprocess

from many.ends import Ended, Fault
from many.lines import files_listed, front_of
from many.looks import changed, looks_below, remove
from many.parts import Parts, begin_parts
from many.texts import is_utf8, put, reason, some, tell

# The first of that many parts has no piece.
NO_PART = f"1/{(1 << 64) - 1}"


def create(words, crew):
    """Makes the torrent of a folder or of a file, the one that `btcheck create` makes."""
    folder, out = words.folder(), words.places[-1]
    if not os.path.isdir(folder):
        raise Fault(f"there is no folder {folder}")
    if "no-clobber" in words and os.path.lexists(out):
        raise Fault(f"cannot write {out}\nreason: it is there already")
    parts, begun = begin(words, crew, front_now(words, crew, folder))
    parts.do(lambda part: task_of(parts, part), begun)
    end_if_refused(parts)
    return assemble(words, crew, parts, out)


def front_now(words, crew, folder):
    """What each part of this folder, or of its one file, has in front: a part without a piece lists it, and hashes nothing.

    So options that are wrong, what cannot be listed or is refused, and what is left out, are told once, before anything begins."""
    if not is_utf8(folder):
        folder = f"/proc/{os.getpid()}/fd/{os.open(folder, os.O_RDONLY | os.O_DIRECTORY)}"
    status, text, error = crew.ask(*words_of(words, NO_PART, folder), out=subprocess.PIPE, error=subprocess.PIPE)
    tell(error)
    if any(line.startswith(b"fault: ") for line in error.splitlines()):
        raise Fault("not all parts are done; the same line goes on")
    if status:
        put(text)
        raise Ended(status)
    return front_of(io.BytesIO(text))


def words_of(words, part, folder):
    """The words that make a part of what is in this folder."""
    origin = ["--", folder]
    if "file" in words:
        origin = ["--file", f"{folder}/{os.path.basename(words['file'])}", "--"]
    return ["create", *words.given, "--part", part, *origin, "/dev/stdout"]


def begin(words, crew, front):
    """The parts of the torrent, without those that are of other files than there are now; and the folder for what is begun."""
    folder, out = words.folder(), words.places[-1]
    files = files_listed(front)
    about = {"command": "create", "folder": os.path.realpath(folder), "options": words.given}
    if "file" in words:
        about["file"] = os.path.basename(words["file"])
    run, count, is_on = begin_parts(words, crew, about, out)
    parts = Parts(words, crew, run, files, count)
    now = {"": [hashlib.sha256(front).hexdigest()], **looks_below(folder, files)}
    if is_on:
        forget_changed(parts, front, changed(run.known("looks"), now))
    run.note("looks", now)
    return parts, run.begin(now)


def forget_changed(parts, front, paths):
    """Forgets all parts where a file changed, came or went; else those that are not whole."""
    if paths:
        return parts.forget(parts.there(), f"changed: {some(paths - {''}) or 'the folder'}")
    parts.forget({part for part in parts.there() if not has_front(parts.path(part), front)}, "they are not whole")


def task_of(parts, part):
    """The task that makes a part."""
    return parts.task(part, words_of(parts.words, f"{part}/{parts.count}", "folder/"))


def has_front(path, front):
    """Whether a part is of this folder."""
    with open(path, "rb") as part:
        return front_of(part) == front


def end_if_refused(parts):
    """A part has a refusal in its place where the folder changed meanwhile: that ends the run."""
    for part in sorted(parts.there()):
        with open(parts.path(part), "rb") as file:
            if file.read(8) == b"refused ":
                put(b"refused " + file.read())
                parts.run.leave()
                raise Ended(1)


def assemble(words, crew, parts, out):
    """Writes the torrent of all parts to OUT. With --no-clobber it takes a name there that nothing has."""
    is_taken = "no-clobber" in words
    if is_taken:
        try:
            os.close(os.open(out, os.O_WRONLY | os.O_CREAT | os.O_EXCL, 0o666))
        except OSError as why:
            raise Fault(f"cannot write {out}{reason(why)}") from why
    status, *_ = crew.ask("assemble", "--", os.path.abspath(out), *parts.paths(), out=None, error=None)
    if status <= 1:
        parts.run.leave()
    elif is_taken:
        remove(out)
    return status

"""`btcheck-many check` and `slurm`: one torrent is checked in parts."""
import collections
import os
import subprocess
import sys

from many.ends import Ended, Fault
from many.lines import VERDICTS, extra_lines, files_shown, is_whole_part, kind_of, path_of, without_good
from many.looks import changed, look, looks_below
from many.parts import Parts, begin_parts
from many.texts import put, raw, reason, size_text, some, tell

SUBMIT = r"""#!/bin/sh
# Submits the check, and what joins its parts when all are done. The report is the file report of this folder.
cd "$(dirname "$0")" || exit 2
job=$(sbatch --parsable --job-name=btcheck --array=1-COUNT --mem=1G --requeue --chdir="$PWD" \
    --wrap './run TASK') || exit 2
sbatch --job-name=btcheck --dependency="afterok:$job" --chdir="$PWD" \
    --wrap 'btcheck join torrent parts/* >.report; status=$?; [ $status -gt 1 ] || mv .report report; exit $status'
"""


def check(words, crew):
    """Checks one torrent in parts, and prints what one `btcheck check` prints."""
    torrent, folder = words.places
    files = files_shown(show(words, crew, torrent))[1]
    extra = extra_lines(folder, files, "json" in words) if "extra" in words else []
    parts, begun = begin(words, crew, files)
    parts.do(lambda part: task_of(parts, part), begun)
    put(b"".join(extra))
    status = join(words, crew, parts)
    if status <= 1:
        parts.run.leave()
    return status


def show(words, crew, torrent):
    """What `show` prints of the torrent. The run ends here if it is refused or cannot be read."""
    try:
        with open(torrent, "rb") as source:
            status, text, error = crew.ask("show", "/dev/stdin", source=source, out=subprocess.PIPE, error=subprocess.PIPE)
        if status == 1 and "json" in words:
            with open(torrent, "rb") as source:
                text = crew.ask("show", "--json", "/dev/stdin", source=source, out=subprocess.PIPE)[1]
    except OSError as why:
        raise Fault(f"cannot read the torrent{reason(why) if sys.stderr.isatty() else ''}") from why
    if status:
        tell(error.replace(b"cannot read /dev/stdin", b"cannot read the torrent"))
        put(text)
        raise Ended(status)
    return text


def begin(words, crew, files):
    """The parts of the check, without those whose files changed since they were judged; and the folder for what is begun."""
    torrent, folder = words.places
    about = {"command": "check", "torrent": os.path.realpath(torrent), "folder": os.path.realpath(folder), "bad": "bad" in words}
    run, count, is_on = begin_parts(words, crew, about, torrent)
    run.link("torrent", torrent)
    parts = Parts(words, crew, run, files, count)
    now = {"": look(torrent), **looks_below(folder, files)}
    if is_on:
        forget_changed(parts, changed(run.known("looks"), now))
    run.note("looks", now)
    return parts, run.begin(now)


def forget_changed(parts, paths):
    """Forgets the parts that name one of these files; all of them where the torrent itself changed, whose path is empty."""
    gone = {part for part in parts.there() if "" in paths or not is_whole_part(parts.path(part)) or names_one(parts.path(part), paths)}
    parts.forget(gone, f"changed: {some(paths - {''}) or 'the torrent, or a part'}")


def names_one(report, paths):
    """Whether the report of a part names one of these files."""
    with open(report, "rb") as lines:
        return any(path_of(line.rstrip(b"\n")) in paths for line in lines)


def task_of(parts, part):
    """The task that checks a part."""
    bad = ["--bad"] * ("bad" in parts.words)
    return parts.task(part, ["check", "torrent", "folder", "--part", f"{part}/{parts.count}", "--reasons", *bad])


def join(words, crew, parts):
    """Prints what all parts are together, as the options want it, and gives its status."""
    is_read = not {"quiet", "summary"}.isdisjoint(words)
    status, text, _ = crew.ask("join", *["--json"] * ("json" in words), "torrent", *parts.paths(),
                               out=subprocess.PIPE if is_read else None, error=None)
    if is_read:
        lines = text.splitlines(True)
        put(b"".join(without_good(lines) if "quiet" in words else lines))
        if "summary" in words and status <= 1:
            tell_summary(collections.Counter(map(kind_of, lines)), parts.ends[-1], crew.screen)
    return status


def tell_summary(tally, size, screen):
    """Tells how many files have each verdict, and how fast they were checked."""
    seconds = screen.seconds()
    counts = ", ".join(f"{tally[kind]} {kind}" for kind in VERDICTS)
    speed = f"{size} bytes of files in {seconds:.3f} s, {size_text(size / seconds)}/s"
    tell(f"summary: {counts}\nsummary: {speed}\n".encode())


def slurm(words, crew):
    """Prints the script that submits the parts to Slurm, or runs it."""
    files = files_shown(show(words, crew, words.places[0]))[1]
    parts, _ = begin(words, crew, files)
    parts.make_errors()
    task = task_of(parts, "$SLURM_ARRAY_TASK_ID")
    script = SUBMIT.replace("COUNT", str(parts.count)).replace("TASK", " ".join([*task[:3], *task.words]))
    parts.run.script("submit", script)
    if "submit" in words:
        return crew.call(["./submit"], out=None, error=None)[0]
    put(raw(f"{os.path.abspath(parts.run.path('submit'))}\n{script}"))
    return 0

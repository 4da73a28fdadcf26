"""`btcheck check` and `btcheck create` of one file of random bytes beside the same in four parts, which run at once, by a
torrent of version 2 and by a hybrid: the time of the clock, and the processors' time of all four. The parts of a torrent
that is made are assembled behind them, and that counts too. `btcheck-many` with four processes is beside both.

Beside them four whole runs at once, which share nothing but the machine. What one of them takes longer than a run alone
is what the machine's processors lose if all are busy: on four real cores that nothing else uses, nothing. The ratios are
also given without that."""
import os
import statistics
import sys

from measuring import BTCHECK, TOP, measure, measured, need_program, report, write_random

sys.path.insert(0, os.path.join(TOP, "tests"))

COUNT = 4
# Of what one run takes, how much the four parts may at most: of the clock, on four cores that nothing else uses, and of
# the processors; and how much of the clock `btcheck-many` may.
WALL_MARK, MARK, MANY_MARK = 0.3, 1.05, 0.35


def all_at_once(parts, then=""):
    """The command that runs these at once, and then this one; it fails if one does."""
    started = " ".join(f"{part} & p{number}=$!;" for number, part in enumerate(parts))
    return ["sh", "-c", f"{started} " + " && ".join([f"wait $p{number}" for number in range(COUNT)] + ([then] if then else []))]


def by_many(folder, words):
    """The command that runs `btcheck-many` with four processes on this program."""
    return ["env", f"PATH={os.path.dirname(BTCHECK)}:{os.environ['PATH']}", "sh", "-c",
            f"cd {folder} && exec {TOP}/tools/btcheck-many {words}"]


def ratio(of, to, times):
    """How often one goes into the other: the median of the rounds."""
    return statistics.median(mine / theirs for mine, theirs in zip(times(of), times(to)))


def compare(name, commands, words):
    """Measures one run, its parts, four runs at once and `btcheck-many`, and gives the marks that are missed, in words."""
    one, four, whole, many = names = ["one run", "four parts", "four runs", "btcheck-many"]
    found = measured(dict(zip(names, commands)), words.rounds)
    print(name)
    report(found, words.size, four)
    missed, has_cores = [], (os.cpu_count() or 1) >= COUNT
    for what, times, mark in [("time", lambda of: found[of].walls, WALL_MARK),
                              ("processor time", lambda of: found[of].processors, MARK)]:
        took, alone = ratio(four, one, times), ratio(whole, one, times) / (1 if what == "time" else COUNT)
        print(f"four parts take {took:.2f} x the {what} of one run on {os.cpu_count()} processors, which take "
              f"{alone:.2f} x if all are busy: without that {took / alone:.2f} x (target {mark})")
        if has_cores and took / alone > mark:
            missed.append(f"{name}: four parts take more than {mark} x the {what} of one run")
    took = ratio(many, one, lambda of: found[of].walls)
    print(f"btcheck-many takes {took:.2f} x the time of one run (target {MANY_MARK})")
    if has_cores and took > MANY_MARK:
        missed.append(f"{name}: btcheck-many takes more than {MANY_MARK} x the time of one run")
    return missed


def checks(folder, torrent):
    """A check as a whole, in parts, four times, and by `btcheck-many`."""
    check = f"{BTCHECK} check {torrent} {folder}/files"
    parts = [f"{check} --part {number}/{COUNT}" for number in range(1, COUNT + 1)]
    return [check.split(), all_at_once(parts), all_at_once([check] * COUNT), by_many(folder, f"check -j {COUNT} {torrent} files")]


def creations(folder, kind):
    """The making of a torrent as a whole, in parts, four times, and by `btcheck-many`."""
    options = " ".join(["--name x --piece-length 1048576", *kind])
    runs = [f"{BTCHECK} create {folder}/files {folder}/out.{number} {options}" for number in range(1, COUNT + 1)]
    parts = [f"{run} --part {number + 1}/{COUNT}" for number, run in enumerate(runs)]
    outs = " ".join(f"{folder}/out.{number}" for number in range(1, COUNT + 1))
    return [runs[0].split(), all_at_once(parts, f"{BTCHECK} assemble {folder}/whole {outs}"), all_at_once(runs),
            by_many(folder, f"create -j {COUNT} files out {options}")]


def run(folder, words):
    """Measures both kinds, and gives the marks that they miss, in words."""
    need_program()
    files, missed = os.path.join(folder, "files"), []
    os.makedirs(files)
    write_random(os.path.join(files, "content"), words.size)
    for name, kind in [("version 2", []), ("hybrid", ["--hybrid"])]:
        torrent = os.path.join(folder, name.replace(" ", ""))
        measure([BTCHECK, "create", files, torrent, "--name", "x", "--piece-length", str(1 << 20), *kind])
        missed += compare(f"check, {name}", checks(folder, torrent), words)
        missed += compare(f"create, {name}", creations(folder, kind), words)
    return missed

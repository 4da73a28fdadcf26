"""`btcheck root` on one file of random bytes, beside the bare digests of its blocks; and on a file of 16 MiB in many
short rounds, whose ratio hardly sees the other work on the machine."""
import os
import shutil

from measuring import BARE, BTCHECK, measured, build_bare, missed_marks, need_program, report, write_random

# What `root` may cost at most: (of what, ratio of processor time), and the resident set in MiB.
MARKS = [("bare digests", 1.05), ("sha256sum", 1.0)]
MEMORY_MARK = 8
SHORT_SIZE = 16  # MiB
SHORT_ROUNDS = 16  # for each round that was asked for


def commands_on(path):
    commands = {
        "btcheck root": [BTCHECK, "root", path],
        "bare digests": [BARE, "digests", path],
        "reading alone": [BARE, "read", path],
    }
    if shutil.which("sha256sum"):
        commands["sha256sum"] = ["sha256sum", path]
    if shutil.which("openssl"):
        commands["openssl"] = ["openssl", "dgst", "-sha256", path]
    return commands


def short_rounds(folder, words):
    """Measures `root` on a small file, and gives the marks that it misses, in words."""
    path = os.path.join(folder, "short")
    write_random(path, SHORT_SIZE)
    commands = {name: command for name, command in commands_on(path).items() if name in ("btcheck root", "bare digests")}
    found = measured(commands, SHORT_ROUNDS * words.rounds)
    report(found, SHORT_SIZE, "btcheck root")
    return missed_marks(found, "btcheck root", MARKS)


def run(folder, words):
    """Measures `root`, and gives the marks that it misses, in words."""
    need_program()
    build_bare()
    path = os.path.join(folder, "content")
    write_random(path, words.size)
    found = measured(commands_on(path), words.rounds)
    report(found, words.size, "btcheck root")
    missed = missed_marks(found, "btcheck root", MARKS) + short_rounds(folder, words)
    if found["btcheck root"].peak > MEMORY_MARK * 1024:
        missed.append(f"btcheck root takes more than {MEMORY_MARK} MiB")
    return missed

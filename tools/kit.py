"""The crates of crates.txt, and how the kit's prover is called on one of them."""
import os
import re
import shutil
import subprocess
import sys
import time

TOP = os.path.dirname(os.path.dirname(os.path.abspath(__file__)))
KIT = os.path.dirname(os.path.dirname(os.path.realpath(shutil.which(os.environ.get("RT", "rt")) or "rt")))
# How many seconds pass between two lines on how far a proof is.
TOLD_EVERY = 30
LOGIC = ["--antt-project", f"{KIT}/rattle/logic/antt-project.json", "--logic-built", f"{KIT}/logic_built"]


def crates():
    """What each crate lists in crates.txt, of the repository and of the kit, by its name."""
    with open(f"{TOP}/crates.txt", encoding="utf-8") as file:
        lines = [line.split("#")[0].partition(":") for line in file]
    return {name.split()[0]: used.split() for name, _, used in lines if name.strip()}


def below(name, uses):
    """The repository's libraries below a crate, each behind those that it uses."""
    found = []
    for used in uses[name]:
        if used in uses:
            found += [it for it in [*below(used, uses), used] if it not in found]
    return found


def rlib(name):
    """Where a library stands once it is proved."""
    return f"{TOP}/crates/{name}/out/rlib/{name}.rlib"


def command(name, *more):
    """The command that proves a crate over the libraries below it, and compiles it."""
    return command_over(name, crates(), *more)


def command_over(name, uses, *more):
    """The same for a crate that these list, with what each uses."""
    found = {it: rlib(it) if it in uses else f"{KIT}/rlibs/{it}.rlib" for it in ["std", *uses[name]]}
    places = [f"{KIT}/rlibs", *(os.path.dirname(rlib(it)) for it in below(name, uses))]
    return [f"{KIT}/bin/rattle", "build", "--crate-name", name, *(f"--extern={it}={at}" for it, at in found.items()),
            *(f"-Ldependency={it}" for it in places), *LOGIC, "--links", f"{name}=", *more]


def run(words, name, **how):
    """Runs a command in a crate's folder."""
    return subprocess.run(words, cwd=f"{TOP}/crates/{name}", stdin=subprocess.DEVNULL, **how)


def linking(program):
    """The command that links a program from its object, program.o."""
    c_code = [f"{KIT}/c/{it}.a" for it in ("libos_c", "liblibc_c")]
    return [f"{KIT}/bin/rattle-link", "--target", "x86_64-unknown-linux-gnu", "--toolchain", f"{KIT}/toolchain",
            "-o", program, f"{program}.o", *c_code]


def logged(words, name, log, tells=False):
    """Runs a command in a crate's folder, with all that it prints in build/proofs/LOG. If it tells, says from time to time
    how far it is; if it fails, prints the end of that file. Gives whether it went well."""
    os.makedirs(f"{TOP}/build/proofs", exist_ok=True)
    path, since = f"{TOP}/build/proofs/{log}", time.monotonic()
    with open(path, "wb") as out, subprocess.Popen(words, cwd=f"{TOP}/crates/{name}", stdin=subprocess.DEVNULL, stdout=out,
                                                   stderr=subprocess.STDOUT) as running:
        while True:
            try:
                status = running.wait(TOLD_EVERY if tells else None)
                break
            except subprocess.TimeoutExpired:
                print(f"  {name}: {how_far(path)}; {(time.monotonic() - since) / 60:.1f} min so far", flush=True)
    if not status:
        return True
    with open(path, encoding="utf-8", errors="replace") as file:
        sys.stderr.write("".join(file.readlines()[-20:]))
    print(f"{name} is not proved: {path} says why", file=sys.stderr, flush=True)
    return False


def how_far(path):
    """How far a proof is, by what it prints: each function that was checked, and how many there are. Behind the last comes
    the code, of which nothing is printed."""
    with open(path, encoding="utf-8", errors="replace") as file:
        counts = re.findall(r"(?m)^(?:checked .*,|so far:) (\d+) of (\d+)\b", file.read())
    done, of = counts[-1] if counts else ("0", "0")
    if not counts:
        return "what it uses is being read"
    return "its code is being made" if done == of else f"{done} of {of} functions are checked"


def lanes():
    """How many proofs run side by side: one a processor, as far as 4 GiB for each are free."""
    with open("/proc/meminfo", encoding="ascii") as file:
        free = next(int(line.split()[1]) for line in file if line.startswith("MemAvailable"))
    return max(1, min(len(os.sched_getaffinity(0)), free >> 22))

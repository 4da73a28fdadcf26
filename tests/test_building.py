"""What `make` does with the toolchain, in a copy of the repository's own build files with a toolchain that proves nothing."""
import os
import re
import shutil
import subprocess

from support import TOP, folder, need, write, written

# The prover's place: notes which crate it is called for, and makes a library, or an object that says for which kind of
# processor it is. The linker's: hands that on.
PROVER = r"""#!/bin/sh
here=$(dirname "$0")
while [ $# -gt 0 ]; do
    case $1 in
    --crate-name) name=$2 ;;
    --cpu=*) kind=${1#--cpu=} ;;
    --jobs) jobs=$2 ;;
    -o) to=$2 ;;
    esac
    shift
done
echo "$name $kind $jobs" >> "$here/calls"
if [ -n "$kind" ] && [ -e "$here/waits" ]; then
    sleep 0.5; echo "so far: 0 of 2 functions checked; the verdict comes last"; sleep 0.5; echo "checked $name::main, 1 of 2"; sleep 0.5
    echo "checked $name::help, 2 of 2"; sleep 0.5
fi
if [ "$name" = "$(cat "$here/fails")" ] || [ "$kind" = x86-64-v4 ]; then echo "fn $name: not proved"; exit 1; fi
if [ -n "$kind" ]; then echo "$kind" > "$to"; else mkdir -p "$to" && { echo "$name"; cat "$here/differs"; } > "$to/format"; fi
"""
LINKER = r"""#!/bin/sh
while [ "$1" != -o ]; do shift; done
cp "$3" "$2"
"""


class Copy:
    """A copy of the build files, with the crates of crates.txt as empty folders."""

    def __init__(self, place):
        self.place, self.bin = f"{place}/copy", f"{place}/bin"
        os.makedirs(self.bin)
        shutil.copytree(f"{TOP}/tools", f"{self.place}/tools")
        for name in ("Makefile", "library.mk", "crates.txt"):
            shutil.copy(f"{TOP}/{name}", self.place)
        self.crates = re.findall(r"(?m)^(\w+)", written(f"{TOP}/crates.txt").decode())
        for crate in self.crates:
            os.makedirs(f"{self.place}/crates/{crate}/src")
        for name, text in [("rt", "#!/bin/sh\n"), ("rattle", PROVER), ("rattle-link", LINKER)]:
            self.set(name, text)
            os.chmod(f"{self.bin}/{name}", 0o755)
        write(f"{place}/KIT-ID", b"a kit that proves nothing")
        self.set("fails", "")
        self.set("differs", "")

    def set(self, name, text):
        write(f"{self.bin}/{name}", text.encode())

    def make(self, *words):
        """The status, all that is printed, and the calls of the toolchain."""
        self.set("calls", "")
        env = {**os.environ, "PATH": f"{self.bin}:{os.environ['PATH']}", "CPU": ""}
        done = subprocess.run(["make", *words], cwd=self.place, env=env, stdout=subprocess.PIPE, stderr=subprocess.STDOUT, text=True)
        return done.returncode, done.stdout, written(f"{self.bin}/calls").decode().splitlines()

    def built(self, name="build/btcheck"):
        return written(f"{self.place}/{name}").decode().strip()

    def lines(self, told):
        """The libraries whose lines are printed, in their order."""
        return re.findall(r"(?m)^  \d+ of \d+: (\w+) \(\d+ s; \d+ min in all\)$", told)


def test_make_says_how_far_it_is():
    """At its start how long it may take; then each library once it is proved, behind those that it uses; and what is not
    proved, with the status of a failure."""
    need("make")
    with folder() as place:
        copy = Copy(place)
        status, told, calls = copy.make()
        assert status == 0, told
        libraries = [call.split()[0] for call in calls][:-1]
        assert f"proving {len(libraries)} libraries, then btcheck: 15 to 30 minutes the first time" in told, told
        assert sorted(copy.lines(told)) == sorted(libraries) and len(libraries) == len({*libraries}), told
        uses = dict(line.split("#")[0].strip().split(":") for line in open(f"{TOP}/crates.txt", encoding="utf-8") if ":" in line)
        for at, library in enumerate(libraries):
            assert {*uses[library].split()} & {*copy.crates} <= {*libraries[:at]}, library
        assert "last: btcheck" in told and calls[-1].startswith("btcheck ")
        shutil.rmtree(f"{copy.place}/build")
        shutil.rmtree(f"{copy.place}/crates/hashtree/out")
        copy.set("fails", "hashtree")
        status, told, calls = copy.make()
        assert status != 0 and "hashtree is not proved" in told and "fn hashtree: not proved" in told, told
        assert [call.split()[0] for call in calls] == ["hashtree"] and not os.path.exists(f"{copy.place}/build/btcheck"), calls


def test_make_says_how_far_its_last_step_is():
    """What is read, how many functions are checked, and that the code is made, of the program and of the library."""
    need("make")
    with folder() as place:
        copy = Copy(place)
        kit = f"{copy.place}/tools/kit.py"
        write(kit, re.sub(rb"(?m)^TOLD_EVERY = \d+$", b"TOLD_EVERY = 0.1", written(kit)))
        copy.set("waits", "")
        write(f"{copy.place}/crates/btcheck_c/src/lib.rt", b"")
        for goal, name in [("build/x86-64-v2/btcheck", "btcheck"), ("crates/btcheck_c/out/libbtcheck_c.a", "btcheck_c")]:
            status, told, _ = copy.make(goal)
            assert status == 0, told
            steps = re.findall(rf"(?m)^  {name}: (.*); \d+\.\d min so far$", told)
            assert list(dict.fromkeys(steps)) == ["what it uses is being read", "0 of 2 functions are checked", "1 of 2 functions are checked",
                                                  "its code is being made"], told


def test_make_proves_what_changed():
    """A library is proved again if one of its files changed, and then each that stands on it, and no other."""
    need("make")
    with folder() as place:
        copy = Copy(place)
        assert copy.make()[0] == 0
        write(f"{copy.place}/crates/pieces/src/lib.rt", b"// changed")
        status, told, calls = copy.make()
        assert status == 0, told
        changed = [call.split()[0] for call in calls]
        assert changed[0] == "pieces" and changed[-1] == "btcheck" and "opening" in changed, changed
        assert not {"benc", "hashtree", "wire", "chains"} & {*changed}, changed
        assert len(copy.lines(told)) > len(changed)


def test_make_proves_over_what_was_built():
    """A library that is built again of the same files is the same, and those above it stay; if another build of it differs,
    they are proved again."""
    need("make")
    with folder() as place:
        copy = Copy(place)
        assert copy.make()[0] == 0
        for differs, above in [("", False), ("another build", True)]:
            copy.set("differs", differs)
            shutil.rmtree(f"{copy.place}/build")
            shutil.rmtree(f"{copy.place}/crates/pieces/out")
            status, told, calls = copy.make()
            assert status == 0, told
            proved = [call.split()[0] for call in calls]
            assert proved[0] == "pieces" and proved[-1] == "btcheck" and ("opening" in proved) == above, proved


def test_make_for_each_processor():
    """One program for each kind, each built once over the same proofs, and build/btcheck is that of the last call. A kind that
    the toolchain does not know gives no program."""
    need("make")
    machine = subprocess.run([f"{TOP}/tools/processor"], check=True, stdout=subprocess.PIPE, text=True).stdout.strip()
    with folder() as place:
        copy = Copy(place)
        for words, kind, times in [(["CPU=x86-64-v3"], "x86-64-v3", 1), (["CPU=x86-64-v2"], "x86-64-v2", 1),
                                   (["CPU=x86-64-v3"], "x86-64-v3", 0), ([], machine, 0)]:
            status, told, calls = copy.make(*words)
            assert status == 0, told
            assert copy.built() == copy.built(f"build/{kind}/btcheck") == kind, (words, copy.built())
            assert sum(call.startswith("btcheck ") for call in calls) == times, calls
        status, told, _ = copy.make("CPU=x86-64-v4")
        assert status != 0 and not os.path.exists(f"{copy.place}/build/x86-64-v4/btcheck"), told


def test_make_without_the_toolchain():
    """It says what is missing."""
    need("make")
    with folder() as place:
        status, told, _ = Copy(place).make("RT=no-such-command")
        assert status != 0 and "there is no command 'no-such-command' on the path" in told, told


def test_make_says_what_is_missing_first():
    """What a goal needs is looked for before anything is proved; and the last line says what is ready."""
    need("make")
    with folder() as place:
        copy = Copy(place)
        for goal in ("lib", "static", "both", "deb"):
            status, told, calls = copy.make(goal, "CC=no-compiler", "LD=no-linker")
            assert status != 0 and not calls and "no-compiler no-linker" in told and "apt install" in told, (goal, told)
        status, told, _ = copy.make("CC=no-compiler", "LD=no-linker")
        assert status == 0 and told.splitlines()[-1].startswith("build/btcheck is ready: try"), told


def test_make_help():
    """It names what can be asked for, and needs nothing."""
    need("make")
    with folder() as place:
        status, told, _ = Copy(place).make("-s", "help", "RT=no-such-command")
        goals = {goal for text in ("Makefile", "library.mk") for line in re.findall(r"(?m)^\.PHONY: (.*)$", written(f"{TOP}/{text}").decode())
                 for goal in line.split()}
        assert status == 0 and told.startswith("make  "), told
        lacking = [goal for goal in goals - {"FORCE", "all", "install-lib", "uninstall-lib"} if not re.search(rf"(?m)^make {goal} ", told)]
        assert not lacking, lacking


def test_make_try_ends_with_a_plain_line():
    """What the toolchain says of its run is shown only if that fails."""
    need("make")
    with folder() as place:
        copy = Copy(place)
        for end, status_of in [("exit 0", 0), ("exit 3", 2)]:
            copy.set("rt", f"#!/bin/sh\necho ran; echo races >&2; {end}\n")
            status, told, _ = copy.make("try")
            assert status == status_of and ("races" in told) == (status != 0) and "ran\n" in told, told
            assert told.endswith("'make run' proves it first\n") == (status == 0), told

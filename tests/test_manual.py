"""The manual page and the completions name what the program's own help names, and what it prints; the examples of the
manual run; all of it is installed."""
import glob
import hashlib
import os
import re
import shutil
import subprocess

import torrents
from support import BTCHECK, TOP, folder, need, python_with_libtorrent, run, write
from trees import root_of

MANUAL = f"{TOP}/man/btcheck.1"
COMPLETIONS = f"{TOP}/completions"

# Refusals of a torrent that is being written, which no command prints yet.
NOT_PRINTED = {"PathClash", "Write"}


def text_of(path):
    with open(path, encoding="utf-8") as file:
        return file.read()


def part(text, start, end):
    """What stands between these two texts."""
    return text.split(start, 1)[1].split(end, 1)[0]


class Helped:
    """What the program's help says of it or of one of its commands."""

    def __init__(self, *command):
        text = run(*command, "-h").stdout.decode()
        self.commands = re.findall(r"^  (\w+) ", part(text + "\n\nCommands:\n\n", "\nCommands:\n", "\n\n"), re.M)
        self.arguments = re.findall(r"^  [<\[](\w+)", part(text + "\n\nArguments:\n\n", "\nArguments:\n", "\n\n"), re.M)
        options = part(text + "\n\nOptions:\n\n", "\nOptions:\n", "\n\n")
        self.options = set(re.findall(r"(?<=[ ,])--?\w[\w-]*", "\n".join(line[:30] for line in options.split("\n"))))


def commands():
    """Each command's name, with what its help says; `help` has none."""
    return {name: Helped(name) for name in Helped().commands if name != "help"}


def test_help_is_read():
    """The reading of the help above is not empty."""
    assert {"root", "show", "check", "create", "replay", "convert", "help"} <= set(Helped().commands)
    assert Helped("check").arguments == ["TORRENT", "DIR"]
    assert Helped("replay").options == {"-h", "--help", "--info-only", "--seed", "-o", "--answers", "--padded", "--pieces", "--summary", "-j", "--json",
                                         "--reasons"}


def flags(text):
    """The options that a line of the manual names by `.Fl`."""
    named = [re.split(" Oc | Ar ", line)[0] for line in re.findall(r"Fl ([^\n]*)", text)]
    return {f"-{word}" for line in named for word in re.findall(r"-?\w[\w-]*", line)}


def test_manual_names_every_command_and_option():
    text = text_of(MANUAL)
    synopsis = part(text, ".Sh SYNOPSIS", ".Sh DESCRIPTION")
    entries = part(text, "The commands are:", "The options are:")
    at_top = Helped()
    named = dict(re.findall(r"^\.It Cm (\w+)(.*)$", entries, re.M))
    assert set(named) == set(at_top.commands), (named, at_top.commands)
    assert set(re.findall(r"^\.Cm (\w+)", synopsis, re.M)) == set(at_top.commands)
    for command, help_of in commands().items():
        needed = re.sub(r" Oo .*? Oc| Fl \S+ Ar \w+", "", named[command])
        assert re.findall(r"(?<=Ar )\w+|(?<= )[A-Z]{2,}", needed) == help_of.arguments, (command, named[command])
        below = part(f"{entries}\n.It Cm ", f".It Cm {command}", "\n.It Cm ")
        listed = flags("\n".join(re.findall(r"^\.It (Fl .*)$", below, re.M)))
        assert listed == help_of.options - {"-h", "--help"}, (command, listed)
    options = flags("\n".join(re.findall(r"^\.It (Fl .*)$", part(text, "The options are:", ".Ss"), re.M)))
    assert options - {"--"} == at_top.options, options


# Each line that the program prints, by the part of the manual that explains it. What stands for something is in capitals.
PRINTED = {
    "Output of root": ["LENGTH ROOT", "0 -", "refused 10 Length"],
    "Output of show": ["name: NAME", "piece length: K", "info hash v2: HEX", "info hash v1: HEX", "files: COUNT",
                       "LENGTH ROOT PATH", "total: BYTES SIZE", "pieces: COUNT of SIZE", "layers: COUNT"],
    "Output of check": ["extra PATH", "good PATH", "missing PATH", "unreadable PATH", "wrong length PATH", "bad PIECE PATH",
                        "bad pieces FIRST LAST bytes FROM-TO", "v1 good",
                        "v1 bad PIECE", "v1 not checked", "yes", "no"],
    "Output of a part of a check": ["part I/N HASH", "part I/N HASH bad", "part yes", "part no"],
    "Output of create": ["refused 6 PieceLength", "refused NUMBER NAME PATH", "refused 13 NoFiles", "refused 1 TooLarge"],
    "Output of convert": ["refused 3 AlreadyForm2"],
    "Output of replay": ["seeded PATH", "not seeded PATH", "N verified FILE BLOCK", "N stored COUNT", "N refused NUMBER NAME",
                         "N refused NUMBER NAME FILE BLOCK", "N answered", "N rejected", "N reject noted", "N keep-alive",
                         "N skipped ID", "N sent request", "N held FILE BLOCK", "N refused P5 NoMemory", "N proved FILE FIRST LAST", "N false FILE FIRST LAST",
                         "N dropped FILE FIRST LAST", "held COUNT", "N sent", "N bad frame ID LENGTH", "end", "fault Truncated",
                         "fault BadDirection", "fault Read", "fault NoMemory"],
    "Faults on standard error": ["fault: cannot read PATH", "fault: cannot write PATH", "fault: name is not UTF-8",
                                 "fault: not a file or folder: PATH", "fault: record is truncated: PATH",
                                 "fault: part I of N is missing", "fault: part I is there twice",
                                 "fault: no whole report of a part: PATH", "fault: a part of another torrent: PATH",
                                 "fault: a report of another number of parts: PATH", "fault: no whole part: PATH",
                                 "fault: part I is of another folder", "fault: a part of another number of parts: PATH",
                                 "fault: no memory", "error: ..."],
    "Refused torrents": ["refused 1 TooLarge", "refused 2 NotBencode KIND OFFSET", "refused 3 Missing KEY",
                         "refused 4 WrongType KEY", "refused 5 Version", "refused 6 PieceLength", "refused 7 Shape",
                         "refused 8 Path", "refused 9 Symlink", "refused 10 Length", "refused 11 Root",
                         "refused 12 RootReused", "refused 13 NoFiles", "refused 14 TooManyPieces",
                         "refused 15 LayerMissing", "refused 16 LayerSize", "refused 17 LayerMismatch",
                         "refused 18 HybridFiles", "refused 19 HybridAlign", "refused 20 HybridPieces",
                         "Truncated", "BadStart", "BadInteger", "IntegerRange", "BadLength", "KeyOrder", "Trailing",
                         "TooDeep"],
    "Refused hashes": ["H1 UnknownRoot", "H2 BadRange", "H3 BadCount", "H4 BadPad", "H5 Unanchored", "H6 Mismatch",
                       "H7 NoMemory", "H8 Unasked"],
    "Refused blocks": ["P1 BadPlace", "P2 BadSize", "P3 Unproved", "P4 BadBlock", "P5 NoMemory"],
}

# Texts of the definitions that are no line by themselves: a sign for nothing, letters of refusals, an escape.
NO_LINES = {"", "-", "H", "P", "fault:", r"\\x"}


def fixed(line):
    """A printed line without what stands for something."""
    return " ".join(word for word in line.split() if not re.fullmatch("[A-Z]+", word))


def test_manual_explains_every_printed_line():
    """Each of them once, and no other."""
    parts = re.split(r"^\.S[sh] (.*)$", text_of(MANUAL), flags=re.M)
    sections = dict(zip(parts[1::2], parts[2::2]))
    for section, lines in PRINTED.items():
        entries = re.findall(r"^\.It Li (.*)\n(.*)$", sections[section], re.M)
        explained = [line for heads, _ in entries for line in heads.split(" , ")]
        assert sorted(explained) == sorted(lines), (section, set(explained) ^ set(lines))
        assert not [heads for heads, text in entries if text.startswith((".It", ".El"))], (section, entries)


def names_of_refusals():
    """The family, the name and the number, where it has one, of each refusal in the definitions of the crates."""
    numbers, names = {}, {}
    for path in glob.glob(f"{TOP}/crates/*/specs/**/*.antt", recursive=True):
        for family, case, number in re.findall(r"^(\w+)_number \(?(?:\w+\.)?(\w+)[^=]*= (\d+)$", text_of(path), re.M):
            numbers[family, case] = number
        for family, case, name in re.findall(r'^(\w+)_name \(?(?:\w+\.)?(\w+)[^=]*= codes "(\w+)"$', text_of(path), re.M):
            names[family, case] = name
    return [(family, name, numbers.get((family, case))) for (family, case), name in names.items()]


def words_of_the_table():
    """The words that the table of lines prints as they are: of most lines the kind, of some a title, and words between."""
    text = text_of(f"{TOP}/crates/lines/specs/Table.antt")
    heads = r'\b(?:word|plain_row|path_row|frame_row|titled_row \(codes "[^"]+"\)|hash_row \(codes "[^"]+"\))'
    return set(re.findall(heads + r'\s+\(codes "([^"]+)"\)', text))


def test_the_table_of_lines_is_explained():
    """Each of its words is in a line of the manual, and each word of these lines in it, apart from faults."""
    words = words_of_the_table()
    assert len(words) >= 40, words
    said = [fixed(line) for section, lines in PRINTED.items() if section.startswith("Output") for line in lines]
    for word in words - {"-"}:
        assert any(re.search(rf"(^| ){re.escape(word)}( |$)", line) for line in said), word
    names = {name for _, name, _ in names_of_refusals()} | {"AlreadyForm2", "Truncated", "Read", "BadDirection"}
    printed = {part for word in words for part in word.split()} | names
    for part in {part for line in said for part in line.split() if re.search("[a-z]", part)}:
        assert part in printed, part


def texts_of_the_definitions():
    """The texts of which definitions beside the table of lines put printed lines together."""
    for crate in ["printing", "torrent_lines", "folders", "seeding", "replays", "commands"]:
        for path in glob.glob(f"{TOP}/crates/{crate}/specs/**/*.antt", recursive=True) + glob.glob(f"{TOP}/crates/{crate}/src/*.rt"):
            for text in re.findall(r'codes "((?:[^"\\]|\\.)*)"', text_of(path)):
                yield from (piece.strip() for piece in text.split("\\n"))


def test_no_printed_line_is_forgotten():
    """Each text and each refusal of the definitions is in a line above, and `docs/FORMATS.md` has each of these
    lines."""
    lines = {fixed(line) for lines in PRINTED.values() for line in lines}
    found = set(texts_of_the_definitions()) - NO_LINES
    assert len(found) >= 25, found
    for text in found:
        assert {text, f"fault {text}", f"fault: {text}"} & lines, text
    refusals = [refusal for refusal in names_of_refusals() if refusal[1] not in NOT_PRINTED]
    assert len(refusals) >= 40, refusals
    for family, name, number in refusals:
        letter = {"refusal": "refused ", "hash_refusal": "H", "block_refusal": "P"}.get(family, "")
        line = f"{letter}{number} {name}" if number else name
        assert line in lines or (name == "NoMemory" and letter != "H"), line
    formats = {fixed(code) for code in re.findall("`([^`\n]+)`", text_of(f"{TOP}/docs/FORMATS.md"))}
    for line in lines - {"error: ..."}:
        assert line in formats or line.removeprefix("refused ") in formats, line


def test_manual_is_well_formed():
    need("mandoc", "groff", "man")
    for words in (["mandoc", "-Tlint", "-W", "warning"], ["groff", "-ww", "-mandoc", "-Tutf8", "-z"]):
        done = subprocess.run([*words, MANUAL], stdout=subprocess.PIPE, stderr=subprocess.STDOUT, text=True)
        assert (done.returncode, done.stdout) == (0, ""), (words, done.stdout)
    done = subprocess.run(["man", "-l", "--warnings", MANUAL], stdout=subprocess.PIPE, stderr=subprocess.PIPE, text=True,
                          env={**os.environ, "MANWIDTH": "80", "LC_ALL": "C.UTF-8"})
    assert done.returncode == 0 and not done.stderr and "refused 3 Missing meta version" in done.stdout, done.stderr


# What each example of the manual prints, run in turn where `example_folder` was made.
EXAMPLES = [
    "bad 1 b\nmissing c d\nno\n",
    "not complete:\nbad 1 b\nmissing c d\nno\n",
    "good a\nbad 1 b\nmissing c d\nno\n",
    "      1 bad\n      1 good\n      1 missing\n      1 no\nbad 1 b\nmissing c d\nno\n",
    "other.torrent:40000 {root} film\nsome.torrent:40000 {root} a\n",
    "40000 {root}\n",
    "info hash v2: {info}\n",
    "./old.torrent:refused 3 Missing meta version\n./web.torrent:refused 2 NotBencode BadStart 0\n",
    "torrents/bad.torrent\n",
]


def example_folder(place):
    """Torrents and contents, as the manual's examples name them; the content of `movie.mkv`."""
    movie, other = bytes(40000), b"other"
    for name in ["bin", "some", "Downloads/some", "torrents", "content/good", "content/bad"]:
        os.makedirs(f"{place}/{name}")
    os.symlink(BTCHECK, f"{place}/bin/btcheck")
    for below in ["some", "Downloads/some"]:
        write(f"{place}/{below}/a", movie)
        write(f"{place}/{below}/b", b"0ther")
    layers = {root_of(movie): torrents.layer(movie, 2)}
    tree = {"a": torrents.file(movie), "b": torrents.file(other), "c d": torrents.file(b"")}
    write(f"{place}/some.torrent", torrents.torrent(torrents.info(tree, 65536)))
    write(f"{place}/other.torrent", torrents.torrent(torrents.info({"film": torrents.file(movie)}, 32768), layers))
    version_1 = {"length": 1, "name": "x", "piece length": 16384, "pieces": "x" * 20}
    write(f"{place}/old.torrent", torrents.bencoded({"info": version_1}))
    write(f"{place}/web.torrent", b"<!DOCTYPE html>")
    write(f"{place}/movie.mkv", movie)
    for name in ["good", "bad"]:
        write(f"{place}/torrents/{name}.torrent", torrents.ABC)
        write(f"{place}/content/{name}/abc.txt", b"abc" if name == "good" else b"abd")
    subprocess.run("gzip -c movie.mkv > dump.gz", shell=True, cwd=place, check=True)
    return movie


def examples():
    """The commands of the manual's examples, as a reader would type them."""
    text = part(text_of(MANUAL), ".Sh EXAMPLES", ".Sh DIAGNOSTICS")
    for one, block in re.findall(r"^\.Dl ([^\n]*)$|^\.Bd -literal -offset indent\n(.*?)^\.Ed$", text, re.M | re.S):
        yield re.sub(r"^[$>] ", "", one or block, flags=re.M).replace("\\e", "\\")


def test_examples_of_the_manual():
    with folder() as place:
        root = root_of(example_folder(place)).hex()
        with open(f"{place}/some.torrent", "rb") as file:
            spelled = file.read().removeprefix(b"d4:info").split(b"12:piece layers")[0]
            info = hashlib.sha256(spelled).hexdigest()
        found = list(examples())
        assert len(found) == len(EXAMPLES), found
        for typed, wanted in zip(found, EXAMPLES):
            done = subprocess.run(["bash", "-c", typed], cwd=place, capture_output=True, text=True,
                                  env={**os.environ, "HOME": place, "PATH": f"{place}/bin:{os.environ['PATH']}"})
            seen = "".join(sorted(done.stdout.splitlines(True))) if "find" in typed else done.stdout
            assert (seen, done.stderr) == (wanted.format(root=root, info=info), ""), (typed, done)


def test_a_tracker_of_the_manual():
    """A torrent that `create` made and that got a tracker by the manual's lines is read by libtorrent, with the same info-hashes."""
    python = python_with_libtorrent()
    lines = next(text for text in examples() if "announce" in text)
    read = ("import libtorrent as lt, sys\n"
            "for path in sys.argv[1:]:\n"
            "    it = lt.torrent_info(path); print(it.info_hashes().v2, it.info_hashes().v1, [each.url for each in it.trackers()])")
    with folder() as place:
        os.makedirs(f"{place}/bin")
        os.symlink(BTCHECK, f"{place}/bin/btcheck")
        os.mkdir(f"{place}/made")
        write(f"{place}/made/a", bytes(100000))
        for kind in ([], ["--hybrid"]):
            done = run("create", "--name", "made", "--piece-length", "16384", *kind, f"{place}/made", f"{place}/some.torrent")
            assert done.returncode == 0, done
            subprocess.run(["bash", "-ec", lines], cwd=place, check=True, stdout=subprocess.DEVNULL,
                           env={**os.environ, "PATH": f"{place}/bin:{os.environ['PATH']}"})
            said = subprocess.run([python, "-c", read, "some.torrent", "announced"], cwd=place, check=True, stdout=subprocess.PIPE, text=True)
            before, after = said.stdout.splitlines()
            assert before.endswith(" []") and after == before.replace("[]", "['http://tracker.example/announce']"), said.stdout


# Completes the last of its arguments, and prints what it can be.
COMPLETED_BY_BASH = """. "$0"; COMP_WORDS=("$@"); COMP_CWORD=$(($# - 1)); _btcheck; printf '%s\\n' "${COMPREPLY[@]}" """


def completed(place, *words):
    """What bash completes the last of these words to."""
    done = subprocess.run(["bash", "-c", COMPLETED_BY_BASH, f"{COMPLETIONS}/btcheck.bash", *words], cwd=place,
                          stdout=subprocess.PIPE, stderr=subprocess.PIPE, text=True)
    assert not done.stderr, done.stderr
    return set(done.stdout.splitlines()) - {""}


# What an argument of this name can be, of the files that the test makes.
FILES_FOR = {
    "FILE": {"t.torrent", "two words", "folder"},
    "TORRENT": {"t.torrent", "folder"},
    "DIR": {"folder"},
    "RECORD": {"t.torrent", "two words", "folder"},
    "OUT": {"t.torrent", "two words", "folder"},
    "REPORT": {"t.torrent", "two words", "folder"},
    "PART": {"t.torrent", "two words", "folder"},
}

# The options that take a value, and what it can be.
VALUES = {"--seed": "DIR", "-o": "RECORD", "--answers": "RECORD"}


def test_completion_by_bash():
    at_top = Helped()
    with folder() as place:
        os.mkdir(f"{place}/folder")
        write(f"{place}/t.torrent", b"")
        write(f"{place}/two words", b"")
        assert completed(place, "btcheck", "") == set(at_top.commands)
        assert completed(place, "btcheck", "-") == at_top.options
        assert completed(place, "btcheck", "--", "r") == {"root", "replay"}
        assert completed(place, "btcheck", "help", "") == set(at_top.commands)
        for command, help_of in commands().items():
            given = ["btcheck", command]
            assert completed(place, *given, "-") == help_of.options, command
            for name in help_of.arguments:
                assert completed(place, *given, "") == FILES_FOR[name], (command, name)
                assert completed(place, *given, "f") == {"folder"} & FILES_FOR[name]
                given += ["t.torrent"]
            # the last argument of `join` may be there many times
            assert completed(place, *given, "") == (FILES_FOR["REPORT"] if command in ("join", "assemble") else set()), command
            assert completed(place, "btcheck", "-h", command, "") == FILES_FOR[help_of.arguments[0]]
        for option, name in VALUES.items():
            assert completed(place, "btcheck", "replay", option, "") == FILES_FOR[name], option
            assert completed(place, "btcheck", "replay", option, "--", "") == FILES_FOR["TORRENT"], option
            assert completed(place, "btcheck", "replay", "t.torrent", option, "x", "") == FILES_FOR["RECORD"], option


def test_completion_by_zsh_and_fish():
    """The files name each command and each option; fish completes by them where it is installed."""
    fish, zsh = text_of(f"{COMPLETIONS}/btcheck.fish"), text_of(f"{COMPLETIONS}/_btcheck")
    at_top = Helped()
    for command, help_of in commands().items():
        assert f" -a {command} " in fish and f"\n        '{command}:" in zsh, command
        for option in help_of.options | at_top.options:
            assert option in zsh, option
            assert re.search(rf" -{'l' if option.startswith('--') else 's'} {option.lstrip('-')} ", fish), option
    assert set(part(fish, "set -l commands ", "\n").split()) == set(at_top.commands)
    if shutil.which("zsh"):
        subprocess.run(["zsh", "-n", f"{COMPLETIONS}/_btcheck"], check=True)
    if shutil.which("fish"):
        def by_fish(typed):
            offered = subprocess.run(["fish", "-N", "-c", f"source {COMPLETIONS}/btcheck.fish; complete -C '{typed}'"],
                                  stdout=subprocess.PIPE, text=True, check=True).stdout
            return {line.split("\t")[0] for line in offered.splitlines()}
        assert by_fish("btcheck ") == set(at_top.commands)
        assert by_fish("btcheck -") == at_top.options
        assert by_fish("btcheck help ") == set(at_top.commands)
        for command, help_of in commands().items():
            assert by_fish(f"btcheck {command} -") == help_of.options, command


# What `make install` puts below its PREFIX, and what each is.
INSTALLED = {
    "bin/btcheck": "build/btcheck",
    "share/man/man1/btcheck.1": "man/btcheck.1",
    "share/bash-completion/completions/btcheck": "completions/btcheck.bash",
    "share/zsh/site-functions/_btcheck": "completions/_btcheck",
    "share/fish/vendor_completions.d/btcheck.fish": "completions/btcheck.fish",
    "bin/btcheck-many": "tools/btcheck-many",
    **{f"share/btcheck/many/{name}": f"tools/many/{name}" for name in os.listdir(f"{TOP}/tools/many") if name.endswith(".py")},
    "share/man/man1/btcheck-many.1": "man/btcheck-many.1",
    "share/bash-completion/completions/btcheck-many": "completions/btcheck-many.bash",
    "share/zsh/site-functions/_btcheck-many": "completions/_btcheck-many",
    "share/fish/vendor_completions.d/btcheck-many.fish": "completions/btcheck-many.fish",
}


# What other builds leave among sources.
OF_BUILDS = re.compile(r"(^|/)(target/|__pycache__/|Cargo\.lock$|\.)")


def files_below(place):
    return {os.path.relpath(f"{folder}/{name}", place) for folder, _, names in os.walk(place) for name in names}


def installed():
    """What `make install` puts there: documents, examples and the relay as they lie here."""
    documents = ["README.md", "CHANGELOG.md", "CONTRIBUTING.md", "SECURITY.md", "LICENSE-MIT", "LICENSE-APACHE", "tools/record"]
    for kind in ("docs", "examples", "bindings"):
        documents += [f"{kind}/{name}" for name in files_below(f"{TOP}/{kind}") if not OF_BUILDS.search(name)]
    return INSTALLED | {f"share/doc/btcheck/{name}": name for name in documents}


def test_install_and_uninstall():
    with folder() as place:
        def make(target):
            # (without the C library, whether it was made or not)
            arguments = [f"DESTDIR={place}/there", "PREFIX=/usr/a b", "LIB=none"]
            subprocess.run(["make", "-s", "-o", "build/btcheck", target, *arguments], cwd=TOP, check=True)
        make("install")
        below = f"{place}/there/usr/a b"
        assert files_below(below) == set(installed()), files_below(below)
        for there, here in installed().items():
            with open(f"{below}/{there}", "rb") as one, open(f"{TOP}/{here}", "rb") as other:
                assert one.read() == other.read(), there
            assert os.access(f"{below}/{there}", os.X_OK) == (here in ("build/btcheck", "tools/record", "tools/btcheck-many")), there
        for page in glob.glob(f"{below}/share/doc/btcheck/**/*.md", recursive=True):
            for link in re.findall(r"\]\(([\w./-]+)(?:#[\w-]+)?\)", text_of(page)):
                assert os.path.exists(os.path.join(os.path.dirname(page), link)), (page, link)
        write(f"{below}/share/man/man1/other.1", b"")
        make("uninstall")
        assert files_below(below) == {"share/man/man1/other.1"}, files_below(below)

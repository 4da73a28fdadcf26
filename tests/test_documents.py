"""What the documents say: the examples of README.md, and the definitions to which its rows unfold."""
import glob
import os
import re
import shutil
import subprocess

import contracts
import definitions
import unfolding
import promised as promises
from support import BTCHECK, TOP, folder
from test_fuzz import CASES


def examples():
    """Each command of README.md's examples, with the lines that it is shown to print."""
    with open(f"{TOP}/README.md", encoding="utf-8") as file:
        blocks = re.findall(r"(?:^    .*\n)+", file.read(), re.M)
    for block in blocks:
        parts = re.split(r"^    \$ (.*)\n", block, flags=re.M)
        for command, printed in zip(parts[1::2], parts[2::2]):
            yield command, re.sub(r"^    ", "", printed, flags=re.M)


def test_the_examples_of_the_readme():
    found = list(examples())
    assert len(found) >= 7, found
    with folder() as place:
        shutil.copytree(f"{TOP}/examples", f"{place}/examples")
        os.mkdir(f"{place}/bin")
        os.symlink(BTCHECK, f"{place}/bin/btcheck")
        path = {**os.environ, "PATH": f"{place}/bin:{os.environ['PATH']}"}
        for command, printed in found:
            done = subprocess.run(["sh", "-c", command], cwd=f"{place}/examples", env=path, stdout=subprocess.PIPE,
                                  stderr=subprocess.STDOUT, text=True, timeout=60)
            assert done.stdout == printed, (command, done.stdout)


def test_the_page_on_tests_counts_hostile_input():
    text = " ".join(contracts.text_of(TOP, "docs", "TESTING.md").split())
    inputs = sum(CASES[kind] for kind in ("torrent", "folder", "record"))
    assert f"{inputs:,} torrents, folders and records, {CASES['conversion']} conversions and {CASES['join']} joins" in text
    assert f"{CASES['assembly']} torrents of parts" in text


def test_the_readme_has_figures_of_the_page_on_speed():
    """Each row of README's table of figures is one of SPEED's, and so is each size; and README too says that processors
    without instructions for SHA were measured."""
    readme, speed = (contracts.text_of(TOP, *path) for path in (("README.md",), ("docs", "SPEED.md")))
    table = readme.split("\n## Speed\n")[1].split("\n## ")[0]
    rows = re.findall(r"^\| (?!What).*\d.* \|$", table, re.M)
    assert len(rows) >= 3 and all(f"{row}\n" in speed for row in rows), rows
    assert all(re.search(r"without\s+instructions\s+for\s+SHA", text) for text in (table, speed))
    sizes, there = ({*re.findall(r"\b[\d.,]+ MiB", " ".join(text.split()))} for text in (table, speed))
    assert len(sizes) >= 3 and sizes <= there, sizes - there


def count_of(pattern, *paths):
    """How often a pattern begins a line of these files."""
    return sum(len(re.findall(pattern, contracts.text_of(path), re.M)) for one in paths for path in glob.glob(f"{TOP}/{one}", recursive=True))


def test_the_page_on_tests_counts_tests():
    """Its numbers are no larger than those of the tree, and no smaller than two thirds of them."""
    text = " ".join(contracts.text_of(TOP, "docs", "TESTING.md").split())
    told = [int(number) for number in re.search(r"over (\d+) wrong bodies, over (\d+) tests in Python, over (\d+) in Rattle, and "
                                                r"over (\d+) in Rust and Go", text).groups()]
    there = [len(glob.glob(f"{TOP}/crates/*/must-fail/*.edit")), count_of(r"^def test_", "tests/test_*.py"),
             count_of(r"^ *#\[test\]", "crates/*/src/**/*.rt"),
             count_of(r"^ *#\[test\]", "bindings/rust/*/tests/*.rs") + count_of(r"^func Test", "bindings/go/*_test.go")]
    assert all(number <= real <= number * 3 / 2 for number, real in zip(told, there)), (told, there)


def test_the_readme_is_short():
    assert len(contracts.text_of(TOP, "README.md").encode()) <= 12_000


def test_what_is_promised_is_there():
    """tests/promised.txt has all that STABILITY.md promises and that can be counted, and nothing that is gone."""
    now, listed = promises.found(), promises.listed()
    assert len(now) > 350, len(now)
    for kind in ("command ", "option ", "line, ", "status ", "object ", "key ", "call ", "number ", "struct ", "record ", "direction "):
        assert sum(line.startswith(kind) for line in now) >= 1, kind
    assert sorted(listed) == sorted(now), ("run tests/promised.py --write", {*now} ^ {*listed})


# To how many definitions each row of README's 'What is proved' unfolds. These numbers may only fall.
UNFOLDED = {
    "Torrent::open": 125, "Session::new": 31, "Session::run": 131, "Session::step": 131, "Session::take_piece": 83,
    "replay": 266, "check": 48, "gather": 89, "Draft::finish": 164, "assemble": 142,
}


def test_the_definitions_of_each_row_are_listed():
    """DEFINITIONS.md has what the rows of README unfold to, and no row unfolds to more than it did."""
    found = {call: unfolding.sizes(places) for call, places in unfolding.rows()}
    print(found)
    assert found.keys() == UNFOLDED.keys()
    assert all(found[call][0] <= UNFOLDED[call] for call in found), found
    text = contracts.text_of(definitions.DOCUMENT).split(definitions.MARK)[1]
    assert text == "".join(definitions.sections()), "run tests/definitions.py --write"


def test_the_readme_names_the_crates_that_are_trusted():
    """README names each crate of the kit that the program and the C library stand on, but for parts of std."""
    rows = re.findall(r"^(\w+).*?:(.*)$", contracts.text_of(TOP, "crates.txt"), re.M)
    depends, left, found = {name: below.split() for name, below in rows}, ["btcheck", "btcheck_c"], set()
    while left:
        name = left.pop()
        if name not in found:
            found.add(name)
            left += depends.get(name, [])
    ours = {name for name in found - depends.keys() if not name.startswith("std_")}
    trusted = contracts.text_of(TOP, "README.md").split("**Trusted**")[1].split("\n## ")[0]
    assert len(ours) > 5 and not [name for name in ours if f"`{name}`" not in trusted], ours


# To how many definitions the contract of each row's client unfolds. These numbers may only fall.
OF_CLIENTS = {
    "open_torrent": 127, "start_session": 34, "take_messages": 134, "take_message": 73, "keep_piece": 54, "report_on": 236,
    "judge_folder": 49, "draft_folder": 80, "write_torrent": 164, "draft_of_parts": 104,
}


def plain(text):
    """Words alone, on one line."""
    return " ".join(text.replace("`", "").split())


def clients():
    """The public functions of `uses`: each with its file, what its `///` says, and all of it."""
    for path in glob.glob(f"{TOP}/crates/uses/src/*.rt"):
        for comment, body, name in re.findall(r"((?:^///[^\n]*\n)+)^(pub fn (\w+).*?^\}\n)", contracts.text_of(path), re.M | re.S):
            yield name, os.path.relpath(path, TOP), plain(comment.replace("///", "")), body


def test_each_row_has_its_client():
    """Each row of README's 'What is proved' names a public function of `uses`, which makes its call, says what the row says,
    and has a contract. PROVED.md names the file of each."""
    section = contracts.text_of(TOP, "README.md").split("## What is proved")[1].split("\n## ")[0]
    rows = [[plain(cell) for cell in line.split("|")[1:-1]] for line in section.split("\n") if line.startswith("|") and "`" in line]
    there, proved = {name: found for name, *found in clients()}, plain(contracts.text_of(TOP, "docs", "PROVED.md"))
    exported = contracts.exported("uses")[0]
    assert len(rows) == len(UNFOLDED) and {row[-1] for row in rows} == OF_CLIENTS.keys(), rows
    for _, call, _, says, client in rows:
        path, comment, body = there[client]
        assert says in comment and "ensures" in body, (client, says, comment)
        assert re.search(rf"\b{call.split('::')[-1]}\(", body) and client in exported, (client, call)
        assert f"{client} in {path}" in proved, (client, path)
        assert 0 < len(unfolding.of_client(client)) <= OF_CLIENTS[client], client


def promised(text, count, at=0):
    """The rows of a table of `count` columns: the names of the calls, in the column `at`, and the labels of their clauses,
    in the next one."""
    calls = []
    for line in text.split("\n"):
        cells = [set(contracts.WORD.findall(" ".join(re.findall(r"`([^`]*)`", cell)))) for cell in line.split("|")[1:-1]]
        if len(cells) == count:
            calls = cells[at] or calls
            yield calls, cells[at + 1]


def test_the_promises_are_those_of_the_contracts():
    """Each label that CLAUSES.md or README.md names is one of those calls, and CLAUSES.md names each public function with
    a contract: as a call, or outside of its tables."""
    labels = {}
    for _, _, name, found in contracts.promises():
        labels.setdefault(name, set()).update(found)
    proved, readme = contracts.text_of(TOP, "docs", "CLAUSES.md"), contracts.text_of(TOP, "README.md").split("What is proved")[1]
    places = [line.split("|")[1] if line.startswith("|") else line for line in proved.split("\n")]
    named = set(contracts.WORD.findall(" ".join(name for place in places for name in re.findall(r"`([^`]*)`", place))))
    wrong = [(calls, label) for calls, found in [*promised(proved, 3), *promised(readme, 5, 1)] for label in found
             if not any(label in labels.get(call, ()) for call in calls)]
    assert not wrong, wrong
    assert labels.keys() <= named, sorted(labels.keys() - named)


def rows_of(crate, text):
    """The rows of CLAUSES.md below the headings that name this crate."""
    sections = [section for section in text.split("\n## ") if f"`{crate}`" in section.split("\n")[0]]
    return [row for section in sections for row in promised(section, 3)]


def test_every_clause_is_listed():
    """CLAUSES.md names each label of each public function's clauses in the section of its crate, if that names
    labels."""
    proved, lacking = contracts.text_of(TOP, "docs", "CLAUSES.md"), []
    for crate, _, name, labels in contracts.promises():
        rows = rows_of(crate, proved)
        found = set().union(*(words for calls, words in rows if name in calls))
        lacking += [(crate, name, label) for label in labels if rows and label and label not in found]
    assert not lacking, lacking


def test_definitions_stand_as_they_are_copied():
    """Each box of PROVED.md names a file of definitions, and each of its paragraphs stands there to the letter."""
    boxes = re.findall(r"```antt\n-- (\S+)\n(.*?)```", contracts.text_of(TOP, "docs", "PROVED.md"), re.S)
    wrong = [(path, part) for path, box in boxes for part in box.strip("\n").split("\n\n")
             if f"\n{part}\n" not in contracts.text_of(TOP, "crates", *path.split("/"))]
    assert len(boxes) >= 12 and not wrong, wrong


def test_names_mean_one_thing():
    """Each name of a variable in the boxes of PROVED.md is of one type."""
    text, found = contracts.text_of(TOP, "docs", "PROVED.md"), {}
    for box in re.findall(r"```antt\n(.*?)```", text, re.S):
        for names, kind in re.findall(r"\(((?:[\w']+ ?)+) : ((?:[^()]|\([^()]*\))*)\)", box):
            for name in names.replace("'", "").split():
                found.setdefault(name, set()).add(" ".join(kind.split()))
    several = {name: kinds for name, kinds in found.items() if len(kinds) > 1}
    assert len(found) > 5 and not several, several


def documents():
    """The documents, each with its text."""
    pages = [f"{place}/README.md" for place in ("bindings", "bindings/python", "bindings/rust", "bindings/go", "examples/keep")]
    for name in ["README.md", "CONTRIBUTING.md", "CHANGELOG.md", "SECURITY.md", *(f"docs/{name}" for name in os.listdir(f"{TOP}/docs")), *pages]:
        yield name, contracts.text_of(TOP, name)


def anchors(text):
    """The names by which links reach the headings of a document."""
    heads = re.findall(r"^#+ (.*)$", text, re.M)
    return {re.sub(r"[^\w -]", "", head).lower().replace(" ", "-") for head in heads}


def test_files_that_are_named_exist():
    found = 0
    for name, text in documents():
        for path in re.findall(r"`((?:crates|docs|tests|tools|bench|bindings|examples|man|completions|\.ci)/[\w./*-]*\w)`", text):
            found += 1
            assert "CRATE" in path or "COMMAND" in path or glob.glob(f"{TOP}/{path}"), (name, path)
        for path, anchor in re.findall(r"\]\(([\w./-]*)(?:#([\w-]+))?\)", text):
            to = os.path.join(TOP, os.path.dirname(name), path) if path else os.path.join(TOP, name)
            found += 1
            assert os.path.exists(to), (name, path)
            assert not anchor or anchor in anchors(contracts.text_of(to)), (name, path, anchor)
    assert found > 150, found


def test_what_make_is_asked_for_is_there():
    """Each goal of `make` that a document names is one of the Makefile's."""
    rules = contracts.text_of(TOP, "Makefile") + contracts.text_of(TOP, "library.mk")
    goals = set(" ".join(re.findall(r"^\.PHONY: (.*)$", rules, re.M)).split())
    found = {(name, goal) for name, text in documents() for line in re.findall(r"`make [^`]*`|^    make .*$", text, re.M)
             for goal in re.findall(r"\bmake (?:[A-Z]+=\S+ )*([a-z-]+)", line.split("#")[0])}
    assert len(found) > 20, found
    assert {goal for _, goal in found} <= goals, [it for it in found if it[1] not in goals]


def test_no_path_of_a_machine():
    for name, text in documents():
        assert not re.search(r"/(?:work|home|root|opt)/", text), name


def test_no_marks_of_a_merge():
    for name, text in documents():
        assert not re.search(r"^(?:<{7}|>{7}|={7}$)", text, re.M), name


def test_no_number_that_is_not_there():
    """What is written by hand says which number it means, where "so many" would leave the reader to guess."""
    texts = [text.split(definitions.MARK)[0] for _, text in documents()]
    texts += [contracts.text_of(path) for kind in ("tests/*.py", "bench/*", "tools/*", "man/*") for path in glob.glob(f"{TOP}/{kind}")
              if os.path.isfile(path) and path != os.path.abspath(__file__)]
    texts += [contracts.text_of(path) for kind in ("src/**/*.rt", "specs/**/*.antt")
              for path in glob.glob(f"{TOP}/crates/*/{kind}", recursive=True)]
    assert not [found for text in texts for found in re.findall(r".*\b[Ss]o many\b.*", text)]


def test_no_line_is_too_wide():
    """Definitions and proofs have lines of at most 160 columns, and code and contracts of at most 100, but for
    imports."""
    wide = []
    for kind, most in [("src/**/*.rt", 100), ("specs/**/*.antt", 160), ("proofs/**/*.antt", 160)]:
        paths = glob.glob(f"{TOP}/crates/*/{kind}", recursive=True)
        assert paths, kind
        for path in paths:
            for number, line in enumerate(contracts.text_of(path).splitlines(), 1):
                is_free = kind.startswith("src") and re.match(r"\s*(?:pub |ghost )?use ", line)
                if len(line) > most and not is_free:
                    wide.append((path, number))
    assert not wide, wide


def test_only_one_file_lets_boxes_go():
    """No code lets go of what it owns without its drop, which no proof would see, but `loose.rt`: it takes a box apart
    to put it into a handle of C."""
    found = []
    for path in glob.glob(f"{TOP}/crates/*/src/**/*.rt", recursive=True):
        if re.search(r"\b(?:forget|leak|ManuallyDrop|into_raw\w*)\b", re.sub(r"//.*", "", contracts.text_of(path))):
            found.append(os.path.relpath(path, TOP))
    assert found == ["crates/btcheck_c/src/loose.rt"], found


def test_no_file_of_proofs_is_too_long():
    """A file of definitions or proofs has at most 300 lines."""
    paths = glob.glob(f"{TOP}/crates/*/specs/**/*.antt", recursive=True)
    paths += glob.glob(f"{TOP}/crates/*/proofs/**/*.antt", recursive=True)
    long = [path for path in paths if len(contracts.text_of(path).splitlines()) > 300]
    assert paths and not long, long


def test_proofs_in_specs_are_listed():
    """DECISIONS.md names each file of definitions that holds a proof, with its crate."""
    section = contracts.text_of(TOP, "docs", "DECISIONS.md").split("\n## Proofs and tests\n")[1].split("\n## ")[0]
    found = []
    for crate in os.listdir(contracts.CRATES):
        for path in glob.glob(f"{contracts.CRATES}/{crate}/specs/**/*.antt", recursive=True):
            if re.search(r"\b(?:refl|omega|subst)\b", contracts.text_of(path)):
                found.append((crate, os.path.basename(path).removesuffix(".antt")))
    lacking = [(crate, name) for crate, name in found if f"`{name}`" not in section or f"`{crate}`" not in section]
    assert found and not lacking, lacking


def test_each_crate_stands_above_those_it_depends_on():
    """ARCHITECTURE.md lists each crate once, and none below one that depends on it, but for those of the last table, which no
    other crate depends on."""
    tables = contracts.text_of(TOP, "docs", "ARCHITECTURE.md").split("A crate's folder:")[0].split("\n\n|")[1:]
    *tables, on_top = [re.findall(r"^\| `(\w+)` \|", table, re.M) for table in tables]
    rows = [*on_top, *(name for table in tables for name in table)]
    depends = {name: below.split() for name, below in re.findall(r"^(\w+):(.*)$", contracts.text_of(TOP, "crates.txt"), re.M)}
    assert sorted(rows) == sorted(depends), (set(rows) ^ set(depends), [name for name in rows if rows.count(name) > 1])
    wrong = [(name, below) for number, name in enumerate(rows) for below in depends[name] if below in rows[:number]]
    assert not wrong, wrong


def test_there_is_one_number():
    """The release that is built, or that is to come, has one number wherever it stands, each in its own spelling."""
    number, coming = re.search(r"^## ([0-9.]+)(, not yet released)?", contracts.text_of(TOP, "CHANGELOG.md"), re.M).groups()
    major, *_ = parts = number.split(".")
    spelled = {"~dev": f"{number}~dev", "-dev": f"{number}-dev", ".dev0": f"{number}.dev0"} if coming else {}
    tilde, dash, dot = (spelled.get(mark, number) for mark in ("~dev", "-dev", ".dev0"))
    places = {
        "crates/command_line/src/help.rt": f'"{tilde} (proved with logic ',
        "crates/btcheck_c/src/version.rt": f"version_number {' '.join(parts)} ",
        "packaging/changelog": f"btcheck ({tilde}-1) ",
        "packaging/control-library": f"Package: libbtcheck{major}\n",
        "library.mk": f"-soname,libbtcheck.so.{major} ",
        "bindings/c/btcheck.h": f"#define BTCHECK_VERSION 0x{''.join(f'{int(part):02x}' for part in parts)}\n",
        "bindings/rust/Cargo.toml": f'version = "{dash}"\n',
        "bindings/rust/btcheck/Cargo.toml": f'version = "{dash}" }}\n',
        "bindings/rust/btcheck/tests/examples.rs": f"btcheck::version(), [{', '.join(parts)}]",
        "bindings/go/README.md": f"/btcheck v{dash}\n",
        "bindings/go/btcheck_test.go": f"Version(), [3]byte{{{', '.join(parts)}}}",
        "bindings/python/pyproject.toml": f'version = "{dot}"\n',
        "bindings/python/btcheck/__init__.py": f'__version__ = "{dot}"\n',
    }
    for place, text in places.items():
        assert text in contracts.text_of(TOP, *place.split("/")), (place, text)

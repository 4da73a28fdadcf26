"""One name for one thing: tests/names.txt, the header of the C library, and its classes in C++, Python, Rust and Go."""
import ast
import glob
import re

from support import TOP

CLASSES = {"Root", "Session", "Check", "Pieces", "Holdings", "Draft", "DraftFile"}
# Calls that a name of the header stands behind, or that are a language's own business.
OF_PYTHON = {"__init__", "close"}
OF_CPP = {"see", "is", "text"}


def text_of(path):
    with open(f"{TOP}/{path}", encoding="utf-8") as file:
        return file.read()


def texts_of(pattern):
    return "\n".join(text_of(path[len(TOP) + 1:]) for path in sorted(glob.glob(f"{TOP}/{pattern}")))


def rows():
    """The table: of each row the header's name, and the four others."""
    found = [line.split() for line in text_of("tests/names.txt").splitlines() if not line.startswith("#")]
    assert all(len(row) == 5 for row in found), [row for row in found if len(row) != 5]
    return found


def calls_of_the_header():
    kinds = r"(?:static inline )?(?:btcheck_status|void|const char \*|uint32_t) ?"
    return {name for name in re.findall(rf"^{kinds}btcheck_(\w+)\(", text_of("bindings/c/btcheck.h"), re.M)}


def calls_of_cpp():
    text = text_of("bindings/cpp/btcheck.hpp")
    found = set(re.findall(r"^inline [\w:]+ (\w+)\(", text, re.M)) - OF_CPP
    for name, body in re.findall(r"^class (\w+)(?: \w+)?[^;{]* \{\npublic:\n(.*?)\n(?:private:|\};)", text, re.M | re.S):
        heads = re.findall(r"^  (?!using|friend|struct|template)(?:explicit )?(?:[\w:<>,&*]+ )*?[&*]?(\w+)\(", body, re.M)
        found |= {f"{name}.{head}" for head in heads if name in CLASSES}
    return found


def calls_of_python():
    found = set()
    [public] = re.findall(r"^__all__ = \[(.*?)\]", text_of("bindings/python/btcheck/__init__.py"), re.M | re.S)
    for path in glob.glob(f"{TOP}/bindings/python/btcheck/*.py"):
        tree = ast.parse(text_of(path[len(TOP) + 1:]))
        found |= {it.name for it in tree.body if isinstance(it, ast.FunctionDef) and f'"{it.name}"' in public}
        for kind in (it for it in tree.body if isinstance(it, ast.ClassDef) and it.name in CLASSES):
            names = {it.name for it in kind.body if isinstance(it, ast.FunctionDef)}
            found |= {f"{kind.name}.{name}" for name in names | {"__init__", "close"} if name in OF_PYTHON or name[0] != "_"}
    return found


def calls_of_rust():
    found = set()
    for path in glob.glob(f"{TOP}/bindings/rust/btcheck/src/*.rs"):
        text = text_of(path[len(TOP) + 1:])
        found |= {name for name in re.findall(r"^pub fn (\w+)", text, re.M)}
        for kind, body in re.findall(r"^impl(?:<[^>]*>)? (\w+)(?:<[^>]*>)? \{\n(.*?)^\}", text, re.M | re.S):
            if kind in CLASSES:
                found |= {f"{kind}.{name}" for name in re.findall(r"^    pub fn (\w+)", body, re.M)}
    return found


def calls_of_go():
    text = "\n".join(text_of(path[len(TOP) + 1:]) for path in glob.glob(f"{TOP}/bindings/go/*.go") if not path.endswith("_test.go"))
    methods = re.findall(r"^func \(\w+ \*?(\w+)\) ([A-Z]\w*)\(", text, re.M)
    return {f"{kind}.{name}" for kind, name in methods if kind in CLASSES} | set(re.findall(r"^func ([A-Z]\w*)\(", text, re.M))


def test_each_call_has_its_names():
    """The table has each call of the header, and the five sources have the names of the table and no others."""
    table = rows()
    header = {row[0] for row in table} - {"+"}
    assert header == calls_of_the_header(), header ^ calls_of_the_header()
    for at, calls in enumerate((calls_of_cpp, calls_of_python, calls_of_rust, calls_of_go), 1):
        named, seen = {row[at] for row in table} - {"-"}, calls()
        assert named == seen, (calls.__name__, named ^ seen)


def camel(name):
    return "".join(word.capitalize() for word in name.lower().split("_"))


def statuses():
    """The statuses of the header but OK: name and number."""
    text = text_of("bindings/c/btcheck.h").split("typedef uint32_t btcheck_status;")[1].split("};")[0]
    return {name: int(number) for name, number in re.findall(r"BTCHECK_(\w+) = (\d+)", text) if name != "OK"}


def exceptions():
    """Python's exceptions: name, number and sentence."""
    found = {}
    for kind in (it for it in ast.parse(text_of("bindings/python/btcheck/_refusals.py")).body if isinstance(it, ast.ClassDef)):
        numbers = [it.value.value for it in kind.body if isinstance(it, ast.Assign) and it.targets[0].id == "status"]
        if numbers:
            found[kind.name] = (numbers[0], ast.get_docstring(kind))
    return found


def errors_of_go():
    text = text_of("bindings/go/refused.go")
    names = dict(re.findall(r"^\t(\w+) +Refused = C\.BTCHECK_(\w+)$", text, re.M))
    assert all(name == camel(header) for name, header in names.items()), names
    sentences = dict(re.findall(r'^\t(\w+): +"(.*)",$', text, re.M))
    assert set(names) == set(sentences), set(names) ^ set(sentences)
    return {name: (statuses()[header], sentences[name]) for name, header in names.items()}


def errors_of_rust():
    """Rust's errors under the names that Python and Go give them."""
    text, found = text_of("bindings/rust/btcheck/src/error.rs"), {}
    of_header = {camel(name): (name, number) for name, number in statuses().items()}
    for name in re.findall(r"^            sys::BTCHECK_\w+ => Error::(\w+),$", text, re.M):
        [sentence] = re.findall(rf"Error::{name} => (?:\{{\s*)?\"(.*?)\"", text)
        found[name] = (of_header[name][1], sentence)
    for kind, body in re.findall(r"^    (\w+Refusal) \{\n(.*?)^    \}", text_of("bindings/rust/btcheck/src/refusals.rs"), re.M | re.S):
        base, letter = {"TorrentRefusal": (100, "Torrent"), "HashRefusal": (200, "H"), "BlockRefusal": (300, "P")}[kind]
        for name, number, sentence in re.findall(r"(\w+)(?:\(\w+: \w+\))? = (\d+), *\s*\"(.*?)\";", body):
            full = f"{letter}{name}" if base == 100 else f"{letter}{number}{name}"
            found[full] = (base + int(number), sentence)
    return found


def sentences_of_the_header():
    text = text_of("bindings/c/btcheck.h")
    return dict(re.findall(r'case BTCHECK_((?!FAULT_|KEY_)\w+):\s*return "(.*?)";', text))


def test_each_status_has_one_name_and_one_sentence():
    wanted = {camel(name): number for name, number in statuses().items()}
    python = exceptions()
    assert {name: number for name, (number, _) in python.items()} == wanted, set(python) ^ set(wanted)
    for errors in (errors_of_go(), errors_of_rust()):
        assert errors == python, set(errors.items()) ^ set(python.items())
    for name, sentence in sentences_of_the_header().items():
        assert name == "OK" or python[camel(name)][1] == sentence, (name, sentence)


def test_each_kind_of_message_has_one_name():
    text = text_of("bindings/c/btcheck.h").split("/* What a message was")[1].split("};")[0]
    kinds = {camel(name) for name in re.findall(r"BTCHECK_(\w+) = \d", text)}
    python = {it.name for it in ast.parse(text_of("bindings/python/btcheck/_values.py")).body if isinstance(it, ast.ClassDef)}
    assert kinds <= python, kinds - python
    rust = re.search(r"pub enum Verdict \{\n(.*?)^\}", text_of("bindings/rust/btcheck/src/messages.rs"), re.M | re.S)[1]
    assert set(re.findall(r"^    ([A-Z]\w*)", rust, re.M)) == kinds, rust
    go = re.findall(r"^\tKind(\w+) +Kind = C\.BTCHECK_(\w+)$", text_of("bindings/go/messages.go"), re.M)
    assert {name for name, _ in go} == kinds and all(name == camel(header) for name, header in go), go


def test_the_pages_name_what_is_there():
    """What README, LIBRARY and the pages of the languages name of the modules is exported by them."""
    [listed] = (it.value for it in ast.parse(text_of("bindings/python/btcheck/__init__.py")).body
                if isinstance(it, ast.Assign) and it.targets[0].id == "__all__")
    python = set(ast.literal_eval(listed))
    go = set(re.findall(r"^(?:func|type|const) ([A-Z]\w*)|^\t([A-Z]\w*) +(?:Refused|Kind|error) +=", texts_of("bindings/go/*.go"), re.M))
    go = {name for pair in go for name in pair if name}
    for page, names in (("README.md", python), ("docs/LIBRARY.md", python), ("bindings/python/README.md", python), ("bindings/go/README.md", go)):
        found = set(re.findall(r"(?<![/\w])btcheck\.([A-Z]\w*)", text_of(page)))
        assert found <= names, (page, found - names)
    calls = {name.split(".")[-1] for name in calls_of_go() | calls_of_rust()} | {"Root", "Session", "Check", "Holdings", "Draft", "DraftFile"}
    for page in ("bindings/go/README.md", "bindings/rust/README.md"):
        rows = re.findall(r"^\| (`.*?`) \|", text_of(page), re.M)
        named = {word for row in rows for code in re.findall(r"`(.*?)`", row) for word in re.findall(r"\w+", code.partition("(")[0])}
        assert len(named) > 20 and named <= calls, (page, named - calls)


def test_the_manual_has_each_call():
    """libbtcheck(3) has the prototype of each call of the header, and a paragraph on it."""
    header, page = text_of("bindings/c/btcheck.h"), text_of("man/libbtcheck.3")
    synopsis, rest = page.split(".Sh DESCRIPTION")
    shown = {}
    for kind, name, given in re.findall(r'^\.Ft (.*)\n\.Fn btcheck_(\w+) (.*)$', synopsis, re.M):
        shown[name] = (kind, [one or other for one, other in re.findall(r'"(.*?)"|(\S+)', given)])
    wanted = {}
    for kind, name, given in re.findall(r"^(?:static inline )?(\w[\w *]*?) ?btcheck_(\w+)\(([^;{}]*?)\)(?:;| \{)", header, re.M | re.S):
        wanted[name] = (kind, [" ".join(one.split()) for one in given.split(",")])
    assert shown == wanted, [(name, shown.get(name), wanted.get(name)) for name in shown.keys() | wanted if shown.get(name) != wanted.get(name)]
    explained = re.findall(r"^\.It Fn btcheck_(\w+)\n[^.\n]", rest, re.M)
    assert sorted(explained) == sorted(wanted), set(explained) ^ set(wanted)


def test_faults_and_keys_have_one_text():
    """What the header says of a fault and a key is what the proved crates print, and what Python and Rust say."""
    header = text_of("bindings/c/btcheck.h")
    rust, python = text_of("bindings/rust/btcheck/src/refusals.rs"), text_of("bindings/python/btcheck/_refusals.py")
    for kind, names, source in (("FAULT", "_FAULTS", "crates/benc/src/fault.rt"), ("KEY", "_KEYS", "crates/filetree/src/refusal.rt")):
        numbers = {name: int(number) for name, number in re.findall(rf"BTCHECK_{kind}_(\w+) = (\d+)", header)}
        texts = dict(re.findall(rf'case BTCHECK_{kind}_(\w+): return "(.*?)";', header))
        assert set(texts) == set(numbers) and sorted(numbers.values()) == list(range(1, len(numbers) + 1)), kind
        found = dict(re.findall(r'(?:FaultKind|Key)::(\w+) => "(.*?)"', text_of(source)))
        assert {camel(name): text for name, text in texts.items()} == {name: text for name, text in found.items() if name != "NoMemory"}, kind
        assert dict((number, text) for number, text in re.findall(rf'= sys::BTCHECK_{kind}_(\w+), "(.*?)";', rust)) == texts, kind
        listed = ast.literal_eval(re.search(rf"^{names} = (\(.*?\))$", python, re.M)[1])
        assert listed == (None, *(texts[name] for name in sorted(numbers, key=numbers.get))), kind

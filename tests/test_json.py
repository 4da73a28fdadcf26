"""`--json` of `root`, `show`, `check`, `join` and `replay`: each object says what its line says."""
import json
import os
import random
import re

import messages
from poison import WRONG_SIZES
from support import expect, folder, run, write
from test_pieces import record_of, torrent_of_record
from torrents import ABC, hybrid, torrent, torrent_of
from trees import BLOCK, Tree, blocks_of, root_of

REFUSED = [r"refused (?P<number>\d+) (?P<name>\w+)", r"refused (?P<number>\d+) (?P<name>NotBencode) (?P<fault>\w+) (?P<offset>\d+)",
           r"refused (?P<number>\d+) (?P<name>Missing|WrongType) (?P<key>.*)"]

# The lines of each command, and the facts in them. What stands before the first fact is the kind, if the line has no other.
LINES = {
    "root": [*REFUSED, r"(?P<length>\d+) -", r"(?P<length>\d+) (?P<root>[0-9a-f]{64})"],
    "show": [*REFUSED, r"name: (?P<name>.*)", r"piece length: (?P<bytes>\d+)", r"info hash v[12]: (?P<hash>[0-9a-f]+)",
             r"files: (?P<count>\d+)", r"(?P<length>\d+) - (?P<path>.*)", r"(?P<length>\d+) (?P<root>[0-9a-f]{64}) (?P<path>.*)",
             r"total: (?P<bytes>\d+) (?P<size>.*)", r"pieces: (?P<count>\d+) of (?P<size>.*)", r"layers: (?P<count>\d+)"],
    "check": [*REFUSED, r"(?:extra|good|missing|unreadable|wrong length) (?P<path>.*)", r"bad (?P<piece>\d+) (?P<path>.*)", r"v1 good|v1 not checked",
              r"bad pieces (?P<first>\d+) (?P<last>\d+) bytes (?P<from>\d+)-(?P<to>\d+)",
              r"v1 bad (?P<piece>\d+)", r"yes|no", r"part (?P<part>\d+)/(?P<parts>\d+) (?P<hash>[0-9a-f]{64})(?: bad)?", r"part yes|part no"],
    "replay": [*REFUSED, r"(?P<frame>\d+) stored (?P<count>\d+)", r"(?P<frame>\d+) verified (?P<file>\d+) (?P<block>\d+)",
               r"(?P<frame>\d+) held (?P<file>\d+) (?P<block>\d+)", r"held (?P<count>\d+)",
               r"(?P<frame>\d+) (?:proved|false|dropped) (?P<file>\d+) (?P<first>\d+) (?P<last>\d+)",
               r"(?P<frame>\d+) refused (?P<code>[HP]\d) (?P<name>\w+)(?: (?P<file>\d+) (?P<block>\d+))?",
               r"(?P<frame>\d+) (?:answered|rejected|reject noted|keep-alive|sent request|sent)", r"(?P<frame>\d+) skipped (?P<id>\d+)",
               r"(?P<frame>\d+) bad frame (?P<id>\d+) (?P<length>\d+)", r"(?:not )?seeded (?P<path>.*)", r"fault (?P<name>\w+)", r"end"],
}
NUMBERS = {"length", "number", "offset", "bytes", "count", "piece", "frame", "file", "block", "id", "first", "last", "from", "to", "part", "parts"}
KIND = re.compile(r"not checked|not seeded|wrong length|bad pieces|reject noted|sent request|bad frame|keep-alive|part yes|part no|piece length|info hash v[12]|v1 \w+|[a-z]+")


def unescaped(text):
    return re.sub(r"\\x([0-9a-f]{2})", lambda found: chr(int(found[1], 16)), text)


def facts(command, line):
    """What a line says, and its kind. `join` has the lines of `check`."""
    for pattern in LINES["check" if command == "join" else command]:
        found = re.fullmatch(pattern, line)
        if found:
            said = {key: int(value) if key in NUMBERS else unescaped(value) for key, value in found.groupdict().items() if value is not None}
            break
    else:
        raise AssertionError(f"no line of {command}: {line}")
    if command == "root" and "length" in said:
        return {"kind": "root", **said}
    if command == "show" and "path" in said:
        return {"kind": "file", **said}
    words = line[len(str(said["frame"])) + 1:] if "frame" in said else line
    kind = "part bad" if "parts" in said and line.endswith(" bad") else "v1 not checked" if words == "v1 not checked" else KIND.match(words)[0]
    return {"kind": kind, **said}


def all_facts(command, lines):
    """What the lines say. A run of bad pieces is of the file that the line before it names."""
    found, path = [], None
    for line in lines:
        said = facts(command, line)
        path = said.get("path", path)
        found.append({**said, "path": path} if said["kind"] == "bad pieces" else said)
    return found


def agree(status, command, *arguments):
    """The objects say what the lines say, and the status is the same."""
    lines, objects = run(command, *arguments), run(command, *arguments, "--json")
    assert (lines.returncode, objects.returncode) == (status, status), (lines, objects)
    assert objects.stderr == lines.stderr
    text = lines.stdout.decode()
    said = [json.loads(line) for line in objects.stdout.decode().split("\n")[:-1]]
    assert objects.stdout.endswith(b"\n") or not said
    assert said == all_facts(command, text.split("\n")[:-1]), (text, objects.stdout)
    return {one["kind"] for one in said}


def test_root():
    with folder() as place:
        assert agree(0, "root", write(f"{place}/a", b"")) == {"root"}
        agree(0, "root", write(f"{place}/b", bytes(100000)))
        expect(run("root", "--json", f"{place}/none"), 2, "", f"fault: cannot read {place}/none\n")


NAMES = ["plain", "with space", "line\nfeed", "back\\slash", "ünïcode", "quote\"", "tab\t", "\x7f", "good x", "1 2"]


def test_show_and_check():
    with folder() as place:
        contents = [(name, random.Random(name).randbytes(1000 * at)) for at, name in enumerate(sorted(NAMES))]
        path = write(f"{place}/t", torrent_of(contents, 16384))
        agree(0, "show", path)
        assert {"total", "pieces", "layers"} <= agree(0, "show", path, "--long")
        agree(0, "show", write(f"{place}/h", torrent(hybrid())))
        for name, content in contents:
            os.makedirs(os.path.dirname(f"{place}/all/{name}"), exist_ok=True)
            write(f"{place}/all/{name}", content)
        assert agree(0, "check", path, f"{place}/all") == {"good", "yes"}
        assert agree(1, "check", path, place, "--extra") == {"extra", "missing", "no"}
        write(f"{place}/all/{NAMES[2]}", b"other")
        os.remove(f"{place}/all/{NAMES[3]}")
        content = dict(contents)[NAMES[4]]
        write(f"{place}/all/{NAMES[4]}", content[:-1] + bytes([content[-1] ^ 1]))
        os.remove(f"{place}/all/{NAMES[5]}")
        os.mkdir(f"{place}/all/{NAMES[5]}")
        assert agree(1, "check", path, f"{place}/all") == {"good", "wrong length", "missing", "bad", "unreadable", "no"}
        assert agree(1, "check", "--quiet", path, f"{place}/all") == {"wrong length", "missing", "bad", "unreadable", "no"}
        assert agree(1, "check", f"{place}/h", f"{place}/all") == {"missing", "v1 not checked", "no"}
        for text in (b"abc", b"", b"d4:info", b"de", b"d4:info0:e", b"d4:infod9:file treed1:a0:eee", ABC + b" "):
            for command in (["show", write(f"{place}/w", text)], ["check", f"{place}/w", place]):
                assert agree(1, *command) == {"refused"}, text


def test_parts_and_joins():
    """Reports of parts and what they say together, with and without bad pieces, and of a hybrid."""
    with folder() as place:
        contents = [(name, random.Random(name).randbytes(40000 * at)) for at, name in enumerate(sorted(NAMES))]
        path = write(f"{place}/t", torrent_of(contents, 16384))
        for name, content in contents:
            write(f"{place}/{name}", content)
        write(f"{place}/{NAMES[4]}", bytes(len(dict(contents)[NAMES[4]])))
        for options, first in (([], "part"), (["--bad"], "part bad")):
            kinds, reports = set(), []
            for number in (1, 2, 3):
                asked = [path, place, "--part", f"{number}/3", *options]
                done = run("check", *asked)
                reports.append(write(f"{place}/report{number}", done.stdout))
                kinds |= agree(done.returncode, "check", *asked)
            assert kinds == {first, "good", "bad", "part yes", "part no", *(["bad pieces"] if options else [])}, kinds
            assert agree(1, "join", path, *reports) == {"good", "bad", "no", *(["bad pieces"] if options else [])}
            expect(run("join", path, *reports, "--json"), 1, run("check", path, place, *options, "--json").stdout)
            expect(run("join", path, *reports[:2], "--json"), 2, "", "fault: part 3 of 3 is missing\n")
        path = write(f"{place}/h", torrent(hybrid()))
        report = run("check", path, f"{place}/none", "--part", "1/1")
        assert agree(1, "check", path, f"{place}/none", "--part", "1/1") == {"part", "missing", "v1 not checked", "part no"}
        assert agree(1, "join", path, write(f"{place}/report", report.stdout)) == {"missing", "v1 not checked", "no"}
        objects = run("check", path, f"{place}/none", "--part", "1/1", "--json").stdout
        expect(run("join", path, write(f"{place}/report", objects)), 2, "", f"fault: no whole report of a part: {place}/report\n")
        for command in (["check", write(f"{place}/w", b"abc"), place, "--part", "1/1"], ["join", f"{place}/w", f"{place}/report"]):
            assert agree(1, *command) == {"refused"}


def test_replay_that_holds():
    """A record in which held blocks are proved, one in which they are false, and one that ends before their piece."""
    kinds = set()
    with folder() as place:
        for name in ("v2-64k-magnet", "v2-64k-turned1-1-file-1", "v2-64k-two-1"):
            torrent_file, with_layers = torrent_of_record(name)
            words = [write(f"{place}/t", torrent_file), write(f"{place}/r", record_of(name)), "--pieces", "--padded"]
            words += [] if with_layers else ["--info-only"]
            kinds |= agree(run("replay", *words).returncode, "replay", *words)
    assert {"held", "proved", "false", "end"} <= kinds, kinds


def test_replay():
    content = random.Random(3).randbytes(5 * BLOCK + 100)
    tree, root = Tree.of(content), root_of(content)
    blocks, leaves = blocks_of(content), tree.layers[0]
    frames = [
        messages.KEEP_ALIVE, messages.piece(0, 0, blocks[0]), messages.hashes(root, 0, 0, 8, 0, given=leaves),
        messages.hashes(bytes(32), 0, 0, 8, 0, given=leaves), messages.piece(0, 0, blocks[0]), messages.piece(0, 0, blocks[1]),
        messages.piece(0, 0, blocks[0] + blocks[2]), messages.piece(0, 0, blocks[0] + blocks[1]), messages.piece(9, 0, b"a"),
        messages.request(root, 0, 0, 8, 0), messages.request(root, 0, 1, 8, 0), messages.frame(b"\x04" + bytes(4)),
        *(messages.frame(bytes([kind]) + bytes(size - 1)) for kind, size in WRONG_SIZES[:3]),
    ]
    with folder() as place:
        path = write(f"{place}/t", torrent_of([("a", content), ("b\n", b"b")], 2 * BLOCK))
        write(f"{place}/a", content)
        record = write(f"{place}/r", b"".join(frames))
        kinds = agree(1, "replay", path, record, "--info-only")
        assert kinds == {"keep-alive", "refused", "stored", "verified", "answered", "rejected", "skipped", "bad frame", "end"}, kinds
        assert {"seeded", "not seeded"} <= agree(1, "replay", path, record, "--seed", place)
        write(f"{place}/r", b"".join(frames)[:-1])
        assert "fault" in agree(2, "replay", path, record)
        expect(run("convert", write(f"{place}/one", b"".join(frames[:5])), f"{place}/two"), 0)
        assert {"sent request"} <= agree(1, "replay", path, f"{place}/two", "--info-only")
        agree(1, "replay", write(f"{place}/w", b"abc"), record)


def test_full_disk():
    with folder() as place, open("/dev/full", "wb") as full:
        done = run("root", "--json", write(f"{place}/a", b"abc"), stdout=full)
        expect(done, 2, None, "fault: cannot write -\n")

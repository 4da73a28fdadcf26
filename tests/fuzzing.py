"""Hostile input drawn at random: torrents, records, folders and reports of parts, each run by the program under limits of time and memory
and compared with the plain models."""
import collections
import copy
import functools
import hashlib
import os
import random
import re
import shutil

import folder_model
import opening_model
import parts_model
import pieces_model
import record_model
import torrents
from poison import Peers
from session_model import Session
from support import TOP, run, write, written
from trees import layer, root_of

# The KiB and the seconds that a case may take; `replay` and the others need a few MiB.
MEMORY = 64 << 10
SECONDS = 10

SIZES = [0, 0, 1, 3, 100, 16383, 16384, 16385, 32768, 40000, 65536, 65636, 131073]
NAMES = [b"a", b"b", b"a.txt", b"c d", b"\\", b"\n\x7f", "ü".encode(), "文件".encode(), b"...", b"e" * 40]
PIECE_LENGTHS = [16384, 16384, 32768, 65536, 131072]

# What stands in the place of a value: at limits, of another type, or where it means something else.
NUMBERS = [0, -1, 1, 2, 3, 20, 32, 16383, 16384, 16385, 24576, 32768, 1 << 30, 1 << 31, (1 << 46) - 1, 1 << 46,
           (1 << 46) + 1, (1 << 63) - 1, -(1 << 63), 1 << 63, -(1 << 63) - 1]
TEXTS = [b"", b"x", b".", b"..", b"a/b", b"a\0", b"\xff", b"\xc0\xaf", b"\xed\xa0\x80", b"l", b"p", b"xp",
         bytes(20), bytes(31), bytes(32), bytes(33), bytes(64)]
KEYS = TEXTS + [b"info", b"meta version", b"file tree", b"name", b"piece length", b"piece layers", b"pieces",
                b"length", b"files", b"path", b"attr", b"pieces root"]
BYTES = b"0123456789ilde:-"
DEPTHS = [1, 5, 127, 128, 129, 400]
WORDS = [0, 1, 2, 3, 4, 7, 8, 9, 16, 48, 49, 50, 81, 512, 8192, 16384, 32768, 1 << 31, (1 << 32) - 2, (1 << 32) - 1]


@functools.lru_cache(maxsize=None)
def content_of(size, seed):
    return random.Random(f"{size} {seed}").randbytes(size)


@functools.lru_cache(maxsize=None)
def entry_of(size, seed, piece_length):
    """The content, root and piece layer of a file."""
    content = content_of(size, seed)
    root = root_of(content) if size else None
    return content, root, layer(content, piece_length // 16384) if size > piece_length else None


def drawn_torrent(draw):
    """A torrent that opens, as a value, with its files as paths and contents in the order of the torrent."""
    piece_length = draw.choice(PIECE_LENGTHS)
    tree, layers, files = {}, {}, {}
    for _ in range(draw.choice([1, 1, 2, 3, 5, 8])):
        path = tuple(draw.choice(NAMES) for _ in range(draw.choice([1, 1, 2, 3])))
        if any(path[:len(other)] == other or other[:len(path)] == path for other in files):
            continue
        content, root, hashes = entry_of(draw.choice(SIZES), draw.randrange(3), piece_length)
        files[path] = content
        place = functools.reduce(lambda folder, name: folder.setdefault(name, {}), path, tree)
        place[b""] = {b"length": len(content)} | ({b"pieces root": root} if content else {})
        if hashes is not None:
            layers[root] = hashes
    info = {b"file tree": tree, b"meta version": 2, b"name": draw.choice(NAMES), b"piece length": piece_length}
    files = sorted(files.items())
    if draw.random() < 0.5:
        info |= version_1(draw, files, piece_length, info[b"name"])
    top = {b"info": info, b"piece layers": layers}
    if draw.random() < 0.2:
        top[b"announce"] = b"http://tracker.invalid/"
        place[b""][b"attr"] = b"x"
    if not layers and draw.random() < 0.2:
        del top[b"piece layers"]
    return top, files


def version_1(draw, files, piece_length, name):
    """The keys of version 1 of a hybrid of these files."""
    entries, stream = [], b""
    for path, content in files:
        if content and len(stream) % piece_length:
            stream += bytes(-len(stream) % piece_length)
            before = sum(entry[b"length"] for entry in entries)
            entries.append({b"attr": b"p", b"length": len(stream) - before, b"path": [b".pad", b"1"]})
        entries.append({b"length": len(content), b"path": list(path)})
        stream += content
    if draw.random() < 0.3 and stream and len(stream) % piece_length:
        entries.append({b"attr": b"p", b"length": -len(stream) % piece_length, b"path": []})
        stream += bytes(entries[-1][b"length"])
    pieces = b"".join(hashlib.sha1(stream[at:at + piece_length]).digest() for at in range(0, len(stream), piece_length))
    if len(entries) == 1 and files[0][0] == (name,):
        return {b"length": len(stream), b"pieces": pieces}
    return {b"files": entries, b"pieces": pieces}


def places(value):
    """Every place of a value below the top: the list or dictionary, and the index or key."""
    for key in list(value.keys()) if isinstance(value, dict) else range(len(value)):
        yield value, key
        if isinstance(value[key], (dict, list)):
            yield from places(value[key])


def bent_value(draw, value, whole):
    """Another value for this one."""
    if draw.random() < 0.4:
        if isinstance(value, int):
            return value + draw.choice([-1, 1, value, -value])
        if isinstance(value, bytes) and value:
            return draw.choice([value[:-1], value + value[-1:], value[1:] + value[:1], turned(draw, value), value * 2])
        if isinstance(value, list) and value:
            return draw.choice([value[:-1], value + value[-1:], value[::-1], [value]])
        if isinstance(value, dict) and value:
            key = draw.choice(sorted(value))
            return draw.choice([{**value, draw.choice(KEYS): value[key]}, {b"": value}, {draw.choice(KEYS): value},
                                {draw.choice(KEYS) if old == key else old: inner for old, inner in value.items()}])
    inside, key = draw.choice(list(places(whole)))
    return draw.choice([draw.choice(NUMBERS), draw.choice(TEXTS), [], {}, [b"x"], {b"": {}},
                        {b"x": {b"": {b"length": 0}}}, copy.deepcopy(inside[key])])


def bend_file(draw, top):
    """Changes what the torrent says of one of its files to what another refusal is for."""
    files = [inside[key] for inside, key in places(top[b"info"][b"file tree"]) if key == b""]
    one, other = draw.choice(files), draw.choice(files)
    one.update(draw.choice([{b"attr": b"hl"}, {b"attr": 1}, {b"length": 1 << 46}, {b"length": 1 << 45}, {b"length": 0},
                            {b"pieces root": other.get(b"pieces root", b"")}, {b"pieces root": bytes(32)}]))


def bend(draw, top):
    """Changes a torrent's value at one to three places."""
    if draw.random() < 0.15:
        bend_file(draw, top)
        return
    for _ in range(draw.choice([1, 1, 1, 2, 3])):
        found = list(places(top))
        if not found:
            return
        inside, key = draw.choice(found)
        if draw.random() < 0.2:
            del inside[key]
        else:
            inside[key] = bent_value(draw, inside[key], top)


def turned(draw, content):
    at = draw.randrange(len(content))
    return content[:at] + bytes([content[at] ^ 1 << draw.randrange(8)]) + content[at + 1:]


def bend_bytes(draw, content):
    """Changes bytes at one to four places, mostly where the form of a value stands."""
    for _ in range(draw.choice([1, 1, 2, 4])):
        if not content:
            return draw.choice([b"x", b"de", b"i0e"])
        at = draw.randrange(len(content))
        if draw.random() < 0.7:
            at = next((place for place in range(at, len(content)) if content[place] in BYTES), at)
        end = min(len(content), at + draw.choice([1, 1, 2, 5, 40, 1000]))
        content = draw.choice([
            lambda: turned(draw, content),
            lambda: content[:at] + bytes([draw.choice(BYTES)]) + content[at + 1:],
            lambda: content[:at] + bytes([draw.choice(BYTES)]) + content[at:],
            lambda: content[:at] + content[end:],
            lambda: content[:end] + content[at:],
            lambda: content[:at],
            lambda: content + draw.choice([b"e", b"x", b"0:", b"i1e"]),
            lambda: content[:at] + draw.choice([b"l", b"d0:", b"d1:a"]) * draw.choice(DEPTHS) + content[at:],
        ])()
    return content


def seconds_of_processors():
    """The processors' time that this process took, and those that it ran and that have ended."""
    return sum(os.times()[:4])


def answer(line):
    """What a printed line says, without its numbers and paths."""
    words = line.split()
    if words[0].isdigit():
        words = words[1:]
    count = {"refused": 4 if words[1:2] == ["2"] else 3, "v1": 2, "fault": 2}.get(words[0], 1)
    return " ".join(words[:count])


class Fuzz:
    """Cases of one seed in a folder, and how often the program answered what."""

    def __init__(self, place, seed):
        self.place, self.seed = place, seed
        self.cases, self.start = collections.Counter(), seconds_of_processors()
        self.answers = {kind: collections.Counter() for kind in ("torrent", "record", "conversion", "folder", "join", "assembly")}

    def case(self, kind):
        """Draws a case of this kind and compares it."""
        self.cases[kind] += 1
        self.name = f"{kind} {self.seed} {self.cases[kind]}"
        getattr(self, kind)(random.Random(self.name))

    def rate(self):
        """How many cases there were in a minute of one processor's time, the models' own time with it."""
        return round(60 * self.cases.total() / (seconds_of_processors() - self.start))

    def compare(self, kind, wanted, *arguments, error=b""):
        """The program answers so, and prints this on standard error."""
        done = run(*arguments, timeout=SECONDS, memory=MEMORY)
        seen = (done.returncode, done.stdout)
        if seen != wanted or done.stderr != error:
            kept = f"{TOP}/build/fuzz {self.name}"
            shutil.rmtree(kept, ignore_errors=True)
            shutil.copytree(self.place, kept, symlinks=True)
            raise AssertionError(f"case {self.name}, kept in {kept}: {arguments[0]!r} is to answer {wanted}, "
                                 f"and answered {seen}, {done.stderr}")
        lines = (seen[1] or done.stderr or b"converted\n").decode().split("\n")[:-1]
        self.answers[kind].update(map(answer, lines[:1] if kind == "torrent" else lines))

    def torrent(self, draw):
        top, _ = drawn_torrent(draw)
        if draw.random() < 0.8:
            bend(draw, top)
        content = torrents.bencoded(top)
        if draw.random() < 0.3:
            content = bend_bytes(draw, content)
        write(f"{self.place}/torrent", content)
        self.compare("torrent", opening_model.shown(content), "show", f"{self.place}/torrent")

    def drawn_record(self, draw, rate):
        """A torrent's files, its piece length, whether its layers are known, and a record, at this rate with
        directions."""
        piece_length = draw.choice(PIECE_LENGTHS)
        files = [(name, content_of(draw.choice([*SIZES, 9 * 16384]), draw.randrange(3))) for name in "abc"]
        files[0] = ("a", files[0][1] or b"abc")
        with_layers = draw.random() < 0.5
        frames, _ = Peers(files, piece_length, with_layers, draw.random()).messages(draw.choice([1, 5, 20]))
        return files, piece_length, with_layers, bent_record(draw, frames, draw.random() < rate)

    def record(self, draw):
        files, piece_length, with_layers, record = self.drawn_record(draw, 0.5)
        write(f"{self.place}/torrent", torrents.torrent_of(files, piece_length))
        write(f"{self.place}/record", record)
        is_padded = draw.random() < 0.3
        model = pieces_model.padded_report if is_padded else record_model.report
        wanted = model(Session(files, piece_length, with_layers), record)
        flags = ([] if with_layers else ["--info-only"]) + (["--padded"] if is_padded else [])
        self.compare("record", wanted, "replay", f"{self.place}/torrent", f"{self.place}/record", *flags)

    def conversion(self, draw):
        *_, record = self.drawn_record(draw, 0.1)
        path, out = write(f"{self.place}/record", record), f"{self.place}/out"
        status, printed, error, least = record_model.conversion(record, path)
        self.compare("conversion", (status, printed), "convert", path, out, error=error)
        with open(out, "rb") as file:
            seen = file.read()
        if seen[:len(least)] != least or (status == 0 and seen != least):
            raise AssertionError(f"case {self.name}: {path} is converted to {seen}")

    def folder(self, draw):
        top, files = drawn_torrent(draw)
        if draw.random() < 0.4:
            bend(draw, top)
        content = torrents.bencoded(top)
        write(f"{self.place}/torrent", content)
        try:
            torrent = opening_model.Opened(content)
        except opening_model.Refused as refused:
            self.compare("folder", (1, f"{refused.text}\n".encode()), "check", f"{self.place}/torrent", self.place)
            return
        if torrent.is_hybrid and sum(length for _, length in torrent.version_1_list()) > 1 << 24:
            return
        shutil.rmtree(f"{self.place}/folder", ignore_errors=True)
        below = os.fsencode(self.place) + b"/folder/content"
        for path, bytes_of in files:
            os.makedirs(b"/".join([below, *path[:-1]]), exist_ok=True)
            write(b"/".join([below, *path]), bytes_of)
        for path, bytes_of in draw.sample(files, draw.choice([0, 1, 1, 1, min(2, len(files)), len(files)])):
            damage(draw, b"/".join([below, *path]), bytes_of)
        report = folder_model.report(torrent, below)
        self.compare("folder", report, b"check", f"{self.place}/torrent", below)
        shown = run(b"check", f"{self.place}/torrent", below, b"--bad")
        lines = [line for line in shown.stdout.splitlines(True) if not line.startswith(b"bad pieces ")]
        assert (shown.returncode, b"".join(lines), shown.stderr) == (*report, b""), (report, shown)

    def join(self, draw):
        top, files = drawn_torrent(draw)
        torrent, below = write(f"{self.place}/torrent", torrents.bencoded(top)), os.fsencode(self.place) + b"/folder"
        shutil.rmtree(below, ignore_errors=True)
        os.mkdir(below)
        for path, bytes_of in files:
            os.makedirs(b"/".join([below, *path[:-1]]), exist_ok=True)
            write(b"/".join([below, *path]), bytes_of)
        for path, bytes_of in draw.sample(files, draw.choice([0, 1, min(2, len(files))])):
            damage(draw, b"/".join([below, *path]), bytes_of)
        count, more = draw.choice([1, 2, 3, 5]), draw.choice([[], [b"--bad"]])
        true = [run(b"check", torrent, below, b"--part", b"%d/%d" % (number + 1, count), *more).stdout for number in range(count)]
        given = bent_reports(draw, true)
        paths = [write(f"{self.place}/report {number}", text) for number, text in enumerate(given)]
        done = run("join", torrent, *paths, timeout=SECONDS, memory=MEMORY)
        wanted = joined(opening_model.Opened(torrents.bencoded(top)), true, given)
        if wanted is None:
            is_right = (done.returncode, done.stdout) == (2, b"") and JOIN_FAULT.fullmatch(done.stderr)
        else:
            is_right = (done.returncode, done.stdout, done.stderr) == (*wanted, b"")
        if not is_right:
            raise AssertionError(f"case {self.name}: a join of {given} is to answer {wanted}, and answered {done}")
        self.answers["join"].update([re.sub(r":? /.*| [0-9].*", "", (done.stdout or done.stderr).decode().splitlines()[-1])])


    def assembly(self, draw):
        """The parts of a torrent that is made. True ones make what `create` makes; of others something is made that opens,
        or it is said why not, and OUT stays."""
        below, whole, out = (os.fsencode(self.place) + name for name in (b"/folder", b"/whole", b"/out"))
        shutil.rmtree(below, ignore_errors=True)
        os.mkdir(below)
        for number in range(draw.choice([1, 2, 4])):
            write(b"%s/%d" % (below, number), content_of(draw.choice([0, 1, 16384, 40000, 70000]), number))
        words = [b"--name", b"x", b"--piece-length", b"16384", *draw.choice([[], [b"--hybrid"]])]
        made, count = run(b"create", below, whole, *words), draw.choice([1, 2, 3])
        true = []
        for number in range(count):
            part = run(b"create", below, out, *words, b"--part", b"%d/%d" % (number + 1, count))
            assert part.returncode == 0, part
            true.append(written(out))
        given = bent_parts(draw, true)
        paths = [write(f"{self.place}/part {number}", text) for number, text in enumerate(given)]
        write(out, b"before")
        done = run(b"assemble", out, *paths, timeout=SECONDS, memory=MEMORY)
        seen, left = (done.returncode, done.stdout, done.stderr), written(out)
        if sorted(given) == sorted(true):
            is_right = (seen, left) == ((made.returncode, made.stdout, b""), written(whole))
        elif done.returncode == 0:
            is_right = seen == (0, b"", b"") and run(b"show", out).returncode == 0
        elif done.returncode == 1:
            is_right = re.fullmatch(rb"refused [0-9]+ \w+.*\n", done.stdout, re.S) and not done.stderr
        else:
            is_right = (done.returncode, done.stdout, left) == (2, b"", b"before") and ASSEMBLE_FAULT.fullmatch(done.stderr)
        if not is_right:
            raise AssertionError(f"case {self.name}: of {given} a torrent was made so: {seen}, {left}")
        self.answers["assembly"].update([re.sub(r":? /.*| [0-9].*", "", ((done.stdout or done.stderr).decode().splitlines() or ["made"])[-1])])


# The lines of an assembly that is refused.
ASSEMBLE_FAULT = re.compile(rb"fault: (part \d+ of \d+ is missing|part \d+ is (there twice|of another folder)|no whole part: .*"
                            rb"|a part of another number of parts: .*)\n")

# The lines of a join that is refused.
JOIN_FAULT = re.compile(rb"fault: (part \d+ of \d+ is missing|part \d+ is there twice|no whole report of a part: .*"
                        rb"|a part of another torrent: .*|a report of another number of parts: .*)\n")
RUN = re.compile(rb"bad pieces (0|[1-9][0-9]{0,19}) (0|[1-9][0-9]{0,19}) bytes (0|[1-9][0-9]{0,19})-(0|[1-9][0-9]{0,19})")
VERDICT = re.compile(rb"(good|missing|unreadable|wrong length|bad (0|[1-9][0-9]{0,19})) (.*)", re.S)
V1_VERDICT = re.compile(rb"v1 (good|not checked|bad (0|[1-9][0-9]{0,19}))")
BEST_FIRST = [b"good", b"bad", b"wrong length", b"unreadable", b"missing"]


def bent_reports(draw, true):
    """These reports in another order, of which some are changed."""
    given = draw.sample(true, len(true))
    for _ in range(draw.choice([0, 1, 1, 2])):
        at = draw.randrange(len(given)) if given else 0
        text = given[at] if given else b""
        lines, words = text.splitlines(True), text.split(b" ")
        one, other = (draw.randrange(len(lines)) for _ in range(2)) if lines else (0, 0)
        word = draw.randrange(len(words))
        instead = draw.choice([b"good", b"missing", b"bad", b"unreadable", b"wrong", b"0", b"1", b"18446744073709551615",
                               b"18446744073709551616", b"1/1", b"2/2", b"yes\n", b"no\n", b"v1", b""])
        bent = draw.choice([
            lambda: text[:draw.randrange(len(text) + 1)],
            lambda: b"".join(lines[:one] + lines[one + 1:]),
            lambda: b"".join(lines[:one] + lines[other:other + 1] + lines[one:]),
            lambda: b" ".join(words[:word] + [instead] + words[word + 1:]),
            lambda: b"".join(lines[:one] + [draw.choice([b"bad 0", b"bad 7", b"missing", b"unreadable", b"wrong length"])
                                            + lines[one][4:] if lines[one:one + 1] and lines[one][:5] == b"good " else b""]
                             + lines[one + 1:]).replace(b"part yes\n", b"part no\n"),
            lambda: bend_bytes(draw, text) if text else b"x",
            lambda: text + text,
            lambda: text.replace(b"part no\n", b"part yes\n"),
            lambda: text.replace(b" bad\n", b"\n", 1) if b" bad\n" in text else text.replace(b"\n", b" bad\n", 1),
            lambda: bend_run(draw, text),
            lambda: re.sub(rb"(?<= )[0-9a-f]{64}(?=\n)", b"%064x" % draw.getrandbits(256), text, count=1),
        ])()
        if given and draw.random() < 0.8:
            given[at] = bent
        else:
            given.insert(at, draw.choice([text, bent]))
    return given or [b""]


def bent_parts(draw, true):
    """These parts of a torrent in another order, of which some are changed, left out, or there twice."""
    given = draw.sample(true, len(true))
    for _ in range(draw.choice([0, 1, 1, 2])):
        at = draw.randrange(len(given)) if given else 0
        text = given[at] if given else b""
        bent = draw.choice([
            lambda: text[:draw.randrange(len(text) + 1)],
            lambda: turned(draw, text) if text else b"x",
            lambda: bend_bytes(draw, text) if text else b"x",
            lambda: text + draw.choice([b"x", b"\n", text]),
            lambda: re.sub(rb"[0-9]+", b"%d" % draw.getrandbits(draw.choice([1, 3, 64, 70])), text, count=draw.choice([1, 2, 3])),
        ])()
        if given and draw.random() < 0.7:
            given[at] = bent
        elif given and draw.random() < 0.5:
            del given[at]
        else:
            given.insert(at, draw.choice([text, bent]))
    return given or [b""]


def bend_run(draw, text):
    """The report with another number in the line of a run of bad pieces, or with such a line more."""
    runs = list(re.finditer(rb"bad pieces .*\n", text))
    if not runs:
        return re.sub(rb"\n", b"\nbad pieces 0 0 bytes 0-16383\n", text, count=1)
    run = draw.choice(runs)
    numbers = list(re.finditer(rb"[0-9]+", run[0]))
    one = draw.choice(numbers)
    other = b"%d" % max(int(one[0]) + draw.choice([-16384, -1, 1, 16384]), 0)
    return text[:run.start()] + run[0][:one.start()] + other + run[0][one.end():] + text[run.end():]


def without_runs(text):
    """A report without the lines of runs, and for each line that is left the runs behind it."""
    left, runs = [], []
    for line in text.split(b"\n"):
        found = RUN.fullmatch(line)
        if found and left:
            runs[-1].append(tuple(int(number) for number in found.groups()))
        else:
            left.append(line)
            runs.append([])
    return b"\n".join(left), runs


def are_runs(runs, verdict, there, first, length, piece_length):
    """Whether a report can tell these runs of a file with these pieces in the part, behind this verdict."""
    if not verdict.startswith((b"bad", b"wrong")):
        return not runs
    ends = [there.start - 2] + [last for _, last, _, _ in runs]
    return (all(before + 1 < low <= high < there.stop and start == (low - first) * piece_length
                and end == min((high - first + 1) * piece_length, length) - 1
                for before, (low, high, start, end) in zip(ends, runs))
            and (not verdict.startswith(b"bad") or bool(runs) and runs[0][0] == int(verdict.split()[1])))


def marked(text, true, held, pieces, files, piece_length):
    """The same of a report that may tell of runs: what it says, and the pieces in them by the files' names."""
    plain, runs = without_runs(text)
    says = said(plain, without_runs(true)[0], held, pieces)
    if says is None or runs != [[]] * len(runs) and not true.split(b"\n")[0].endswith(b" bad"):
        return None
    own = [(there, *file) for there, file in zip(held, files) if there is not None]
    bad = {}
    for at, told in enumerate(runs):
        if not 1 <= at <= len(own):
            if told:
                return None
            continue
        there, first, length = own[at - 1]
        name = VERDICT.fullmatch(plain.split(b"\n")[at])[3]
        verdict = VERDICT.fullmatch(plain.split(b"\n")[at])[1]
        if true.split(b"\n")[0].endswith(b" bad") and not are_runs(told, verdict, there, first, length, piece_length):
            return None
        bad[name] = {piece for low, high, _, _ in told for piece in range(low, high + 1)}, first, length
    return says, bad


def run_lines(bad, first, length, piece_length):
    """The lines of the runs of these bad pieces of a file."""
    lines, left = [], sorted(bad)
    while left:
        many = next((at for at in range(1, len(left)) if left[at] != left[0] + at), len(left))
        last = left[many - 1]
        lines.append(b"bad pieces %d %d bytes %d-%d" % (left[0], last, (left[0] - first) * piece_length,
                                                        min((last - first + 1) * piece_length, length) - 1))
        left = left[many:]
    return lines


def said(text, true, held, pieces):
    """What a report says of each file and of the version 1 pieces, if it has the form of the true one of its part, which
    has these pieces of the files that have a place there, and these of all."""
    lines, others = text.split(b"\n"), true.split(b"\n")
    if len(lines) != len(others) or lines[0] != others[0] or lines[-1]:
        return None
    says, own = {}, iter(there for there in held if there is not None)
    for line, other in zip(lines[1:-2], others[1:-2]):
        of_file = not other.startswith(b"v1 ")
        there = next(own) if of_file else pieces
        found, wanted = ((VERDICT if of_file else V1_VERDICT).fullmatch(text) for text in (line, other))
        if not found or of_file and found[3] != wanted[3] or found[2] and int(found[2]) not in there:
            return None
        says[wanted[3] if of_file else None] = found[1]
    is_whole = all(verdict.split()[0] in (b"good", b"bad") for name, verdict in says.items() if name is not None)
    if None in says and (says[None] != b"not checked") != is_whole:
        return None
    is_good = all(verdict == b"good" for verdict in says.values())
    return says if lines[-2] == (b"part yes" if is_good else b"part no") else None


def badness(verdict):
    """A key by which the worst verdict is the largest."""
    if verdict == b"not checked":
        return 5, 0
    kind, _, piece = verdict.partition(b" ") if verdict.startswith(b"bad") else (verdict, b"", b"")
    return BEST_FIRST.index(kind), -int(piece or 0)


def of_kind(text, tells_runs):
    """A report as one that may tell of runs, or as a plain one."""
    if text.split(b"\n")[0].endswith(b" bad") == tells_runs:
        return text
    head, rest = without_runs(text)[0].split(b"\n", 1)
    return (head + b" bad" if tells_runs else head.removesuffix(b" bad")) + b"\n" + rest


def joined(torrent, true, given):
    """The status and the report of a join, or none if it is refused. All reports are of the kind of the first."""
    if len(given) != len(true):
        return None
    heads = [text.split(b"\n")[0] for text in given]
    true = [of_kind(text, heads[0].endswith(b" bad")) for text in true]
    says, bad = {}, {}
    lengths = [length for _, length, _ in torrent.files]
    files = list(zip(parts_model.first_pieces(lengths, torrent.piece_length)[0], lengths))
    for number, text in enumerate(true):
        head = text.split(b"\n")[0]
        if heads.count(head) != 1:
            return None
        held, pieces = parts_model.pieces_in(lengths, torrent.piece_length, number, len(true))
        one = marked(given[heads.index(head)], text, held, pieces, files, torrent.piece_length)
        if one is None:
            return None
        for name, verdict in one[0].items():
            says[name] = max(says.get(name, b"good"), verdict, key=badness)
        for name, (told, first, length) in one[1].items():
            bad[name] = bad.get(name, (set(),))[0] | told, first, length
    v1 = says.pop(None, None)
    lines = []
    for name, verdict in says.items():
        lines.append(verdict + b" " + name)
        if verdict.startswith((b"bad", b"wrong")):
            lines += run_lines(*bad[name], torrent.piece_length)
    lines += [b"v1 " + v1] if v1 else []
    whole = all(verdict == b"good" for verdict in [*says.values(), v1 or b"good"])
    return (0 if whole else 1), b"".join(line + b"\n" for line in [*lines, b"yes" if whole else b"no"])


def damage(draw, path, content):
    """Damages a file of this content, whatever was done to its folders before."""
    def instead(make):
        os.remove(path)
        make()
    try:
        draw.choice([
            lambda: write(path, turned(draw, content) if content else b"x"),
            lambda: write(path, content[:-1] + b"x"),
            lambda: write(path, bytes(len(content))),
            lambda: write(path, content[:20000] + content[20000:][::-1]),
            lambda: os.remove(path),
            lambda: write(path, content + b"\0"),
            lambda: write(path, content[:-1]),
            lambda: instead(lambda: os.mkdir(path)),
            lambda: instead(lambda: os.mkfifo(path)),
            lambda: instead(lambda: os.symlink(b"nothing", path)),
            lambda: instead(lambda: os.symlink(os.path.basename(path), path)),
            lambda: instead(lambda: os.symlink(b"/dev/zero", path)),
            lambda: os.rename(path, path + b"~") or os.symlink(os.path.basename(path) + b"~", path),
            lambda: os.rename(os.path.dirname(path), os.path.dirname(path) + b"~"),
        ])()
    except OSError:
        pass  # its folder has been moved away


def bent_record(draw, frames, has_directions):
    """The frames, some of them changed, doubled, moved or dropped, joined to a record of one of the forms; the whole
    seldom cut or with bytes changed."""
    frames = list(frames)
    for _ in range(draw.choice([0, 1, 1, 2, 5])):
        at = draw.randrange(len(frames))
        frame = frames[at]
        if len(frame) > 100000:  # zeros, which another length would make ten thousands of keep-alives
            continue
        frames[at:at + 1] = draw.choice([
            lambda: [],
            lambda: [frame, frame],
            lambda: [draw.choice(frames), frame],
            lambda: [turned(draw, frame)],
            lambda: [with_word(draw, frame, 0, len(frame) - 4 + draw.choice([-33, -32, -1, 1, 4, 32]))],
            lambda: [with_word(draw, frame, 0, draw.choice(WORDS))],
            lambda: [with_word(draw, frame, draw.choice([5, 9, 37, 41, 45, 49]), draw.choice(WORDS))],
            lambda: [with_word(draw, frame, draw.choice([5, 9, 37, 41, 45, 49]), draw.choice(WORDS))],
            lambda: [frame[:4] + bytes([draw.choice([7, 20, 21, 22, 23, 24])]) + frame[5:]],
            lambda: [draw.choice(WORDS).to_bytes(4, "big") + draw.randbytes(draw.choice([0, 1, 9, 49, 81, 400]))],
        ])()
        frames = frames or [bytes(4)]
    record = record_model.FORM_2 + b"".join(directed(draw, frames)) if has_directions else b"".join(frames)
    if draw.random() < 0.2:
        record = record[:draw.randrange(len(record) + 1)]
    if draw.random() < 0.1 and record:
        record = turned(draw, record)
    return record


def directed(draw, frames):
    """The frames with directions. Most hashes are asked for before them, some by an ask that differs in a bit."""
    for frame in frames:
        if frame[4:5] == b"\x16" and draw.random() < 0.8:
            fields = frame[5:53] if draw.random() < 0.9 or len(frame) < 53 else turned(draw, frame[5:53])
            yield b"\x01" + record_model.framed(b"\x15" + fields)
        yield draw.choice([b"\x00"] * 60 + [b"\x01"] * 15 + [b"\x02"]) + frame


def with_word(draw, frame, at, value):
    """The frame with another number in four of its bytes."""
    return frame[:at] + (value % (1 << 32)).to_bytes(4, "big") + frame[at + 4:] if at + 4 <= len(frame) else frame


def summary(fuzz):
    """How many cases were compared, how fast, and how often the program answered what."""
    yield f"{fuzz.cases.total()} cases, {fuzz.rate()} a minute of a processor's time"
    for kind, answers in fuzz.answers.items():
        counted = ", ".join(f"{answer} {count}" for answer, count in answers.most_common())
        yield f"{fuzz.cases[kind]} cases of a {kind} compared: {counted}"

"""Sizes that are rare: with enough memory nothing answers that it is out of memory, and no device fails. No contract can
see how much memory there is, nor when a device fails, so a body that gives up at one of these sizes would be proved."""
import hashlib
import os
import subprocess

import messages
from record_model import FORM_2
from support import expect, folder, memory_tests, run, write, written
from torrents import entry, file, info, torrent, torrent_of
from trees import BLOCK, Tree, root_of, sha256

COUNTS = [300, 1001, 4096]
MANY = 100_003
PIECES = 70_001


def torrent_of_empty_files(count):
    return torrent(info({f"{number:06}": file(b"") for number in range(count)}))


def test_many_files():
    with folder() as place:
        for count in [*COUNTS, MANY]:
            path = write(f"{place}/torrent", torrent_of_empty_files(count))
            shown = run("show", path)
            lines = shown.stdout.decode().splitlines()
            assert (shown.returncode, shown.stderr) == (0, b"") and f"files: {count}" in lines, (count, shown.stderr)
            report = "".join(f"missing {number:06}\n" for number in range(count))
            expect(run("check", path, f"{place}/nothing"), 1, report + "no\n")


def test_hybrids_of_many_files():
    """The list of version 1 is as long as that of the file tree."""
    for count in COUNTS:
        names = [f"{number:06}" for number in range(count)]
        tree = {name: file(b"") for name in names[:-1]} | {names[-1]: file(b"x")}
        listed = [entry(0, name) for name in names[:-1]] + [entry(1, names[-1])]
        content = torrent(info(tree, files=listed, pieces=hashlib.sha1(b"x").digest()))
        with folder() as place:
            path = write(f"{place}/torrent", content)
            shown = run("show", path)
            assert (shown.returncode, shown.stderr) == (0, b"") and f"files: {count}\n".encode() in shown.stdout, shown
            report = "".join(f"missing {name}\n" for name in names)
            expect(run("check", path, f"{place}/nothing"), 1, report + "v1 not checked\nno\n")


def test_many_trees():
    """Torrents of many trees, each with a piece layer: their files are checked and seeded, and asked for."""
    for count in COUNTS[:2]:
        files = [(f"{number:06}", number.to_bytes(4, "big") * 4097) for number in range(count)]
        with folder() as place:
            os.mkdir(f"{place}/all")
            for name, content in files:
                write(f"{place}/all/{name}", content)
            path = write(f"{place}/torrent", torrent_of(files, BLOCK))
            expect(run("check", path, f"{place}/all"), 0, "".join(f"good {name}\n" for name, _ in files) + "yes\n")
            asks = b"".join(messages.request(root_of(content), 0, 0, 2, 0) for _, content in files)
            record = write(f"{place}/record", asks)
            report = "".join(f"seeded {name}\n" for name, _ in files)
            report += "".join(f"{number} answered\n" for number in range(1, count + 1)) + "end\n"
            expect(run("replay", path, record, "--info-only", "--seed", f"{place}/all"), 0, report)


def test_layers_of_many_hashes():
    """Each piece is a block, so a piece layer has the leaves."""
    for count in [*COUNTS, MANY]:
        tree = Tree([sha256(number.to_bytes(4, "big")) for number in range(count)])
        files = {"a": {"": {"length": count * BLOCK, "pieces root": tree.root}}}
        with folder() as place:
            path = write(f"{place}/torrent", torrent(info(files), {tree.root: b"".join(tree.whole_layer(0))}))
            ask = (tree.root, 0, 2, 2, tree.height - 1)
            record = write(f"{place}/record", messages.request(*ask))
            done = run("replay", path, record, "--answers", f"{place}/answers")
            expect(done, 0, "1 answered\nend\n")
            assert written(f"{place}/answers") == messages.hashes(*ask, given=tree.hashes(*ask[1:4], tree.height - 1)), count


def zeros(place, length):
    """A file of zeros, which takes no room on the disk."""
    with open(place, "wb") as out:
        out.truncate(length)


def test_a_file_past_one_gib():
    """A file of 100,001 blocks and five bytes. All of its leaves are kept for a session that is seeded."""
    length = 100_001 * BLOCK + 5
    tree = Tree([sha256(bytes(BLOCK))] * 100_001 + [sha256(bytes(5))])
    files = {"a": {"": {"length": length, "pieces root": tree.root}}}
    with folder() as place:
        os.mkdir(f"{place}/all")
        zeros(f"{place}/all/a", length)
        expect(run("root", f"{place}/all/a"), 0, f"{length} {tree.root.hex()}\n")
        expect(run("create", f"{place}/all", f"{place}/out", "--name", "x", "--piece-length", str(1 << 24)), 0)
        layer = b"".join(tree.whole_layer(10))
        assert written(f"{place}/out") == torrent(info(files, 1 << 24), {tree.root: layer})
        expect(run("check", f"{place}/out", f"{place}/all"), 0, "good a\nyes\n")
        record = write(f"{place}/record", messages.request(tree.root, 0, 65536, 2, 0))
        done = run("replay", f"{place}/out", record, "--info-only", "--seed", f"{place}/all")
        expect(done, 0, "seeded a\n1 answered\nend\n")


def test_a_hybrid_of_many_pieces():
    """Each piece is a block: as many hashes in the layer, and digests of cuts, are kept and written."""
    tree = Tree([sha256(bytes(BLOCK))] * PIECES)
    files = {"a": {"": {"length": PIECES * BLOCK, "pieces root": tree.root}}}
    known = info(files, BLOCK, length=PIECES * BLOCK, pieces=hashlib.sha1(bytes(BLOCK)).digest() * PIECES, name="a")
    with folder() as place:
        os.mkdir(f"{place}/all")
        zeros(f"{place}/all/a", PIECES * BLOCK)
        done = run("create", f"{place}/all", f"{place}/out", "--name", "a", "--piece-length", str(BLOCK), "--hybrid")
        expect(done, 0)
        assert written(f"{place}/out") == torrent(known, {tree.root: b"".join(tree.whole_layer(0))})
        expect(run("check", f"{place}/out", f"{place}/all"), 0, "good a\nv1 good\nyes\n")


def test_one_more_hash_than_room():
    """Files of 2^k + 1 pieces: the last hash of a layer, and the last digest of a file, needs room of its own."""
    lengths = {f"{power:02}": (2 ** power + 1) * BLOCK for power in range(13)}
    leaf, cut = sha256(bytes(BLOCK)), hashlib.sha1(bytes(BLOCK)).digest()
    trees = {name: Tree([leaf] * (length // BLOCK)) for name, length in lengths.items()}
    files = {name: {"": {"length": length, "pieces root": trees[name].root}} for name, length in lengths.items()}
    known = info(files, BLOCK, files=[entry(length, name) for name, length in lengths.items()],
                 pieces=cut * (sum(lengths.values()) // BLOCK))
    with folder() as place:
        os.mkdir(f"{place}/all")
        for name, length in lengths.items():
            zeros(f"{place}/all/{name}", length)
        done = run("create", f"{place}/all", f"{place}/out", "--name", "x", "--piece-length", str(BLOCK), "--hybrid")
        expect(done, 0)
        layers = {tree.root: b"".join(tree.whole_layer(0)) for tree in trees.values()}
        assert written(f"{place}/out") == torrent(known, layers)


def test_options_over_many_files():
    """A check in parts, bad pieces, and files that are left out of a torrent."""
    count, parts = COUNTS[1], 7
    names = [f"{number:06}" for number in range(count)]
    files = [(name, name.encode()) for name in names]
    with folder() as place:
        os.mkdir(f"{place}/all")
        for name, content in files:
            write(f"{place}/all/{name}", b"other!" if name.endswith("7") else content)
            write(f"{place}/all/{name}.left", content)
        path = write(f"{place}/torrent", torrent_of(files, BLOCK))
        lines = [f"bad {at} {name}\n" if name.endswith("7") else f"good {name}\n" for at, name in enumerate(names)]
        expect(run("check", path, f"{place}/all"), 1, "".join(lines) + "no\n")
        run_of = {at: f"bad pieces {at} {at} bytes 0-5\n" for at in range(7, count, 10)}
        expect(run("check", path, f"{place}/all", "--bad"), 1,
               "".join(line + run_of.get(at, "") for at, line in enumerate(lines)) + "no\n")
        reports = []
        for part in range(1, parts + 1):
            done = run("check", path, f"{place}/all", "--part", f"{part}/{parts}")
            assert done.returncode in (0, 1) and not done.stderr, done
            reports.append(write(f"{place}/part{part}", done.stdout))
        expect(run("join", path, *reports), 1, "".join(lines) + "no\n")
        done = run("create", f"{place}/all", f"{place}/out", "--name", "x", "--piece-length", str(BLOCK),
                   "--exclude", "*.left")
        expect(done, 0)
        there = [(name, b"other!" if name.endswith("7") else content) for name, content in files]
        assert written(f"{place}/out") == torrent_of(there, BLOCK)


def test_deep_folders_that_are_gathered():
    with folder() as place:
        for number in range(COUNTS[1]):
            below = f"{place}/all/{number % 7}/{number % 5}/{'d/' * (number % 20)}{number}"
            os.makedirs(os.path.dirname(below), exist_ok=True)
            write(below, b"x" * (number % 3))
        for kind in ([], ["--hybrid"]):
            done = run("create", f"{place}/all", f"{place}/out", "--name", "x", "--piece-length", "16384", *kind)
            expect(done, 0)
            expect(run("check", f"{place}/out", f"{place}/all", stdout=subprocess.DEVNULL), 0, None)


def test_no_room_for_many_at_once():
    """What is kept of a file takes room for that alone: a body that asked for much more at once would be out of memory. Clauses
    bound the room of single lists; none speaks of the memory of a whole run."""
    with folder() as place:
        os.mkdir(f"{place}/all")
        for number in range(COUNTS[1]):
            write(f"{place}/all/{number}", number.to_bytes(4, "big") * (4097 if number < 100 else 5))
        done = run("create", f"{place}/all", f"{place}/out", "--name", "x", "--piece-length", str(BLOCK), "--hybrid",
                   memory=64 << 10)
        expect(done, 0)
        done = run("check", f"{place}/out", f"{place}/all", memory=64 << 10)
        assert (done.returncode, done.stderr, done.stdout[-4:]) == (0, b"", b"yes\n"), done


def large_tree(leaves):
    """A torrent of one file with `leaves` leaves in one piece, and the file's tree."""
    tree = Tree([sha256(number.to_bytes(4, "big")) for number in range(leaves)])
    entry = {"": {"length": leaves * BLOCK, "pieces root": tree.root}}
    return torrent(info({"a": entry}, max(leaves * BLOCK, BLOCK)), {}), tree


def test_answers_of_each_length():
    """What was stored is answered, from two hashes up to the most that a request can ask for."""
    content, tree = large_tree(16384)
    halves = [(tree.root, 0, at, 8192, 14) for at in (0, 8192)]
    record = b"".join(messages.hashes(*ask, given=tree.hashes(*ask[1:4], 1)) for ask in halves)
    asks = [(tree.root, 0, 8192, 2 ** power, proof) for proof in (0, 14) for power in range(1, 14)]
    uncles = [0] * 13 + [14 - power for power in range(1, 14)]
    wanted = b"".join(messages.hashes(*ask, given=tree.hashes(*ask[1:4], count)) for ask, count in zip(asks, uncles))
    with folder() as place:
        path = write(f"{place}/torrent", content)
        record_path = write(f"{place}/record", record + b"".join(messages.request(*ask) for ask in asks))
        done = run("replay", path, record_path, "--info-only", "--answers", f"{place}/answers")
        assert done.returncode == 0 and b"NoMemory" not in done.stdout, done
        with open(f"{place}/answers", "rb") as answers:
            assert answers.read() == wanted


def test_many_requests_that_are_noted():
    """Each of many requests is open until its hashes come."""
    content, tree = large_tree(16384)
    asks = [(tree.root, 0, at, 2, 13) for at in range(0, 16384, 4)]
    longer = [(tree.root, 0, 2 ** power, 2 ** power, 13) for power in range(2, 14)]
    frames = [b"\1" + messages.request(*ask) for ask in asks]
    frames += [b"\0" + messages.hashes(*ask, given=tree.hashes(*ask[1:4], 13)) for ask in reversed(asks)]
    with folder() as place:
        path, record = write(f"{place}/torrent", content), write(f"{place}/record", FORM_2 + b"".join(frames))
        done = run("replay", path, record, "--info-only")
        lines = done.stdout.decode().splitlines()
        assert done.returncode == 0 and len(asks) == 4096 and len(lines) == 2 * len(asks) + 1, lines[-3:]
        assert sum(" stored " in line for line in lines) == len(asks), lines[-3:]
        frames = [b"\1" + messages.request(*ask) for ask in longer]
        frames += [b"\0" + messages.hashes(*ask, given=tree.hashes(*ask[1:4], 14 - ask[3].bit_length() + 1)) for ask in longer]
        write(record, FORM_2 + b"".join(frames))
        done = run("replay", path, record, "--info-only")
        assert done.returncode == 0 and done.stdout.count(b" stored ") == len(longer), done.stdout[-200:]


def test_runs_of_many_messages():
    """A run answers a verdict for each message."""
    content, tree = large_tree(2)
    kinds = [(messages.KEEP_ALIVE, b"", "run of all", "KeepAlive"),
             (b"\1" + messages.request(tree.root, 0, 0, 2, 0), FORM_2, "run_noted", "Noted")]
    with folder() as place:
        path = write(f"{place}/torrent", content)
        for count in COUNTS:
            for frame, header, call, verdict in kinds:
                record = write(f"{place}/record", header + count * frame)
                done = subprocess.run([memory_tests(), path, record, "paged", call], stdout=subprocess.PIPE, timeout=600,
                                      check=True, text=True)
                assert done.stdout.count(verdict) == count, (count, call, done.stdout[:200])


def test_pieces_of_each_length():
    """A session takes each piece of a file, and again when it is known: of one block, of a part of a block, of 1,024."""
    content = b"".join(number.to_bytes(4, "big") * (BLOCK // 4) for number in range(1025)) + b"end"
    with folder() as place:
        whole = write(f"{place}/content", content)
        for power in (14, 17, 20, 24, 25):
            path = write(f"{place}/torrent", torrent_of([("a", content)], 1 << power))
            for over in ("flat", "paged"):
                done = subprocess.run([memory_tests(), path, whole, over, "pieces"], stdout=subprocess.PIPE, timeout=600,
                                      check=True, text=True)
                taken = [line for line in done.stdout.splitlines() if line.startswith(("Ok(", "Err("))]
                firsts = range(0, 1026, 1 << power - 14)
                assert taken == [f"Ok((0, {first}))" for first in firsts for _ in (1, 2)], (power, over, taken[:9])

"""`btcheck replay --answers OUT`, against a plain model of sessions with hashlib."""
import os
import random

import torrents
from messages import KEEP_ALIVE, hashes, piece, reject, request
from poison import Peers
from support import expect, folder, run, write, written
from torrents import ABC, FIVE, torrent_of
from trees import BLOCK, Tree


def answered(place, torrent, record, *flags, **options):
    """A run with answers, and the answers."""
    write(f"{place}/torrent", torrent)
    write(f"{place}/record", record)
    out = f"{place}/out"
    done = run("replay", f"{place}/torrent", f"{place}/record", "--answers", out, *flags, **options)
    with open(out, "rb") as file:
        return done, file.read()


def lines(*texts):
    return "".join(f"{text}\n" for text in texts)


def test_worked_answers():
    """What a session learned from one message it answers to the next: base hashes, pads among them, then uncles."""
    tree, torrent = Tree.of(FIVE), torrent_of([("five", FIVE)], 32768)
    eight = hashes(tree.root, 0, 0, 8, 2, given=tree.hashes(0, 0, 8, 0))
    asks = [((0, 4, 2, 2), 2), ((0, 4, 2, 0), 0), ((0, 4, 2, 1), 1), ((0, 4, 2, 4294967295), 2), ((0, 0, 8, 2), 0),
            ((1, 0, 2, 1), 1), ((2, 0, 2, 9), 0), ((0, 6, 2, 2), 2)]
    with folder() as place:
        record = eight + b"".join(request(tree.root, *ask) for ask, _ in asks)
        done, out = answered(place, torrent, record, "--info-only")
        expect(done, 0, lines("1 stored 14", *(f"{at} answered" for at in range(2, 2 + len(asks))), "end"))
        wanted = b"".join(hashes(tree.root, *ask, given=tree.hashes(*ask[:3], uncles)) for ask, uncles in asks)
        assert out == wanted
        # none of them is known from the root alone; from the piece layers some are
        done, out = answered(place, torrent, record[len(eight):], "--info-only")
        expect(done, 0, lines(*(f"{at + 1} rejected" for at in range(len(asks))), "end"))
        assert out == b"".join(reject(tree.root, *ask) for ask, _ in asks)
        done, out = answered(place, torrent, request(tree.root, 1, 0, 2, 1) + request(tree.root, 0, 0, 2, 1))
        expect(done, 0, lines("1 answered", "2 rejected", "end"))
        assert out == hashes(tree.root, 1, 0, 2, 1, given=tree.hashes(1, 0, 2, 1)) + reject(tree.root, 0, 0, 2, 1)
        # what no tree can have, and a record without requests
        odd = [(tree.root, 0, 1, 2, 0), (tree.root, 0, 0, 3, 0), (tree.root, 4, 0, 2, 0), (bytes(32), 0, 0, 2, 0)]
        done, out = answered(place, torrent, b"".join(request(*ask) for ask in odd))
        expect(done, 0, lines(*(f"{at + 1} rejected" for at in range(len(odd))), "end"))
        assert out == b"".join(reject(*ask) for ask in odd)
        done, out = answered(place, torrent, KEEP_ALIVE + reject(*odd[0]))
        expect(done, 0, lines("1 keep-alive", "2 reject noted", "end"))
        assert out == b""


def test_poison_between_requests():
    """The lines and the answers of a session between true and false messages of every kind."""
    chance = random.Random(40)
    worlds = [[("a", chance.randbytes(16385)), ("b", b""), ("c", b"abc")],
              [("large", chance.randbytes(600 * BLOCK + 77)), ("nine", chance.randbytes(9 * BLOCK))]]
    compared = 0
    with folder() as place:
        for number, files in enumerate(worlds):
            for flags in ([], ["--info-only"]):
                peers = Peers(files, 32768, not flags, number)
                record, report = peers.messages(400)
                done, out = answered(place, torrent_of(files, 32768), b"".join(record), *flags)
                expect(done, 1, lines(*report, "end"))
                assert out == b"".join(peers.answers)
                compared += len(peers.answers)
    print(f"{compared} answers compared")


def test_leaves_in_any_order():
    """Pairs of leaves of two pages of a layer: after each one what is known is answered, and nothing else."""
    chance = random.Random(512)
    tree = Tree([chance.randbytes(32) for _ in range(1024)])
    entry = {"file": {"": {"length": 1024 * BLOCK, "pieces root": tree.root}}}
    content = torrents.torrent(torrents.info(entry, 1024 * BLOCK), {})
    forwards = list(range(0, 1024, 2))
    with folder() as place:
        for order in (forwards, forwards[::-1], chance.sample(forwards, len(forwards))):
            record, report, wanted, known = [], [], [], set()
            for index in order:
                record.append(hashes(tree.root, 0, index, 2, 9, given=tree.hashes(0, index, 2, 9)))
                report.append("stored")
                known.update((index, index + 1))
                for start, length in ((index, 2), (index ^ 2, 2), (index // 64 * 64, 64), (index // 512 * 512, 512)):
                    ask = (tree.root, 0, start, length, 0)
                    there = known.issuperset(range(start, start + length))
                    record.append(request(*ask))
                    report.append("answered" if there else "rejected")
                    wanted.append(hashes(*ask, given=tree.hashes(0, start, length, 0)) if there else reject(*ask))
            done, out = answered(place, content, b"".join(record), "--info-only")
            said = [line.split()[1] for line in done.stdout.decode().splitlines()[:-1]]
            assert (done.returncode, said) == (0, report), done
            assert out == b"".join(wanted)


def test_the_file_of_the_answers():
    """When it is opened, what it held before, and what cannot be written."""
    tree, torrent = Tree.of(FIVE), torrent_of([("five", FIVE)], 32768)
    ask = request(tree.root, 1, 0, 2, 1)
    with folder() as place:
        out, path = write(f"{place}/out", b"before"), write(f"{place}/torrent", torrent)
        record, missing = write(f"{place}/record", ask), f"{place}/missing"
        # neither a torrent that is refused nor a record that is missing touches it
        expect(run("replay", write(f"{place}/bad", ABC[:-1]), record, "--answers", out), 1, None)
        expect(run("replay", missing, record, "--answers", out), 2, "", f"fault: cannot read {missing}\n")
        expect(run("replay", path, missing, "--answers", out), 2, "", f"fault: cannot read {missing}\n")
        with open(out, "rb") as file:
            assert file.read() == b"before"
        expect(run("replay", path, record, "--answers", out), 0, lines("1 answered", "end"))
        assert os.path.getsize(out) == 4 + 49 + 32 * 3
        # where it cannot be written nothing is replayed
        for bad in [place, f"{place}/no/folder", ""]:
            expect(run("replay", path, record, "--answers", bad), 2, "", f"fault: cannot write {bad}\n")
        expect(run("replay", path, record, "--answers", f"{place}/a\nb/c"), 2, "", f"fault: cannot write {place}/a\\x0ab/c\n")
        # a full disk: the line of the request stands, and the fault names the file
        expect(run("replay", path, record, "--answers", "/dev/full"), 2, "1 answered\n", "fault: cannot write /dev/full\n")
        with open("/dev/full", "wb") as full:
            done = run("replay", path, record, "--answers", out, stdout=full)
        assert (done.returncode, done.stderr, os.path.getsize(out)) == (2, b"fault: cannot write -\n", 0), done
        # twice, or without its file
        for wrong in [["--answers", out, "--answers", out], ["--answers"]]:
            expect(run("replay", path, out, *wrong), 2, "", None)


def test_no_file_that_is_read_takes_the_answers():
    """By whatever path: not the torrent, the record, nor a file that the session is seeded from."""
    tree, torrent = Tree.of(FIVE), torrent_of([("five", FIVE)], 32768)
    with folder() as place:
        path, record = write(f"{place}/torrent", torrent), write(f"{place}/record", request(tree.root, 1, 0, 2, 1))
        os.mkdir(f"{place}/files")
        seed = write(f"{place}/files/five", FIVE)
        beside = write(f"{place}/files/other", b"other")
        before = {name: written(name) for name in [path, record, seed]}
        for name in before:
            os.link(name, f"{name}.link")
            os.symlink(f"{name}.link", f"{name}.soft")
            for out in [name, f"{name}.link", f"{name}.soft", os.path.relpath(name)]:
                done = run("replay", path, record, "--seed", f"{place}/files", "--answers", out)
                expect(done, 2, "", f"fault: cannot write {out}\n")
        for out in (path, record):
            expect(run("replay", path, record, "--answers", out), 2, "", f"fault: cannot write {out}\n")
        with open(record, "rb") as source:
            done = run("replay", path, "/dev/stdin", "--answers", record, stdin=source)
        expect(done, 2, "", f"fault: cannot write {record}\n")
        assert before == {name: written(name) for name in before}
        # the record is opened before that, and without seeds a file of the torrent is one like others
        missing = f"{place}/missing"
        expect(run("replay", path, missing, "--answers", path), 2, "", f"fault: cannot read {missing}\n")
        expect(run("replay", path, record, "--seed", "", "--answers", beside), 0, lines("not seeded five", "1 answered", "end"))
        done = run("replay", path, record, "--seed", f"{place}/files", "--answers", beside)
        expect(done, 0, lines("seeded five", "1 answered", "end"))
        expect(run("replay", path, record, "--answers", "/dev/null"), 0, lines("1 answered", "end"))


def test_a_record_that_ends_badly():
    """Answers before a fault of the record stand."""
    tree, torrent = Tree.of(FIVE), torrent_of([("five", FIVE)], 32768)
    ask = (tree.root, 1, 0, 2, 1)
    with folder() as place:
        done, out = answered(place, torrent, request(*ask) + piece(0, 0, FIVE[:BLOCK])[:-1])
        expect(done, 2, lines("1 answered", "fault Truncated"))
        assert out == hashes(*ask, given=tree.hashes(1, 0, 2, 1))

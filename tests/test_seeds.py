"""`btcheck replay --seed DIR`, and exchanges of two sessions through files, against a plain model of sessions."""
import os
import random

from messages import KEEP_ALIVE, hashes, piece, request
from poison import Peers, numbered
from session_model import Session
from support import expect, folder, run, write
from torrents import FIVE, torrent_of
from trees import BLOCK, Tree, blocks_of


def lines(*texts):
    return "".join(f"{text}\n" for text in texts)


class World:
    """A torrent, and a folder that holds its files, unless it is given others."""

    def __init__(self, place, files, piece_length):
        self.place, self.files, self.folder = place, files, f"{place}/files"
        self.torrent = write(f"{place}/torrent", torrent_of(files, piece_length))
        os.mkdir(self.folder)
        for name, content in files:
            write(f"{self.folder}/{name}", content)

    def replay(self, record, *flags):
        return run("replay", self.torrent, write(f"{self.place}/record", record), *flags)

    def answers(self, record, *flags):
        """A run with seeds and answers, and the answers."""
        out = f"{self.place}/out"
        done = self.replay(record, "--seed", self.folder, "--answers", out, *flags)
        with open(out, "rb") as file:
            return done, file.read()


def test_worked_seeds():
    chance = random.Random(15)
    long = chance.randbytes(1024 * BLOCK)
    tree, five = Tree.of(long), Tree.of(FIVE)
    ask = (tree.root, 0, 512, 512, 9)
    with folder() as place:
        world = World(place, [("f", long)], len(long))
        assert request(*ask)[:5].hex() == "0000003115" and len(request(*ask)) == 53
        done, out = world.answers(request(*ask), "--info-only")
        expect(done, 0, lines("seeded f", "1 answered", "end"))
        assert out[:5].hex() == "0000405116" and len(out) == 16469
        assert out == hashes(*ask, given=tree.hashes(0, 512, 512, 1))
        expect(world.replay(out, "--info-only"), 0, lines("1 stored 1024", "end"))
        # what is seeded is known, and none of it is marked: a block is verified by its message
        expect(world.replay(out + piece(0, 0, long[:BLOCK]), "--seed", world.folder), 0,
               lines("seeded f", "1 stored 0", "2 verified 0 0", "end"))
    with folder() as place:
        world = World(place, [("five", FIVE)], 32768)
        ask = (five.root, 0, 4, 2, 2)
        done, out = world.answers(request(*ask))
        expect(done, 0, lines("seeded five", "1 answered", "end"))
        assert out == hashes(*ask, given=five.hashes(0, 4, 2, 2))
        expect(world.replay(out, "--info-only"), 0, lines("1 stored 6", "end"))


# What makes a file no longer right, by its path and content.
DAMAGES = {
    "missing": lambda path, _: os.remove(path),
    "short": lambda path, content: write(path, content[:-1]),
    "long": lambda path, content: write(path, content + b"x"),
    "changed": lambda path, content: write(path, bytes([content[0] ^ 1]) + content[1:]),
    "a folder": lambda path, _: (os.remove(path), os.mkdir(path)),
    "a link to nothing": lambda path, _: (os.remove(path), os.symlink("nothing", path)),
    "a pipe": lambda path, _: (os.remove(path), os.mkfifo(path)),
}


def test_files_that_are_not_right():
    """Each damage to a file makes it `not seeded`, and leaves the others; an empty file is never seeded."""
    files = [("a", FIVE), ("b", b"abc"), ("c", b""), ("d", FIVE), ("e", bytes(16385))]
    names = [name for name, _ in files]
    asks = {name: (Tree.of(content).root, 0, 0, 2, 0) for name, content in files if len(content) > BLOCK}

    def expect_seeded(world, seeded, known):
        record = b"".join(request(*ask) for ask in asks.values())
        report = [f"{'seeded' if name in seeded else 'not seeded'} {name}" for name in names]
        verdicts = [f"{number} {'answered' if name in known else 'rejected'}" for number, name in enumerate(asks, 1)]
        expect(world.replay(record, "--info-only", "--seed", world.folder), 0, lines(*report, *verdicts, "end"))

    with folder() as place:
        world = World(place, files, 262144)
        good = {"a", "b", "d", "e"}
        expect_seeded(world, good, {"a", "d", "e"})
        for kind, damage in DAMAGES.items():
            for name in ["b", "e"]:
                path, content = f"{world.folder}/{name}", dict(files)[name]
                damage(path, content)
                expect_seeded(world, good - {name}, {"a", "d", "e"} - {name})
                if os.path.isdir(path) and not os.path.islink(path):
                    os.rmdir(path)
                elif os.path.lexists(path):
                    os.remove(path)
                write(path, content)
        # two files of one tree: either seeds it
        os.remove(f"{world.folder}/a")
        expect_seeded(world, good - {"a"}, {"a", "d", "e"})
        os.remove(f"{world.folder}/d")
        expect_seeded(world, {"b", "e"}, {"e"})
        # a folder that is not there, and one that is a file
        for bad in [f"{place}/missing", world.torrent, ""]:
            expect(world.replay(KEEP_ALIVE, "--seed", bad), 0,
                   lines(*(f"not seeded {name}" for name in names), "1 keep-alive", "end"))


def test_the_order():
    """The torrent, its refusal, the record and the file of answers come before the first seed."""
    with folder() as place:
        world = World(place, [("five", FIVE)], 32768)
        bad, missing = write(f"{place}/bad", b"x"), f"{place}/missing"
        record = write(f"{place}/record", b"")
        seed = ["--seed", world.folder]
        expect(run("replay", bad, missing, *seed, "--answers", f"{place}/no/out"), 1,
               "refused 2 NotBencode BadStart 0\n")
        expect(run("replay", world.torrent, missing, *seed, "--answers", f"{place}/no/out"), 2, "",
               f"fault: cannot read {missing}\n")
        expect(run("replay", world.torrent, record, *seed, "--answers", f"{place}/no/out"), 2, "",
               f"fault: cannot write {place}/no/out\n")
        expect(run("replay", world.torrent, record, *seed), 0, lines("seeded five", "end"))
        with open("/dev/full", "wb") as full:
            done = run("replay", world.torrent, record, *seed, stdout=full)
        assert (done.returncode, done.stderr) == (2, b"fault: cannot write -\n"), done
        expect(run("replay", world.torrent, record, *seed, *seed), 2, "", None)
        # the names are escaped
    with folder() as place:
        world = World(place, [("two\nlines", b"abc")], BLOCK)
        expect(world.replay(b"", "--seed", world.folder), 0, lines("seeded two\\x0alines", "end"))


def test_poison_at_a_seeded_session():
    chance = random.Random(41)
    files = [("a", chance.randbytes(16385)), ("large", chance.randbytes(600 * BLOCK + 77)),
             ("nine", chance.randbytes(9 * BLOCK))]
    with folder() as place:
        world = World(place, files, 32768)
        os.remove(f"{world.folder}/nine")
        for flags in ([], ["--info-only"]):
            peers = Peers(files, 32768, not flags, 42)
            seeded = peers.model.seed(dict(files[:2]))
            record, report = peers.messages(400)
            done, out = world.answers(b"".join(record), *flags)
            expect(done, 1, lines(*seeded, *report, "end"))
            assert out == b"".join(peers.answers)


def wants(model, chance):
    """Of each tree that lacks leaves, what it wants for one of these."""
    for root, tree in model.trees.items():
        unknown = [at for at in range(tree["whole"].leaf_count) if (0, at) not in tree["known"]]
        if unknown:
            yield model.want(root, chance.choice(unknown))


def all_blocks(model):
    """A message for each block of each file, and what the model says of it."""
    for _, content, _, first in model.files:
        for at, block in enumerate(blocks_of(content)):
            yield piece(first, at * BLOCK, block), model.blocks(first, at * BLOCK, block)


def exchange(files, piece_length, seed):
    """Two sessions play through files: one that is seeded answers what the other wants, and poison comes between the
    answers. Gives how many rounds it took, and how many were promised at most."""
    with folder() as place:
        world = World(place, files, piece_length)
        peers = Peers(files, piece_length, False, seed)
        model, record, report = peers.model, bytearray(), []
        seeder = Session(files, piece_length, False)
        seeded = seeder.seed(dict(files))
        roots = list(model.trees)
        promised, rounds = sum(map(model.gaps, roots)), 0
        while any(map(model.gaps, roots)):
            wanted = list(wants(model, peers.chance))
            done, out = world.answers(b"".join(request(*ask) for ask in wanted), "--info-only")
            expect(done, 0, lines(*seeded, *(f"{at + 1} answered" for at in range(len(wanted))), "end"))
            true = [hashes(*ask, given=seeder.hashes(*ask)) for ask in wanted]
            assert out == b"".join(true)
            before = sum(map(model.gaps, roots))
            for ask, answer in zip(wanted, true):
                poison, verdicts = peers.verdicts(6)
                record += b"".join(poison) + answer
                report += [*verdicts, [model.take(*ask, seeder.hashes(*ask))]]
                assert report[-1][0].startswith("stored "), report[-1]
            rounds += len(wanted)
            assert sum(map(model.gaps, roots)) < before
            done = world.replay(record, "--info-only")
            expect(done, done.returncode, lines(*numbered(report), "end"))
        # nothing is wanted any more: each block is verified
        for message, verdicts in all_blocks(model):
            record += message
            report.append(verdicts)
            assert verdicts[0].startswith("verified "), verdicts
        done = world.replay(record, "--info-only")
        expect(done, done.returncode, lines(*numbered(report), "end"))
        return rounds, promised


def test_a_whole_exchange():
    """Until nothing is wanted, in at most as many rounds as there were gaps."""
    chance = random.Random(16)
    worlds = [([("one", b"abc"), ("two", chance.randbytes(2 * BLOCK)), ("five", FIVE), ("same", FIVE)], 32768),
              ([("a", chance.randbytes(1500 * BLOCK + 9)), ("b", chance.randbytes(513 * BLOCK))], 16384),
              ([("large", chance.randbytes(4096 * BLOCK))], 1 << 26)]
    for number, (files, piece_length) in enumerate(worlds):
        rounds, promised = exchange(sorted(files), piece_length, number)
        assert rounds <= promised, (rounds, promised)
        print(f"{rounds} rounds of at most {promised}")


def damaged(files, chance):
    """Contents for a folder, where some files are missing or have other bytes, fewer or more."""
    held = {}
    for name, content in files:
        kind = chance.choice(["good", "good", "good", "missing", "other", "short", "long"])
        if kind == "missing":
            continue
        if kind == "other" and content:
            at = chance.randrange(len(content))
            content = content[:at] + bytes([content[at] ^ 1]) + content[at + 1:]
        held[name] = content[:-1] if kind == "short" else content + b"x" if kind == "long" else content
    return held


def all_leaves(model):
    """For each tree an ask for its leaves, and whether a session answers it."""
    for root, tree in model.trees.items():
        if tree["whole"].height > 0:
            ask = (root, 0, 0, min(512, 2 ** tree["whole"].height), 0)
            yield request(*ask), "rejected" if model.hashes(*ask) is None else "answered"


def test_files_that_are_read_together():
    """Small files are read together, up to 64 of them and 64 blocks: a session knows the leaves of each that is right,
    whatever stands beside it, and the lines come in order."""
    chance = random.Random(77)
    sizes = [0, 1, BLOCK - 1, BLOCK, BLOCK + 1, 3 * BLOCK, 8 * BLOCK - 1, 8 * BLOCK, 8 * BLOCK + 1, 20 * BLOCK]
    equal = [chance.randbytes(size) for size in (5, 2 * BLOCK, 8 * BLOCK)]
    for count, of in [(2, sizes), (65, sizes[:3]), (130, [1, 2, 3]), (200, sizes), (40, [8 * BLOCK]), (90, [0])]:
        files = [(f"f{at:03}", chance.choice(equal) if chance.random() < 0.2 else chance.randbytes(chance.choice(of)))
                 for at in range(count)]
        held = damaged(files, chance)
        with folder() as place:
            world = World(place, files, 32768)
            for name, content in files:
                os.remove(f"{world.folder}/{name}")
                if name in held:
                    write(f"{world.folder}/{name}", held[name])
            model = Session(files, 32768, False)
            seeded = model.seed(held)
            asks = list(all_leaves(model))
            verdicts = [f"{number} {verdict}" for number, (_, verdict) in enumerate(asks, 1)]
            done = world.replay(b"".join(ask for ask, _ in asks), "--info-only", "--seed", world.folder)
            expect(done, 0, lines(*seeded, *verdicts, "end"))

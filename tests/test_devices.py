"""Files, pipes and terminals that fail: each call of the system in turn, and the kinds of failure that users meet."""
import errno
import os
import pty
import subprocess

import messages
import record_model
from session_model import Session
from shim import has_c_library_inside, shimmed
from support import BTCHECK, expect, folder, run, write, written
from torrents import ABC, TWO, hybrid, torrent, torrent_of
from trees import Tree, root_line

LONG = bytes(200000)
CANNOT_WRITE = "fault: cannot write -\n"

# A record of the torrent of `abc.txt`, its frames, and the line of each.
FRAMES = [messages.KEEP_ALIVE, messages.piece(0, 0, b"abc"), messages.frame(b"\x04" + bytes(4)),
          messages.piece(0, 0, b"abd")]
LINES = ["1 keep-alive", "2 verified 0 0", "3 skipped 4", "4 refused P4 BadBlock", "end"]

# One of the torrent of two files: two of its frames ask for hashes of the first file, the first for some that are there.
PAIR = [("a", TWO), ("c", b"abc")]
ASKS = [(Tree.of(TWO).root, 0, 0, 2, 0), (Tree.of(TWO).root, 0, 0, 4, 0)]
TALK = [messages.KEEP_ALIVE, messages.request(*ASKS[0]), messages.piece(0, 0, TWO[:16384]), messages.request(*ASKS[1]),
        messages.piece(1, 0, b"abd")]


def outcome(done):
    return done.returncode, done.stdout.decode(), done.stderr.decode()


class World:
    """Files in a folder, and for each command its arguments and its answer."""

    def __init__(self, place):
        self.long, self.abc = write(f"{place}/long", LONG), write(f"{place}/abc", ABC)
        self.pair, self.record = write(f"{place}/pair", torrent(hybrid())), write(f"{place}/record", b"".join(FRAMES))
        self.talk, self.answers = write(f"{place}/talk", b"".join(TALK)), f"{place}/answers"
        self.folder = f"{place}/folder"
        os.mkdir(self.folder)
        self.a, self.c = write(f"{self.folder}/a", TWO), write(f"{self.folder}/c", b"abc")
        self.commands = {
            "root": (["root", self.long], 0), "show": (["show", self.pair], 0),
            "check": (["check", self.pair, self.folder], 0), "part": (["check", self.pair, self.folder, "--part", "1/1"], 0),
            "part of bad pieces": (["check", self.pair, self.folder, "--part", "1/1", "--bad"], 0),
            "join": (["join", self.pair, f"{place}/report"], 0), "replay": (["replay", self.abc, self.record], 1),
            "seeded": (["replay", self.pair, self.talk, "--seed", self.folder, "--answers", self.answers], 1),
        }

        self.report = write(f"{place}/report", run(*self.commands["part"][0]).stdout)

        # Commands that print nothing and write a file: their arguments, what they read, and the file.
        self.made = f"{place}/made"
        create = ["create", self.folder, self.made, "--name", "x", "--piece-length", "32768", "--hybrid"]
        expect(run(*create, "--part", "1/1"), 0)
        self.part = write(f"{place}/part", written(self.made))
        self.writers = {
            "create": (create, ["a", "c"]),
            "part of create": ([*create, "--part", "1/1"], ["a", "c"]),
            "assemble": (["assemble", self.made, self.part], [self.part]),
            "convert": (["convert", self.record, self.made], [self.record]),
        }

    def report_head(self):
        return written(self.report).decode().splitlines(True)[0]

    def ample(self, command):
        arguments, status = self.commands[command]
        done = run(*arguments)
        expect(done, status, None)
        return arguments, outcome(done)


def cannot_read(path):
    return 2, "", f"fault: cannot read {path}\n"


def cannot_write(path):
    return f"fault: cannot write {path}\n"


def checks_without(states):
    """What `check` prints of the pair if some of its files have these states."""
    lines = [f"{states.get(name, 'good')} {name}" for name in ("a", "c")]
    return 1, "\n".join([*lines, "v1 not checked", "no", ""]), ""


def part_without(world, states):
    """The same of its only part."""
    status, lines, error = checks_without(states)
    return status, world.report_head() + lines.removesuffix("no\n") + "part no\n", error


def failures(shim, world, command, kind, **more):
    """The runs in which call 1, 2, and so on of this kind fails."""
    arguments, ample = world.ample(command)
    runs = shim.each(kind, *arguments, **more)
    assert outcome(next(runs)) == ample, command
    return [outcome(done) for done in runs], ample


def test_reads_that_fail():
    with shimmed() as (place, shim):
        world = World(place)
        for error in (errno.EIO, errno.EAGAIN):
            seen, _ = failures(shim, world, "root", "read", error=error)
            assert len(seen) >= 3 and set(seen) == {cannot_read(world.long)}, seen
            seen, _ = failures(shim, world, "show", "read", error=error)
            assert seen and set(seen) == {cannot_read(world.pair)}, seen
            seen, _ = failures(shim, world, "check", "read", error=error)
            allowed = [cannot_read(world.pair), checks_without({"a": "unreadable"}), checks_without({"c": "unreadable"})]
            assert set(seen) == set(allowed) and sorted(seen, key=allowed.index) == seen, seen
            seen, _ = failures(shim, world, "part", "read", error=error)
            allowed[1:] = [part_without(world, {name: "unreadable"}) for name in "ac"]
            assert set(seen) == set(allowed) and sorted(seen, key=allowed.index) == seen, seen
            seen, _ = failures(shim, world, "join", "read", error=error)
            allowed = [cannot_read(world.pair), cannot_read(world.report)]
            assert set(seen) == set(allowed) and sorted(seen, key=allowed.index) == seen, seen
            seen, _ = failures(shim, world, "replay", "read", error=error)
            assert set(seen) <= {cannot_read(world.abc)} | read_faults() and len(set(seen)) > 1, seen


def test_files_that_cannot_be_sought_in():
    """A part reads a file from its first piece there on: one in which that fails is unreadable."""
    with shimmed() as (place, shim):
        world = World(place)
        for error in (errno.ESPIPE, errno.EIO):
            seen, _ = failures(shim, world, "part", "seek", error=error)
            assert seen == [part_without(world, {name: "unreadable"}) for name in "ac"], seen


def read_faults():
    """The reports of a record that fails after some of its frames."""
    return {(2, "".join(f"{line}\n" for line in [*LINES[:count], "fault Read"]), "") for count in range(len(FRAMES) + 1)}


def test_reads_that_are_interrupted():
    """A signal in the middle of a read: the torrent is read on, everything else is a fault of its file."""
    with shimmed() as (place, shim):
        world = World(place)
        for command, allowed in [("root", {cannot_read(world.long)}), ("show", set()), ("replay", read_faults()),
                              ("check", {checks_without({"a": "unreadable"}), checks_without({"c": "unreadable"})})]:
            seen, ample = failures(shim, world, command, "read", error=errno.EINTR)
            assert set(seen) <= allowed | {ample, cannot_read(world.pair), cannot_read(world.abc)}, (command, seen)


def test_writes_that_fail():
    """What went out is a prefix of the answer, and the fault is reported. It may be all of it: a buffer tries once more as
    it is dropped."""
    with shimmed() as (place, shim):
        world = World(place)
        for command in world.commands:
            for error in (errno.ENOSPC, errno.EPIPE, errno.EINTR, errno.EIO):
                for one_byte in (False, True):
                    arguments, ample = world.ample(command)
                    calls, done = shim.run("write", 0, *arguments, one_byte=one_byte)
                    assert outcome(done) == ample, (command, one_byte, outcome(done))
                    for at in {1, 2, 3, calls // 2, calls} & set(range(1, calls + 1)):
                        _, done = shim.run("write", at, *arguments, error=error, one_byte=one_byte)
                        if outcome(done) == ample and error == errno.EINTR:
                            continue
                        status, out, message = outcome(done)
                        assert status == 2 and ample[1].startswith(out), (command, at, done)
                        assert message == CANNOT_WRITE or command == "seeded" and message == cannot_write(world.answers), done


def test_files_that_cannot_be_opened():
    with shimmed() as (place, shim):
        world = World(place)
        for error, verdict in [(errno.EMFILE, "unreadable"), (errno.EACCES, "unreadable"), (errno.ENOENT, "missing")]:
            expected = {"root": [cannot_read(world.long)], "show": [cannot_read(world.pair)],
                        "check": [cannot_read(world.pair), checks_without({"a": verdict}), checks_without({"c": verdict})],
                        "part": [cannot_read(world.pair), *[part_without(world, {name: verdict}) for name in "ac"]],
                        "join": [cannot_read(world.pair), cannot_read(world.report)],
                        "replay": [cannot_read(world.abc), cannot_read(world.record)]}
            for command, wanted in expected.items():
                seen, _ = failures(shim, world, command, "open", error=error)
                assert seen == wanted, (command, error, seen)
            seen, _ = failures(shim, world, "check", "stat", error=error)
            assert seen == expected["check"][1:], (error, seen)


def seeded(names):
    """How a replay of the talk ends if these files are seeded, its answers last."""
    session = Session(PAIR, 32768, True)
    seeds = session.seed({name: content for name, content in PAIR if name in names})
    status, report = record_model.report(session, b"".join(TALK))
    return status, "".join(f"{line}\n" for line in seeds) + report.decode(), "", answers_to(session, ASKS)


def answers_to(session, asks):
    return b"".join(session.answer_frame(*ask) for ask in asks)


def cut_talks():
    """How it ends if the record fails after some of its frames."""
    session, (_, report, _, _) = Session(PAIR, 32768, True), seeded("ac")
    session.seed(dict(PAIR))
    lines = report.splitlines(True)
    for count in range(len(TALK) + 1):
        asks = ASKS[:sum(frame[4:5] == b"\x15" for frame in TALK[:count])]
        yield 2, "".join([*lines[:2 + count], "fault Read\n"]), "", answers_to(session, asks)


def test_seeds_and_answers_that_fail():
    """A file that fails is not seeded, and the others are; the answers are those of the requests that have a line."""
    with shimmed() as (place, shim):
        world = World(place)
        arguments, _ = world.commands["seeded"]
        ample, without, cut = seeded("ac"), [seeded("c"), seeded("a")], list(cut_talks())
        no_torrent, no_record = ((*cannot_read(path), b"before") for path in (world.pair, world.talk))
        no_answers = 2, "", cannot_write(world.answers), b"before"

        def failures_of(kind, error=errno.EIO):
            runs = shim.each(kind, *arguments, error=error, out=world.answers)
            first, *others = [(*outcome(done), written(world.answers)) for done in runs]
            assert first == ample, first
            return others

        for error in (errno.EIO, errno.EAGAIN, errno.EINTR):
            seen, allowed = failures_of("read", error), [no_torrent, *without, *cut]
            if error == errno.EINTR:  # the torrent is read on
                seen, allowed = [end for end in seen if end != ample], allowed[1:]
            assert set(allowed[:-len(cut)]) < set(seen) <= set(allowed), (error, seen)
            assert sorted(seen, key=allowed.index) == seen, (error, seen)
        for error in (errno.EMFILE, errno.EACCES, errno.ENOENT):
            assert failures_of("open", error) == [no_torrent, no_record, no_answers, *without], error
            # a look that only says whether the answers would go to a file that is read may fail
            assert [end for end in failures_of("stat", error) if end != ample] == without, error
        assert set(failures_of("close")) == {ample}
        assert outcome(shim.run("read", 0, *arguments, one_byte=True)[1]) == ample[:3] and written(world.answers) == ample[3]


def test_answers_that_cannot_be_written():
    """Each write in turn: what went out of the report and of the answers is a prefix of each. The fault names that
    which failed: standard output behind the answers of all requests that have a line, or the file of answers behind the
    line of the request."""
    with shimmed() as (place, shim):
        world = World(place)
        arguments, _ = world.commands["seeded"]
        session = Session(PAIR, 32768, True)
        session.seed(dict(PAIR))
        for error in (errno.ENOSPC, errno.EIO):
            runs = shim.each("write", *arguments, error=error, out=world.answers)
            ample, places = next(runs), []
            assert (*outcome(ample), written(world.answers)) == seeded("ac"), ample
            for done in runs:
                status, out, message = outcome(done)
                lines, given = out.splitlines(True), written(world.answers)
                asked = sum(line.endswith((" answered\n", " rejected\n")) for line in lines)
                whole = answers_to(session, ASKS[:asked])
                assert status == 2 and ample.stdout.decode().startswith(out), done
                if message == CANNOT_WRITE:
                    assert given == whole, (done, given)
                else:
                    assert message == cannot_write(world.answers) and out.endswith((" answered\n", " rejected\n")), done
                    assert answers_to(session, ASKS[:asked - 1]) <= given < whole and whole.startswith(given), (done, given)
                places.append((message, asked))
            assert {(cannot_write(world.answers), count) for count in (1, 2)} < set(places), places
            assert {(CANNOT_WRITE, count) for count in (0, 1, 2)} < set(places), places


def test_closing_that_fails_changes_nothing():
    with shimmed() as (place, shim):
        world = World(place)
        for command in world.commands:
            seen, ample = failures(shim, world, command, "close")
            assert set(seen) <= {ample}, (command, seen)


def test_one_byte_at_a_time():
    with shimmed() as (place, shim):
        world = World(place)
        for command in world.commands:
            arguments, ample = world.ample(command)
            assert outcome(shim.run("read", 0, *arguments, one_byte=True)[1]) == ample, command


def test_files_that_change_while_they_are_read():
    """A file that shrinks or grows before one of its reads: the answer is that of some content that it had."""
    with shimmed() as (place, shim):
        world = World(place)
        wrong = checks_without({"a": "wrong length"})
        for length in (0, 1, 16384, 16386, 100000):
            answers = []
            for at in range(1, 6):
                write(world.a, TWO)
                answers.append(outcome(shim.run("read", at, *world.commands["check"][0], change=(world.a, length))[1]))
            assert set(answers) <= {wrong, world_good()}, (length, answers)
            assert answers[0] == wrong, (length, answers)
        write(world.a, TWO)
        for length in (0, 1, 65536, 300000):
            for at in range(1, 6):
                write(world.long, LONG)
                done = shim.run("read", at, "root", world.long, change=(world.long, length))[1]
                allowed = {root_line(bytes(size)) for size in (length, len(LONG), *range(0, len(LONG) + 1, 65536))}
                assert done.returncode == 0 and done.stdout.decode() in allowed, (length, at, done)
        for length in range(0, len(b"".join(FRAMES)), 5):
            write(world.record, b"".join(FRAMES))
            done = shim.run("read", 2, *world.commands["replay"][0], change=(world.record, length))[1]
            *lines, last = done.stdout.decode().splitlines()
            assert lines == LINES[:len(lines)] and last in ("end", "fault Truncated"), (length, done)


def contents_of(whole, length, reads):
    """What a reader may see of a file that gets this length before one of its reads, which take so much each: first
    what it sees if that is the first one."""
    later = whole[:length] + bytes(max(0, length - len(whole)))
    return [whole[:size] + later[size:] for size in [*range(0, len(whole), reads), len(whole)]]


def test_a_record_that_changes_while_it_is_converted():
    """What goes out is the conversion of some record that it was, or of its whole frames if that is cut."""
    hashes = messages.hashes(ASKS[0][0], 0, 0, 256, 0, given=[bytes(32)] * 256)
    frames = [*FRAMES, *[hashes, messages.piece(0, 0, TWO)] * 6]
    whole, part = b"".join(frames), 40960
    with shimmed() as (place, shim):
        record, out = f"{place}/record", f"{place}/out"
        cut, met = len(b"".join(frames[:9])), set()
        for length in (0, 1, 8, cut, cut + 3, part, part + 1, len(whole) - 1, len(whole) + 4, len(whole) + 3, len(whole) + 200000):
            ends = [record_model.conversion(content, record) for content in contents_of(whole, length, part)]
            for at in range(1, shim.run("read", 0, "convert", write(record, whole), out)[0] + 1):
                write(record, whole)
                done = shim.run("read", at, "convert", record, out, change=(record, length), out=out)[1]
                seen, given = (done.returncode, done.stdout, done.stderr), written(out)
                fitting = [least for *end, least in ends[:1 if at == 1 else None]
                           if tuple(end) == seen and given.startswith(least) and (done.returncode or given == least)]
                assert fitting, (length, at, seen, len(given))
                met.add((done.returncode, at == 1))
        assert len(met) == 4, met


def test_files_that_change_while_they_seed():
    """A file is seeded if what was read of it is whole, and then its true leaves are known, else none."""
    content = bytes(at % 253 for at in range(200000))
    tree, files = Tree.of(content), [("a", content), ("c", b"abc")]
    record = b"".join([messages.request(tree.root, 0, 0, 16, 0), messages.piece(0, 16384, content[16384:32768]),
                       messages.piece(1, 0, b"abc"), messages.piece(0, 0, bytes(16384))])
    with shimmed() as (place, shim):
        os.mkdir(f"{place}/folder")
        path, out = write(f"{place}/torrent", torrent_of(files, 262144)), f"{place}/out"
        a, _ = write(f"{place}/folder/a", content), write(f"{place}/folder/c", b"abc")
        arguments = ["replay", path, write(f"{place}/record", record), "--seed", f"{place}/folder", "--answers", out]
        for length in (0, 65536, 199999, 200001, 300000):
            ends = []
            for right in (files[1:], files):
                session = Session(files, 262144, True)
                seeds = "".join(f"{line}\n" for line in session.seed(dict(right)))
                answer = session.answer_frame(tree.root, 0, 0, 16, 0)
                status, report = record_model.report(session, record)
                ends.append((status, seeds + report.decode(), "", answer))
            seen = []
            write(a, content)
            for at in range(1, shim.run("read", 0, *arguments)[0] + 1):
                write(a, content)
                done = shim.run("read", at, *arguments, change=(a, length), out=out)[1]
                seen.append((*outcome(done), written(out)))
            # not if it changes before it is read, but if it changes behind that
            assert set(seen) == set(ends) and sorted(seen, key=ends.index) == seen, (length, seen)
            assert seen.count(ends[0]) >= 4, (length, seen)


def world_good():
    return 0, "good a\ngood c\nv1 good\nyes\n", ""


def test_standard_output_that_is_full_or_gone():
    with folder() as place:
        world = World(place)
        for arguments in [*(arguments for arguments, _ in world.commands.values()), ["show", world.long], ["--help"]]:
            with open("/dev/full", "wb") as full:
                expect(run(*arguments, stdout=full), 2, None, CANNOT_WRITE)
            read_end, write_end = os.pipe()
            os.close(read_end)
            expect(run(*arguments, stdout=write_end), 2, None, CANNOT_WRITE)
            os.close(write_end)
            ours, theirs = pty.openpty()
            os.close(ours)
            expect(run(*arguments, stdout=theirs), 2, None, CANNOT_WRITE)
            os.close(theirs)


def test_a_reader_that_goes_away_in_the_middle():
    """The reader of a long report takes one line and goes: the program ends, with the fault."""
    with folder() as place:
        path, record = write(f"{place}/torrent", ABC), write(f"{place}/record", bytes(4) * 200000)
        program = subprocess.Popen([BTCHECK, "replay", path, record], stdout=subprocess.PIPE, stderr=subprocess.PIPE)
        assert program.stdout.readline() == b"1 keep-alive\n"
        program.stdout.close()
        assert program.stderr.read().decode() == CANNOT_WRITE and program.wait(timeout=20) == 2
        program.stderr.close()


def test_standard_error_that_is_closed_or_full():
    """The line is lost, and the status is still that of the fault."""
    with folder() as place:
        world = World(place)
        faults = [["root", "/no/file"], ["show", "/no/file"], ["check", "/no/file", place],
                  ["replay", world.abc, "/no/file"], ["nothing"], []]
        for arguments in faults:
            expect(run(*arguments, preexec_fn=lambda: os.close(2)), 2, b"", None)
            with open("/dev/full", "wb") as full:
                expect(run(*arguments, stderr=full), 2, b"", None)
        for arguments, status in world.commands.values():
            assert run(*arguments, preexec_fn=lambda: os.close(2)).returncode == status
        with open("/dev/full", "wb") as full:
            expect(run("root", world.long, stdout=full, stderr=full), 2, None, None)


def test_standard_input_that_is_closed():
    with folder() as place:
        world = World(place)
        for command in world.commands:
            arguments, ample = world.ample(command)
            assert outcome(run(*arguments, stdin=None, preexec_fn=lambda: os.close(0))) == ample, command


def test_no_descriptor_is_left():
    """With the standard streams alone, the fault names the file that could not be opened. A program with the C library
    apart does not start then."""
    if not has_c_library_inside(BTCHECK):
        return
    with folder() as place:
        path = write(f"{place}/abc", ABC)
        for command in ("root", "show"):
            done = run("-c", 'ulimit -n 3 && exec "$@"', "sh", BTCHECK, command, path, program="sh")
            expect(done, 2, b"", f"fault: cannot read {path}\n")


def test_closed_streams_keep_their_places():
    """A file that the program opens never gets the place of a standard stream: nothing that is printed lands in it."""
    with folder() as place:
        world, out = World(place), f"{place}/out"
        arguments, ample = world.ample("replay")
        for closed in ([0], [1], [2], [0, 1], [0, 2], [1, 2], [0, 1, 2]):
            done = run(*arguments, "--answers", out, stdin=None, stdout=None if 1 in closed else subprocess.PIPE,
                       stderr=None if 2 in closed else subprocess.PIPE, preexec_fn=lambda: [os.close(at) for at in closed])
            assert done.returncode == (2 if 1 in closed else ample[0]), (closed, done)
            assert 1 in closed or done.stdout.decode() == ample[1], (closed, done)
            assert 2 in closed or done.stderr.decode() == (CANNOT_WRITE if 1 in closed else ""), (closed, done)
            assert os.path.getsize(out) == 0, closed
        for arguments in (["root", "/dev/stdin"], ["replay", world.abc, "/dev/stdin"]):
            done = run(*arguments, stdin=None, preexec_fn=lambda: os.close(0))
            assert done.returncode == 2 and b"verified" not in done.stdout, done


def ample_of_writer(shim, world, command):
    arguments, sources = world.writers[command]
    assert outcome(shim.run("write", 0, *arguments)[1]) == (0, "", ""), command
    return arguments, sources, written(world.made)


def test_written_files_that_fail():
    """What is in the file is a prefix of what belongs there, or all of it, and the fault is reported."""
    with shimmed() as (place, shim):
        world = World(place)
        for command in world.writers:
            arguments, _, ample = ample_of_writer(shim, world, command)
            for error in (errno.ENOSPC, errno.EPIPE, errno.EINTR, errno.EIO):
                for one_byte in (False, True):
                    calls, done = shim.run("write", 0, *arguments, one_byte=one_byte)
                    assert outcome(done) == (0, "", "") and written(world.made) == ample, (command, one_byte, done)
                    for at in {1, 2, 3, calls // 2, calls} & set(range(1, calls + 1)):
                        _, done = shim.run("write", at, *arguments, error=error, one_byte=one_byte)
                        allowed = {(2, "", cannot_write(world.made))}
                        allowed |= {(0, "", "")} if error == errno.EINTR else set()
                        assert outcome(done) in allowed and ample.startswith(written(world.made)), (command, at, done)


def test_sources_of_written_files_that_fail():
    with shimmed() as (place, shim):
        world = World(place)
        for command in world.writers:
            arguments, sources, ample = ample_of_writer(shim, world, command)
            cannot = {cannot_read(source) for source in sources}
            for error in (errno.EIO, errno.EAGAIN):
                runs = [outcome(done) for done in shim.each("read", *arguments, error=error)]
                assert runs[0] == (0, "", "") and set(runs[1:]) == cannot, (command, runs)
            for error in (errno.EMFILE, errno.EACCES, errno.ENOENT):
                runs = [outcome(done) for done in shim.each("open", *arguments, error=error)]
                others = {cannot_read(world.folder), (2, "", cannot_write(world.made))}
                assert runs[0] == (0, "", "") and cannot <= set(runs[1:]) <= cannot | others, (command, error, runs)
            for kind in ("stat", "close"):
                runs = {outcome(done) for done in shim.each(kind, *arguments)}
                assert runs <= cannot | {(0, "", ""), cannot_read(world.folder)}, (command, kind, runs)
            assert outcome(shim.run("read", 0, *arguments, one_byte=True)[1]) == (0, "", "")
            assert written(world.made) == ample, command


def test_files_that_are_written_on_full_disks_and_closed_pipes():
    with folder() as place:
        world = World(place)
        for arguments, _ in world.writers.values():
            to = [word if word != world.made else "/dev/full" for word in arguments]
            expect(run(*to), 2, b"", "fault: cannot write /dev/full\n")
            to = [word if word != world.made else "/dev/stdout" for word in arguments]
            read_end, write_end = os.pipe()
            os.close(read_end)
            expect(run(*to, stdout=write_end), 2, None, "fault: cannot write /dev/stdout\n")
            os.close(write_end)
            for closed in ([0], [1], [2], [0, 1, 2]):
                run(*arguments, stdin=None, stdout=None, stderr=None, preexec_fn=lambda: [os.close(at) for at in closed])
                assert written(world.made) and run(*to).stdout == written(world.made), (arguments, closed)

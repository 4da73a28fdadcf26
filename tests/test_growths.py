"""Memory that is refused: each growth of a run in turn, and from each on all that follow. Every run ends with the
answer of ample memory, or says that memory was refused."""
import os
import re

import messages
import record_model
from create_model import torrent_of as torrent_of_folder
from record_cases import large
from session_model import Session
from shim import shimmed
from support import write, written
from torrents import ABC, FIVE, TWO, bencoded, file, hybrid, info, layer, torrent, torrent_of
from trees import Tree, blocks_of, root_of

NO_MEMORY = (2, b"", b"fault: no memory\n")


def outcome(done):
    return done.returncode, done.stdout, done.stderr


def refused_in_turn(shim, name, *arguments, out=None):
    """The ample run, and then each run in which a growth was refused, with what it is called; prints how many. A file
    `out` holds `before` at the start of each."""
    runs = shim.each("growth", *arguments, out=out)
    ample = next(runs)
    count = 0
    yield "ample", ample
    for count, done in enumerate(runs, 1):
        yield f"{name}, growth {count}", done
    print(f"growths of {name}: {count}")
    assert count > 0
    for at in range(1, count + 1, 4):
        yield f"{name}, growths from {at}", shim.run("growth", at, *arguments, onward=True, out=out)[1]
    assert outcome(shim.run("growth", 0, *arguments)[1]) == outcome(ample)


def torrents_to_show():
    """Torrents by name: some that open, and some that are refused."""
    content = bytes(65636)
    whole, layers = info({"five": file(content)}, 32768), {root_of(content): layer(content, 2)}
    many = {f"folder {number}": {f"file {number}": file(b"%d" % number)} for number in range(12)}
    return {
        "one file": ABC,
        "a hybrid": torrent(hybrid()),
        "a piece layer": torrent(whole, layers),
        "twelve folders": torrent(info(many)),
        "a wrong layer": torrent(whole, {root: bytes(96) for root in layers}),
        "no bencoding": ABC + b"x",
        "version 1": bencoded({"info": {"length": 3, "name": "x"}}),
        "pads of a wrong length": torrent(hybrid(files=[{"length": 1, "path": ["a"]}])),
    }


def test_root_and_show():
    with shimmed() as (place, shim):
        runs = [("root", ["root", write(f"{place}/content", bytes(200000))])]
        for name, content in torrents_to_show().items():
            runs.append((f"show of {name}", ["show", write(f"{place}/{name}", content)]))
        for name, arguments in runs + [(f"{name}, --json", [*arguments, "--json"]) for name, arguments in runs]:
            ample = None
            for called, done in refused_in_turn(shim, name, *arguments):
                ample = ample or outcome(done)
                assert outcome(done) in (ample, NO_MEMORY), (called, outcome(done))


def test_json():
    """An object takes no memory, so those that went out before memory was refused are whole."""
    with shimmed() as (place, shim):
        path, ample = write(f"{place}/torrent", torrent(hybrid())), None
        for called, done in refused_in_turn(shim, "check --json", "check", path, f"{place}/nothing", "--json"):
            ample = ample or done
            seen = done.stdout.replace(b'"unreadable"', b'"missing"')
            if done.returncode == 2:
                assert done.stderr == NO_MEMORY[2], (called, outcome(done))
                assert ample.stdout.startswith(seen) and seen[-1:] in (b"", b"\n"), (called, outcome(done))
            else:
                assert (done.returncode, seen) == (ample.returncode, ample.stdout), (called, outcome(done))


def test_help_and_refused_arguments():
    with shimmed() as (_, shim):
        for arguments in (["--help"], ["help", "check"]):
            ample = None
            for called, done in refused_in_turn(shim, " ".join(arguments), *arguments):
                ample = ample or outcome(done)
                assert outcome(done) in (ample, NO_MEMORY), (called, outcome(done))
        for name, arguments in [("an unknown command", ["nothing"]), ("root without a file", ["root"]),
                                ("an argument that is not UTF-8", ["root", b"\xff"])]:
            for called, done in refused_in_turn(shim, name, *arguments):
                is_explained = done.stderr.startswith((b"error: ", b"fault: name is not UTF-8\n")) or outcome(done) == NO_MEMORY
                assert done.returncode == 2 and not done.stdout and is_explained, (called, outcome(done))


# What stands before the path in a line of a file.
VERDICTS = re.compile("good |missing |wrong length |bad [0-9]+ ")


def is_report_with_unreadable(seen, ample, most):
    """The report is the ample one but for at most `most` files that could not be opened."""
    lines, whole = seen.decode().splitlines(), ample.decode().splitlines()
    files = [line for line in whole if VERDICTS.match(line)]
    changed = 0
    for line, other in zip(lines, files):
        if line != other:
            if line != VERDICTS.sub("unreadable ", other, count=1):
                return False
            changed += 1
    rest = whole[len(files):] if not changed else ["v1 not checked"] * (len(whole) - len(files) - 1) + ["no"]
    return lines[len(files):] == rest and changed <= most


def test_check():
    """A file that no memory was there to open is unreadable; memory for the torrent or the report ends the check."""
    with shimmed() as (place, shim):
        os.mkdir(f"{place}/folder")
        path = write(f"{place}/torrent", torrent(hybrid()))
        for name, contents in [("a whole folder", {"a": TWO, "c": b"abc"}), ("a damaged folder", {"a": TWO[:-1] + b"x"})]:
            for file_name in ("a", "c"):
                if file_name in contents:
                    write(f"{place}/folder/{file_name}", contents[file_name])
                else:
                    os.remove(f"{place}/folder/{file_name}")
            ample = None
            for called, done in refused_in_turn(shim, f"check of {name}", "check", path, f"{place}/folder"):
                ample = ample or done.stdout
                if outcome(done) != NO_MEMORY:
                    most = 0 if called == "ample" else 1 if "from" not in called else 2
                    assert is_report_with_unreadable(done.stdout, ample, most), (called, outcome(done))
                    assert done.returncode == (0 if done.stdout.endswith(b"\nyes\n") else 1) and not done.stderr, called


def test_check_of_bad_pieces():
    """As a check; a file for whose second opening no memory was there ends the report, which names DIR."""
    with shimmed() as (place, shim):
        below = f"{place}/folder"
        os.mkdir(below)
        path = write(f"{place}/torrent", torrent(hybrid()))
        write(f"{below}/a", TWO[:-1] + b"x")
        write(f"{below}/c", b"ab")
        for more in ([], ["--part", "1/1"]):
            ample = None
            for called, done in refused_in_turn(shim, " ".join(["check --bad", *more]), "check", path, below, "--bad", *more):
                ample = ample or done.stdout
                if done.returncode == 2 and done.stderr == f"fault: cannot read {below}\n".encode():
                    assert ample.startswith(done.stdout) and called != "ample", (called, outcome(done))
                elif outcome(done) != NO_MEMORY:
                    runs = [line for line in ample.splitlines(True) if line.startswith(b"bad pieces ")]
                    assert len(runs) == 2 and done.returncode == 1 and not done.stderr, (called, outcome(done))
                    assert done.stdout == ample or b"unreadable " in done.stdout, (called, outcome(done))


def whole_of(text):
    """What a report of a part would be as the report of a check."""
    lines = text.split(b"\n", 1)
    return lines[1].replace(b"part yes\n", b"yes\n").replace(b"part no\n", b"no\n")


def test_parts_and_their_join():
    """A part is as a check. A join has one answer, and needs memory for the reports."""
    with shimmed() as (place, shim):
        os.mkdir(f"{place}/folder")
        path = write(f"{place}/torrent", torrent(hybrid()))
        write(f"{place}/folder/a", TWO)
        write(f"{place}/folder/c", b"abd")
        reports = []
        for number in (1, 2):
            arguments, ample = ["check", path, f"{place}/folder", "--part", f"{number}/2"], None
            for called, done in refused_in_turn(shim, f"part {number}", *arguments):
                ample = ample or done.stdout
                if outcome(done) != NO_MEMORY:
                    most = 0 if called == "ample" else 1 if "from" not in called else 2
                    assert is_report_with_unreadable(whole_of(done.stdout), whole_of(ample), most), (called, outcome(done))
                    assert done.returncode == (0 if done.stdout.endswith(b"\npart yes\n") else 1) and not done.stderr, called
            reports.append(write(f"{place}/{number}", ample))
        for name, given, status in [("both", reports, 1), ("one", reports[:1], 2)]:
            ample = None
            for called, done in refused_in_turn(shim, f"join of {name}", "join", path, *given):
                ample = ample or outcome(done)
                assert outcome(done) in (ample, NO_MEMORY), (called, outcome(done))
            assert ample[0] == status, ample


def fits(session, record, lines):
    """Each frame carries one block at most, and has one line. Each line is what the model says of its frame in the
    state that the frames before it left, or says that memory was refused for hashes that it would store, which leaves
    the state as it was."""
    for number, body in enumerate(record_model.bodies(record)[0], 1):
        if number > len(lines):
            return True
        if lines[number - 1] == f"{number} refused H7 NoMemory":
            before = {root: dict(tree["known"]) for root, tree in session.trees.items()}
            if not record_model.lines(session, body)[0].startswith("stored "):
                return False
            for root, known in before.items():
                session.trees[root]["known"] = known
        elif lines[number - 1] != f"{number} {record_model.lines(session, body)[0]}":
            return False
    return True


def test_replay():
    tree, other = Tree.of(FIVE), Tree.of(TWO)
    blocks = blocks_of(FIVE)
    files = [("a", TWO), ("five", FIVE)]
    record = b"".join([
        messages.hashes(tree.root, 0, 0, 4, 2, given=tree.hashes(0, 0, 4, 1)), messages.piece(1, 0, blocks[0]),
        messages.hashes(other.root, 0, 0, 2, 0, given=other.hashes(0, 0, 2, 0)), messages.request(tree.root, 0, 0, 4, 2),
        messages.hashes(tree.root, 0, 0, 8, 2, given=tree.hashes(0, 0, 8, 0)), messages.piece(3, 0, blocks[4]),
        messages.hashes(tree.root, 0, 0, 8, 2, given=[bytes(32)] * 8), messages.KEEP_ALIVE,
        messages.piece(0, 0, TWO[:16384]),
        messages.reject(tree.root, 0, 0, 4, 2), messages.request(tree.root, 0, 0, 8, 2)])
    with shimmed() as (place, shim):
        path, record_path = write(f"{place}/torrent", torrent_of(files, 32768)), write(f"{place}/record", record)
        for flags in ([], ["--info-only"]):
            seen_h7 = 0
            for called, done in refused_in_turn(shim, " ".join(["replay", *flags]), "replay", path, record_path, *flags):
                if outcome(done) == NO_MEMORY:
                    continue
                *lines, last = done.stdout.decode().splitlines()
                seen_h7 += any("H7" in line for line in lines)
                assert fits(Session(files, 32768, not flags), record, lines), (called, outcome(done))
                if called == "ample":
                    assert last == "end" and len(lines) == 11 and "H7" not in done.stdout.decode(), done.stdout
                    assert done.returncode == 1, done
                    continue
                assert last == "fault NoMemory" or (last == "end" and len(lines) == 11), (called, lines, last)
                refused = last != "end" or any("H7" in line for line in lines)
                assert done.returncode == (2 if refused else 1) and not done.stderr, (called, outcome(done))
            assert seen_h7 > 0, flags


def test_summary_of_a_replay():
    """Where there is no memory to count in, that is the fault, behind the report."""
    record = messages.KEEP_ALIVE + messages.piece(0, 0, TWO[:16384])
    with shimmed() as (place, shim):
        path, record_path = write(f"{place}/torrent", torrent_of([("a", TWO), ("five", FIVE)], 32768)), write(f"{place}/record", record)
        seen = 0
        for called, done in refused_in_turn(shim, "replay --summary", "replay", path, record_path, "--summary"):
            if outcome(done) == NO_MEMORY:
                continue
            *_, last = done.stdout.decode().splitlines()
            if done.stderr == NO_MEMORY[2]:
                assert done.returncode == 2, (called, outcome(done))
                seen += last == "end"
            else:
                assert done.stderr.startswith(b"summary: "), (called, outcome(done))
            assert last in ("end", "fault NoMemory"), (called, outcome(done))
        assert seen > 0


def test_answers():
    """An answer whose growth is refused does not go out at all, and ends the report behind its line."""
    tree, files = Tree.of(FIVE), [("five", FIVE)]
    asks = [(tree.root, 0, 0, 8, 2), (tree.root, 1, 0, 2, 1)]
    record = messages.hashes(tree.root, 0, 0, 8, 2, given=tree.hashes(0, 0, 8, 0)) + b"".join(
        messages.request(*ask) for ask in asks)
    answers = [messages.hashes(*ask, given=tree.hashes(*ask[1:4], uncles)) for ask, uncles in zip(asks, [0, 1])]
    lines = ["1 stored 14", "2 answered", "3 answered"]
    with shimmed() as (place, shim):
        path, record_path = write(f"{place}/torrent", torrent_of(files, 32768)), write(f"{place}/record", record)
        out, unanswered = f"{place}/out", 0
        arguments = ["replay", path, record_path, "--info-only", "--answers", out]
        for called, done in refused_in_turn(shim, "replay --answers", *arguments, out=out):
            printed, given = done.stdout.decode().splitlines(), written(out)
            if called == "ample":
                assert (done.returncode, printed, given) == (0, [*lines, "end"], b"".join(answers)), (done, given)
            elif printed[:1] == lines[:1] and printed[-1] == "fault NoMemory":
                count = len(printed) - 2
                assert printed[:-1] == lines[:count + 1] and given == b"".join(answers[:count - 1]), (called, printed)
                assert done.returncode == 2 and not done.stderr, (called, done)
                unanswered += 1
        assert unanswered >= 2, unanswered


def test_the_answer_of_a_seeded_session():
    """Its line stands, and not a byte of it goes out."""
    content, tree, torrent_bytes, ask = large()
    with shimmed() as (place, shim):
        os.mkdir(f"{place}/folder")
        write(f"{place}/folder/file", content)
        path, record = write(f"{place}/torrent", torrent_bytes), write(f"{place}/record", messages.request(*ask))
        out, seen = f"{place}/out", []
        arguments = ["replay", path, record, "--info-only", "--seed", f"{place}/folder", "--answers", out]
        write(out, b"")  # so that each run asks whether it is an input
        calls, done = shim.run("growth", 0, *arguments)
        assert outcome(done) == (0, b"seeded file\n1 answered\nend\n", b"") and shim.failed == 0, outcome(done)
        assert written(out) == messages.hashes(*ask, given=tree.hashes(*ask[1:4], 1)) and os.path.getsize(out) == 16469
        # its growth is the last of the run; before it come the reader's, and the session's
        for at in range(calls, calls - 3, -1):
            _, done = shim.run("growth", at, *arguments)
            assert written(out) == b"", (at, outcome(done))
            seen.append(outcome(done))
        assert seen == [(2, b"seeded file\n1 answered\nfault NoMemory\n", b""), (2, b"seeded file\nfault NoMemory\n", b""),
                        NO_MEMORY], seen


def test_seeds():
    """A file that no memory was there to open is not seeded; where there is none for a file's leaves, the replay ends
    behind the lines of the files before. All else is as without seeds, in the state that the seeded files left."""
    tree, files = Tree.of(FIVE), [("a", TWO), ("five", FIVE)]
    asks = [(tree.root, 0, 0, 8, 2), (Tree.of(TWO).root, 0, 0, 2, 0), (tree.root, 1, 0, 2, 1)]
    record = b"".join(messages.request(*ask) for ask in asks) + messages.piece(1, 0, blocks_of(FIVE)[0])
    ends = set()
    with shimmed() as (place, shim):
        os.mkdir(f"{place}/folder")
        for name, content in files:
            write(f"{place}/folder/{name}", content)
        path, record_path = write(f"{place}/torrent", torrent_of(files, 32768)), write(f"{place}/record", record)
        out = f"{place}/out"
        arguments = ["replay", path, record_path, "--info-only", "--seed", f"{place}/folder", "--answers", out]
        for called, done in refused_in_turn(shim, "replay --seed", *arguments, out=out):
            session, lines, about = Session(files, 32768, False), done.stdout.decode().splitlines(), (called, outcome(done))
            right = {name: content for name, content in files if f"seeded {name}" in lines}
            seeds, lines = lines[:len(files)], lines[len(files):]
            assert seeds == session.seed(right)[:len(seeds)], about
            assert len(right) >= len(seeds) - 1 or "from" in called, about
            if not lines:
                assert (done.returncode, done.stderr) == NO_MEMORY[::2], about
                assert written(out) == b"" or (written(out) == b"before" and not seeds), about
                ends.add(f"none behind {len(seeds)}")
                continue
            *lines, last = lines
            # the last one that has a line may have had no memory, and did not go out then
            count = max(0, len(lines) - 1) if last == "fault NoMemory" else len(asks)
            assert written(out) == b"".join(session.answer_frame(*ask) for ask in asks[:count]), about
            assert fits(session, record, lines), about
            assert last == "fault NoMemory" and len(lines) <= len(asks) or last == "end" and len(lines) == 4, about
            refused = any(" refused " in line for line in lines)
            assert done.returncode == (2 if last != "end" else 1 if refused else 0) and not done.stderr, about
            ends.add(f"{last} behind {len(lines)}, {len(right)} seeded")
            if called == "ample":
                assert ends == {"end behind 4, 2 seeded"} and not refused, about
    assert ends >= {"none behind 0", "none behind 1", *(f"fault NoMemory behind {count}, 2 seeded" for count in range(4)),
                    "end behind 4, 1 seeded"}, ends


def test_create():
    """The torrent is written whole or not at all; a file that no memory was there to open cannot be read."""
    contents = {"a": TWO, "b/c": b"abc", "b/d/e": FIVE, "f": b""}
    with shimmed() as (place, shim):
        for path, content in contents.items():
            os.makedirs(os.path.dirname(f"{place}/folder/{path}"), exist_ok=True)
            write(f"{place}/folder/{path}", content)
        out = f"{place}/out"
        cannot = {(2, b"", f"fault: cannot read {path}\n".encode()) for path in contents}
        for flags in ([], ["--hybrid"], ["--exclude", "[a-c]*.tmp", "--follow-symlinks"]):
            whole = torrent_of_folder(contents, "x", 32768, "--hybrid" in flags)
            arguments = ["create", f"{place}/folder", out, "--name", "x", "--piece-length", "32768", *flags]
            for called, done in refused_in_turn(shim, " ".join(["create", *flags]), *arguments, out=out):
                made = written(out)
                if called == "ample":
                    assert outcome(done) == (0, b"", b"") and made == whole, (called, outcome(done))
                assert outcome(done) in {(0, b"", b""), NO_MEMORY} | cannot, (called, outcome(done))
                assert made in ({whole} if done.returncode == 0 else {b"", b"before"}), (called, made)


def test_create_in_parts():
    """The text of a part, and the torrent of all parts, is written whole or not at all."""
    contents = {"a": TWO, "b/c": b"abc", "b/d/e": FIVE, "f": b""}
    with shimmed() as (place, shim):
        for path, content in contents.items():
            os.makedirs(os.path.dirname(f"{place}/folder/{path}"), exist_ok=True)
            write(f"{place}/folder/{path}", content)
        out, cannot = f"{place}/out", {(2, b"", f"fault: cannot read {path}\n".encode()) for path in contents}
        for flags in ([], ["--hybrid"]):
            whole, parts = torrent_of_folder(contents, "x", 32768, "--hybrid" in flags), []
            options = ["--name", "x", "--piece-length", "32768", *flags]
            for number in (1, 2):
                arguments, text = ["create", f"{place}/folder", out, *options, "--part", f"{number}/2"], None
                for called, done in refused_in_turn(shim, f"create, part {number}", *arguments, out=out):
                    text = text or written(out)
                    assert outcome(done) in {(0, b"", b""), NO_MEMORY} | cannot, (called, outcome(done))
                    assert written(out) in ({text} if done.returncode == 0 else {b"", b"before"}), called
                parts.append(write(f"{place}/part {number}", text))
            for called, done in refused_in_turn(shim, " ".join(["assemble", *flags]), "assemble", out, *parts, out=out):
                assert called != "ample" or outcome(done) == (0, b"", b""), outcome(done)
                assert outcome(done) in {(0, b"", b""), NO_MEMORY}, (called, outcome(done))
                assert written(out) in ({whole} if done.returncode == 0 else {b"", b"before"}), called


def test_long_pieces():
    """The store in which long pieces of a hybrid wait may be refused, and the buffer too: then torrent and report are as with
    them."""
    content = b"a" * 5 + bytes(5 << 23)
    with shimmed() as (place, shim):
        os.mkdir(f"{place}/folder")
        write(f"{place}/folder/a", content)
        out, whole = f"{place}/out", torrent_of_folder({"a": content}, "x", 1 << 23, True)
        arguments = ["create", f"{place}/folder", out, "--name", "x", "--piece-length", "8M", "--hybrid"]
        without = 0
        for called, done in refused_in_turn(shim, "create of long pieces", *arguments, out=out):
            assert outcome(done) in {(0, b"", b""), NO_MEMORY, (2, b"", b"fault: cannot read a\n")}, (called, outcome(done))
            assert written(out) in ({whole} if done.returncode == 0 else {b"", b"before"}), called
            without += done.returncode == 0
        assert without > 2, without
        ample, without = None, 0
        path = write(f"{place}/torrent", whole)
        for called, done in refused_in_turn(shim, "check of long pieces", "check", path, f"{place}/folder"):
            ample = ample or done.stdout
            if outcome(done) != NO_MEMORY:
                assert is_report_with_unreadable(done.stdout, ample, 1), (called, outcome(done))
            without += done.stdout == ample
        assert without > 2, without


def test_convert():
    """Memory is taken for the arguments alone."""
    record = messages.KEEP_ALIVE + messages.piece(0, 0, bytes(16384))
    with shimmed() as (place, shim):
        path, out = write(f"{place}/record", record), f"{place}/out"
        for called, done in refused_in_turn(shim, "convert", "convert", path, out):
            assert outcome(done) in ((0, b"", b""), NO_MEMORY), (called, outcome(done))

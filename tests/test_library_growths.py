"""Memory that is refused to calls of the libraries: each growth in turn. The program of crates/memory_tests makes each call
again that failed for memory, and says if it left something behind; so it prints what it prints with ample memory."""
import collections
import json
import re

import messages
import record_model
from record_model import FORM_2
from session_model import Session
from shim import shimmed
from support import memory_tests, write
from test_growths import fits
from torrents import ABC, FIVE, LARGE, TWO, file, hybrid, info, layer, torrent, torrent_of
from trees import Tree, blocks_of, root_of

CALL = re.compile(r"refused: (.*)")
OF_RUN = re.compile(r"message (\d+) of run")
BYTES = re.compile(rb"\[[\d, ]*\]")
DECODED = re.compile(rb"^decoded .*\n", re.M)


def calls_refused(shim, name, *arguments, judge=None):
    """Refuses each growth in turn, compares what is printed, and counts the growths of each call. Each run that
    does not end early is judged too."""
    runs = shim.each("growth", *arguments, program=memory_tests())
    ample = next(runs)
    assert ample.returncode == 0 and not ample.stderr, (name, ample)
    if judge:
        judge(ample)
    counts = collections.Counter()
    for number, done in enumerate(runs, 1):
        called = f"{name}, growth {number}"
        assert b"changed" not in done.stdout, (called, done)
        refused = CALL.findall(done.stderr.decode())
        if done.returncode == 0:
            assert done.stdout == ample.stdout, (called, done.stdout, ample.stdout)
            assert len(refused) <= 1, (called, done.stderr)
            counts[refused[0] if refused else "that may be missing"] += 1
            if judge:
                judge(done)
        else:
            assert done.returncode == 1 and not refused, (called, done)
            assert ample.stdout.startswith(done.stdout) and b"OutOfMemory" in done.stderr, (called, done)
            counts["of the test itself"] += 1
    print(f"growths of {name}: {', '.join(f'{call} {count}' for call, count in sorted(counts.items()))}")
    return counts


def has_refusal_amid(counts, call, length):
    """Memory was refused for a message of a run of `length` messages that is neither the first nor the last."""
    numbers = [int(found[1]) for name in counts if (found := OF_RUN.match(name)) and name.endswith(f" of {call}")]
    return any(1 < number < length for number in numbers)


def printed(text):
    """The lists of bytes that a text has, without those of the decoded torrent."""
    return [bytes(json.loads(found)) for found in BYTES.findall(DECODED.sub(b"", text))]


def test_decode_and_open():
    whole, layers = info({"five": file(FIVE)}, 32768), {root_of(FIVE): layer(FIVE, 2)}
    with shimmed(memory_tests()) as (place, shim):
        record = write(f"{place}/record", b"")
        for name, content in [("one file", ABC), ("a hybrid", torrent(hybrid())), ("a piece layer", torrent(whole, layers)),
                              ("a wrong layer", torrent(whole, {root: bytes(96) for root in layers}))]:
            path = write(f"{place}/torrent", content)
            counts = calls_refused(shim, name, path, record, "paged", "step")
            assert counts["decode"] > 0 and counts["open"] > 0, (name, counts)


def test_faults_are_answered_without_memory():
    """Out of memory hides no fault: only an input that spells a value can be answered so. Faulty text is answered alike
    whichever growth is refused, and also if all are from some growth on."""
    texts = [b"li1ex", b"d1:bi1e1:ai1ee", ABC + b"x", ABC[:-1], b"l" * 129, b"d1:ali1ei2e1:be1:ci03ee",
             b"l" + 300 * b"i1e" + b"x", b"d" + b"".join(b"4:%04dle" % key for key in range(300)) + b"4:0000lee"]
    with shimmed(memory_tests()) as (place, shim):
        for text in texts:
            path = write(f"{place}/torrent", text)
            arguments = [path, path, "flat", "span"]
            name = f"{text[:20]!r} and {len(text)} bytes in all"
            counts = calls_refused(shim, name, *arguments)
            assert set(counts) <= {"of the test itself", "that may be missing"}, (name, counts)
            count, ample = shim.run("growth", 0, *arguments, program=memory_tests())
            for at in range(1, count + 1):
                _, done = shim.run("growth", at, *arguments, onward=True, program=memory_tests())
                assert done.stdout == (b"" if done.returncode else ample.stdout), (name, at, done)


def test_calls_that_other_calls_make():
    """What a command reaches through another call, called alone."""
    with shimmed(memory_tests()) as (place, shim):
        path = write(f"{place}/torrent", torrent_of([("five", FIVE)], 32768))
        five = write(f"{place}/content", FIVE)
        for call, name, given in [("span", "decode_with_span", path), ("layer", "LayerBuilder", five),
                                  ("cuts", "V1Cuts", five)]:
            counts = calls_refused(shim, call, path, given, "paged", call)
            assert counts[name] > 0, (call, counts)


def records():
    """Records by name: the files of their torrent, and their messages."""
    five, two, large = Tree.of(FIVE), Tree.of(TWO), Tree.of(LARGE)
    blocks = blocks_of(FIVE)
    yield "a file of five blocks", [("a", TWO), ("five", FIVE)], 32768, [
        messages.hashes(five.root, 0, 0, 4, 2, given=five.hashes(0, 0, 4, 1)), messages.piece(1, 0, blocks[0]),
        messages.hashes(two.root, 0, 0, 2, 0, given=two.hashes(0, 0, 2, 0)), messages.request(five.root, 0, 0, 4, 2),
        messages.hashes(five.root, 0, 0, 8, 2, given=five.hashes(0, 0, 8, 0)), messages.piece(3, 0, blocks[4]),
        messages.request(five.root, 0, 4, 2, 2), messages.request(five.root, 0, 0, 8, 2)]
    yield "a file of 1024 blocks", [("large", LARGE)], 1 << 24, [
        messages.hashes(large.root, 0, 512, 512, 9, given=large.hashes(0, 512, 512, 1)),
        messages.hashes(large.root, 0, 512, 512, 9, given=large.hashes(0, 512, 512, 1)),
        messages.hashes(large.root, 0, 0, 512, 9, given=large.hashes(0, 0, 512, 1)),
        messages.request(large.root, 0, 512, 512, 9)]


def test_sessions():
    with shimmed(memory_tests()) as (place, shim):
        for name, files, piece_length, frames in records():
            path = write(f"{place}/torrent", torrent_of(files, piece_length))
            record = write(f"{place}/record", b"".join(frames))
            for map_name in ("flat", "paged"):
                for call, named in [("step", ["step", "answer"]), ("run", ["run", "message 1 of run"]), ("run of all", ["run"])]:
                    counts = calls_refused(shim, f"{name}, {call} over {map_name}", path, record, map_name, call)
                    assert counts["new"] > 0 and all(counts[of] > 0 for of in named), counts
                    # flat rows of a single tree take all their memory at the first message
                    if call == "run of all" and (len(files) > 1 or map_name == "paged"):
                        assert has_refusal_amid(counts, "run", len(frames)), counts


def test_fill():
    tree = Tree.of(FIVE)
    whole = messages.hashes(tree.root, 0, 0, 8, 0, given=tree.hashes(0, 0, 8, 0)[:5])
    with shimmed(memory_tests()) as (place, shim):
        path = write(f"{place}/torrent", torrent_of([("five", FIVE)], 32768))
        record = write(f"{place}/record", whole)
        for map_name in ("flat", "paged"):
            counts = calls_refused(shim, f"fill over {map_name}", path, record, map_name, "fill")
            assert counts["fill"] > 0, counts


def test_whole_pieces():
    """A piece for which memory was refused leaves the session as it was; one that is known takes none. The last pieces of
    five and of 33 blocks bring pads."""
    with shimmed(memory_tests()) as (place, shim):
        for name, content, piece_length in [("five blocks", FIVE, 32768), ("64 blocks", LARGE[:1 << 20], 1 << 18),
                                            ("33 blocks", LARGE[:(1 << 19) + 5], 1 << 17)]:
            path = write(f"{place}/torrent", torrent_of([("a", content)], piece_length))
            whole = write(f"{place}/content", content)
            for map_name in ("flat", "paged"):
                counts = calls_refused(shim, f"pieces of {name} over {map_name}", path, whole, map_name, "pieces")
                assert counts["new"] > 0 and counts["take_piece"] > 0, (name, map_name, counts)


def test_noted_messages():
    tree, other = Tree.of(FIVE), Tree.of(TWO)
    asks = [(tree.root, 0, 0, 4, 2), (other.root, 0, 0, 2, 0)]
    requests = [messages.request(*ask) for ask in asks]
    answers = [messages.hashes(*ask, given=of.hashes(*ask[1:4], uncles))
               for ask, of, uncles in zip(asks, [tree, other], [1, 0])]
    frames = [b"\1" + requests[0], b"\0" + answers[0], b"\0" + messages.piece(1, 0, blocks_of(FIVE)[0]), b"\1" + requests[1],
              b"\1" + requests[1], b"\0" + answers[1], b"\0" + answers[0], b"\1" + requests[0], b"\0" + requests[0]]
    with shimmed(memory_tests()) as (place, shim):
        path = write(f"{place}/torrent", torrent_of([("a", TWO), ("five", FIVE)], 32768))
        record = write(f"{place}/record", FORM_2 + b"".join(frames))
        for map_name in ("flat", "paged"):
            for call, named in [("step_noted", ["note", "take_answer", "answer"]),
                               ("run_noted", ["run_noted", "message 1 of run_noted"])]:
                counts = calls_refused(shim, f"{call} over {map_name}", path, record, map_name, call)
                assert all(counts[of] > 0 for of in named), counts
                assert call != "run_noted" or has_refusal_amid(counts, "run_noted", len(frames)), counts


def answers_of(session, record, lines):
    """The frames that answer the requests of these lines of a report."""
    named = [(line.split()[1], record_model.ask_of(body))
            for line, body in zip(lines, record_model.bodies(record)[0]) if body[:1] == b"\x15"]
    return b"".join(session.answer_frame(*ask) if word == "answered" else messages.reject(*ask) for word, ask in named)


def test_replay():
    """A report and answers in which memory was refused are those of the frames before, and of the frames behind as if
    the refused hashes had not come."""
    _, files, piece_length, frames = next(records())
    record, seen = b"".join(frames), collections.Counter()

    def judge(done):
        report, answers = printed(done.stderr if b"refused: replay" in done.stderr else done.stdout)
        *lines, last = report.decode().splitlines()
        session = Session(files, piece_length, False)
        assert fits(session, record, lines) and (last, len(lines)) in {("end", len(frames))} | {
            ("fault NoMemory", count) for count in range(1, len(frames) + 1)}, done
        assert answers == answers_of(session, record, lines if last == "end" else lines[:-1]), done
        seen["H7" if b"H7" in report else last] += 1

    with shimmed(memory_tests()) as (place, shim):
        path, record_path = write(f"{place}/torrent", torrent_of(files, piece_length)), write(f"{place}/record", record)
        for map_name in ("flat", "paged"):
            seen.clear()
            counts = calls_refused(shim, f"replay over {map_name}", path, record_path, map_name, "replay", judge=judge)
            assert counts["replay"] > 0 and counts["reserve of replay"] > 0, counts
            assert seen["H7"] > 0 and seen["fault NoMemory"] > 0, seen


def test_replays_told_as_objects():
    """The same of the replays whose lines are objects. Each line is one, and the last says how the record ended."""
    seen = collections.Counter()

    def judge(done):
        report = printed(done.stderr if b"refused: replay" in done.stderr else done.stdout)[0]
        lines = [json.loads(line) for line in report.decode().splitlines()]
        seen.update(line["kind"] for line in lines)
        assert lines[-1] in ({"kind": "end"}, {"kind": "fault", "name": "NoMemory"}), done
        seen[lines[-1].get("name", "whole")] += 1

    _, files, piece_length, frames = next(records())
    with shimmed(memory_tests()) as (place, shim):
        path = write(f"{place}/torrent", torrent_of(files, piece_length))
        for call, record in [("replay_onto", frames), ("replay_pieces", frames[1:3] + frames[:1] + frames[3:])]:
            record_path = write(f"{place}/record", b"".join(record))
            for map_name in ("flat", "paged"):
                seen.clear()
                counts = calls_refused(shim, f"{call} over {map_name}", path, record_path, map_name, call, judge=judge)
                assert counts[call] > 0 and counts[f"reserve of {call}"] > 0, counts
                assert seen["whole"] > 0 and seen["NoMemory"] > 0, seen
                assert call == "replay_onto" or seen["held"] > 0 and seen["proved"] > 0, seen


def test_drafts():
    tree = {"a": file(TWO), "b": {"c": file(b""), "d": file(b"abc")}, "five": file(FIVE)}
    content = torrent(info(tree, 32768), {root_of(FIVE): layer(FIVE, 2)})

    def judge(done):
        assert printed(done.stdout) == [content], done

    with shimmed(memory_tests()) as (place, shim):
        path = write(f"{place}/torrent", content)
        for call in ("draft", "hybrid draft"):
            counts = calls_refused(shim, call, path, path, "paged", call, judge=judge if call == "draft" else None)
            assert counts["new"] > 0 and counts["add"] > 0, counts


def test_folders():
    with shimmed(memory_tests()) as (place, shim):
        path = write(f"{place}/torrent", torrent_of([("five", FIVE)], 32768))
        whole, bad = write(f"{place}/content", FIVE), write(f"{place}/bad", FIVE[:-1])
        for call, named in [("gather", {"gather"}), ("check", {"check"}), ("say_check", {"say_check"}),
                            ("say_check_with_bad_pieces", {"say_check_with_bad_pieces"}), ("objects", {"objects"}),
                            ("parts", {"check_part", "join_reports"}),
                            ("marked parts", {"say_check_part_with_bad_pieces", "join_marked_reports"}),
                            ("seed", {"new", "seed"}), ("seed_onto", {"new", "seed_onto"})]:
            for map_name in ("flat", "paged") if "seed" in call else ("paged",):
                name = f"{call} over {map_name}" if "seed" in call else call
                content = bad if call in ("say_check_with_bad_pieces", "marked parts") else whole
                counts = calls_refused(shim, name, path, content, map_name, call)
                assert all(counts[of] > 0 for of in named), (call, counts)

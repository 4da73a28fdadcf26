"""Records of form 2, in which each frame has a direction, and `btcheck replay` of both forms."""
import random

import messages
import record_model
from poison import Peers
from record_cases import FRAMES, IN, LINES, OUT, large, replay, started, worlds
from record_model import FORM_2
from session_model import Session
from shim import shimmed
from support import expect, folder, run, write
from torrents import ABC, torrent_of
from trees import BLOCK, Tree


def numbered(*texts):
    return "".join(f"{number} {text}\n" for number, text in enumerate(texts, 1))


def test_what_stands_behind_the_header():
    with folder() as place:
        for behind, status, report in [
                (b"", 0, "end\n"),
                (IN + bytes(4) + OUT + bytes(4), 0, "1 keep-alive\n2 sent\nend\n"),
                (b"\x02", 2, "fault BadDirection\n"),
                (IN, 2, "fault Truncated\n"), (OUT, 2, "fault Truncated\n"),
                (IN + bytes(4) + b"\xff" + bytes(4), 2, "1 keep-alive\nfault BadDirection\n"),
                (FORM_2, 2, "fault BadDirection\n"),
                (IN + FORM_2, 2, "fault Truncated\n"),
                (IN + messages.piece(0, 0, b"abc") + OUT + messages.piece(0, 0, b"abd"), 0, "1 verified 0 0\n2 sent\nend\n"),
                (OUT + messages.frame(b"\x15\x00"), 1, "1 bad frame 21 2\nend\n"),
                (OUT + messages.frame(b"\x07") + IN + messages.frame(b"\x07"), 1, "1 bad frame 7 1\n2 bad frame 7 1\nend\n"),
                (OUT + messages.frame(b"\x14abc") + OUT + messages.frame(b"\x00"), 0, "1 sent\n2 sent\nend\n")]:
            expect(replay(place, ABC, FORM_2 + behind), status, report)


def test_asks_and_answers():
    _, tree, torrent, ask = large()
    request, reject = messages.request(*ask), messages.reject(*ask)
    answer = messages.hashes(*ask, given=tree.hashes(0, 512, 512, 1))
    bent = messages.hashes(*ask, given=[bytes(32), *tree.hashes(0, 512, 512, 1)[1:]])
    unknown = (bytes(32), 0, 0, 2, 1)
    others = [messages.hashes(tree.root, 0, 512, 512, proof, given=tree.hashes(0, 512, 512, 1)) for proof in (1, 8, 10)]
    short = messages.hashes(tree.root, 0, 512, 256, 9, given=tree.hashes(0, 512, 256, 2))
    with folder() as place:
        for frames, lines in [
                ([OUT + request, IN + answer, IN + answer], ["sent request", "stored 1024", "refused H8 Unasked"]),
                ([OUT + request, IN + reject, IN + answer, IN + answer],
                 ["sent request", "reject noted", "stored 1024", "refused H8 Unasked"]),
                # only what is stored closes an ask
                ([OUT + request, IN + bent, OUT + reject, OUT + answer, IN + answer],
                 ["sent request", "refused H6 Mismatch", "sent", "sent", "stored 1024"]),
                # an ask is open once, however often it goes out, and may be asked again
                ([OUT + request, OUT + request, IN + answer, IN + answer, OUT + request, IN + answer],
                 ["sent request", "sent request", "stored 1024", "refused H8 Unasked", "sent request", "stored 0"]),
                # all five fields count
                ([OUT + request, *(IN + other for other in others), IN + short, IN + answer],
                 ["sent request", *["refused H8 Unasked"] * 4, "stored 1024"]),
                # nobody asked, whatever else is wrong
                ([IN + answer, IN + messages.hashes(*unknown, given=[bytes(32)])], ["refused H8 Unasked"] * 2),
                ([OUT + messages.request(*unknown), IN + messages.hashes(*unknown, given=[bytes(32)])],
                 ["sent request", "refused H1 UnknownRoot"]),
                # a request of the other side opens nothing
                ([IN + request, IN + answer], ["rejected", "refused H8 Unasked"])]:
            status = 1 if any(line.startswith("refused") for line in lines) else 0
            expect(replay(place, torrent, FORM_2 + b"".join(frames), "--info-only"), status, numbered(*lines) + "end\n")


def test_records_cut_after_each_byte():
    request = messages.request(bytes(32), 0, 0, 2, 1)
    for frames, lines, header in [
            (FRAMES, LINES, b""),
            ([IN + FRAMES[0], OUT + request, *(IN + frame for frame in FRAMES[1:]), OUT + FRAMES[1]],
             [LINES[0], "sent request", *LINES[1:], "sent"], FORM_2)]:
        record, ends = header + b"".join(frames), [len(header)]
        for frame in frames:
            ends.append(ends[-1] + len(frame))
        with folder() as place:
            for count in range(len(record) + 1):
                whole = lines[:sum(end <= count for end in ends[1:])]
                is_end = count == 0 or count in ends
                status = (1 if LINES[-1] in whole else 0) if is_end else 2
                last = "end" if is_end else "fault Truncated"
                expect(replay(place, ABC, record[:count]), status, f"{numbered(*whole)}{last}\n")


def test_records_that_begin_like_the_header():
    """They are of form 1: a frame of almost 4 GiB."""
    with folder() as place:
        for at in range(8):
            record = bytearray(FORM_2 + bytes(5))
            record[at] ^= 1
            expect(replay(place, ABC, bytes(record)), 2, "fault Truncated\n")
        expect(replay(place, ABC, bytes(4) + FORM_2), 2, "1 keep-alive\nfault Truncated\n")
        # a whole frame of ffffffff bytes would be too much, but not one that begins like it
        expect(replay(place, ABC, FORM_2[4:] + bytes(5)), 2, "fault Truncated\n")


def test_lines_appear_as_frames_come():
    """A direction that is none is reported before anything stands behind it."""
    with folder() as place:
        program = started("replay", write(f"{place}/torrent", ABC), "/dev/stdin")
        program.stdin.write(FORM_2)
        for part, line in [(IN + FRAMES[0], b"1 keep-alive\n"), (OUT + FRAMES[1], b"2 sent\n"),
                           (IN + FRAMES[1], b"3 verified 0 0\n"), (b"\x07", b"fault BadDirection\n")]:
            for at in range(len(part)):
                program.stdin.write(part[at:at + 1])
            assert program.stdout.readline() == line
        assert program.wait(60) == 2
        program.stdin.close()
        program.stdout.close()


def test_answers_are_written_for_what_came_in():
    content, tree, torrent, ask = large()
    other = (tree.root, 0, 0, 2, 0)
    frames = [OUT + messages.request(*ask), IN + messages.request(*other), OUT + messages.request(*other),
              IN + messages.request(*ask)]
    lines = ["sent request", "answered", "sent request", "answered"]
    with folder() as place:
        write(f"{place}/file", content)
        done = replay(place, torrent, FORM_2 + b"".join(frames), "--seed", place, "--answers", f"{place}/out")
        expect(done, 0, "seeded file\n" + numbered(*lines) + "end\n")
        with open(f"{place}/out", "rb") as out:
            assert out.read() == (messages.hashes(*other, given=tree.hashes(0, 0, 2, 0)) +
                                  messages.hashes(*ask, given=tree.hashes(0, 512, 512, 1)))


def talk(chance, files, piece_length):
    """Frames of peers with directions. Most hashes are asked for, some by an ask that differs in one field."""
    frames, _ = Peers(files, piece_length, False, chance.random()).messages(300)
    for frame in frames:
        if frame[4:5] == b"\x16" and len(frame) >= 53 and chance.random() < 0.8:
            fields = bytearray(frame[5:53])
            if chance.random() < 0.1:
                fields[chance.choice([31, 35, 39, 43, 47])] ^= 1
            yield OUT + messages.frame(b"\x15" + fields)
        yield chance.choice([IN] * 9 + [OUT]) + frame


def test_talks_of_peers():
    chance, kinds = random.Random(22), set()
    with folder() as place:
        for files, piece_length in worlds():
            for _ in range(3):
                record = FORM_2 + b"".join(talk(chance, files, piece_length))
                status, report = record_model.report(Session(files, piece_length, False), record)
                expect(replay(place, torrent_of(files, piece_length), record, "--info-only"), status, report)
                kinds |= {" ".join(line.split()[1:3]) for line in report.decode().splitlines()}
    for text in ("sent", "sent request", "refused H8", "refused H6", "reject noted"):
        assert text in kinds, (text, kinds)


def test_nobody_else_makes_us_keep_asks():
    """Frames that come in take no memory for asks, however many they are; our own requests do."""
    _, tree, torrent, _ = large()
    asks = [(tree.root, number, 0, 2, 0) for number in range(200000)]
    answers = b"".join(IN + messages.hashes(*ask, given=[]) + IN + messages.reject(*ask) for ask in asks)
    requests = b"".join(IN + messages.request(*ask) for ask in asks)
    ours = b"".join(OUT + messages.request(*ask) for ask in asks)
    with folder() as place:
        def kinds(frames, most):
            arguments = [write(f"{place}/torrent", torrent), write(f"{place}/record", FORM_2 + frames), "--info-only"]
            lines = run("replay", *arguments, memory=most << 10).stdout.decode().splitlines()
            return {line.split(" ", 1)[-1] for line in lines}

        least = next(most for most in range(2, 100) if kinds(b"", most) == {"end"})
        for frames, wanted in [(answers, {"refused H8 Unasked", "reject noted"}), (requests, {"rejected"}),
                               (ours, {"sent request", "refused H7 NoMemory"})]:
            assert kinds(frames, least + 4) == wanted | {"end"}, (least, wanted)


def fits(session, record, lines):
    """Each line is what the model says of its frame in the state that the frames before it left. Or it says that memory
    was refused for hashes that would be stored, or for an ask that would be opened, which leaves the state as it
    was."""
    for number, (way, body) in enumerate(record_model.read(record)[0][:len(lines)], 1):
        known, asks = {root: dict(tree["known"]) for root, tree in session.trees.items()}, set(session.open)
        if way == record_model.WENT_OUT:
            text = record_model.sent_line(session, body)
        else:
            text = record_model.lines(session, body, session.take_answer)[0]
        if lines[number - 1] == f"{number} refused H7 NoMemory":
            if not text.startswith("stored ") and session.open == asks:
                return False
            session.open = asks
            for root, places in known.items():
                session.trees[root]["known"] = places
        elif lines[number - 1] != f"{number} {text}":
            return False
    return True


def test_refused_growths():
    """Each growth of a replay is refused in turn. An ask that could not be noted is not open."""
    content = random.Random(24).randbytes(12 * BLOCK)
    tree, files = Tree.of(content), [("file", content)]
    asks = [(tree.root, 0, at, 2, 3) for at in range(0, 12, 2)] + [(tree.root, 1, 0, 8, 0)]
    requests = [OUT + messages.request(*ask) for ask in asks]
    answers = [IN + messages.hashes(*ask, given=tree.hashes(*ask[1:4], 3 if ask[3] == 2 else 0)) for ask in asks]
    record = FORM_2 + b"".join([*requests, *answers, answers[0], requests[0], requests[0], answers[0]])
    refused = set()
    with shimmed() as (place, shim):
        arguments = ["replay", write(f"{place}/torrent", torrent_of(files, 16 * BLOCK)), write(f"{place}/record", record)]
        for number, done in enumerate(shim.each("growth", *arguments, "--info-only")):
            if done.stderr:
                expect(done, 2, b"", "fault: no memory\n")
                continue
            *lines, last = done.stdout.decode().splitlines()
            assert fits(Session(files, 16 * BLOCK, False), record, lines), (number, lines)
            assert last == ("fault NoMemory" if not lines else "end") and (number or "H7" not in done.stdout.decode()), lines
            refused |= {at for at, line in enumerate(lines) if "H7" in line}
    assert refused & set(range(7)) and refused & set(range(7, 14)), refused

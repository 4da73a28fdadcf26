"""Whole frames through the C library: each kind of message and each refusal, in Python; what is written of the struct; and
recorded talks of peers, of which a program in C prints what `btcheck replay --pieces` does."""
import ctypes
import os
import random
import re
import subprocess

import messages
from record_model import CAME_IN, FORM_2, WENT_OUT
from support import INCLUDES, TOP, folder, need, run, write
from test_library_c import BLOCKS, CONTENT, LEAVES, LIB, ROOT, SMALL, TORRENT, TREE, WARNINGS, compiled, made, module, outcome
from test_library_holdings import Talk
from torrents import torrent_of
from trees import BLOCK

ASK = (ROOT, 0, 0, 8, 0)
LEAVES_OF_A = messages.hashes(*ASK, given=LEAVES)
BITTEN = messages.hashes(*ASK, given=LEAVES[1:2] + LEAVES[1:])


def test_each_kind():
    """As `frame` takes the body; but with the five fields, and with four bytes of length that have to be right."""
    kinds = module()
    ask = kinds.Ask(*ASK)
    with kinds.Session(TORRENT, layers=False) as session:
        for frame, wanted in [
                (messages.KEEP_ALIVE, (0, (kinds.KeepAlive(), None))),
                (messages.frame(bytes([4, 0, 0])), (0, (kinds.Skipped(4), None))),
                (b"", (9, None)), (b"\0\0\0", (9, None)), (LEAVES_OF_A[:-1], (9, None)), (b"\xff\xff\xff\xff\7", (9, None)),
                (LEAVES_OF_A + b"\0", (3, None)), (messages.KEEP_ALIVE * 2, (3, None)), (LEAVES_OF_A[4:], (9, None)),
                (messages.frame(b"\7"), (8, None)), (messages.frame(LEAVES_OF_A[4:-1]), (8, None)),
                (messages.request(*ASK), (0, (kinds.Rejected(), ask))), (messages.reject(*ASK), (0, (kinds.RejectNoted(), ask))),
                (BITTEN, (206, None)), (LEAVES_OF_A, (0, (kinds.Stored(14), ask))), (LEAVES_OF_A, (0, (kinds.Stored(0), ask))),
                (messages.request(*ASK), (0, (kinds.Answered(), ask))), (messages.piece(77, 0, BLOCKS[0]), (301, None)),
                (messages.piece(0, 0, b"x"), (302, None)), (messages.piece(0, 0, CONTENT), (0, (kinds.Blocks(0, 0, [None] * 6), None)))]:
            assert outcome(session.take_frame, frame) == wanted, (frame[:60], outcome(session.take_frame, frame), wanted)
        for wrong in (1, None, "yes"):
            assert raised(session.take_frame, LEAVES_OF_A, wrong) is TypeError
        assert raised(session.take_frame, "frame") is TypeError and raised(session.hold_frame, session, LEAVES_OF_A) is TypeError


def raised(call, *given):
    try:
        call(*given)
    except Exception as error:
        return type(error)
    return None


def test_hashes_that_must_be_asked_for():
    """208 before any other refusal; a noted request takes its answer once."""
    with module().Session(TORRENT, layers=False) as session:
        assert outcome(session.take_frame, BITTEN, True)[0] == outcome(session.take_frame, LEAVES_OF_A, True)[0] == 208
        session.note(ASK)
        assert outcome(session.take_frame, BITTEN, True)[0] == 206
        assert session.take_frame(LEAVES_OF_A, True).verdict.places == 14
        assert outcome(session.take_frame, LEAVES_OF_A, True)[0] == 208
        assert session.take_frame(messages.request(*ASK), True).verdict == module().Answered()


def test_what_is_held():
    """A block whose leaf is not known is held, and settled when its piece is whole, or when hashes come: without a call of
    `look_at`. A frame that is refused, or brings neither, leaves what is held."""
    kinds = module()
    with kinds.Session(TORRENT) as session, kinds.Holdings(session, 0) as holdings:
        def held(number, turned=False):
            block = bytes([BLOCKS[number][0] ^ turned]) + BLOCKS[number][1:]
            [status] = session.hold_frame(holdings, messages.piece(number // 2, number % 2 * BLOCK, block)).verdict.statuses
            return status and status.status
        assert held(1) == 11 and session.settle(holdings) is None
        for frame in (messages.KEEP_ALIVE, messages.request(*ASK), messages.frame(b"\4")):
            session.hold_frame(holdings, frame)
            assert session.settle(holdings) is None and holdings.held() == 1
        for frame in (messages.piece(77, 0, b"x"), BITTEN, LEAVES_OF_A[:9]):
            assert outcome(session.hold_frame, holdings, frame)[0] in (301, 206, 9) and holdings.held() == 1
        assert held(0) == 11 and session.settle(holdings) == kinds.Settled(True, kinds.Run(0, 0, 1)) and session.settle(holdings) is None
        # A bound of one piece: the next piece drives it out. Then a false block, of which hashes tell.
        assert held(2) == 11
        dropped = session.hold_frame(holdings, messages.piece(2, 0, BLOCKS[4])).verdict.dropped
        assert dropped == [kinds.Run(0, 2, 3)]
        assert held(4, turned=True) == 11 and session.settle(holdings) is None
        assert session.hold_frame(holdings, LEAVES_OF_A).verdict == kinds.Stored(6)
        assert session.settle(holdings) == kinds.Settled(False, kinds.Run(0, 4, 4)) and session.settle(holdings) is None
        assert held(4) is None and session.counts(0)[1] == 3
        holdings.close()
        assert outcome(session.hold_frame, holdings, messages.KEEP_ALIVE)[0] == 1


def test_only_what_is_named_is_written():
    """Of the struct: the kind and what belongs to it, the five fields, the pieces that gave way; nothing of it at a refusal."""
    library = module()._library
    kind, number, places, ask, all_of_it = slice(0, 4), slice(4, 8), slice(8, 16), slice(112, 160), slice(0, ctypes.sizeof(library.TakenInfo))
    blocks, dropped = slice(16, 112), slice(160, all_of_it.stop)
    with module().Session(TORRENT) as session, module().Holdings(session, 9) as holdings:
        for frame, named in ((messages.KEEP_ALIVE, [kind]), (messages.frame(b"\4\0"), [kind, number]), (LEAVES_OF_A[:-1], []), (BITTEN, []),
                             (messages.request(*ASK), [kind, ask]), (messages.reject(*ASK), [kind, ask]),
                             (messages.piece(0, 0, BLOCKS[0]), [kind, blocks]), (LEAVES_OF_A, [kind, places, ask])):
            for call, *more in ((library.session_take_frame,), (library.session_hold_frame, holdings._handle)):
                taken = library.TakenInfo.from_buffer_copy(b"?" * all_of_it.stop)
                outcome(call, session._handle, *more, frame, len(frame), False, taken)
                seen, wanted = bytearray(taken), bytearray(b"?" * all_of_it.stop)
                for part in named + ([dropped] if more and blocks in named else []):
                    assert seen[part] != wanted[part], (frame[:8], part)
                    wanted[part] = seen[part]
                assert seen == wanted, (frame[:8], bytes(seen))


def recorded(talk, directed):
    """A record of a talk with requests, rejects and frames of a wrong size among the messages; and in form 2 what went out
    beside them: some of the requests whose answers come."""
    chance, record = talk.chance, []
    for _ in range(chance.choice([10, 40, 90])):
        draw, way = chance.random(), CAME_IN if chance.random() < 0.95 else WENT_OUT
        if draw < 0.15:
            frame = talk.hashes()
            if chance.random() < 0.6 and len(frame) > 4:
                record.append((WENT_OUT, messages.frame(b"\x15" + frame[5:53])))
        elif draw < 0.25:
            ask = talk.hashes()[5:53] or bytes(48)
            frame = messages.frame(bytes([chance.choice([21, 23])]) + ask)
        elif draw < 0.3:
            frame, way = messages.frame(chance.choice([b"\4", b"\7\0", b"\x16" + bytes(50), b"\x15", b"\5\1\2"])), CAME_IN
        else:
            frame = talk.piece()
        record.append((way, frame))
    if directed:
        return FORM_2 + b"".join(bytes([way]) + frame for way, frame in record)
    return b"".join(frame for way, frame in record if way == CAME_IN)


def test_recorded_talks():
    """The program in C, which passes each frame on as it came, prints what `replay --pieces` prints, in both forms of record."""
    words = {}
    with folder() as place:
        program = compiled(place, "frames")
        for seed in range(int(os.environ.get("RECORDS", "60"))):
            talk = Talk(1000 + seed)
            path = write(f"{place}/t.torrent", torrent_of(talk.files, talk.piece_length))
            record = write(f"{place}/record", recorded(talk, seed % 2 == 1))
            for flags in ([], ["--info-only"]):
                ours = run(*flags, str(1 << 20), path, record, program=program)
                theirs = run("replay", "--pieces", path, record, *flags)
                assert (ours.returncode, ours.stdout) == (theirs.returncode, theirs.stdout), (seed, flags, ours, theirs)
                for line in ours.stdout.decode().splitlines():
                    word = " ".join(re.findall(r"[A-Za-z]\S*", line))
                    words[word] = words.get(word, 0) + 1
    wanted = {"held", "proved", "false", "verified", "stored", "answered", "rejected", "reject noted", "sent request", "bad frame",
              "keep-alive", "skipped", "end", "refused H Unasked", "refused H Mismatch"}
    assert wanted <= {re.sub(r"([HP])\d", r"\1", word) for word in words}, words
    print("lines of frames: " + ", ".join(f"{word} {count}" for word, count in sorted(words.items())))


MAIN = """
int main(void) {
  static uint8_t torrent[4096], content[40000], frame[13 + BTCHECK_BLOCK] = {0, 0, 0x40, 9, 7};
  FILE *in = fopen("pair.torrent", "rb"), *file = fopen("pair/a", "rb");
  size_t len = fread(torrent, 1, sizeof torrent, in), size = fread(content, 1, sizeof content, file);
  btcheck_session session = BTCHECK_INIT;
  btcheck_holdings holdings = BTCHECK_INIT;
  if (btcheck_session_open(&session, torrent, len, true) || btcheck_holdings_new(&holdings, &session, 0)) return 1;
  memcpy(frame + 13, content, BTCHECK_BLOCK);
  take_frame(&session, &holdings, frame, sizeof frame);
  take_frame(&session, &holdings, frame, 99);
  frame[2] = 0, frame[3] = (uint8_t)(9 + size - BTCHECK_BLOCK), frame[11] = 0x40;
  memcpy(frame + 13, content + BTCHECK_BLOCK, size - BTCHECK_BLOCK);
  take_frame(&session, &holdings, frame, 13 + size - BTCHECK_BLOCK);
  btcheck_cursor cursor = {0, 0};
  static uint8_t message[BTCHECK_MOST_EXPORTED];
  uint64_t length;
  if (btcheck_session_export(&session, &cursor, message, sizeof message, &length)) return 1;
  message[2] = 0, message[3] = 49, message[4] = 21;
  take_frame(&session, &holdings, message, 53);
  message[4] = 23;
  take_frame(&session, &holdings, message, 53);
  btcheck_holdings_free(&holdings);
  btcheck_session_free(&session);
  return fclose(in) || fclose(file);
}
"""

SAID = """The block is held until its hash is known.
Bytes of the file, of its pieces or of the frame are still to come.
The block is held until its hash is known.
blocks 0 to 1 are proved
2 hashes are asked for, and are there: btcheck_session_answer writes them
our request for 2 hashes is rejected
"""


def test_the_code_of_the_page():
    """The example of LIBRARY, on the blocks of a piece, a request and a reject."""
    need("gcc")
    made()
    with open(f"{TOP}/docs/LIBRARY.md", encoding="utf-8") as page:
        [code] = [code for code in re.findall(r"^```c\n(.*?)^```$", page.read(), re.M | re.S) if "hold_frame" in code]
    with folder() as place:
        head = "#include <btcheck.h>\n#include <stdio.h>\n#include <string.h>\n"
        source = write(f"{place}/frames.c", (head + code + MAIN).encode())
        subprocess.run(["gcc", "-std=c99", *WARNINGS, *INCLUDES, source, f"{LIB}/libbtcheck.a", "-o", f"{place}/frames"], check=True)
        done = run(program=f"{place}/frames", cwd=f"{TOP}/examples")
        assert (done.returncode, done.stdout.decode()) == (0, SAID), done

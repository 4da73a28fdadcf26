"""The Python module over the C library: what it takes and refuses, what it says, and what it exports."""
import os
import pickle
import subprocess
import sys
from random import Random

from support import TOP
from test_library_c import BLOCKS, CONTENT, LEAVES, ROOT, SMALL, TORRENT, module
from torrents import file, info, torrent, torrent_of
from trees import BLOCK, layer, root_of


def raised(call, *given):
    """The kind of exception that a call raises, or None."""
    try:
        call(*given)
    except Exception as error:
        return type(error)
    return None


def test_wrong_types_are_refused():
    """What is no bytes, no whole number, no ask or no session is a TypeError; numbers out of range and odd hashes are none
    of the library's refusals either. Nothing is taken."""
    kinds = module()
    ask = kinds.Ask(ROOT, 0, 0, 8, 0)
    assert raised(kinds.Session, "abc") is TypeError and raised(kinds.Session, 5) is TypeError
    assert raised(kinds.Session, TORRENT, 1) is TypeError
    with kinds.Session(TORRENT, layers=False) as session, kinds.Root() as root, kinds.Check(session, 1) as check:
        wrong = [(session.take_block, 0, 0, 5), (session.take_block, 0, 0, "a"), (session.take_block, 0.0, 0, b""),
                 (session.take_block, "0", 0, b""), (session.take_block, None, 0, b""), (session.take_blocks, 0, 0, [1, 2]),
                 (session.take_piece, 0, None), (session.frame, "7"), (session.take_hashes, ask, ROOT),
                 (session.take_hashes, ask, [1]), (session.take_hashes, 5, []), (session.note, None), (session.want, 0, 1.5),
                 (session.file, "a"), (session.piece, "a"), (session.map_file, 0, None, 1), (kinds.request_frame, 5), (kinds.reject_frame, None), (session.answer_frame, None), (root.push, 5), (root.push, "abc"), (check.push, [0]), (kinds.Check, TORRENT, 0),
                 (kinds.Check, session, 0, (0, 1)), (kinds.Check, session, 0, range(0, 3, 2)), (kinds.Pieces, None, 0, 0, 1)]
        for call, *given in wrong:
            assert raised(call, *given) is TypeError, (call, given, raised(call, *given))
        odd = [(session.take_hashes, ask, [b"short"], ValueError),
               (session.take_hashes, (ROOT, 0, 0, 8), [], ValueError), (session.note, (b"", 0, 0, 8, 0), ValueError)]
        for call, *given, kind in odd:
            assert raised(call, *given) is kind, (call, given, raised(call, *given))
        for name, call, *given in (("index", session.take_block, -1, 0, b""), ("index", session.take_block, 1 << 32, 0, b""),
                                   ("begin", session.hold, kinds.Holdings(session, 1), 0, 1 << 32, b""), ("file", session.file, 1 << 64),
                                   ("block", session.want, 0, -1), ("index", session.piece, 1 << 32), ("offset", session.map_file, 0, -1, 1), ("length", kinds.request_frame, (ROOT, 0, 0, -1, 0)),
                                   ("layer", session.fill, 0, -1, []), ("piece_length", kinds.Draft, "x", -1),
                                   ("length", session.note, (ROOT, 0, 0, 1 << 32, 0)), ("pieces.stop", kinds.Check, session, 0, range(0, 1 << 64))):
            try:
                call(*given)
            except ValueError as error:
                assert str(error).startswith(name + " is from 0 to 2**") and isinstance(error, OverflowError), error
            else:
                raise AssertionError((name, given))
        assert session.counts(0) == (1, 0)
        assert raised(root.finish) is kinds.NoRoot and raised(check.finish) is kinds.TooShort


def test_a_root_of_bytes():
    """One form in all languages: length and root. And a reject, which is none of the refusals that a client has to catch."""
    kinds = module()
    assert kinds.Root.of(SMALL) == (len(SMALL), root_of(SMALL)) and raised(kinds.Root.of, b"") is kinds.NoRoot
    with kinds.Session(TORRENT, layers=False) as session:
        ask = kinds.Ask(ROOT, 0, 0, 8, 0)
        assert session.answer_or_none(ask) is None and raised(session.answer, ask) is kinds.Nothing
        session.take_hashes(ask, LEAVES)
        assert session.answer_or_none(ask) == session.answer(ask) == LEAVES
        blocks = session.take_blocks(0, 0, BLOCKS[0] + BLOCKS[0])
        assert blocks.statuses is blocks.outcomes and [it and type(it) for it in blocks.statuses] == [None, kinds.P4BadBlock]
        assert session.info_hash_v1() == (session.info_hashes()[1] if session.is_hybrid() else None)


def test_the_library_is_missing():
    """What is said then names the file, the variable and what to install."""
    env = {**os.environ, "PYTHONPATH": f"{TOP}/bindings/python", "LIBBTCHECK": "/nowhere/libbtcheck.so.1"}
    done = subprocess.run([sys.executable, "-c", "import btcheck"], capture_output=True, text=True, env=env)
    assert done.returncode == 1, done
    assert all(word in done.stderr for word in ("OSError", "/nowhere/libbtcheck.so.1", "LIBBTCHECK", "libbtcheck1")), done.stderr


def test_bytes_of_each_kind_are_taken():
    """Bytes, a bytearray, and a view of either, also one with steps."""
    kinds = module()
    doubled = bytes(byte for each in BLOCKS[0] for byte in (each, 0))
    with kinds.Session(bytearray(TORRENT), layers=False) as session:
        session.take_hashes(kinds.Ask(bytearray(ROOT), 0, 0, 8, 0), [memoryview(leaf) for leaf in LEAVES])
        for given in (BLOCKS[0], bytearray(BLOCKS[0]), memoryview(BLOCKS[0]), memoryview(doubled)[::2]):
            assert session.take_block(0, 0, given) == (0, 0)
    with kinds.Root() as root:
        root.push(memoryview(SMALL))
        assert root.finish() == (len(SMALL), root_of(SMALL))


def test_an_ask_is_no_tuple():
    """Its `index` is the number; a tuple of the five fields is taken as well."""
    kinds = module()
    ask = kinds.Ask(ROOT, 0, 4, 2, 1)
    assert (ask.index, tuple(ask)) == (4, (ROOT, 0, 4, 2, 1)) and not isinstance(ask, tuple)
    assert ask == kinds.Ask(*ask) and hash(ask) == hash(kinds.Ask(*ask))
    with kinds.Session(TORRENT) as session:
        session.note(ask)
        session.note(tuple(ask))


def test_a_row_with_bits_of_the_callers():
    """As `Pieces`, with a bytearray for the bits."""
    kinds = module()
    with kinds.Session(TORRENT) as session, kinds.Check(session, 0, range(1, 3)) as check:
        good = bytearray(1)
        check.push_bits(CONTENT[2 * BLOCK:], good)
        assert (check.finish_bits(good), good) == (None, b"\xc0")
        good = bytearray(1)
        check.push_bits(CONTENT[2 * BLOCK:5 * BLOCK], good)
        assert raised(check.finish_bits, good) is kinds.TooShort and good == b"\x80"
        check.push(CONTENT[2 * BLOCK:-1] + b"?")
        assert check.finish() == 2
        assert raised(check.push_bits, b"", b"\0") is TypeError


def test_what_the_torrent_says():
    kinds = module()
    dictionary = info({"d": {"a": file(CONTENT)}, "e": file(b"")}, 2 * BLOCK)
    with kinds.Session(torrent(dictionary, {ROOT: layer(CONTENT, 2)})) as session:
        assert (session.piece_length(), session.pieces(), session.name(), session.is_hybrid()) == (2 * BLOCK, 3, "x", False)
    long = torrent(info({"a": file(SMALL)}) | {"name": "é" * 500})
    with kinds.Session(long) as session:
        assert (session.name(), session.pieces(), session.piece_length()) == ("é" * 500, 1, BLOCK)


def test_blocks_that_are_held():
    """Blocks of a piece come before it can be proved: all true, one false, and after hashes of the tree came."""
    kinds = module()
    with kinds.Session(TORRENT) as session, kinds.Holdings(session, 100) as holdings:
        assert raised(kinds.Holdings, None, 5) is TypeError and raised(session.hold, session, 0, 0, b"") is TypeError
        assert raised(session.hold, holdings, 9, 0, BLOCKS[0]) is kinds.P1BadPlace

        def held(block, content):
            found = session.hold(holdings, block // 2, block % 2 * BLOCK, content)
            assert (found.file, found.first, len(found.outcomes), found.dropped) == (0, block, 1, [None]), found
            return found.outcomes[0] and type(found.outcomes[0])
        assert held(1, BLOCKS[1]) is kinds.Held and session.settle(holdings) is None and holdings.held() == 1
        assert held(0, BLOCKS[2]) is kinds.Held and session.settle(holdings) == kinds.Settled(False, (0, 0, 1))
        assert held(0, BLOCKS[0]) is kinds.Held and held(1, BLOCKS[1]) is kinds.Held
        assert session.settle(holdings) == kinds.Settled(True, (0, 0, 1)) and session.settle(holdings) is None
        assert [session.is_marked(0, block) for block in range(3)] == [True, True, False] and holdings.held() == 0
        assert held(0, BLOCKS[0]) is None
        assert held(2, BLOCKS[2]) is kinds.Held
        session.take_hashes((ROOT, 0, 0, 8, 0), LEAVES)
        holdings.look_at(0)
        assert session.settle(holdings) == kinds.Settled(True, (0, 2, 2)) and session.settle(holdings) is None
        assert session.is_marked(0, 2) and raised(holdings.look_at, 9) in (kinds.NoSuch, None)


def test_exceptions():
    """Each has a number and a sentence, and is one of a family; one can be sent to another process."""
    kinds = module()
    refusals = [it for it in vars(kinds).values() if isinstance(it, type) and issubclass(it, kinds.Refused) and it.status]
    assert len(refusals) == len({it.status for it in refusals}) >= 43
    for kind in refusals:
        family = {1: kinds.TorrentRefused, 2: kinds.HashesRefused, 3: kinds.BlockRefused}.get(kind.status // 100, kinds.Refused)
        assert issubclass(kind, family) and kind.__module__ == "btcheck", kind
        assert str(kind()).endswith(".") and str(kind()) == kind.__doc__, kind
        assert type(pickle.loads(pickle.dumps(kind()))) is kind
    for kind in (kinds.NoMemory, kinds.TorrentNoMemory, kinds.H7NoMemory):
        assert issubclass(kind, MemoryError)
    assert issubclass(kinds.NoSuch, LookupError)


def test_a_refused_torrent_says_what_it_has():
    """The fault of bencoding and its offset, or the key: as fields, and in the sentence. So it does in another process."""
    kinds = module()
    for content, kind, fields, sentence in (
            (b"d1:a1:be!", kinds.TorrentNotBencode, {"fault": "Trailing", "offset": 8}, "canonical bencoding: Trailing at byte 8."),
            (b"", kinds.TorrentNotBencode, {"fault": "Truncated", "offset": 0}, "canonical bencoding: Truncated at byte 0."),
            (b"d4:infodee", kinds.TorrentMissing, {"key": "meta version"}, "missing: meta version."),
            (b"de", kinds.TorrentMissing, {"key": "info"}, "missing: info."),
            (b"i1e", kinds.TorrentWrongType, {"key": "top"}, "of another kind: top."),
            (b"d4:infod12:meta versioni1eee", kinds.TorrentVersion, {}, "The meta version is not 2.")):
        try:
            kinds.Session(content)
        except kinds.TorrentRefused as refused:
            for one in (refused, pickle.loads(pickle.dumps(refused))):
                assert type(one) is kind and vars(one) == fields and str(one).endswith(sentence), (content, vars(one), str(one))
        else:
            raise AssertionError(content)


def test_what_is_known_goes_to_another_session():
    """An export is taken by a session that knows the roots alone; one with a changed byte, or of another torrent, is not."""
    kinds = module()
    with kinds.Session(TORRENT) as session, kinds.Session(TORRENT, layers=False) as other, kinds.Session(TORRENT) as third:
        assert list(session.export()) == []
        session.take_hashes((ROOT, 0, 0, 8, 0), LEAVES)
        messages = list(session.export())
        assert [len(message) for message in messages] == [4 + 49 + 8 * 32], messages
        for at in (*range(45), *range(49, 49 + 8 * 32)):  # all but how many proof layers were asked for
            changed = bytearray(messages[0][4:])
            changed[at] ^= 1
            verdict = raised(other.frame, bytes(changed))
            assert issubclass(verdict, kinds.BadSize if at == 0 else kinds.HashesRefused) and other.counts(0) == (1, 0), (at, verdict)
        assert other.frame(messages[0][4:]) == kinds.Stored(14) and other.counts(0) == session.counts(0)
        blocks = [block for block in LEAVES if block != bytes(32)]
        assert raised(third.fill, 0, 0, blocks[:-1]) is kinds.H3BadCount and raised(third.fill, 9, 0, blocks) is kinds.NoSuch
        assert raised(third.fill, 0, 9, blocks) is kinds.H2BadRange and raised(third.fill, 0, 0, blocks[::-1]) is kinds.H6Mismatch
        assert third.fill(0, 0, blocks) > 0 and third.counts(0) == session.counts(0)
        assert not third.is_marked(0, 0) and list(third.export()) == messages


def test_each_known_leaf_is_exported():
    """Sessions that know some pieces of three files, by chance: one that knows the roots alone learns each of their leaves, and
    no others, also where a range is cut by what is not known or the export begins in its middle."""
    kinds, random = module(), Random(29)
    contents = [random.randbytes(size) for size in (700 * BLOCK + 5, BLOCK, 37 * BLOCK)]
    described = torrent_of([(name, content) for name, content in zip("abc", contents)], 4 * BLOCK)
    places = [(tree, block) for tree, content in enumerate(contents) for block in range(-(-len(content) // BLOCK))]
    for share in (0, 0.02, 0.5, 0.97, 1):
        with kinds.Session(described) as session, kinds.Session(described, layers=False) as other:
            for file in session.files():
                content = contents["abc".index(file.path)]
                for piece in range(-(-len(content) // (4 * BLOCK))):
                    if random.random() < share:
                        session.take_piece(file.first_piece + piece, content[4 * BLOCK * piece:4 * BLOCK * (piece + 1)])
            messages = list(session.export())
            for message in random.sample(messages, len(messages)):
                assert isinstance(other.frame(message[4:]), kinds.Stored), (share, len(message))
            known = [place for place in places if session.want(*place) is None]
            assert known == [place for place in places if other.want(*place) is None], share
            assert (len(known) == len(places)) == (share == 1) and max(map(len, messages), default=0) <= 4 + 49 + 32 * 544
        print(f"exports of {len(known)} of {len(places)} leaves: {len(messages)} messages")


def test_what_is_exported():
    """`__all__` has what the module says, each with words, and its version is the package's and the library's."""
    kinds = module()
    assert len(set(kinds.__all__)) == len(kinds.__all__)
    public = {name for name, it in vars(kinds).items() if name[0] != "_" and getattr(it, "__module__", "btcheck").startswith("btcheck")}
    assert set(kinds.__all__) == public - {"annotations"} | {"Verdict"}, set(kinds.__all__) ^ public
    assert all(getattr(kinds, name).__doc__ for name in kinds.__all__ if name != "Verdict")
    with open(f"{TOP}/bindings/python/pyproject.toml", encoding="utf-8") as file:
        assert f'version = "{kinds.__version__}"' in file.read()
    assert kinds.__version__.removesuffix(".dev0") == kinds.version()

"""Both maps of known nodes. The program of crates/memory_tests takes messages over flat rows or over pages, and prints after
each what it came to and how much is known and marked, and how many pages are held."""
import re
import subprocess

import messages
from poison import Peers
from support import folder, memory_tests, write
from test_library_growths import records
from test_pages import LONGEST, pair
from torrents import LARGE, torrent_of
from trees import Tree

PAGES = re.compile(rb", pages: (\d+) }")


def taken(place, content, frames, over, call="step"):
    """What the messages of a record come to over a map."""
    path, record = write(f"{place}/torrent", content), write(f"{place}/record", b"".join(frames))
    done = subprocess.run([memory_tests(), path, record, over, call], stdout=subprocess.PIPE, timeout=600, check=True)
    return done.stdout


def without_pages(report):
    return PAGES.sub(b"", report)


def pages(report):
    return [int(count) for count in PAGES.findall(report)]


def test_worked_cases_over_both_maps():
    for name, files, piece_length, frames in records():
        with folder() as place:
            content = torrent_of(files, piece_length)
            for call in ("step", "run", "fill"):
                flat, paged = (taken(place, content, frames, over, call) for over in ("flat", "paged"))
                assert without_pages(flat) == without_pages(paged), (name, call, flat, paged)


def test_random_messages_over_both_maps():
    texts = [bytes(at % 251 for at in range(size)) for size in (1, 16384, 65636, 700001)]
    for seed, (piece_length, with_layers) in enumerate([(16384, False), (32768, True), (65536, False), (16384, True)]):
        files = [(f"file {number}", text) for number, text in enumerate(texts)]
        frames, _ = Peers(files, piece_length, with_layers, seed).messages(400)
        with folder() as place:
            content = torrent_of(files, piece_length)
            call = "run" if with_layers else "step"
            flat, paged = (taken(place, content, frames, over, call) for over in ("flat", "paged"))
        assert without_pages(flat) == without_pages(paged), (seed, flat, paged)
        assert not any(pages(flat)) and all(pages(paged)), seed
        for line in re.findall(rb"known: (\d+), marked: \d+, pages: (\d+)", paged):
            assert int(line[1]) <= int(line[0]), line
        print(f"{len(frames)} messages: {flat.count(b'Stored')} stored, at most {max(pages(paged))} pages")


def test_counts_of_pages():
    large = Tree.of(LARGE)
    with folder() as place:
        content = torrent_of([("large", LARGE)], 1 << 24)
        halves = [messages.hashes(large.root, 0, at, 512, 9, given=large.hashes(0, at, 512, 1)) for at in (0, 512)]
        report = taken(place, content, [b"\0\0\0\0", *halves], "paged")
        assert pages(report) == [1, 11, 12], report
        # refused messages leave them as they were
        spoiled = halves[0][:-1] + bytes([halves[0][-1] ^ 1])
        report = taken(place, content, [spoiled, halves[0], spoiled, halves[1], halves[1]], "paged")
        assert pages(report) == [1, 11, 11, 12, 12], report


def test_the_last_leaves_of_the_longest_file():
    with folder() as place:
        report = taken(place, LONGEST, [pair(2 ** 32 - 2)], "paged")
        assert b"Stored(64)" in report and b"known: 65, marked: 0, pages: 33 " in report, report

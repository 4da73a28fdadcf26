"""Checks in parts, by the program itself and its join; and by the program of crates/device_tests, which makes the
libraries' calls: it checks a folder in one to nine parts, prints what each part found, reads these reports again and
joins them. The report must be that of `btcheck check`, byte for byte, whatever the number of parts. The program also
takes a byte from a report, leaves one out, and gives one twice: it prints a line if that is not refused for what it
is."""
import os
import random
import re
import subprocess

from support import BTCHECK, device_tests, expect, folder, need, run, write

ROUNDS = 300


def content(draw):
    """A file of none to some pieces, with an end that is odd or even."""
    length = draw.choice([0, 1, 3, 16383, 16384, 16385, 32768, 40000, 65636, 98304, draw.randrange(1, 200_000)])
    return draw.randbytes(length)


def damaged(draw, content):
    """What may stand in the place of a file: itself, nothing, a part of it, more than it, or other bytes."""
    kind = draw.randrange(8)
    if kind == 0:
        return None
    if kind == 1:
        return content[:draw.randrange(len(content) + 1)]
    if kind == 2:
        return content + draw.randbytes(draw.choice([1, 16384]))
    if kind < 6 and content:
        changed = bytearray(content)
        for _ in range(draw.randrange(1, 4)):
            changed[draw.randrange(len(changed))] ^= 1 << draw.randrange(8)
        return bytes(changed)
    return content


def test_the_join_of_parts_is_the_report_of_check():
    draw = random.Random(52)
    seen = set()
    for at in range(ROUNDS):
        with folder() as place:
            contents = {name: content(draw) for name in "ac"}
            os.mkdir(f"{place}/whole")
            os.mkdir(f"{place}/found")
            for name, bytes_of in contents.items():
                write(f"{place}/whole/{name}", bytes_of)
            kind = ["--hybrid"] if draw.randrange(2) else []
            made = run("create", f"{place}/whole", f"{place}/torrent", "--name", "x", "--piece-length",
                           str(draw.choice([16384, 32768, 65536])), *kind)
            if made.returncode:
                assert made.stdout.startswith(b"refused 12 "), (at, made)
                continue
            for name, bytes_of in contents.items():
                found = damaged(draw, bytes_of)
                if found is not None:
                    write(f"{place}/found/{name}", found)
            whole = run("check", f"{place}/torrent", f"{place}/found")
            parts = run("parts", f"{place}/torrent", f"{place}/found/a", f"{place}/found/c", "0", program=device_tests())
            assert parts.returncode == 0 and not parts.stderr, (at, parts)
            assert parts.stdout == whole.stdout, (at, whole.stdout, parts.stdout)
            seen.update(line.split()[0] for line in whole.stdout.decode().splitlines())
    assert seen >= {"good", "bad", "missing", "wrong", "v1", "yes", "no"}, seen


# How many folders the program checks in parts, and which of them have which count.
FOLDERS = 1200
COUNTS = [1, 2, 3, 4, 5, 7, 9]


class Case:
    """A torrent of a few files, with a folder that may differ from it, below a place of its own."""

    def __init__(self, place, draw):
        self.torrent, self.found, self.reports = f"{place}/torrent", f"{place}/found", f"{place}/reports"
        self.made = self.make(place, draw)

    def make(self, place, draw):
        """Makes both, and says whether there is a torrent."""
        for name in ("whole", "found", "reports"):
            os.mkdir(f"{place}/{name}")
        contents = {name: content(draw) for name in ("a", "b", "c", "d")[:draw.randrange(1, 5)]}
        for name, whole in contents.items():
            write(f"{place}/whole/{name}", whole)
            self.damage(draw, name, whole)
        kind = ["--hybrid"] if draw.randrange(2) else []
        made = run("create", f"{place}/whole", self.torrent, "--name", "x", "--piece-length",
                   str(draw.choice([16384, 32768, 65536])), *kind)
        assert made.returncode == 0 or made.stdout.startswith(b"refused 12 "), made
        return made.returncode == 0

    def damage(self, draw, name, whole):
        if draw.randrange(12) == 0:
            os.mkdir(f"{self.found}/{name}")
            return
        found = damaged(draw, whole)
        if found is not None:
            write(f"{self.found}/{name}", found)

    def part(self, number, count, *more):
        """Runs a part, keeps its report, and gives the report's path."""
        path = f"{self.reports}/{number}"
        done = run("check", self.torrent, self.found, "--part", f"{number}/{count}", *more)
        last = {0: b"part yes\n", 1: b"part no\n"}[done.returncode]
        assert not done.stderr and done.stdout.startswith(f"part {number}/{count} ".encode()), done
        assert done.stdout.endswith(b"\n" + last), done
        return write(path, done.stdout)

    def parts(self, count, *more):
        return [self.part(number, count, *more) for number in range(1, count + 1)]


def outcome(done):
    return done.returncode, done.stdout, done.stderr


def test_the_join_of_what_the_program_prints():
    """Byte for byte what `check` prints, and its status: of files that are missing, cut, longer, empty or changed, or a
    folder in their place, of version 2 and hybrids, in any number of parts and any order."""
    draw = random.Random(53)
    seen = set()
    for at in range(FOLDERS):
        with folder() as place:
            case = Case(place, draw)
            if not case.made:
                continue
            whole = run("check", case.torrent, case.found)
            reports = case.parts(draw.choice(COUNTS) if at % 50 else 40)
            draw.shuffle(reports)
            assert outcome(run("join", case.torrent, *reports)) == outcome(whole), (at, whole)
            seen.update(line.split()[0] for line in whole.stdout.decode().splitlines())
    assert seen >= {"good", "bad", "missing", "unreadable", "wrong", "v1", "yes", "no"}, seen


def test_the_join_of_marked_reports():
    """Byte for byte what `check --bad` prints, and its status: of the same folders, in one to nine parts or many, in any
    order. Runs of two parts that touch at a cut are one."""
    draw = random.Random(54)
    seen, cuts = set(), 0
    for at in range(FOLDERS // 2):
        with folder() as place:
            case = Case(place, draw)
            if not case.made:
                continue
            whole = run("check", case.torrent, case.found, "--bad")
            reports = case.parts(draw.randrange(1, 10) if at % 25 else 40, "--bad")
            runs = sum(open(path, "rb").read().count(b"bad pieces ") for path in reports)
            cuts += runs > whole.stdout.count(b"bad pieces ")
            draw.shuffle(reports)
            assert outcome(run("join", case.torrent, *reports)) == outcome(whole), (at, whole)
            seen.update(line.split()[0] for line in whole.stdout.decode().splitlines())
    assert seen >= {"good", "bad", "missing", "unreadable", "wrong", "v1", "yes", "no"} and cuts > 10, (seen, cuts)


def joined(case, *reports):
    return run("join", case.torrent, *reports)


class Four(Case):
    """A folder with a bad piece, in four parts."""

    def make(self, place, draw):
        os.mkdir(self.found)
        os.mkdir(self.reports)
        write(f"{self.found}/a", bytes(200_000))
        write(f"{self.found}/b", b"")
        made = run("create", self.found, self.torrent, "--name", "x", "--piece-length", "16384")
        write(f"{self.found}/a", bytes(150_000) + b"x" + bytes(49_999))
        return made.returncode == 0


def test_the_first_fault_is_answered():
    """By the first lines, in the order of the reports: no report, another torrent, another number of parts, and only then
    the same part twice. Then by the parts: one that is missing, or the report of one that is not whole."""
    with folder() as place:
        case = Four(place, None)
        reports = case.parts(4)
        texts = [open(path, "rb").read() for path in reports]
        none = write(f"{place}/none", b"")
        five = write(f"{place}/five", texts[0].replace(b"/4 ", b"/5 "))
        other = write(f"{place}/other", texts[0].replace(texts[0].split()[2], b"0" * 64))
        short = [write(f"{place}/short{number}", text[:-1]) for number, text in enumerate(texts, 1)]
        one, two, three, four = reports
        for given, line in [
            ([one, five, none], f"fault: a report of another number of parts: {five}"),
            ([one, other], f"fault: a part of another torrent: {other}"),
            ([one, none, five], f"fault: no whole report of a part: {none}"),
            ([one, one, none], "fault: part 1 is there twice"),
            ([short[1], short[1]], "fault: part 2 is there twice"),
            ([three], "fault: part 1 of 4 is missing"),
            ([four, one], "fault: part 2 of 4 is missing"),
            ([four, short[0]], f"fault: no whole report of a part: {short[0]}"),
            ([short[3], short[1], one], f"fault: no whole report of a part: {short[1]}"),
            ([short[3], two, one], "fault: part 3 of 4 is missing"),
        ]:
            expect(joined(case, *given), 2, b"", f"{line}\n")


def test_reports_that_are_refused():
    """With one line on standard error, status 2, and nothing on standard output."""
    with folder() as place:
        case = Four(place, None)
        whole, reports = run("check", case.torrent, case.found), case.parts(4)
        assert outcome(joined(case, *reports)) == outcome(whole) and whole.returncode == 1, whole
        for number in range(1, 5):
            others = [path for at, path in enumerate(reports, 1) if at != number]
            expect(joined(case, *others), 2, b"", f"fault: part {number} of 4 is missing\n")
            expect(joined(case, *reports, reports[number - 1]), 2, b"", f"fault: part {number} is there twice\n")
        texts = [open(path, "rb").read() for path in reports]
        odd = f"{place}/o\ndd"
        named = "o\\x0add"
        for number, text in enumerate(texts):
            others = reports[:number] + reports[number + 1:]
            for changed in [text[:-1], text[:-5], text.splitlines(True)[0], text + b"\n", text + b"x" * 100_000, text + text, b"", b"\0", b"\xff",
                            text.replace(b"part yes", b"part no") if b"part yes" in text else text.replace(b"part no", b"part yes"),
                            text.replace(b"a\n", b"b\n", 1), text.replace(b"\n", b"\r\n").replace(b"\r", b"", 1), text.upper(), b"part " + text,
                            text.replace(b"\n", b"\r\n"), text[:9], text[:40], text.split(b"\n")[0], text.replace(b" ", b"  ", 2),
                            text.replace(text.split()[2], text.split()[2].upper()), text.replace(text.split()[2], b"0" * 63),
                            text.replace(text.split()[2], b"0" * 65), text.replace(text.split()[2], b"0" * 63 + b"g"),
                            b"".join(text.splitlines(True)[::-1])]:
                write(odd, changed)
                expect(joined(case, odd, *others), 2, b"", f"fault: no whole report of a part: {place}/{named}\n")
            write(odd, text.replace(text.split()[2], b"0" * 64))
            expect(joined(case, *others, odd), 2, b"", f"fault: a part of another torrent: {place}/{named}\n")
            write(odd, text.replace(b"/4 ", b"/5 "))
            expect(joined(case, *others, odd), 2, b"", f"fault: a report of another number of parts: {place}/{named}\n")
            write(odd, text.replace(b"part %d/4 " % (number + 1), b"part 5/4 "))
            expect(joined(case, *reports, odd), 2, b"", f"fault: no whole report of a part: {place}/{named}\n")
        for path in (f"{place}/gone", place):
            expect(joined(case, *reports, path), 2, b"", f"fault: cannot read {path}\n")
        write(odd, b"x")
        assert joined(case, *reports).stdout == whole.stdout
        done = run("join", odd, *reports)
        expect(done, 1, None, b"")
        assert done.stdout.startswith(b"refused ")
        assert outcome(run("check", odd, case.found, "--part", "1/4")) == outcome(done)
        with open("/dev/full", "wb") as full:
            expect(run("join", case.torrent, *reports, stdout=full), 2, None, "fault: cannot write -\n")
            expect(run("check", case.torrent, case.found, "--part", "1/4", stdout=full), 2, None, "fault: cannot write -\n")


def test_lines_that_no_part_can_print():
    """Of a bad piece that is not the file's or not the part's, of an empty file, and of version 1 pieces that were compared
    though a file is not whole, or were not though all are: no whole report."""
    with folder() as place:
        for name, length in (("a", 40_000), ("b", 0), ("c", 16_384)):
            os.makedirs(f"{place}/found", exist_ok=True)
            write(f"{place}/found/{name}", name.encode() * length)
        expect(run("create", f"{place}/found", f"{place}/torrent", "--name", "x", "--piece-length", "16384", "--hybrid"), 0)
        one, two = (run("check", f"{place}/torrent", f"{place}/found", "--part", f"{number}/2").stdout for number in (1, 2))
        assert [line.split(b" ")[0] for line in two.splitlines()] == [b"part", b"good", b"good", b"good", b"v1", b"part"], two
        for line, others, is_said in [
            ("bad 0 a", "v1 good", False), ("bad 1 a", "v1 good", True), ("bad 2 a", "v1 good", True), ("bad 3 a", "v1 good", False),
            ("bad 18446744073709551615 a", "v1 good", False), ("bad 3 b", "v1 good", False), ("bad 3 c", "v1 good", True),
            ("bad 4 c", "v1 good", False), ("missing a", "v1 good", False), ("missing a", "v1 not checked", True),
            ("bad 1 a", "v1 not checked", False), ("bad 1 a", "v1 bad 0", False), ("bad 1 a", "v1 bad 3", True),
            ("bad 1 a", "v1 bad 4", False), ("wrong length b", "v1 bad 1", False), ("wrong length b", "v1 not checked", True),
        ]:
            name = line[-1]
            text = two.replace(f"good {name}\n".encode(), f"{line}\n".encode()).replace(b"v1 good", others.encode())
            write(f"{place}/two", text.replace(b"part yes", b"part no"))
            write(f"{place}/one", one)
            done = run("join", f"{place}/torrent", f"{place}/two", f"{place}/one")
            if is_said:
                assert done.returncode == 1 and f"{line}\n".encode() in done.stdout and not done.stderr, (line, others, done)
            else:
                expect(done, 2, b"", f"fault: no whole report of a part: {place}/two\n")


# What stands behind the first line of the second of two marked reports, of a file of five pieces of which the first two are
# the first part's, and whether a part can print it.
SAID = [
    ("bad 3 a|bad pieces 3 4 bytes 49152-79999", True),
    ("bad 3 a|bad pieces 3 3 bytes 49152-65535", True),
    ("bad 4 a|bad pieces 4 4 bytes 65536-79999", True),
    ("wrong length a|bad pieces 4 4 bytes 65536-79999", True),
    ("wrong length a", True),
    ("bad 3 a", False),
    ("bad 3 a|bad pieces 4 4 bytes 65536-79999", False),
    ("bad 4 a|bad pieces 3 4 bytes 49152-79999", False),
    ("bad 3 a|bad pieces 3 3 bytes 49152-65535|bad pieces 4 4 bytes 65536-79999", False),
    ("bad 3 a|bad pieces 3 3 bytes 49152-65535|bad pieces 3 3 bytes 49152-65535", False),
    ("bad 2 a|bad pieces 2 4 bytes 32768-79999", True),
    ("bad 2 a|bad pieces 2 2 bytes 32768-49151|bad pieces 4 4 bytes 65536-79999", True),
    ("wrong length a|bad pieces 2 2 bytes 32768-49151", True),
    ("bad 2 a|bad pieces 4 4 bytes 65536-79999|bad pieces 2 2 bytes 32768-49151", False),
    ("bad 1 a|bad pieces 1 4 bytes 16384-79999", False),
    ("wrong length a|bad pieces 1 1 bytes 16384-32767", False),
    ("wrong length a|bad pieces 1 3 bytes 16384-65535", False),
    ("bad 4 a|bad pieces 4 5 bytes 65536-98303", False),
    ("bad 4 a|bad pieces 4 4 bytes 65536-80000", False),
    ("bad 4 a|bad pieces 4 4 bytes 65535-79999", False),
    ("bad 4 a|bad pieces 4 4 bytes 65536-079999", False),
    ("bad 4 a|bad pieces 04 4 bytes 65536-79999", False),
    ("bad 4 a|bad pieces 4 3 bytes 65536-65535", False),
    ("bad 4 a|bad pieces 18446744073709551615 4 bytes 65536-79999", False),
    ("bad 4 a|bad pieces 4 18446744073709551616 bytes 65536-79999", False),
    ("good a|bad pieces 4 4 bytes 65536-79999", False),
    ("missing a|bad pieces 4 4 bytes 65536-79999", False),
    ("missing a", True),
    ("unreadable a|bad pieces 4 4 bytes 65536-79999", False),
    ("bad pieces 4 4 bytes 65536-79999|bad 4 a", False),
]


def test_runs_that_no_part_can_print():
    """Runs that touch, fall, are not the part's, are not the file's, or stand behind a file that has none, and a bad file
    without them: no whole report."""
    with folder() as place:
        write(f"{place}/content", bytes(80_000))
        os.mkdir(f"{place}/found")
        os.rename(f"{place}/content", f"{place}/found/a")
        expect(run("create", f"{place}/found", f"{place}/torrent", "--name", "x", "--piece-length", "16384"), 0)
        names = [f"{number}/2" for number in (1, 2)]
        one, two = (run("check", f"{place}/torrent", f"{place}/found", "--part", name, "--bad").stdout for name in names)
        assert two.endswith(b" bad\ngood a\npart yes\n"), two
        write(f"{place}/one", one)
        for lines, is_said in SAID:
            text = two.replace(b"good a\npart yes\n", lines.replace("|", "\n").encode() + b"\npart no\n")
            done = run("join", f"{place}/torrent", write(f"{place}/two", text), f"{place}/one")
            if is_said:
                expect(done, 1, lines.replace("|", "\n") + "\nno\n", b"")
            else:
                expect(done, 2, b"", f"fault: no whole report of a part: {place}/two\n")


def test_reports_of_two_kinds():
    """One of another kind than the first is no whole report, and the first such one is named."""
    with folder() as place:
        case = Four(place, None)
        plain = [write(f"{path} plain", open(path, "rb").read()) for path in case.parts(4)]
        marked = [write(f"{path} marked", open(path, "rb").read()) for path in case.parts(4, "--bad")]
        assert outcome(joined(case, *marked)) == outcome(run("check", case.torrent, case.found, "--bad"))
        assert joined(case, *marked).stdout == b"bad 9 a\nbad pieces 9 9 bytes 147456-163839\ngood b\nno\n"
        for given, named in [
            (marked[:3] + plain[3:], plain[3]), (plain[:3] + marked[3:], marked[3]), (plain[:1] + marked[1:], marked[1]),
            (marked[:1] + plain[1:], plain[1]), (plain + marked[:1], marked[0]), (marked + plain[:1], plain[0]),
        ]:
            expect(joined(case, *given), 2, b"", f"fault: no whole report of a part: {named}\n")
        text = open(marked[0], "rb").read()
        for word in (b" bad bad\n", b" bad \n", b"  bad\n", b" Bad\n", b" bad\r\n", b" ba\n", b"bad\n"):
            write(f"{place}/odd", text.replace(b" bad\n", word, 1))
            expect(joined(case, *marked[1:], f"{place}/odd"), 2, b"", f"fault: no whole report of a part: {place}/odd\n")


def test_many_parts_of_many_files():
    """A join looks at the files once, however many parts there are: 400 parts of 20,000 files take hardly more time than
    one."""
    with folder() as place:
        os.mkdir(f"{place}/found")
        for number in range(20_000):
            write(f"{place}/found/{number:05}", b"x" * (number % 3))
        expect(run("create", f"{place}/found", f"{place}/torrent", "--name", "x", "--piece-length", "16384"), 0)
        os.remove(f"{place}/found/10000")
        whole = run("check", f"{place}/torrent", f"{place}/found")
        taken = {}
        for count in (1, 400):
            reports = []
            for number in range(1, count + 1):
                done = run("check", f"{place}/torrent", f"{place}/found", "--part", f"{number}/{count}")
                reports.append(write(f"{place}/{count}-{number}", done.stdout))
            begun = os.times().children_user
            assert outcome(run("join", f"{place}/torrent", *reports)) == outcome(whole)
            taken[count] = os.times().children_user - begun
        print(f"a join of 1 and of 400 parts of 20,000 files: {taken[1]:.3f} s and {taken[400]:.3f} s of the processor")
        assert taken[400] < 3 * taken[1] + 0.2, taken


def test_reports_of_any_length():
    """No more of a report is read than one of the torrent may have: one without an end costs no memory."""
    with folder() as place:
        case = Four(place, None)
        reports = case.parts(2)
        done = run("join", case.torrent, "/dev/zero", *reports, memory=64 << 10, timeout=60)
        expect(done, 2, b"", "fault: no whole report of a part: /dev/zero\n")


def test_more_parts_than_pieces():
    with folder() as place:
        case = Four(place, None)
        assert outcome(joined(case, *case.parts(100))) == outcome(run("check", case.torrent, case.found))
        far = run("check", case.torrent, case.found, "--part", "18446744073709551615/18446744073709551615")
        assert far.returncode == 1 and far.stdout.endswith(b"bad 9 a\ngood b\npart no\n"), far


def test_a_part_that_is_killed_and_run_again():
    """What it left is no report, and after another run the parts join."""
    with folder() as place:
        case = Four(place, None)
        reports = case.parts(3)
        with open(reports[1], "wb") as out:
            program = subprocess.Popen([BTCHECK, "check", case.torrent, case.found, "--part", "2/3"], stdout=out)
            program.kill()
            program.wait()
        if os.path.getsize(reports[1]) == 0:
            expect(joined(case, *reports), 2, b"", f"fault: no whole report of a part: {reports[1]}\n")
        case.part(2, 3)
        assert outcome(joined(case, *reports)) == outcome(run("check", case.torrent, case.found))


def test_a_part_opens_only_its_files():
    """Those of others need not be there: each machine may hold its own."""
    with folder() as place:
        os.mkdir(f"{place}/whole")
        for name in "ab":
            write(f"{place}/whole/{name}", name.encode() * 65536)
        assert run("create", f"{place}/whole", f"{place}/torrent", "--name", "x", "--piece-length", "16384").returncode == 0
        reports = []
        for number, name in enumerate("ab", 1):
            os.mkdir(f"{place}/{name}")
            os.link(f"{place}/whole/{name}", f"{place}/{name}/{name}")
            done = run("check", f"{place}/torrent", f"{place}/{name}", "--part", f"{number}/2")
            assert done.returncode == 0 and f"good {name}\n".encode() in done.stdout, done
            reports.append(write(f"{place}/report {name}", done.stdout))
        expect(run("join", f"{place}/torrent", *reports), 0, "good a\ngood b\nyes\n")


def instructions(*arguments):
    """How many instructions the program takes for this, and what it prints."""
    done = run("--tool=callgrind", "--callgrind-out-file=/dev/null", BTCHECK, *arguments, program="valgrind")
    return int(re.search(rb"Collected : (\d+)", done.stderr)[1]), done


def test_parts_do_no_more_than_a_check():
    """Four parts take hardly more instructions than one check and three more openings of the torrent, and each about a
    fourth of them, however long the pieces are; so on four cores that share nothing they take little more than a fourth of
    the time. `bench/run parts` measures what this machine makes of it. Each part of a hybrid has eight pieces at least: the
    SHA-1 of fewer takes as long as that of eight; and each fills a buffer for eight pieces with zeros, an instruction a byte
    at most, which is much of so small a file."""
    need("valgrind")
    with folder() as place:
        os.mkdir(f"{place}/files")
        write(f"{place}/files/content", random.Random(1).randbytes(1 << 24))
        for length, kind in ((1 << 20, []), (1 << 19, ["--hybrid"]), (1 << 16, []), (1 << 15, ["--hybrid"]), (1 << 14, [])):
            expect(run("create", f"{place}/files", f"{place}/torrent", "--name", "x", "--piece-length", str(length), *kind), 0)
            whole, done = instructions("check", f"{place}/torrent", f"{place}/files")
            assert done.returncode == 0 and done.stdout.endswith(b"yes\n"), done
            opening, _ = instructions("show", f"{place}/torrent")
            parts = []
            for number in range(1, 5):
                count, done = instructions("check", f"{place}/torrent", f"{place}/files", "--part", f"{number}/4")
                assert done.returncode == 0 and done.stdout.endswith(b"part yes\n"), done
                parts.append(count)
            once = opening + (8 * length if kind else 0)
            print(
                f"pieces of {length} bytes {kind}: instructions of four parts {sum(parts) / whole:.3f} of one check's,"
                f" of the largest {max(parts) / whole:.3f}, of an opening {opening / whole:.3f}"
            )
            most = 1.02 * whole + 3 * once
            assert sum(parts) <= (most if kind else min(1.05 * whole, most)) and max(parts) <= 0.3 * whole, (whole, once, parts)

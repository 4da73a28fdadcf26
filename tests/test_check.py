"""`btcheck check TORRENT DIR`, on folders and torrents that libtorrent made, whole and with each kind of damage."""
import hashlib
import os
import random
import shutil
import stat

import torrents
from support import BTCHECK, escaped, expect, folder, made_by_libtorrent, run, write

# The files of a folder: the content of each path. `n` and `o` are one content, and `p` ends with zeros.
FILES = {
    "a.txt": random.Random(1).randbytes(16385),
    "a/b": b"abc",
    "a/c/d": random.Random(2).randbytes(16384),
    "l": random.Random(3).randbytes(300001),
    "m": b"",
    "n": random.Random(4).randbytes(70000),
    "o": random.Random(4).randbytes(70000),
    "p": random.Random(5).randbytes(40000) + bytes(9000),
    "ünïcode/文件 1": b"x" * 32768,
}

# The state of a path that is there and cannot be read.
UNREADABLE = "unreadable"


def make_folder(place, files):
    for path, content in files.items():
        os.makedirs(os.path.dirname(f"{place}/{path}"), exist_ok=True)
        write(f"{place}/{path}", content)
    return place


def clear(path):
    if os.path.isdir(path) and not os.path.islink(path):
        shutil.rmtree(path)
    elif os.path.lexists(path):
        os.remove(path)


def difference(content, found):
    """The place of the first byte that differs."""
    return next(i for i in range(len(content)) if content[i] != found[i])


class Torrent:
    """What a torrent says: its files in order as paths and contents, the piece length, and whether it is a hybrid."""

    def __init__(self, files, piece_length, hybrid):
        self.files, self.piece_length, self.hybrid = files, piece_length, hybrid

    def first_pieces(self):
        """Each file's path and content, and its first piece."""
        piece = 0
        for path, content in self.files:
            yield path, content, piece
            piece += -(-len(content) // self.piece_length)

    def report(self, states):
        """The status and the text that a check is to print where the paths of `states` have another content, or None
        where nothing is there."""
        lines, differing, whole = [], [], True
        for path, content, first in self.first_pieces():
            found = states.get(path, content)
            if found == content:
                verdict = "good"
            elif found is None or found == UNREADABLE or len(found) != len(content):
                verdict = {None: "missing", UNREADABLE: UNREADABLE}.get(found, "wrong length")
                whole = False
            else:
                differing.append(first + difference(content, found) // self.piece_length)
                verdict = f"bad {differing[-1]}"
            lines.append(f"{verdict} {escaped(path)}")
        if self.hybrid:
            checked = f"bad {min(differing)}" if differing else "good"
            lines.append(f"v1 {checked if whole else 'not checked'}")
        yes = whole and not differing
        return 0 if yes else 1, "".join(f"{line}\n" for line in [*lines, "yes" if yes else "no"])


def made_torrents(place, content, piece_lengths):
    """Torrents of what lies at `content` by libtorrent, of version 2 and hybrid: the path of each, and what it says."""
    orders = [{"content": content, "torrent": f"{place}/{length}-{hybrid}.torrent", "piece_length": length,
               "hybrid": hybrid} for length in piece_lengths for hybrid in [False, True]]
    for order, made in zip(orders, made_by_libtorrent(orders)):
        files = []
        for _, _, path in made["files"]:
            path = path.removeprefix(f"{made['name']}/")
            below = content if os.path.isfile(content) else f"{content}/{path}"
            with open(below, "rb") as file:
                files.append((path, file.read()))
        yield order["torrent"], Torrent(files, order["piece_length"], order["hybrid"])


def expect_report(path, torrent, place, states, **options):
    status, text = torrent.report(states)
    expect(run("check", path, place, **options), status, text)
    quiet = [line for line in text.splitlines(True) if not line.startswith(("good ", "v1 good"))]
    expect(run("check", "--quiet", path, place, **options), status, "".join(quiet))


def changed(*places):
    """The content with a bit of the bytes at these places turned."""
    def change(path, content):
        found = bytearray(content)
        for place in places:
            found[place % len(content)] ^= 1
        write(path, found)
        return bytes(found)
    return change


def rewritten(change):
    def rewrite(path, content):
        found = change(content)
        write(path, found)
        return found
    return rewrite


def removed(path, content):
    os.remove(path)
    return None


def replaced_by_a_folder(path, content):
    os.remove(path)
    os.mkdir(path)
    return UNREADABLE


def replaced_by_a_full_folder(path, content):
    replaced_by_a_folder(path, content)
    write(f"{path}/{os.path.basename(path)}", content)
    return UNREADABLE


def link_to_a_copy(path, content):
    os.rename(path, f"{path}.copy")
    os.symlink(f"{os.path.basename(path)}.copy", path)
    return content


def dangling_link(path, content):
    os.remove(path)
    os.symlink("nothing-of-this-name", path)
    return None


def loop_of_links(path, content):
    os.remove(path)
    os.symlink(f"{os.path.basename(path)}.copy", path)
    os.symlink(os.path.basename(path), f"{path}.copy")
    return UNREADABLE


def replaced_by_a_pipe(path, content):
    os.remove(path)
    os.mkfifo(path)
    return UNREADABLE


def replaced_by_a_socket(path, content):
    os.remove(path)
    os.mknod(path, stat.S_IFSOCK | 0o600)
    return UNREADABLE


def link_to_a_pipe(path, content):
    os.remove(path)
    os.mkfifo(f"{path}.copy")
    os.symlink(f"{os.path.basename(path)}.copy", path)
    return UNREADABLE


def link_to_a_device(device):
    def link(path, content):
        os.remove(path)
        os.symlink(device, path)
        return UNREADABLE
    return link


# Files that are no regular ones: to open a pipe waits for its other end, and one of these devices has no end.
ODD_FILES = [
    replaced_by_a_pipe,
    replaced_by_a_socket,
    link_to_a_pipe,
    link_to_a_device("/dev/zero"),
    link_to_a_device("/dev/null"),
]

DAMAGES = [
    removed,
    rewritten(lambda content: content + b"\0"),
    rewritten(lambda content: content + content + b"more"),
    replaced_by_a_folder,
    replaced_by_a_full_folder,
    link_to_a_copy,
    dangling_link,
    loop_of_links,
]
# Those that a file needs bytes for.
DAMAGES_OF_BYTES = [
    changed(0),
    changed(-1),
    rewritten(lambda content: content[:-1]),
    rewritten(lambda content: content[1:]),
    rewritten(lambda content: b""),
    rewritten(bytes.swapcase),
    lambda path, content: changed(len(content) // 2)(path, content),
    lambda path, content: changed(len(content) // 3, len(content) // 2)(path, content),
    lambda path, content: changed((len(content) - 1) // 32768 * 32768)(path, content),
]


def test_each_damage_to_each_file():
    with folder() as place:
        content = make_folder(f"{place}/content", FILES)
        for path, torrent in made_torrents(place, content, [16384, 32768, 262144]):
            assert sorted(torrent.files) == sorted(FILES.items())
            expect_report(path, torrent, content, {})
            for name, was in FILES.items():
                real = f"{content}/{name}"
                for damage in DAMAGES + (DAMAGES_OF_BYTES if was else []):
                    expect_report(path, torrent, content, {name: damage(real, was)})
                    clear(real)
                    clear(f"{real}.copy")
                    write(real, was)


def test_several_damages():
    with folder() as place:
        content = make_folder(f"{place}/content", FILES)
        draw = random.Random(6)
        for path, torrent in made_torrents(place, content, [16384, 65536]):
            for _ in range(40):
                names = draw.sample(sorted(FILES), draw.randrange(2, 6))
                states = {name: draw.choice(DAMAGES_OF_BYTES if FILES[name] else DAMAGES)(f"{content}/{name}", FILES[name])
                          for name in names}
                expect_report(path, torrent, content, states)
                for name in names:
                    clear(f"{content}/{name}")
                    clear(f"{content}/{name}.copy")
                    write(f"{content}/{name}", FILES[name])


def test_many_small_files():
    """Batches of small files: more than fit into one, with empty and larger files among them."""
    draw = random.Random(7)
    files = {f"{number:03}": draw.randbytes(draw.choice([0, 1, 16383, 16384, 16385, draw.randrange(50_000)]))
             for number in range(300)}
    for number, size in [(40, 131072), (41, 131073), (150, 600_000), (299, 131072)]:
        files[f"{number:03}"] = draw.randbytes(size)
    with folder() as place:
        content = make_folder(f"{place}/content", files)
        for path, torrent in made_torrents(place, content, [16384, 1 << 20]):
            for share in [0, 0.02, 0.5, 1]:
                names = [name for name in sorted(files) if draw.random() < share]
                states = {name: draw.choice(DAMAGES_OF_BYTES if files[name] else DAMAGES)(f"{content}/{name}", files[name])
                          for name in names}
                expect_report(path, torrent, content, states)
                for name in names:
                    clear(f"{content}/{name}")
                    clear(f"{content}/{name}.copy")
                    write(f"{content}/{name}", files[name])


def test_what_is_no_regular_file():
    with folder() as place:
        content = make_folder(f"{place}/content", FILES)
        for path, torrent in made_torrents(place, content, [32768]):
            for odd in ODD_FILES:
                for names in [[name] for name in FILES] + [FILES]:
                    states = {name: odd(f"{content}/{name}", FILES[name]) for name in names}
                    expect_report(path, torrent, content, states, timeout=10)
                    for name in names:
                        clear(f"{content}/{name}")
                        clear(f"{content}/{name}.copy")
                        write(f"{content}/{name}", FILES[name])


def test_folders_on_the_way():
    with folder() as place:
        content = make_folder(f"{place}/content", FILES)
        for path, torrent in made_torrents(place, content, [32768]):
            below = ["a/b", "a/c/d"]
            os.rename(f"{content}/a", f"{content}/other")
            expect_report(path, torrent, content, dict.fromkeys(below))
            os.symlink("other", f"{content}/a")
            expect_report(path, torrent, content, {})
            os.remove(f"{content}/a")
            write(f"{content}/a", b"no folder")
            expect_report(path, torrent, content, dict.fromkeys(below, UNREADABLE))
            os.remove(f"{content}/a")
            os.symlink("a", f"{content}/a")
            expect_report(path, torrent, content, dict.fromkeys(below, UNREADABLE))
            os.remove(f"{content}/a")
            os.rename(f"{content}/other", f"{content}/a")


def test_the_folder_itself():
    with folder() as place:
        content = make_folder(f"{place}/content", FILES)
        os.symlink("content", f"{place}/link")
        for path, torrent in made_torrents(place, content, [32768]):
            write(f"{content}/more", b"that no torrent names")
            os.symlink("nothing", f"{content}/a/more")
            for same in [f"{content}/", f"{place}/link", f"{content}/a/.."]:
                expect_report(path, torrent, same, {})
            expect(run("check", path, ".", cwd=content), *torrent.report({}))
            for nothing in [f"{place}/nothing", ""]:
                expect_report(path, torrent, nothing, dict.fromkeys(FILES))
            expect(run("check", path, "", cwd=content), *torrent.report(dict.fromkeys(FILES)))
            expect_report(path, torrent, f"{content}/l", dict.fromkeys(FILES, UNREADABLE))
            clear(f"{content}/more")
            clear(f"{content}/a/more")


def test_torrents_of_one_file():
    with folder() as place:
        content = make_folder(f"{place}/content", {"only": FILES["l"]})
        for whole in [content, f"{content}/only"]:
            for path, torrent in made_torrents(place, whole, [16384, 524288]):
                expect_report(path, torrent, content, {})
                expect_report(path, torrent, content, {"only": changed(299999)(f"{content}/only", FILES["l"])})
                write(f"{content}/only", FILES["l"])


def torrent_of(path):
    """A torrent of version 2 of one file, `abc`, with these components."""
    tree = torrents.file(b"abc")
    for component in reversed(path):
        tree = {component: tree}
    return torrents.torrent(torrents.info(tree))


def sha1(content):
    return hashlib.sha1(content).digest()


def hybrid_of(first, second, piece_length, tail):
    """A hybrid of two files, `a` and `c`, of one piece each, and `tail` zeros behind them (BEP 47)."""
    pad = piece_length - len(first)
    stream = first + bytes(pad) + second + bytes(tail)
    cuts = [stream[i:i + piece_length] for i in range(0, len(stream), piece_length)]
    files = [torrents.entry(len(first), "a"), torrents.pad(pad), torrents.entry(len(second), "c"), torrents.pad(tail)]
    tree = {"a": torrents.file(first), "c": torrents.file(second)}
    return torrents.torrent(torrents.info(tree, piece_length, files=files if tail else files[:3],
                                          pieces=b"".join(map(sha1, cuts))))


def test_zeros_behind_the_last_file():
    first, second = FILES["a.txt"], b"abc"
    with folder() as place:
        content = make_folder(f"{place}/content", {"a": first, "c": second})
        for tail in [0, 1, 32764, 32765]:
            path = write(f"{place}/t", hybrid_of(first, second, 32768, tail))
            torrent = Torrent([("a", first), ("c", second)], 32768, True)
            expect_report(path, torrent, content, {})
            for name, was in [("a", first), ("c", second)]:
                expect_report(path, torrent, content, {name: changed(-1)(f"{content}/{name}", was)})
                write(f"{content}/{name}", was)


def test_wrong_version_1_pieces():
    first, second = FILES["a.txt"], b"abc"
    with folder() as place:
        content = make_folder(f"{place}/content", {"a": first, "c": second})
        good = hybrid_of(first, second, 32768, 0)
        digests = good.index(b"6:pieces40:") + len(b"6:pieces40:")
        for place_in, piece in [(0, 0), (19, 0), (20, 1), (39, 1)]:
            found = bytearray(good)
            found[digests + place_in] ^= 1
            path = write(f"{place}/t", found)
            expect(run("check", path, content), 1, f"good a\ngood c\nv1 bad {piece}\nno\n")


def test_wrong_version_1_pieces_that_are_long():
    """Pieces of 8 MiB wait for each other to be hashed side by side: five of them and a last one that is short."""
    piece, count = 1 << 23, 5
    content = random.Random(6).randbytes(count * piece + 77)
    cuts = b"".join(sha1(content[at:at + piece]) for at in range(0, len(content), piece))
    files = [torrents.entry(len(content), "a")]
    good = torrents.torrent(torrents.info({"a": torrents.file(content)}, piece, files=files, pieces=cuts),
                            {torrents.root_of(content): torrents.layer(content, piece // torrents.BLOCK)})
    with folder() as place:
        make_folder(f"{place}/content", {"a": content})
        for wrong in [None, *range(count + 1)]:
            found = bytearray(good)
            if wrong is not None:
                found[good.index(cuts) + 20 * wrong] ^= 1
            path = write(f"{place}/t", found)
            verdicts = ("v1 good", "yes") if wrong is None else (f"v1 bad {wrong}", "no")
            expect(run("check", path, f"{place}/content"), int(wrong is not None), "good a\n%s\n%s\n" % verdicts)
        with open(f"{place}/content/a", "r+b") as file:
            file.seek(3 * piece + 5)
            file.write(bytes([content[3 * piece + 5] ^ 1]))
        write(f"{place}/t", good)
        expect(run("check", f"{place}/t", f"{place}/content"), 1, "bad 3 a\nv1 bad 3\nno\n")


def test_names():
    with folder() as place:
        for path in [["\n\x01\x7f\\ \x1f"], ["-"], ["--help"], [" "], ["%s"], ["é", "\\", "..."], ["x" * 255], ["é" * 127],
                     ["y" * 200] * 18]:
            content = make_folder(f"{place}/content", {"/".join(path): b"abc"})
            torrent = write(f"{place}/t", torrent_of(path))
            expect(run("check", torrent, content), 0, f"good {escaped('/'.join(path))}\nyes\n")
            expect(run("check", torrent, place), 1, f"missing {escaped('/'.join(path))}\nno\n")
            shutil.rmtree(content)


def test_names_that_no_file_can_have():
    with folder() as place:
        for path in [["x" * 256], ["é" * 128], ["y", "x" * 5000], ["y" * 200] * 25]:
            torrent = write(f"{place}/t", torrent_of(path))
            expect(run("check", torrent, place), 1, f"unreadable {'/'.join(path)}\nno\n")


def test_files_without_permission():
    nobody = {"preexec_fn": lambda: os.setuid(65534)} if os.geteuid() == 0 else {}
    with folder() as place:
        os.chmod(place, 0o755)
        program = f"{place}/btcheck"
        shutil.copy(BTCHECK, program)
        content = make_folder(f"{place}/content", FILES)
        made = list(made_torrents(place, content, [32768]))
        os.chmod(f"{content}/l", 0)
        os.chmod(f"{content}/a", 0o600)
        for path, torrent in made:
            done = run("check", path, content, executable=program, **nobody)
            expect(done, *torrent.report(dict.fromkeys(["l", "a/b", "a/c/d"], UNREADABLE)))


def test_torrents_that_do_not_open():
    with folder() as place:
        for content, refusal in [(b"", "2 NotBencode Truncated 0"), (b"de", "3 Missing info"), (b"i1e", "4 WrongType top")]:
            path = write(f"{place}/t", content)
            expect(run("check", path, place), 1, f"refused {refusal}\n")
            expect(run("check", path, f"{place}/nothing"), 1, f"refused {refusal}\n")


def test_what_cannot_be_read_or_written():
    with folder() as place:
        expect(run("check", f"{place}/missing", place), 2, b"", f"fault: cannot read {place}/missing\n")
        expect(run("check", place, place), 2, b"", f"fault: cannot read {place}\n")
        for content in [torrent_of(["a"]), b"de"]:
            path = write(f"{place}/t", content)
            with open("/dev/full", "wb") as full:
                expect(run("check", path, place, stdout=full), 2, None, "fault: cannot write -\n")
            expect(run("check", path, place, stdout=None, preexec_fn=lambda: os.close(1)), 2, None, "fault: cannot write -\n")

"""Arguments that are refused, help, and the version."""
import os
import re
import shutil

from support import TOP, expect, run

COMMANDS = ["root", "show", "check", "join", "create", "replay", "convert"]

# What names no part.
PARTS = ["", "/", "1", "1/", "/1", "0/1", "2/1", "0/0", "1/0", "-1/2", "1/-2", "1 /2", "1/2/3", "1//2", "a/b", "0x1/2", "1.0/2",
         "1/18446744073709551616", "18446744073709551616/18446744073709551616", "\u0661/2"]

# What a part of a check has not.
NOT_OF_PARTS = ["--quiet", "-q", "--extra", "--summary"]

REFUSED = [
    [],
    [""],
    ["unknown"],
    ["root"],
    ["root", "a", "b"],
    ["root", "--unknown", "a"],
    ["root", "-x"],
    ["--unknown", "root", "a"],
    ["root", "--version"],
    ["--version=1"],
    ["ROOT", "a"],
    ["show"],
    ["show", "a", "b"],
    ["check"],
    ["check", "a"],
    ["check", "a", "b", "c"],
    ["check", "a", "b", "--quiet", "--quiet"],
    ["check", "a", "b", "--quiet=yes"],
    *[["check", "a", "b", "--part", part] for part in PARTS],
    ["check", "a", "b", "--part"],
    ["check", "a", "b", "--part", "1/2", "--part", "2/2"],
    *[["check", "a", "b", "--part", "1/2", option] for option in NOT_OF_PARTS],
    ["check", "a", "b", "--bad", "--bad"],
    ["check", "a", "b", "--part", "1/2", "--bad", "--bad"],
    *[["check", "a", "b", "--part", "1/2", "--bad", option] for option in NOT_OF_PARTS],
    ["check", "a", "b", "-q", "--quiet"],
    ["check", "a", "b", "--long"],
    ["check", "a", "b", "--extra", "--extra"],
    ["check", "a", "b", "--summary=yes"],
    ["show", "a", "--long", "--long"],
    ["show", "a", "--reasons", "--reasons"],
    ["root", "a", "-q"],
    ["create", "a", "b", "-o", "c", "--name", "x", "--piece-length", "16384"],
    ["create", "a", "b", "--name", "x", "--piece-length", "16384", "--no-clobber", "--no-clobber"],
    ["convert", "a", "b", "--no-clobber"],
    ["check", "--part", "1/2", "a"],
    ["root", "a", "--part", "1/2"],
    ["join"],
    ["join", "a"],
    ["join", "a", "b", "--json", "--json"],
    ["root", "a", "--quiet"],
    ["root", "a", "--json", "--json"],
    ["show", "a", "--json=yes"],
    ["create", "a", "b", "--name", "x", "--piece-length", "16384", "--json"],
    ["convert", "a", "b", "--json"],
    ["replay", "a"],
    ["replay", "a", "b", "c"],
    ["replay", "a", "b", "--info-only", "--info-only"],
    ["replay", "a", "b", "--info-only=yes"],
    ["replay", "a", "b", "--padded", "--padded"],
    ["convert", "a", "b", "--padded"],
    ["replay", "a", "b", "--pieces", "--pieces"],
    ["replay", "a", "b", "--pieces=yes"],
    ["replay", "a", "b", "--summary", "--summary"],
    ["replay", "a", "b", "--summary=yes"],
    ["convert", "a", "b", "--summary"],
    ["convert", "a", "b", "--pieces"],
    ["replay", "a", "b", "--seed"],
    ["replay", "a", "b", "--seed", "c", "--seed", "d"],
    ["replay", "a", "b", "--answers"],
    ["replay", "a", "b", "--seeds", "c"],
    ["create", "a", "b"],
    ["create", "a", "b", "--name", "x"],
    ["create", "a", "b", "--piece-length", "16384"],
    ["create", "a", "--name", "x", "--piece-length", "16384"],
    ["create", "a", "b", "c", "--name", "x", "--piece-length", "16384"],
    ["create", "a", "b", "--name", "x", "--piece-length", "16 KiB"],
    ["create", "a", "b", "--name", "x", "--piece-length", ""],
    ["create", "a", "b", "--name", "x", "--piece-length=-1"],
    ["create", "a", "b", "--name", "x", "--piece-length", "18446744073709551616"],
    ["create", "a", "b", "--name", "x", "--name", "y", "--piece-length", "16384"],
    ["create", "a", "b", "--name", "x", "--piece-length", "16384", "--hybrid", "--hybrid"],
    ["create", "a", "b", "--name", "x", "--piece-length", "16384", "--exclude"],
    ["create", "a", "b", "--name", "x", "--piece-length", "16384", "--exclude", ""],
    ["create", "a", "b", "--name", "x", "--piece-length", "16384", "--exclude", "ok", "--exclude", "["],
    ["create", "a", "b", "--name", "x", "--piece-length", "16384", "--exclude", "[z-a]"],
    ["create", "a", "b", "--name", "x", "--piece-length", "16384", "--exclude", "a\\"],
    ["create", "a", "b", "--exclude", "x", "--piece-length", "16384"],
    ["create", "--file", "a", "--name", "x", "--piece-length", "16384"],
    ["create", "a", "b", "--file", "c", "--name", "x", "--piece-length", "16384"],
    ["create", "--file", "a", "b", "c", "--name", "x", "--piece-length", "16384"],
    ["create", "--file", "a", "--file", "b", "c", "--name", "x", "--piece-length", "16384"],
    ["create", "a", "b", "--name", "x", "--piece-length", "16384", "--follow-symlinks=yes"],
    ["create", "a", "b", "--name", "x", "--piece-length", "16384", "--skip-special", "--skip-special"],
    ["check", "a", "b", "--exclude", "x"],
    ["check", "a", "b", "--follow-symlinks"],
    ["root", "--file", "a"],
    ["convert", "a"],
    ["convert", "a", "b", "c"],
    ["convert", "a", "b", "--hybrid"],
]


def test_refused_arguments():
    for arguments in REFUSED:
        done = run(*arguments)
        expect(done, 2, b"", None)
        assert done.stderr.startswith(b"error: "), (arguments, done.stderr)


def expect_refused_value(done, value, option, command):
    """The error names the value and the option, and shows how that command is used."""
    expect(done, 2, b"", None)
    text = done.stderr.decode()
    quoted = value.replace('"', '\\"')
    assert text.startswith(f"error: invalid value \"{quoted}\" for '{option}': it is not "), (value, text)
    assert f"\nUsage: btcheck {command} " in text and text.endswith("\n\nFor more information, try '--help'.\n"), (value, text)


def test_what_is_said_of_a_piece_length_that_is_none():
    for text in ["16 KiB", "1q", "", "1T", 'a"b']:
        for more in ([], ["--part", "1/2"], ["--part", "2/1"]):
            done = run("create", "a", "b", "--name", "x", "--piece-length", text, *more)
            expect_refused_value(done, text, "--piece-length <K>", "create")
    for part in PARTS:
        done = run("create", "a", "b", "--name", "x", "--piece-length", "1M", f"--part={part}")
        expect_refused_value(done, part, "--part <I/N>", "create")


def test_what_is_said_of_a_part_that_is_refused():
    """What the option has in its place is not opened: neither the torrent nor the folder is there."""
    for part in PARTS:
        expect_refused_value(run("check", "a", "b", f"--part={part}"), part, "--part <I/N>", "check")
    for option in NOT_OF_PARTS:
        for arguments in (["--part", "1/2", option], [option, "--part", "1/2"], [option, "--part", "2/1"]):
            done = run("check", "a", "b", *arguments)
            expect(done, 2, b"", None)
            assert done.stderr.startswith(b"error: the argument '--part <I/N>' cannot be used with"), (arguments, done)
            assert b"\nUsage: btcheck check " in done.stderr, (arguments, done)
    for part in ("1/1", "+1/+2", "01/02", "18446744073709551615/18446744073709551615"):
        for more in ([], ["--bad"]):
            expect(run("check", "a", "b", "--part", part, *more), 2, b"", "fault: cannot read a\n")


# Mistyped arguments, with what clap says of them and what it suggests, if anything is close.
MISTYPED = [
    (["chek", "a", "b"], "unrecognized subcommand 'chek'", "a similar subcommand exists: 'check'"),
    (["rot", "a"], "unrecognized subcommand 'rot'", "a similar subcommand exists: 'root'"),
    (["creat"], "unrecognized subcommand 'creat'", "some similar subcommands exist: 'replay', 'create'"),
    (["xyz"], "unrecognized subcommand 'xyz'", None),
    (["--verson"], "unexpected argument '--verson' found", "a similar argument exists: '--version'"),
    (["replay", "a", "b", "--sed", "c"], "unexpected argument '--sed' found", "a similar argument exists: '--seed'"),
    (["replay", "a", "b", "--info"], "unexpected argument '--info' found", "a similar argument exists: '--info-only'"),
    (["create", "a", "b", "--nam", "x"], "unexpected argument '--nam' found", "a similar argument exists: '--name'"),
    (["check", "a", "--deep", "b"], "unexpected argument '--deep' found", "to pass '--deep' as a value, use '-- --deep'"),
]


def test_what_mistyped_arguments_may_mean():
    for arguments, fault, suggested in MISTYPED:
        done = run(*arguments)
        expect(done, 2, b"", None)
        error_lines = done.stderr.decode().splitlines()
        assert error_lines[0] == f"error: {fault}" and error_lines[-1] == "For more information, try '--help'.", (arguments, error_lines)
        tips = [line.removeprefix("  tip: ") for line in error_lines if line.startswith("  tip: ")]
        assert tips == ([suggested] if suggested else []), (arguments, error_lines)


def test_help():
    for arguments in [["--help"], ["-h"], ["help"]]:
        done = run(*arguments)
        expect(done, 0, None, b"")
        for command in COMMANDS:
            assert f"\n  {command} ".encode() in done.stdout, (arguments, done.stdout)


def test_help_of_each_command():
    for command in COMMANDS:
        for arguments in [[command, "--help"], [command, "-h"], ["help", command]]:
            done = run(*arguments)
            expect(done, 0, None, b"")
            assert f"Usage: btcheck {command} ".encode() in done.stdout, (arguments, done.stdout)


def test_help_if_standard_output_fails():
    with open("/dev/full", "wb") as full:
        expect(run("--help", stdout=full), 2, None, "fault: cannot write -\n")
    expect(run("--help", stdout=None, preexec_fn=lambda: os.close(1)), 2, None, "fault: cannot write -\n")


def test_long_help_has_examples_and_statuses():
    done = run("--help")
    for command in COMMANDS:
        assert f"\n  btcheck {command} ".encode() in done.stdout, done.stdout
    assert b"Exit status:" in done.stdout and b"Exit status:" in run("-h").stdout


def test_the_version_is_that_of_the_documents():
    """It names the logic that the program is proved in. Every build of the kit that has this logic will do."""
    with open(f"{TOP}/README.md", encoding="utf-8") as file:
        logic = re.search(r"\blogic ([0-9a-f]{16})\b", file.read())[1]
    with open(f"{TOP}/CHANGELOG.md", encoding="utf-8") as file:
        number, coming = re.search(r"^## ([0-9.]+)(, not yet released)?", file.read(), re.M).groups()
    version = f"{number}~dev" if coming else number
    for flag in ["--version", "-V"]:
        expect(run(flag), 0, f"btcheck {version} (proved with logic {logic})\n", b"")
    if shutil.which("rt"):
        here = re.search(r"\blogic ([0-9a-f]+)", run("version", program="rt").stdout.decode())
        assert here and here[1] == logic, f"the kit here has logic {here and here[1]}, the documents name {logic}"

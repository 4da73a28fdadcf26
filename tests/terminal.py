"""Runs of the program with a terminal for standard error, and what then stands on the screen."""
import os
import pty
import signal
import subprocess
import threading
import time
import tty
import unicodedata

from support import BTCHECK


def width_of(letter):
    """The columns of a letter, of those that the tests print."""
    if unicodedata.combining(letter):
        return 0
    return 2 if unicodedata.east_asian_width(letter) in "WF" else 1


NO_WRAP, WRAP = "\x1b[?7l", "\x1b[?7h"


def screen(text, columns=None):
    """The lines that a terminal of this width shows of this text, or one without a right edge. Between the two
    control sequences it begins no new line at that edge, but writes on in the last column."""
    lines, column, wraps = [{}], 0, True
    for letter in text.replace(NO_WRAP, "\x0e").replace(WRAP, "\x0f"):
        if letter in "\x0e\x0f":
            wraps = letter == "\x0f"
            continue
        if columns and width_of(letter) > 0 and letter not in "\r\n" and column + width_of(letter) > columns:
            lines += [{}] * wraps
            column = 0 if wraps else columns - width_of(letter)
        if letter == "\r":
            column = 0
        elif letter == "\n":
            lines.append({})
            column = 0
        elif width_of(letter) > 0:
            lines[-1][column] = letter
            for at in range(column + 1, column + width_of(letter)):
                lines[-1].pop(at, None)
            column += width_of(letter)
    return ["".join(line.get(at, " ") for at in range(max(line, default=-1) + 1)).rstrip() for line in lines]


def drawn(text):
    """The lines that were drawn over one another, without the spaces that hide earlier ones."""
    text = text.replace(NO_WRAP, "").replace(WRAP, "")
    return [line.rstrip(" ") for line in text.split("\r") if line.strip(" \n")]


def cut_off(count, *arguments):
    """Runs the program with a terminal for standard output, which is interrupted once it has printed `count` lines. Gives
    the status, and what was printed. A shell that runs the tests in the background has them ignore interrupts."""
    ours, theirs = pty.openpty()
    tty.setraw(theirs)
    program = subprocess.Popen([BTCHECK, *arguments], stdout=theirs, stderr=subprocess.DEVNULL,
                               preexec_fn=lambda: signal.signal(signal.SIGINT, signal.SIG_DFL))
    os.close(theirs)
    text = b""
    while text.count(b"\n") < count:
        text += os.read(ours, 65536)
    program.send_signal(signal.SIGINT)
    status = program.wait(timeout=60)
    os.close(ours)
    return status, text.decode()


def arrivals(*arguments, begin):
    """Runs the program with a terminal for standard output, and calls `begin` as it starts. Gives the status, and each line
    that it printed, with the time by `time.monotonic` when it came."""
    ours, theirs = pty.openpty()
    tty.setraw(theirs)
    program = subprocess.Popen([BTCHECK, *arguments], stdin=subprocess.DEVNULL, stdout=theirs, stderr=subprocess.DEVNULL)
    begin()
    os.close(theirs)
    text, lines = b"", []
    while part := read_or_end(ours):
        text += part
        whole = text.count(b"\n")
        lines += [(line.decode(), time.monotonic()) for line in text.split(b"\n")[len(lines):whole]]
    os.close(ours)
    return program.wait(timeout=60), lines


def read_or_end(terminal):
    """What a terminal was sent, or nothing once no program has it any more."""
    try:
        return os.read(terminal, 65536)
    except OSError:
        return b""


def on_terminal(*arguments, columns=None, term="xterm", both=False, output_alone=False, feed=None, **environment):
    """Runs the program with a terminal for standard error, with `both` for standard output too, and with `output_alone`
    for standard output alone. `feed` is given the file that standard input comes from. Gives the status, the other of the
    two streams if it is no terminal, and what the terminal was sent."""
    known = {name: text for name, text in os.environ.items() if name not in ("COLUMNS", "TERM")}
    known |= {name: str(text) for name, text in [("COLUMNS", columns), ("TERM", term)] if text is not None} | environment
    ours, theirs = pty.openpty()
    tty.setraw(theirs)
    sent = []

    def collect():
        try:
            while part := os.read(ours, 65536):
                sent.append(part)
        except OSError:
            pass

    reader = threading.Thread(target=collect)
    program = subprocess.Popen([BTCHECK, *arguments], stdin=subprocess.PIPE if feed else subprocess.DEVNULL,
                               stdout=theirs if both or output_alone else subprocess.PIPE,
                               stderr=subprocess.PIPE if output_alone else theirs, env=known)
    os.close(theirs)
    reader.start()
    if feed:
        with program.stdin as pipe:
            feed(pipe)
    other = program.stderr if output_alone else program.stdout
    out = other.read() if other else b""
    status = program.wait(timeout=120)
    if other:
        other.close()
    reader.join(timeout=20)
    os.close(ours)
    return status, out.decode(), b"".join(sent).decode(errors="surrogateescape")

"""Runs bench on input that fails or comes in parts, and with standard output that takes nothing or a part.

Each case is held to all of standard output, all of standard error and the status, within a time limit.
"""
import os
import pathlib
import re
import resource
import signal
import socket
import subprocess
import sys
import tempfile
import threading

BENCH = os.path.abspath("crates/bench/out/bench")
LIMIT = 20
READ = b"bench: a read from standard input failed\n"
WRITE = b"bench: a write to standard output failed\n"

SHEET = pathlib.Path("tests/cases/case-7.sheet").read_bytes()
LINES = SHEET.splitlines(keepends=True)
PRINTED = pathlib.Path("tests/cases/case-7.out").read_bytes()

done, wrong = 0, 0


def case(name, out, err, status=0, **how):
    """bench prints out and err, and ends with the status."""
    global done, wrong
    done += 1
    how = {"stdin": subprocess.DEVNULL, "stdout": subprocess.PIPE, **how}
    with subprocess.Popen([BENCH], stderr=subprocess.PIPE, **how) as program:
        try:
            seen = program.communicate(timeout=LIMIT)
        except subprocess.TimeoutExpired:
            program.kill()
            seen = program.communicate()
            print("input: %s: not done in %d seconds" % (name, LIMIT))
    met = (seen[0] or b"", seen[1], program.returncode)
    if met != (out, err, status):
        wrong += 1
        print("input: %s: expected, and met:\n  %r\n  %r" % (name, (out, err, status), met))


def piped(write):
    """The reading end of a pipe; a thread writes by the function and then closes the other end.

    The pipe is in packet mode: what one call writes is not joined to what the next one does.
    """
    reading, writing = os.pipe2(os.O_DIRECT | os.O_CLOEXEC)

    def feed():
        try:
            write(writing)
        except BrokenPipeError:
            pass
        os.close(writing)

    threading.Thread(target=feed, daemon=True).start()
    return reading


def pipe_case(name, write, out, err=b"", **how):
    """bench reads from a pipe."""
    reading = piped(write)
    case(name, out, err, stdin=reading, **how)
    os.close(reading)


def one_by_one(text):
    """Writes a text in single bytes."""
    return lambda pipe: [os.write(pipe, text[i:i + 1]) for i in range(len(text))]


def endless(pipe):
    """Writes for as long as anybody reads."""
    while True:
        os.write(pipe, b"0" * 4096)


def reset_after(text):
    """A socket that gives the text and then fails: its other end was closed with a byte unread."""
    near, far = socket.socketpair()
    far.sendall(text)
    near.sendall(b"?")
    far.close()
    return near


def reading():
    """Reads that fail: nothing is played and nothing printed."""
    case("closed input", b"", READ, preexec_fn=lambda: os.close(0))
    folder = os.open("tests", os.O_RDONLY)
    case("a directory", b"", READ, stdin=folder)
    os.close(folder)
    for count in range(len(LINES) + 1):
        near = reset_after(b"".join(LINES[:count]))
        case("reset after %d lines" % count, b"", READ, stdin=near)
        near.close()
    # The same lines at the input's end are played: it is the failing read that is told.
    pipe_case("two lines", lambda pipe: os.write(pipe, b"".join(LINES[:2])), b"0100000000\n0200000000\n0300000000\n")
    waiting, kept = os.pipe()
    os.set_blocking(waiting, False)
    case("nothing there yet, and a read that does not wait", b"", READ, stdin=waiting)
    os.close(waiting)
    os.close(kept)
    case("closed input and closed standard error", b"", b"", preexec_fn=lambda: (os.close(0), os.close(2)))


def parts():
    """Input that ends early or comes in parts."""
    text = b"".join(LINES[:2])
    pipe_case("writer ends inside a line", lambda pipe: os.write(pipe, text + LINES[2][:5]), b"FF150003\n")
    pipe_case("writer ends before a newline", lambda pipe: os.write(pipe, SHEET[:-1]), b"FF150004\n")
    pipe_case("writer ends at a line's end", lambda pipe: os.write(pipe, b"".join(LINES[:3])),
              b"0100050000\n0200050000\n0300050000\n")
    pipe_case("empty input", lambda pipe: None, b"FF160001\n")
    pipe_case("one byte at a time", one_by_one(SHEET), PRINTED)
    pipe_case("a pipe that does not end", endless, b"FF140000\n")


def writing():
    """Writes that fail."""
    sheet = lambda: open("tests/cases/case-7.sheet", "rb")
    with sheet() as given, open("/dev/full", "wb") as full:
        case("full standard output", b"", WRITE, stdin=given, stdout=full)
    with sheet() as given:
        case("closed standard output", b"", WRITE, stdin=given, preexec_fn=lambda: os.close(1))
    # A limit in the middle of the first line: the first write takes a part, and the next one, of the rest, fails.
    with sheet() as given, tempfile.TemporaryFile() as file:
        limit = lambda: (signal.signal(signal.SIGXFSZ, signal.SIG_IGN), resource.setrlimit(resource.RLIMIT_FSIZE, (4, 4)))
        case("standard output full in the middle", b"", WRITE, stdin=given, stdout=file, preexec_fn=limit)
        file.seek(0)
        check("what came before it was full", file.read(), PRINTED[:4])
    # Nobody reads: the write fails, also where the signal is not ignored before, since the start of a program ignores it.
    for action, err, status in (signal.SIG_DFL, WRITE, 0), (signal.SIG_IGN, WRITE, 0):
        unread, out = os.pipe()
        os.close(unread)
        with sheet() as given:
            case("nobody reads", b"", err, status, stdin=given, stdout=out, restore_signals=False,
                 preexec_fn=lambda: signal.signal(signal.SIGPIPE, action))
        os.close(out)


def check(name, met, expected):
    """One more fact of the case before."""
    global wrong
    if met != expected:
        wrong += 1
        print("input: %s: expected %r, and met %r" % (name, expected, met))


def stack():
    """Every kept sheet prints as ever with the stack that docs/SHEETS.md names."""
    named = re.search(r"stack of ([0-9]+) KiB", pathlib.Path("docs/SHEETS.md").read_text(encoding="utf-8"))
    if not named:
        check("stack in docs/SHEETS.md", None, "a stack of N KiB")
        return
    size = int(named.group(1)) * 1024
    for path in sorted(pathlib.Path("tests/corpus").glob("*.sheet")):
        with path.open("rb") as given:
            printed = subprocess.run([BENCH], stdin=given, stdout=subprocess.PIPE, timeout=LIMIT).stdout
        with path.open("rb") as given:
            case("small stack, " + path.stem, printed, b"", stdin=given, env={},
                 preexec_fn=lambda: resource.setrlimit(resource.RLIMIT_STACK, (size, size)))


for part in reading, parts, writing, stack:
    part()
print("input: %d cases, %d wrong" % (done, wrong))
sys.exit(1 if wrong else 0)

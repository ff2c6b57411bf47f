"""Runs of a tool beside a plain peer: the program with its streams, and what the peer answers to PUT.

Standard input is a pipe, which is written in given pieces. Output and log go to files, which can be looked at while the
program runs."""

import collections
import contextlib
import fcntl
import os
import pathlib
import struct
import subprocess
import sys
import tempfile
import termios
import time
import typing

from peers import (
    ADMITTED, DUPLICATE, LOCKED, NOT_ACCEPTED, PATIENCE, PUT, TIME_END, TOO_BIG,
    Wrong, call, expect, instant, number, record,
)  # fmt: skip
from program import PROGRAM as TRIED

PROGRAM = pathlib.Path(sys.argv[1]).resolve() if sys.argv[1:] else TRIED

HOST = "127.0.0.1"
LONG = 2**64 - 1

# How long a peer looks whether something comes that may not come, in seconds.
PAUSE = 0.15

# A file that takes no byte.
FULL = pathlib.Path("/dev/full")

# What was compared so far.
COUNTS = collections.Counter()


def now():
    """The moment as the program has it, in microseconds since the beginning of 1970."""
    return time.time_ns() // 1_000


def spelled(text):
    """An origin or an ident as answers have it: bytes from 0x21 to 0x7E for themselves, but `%`."""
    if text in (b"", b"-"):
        return {b"": "-", b"-": "%2D"}[text]
    return "".join(chr(byte) if 0x21 <= byte <= 0x7E and byte != 0x25 else f"%{byte:02X}" for byte in text)


class Ran(typing.NamedTuple):
    """How a program ended, and what it wrote."""

    status: int
    output: bytes
    log: bytes


class Run:
    """A run of the program with these words. Its source is a pipe, or the file of that path."""

    def __init__(self, folder, words, source=None, output=None, log=None):
        self.paths = [output or folder / "output", log or folder / "log"]
        given = subprocess.PIPE if source is None else os.open(source, os.O_RDONLY)
        with open(self.paths[0], "wb") as output, open(self.paths[1], "wb") as log:
            streams = {"stdin": given, "stdout": output, "stderr": log}
            self.program = subprocess.Popen([PROGRAM, *map(str, words)], bufsize=0, **streams)
        if source is not None:
            os.close(given)

    def __enter__(self):
        return self

    def __exit__(self, *_):
        self.end_source()
        if self.program.poll() is None:
            self.program.kill()
        self.program.wait()

    def write(self, piece):
        """Gives the program a piece; one that it does not take any more is dropped."""
        view = memoryview(piece)
        with contextlib.suppress(BrokenPipeError):
            while view:
                view = view[os.write(self.program.stdin.fileno(), view) :]

    def unread(self):
        """The bytes that were given and not read."""
        return struct.unpack("i", fcntl.ioctl(self.program.stdin, termios.FIONREAD, bytes(4)))[0]

    def until_read(self):
        """Waits until all that was given is read, so that the next piece comes by itself."""
        last = time.monotonic() + PATIENCE
        while self.program.poll() is None and self.unread():
            if time.monotonic() > last:
                raise Wrong("what was given is not read")
            time.sleep(0.0002)

    def give(self, pieces, one_by_one=True):
        """Gives the program all pieces, each once the one before was read, and then the end of the stream."""
        for piece in pieces:
            self.write(piece)
            if one_by_one:
                self.until_read()
        self.end_source()

    def end_source(self):
        if self.program.stdin:
            self.program.stdin.close()

    def sockets(self):
        """How many sockets the program has open."""
        folder = f"/proc/{self.program.pid}/fd"
        return sum(os.readlink(f"{folder}/{name}").startswith("socket:") for name in os.listdir(folder))

    def written(self):
        """How many bytes the output and the log have."""
        return [path.stat().st_size for path in self.paths]

    def until_logged(self, text):
        """Waits until the log has this text and no more."""
        last = time.monotonic() + PATIENCE
        while self.program.poll() is None and self.text(1) != text:
            if time.monotonic() > last:
                raise Wrong(f"the log does not come to {text!r}")
            time.sleep(0.0002)

    def text(self, which=0):
        return b"" if self.paths[which] == FULL else self.paths[which].read_bytes()

    def end(self):
        try:
            status = self.program.wait(PATIENCE)
        except subprocess.TimeoutExpired:
            raise Wrong(f"it did not end within {PATIENCE} seconds") from None
        return Ran(status, self.text(0), self.text(1))


def hear_put(peer, xid, product, earliest):
    """Takes the next PUT, which has to be that of the product, made between that moment and now."""
    content = peer.next_record()
    if content is None:
        raise Wrong(f"the link ended where PUT {xid} was awaited")
    seconds, micros = struct.unpack_from(">II", content.ljust(48), 40)
    arrival = seconds * 1_000_000 + micros
    expect(content[:48], call(xid, PUT, instant(arrival))[4:], f"the front of PUT {xid}")
    expect(content[40:], product._replace(arrival=arrival).whole(), f"PUT {xid} of {product.ident!r}")
    if not earliest <= arrival <= now():
        raise Wrong(f"PUT {xid} has the arrival {arrival}, before {earliest} or after now")
    COUNTS["PUTs"] += 1


def nothing_comes(peer):
    """Whether the peer of a connection sends nothing for a while, and keeps it open."""
    if peer.kept:
        return False
    peer.connection.settimeout(PAUSE)
    try:
        peer.kept = peer.connection.recv(65_536)
    except TimeoutError:
        return True
    return False


class Answer(typing.NamedTuple):
    """What PUT is answered: the result, and the line that tells it."""

    result: bytes
    line: bytes
    code: int


WORDS = {ADMITTED: "admitted", TOO_BIG: "toobig", DUPLICATE: "duplicate", TIME_END: "timeend", LOCKED: "locked"}


def answer(code, *numbers):
    """The answer of that code and with these numbers."""
    line = " ".join([WORDS[code], *map(str, numbers)]) + "\n" if code in WORDS else ""
    return Answer(number(code) + struct.pack(f">{len(numbers)}Q", *numbers), line.encode(), code)


DENY = answer(NOT_ACCEPTED)

# Each way to refuse, with the least and the greatest numbers.
REFUSALS = [
    answer(TOO_BIG, 200, 168),
    answer(TOO_BIG, LONG, 0),
    answer(DUPLICATE, 0),
    answer(DUPLICATE, LONG),
    answer(TIME_END),
    answer(LOCKED, 0),
    answer(LOCKED, LONG),
]


def admissions():
    """Answers that admit, without an end."""
    yield answer(ADMITTED, 0, 100, 0)
    yield answer(ADMITTED, LONG, LONG, LONG)
    count = 2
    while True:
        yield answer(ADMITTED, count, 2**40 + count, count % 7)
        count += 1


def in_fragments(content, size):
    """The record of that content in fragments of that size, each with one of no bytes before it."""
    pieces = [content[at : at + size] for at in range(0, len(content), size)]
    front = b"".join(number(0) + number(len(piece)) + piece for piece in pieces[:-1])
    return front + number(0) + record(pieces[-1])


def try_all(cases, name):
    """Tries all cases; ends with the name of the first that does not pass, or tells what was compared."""
    with tempfile.TemporaryDirectory() as folder:
        for case in cases:
            try:
                case(pathlib.Path(folder))
            except (Wrong, OSError) as why:
                sys.exit(f"{name}: {case.__name__}: {why or type(why).__name__}")
    told = ", ".join(f"{count} {what}" for what, count in COUNTS.items())
    print(f"{name}: {told} as a plain program has them")

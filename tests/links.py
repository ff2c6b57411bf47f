#!/usr/bin/env python3
"""Looks at how long programs wait for a peer that does not do its part, and at their other manners towards the system.

The limits are the times in docs/node.md. Cases that wait for one run side by side, so that all take about as long as
the longest, 120 seconds. Each program that was started is ended at the end.

Called as: tests/links.py [PROGRAM [CASE ..]]. The program is that of tests/program.py, where none is named; with names of cases only these
are tried."""

import concurrent.futures
import contextlib
import os
import pathlib
import shutil
import socket
import subprocess
import sys
import tempfile
import time

from peers import (
    ADMITTED, ANY, BLOCK, DDS, FEEDME, HEREIS, IS_ALIVE, NOTIFYME, OK, PUT, QSTAT,
    Peer, Product, Upstream, Wrong, call, expect, hold_port, number, port_of, product_class, reply,
)  # fmt: skip
from program import PROGRAM, leave_out

HERE = pathlib.Path(__file__).resolve().parent

HOST = "127.0.0.1"
OPEN = "ALLOW ANY .*\nACCEPT ANY .* .*\n"

# The limits, in seconds, and the rate, in bytes a second.
REQUEST, REPLY, GRACE, SESSION, RATE = 60, 120, 20, 10, 8_192

# How much later than due a machine with much other work may tell of an end, in seconds.
LATE = 6


def expect_after(seconds, due, what):
    """Says that something came when it was due."""
    if not due - 1 <= seconds <= due + LATE:
        raise Wrong(f"{what}: after {seconds:.1f} seconds, not after {due}")


class Place:
    """A folder, and the programs that run in it."""

    def __init__(self, folder):
        self.folder = pathlib.Path(folder)
        self.running = []
        self.held = []
        self.count = 0

    def free_port(self):
        self.held.append(hold_port())
        return port_of(self.held[-1])

    def file(self, name, content):
        (self.folder / name).write_text(content)
        return name

    def start(self, *words, shell="", program=None, **more):
        """A program of these words, as a shell starts it with these redirections; its output and log go to files."""
        self.count += 1
        log = self.folder / f"log.{self.count}"
        streams = {"stdin": subprocess.DEVNULL, "stdout": self.folder / f"output.{self.count}", "stderr": log} | more
        with contextlib.ExitStack() as stack:
            for name, path in streams.items():
                if isinstance(path, pathlib.Path):
                    streams[name] = stack.enter_context(open(path, "wb"))
            line = ["sh", "-c", f'exec "$@" {shell}', "sh", program or PROGRAM, *map(str, words)]
            started = subprocess.Popen(line, cwd=self.folder, **streams)
        started.log_file, started.output_file = log, self.folder / f"output.{self.count}"
        self.running.append(started)
        return started

    def run(self, *words, within=30, **more):
        """The status of a program, and its log."""
        program = self.start(*words, **more)
        try:
            status = program.wait(within)
        except subprocess.TimeoutExpired:
            raise Wrong(f"{words} did not end within {within} seconds") from None
        return status, program.log_file.read_text()

    def node(self, conf, *options, **more):
        return Node(self, conf, options, **more)

    def end_all(self):
        for program in self.running:
            if program.poll() is None:
                program.kill()
            program.wait()
        for holder in self.held:
            holder.close()


class Node:
    """A node that listens."""

    def __init__(self, place, conf, options, **more):
        self.port = place.free_port()
        self.at = f"{HOST}:{self.port}"
        conf = place.file(f"ldmd.conf.{self.port}", conf)
        self.program = place.start("node", "-p", self.port, *options, conf, **more)
        last = time.monotonic() + 30
        while True:
            with contextlib.suppress(ConnectionRefusedError), self.connect() as peer:
                peer.stat()
                break
            if self.program.poll() is not None or time.monotonic() > last:
                raise Wrong(f"a node does not listen: {self.log()}")
            time.sleep(0.05)
        # the line of the session that asked
        self.until_logged("session 127.0.0.1 ended")

    def connect(self, window=None):
        connection = socket.socket()
        if window is not None:
            connection.setsockopt(socket.SOL_SOCKET, socket.SO_RCVBUF, window)
        connection.settimeout(30)
        connection.connect((HOST, self.port))
        connection.setsockopt(socket.IPPROTO_TCP, socket.TCP_NODELAY, 1)
        return Peer(connection)

    def log(self):
        return self.program.log_file.read_text().split("\n")[:-1]

    def until_logged(self, line, times=1, within=30):
        """How long it takes until the line was logged so often."""
        began = time.monotonic()
        while self.log().count(line) < times:
            if time.monotonic() - began > within:
                raise Wrong(f"{line!r} does not stand {times} times in the log within {within} seconds: {self.log()}")
            time.sleep(0.02)
        return time.monotonic() - began


def until_closed(peer, between=None, every=1, most=200):
    """How long it takes until the other end closes, while something is done every so many seconds."""
    began = time.monotonic()
    following = began
    while time.monotonic() - began < most:
        try:
            if between and time.monotonic() >= following:
                following += every
                between()
            peer.connection.settimeout(0.1)
            if not peer.connection.recv(65_536):
                break
        except TimeoutError:
            pass
        except OSError:
            break
    else:
        raise Wrong(f"the other end did not close within {most} seconds")
    return time.monotonic() - began


# What is awaited has a time


def ends_who_asks_nothing(place):
    """A connection on which no request came for a minute is over, whatever comes that is answered by nothing."""
    node = place.node(OPEN)
    with node.connect() as peer:
        peer.stat()
        time.sleep(5)
        peer.stat()
        expect_after(until_closed(peer, lambda: peer.call(IS_ALIVE), 7), REQUEST, "a peer that asks nothing is given up")
    node.until_logged("session 127.0.0.1 linkfault")


def ends_a_record_that_trickles(place):
    """A record that was begun has to go on at the least rate."""
    node = place.node(OPEN)
    message = call(1, PUT, Product(b"slow", b"s" * 100_000).whole())
    with node.connect() as peer:
        peer.send(message[:50])
        rest = iter(message[50:])
        took = until_closed(peer, lambda: peer.connection.send(bytes([next(rest)])), 0.5)
        expect_after(took, GRACE, "a peer whose record comes byte by byte is given up")
    node.until_logged("session 127.0.0.1 linkfault")


def ends_a_record_that_is_too_slow(place):
    """At half of the least rate a record has twice as long."""
    node = place.node(OPEN)
    message = call(1, PUT, Product(b"slow", b"s" * 2_000_000).whole())
    with node.connect() as peer:
        at = 0

        def more():
            nonlocal at
            peer.connection.send(message[at : at + RATE // 4])
            at += RATE // 4

        expect_after(until_closed(peer, more, 0.5), 2 * GRACE, "a peer whose record comes at half of the rate is given up")
    node.until_logged("session 127.0.0.1 linkfault")


def bears_a_record_that_is_slow(place):
    """Above the least rate a record may take longer than any limit on silence of it."""
    node = place.node(OPEN)
    message = call(1, PUT, Product(b"slow", b"s" * 500_000).whole())
    with node.connect() as peer:
        peer.xid = 1
        for at in range(0, len(message), RATE // 2 + 1_024):
            peer.send(message[at : at + RATE // 2 + 1_024])
            time.sleep(0.5)
        expect(peer.hear()[:4], number(ADMITTED), "the answer to a PUT that came slowly")


def ends_a_feed_that_trickles(place):
    """The same of who feeds a node that asked."""
    with Upstream() as upstream:
        node = place.node(f"REQUEST ANY .* {HOST}:{upstream.port}\nALLOW ANY .*\n")
        with upstream.asked(product_class([(ANY, b".*")]) + number(BLOCK)) as peer:
            peer.send(call(1, HEREIS, Product(b"a", b"a" * 9_000).whole())[:-500])
            took = until_closed(peer, lambda: peer.connection.send(b"a"), 0.5)
            expect_after(took, GRACE, "a feeder whose record comes byte by byte is given up")
        node.until_logged("session 127.0.0.1 linkfault")


def answers(place, answer, due):
    """A tool whose node takes its call, and answers a byte a second, gives up then."""
    with socket.create_server((HOST, 0)) as listener:
        program = place.start("pqmon", "-q", f"{HOST}:{port_of(listener)}")
        with listener.accept()[0] as connection:
            peer = Peer(connection)
            expect(peer.next_record(), call(1, QSTAT)[4:], "what pqmon asks")
            rest = iter(answer)
            took = until_closed(peer, answer and (lambda: connection.send(bytes([next(rest)]))))
        expect((program.wait(30), program.log_file.read_text()), (69, "ldm: net fault\n"), "pqmon")
    expect_after(took, due, "a node that answers nothing is given up")


def ends_without_a_reply(place):
    answers(place, b"", REPLY)


def ends_a_reply_that_trickles(place):
    answers(place, reply(1, bytes(44)), GRACE)


def reads_slowly(place, rate, seconds, window):
    """How long a subscriber is fed that takes so many bytes a second, from a node that has much for it; None where it is fed on."""
    node = place.node(OPEN)
    with node.connect() as peer:
        for i in range(16):
            expect(peer.put(Product(b"%d" % i, bytes([i]) * 1_000_000))[0], ADMITTED, "the answer to a PUT")
    with node.connect(window) as peer:
        peer.send(call(1, FEEDME, product_class([(ANY, b".*")]) + number(2**31)))
        began = time.monotonic()
        while time.monotonic() - began < seconds:
            time.sleep(0.25)
            peer.connection.settimeout(1)
            with contextlib.suppress(TimeoutError):
                if rate:
                    peer.connection.recv(rate // 4)
            if "session 127.0.0.1 linkfault" in node.log():
                return time.monotonic() - began
    return None


def ends_who_reads_nothing(place):
    """What the system takes in for the subscriber counts as taken: some 100,000 bytes, which are worth 12 seconds more."""
    took = reads_slowly(place, 0, 80, 4_096)
    if took is None or not GRACE - 1 < took < GRACE + 40:
        raise Wrong(f"a subscriber that takes nothing was given up after {took} seconds")


def bears_who_reads_slowly(place):
    expect(reads_slowly(place, 40_000, 45, 65_536), None, "when a subscriber was given up that takes 40,000 bytes a second")


# A peer that went


def misses_who_went(place):
    """A feeder and a notifier that have nothing to send notice within a second that their peer closed or reset."""
    node = place.node(OPEN)
    lines = 0
    for procedure, body in (FEEDME, product_class([(ANY, b".*")]) + number(BLOCK)), (NOTIFYME, product_class([(ANY, b".*")])):
        for end in (lambda peer: peer.connection.close(), Peer.reset, Peer.say_no_more):
            with node.connect() as peer:
                expect(peer.ask(procedure, body), number(OK), "the answer")
                time.sleep(1)
                end(peer)
                lines += 1
                took = node.until_logged("session 127.0.0.1 linkfault", lines)
                if took > 2:
                    raise Wrong(f"a peer that went was missed after {took:.1f} seconds")


# Rests between tries


def rests_longer_and_longer(place):
    """A node whose host does not listen tries again after 50 milliseconds, and then each time after twice as long."""
    port = place.free_port()
    node = place.node(f"REQUEST ANY .* {HOST}:{port}\nALLOW ANY .*\n")
    line = f"unreached {HOST}"
    began = time.monotonic()
    node.until_logged(line, 7)
    time.sleep(max(0, 10 - (time.monotonic() - began)))
    found = node.log().count(line)
    if not 7 <= found <= 9:
        raise Wrong(f"{found} tries in ten seconds, not 8")


def rests_briefly_with_a_number(place):
    """With -x each rest has 50 milliseconds."""
    port = place.free_port()
    conf = place.file("asks.conf", f"REQUEST ANY .* {HOST}:{port}\n")
    began = time.monotonic()
    status, log = place.run("node", "-p", place.free_port(), "-n", 0, "-x", 40, conf)
    expect((status, log), (0, f"unreached {HOST}\n" * 41), "a node with -x")
    if not 2 <= time.monotonic() - began <= 25:
        raise Wrong(f"40 rests took {time.monotonic() - began:.1f} seconds")


def rests_by_its_sessions(place):
    """Sessions that end early are tries in vain, up to one that lasted ten seconds."""
    asked = product_class([(ANY, b".*")]) + number(BLOCK)
    with Upstream() as upstream:
        place.node(f"REQUEST ANY .* {HOST}:{upstream.port}\nALLOW ANY .*\n")
        came = []
        for lasts in (0, 0, 0, 0, 0, 0, 0, SESSION + 1, 0, 0):
            with upstream.asked(asked):
                came.append(time.monotonic())
                time.sleep(lasts)
    rests = [after - before for before, after in zip(came, came[1:])]
    for i, least in enumerate([0.05, 0.1, 0.2, 0.4, 0.8, 1.6, 3.2, SESSION + 1.05, 0.05]):
        if not least - 0.02 <= rests[i] <= 1.5 * least + 1:
            raise Wrong(f"rest {i} took {rests[i]:.2f} seconds, not {least}: {rests}")


# Streams, the clock, files


def needs_its_streams(place):
    """A standard stream that was closed is nobody else's, and its use fails."""
    node = place.node(OPEN)
    with node.connect() as peer:
        expect(peer.put(Product(b"a", b"a" * 100))[0], ADMITTED, "the answer to a PUT")
        expect(place.run("pqcat", "-q", node.at, "-c", 1, shell=">&-"), (75, "ldm: sink fault\n"), "pqcat without an output")
        expect(place.run("pqmon", "-q", node.at, shell=">&-"), (75, "ldm: sink fault\n"), "pqmon without an output")
        expect(place.run("play", 168, 10, shell="<&-"), (74, "ldm: source fault\n"), "play without an input")
        expect(place.run("pqmon", "-q", node.at, shell="2>&-"), (0, ""), "pqmon without a log")
        expect(place.run("nothing", shell="2>&-")[0], 76, "the status where a line is due without a log")
    closed = place.node(OPEN, shell="<&- >&-")
    with closed.connect() as peer:
        peer.stat()
        streams = [os.readlink(f"/proc/{closed.program.pid}/fd/{i}") for i in (0, 1)]
    expect(streams, ["/dev/null"] * 2, "the streams of a node without them")


def goes_on_where_the_clock_is_set_back(place):
    """`pqmon -i` asks again when its second has passed, also where the clock of the system was set back by an hour meanwhile."""
    compiler = shutil.which("cc")
    if not compiler:
        leave_out("cc", "a clock that is set back")
        return
    library = place.folder / "set_back.so"
    subprocess.run([compiler, "-O1", "-shared", "-fPIC", "-o", library, HERE / "set_back.c", "-ldl"], check=True)
    node = place.node(OPEN)
    for more in ({}, {"LD_PRELOAD": str(library)}):
        began = time.monotonic()
        program = place.start("pqmon", "-i", 1, "-q", node.at, env=os.environ | more)
        while program.output_file.read_text().count("stat ") < 4:
            if time.monotonic() - began > 30 or program.poll() is not None:
                raise Wrong(f"pqmon -i 1 with {more} writes {program.output_file.read_text()!r} in {time.monotonic() - began:.0f} seconds")
            time.sleep(0.02)
        if time.monotonic() - began < 3:
            raise Wrong(f"pqmon -i 1 with {more} writes four lines in {time.monotonic() - began:.1f} seconds")


def waits_for_no_fifo(place):
    """A file that is to be read and is a FIFO or a device is a fault at once; a pipe that the program was started with is read."""
    os.mkfifo(place.folder / "fifo")
    place.file("includes.conf", 'INCLUDE "fifo"\n')
    node = place.node(OPEN)
    for path in ("fifo", "/dev/zero", "/dev/null", "includes.conf"):
        ran = place.run("node", "-p", place.free_port(), path, within=5)
        name = "fifo" if path == "includes.conf" else path
        expect(ran, (72, f"ldm: {name}: Is no regular file\nldm: store fault\n"), f"a node of {path}")
    told = "ldm: fifo: Is no regular file\nldm: store fault\n"
    expect(place.run("pqinsert", "-q", node.at, "fifo", within=5), (72, told), "pqinsert of a FIFO")
    reader, writer = os.pipe()
    os.write(writer, b"from a pipe")
    os.close(writer)
    expect(place.run("pqinsert", "-q", node.at, "-p", "piped", "/dev/stdin", stdin=reader), (0, ""), "pqinsert of a pipe")
    os.close(reader)


def does_with_a_small_stack(place):
    """Tools and scripts run with a stack of 1 MiB."""
    script = place.file("script", "")
    for kibibytes in (8_192, 1_024):
        line = f"ulimit -s {kibibytes}; "
        node = place.node(OPEN)
        ran = subprocess.run(["sh", "-c", line + 'exec "$@"', "sh", PROGRAM, "pqmon", "-q", node.at], stdout=subprocess.PIPE)
        expect((ran.returncode, ran.stdout[:5]), (0, b"stat "), f"pqmon with a stack of {kibibytes} KiB")
        with open(place.folder / script) as source:
            ran = subprocess.run(["sh", "-c", line + 'exec "$@"', "sh", PROGRAM, "play", "1048576", "1024"], stdin=source)
        expect(ran.returncode, 0, f"play with a stack of {kibibytes} KiB")


CASES = [
    ends_without_a_reply,
    ends_who_asks_nothing,
    ends_a_record_that_trickles,
    ends_a_record_that_is_too_slow,
    bears_a_record_that_is_slow,
    ends_a_feed_that_trickles,
    ends_a_reply_that_trickles,
    ends_who_reads_nothing,
    bears_who_reads_slowly,
    misses_who_went,
    rests_longer_and_longer,
    rests_briefly_with_a_number,
    rests_by_its_sessions,
    needs_its_streams,
    goes_on_where_the_clock_is_set_back,
    waits_for_no_fifo,
    does_with_a_small_stack,
]


def try_case(case):
    """Whether a case passes; else why not is told."""
    with tempfile.TemporaryDirectory() as folder:
        place = Place(folder)
        try:
            case(place)
        except (Wrong, OSError) as why:
            print(f"{case.__name__}: {why or type(why).__name__}", file=sys.stderr)
            return False
        finally:
            place.end_all()
    return True


def main():
    global PROGRAM
    if sys.argv[1:]:
        PROGRAM = pathlib.Path(sys.argv[1]).resolve()
    cases = [case for case in CASES if not sys.argv[2:] or case.__name__ in sys.argv[2:]]
    with concurrent.futures.ThreadPoolExecutor(len(cases) or 1) as threads:
        passed = list(threads.map(try_case, cases))
    sys.exit(not all(passed))


main()

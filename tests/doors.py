#!/usr/bin/env python3
"""Looks at the doors of a node from many addresses: who comes to a door, and whom none of them keeps out.

The program runs in a network of its own, where it has addresses besides those of the loopback. What a node has to do comes from
crates/ldm_adapters/README.md.

Called as: tests/doors.py [PROGRAM [CASE ..]]. The program is that of tests/program.py, where none is named; with names of cases only
these are tried.
"""

import contextlib
import fcntl
import os
import pathlib
import resource
import socket
import struct
import subprocess
import sys
import tempfile
import threading
import time

from peers import QSTAT, Peer, Wrong, call, expect
from program import LEFT_OUT, PROGRAM, leave_out

PORT = 38_800
NODE = "198.51.100.1"
# Who is let in, and a host that no rule names.
GUEST = "198.51.100.2"
STRANGER = "198.51.100.3"
OTHERS = [f"198.51.100.{n}" for n in range(4, 24)]
CONF = "ALLOW ANY ^198[.]51[.]100[.]2$\nALLOW ANY ^127[.]0[.]0[.]1$\n"

# Within how many seconds a node answers that is not kept busy, and after how many it closes a connection that says nothing.
SOON = 2
FIRST_BYTES = 10
# How long a machine with much other work may be late, in seconds.
LATE = 5

IN_OWN_NETWORK = "LDM_DOORS_IN_OWN_NETWORK"


# A network with addresses


def set_address(name, request, payload):
    with socket.socket(socket.AF_INET, socket.SOCK_DGRAM) as one:
        fcntl.ioctl(one, request, struct.pack("16s16s8x", name.encode(), payload))


def make_addresses():
    """Gives the loopback of this network the addresses above."""
    set_address("lo", 0x8914, struct.pack("=H14x", 0x41))  # SIOCSIFFLAGS: up and running
    for i, address in enumerate([NODE, GUEST, STRANGER, *OTHERS]):
        for request, content in ((0x8916, address), (0x891C, "255.255.255.255")):  # SIOCSIFADDR, SIOCSIFNETMASK
            set_address(f"lo:{i}", request, struct.pack("=HH4s8x", socket.AF_INET, 0, socket.inet_aton(content)))


def go_into_own_network():
    for way in (["unshare", "-rn"], ["unshare", "-n"]):
        with contextlib.suppress(OSError, subprocess.CalledProcessError):
            subprocess.run([*way, "true"], check=True, stderr=subprocess.DEVNULL)
            os.environ[IN_OWN_NETWORK] = "1"
            os.execvp(way[0], [*way, sys.executable, *sys.argv])
    leave_out("a network of its own", "the doors of a node")
    sys.exit(LEFT_OUT)


# A node and who comes to it


def connect(source, target=NODE, patience=SOON):
    connection = socket.socket()
    connection.settimeout(LATE)
    connection.bind((source, 0))
    connection.connect((target, PORT))
    peer = Peer(connection)
    peer.patience = patience
    return peer


class Node:
    """A node with four doors, that listens."""

    def __init__(self, folder, *options, descriptors=None):
        conf = pathlib.Path(folder) / "ldmd.conf"
        conf.write_text(CONF)
        self.log_path = pathlib.Path(folder) / "log"
        limit = (lambda: resource.setrlimit(resource.RLIMIT_NOFILE, (descriptors, descriptors))) if descriptors else None
        words = [PROGRAM, "node", "-a", "1048576", "-S", "1024", "-p", str(PORT), *(options or ("-w", "4")), conf]
        with open(self.log_path, "wb") as log:
            self.program = subprocess.Popen(words, stdin=subprocess.DEVNULL, stderr=log, preexec_fn=limit)

    def __enter__(self):
        last = time.monotonic() + 100
        while time.monotonic() < last and self.program.poll() is None:
            with contextlib.suppress(OSError), connect("127.0.0.1", "127.0.0.1", LATE) as peer:
                peer.stat()
                return self
            time.sleep(0.05)
        raise Wrong(f"no node: {self.log()}")

    def __exit__(self, *_):
        self.program.kill()
        self.program.wait()

    def log(self):
        return self.log_path.read_text()

    def seconds(self):
        """The processor's time that it took."""
        fields = pathlib.Path(f"/proc/{self.program.pid}/stat").read_text().rpartition(")")[2].split()
        return (int(fields[11]) + int(fields[12])) / os.sysconf("SC_CLK_TCK")


def is_answered(source=GUEST, target=NODE, patience=SOON):
    """Expects an answer to a QSTAT from that address, in time."""
    with connect(source, target, patience) as peer:
        if peer.stat() is None:
            raise Wrong(f"{source} is denied")


def many(stack, source, count):
    """So many connections from that address that say nothing."""
    return [stack.enter_context(connect(source)) for _ in range(count)]


def is_open(peer):
    """Whether the node did not close the connection, and sent nothing."""
    peer.connection.setblocking(False)
    try:
        peer.connection.recv(1)
        return False
    except BlockingIOError:
        return True
    except ConnectionResetError:
        return False


def seconds_open(peer):
    """After how long the node closes a connection."""
    start = time.monotonic()
    peer.connection.settimeout(FIRST_BYTES + LATE)
    with contextlib.suppress(ConnectionResetError):
        expect(peer.connection.recv(1), b"", "what comes over a silent connection")
    return time.monotonic() - start


# The cases


def silent(count):
    def case(folder):
        """Connections that say nothing, all of one address, keep nobody out."""
        with Node(folder), contextlib.ExitStack() as stack:
            peers = many(stack, STRANGER, count)
            is_answered()
            time.sleep(1)
            is_answered()
            kept = sum(map(is_open, peers))
            expect(kept, min(count, 64), "the silent connections that are kept")

    return case


def silence_ends(folder):
    """A connection that says nothing is closed after ten seconds, and no log line tells of it."""
    with Node(folder) as node, connect(STRANGER) as peer, connect("127.0.0.1", "127.0.0.1") as near:
        found = seconds_open(peer)
        if not FIRST_BYTES - 1 <= found <= FIRST_BYTES + LATE:
            raise Wrong(f"a silent connection is closed after {found:.1f} seconds")
        if seconds_open(near) > LATE:
            raise Wrong("a silent connection of this machine is not closed")
        if STRANGER in node.log():
            raise Wrong(f"a log line of a silent connection: {node.log()}")


def trickle(folder):
    """Connections of one address that send a byte each five seconds keep nobody out."""
    with Node(folder), contextlib.ExitStack() as stack:
        peers = many(stack, STRANGER, 30)
        for second in range(16):
            for peer in peers:
                if second % 5 == 0:
                    with contextlib.suppress(OSError):
                        peer.send(b"\x80\0\1\0"[second // 5 :][:1])
            is_answered()
            time.sleep(1)


def first_bytes(folder):
    """Nothing of what comes first is lost, at once or after a while, in one piece or in two."""
    with Node(folder):
        for pause, split in ((0, 44), (3, 44), (0, 1), (3, 1)):
            with connect(GUEST, patience=LATE) as peer:
                time.sleep(pause)
                whole = call(1, QSTAT)
                peer.send(whole[:split])
                time.sleep(pause / 10)
                peer.send(whole[split:])
                peer.xid = 1
                expect(len(peer.hear()), 44, "the bytes of the answer to a QSTAT")
                peer.stat()


def last_door(folder):
    """One address that has most of the links does not take the last free door; another does, and it itself once one is back."""
    with Node(folder), contextlib.ExitStack() as stack:
        inside = [stack.enter_context(connect(GUEST)) for _ in range(3)]
        for peer in inside:
            peer.stat()
        waits = stack.enter_context(connect(GUEST))
        waits.call(QSTAT)
        time.sleep(1)
        if not is_open(waits):
            raise Wrong("one address takes all doors")
        is_answered("127.0.0.1", "127.0.0.1")
        # who is denied is answered too
        with connect(STRANGER) as other:
            expect(other.stat(), None, "the answer to a host that no rule names")
        if not is_open(waits):
            raise Wrong("one address takes all doors")
        inside[0].connection.close()
        expect(len(waits.hear()), 44, "the bytes of the answer to who waited")


def this_machine(folder):
    """Neither limit binds the programs of this machine."""
    with Node(folder), contextlib.ExitStack() as stack:
        for _ in range(4):
            stack.enter_context(connect("127.0.0.1", "127.0.0.1")).stat()
    with Node(folder), contextlib.ExitStack() as stack:
        peers = [stack.enter_context(connect("127.0.0.1", "127.0.0.1")) for _ in range(80)]
        time.sleep(1)
        expect(sum(map(is_open, peers)), 80, "the silent connections of this machine that are kept")


def ends_without_a_word(folder):
    """A peer that goes before it says anything is none."""
    with Node(folder) as node:
        for _ in range(20):
            connect(STRANGER).connection.close()
            connect(STRANGER).reset()
            with connect(STRANGER) as half:
                half.say_no_more()
        is_answered()
        time.sleep(0.5)
        if STRANGER in node.log():
            raise Wrong(f"a log line of a peer that went: {node.log()}")


def no_descriptors(folder):
    """A node whose descriptors ran out goes on once there are some."""
    with Node(folder, descriptors=64), contextlib.ExitStack() as stack:
        for source in OTHERS[:4]:
            many(stack, source, 30)
        time.sleep(2)
        stack.close()
        time.sleep(2)
        is_answered(patience=LATE)


def many_addresses(folder):
    """Silent connections of many addresses, as many as wait at most and more, keep nobody out."""
    with Node(folder, descriptors=4_096), contextlib.ExitStack() as stack:
        peers = [one for source in OTHERS for one in many(stack, source, 60)]
        is_answered()
        expect(sum(map(is_open, peers)) <= 1_024, True, "at most 1,024 wait")


def all_at_once(folder):
    """Twenty peers at four doors are all answered, each once another is done."""
    failed = []

    def ask(source):
        try:
            for _ in range(25):
                is_answered(source, NODE if source == GUEST else "127.0.0.1", 30)
        except (OSError, Wrong) as why:
            failed.append(why)

    with Node(folder):
        threads = [threading.Thread(target=ask, args=(source,)) for source in [GUEST, "127.0.0.1"] * 10]
        for thread in threads:
            thread.start()
        for thread in threads:
            thread.join()
    expect(failed, [], "the peers that failed")


def rests(folder):
    """A node to which nobody comes takes no processor."""
    with Node(folder, "-w", "63") as node:
        time.sleep(0.5)
        before = node.seconds()
        time.sleep(5)
        took = node.seconds() - before
        if took > 0.025:
            raise Wrong(f"an idle node took {took:.2f} seconds of 5")


CASES = {
    "silent_4": silent(4),
    "silent_70": silent(70),
    "silent_1100": silent(1_100),
    "silence_ends": silence_ends,
    "trickle": trickle,
    "first_bytes": first_bytes,
    "last_door": last_door,
    "this_machine": this_machine,
    "ends_without_a_word": ends_without_a_word,
    "no_descriptors": no_descriptors,
    "many_addresses": many_addresses,
    "all_at_once": all_at_once,
    "rests": rests,
}


def main():
    global PROGRAM
    if IN_OWN_NETWORK not in os.environ:
        go_into_own_network()
    make_addresses()
    if sys.argv[1:]:
        PROGRAM = pathlib.Path(sys.argv[1]).resolve()
    _, most = resource.getrlimit(resource.RLIMIT_NOFILE)
    resource.setrlimit(resource.RLIMIT_NOFILE, (most, most))
    wrong = 0
    for name in sys.argv[2:] or CASES:
        with tempfile.TemporaryDirectory() as folder:
            try:
                CASES[name](folder)
            except (Wrong, OSError) as why:
                print(f"{name}: {why!r}", file=sys.stderr)
                wrong += 1
    sys.exit(wrong != 0)


main()

#!/usr/bin/env python3
"""Attacks a node as strangers may, and looks that each attack ends, that it costs no more than it may, and that whoever asks for the
figures of the node meanwhile, from another address, is answered within two seconds.

A node has four workers, as by default. A stranger comes from an address that is none of the loopback's, since a node holds these
apart: the script makes a network of its own, with addresses of its own, where the system lets it (`unshare`), and else takes the address
that this machine has. Each attack has a node of its own, and all are made side by side. Of each the end is told, and how long it took.

Called as: tests/attacks.py [PROGRAM [CASE ..]]. The program is that of tests/program.py, where none is named; with names of cases only
these are tried.
"""

import concurrent.futures
import contextlib
import fcntl
import itertools
import os
import pathlib
import select
import socket
import struct
import subprocess
import sys
import tempfile
import termios
import threading
import time

import nodes
from nodes import ARENA, HOST, Place, connect, free_port, until
from peers import (
    ADMITTED, ANY, BLKDATA, BLOCK, DENIED, EXP, FEEDME, GARBAGE, HIYA, IS_ALIVE, LOCKED, NO_PROCEDURE, NOT_ACCEPTED, NOTIFYME, OK, PUT,
    QSTAT, TOO_BIG,
    Peer, Product, Wrong, call, expect, number, product_class, reply,
)  # fmt: skip
from program import LEFT_OUT, TOP, leave_out

# The addresses of a network of the script's own.
STRANGER, OTHER = "10.99.0.2", "10.99.0.3"
IN_OWN_NETWORK = "ATTACKS_IN_OWN_NETWORK"

MIB = 2**20
# The bytes that an attack may make a node hold besides.
MOST_MEMORY = 30 * MIB
# How long who asks for figures waits at most, in seconds.
PROMPT = 2
# How long the rest of an announced product may take of which nothing comes, and how late a machine with much other work may tell its end.
REST, LATE = 20, 8
LARGE = 300 * MIB


# Addresses


def make_network():
    """Brings the loopback of an empty network up, and gives it the addresses."""
    up, address_of, mask_of = 0x8914, 0x8916, 0x891C

    def of(address):
        return struct.pack("HH4s8x", socket.AF_INET, 0, socket.inet_aton(address))

    with socket.socket(socket.AF_INET, socket.SOCK_DGRAM) as any_socket:
        fcntl.ioctl(any_socket, up, struct.pack("16sh22x", b"lo", 0x41))
        for i, address in enumerate((STRANGER, OTHER)):
            fcntl.ioctl(any_socket, address_of, struct.pack("16s24s", b"lo:%d" % i, of(address)))
            fcntl.ioctl(any_socket, mask_of, struct.pack("16s24s", b"lo:%d" % i, of("255.255.255.255")))


def enter_network():
    """Runs the script once more in a network of its own; comes back where there can be none."""
    for way in (["unshare", "-rn"], ["unshare", "-n"]):
        with contextlib.suppress(OSError, subprocess.CalledProcessError):
            subprocess.run([*way, "true"], check=True, stderr=subprocess.DEVNULL)
            os.environ[IN_OWN_NETWORK] = "1"
            os.execvp(way[0], [*way, sys.executable, *sys.argv])


def own_address():
    """An address of this machine besides those of its loopback."""
    with contextlib.suppress(OSError), socket.socket(socket.AF_INET, socket.SOCK_DGRAM) as probe:
        # sends nothing
        probe.connect(("192.0.2.1", 9))
        return probe.getsockname()[0]
    return None


def find_addresses():
    global STRANGER, OTHER
    if IN_OWN_NETWORK not in os.environ:
        enter_network()
        STRANGER, OTHER = own_address(), HOST
        if STRANGER is None:
            leave_out("an address for a stranger", "attacks")
            sys.exit(LEFT_OUT)
        return
    del os.environ[IN_OWN_NETWORK]
    make_network()


def rule_for(address):
    """The host pattern of that address."""
    return "^" + address.replace(".", "[.]") + "$"


def rules():
    """What lets the other address have all and push all."""
    return f"ALLOW ANY {rule_for(OTHER)}\nACCEPT ANY .* {rule_for(OTHER)}\n"


# Nodes that are attacked


class Attacked:
    """A node of four workers, with rules for the stranger besides those for the other address. As long as it is attacked it is asked for
    its figures from that, each time over a connection of its own, now by a plain peer and now by `pqmon`."""

    def __init__(self, place, more=""):
        self.node = place.node(rules() + more)
        self.asker = threading.Thread(target=self.ask_on, daemon=True)
        self.stopping = threading.Event()
        self.worst = 0
        self.late = None

    def __enter__(self):
        self.begun = time.monotonic()
        self.asker.start()
        return self

    def __exit__(self, kind, why, _):
        self.stopping.set()
        self.asker.join()
        if self.late and (kind is None or kind is Wrong):
            raise Wrong(f"{why}; {self.late}" if why else self.late)

    def seconds(self):
        return time.monotonic() - self.begun

    def ask_on(self):
        ways = [self.ask_by_peer, self.ask_by_pqmon]
        while not self.stopping.wait(0.2):
            at = self.seconds()
            try:
                ways[0]()
            except (Wrong, OSError, subprocess.TimeoutExpired):
                self.late = f"who asks for figures is not answered within {PROMPT} seconds, from second {at:.1f} of the attack on"
                return
            self.worst = max(self.worst, self.seconds() - at)
            ways.reverse()

    def ask_by_peer(self):
        connection = socket.create_connection((HOST, self.node.port), PROMPT, source_address=(OTHER, 0))
        with Peer(connection) as peer:
            peer.patience = PROMPT
            expect(peer.stat() is None, False, "whether figures are denied")

    def ask_by_pqmon(self):
        # from the address that it connects to
        words = [nodes.PROGRAM, "pqmon", "-q", f"{OTHER}:{self.node.port}"]
        ran = subprocess.run(words, capture_output=True, timeout=PROMPT)
        expect((ran.returncode, ran.stdout[:5]), (0, b"stat "), "pqmon")

    @contextlib.contextmanager
    def strangers(self, count):
        """So many connections of the stranger."""
        with contextlib.ExitStack() as stack:
            yield [stack.enter_context(self.stranger()) for _ in range(count)]

    def stranger(self, **more):
        return connect(self.node.port, STRANGER, **more)

    def other(self):
        return connect(self.node.port, OTHER)

    def put_all(self, products):
        """Puts them in, from the other address; they have to be admitted."""
        with self.other() as feeder:
            expect({feeder.put(product)[0] for product in products}, {ADMITTED}, "the answers to PUT")

    def peak(self):
        """The most bytes that the node had in memory so far."""
        for line in pathlib.Path(f"/proc/{self.node.program.pid}/status").read_text().splitlines():
            if line.startswith("VmHWM:"):
                return int(line.split()[1]) * 1_024
        raise Wrong("the system does not tell the memory of the node")

    def processor_time(self):
        """The seconds of processor time that the node had so far."""
        fields = pathlib.Path(f"/proc/{self.node.program.pid}/stat").read_text().rpartition(")")[2].split()
        return sum(map(int, fields[11:13])) / os.sysconf("SC_CLK_TCK")

    def told(self, end):
        return f"{end}; figures within {self.worst:.2f} s"

    def count_logged(self, words):
        return sum(line.split()[1:] == [STRANGER, *words.split()] for line in self.node.log())


def unsent(connection):
    """How many bytes wait that were sent and that the other end did not take."""
    return struct.unpack("i", fcntl.ioctl(connection, termios.TIOCOUTQ, bytes(4)))[0]


def until_all_closed(peers, most, parts=(), pause=0):
    """Waits until the node closed each of these connections. Meanwhile each is sent the next part of what is to be said at each pause, and
    what comes is passed over. The seconds up to the first and to the last end."""
    begun = time.monotonic()
    parts = iter(parts)
    said = 0
    ends = []

    def is_open(act):
        try:
            return act()
        except OSError:
            return False

    while peers:
        passed = time.monotonic() - begun
        if passed > most:
            raise Wrong(f"{len(peers)} connections are open after {most} seconds, {len(ends)} were closed")
        part = next(parts, b"") if passed >= said * pause else b""
        said += bool(part)
        ready = select.select([peer.connection for peer in peers], [], [], 0.1)[0]
        closed = [
            peer
            for peer in peers
            if (part and not is_open(lambda: peer.connection.sendall(part) is None))
            or (peer.connection in ready and not is_open(lambda: peer.connection.recv(65_536)))
        ]
        ends += [passed] * len(closed)
        peers = [peer for peer in peers if peer not in closed]
    return min(ends), max(ends)


def by_bytes(message):
    """The bytes of a message, one by one, over and over."""
    return itertools.cycle(bytes([byte]) for byte in message)


# Connections that say little or nothing


def are_silent(place):
    """Four connections of a host that no rule names, which say nothing."""
    with Attacked(place) as attacked, attacked.strangers(4) as peers:
        ends = until_all_closed(peers, 20)
    return attacked.told("closed after {:.1f} to {:.1f} s".format(*ends))


def say_a_byte_at_a_time(place):
    """Four connections of such a host, which send a call by one byte each 10 seconds, for ever. Three of them are served at first."""
    with Attacked(place) as attacked, attacked.strangers(4) as peers:
        ends = until_all_closed(peers, 75, by_bytes(call(1, PUT, Product(b"slow", bytes(1_000)).whole())), 10)
    expect(ends[0] < 40, True, f"whether {ends[0]:.1f} s are fewer than 40 up to the first end")
    return attacked.told("closed after {:.1f} to {:.1f} s".format(*ends))


def say_a_byte_and_no_more(place):
    """Four connections of such a host, which begin a call by one byte."""
    with Attacked(place) as attacked, attacked.strangers(4) as peers:
        ends = until_all_closed(peers, 75, [call(1, QSTAT)[:1]])
    expect(ends[0] < 40, True, f"whether {ends[0]:.1f} s are fewer than 40 up to the first end")
    return attacked.told("closed after {:.1f} to {:.1f} s".format(*ends))


def ask_once_and_are_silent(place):
    """Three connections of such a host, which ask for figures, are denied them, and say no more."""
    with Attacked(place) as attacked, attacked.strangers(3) as peers:
        ends = until_all_closed(peers, 80, [call(1, QSTAT)])
    return attacked.told("closed after {:.1f} to {:.1f} s".format(*ends))


def only_tell_that_they_live(place):
    """Three connections of such a host, which send an IS_ALIVE each 15 seconds, for ever. None is answered, so none puts the end off."""
    with Attacked(place) as attacked, attacked.strangers(3) as peers:
        ends = until_all_closed(peers, 80, itertools.repeat(call(1, IS_ALIVE)), 15)
    return attacked.told("closed after {:.1f} to {:.1f} s".format(*ends))


def ask_over_and_over(place):
    """Eight clients of such a host connect, ask for figures, offer a product, and come again, for 10 seconds."""
    with Attacked(place) as attacked:
        last = time.monotonic() + 10
        put = call(2, PUT, Product(b"p", bytes(50_000)).whole())

        def ask():
            count = 0
            while time.monotonic() < last:
                with contextlib.suppress(OSError, Wrong), attacked.stranger() as peer:
                    peer.send(call(1, QSTAT) + put)
                    peer.say_no_more()
                    peer.rest()
                    count += 1
            return count

        with concurrent.futures.ThreadPoolExecutor(8) as clients:
            count = sum(client.result() for client in [clients.submit(ask) for _ in range(8)])
    return attacked.told(f"{count} sessions in 10 s")


def watchers_that_go(place):
    """`notifyme -c 1` of a host that may have all, four times: each ends behind one notice, and its worker is free soon after."""
    with Attacked(place, f"ALLOW ANY {rule_for(STRANGER)}\n") as attacked:
        attacked.put_all([Product(b"p", b"a product")])
        for _ in range(4):
            ran = place.run("notifyme", "-c", 1, "-q", f"{STRANGER}:{attacked.node.port}")
            expect((ran.status, ran.log), (0, b""), "notifyme")
        begun = time.monotonic()
        until(lambda: attacked.count_logged("linkfault") == 4, "a line for each watcher that went", 5)
    return attacked.told(f"noticed within {time.monotonic() - begun:.1f} s")


def subscribers_that_go(place):
    """The same of four subscribers, which go while nothing is due to them, by a close and by a reset."""
    with Attacked(place, f"ALLOW ANY {rule_for(STRANGER)}\n") as attacked:
        for i in range(4):
            with attacked.stranger() as peer:
                expect(peer.subscribe([(ANY, b".*")]), number(OK), "the answer to a FEEDME")
                if i % 2:
                    peer.reset()
        begun = time.monotonic()
        until(lambda: attacked.count_logged("linkfault") == 4, "a line for each subscriber that went", 5)
    return attacked.told(f"noticed within {time.monotonic() - begun:.1f} s")


# Memory and processor time


def large_records(place):
    """Records of 300 MiB of which the last bytes do not come, one after the other: of a host that no rule names, and a PUT that the arena
    cannot hold of one that may push. The node keeps none of them. Once the last bytes are there, each is answered as a short one is."""
    product = Product(b"large", b"", signed=b"l" * 16)
    body = product._replace(body=bytes(LARGE)).metadata()
    need = -(-(len(body) + LARGE) // 8) * 8
    records = [
        ("a PUT that no rule lets in", PUT, body, STRANGER, number(NOT_ACCEPTED)),
        ("a PUT that is too big", PUT, body, OTHER, number(TOO_BIG) + struct.pack(">2Q", need, ARENA)),
        ("a QSTAT with bytes behind it", QSTAT, b"", STRANGER, GARBAGE),
        ("a FEEDME with bytes behind it", FEEDME, product_class([(ANY, b".*")]) + number(BLOCK), STRANGER, GARBAGE),
        ("a call of no procedure", 99, b"", STRANGER, NO_PROCEDURE),
    ]
    most = 0
    with Attacked(place) as attacked:
        attacked.ask_by_peer()
        before = attacked.peak()
        for what, procedure, front, source, answer in records:
            message = call(1, procedure, front)[4:]
            behind = LARGE - 4 if procedure == PUT else LARGE - 4 - len(message)
            with connect(attacked.node.port, source) as peer:
                peer.send(number(2**31 + len(message) + behind + 4) + message)
                piece = bytes(MIB)
                for _ in range(behind // MIB):
                    peer.send(piece)
                peer.send(bytes(behind % MIB))
                # time for the node to take what is on its way
                until(lambda: unsent(peer.connection) == 0, f"the node takes {what}")
                most = max(most, attacked.peak() - before)
                if most > MOST_MEMORY:
                    raise Wrong(f"{what} makes the node hold {most // MIB} MiB more")
                peer.send(bytes(4))
                peer.xid = 1
                wanted = reply(1, answer) if isinstance(answer, bytes) else reply(1, status=answer)
                expect(peer.next_record(), wanted[4:], f"the answer to {what}")
    return attacked.told(f"at most {most / MIB:.1f} MiB more")


def heavy_patterns(place):
    """Classes of 32 patterns that are costly to build, from a host that no rule names: nothing is built of them."""
    patterns = [rb"\w{9}" * 51, rb"(\w{9})" * 36, rb"(\pL{99}){99}" * 19]
    with Attacked(place) as attacked:
        attacked.ask_by_peer()
        memory, spent = attacked.peak(), attacked.processor_time()
        for pattern in patterns:
            wanted = product_class([(ANY, pattern)] * 32)
            for procedure, front, end in ((FEEDME, b"", number(BLOCK)), (NOTIFYME, b"", b""), (HIYA, number(BLOCK), b"")):
                with attacked.stranger() as peer:
                    expect(peer.ask(procedure, wanted + end), front + number(DENIED), f"the answer to call {procedure} of {pattern[:9]}")
        memory, spent = attacked.peak() - memory, attacked.processor_time() - spent
    expect(memory <= MOST_MEMORY, True, f"whether {memory} bytes are at most {MOST_MEMORY}")
    expect(spent < 0.2, True, f"whether {spent:.2f} s of processor time are less than 0.2")
    return attacked.told(f"{memory / MIB:.1f} MiB, {spent:.2f} s of processor time")


# Peers that have rights


def announces_much(place, parts, pause):
    """A host that may push one ident announces a product that fills the arena, and then sends the next of these parts at each pause. Up to
    its end nothing else can be put in; then all can."""
    large = Product(b"one", b"", EXP, signed=b"l" * 16).metadata()
    large = large[:-4] + number(ARENA - len(large))
    small = [Product(b"small", f"{i}".encode()) for i in range(3)]
    with Attacked(place, f"ACCEPT EXP ^one$ {rule_for(STRANGER)}\n") as attacked, attacked.stranger() as peer, attacked.other() as feeder:
        expect(feeder.put(small[0])[0], ADMITTED, "the answer to a PUT before")
        expect(peer.ask(HIYA, product_class([(EXP, b"^one$")])), number(BLOCK) + number(OK), "the answer to a HIYA")
        peer.xid = 0
        expect(peer.ask(nodes.COMINGSOON, large + number(BLOCK)), number(OK), "the answer to a COMINGSOON")
        expect(feeder.put(small[1])[0], LOCKED, "the answer to a PUT meanwhile")
        ends = until_all_closed([peer], 60, parts, pause)
        until(lambda: feeder.stat().held == 0, "nothing is held behind it", 5)
        expect(feeder.put(small[2])[0], ADMITTED, "the answer to a PUT then")
    return attacked.told(f"closed after {ends[0]:.1f} s")


def announces_much_and_sends_little(place):
    """Such a host, which sends a byte of the first block of its product each 20 seconds."""
    block = call(2, BLKDATA, b"l" * 16 + number(0) + number(BLOCK) + bytes(BLOCK))
    return announces_much(place, by_bytes(block), 20)


def announces_much_and_tells_that_it_lives(place):
    """Such a host, which sends an IS_ALIVE each 5 seconds, and no block of its product."""
    return announces_much(place, itertools.repeat(call(2, IS_ALIVE)), 5)


def subscribers_that_take_little(place):
    """Three subscribers that may have all take 400 bytes a second of what is due to them. Each is ended."""
    products = [Product(b"%d" % i, os.urandom(MIB), seqno=i) for i in range(24)]
    with Attacked(place, f"ALLOW ANY {rule_for(STRANGER)}\n") as attacked, contextlib.ExitStack() as stack:
        attacked.put_all(products)
        peers = [stack.enter_context(attacked.stranger(window=4_096)) for _ in range(3)]
        begun = time.monotonic()
        for peer in peers:
            # whole, so that no reply is awaited
            peer.call(FEEDME, product_class([(ANY, b".*")]) + number(2**32 - 1))
        while attacked.count_logged("linkfault") < 3:
            if time.monotonic() - begun > 60:
                raise Wrong(f"{3 - attacked.count_logged('linkfault')} of 3 subscribers are fed after 60 seconds")
            for peer in peers:
                with contextlib.suppress(OSError):
                    peer.connection.setblocking(False)
                    peer.connection.recv(100)
            time.sleep(0.25)
        ended = time.monotonic() - begun
    return attacked.told(f"ended after {ended:.1f} s")


def subscribers_that_do_not_reply(place):
    """Three subscribers that are asked whether they want a large product, and do not reply. Each is ended."""
    with Attacked(place, f"ALLOW ANY {rule_for(STRANGER)}\n") as attacked, attacked.strangers(3) as peers:
        attacked.put_all([Product(b"large", bytes(MIB))])
        for peer in peers:
            expect(peer.subscribe([(ANY, b".*")]), number(OK), "the answer to a FEEDME")
        ends = until_all_closed(peers, 140)
    return attacked.told("closed after {:.1f} to {:.1f} s".format(*ends))


# Upstreams


class Refusing:
    """One whom a node asks, who answers each call by the same bytes and closes the connection."""

    def __init__(self, answer):
        self.listener = socket.create_server((HOST, 0))
        self.port = self.listener.getsockname()[1]
        self.answer = answer
        threading.Thread(target=self.work, daemon=True).start()

    def work(self):
        with contextlib.suppress(OSError):
            while True:
                with self.listener.accept()[0] as connection, contextlib.suppress(OSError):
                    connection.recv(65_536)
                    connection.sendall(self.answer)


def upstreams_that_give_nothing(place):
    """Nodes whose upstream cannot be reached, or closes each connection, or denies each request, try it ever more seldom: each writes at most
    12 lines in 60 seconds."""
    upstreams = [
        ("cannot be reached", free_port(), "unreached"),
        ("closes each connection", Refusing(b"").port, "session"),
        ("denies each request", Refusing(reply(1, number(DENIED))).port, "session"),
    ]
    asking = [place.node(f"REQUEST ANY .* {HOST}:{port}\n") for _, port, _ in upstreams]
    time.sleep(60)
    counts = [len(node.log()) for node in asking]
    for node, (what, _, word), count in zip(asking, upstreams, counts):
        expect(node.log()[0].split()[0], word, f"the first word of the log, where the upstream {what}")
        if not 3 <= count <= 12:
            raise Wrong(f"{count} lines within 60 seconds, where the upstream {what}")
    return f"{', '.join(map(str, counts))} lines in 60 s"


# Starts


def ports_that_are_taken(place):
    """A node whose port is taken ends with 69, starts no program, and writes no figures."""
    with socket.create_server(("", 0)) as taken:
        place.file("taken.conf", rules() + 'EXEC "touch started"\n')
        port = taken.getsockname()[1]
        ran = place.run("node", "-p", port, "taken.conf")
    told = f"ldm: port {port}: Address already in use\nldm: net fault\n".encode()
    expect(ran, (69, b"", told), "a node whose port is taken")
    expect((place.folder / "started").exists(), False, "whether a program was started")
    return "69"


NOTHING = {"stdin": subprocess.DEVNULL, "stdout": subprocess.DEVNULL, "stderr": subprocess.DEVNULL}


def run_with(place, closing, *words, source=os.devnull):
    """How the program ends whose streams a shell closes so."""
    command = ["sh", "-c", f'exec "$0" "$@" {closing}', nodes.PROGRAM, *map(str, words)]
    with open(place.folder / source, "rb") as source:
        ran = subprocess.run(command, stdin=source, capture_output=True, timeout=30, cwd=place.folder)
    return ran.returncode, ran.stdout, ran.stderr


def outputs_that_are_closed(place):
    """A program whose standard output is closed tells that it could not write."""
    node = place.node("ALLOW ANY .*\nACCEPT ANY .* .*\n", "-w", 24)
    node.put_all([Product(b"p", b"a product")])
    place.file("script", "0 stat\n")
    tools = [["pqcat", "-c", 1], ["notifyme", "-c", 1], ["pqstats", "-c", 1], ["pqmon"], ["pqinsert", "script"]]
    for words in [*([*words, "-q", node.at] for words in tools), ["play", 168, 10]]:
        ran = run_with(place, ">&-", *words, source="script")
        expect(ran, (75, b"", b"ldm: sink fault\n"), f"{words} whose output is closed")
    expect(run_with(place, "<&-", "play", 168, 10)[0] in (0, 74), True, "whether a play whose input is closed ends")
    return "75"


def logs_that_are_closed(place):
    """What a program would write to a stream that is closed goes to no peer: neither the log of a node to who is connected, nor the bodies
    and the log of a tool to who feeds it."""
    place.file("bare.conf", "ALLOW ANY .*\n")
    for closing in ("2>&-", ">&- 2>&-", "<&- >&- 2>&-"):
        for workers in (2, 4):
            port = free_port()
            words = ["node", "-p", port, "-w", workers, "bare.conf"]
            command = ["sh", "-c", f'exec "$0" "$@" {closing}', nodes.PROGRAM, *map(str, words)]
            node = subprocess.Popen(command, cwd=place.folder, **NOTHING)
            place.running.append(node)
            until(lambda port=port, node=node: nodes.listens(port) or node.poll() is not None, f"a node with {closing} listens")
            with connect(port) as peer:
                peer.patience = 5
                peer.stat()
                with contextlib.suppress(OSError, Wrong), connect(port) as other:
                    other.patience = 2
                    other.send(b"no record")
                    other.say_no_more()
                    # its end is a line of the log
                    other.rest()
                with contextlib.suppress(OSError):
                    peer.say_no_more()
                expect(peer.rest(), b"", f"what a peer of a node with {closing} is sent besides its answer")
    for closing in (">&-", "2>&-", ">&- 2>&-", "<&- >&- 2>&-"):
        with nodes.Upstream() as upstream:
            command = ["sh", "-c", f'exec "$0" "$@" {closing}', nodes.PROGRAM, "pqcat", "-c", "2", "-q", f"{HOST}:{upstream.port}"]
            tool = subprocess.Popen(command, **NOTHING)
            place.running.append(tool)
            with upstream.asked(product_class([(ANY, b".*")]) + number(BLOCK)) as peer:
                peer.patience = 10
                peer.xid = 0
                with contextlib.suppress(OSError):
                    for _ in range(2):
                        # the second one is refused, which is a line of the log
                        peer.feed_whole(Product(b"p", b"a body"))
                    peer.say_no_more()
                expect(peer.rest(), b"", f"what pqcat with {closing} sends who feeds it")
    return "no peer has what goes to a closed stream"


def files_that_are_none(place):
    """A FIFO or a device as a configuration is a fault of the store, and is not waited for."""
    os.mkfifo(place.folder / "fifo")
    place.file("includes", 'INCLUDE "fifo"\n')
    nowhere = f"{HOST}:{free_port()}"
    cases = [["node", "-p", free_port(), name] for name in ("fifo", "includes", "/dev/zero")] + [["pqact", "fifo", nowhere]]
    begun = time.monotonic()
    for words in cases:
        command = [nodes.PROGRAM, *map(str, words)]
        try:
            ran = subprocess.run(command, stdin=subprocess.DEVNULL, capture_output=True, timeout=20, cwd=place.folder)
        except subprocess.TimeoutExpired:
            raise Wrong(f"{words} waits") from None
        name = {"includes": "fifo"}.get(words[-1], words[-1] if words[0] == "node" else "fifo")
        told = f"ldm: {name}: Is no regular file\nldm: store fault\n".encode()
        expect((ran.returncode, ran.stdout, ran.stderr), (72, b"", told), f"{words}")
    return f"72, within {time.monotonic() - begun:.1f} s"


def files_that_may_not_grow(place):
    """Where the system limits how large a file gets, a program that `ldm` runs ends by its status, and by no signal."""
    node = place.node("ALLOW ANY .*\nACCEPT ANY .* .*\n")
    node.put_all([Product(b"large", bytes(MIB))])
    place.file("entries", "ANY\t^large$\tFILE\tlarge\n")
    place.file("script", "0 stat\n" * 5_000)
    cases = [
        (["pqact", "-c", 1, "entries", node.at], 72, b"ldm: large: large: File too large\nldm: store fault\n"),
        (["play", 168, 10], 75, b"ldm: sink fault\n"),
    ]
    for words, status, told in cases:
        command = ["sh", "-c", '. "$0"; ulimit -f 8; run_program "$@" >output', TOP / "docs/help/help.sh", nodes.PROGRAM, *map(str, words)]
        with open(place.folder / "script", "rb") as source:
            ran = subprocess.run(command, stdin=source, capture_output=True, timeout=30, cwd=place.folder)
        expect((ran.returncode, ran.stderr), (status, told), f"{words} under a limit of 8 blocks")
    return "72 and 75"


CASES = [
    are_silent,
    say_a_byte_at_a_time,
    say_a_byte_and_no_more,
    ask_once_and_are_silent,
    only_tell_that_they_live,
    ask_over_and_over,
    watchers_that_go,
    subscribers_that_go,
    large_records,
    heavy_patterns,
    announces_much_and_sends_little,
    announces_much_and_tells_that_it_lives,
    subscribers_that_take_little,
    subscribers_that_do_not_reply,
    upstreams_that_give_nothing,
    ports_that_are_taken,
    outputs_that_are_closed,
    logs_that_are_closed,
    files_that_are_none,
    files_that_may_not_grow,
]


def try_case(case):
    """Whether a case passes; its end is told, with the seconds that it took."""
    begun = time.monotonic()
    with tempfile.TemporaryDirectory() as folder:
        place = Place(folder)
        try:
            end, passes = case(place), True
        except (Wrong, OSError, subprocess.SubprocessError) as why:
            end, passes = why or type(why).__name__, False
        finally:
            place.end_all()
    print(f"{case.__name__}: {'' if passes else 'DOES NOT PASS: '}{end} ({time.monotonic() - begun:.0f} s)", flush=True)
    return passes


def main():
    find_addresses()
    if sys.argv[1:]:
        nodes.PROGRAM = pathlib.Path(sys.argv[1]).resolve()
    cases = [case for case in CASES if not sys.argv[2:] or case.__name__ in sys.argv[2:]]
    with concurrent.futures.ThreadPoolExecutor(len(cases)) as side_by_side:
        passes = list(side_by_side.map(try_case, cases))
    sys.exit(not all(passes))


if __name__ == "__main__":
    main()

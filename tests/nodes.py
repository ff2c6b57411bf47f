#!/usr/bin/env python3
"""Runs nodes, and the programs that ask them, as their users do: over sockets of this machine, with files, and with other programs.

What each has to answer, write and log comes from the rules of docs/, and from the plain peers of tests/peers.py, never from the
program. Each step has a limit of time. All programs that were started are ended at the end, and the folder in which they ran is removed.

Called as: tests/nodes.py [PROGRAM [CASE ..]]. The program is that of tests/program.py, where none is named; with names of cases only
these are tried.
"""

import collections
import contextlib
import hashlib
import os
import pathlib
import random
import resource
import socket
import struct
import subprocess
import sys
import tempfile
import threading
import time

from peers import (
    ADMITTED, ANY, BADPATTERN, BLKDATA, BLOCK, COMINGSOON, DDPLUS, DDS, DENIED, DONT_SEND, DUPLICATE, EXP, FEEDME, GARBAGE,
    GREATEST_INSTANT, HDS, HEREIS, HIYA, IDS, IS_ALIVE, LARGEST_RECORD, NO_PROCEDURE, NO_PROGRAM, NOT_ACCEPTED, NOTIFICATION,
    NOTIFYME, OK, OTHER_VERSION, PATIENCE, PUT, QSTAT, RECLASS, TOO_BIG,
    Peer, Product, Stat, Upstream, Wrong, call, expect, hold_port, number, port_of, product_class, read_product, record, reply, string,
)  # fmt: skip
from program import PROGRAM

HOST = "127.0.0.1"
ARENA = 67_108_864

# Rules that let this machine have all and push all.
OPEN = "ALLOW ANY .*\nACCEPT ANY .* .*\n"

# How long a node takes at most to come to something that no reply tells, in seconds.
STEP = 100

IS_HERE = b"a product that is the last of a case"

# A file that takes no byte.
FULL = pathlib.Path("/dev/full")

# Enough workers for subscribers that went: a feeding with nothing to send finds that out within a second.
MANY = ["-w", 24]

# More rests than any case has: with a number of them each is short, also behind sessions that ended early.
SHORT_RESTS = ["-x", 1_000_000]


def until(probe, what, seconds=STEP):
    """What the probe answers, as soon as that is true."""
    last = time.monotonic() + seconds
    while time.monotonic() < last:
        found = probe()
        if found:
            return found
        time.sleep(0.01)
    raise Wrong(f"{what}: not within {seconds} seconds")


# The sockets that hold the ports which were given, up to the end.
HELD = []


def free_port():
    """A port at which nobody listens, and that nobody but a node is given any more."""
    HELD.append(hold_port())
    return port_of(HELD[-1])


def listens(port):
    """Whether some program of this machine listens at that port."""
    for table in ("/proc/net/tcp", "/proc/net/tcp6"):
        with contextlib.suppress(OSError), open(table) as lines:
            for fields in map(str.split, lines):
                if fields[3] == "0A" and fields[1].endswith(f":{port:04X}"):
                    return True
    return False


def connect(port, source=HOST, window=None):
    """A peer from that address of this machine, with room for so many bytes that it did not read yet."""
    connection = socket.socket()
    if window is not None:
        connection.setsockopt(socket.SOL_SOCKET, socket.SO_RCVBUF, window)
    connection.settimeout(PATIENCE)
    connection.bind((source, 0))
    connection.connect((HOST, port))
    connection.setsockopt(socket.IPPROTO_TCP, socket.TCP_NODELAY, 1)
    return Peer(connection)


class Ran(collections.namedtuple("Ran", "status output log")):
    """How a program ended, and what it wrote."""


class Place:
    """A folder, and the programs that run in it."""

    def __init__(self, folder):
        self.folder = pathlib.Path(folder)
        self.running = []
        self.count = 0

    def file(self, name, content):
        path = self.folder / name
        path.parent.mkdir(parents=True, exist_ok=True)
        path.write_bytes(content if isinstance(content, bytes) else content.encode())
        return name

    def start(self, *words, source=os.devnull, output=None, log=None, memory=None):
        """A program of these words, which reads that file, and whose output and log go to files. It gets so many bytes of memory at most."""
        self.count += 1
        paths = [output or self.folder / f"output.{self.count}", log or self.folder / f"log.{self.count}"]
        limit = (lambda: resource.setrlimit(resource.RLIMIT_AS, (memory, memory))) if memory else None
        # a folder can be opened so too, and not read
        source = os.open(self.folder / source, os.O_RDONLY)
        with open(paths[0], "wb") as output, open(paths[1], "wb") as log:
            streams = {"stdin": source, "stdout": output, "stderr": log}
            program = subprocess.Popen([PROGRAM, *map(str, words)], cwd=self.folder, preexec_fn=limit, **streams)
        os.close(source)
        program.paths = paths
        self.running.append(program)
        return program

    def end(self, program):
        """How a program ends that was started."""
        try:
            status = program.wait(PATIENCE)
        except subprocess.TimeoutExpired:
            program.kill()
            program.wait()
            raise Wrong(f"{program.args[1:]} did not end within {PATIENCE} seconds") from None
        return Ran(status, *(b"" if path == FULL else path.read_bytes() for path in program.paths))

    def run(self, *words, **streams):
        return self.end(self.start(*words, **streams))

    def node(self, conf, *options, port=None):
        return Node(self, conf, options, port or free_port())

    def end_all(self):
        for program in self.running:
            if program.poll() is None:
                program.kill()
            program.wait()


class Node:
    """A node over a configuration, that listens."""

    def __init__(self, place, conf, options, port):
        self.place = place
        self.port = port
        self.at = f"{HOST}:{self.port}"
        self.words = ["node", "-p", self.port, *options, place.file(f"ldmd.conf.{self.port}", conf)]
        self.start()

    def start(self):
        self.program = self.place.start(*self.words)
        until(lambda: listens(self.port) or self.program.poll() is not None, f"{self.words} listens")
        if self.program.poll() is not None:
            raise Wrong(f"{self.words} ended: {self.place.end(self.program)}")

    def stop(self):
        self.program.kill()
        self.program.wait()

    def ended(self):
        return self.place.end(self.program)

    def log(self):
        """The lines of its log that are whole."""
        return self.program.paths[1].read_bytes().decode().split("\n")[:-1]

    def until_logged(self, line, times=1):
        until(lambda: self.log().count(line) >= times, f"the line {line!r} in the log")

    def connect(self, *options, **more):
        return connect(self.port, *options, **more)

    def stat(self):
        with self.connect() as peer:
            return peer.stat()

    def until_stat(self, *figures):
        """Waits until these are its first figures, as one peer is told: a product may still be held that came to who is fed it."""
        with self.connect() as peer:
            until(lambda: peer.stat()[: len(figures)] == figures, f"the figures {figures} of a node")

    def put_all(self, products):
        """Puts them in; they have to be admitted, none evicted. Tells the first number."""
        with self.connect() as peer:
            answers = [peer.put(product) for product in products]
        first = answers[0][1]
        expect([a[:2] + a[3:] for a in answers], [(ADMITTED, first + i, 0) for i in range(len(answers))], "the answers to PUT")
        if not all(before[2] < after[2] for before, after in zip(answers, answers[1:])):
            raise Wrong("the instants of insertion do not rise")
        return first

    def seconds(self):
        """The processor's time that it took."""
        fields = pathlib.Path(f"/proc/{self.program.pid}/stat").read_text().rpartition(")")[2].split()
        return (int(fields[11]) + int(fields[12])) / os.sysconf("SC_CLK_TCK")

    def descriptors(self):
        return len(os.listdir(f"/proc/{self.program.pid}/fd"))

    def memory(self):
        """The bytes that it has in memory."""
        with open(f"/proc/{self.program.pid}/statm") as fields:
            return int(fields.read().split()[1]) * os.sysconf("SC_PAGE_SIZE")


def without_arrival(products):
    return [product.told()._replace(arrival=0) for product in products]


def expect_products(found, wanted, what):
    """Compares products, all but the arrivals; a difference is told in few words."""
    found, wanted = without_arrival(found), without_arrival(wanted)
    if found == wanted:
        return
    for i, (one, other) in enumerate(zip(found, wanted)):
        if one != other:
            raise Wrong(f"{what}: product {i} is {one.ident!r} of {len(one.body)} bytes, not {other.ident!r} of {len(other.body)}")
    raise Wrong(f"{what}: {len(found)} products in place of {len(wanted)}")


# Nodes that feed each other


def put_in_files(place, node, products):
    """Has files put into a node whose names are the idents; all are of one feed."""
    files = [place.file(product.ident.decode(), product.body) for product in products]
    ran = place.run("pqinsert", "-q", node.at, "-f", products[0].feed, "-o", "h", *files)
    expect((ran.status, ran.log), (0, b""), "pqinsert")
    answers = [line.split() for line in ran.output.splitlines()]
    expect([(a[0], a[3]) for a in answers], [(b"admitted", b"0")] * len(files), "what pqinsert wrote")
    return [product._replace(seqno=i) for i, product in enumerate(products)]


def relays_what_is_due(place):
    """A second node asks the first for two feeds. Of 1,000 products that are put into the first those come to it that its class and the ALLOW
    line of the first want, in order, each product once and whole, those above 16,384 bytes in blocks."""
    a = place.node("ALLOW ANY ^127\\.0\\.0\\.1$ .* ^TEST\nACCEPT ANY .* ^127\\.0\\.0\\.1$\n", *MANY)
    b = place.node(f'REQUEST IDS|DDPLUS ".*" {a.at}\nALLOW ANY .*\n', *MANY)
    draw = random.Random(18)

    def some(count, front, feed=None):
        kinds = [feed] if feed else [IDS, DDS, HDS]
        words = ["SAUS44.KWBC", "SDUS53.KDEN", "TEST", "FTUS"]
        return [
            Product(f"{draw.choice(words)}.{front}{i}".encode(), draw.randbytes(draw.randint(2_048, 40_960)), draw.choice(kinds), i)
            for i in range(count)
        ]

    with a.connect() as subscriber:
        expect(subscriber.subscribe([(ANY, b".*")]), number(OK), "the answer to a FEEDME")
        put = []
        for feed in (IDS, DDS, HDS):
            put += put_in_files(place, a, some(8, "file.", feed))
        behind = some(973, "") + [Product(b"last", IS_HERE, HDS), Product(b"TEST last", IS_HERE + b"t"), Product(b"last", IS_HERE + b"l")]
        expect(a.put_all(behind), len(put), "the first number behind those of the files")
        put += behind
        allowed = [product for product in put if not product.ident.startswith(b"TEST")]
        expect_products(subscriber.products(len(allowed)), allowed, "a subscriber of the first node")
    due = [product for product in allowed if product.feed & (IDS | DDPLUS)]
    if not any(len(product.body) > 2 * BLOCK for product in due) or len(due) in (0, len(allowed)):
        raise Wrong("this case has no product of three blocks, or none that is not due")
    with b.connect() as subscriber:
        expect(subscriber.subscribe([(ANY, b"")]), number(OK), "the answer to a FEEDME")
        expect_products(subscriber.products(len(due)), due, "a subscriber of the second node")
        used = sum(product.extent() for product in due)
        b.until_stat(len(due), len(due), 0, used, ARENA - used)
        b.until_logged("session 127.0.0.1 ended")
        expect(b.log(), ["session 127.0.0.1 ended"], "the log of the second node while it is fed")
    ran = place.run("pqcat", "-q", b.at, "-c", len(due))
    expect((ran.status, ran.log), (0, b""), "pqcat")
    expect(ran.output == b"".join(product.body for product in due), True, "whether pqcat wrote the bodies in order")


def resumes_a_cut_session(place):
    """A session that is cut in the second of three blocks goes on behind the last product before it, and the product that was cut is
    admitted once. Later sessions go on behind the last product that was admitted, refused or not wanted."""
    asked = [(IDS | DDPLUS, b".*")]
    first = Product(b"first", b"1" * 100)
    cut = Product(b"cut", bytes(range(250)) * 160)
    third = Product(b"third", b"3" * BLOCK, DDS)
    unwanted = Product(b"of HDS", b"4", HDS)

    def behind(product):
        return product_class([*asked, (0, b"SIG=" + product.signature.hex().encode())]) + number(BLOCK)

    with Upstream() as upstream:
        node = place.node(f'REQUEST IDS|DDPLUS ".*" {HOST}:{upstream.port}\nALLOW ANY .*\n')
        with upstream.asked(product_class(asked) + number(BLOCK)) as peer:
            peer.xid = 0
            peer.feed_whole(first)
            expect(peer.announce(cut), number(OK), "the answer to a COMINGSOON")
            peer.call(BLKDATA, cut.blocks()[0])
            until(lambda: node.stat().held == 1, "a region is held")
            peer.send(call(4, BLKDATA, cut.blocks()[1])[:9_000])
        with upstream.asked(behind(first)) as peer:
            node.until_logged("session 127.0.0.1 truncated")
            expect(node.stat()[:3], (1, 1, 0), "the first figures behind the cut")
            peer.xid = 0
            peer.feed_in_blocks(cut)
            peer.feed_whole(third)
            peer.call(IS_ALIVE)
            expect(peer.announce(cut), number(DONT_SEND), "the answer to what is queued already")
            peer.feed_whole(third)
        with upstream.asked(behind(third)) as peer:
            peer.xid = 0
            expect(peer.announce(unwanted._replace(body=b"4" * 40_000)), number(DONT_SEND), "the answer to what nobody asked for")
            peer.feed_whole(unwanted)
        with upstream.asked(behind(unwanted)) as peer:
            peer.xid = 0
            with node.connect() as subscriber:
                subscriber.subscribe([(ANY, b".*")])
                expect(subscriber.products(3), [p.told() for p in (first, cut, third)], "what the node was fed")
                last = Product(b"last", IS_HERE)
                peer.feed_whole(last)
                expect(subscriber.next_product(), last.told(), "what comes last")
            node.until_stat(4, 4, 0)
            # while the node waits for this peer
            found = [line for line in node.log() if line != "session 127.0.0.1 ended"]
            wanted = ["session 127.0.0.1 truncated", "refused third duplicate 2", *["unwanted of%20HDS"] * 2]
            expect(found, wanted, "the log but for the sessions that ended")


class BreakingLink:
    """A port that leads to a node, over links that break: each after as many bytes of the node as the next number says. Where no number is
    left, links last. What the node sent is kept."""

    def __init__(self, port, lasts):
        self.port = port
        self.lasts = list(lasts)
        self.sent = b""
        self.listener = socket.create_server((HOST, 0))
        self.at = f"{HOST}:{self.listener.getsockname()[1]}"
        threading.Thread(target=self.work, daemon=True).start()

    def work(self):
        with contextlib.suppress(OSError):
            while True:
                asking = self.listener.accept()[0]
                threading.Thread(target=self.pass_on, args=(asking, self.lasts.pop() if self.lasts else 2**40), daemon=True).start()

    def pass_on(self, asking, left):
        with contextlib.suppress(OSError), asking, socket.create_connection((HOST, self.port)) as feeding:
            threading.Thread(target=self.pass_back, args=(asking, feeding), daemon=True).start()
            while left:
                piece = feeding.recv(min(left, 65_536))
                if not piece:
                    break
                self.sent += piece
                asking.sendall(piece)
                left -= len(piece)
            for connection in (asking, feeding):
                connection.shutdown(socket.SHUT_RDWR)

    def pass_back(self, asking, feeding):
        with contextlib.suppress(OSError):
            while piece := asking.recv(65_536):
                feeding.sendall(piece)


def relays_over_links_that_break(place):
    """A node asks another one over links that break at any byte. It has what is due all the same, in order and each product once."""
    draw = random.Random(23)
    a = place.node(OPEN, "-w", 48)
    products = [Product(f"{i}".encode(), draw.randbytes(draw.choice([0, 100, 5_000, 16_384, 16_385, 40_000])), seqno=i) for i in range(80)]
    # two empty bodies have one signature
    products = [product._replace(signed=number(i) * 4) for i, product in enumerate(products)]
    a.put_all(products)
    link = BreakingLink(a.port, [draw.choice([1, 31, 32, 33, *range(1_000, 130_000, 997)]) for _ in range(40)])
    b = place.node(f"REQUEST ANY .* {link.at}\nALLOW ANY .*\n", *SHORT_RESTS)
    until(lambda: b.stat().queued == len(products), "the node has all products", 3 * STEP)
    with b.connect() as subscriber:
        expect(subscriber.subscribe([(ANY, b".*")]), number(OK), "the answer to a FEEDME")
        expect_products(subscriber.products(len(products)), products, "what came over links that break")
    ends = collections.Counter(b.log())
    cut = ends["session 127.0.0.1 truncated"] + ends["session 127.0.0.1 linkfault"]
    if cut < 10:
        raise Wrong(f"this case has {cut} sessions that were cut")
    odd = [line for line in ends if line.split()[2:] not in (["truncated"], ["ended"], ["linkfault"])]
    expect(odd, [], "lines of the log that have no place there")
    link.listener.close()


def ways_of(stream):
    """How products come in a stream of records: HEREIS or COMINGSOON each."""
    found, content = [], b""
    while len(stream) >= 4:
        (length,) = struct.unpack_from(">I", stream)
        at = 4 + length % 2**31
        content, stream = content + stream[4:at], stream[at:]
        if length >= 2**31:
            found.append(struct.unpack_from(">I", content, 20)[0] if len(content) >= 40 else None)
            content = b""
    return [procedure for procedure in found if procedure in (HEREIS, COMINGSOON)]


def asks_for_products_whole(place):
    """A node is asked by others, each of which has another last word in its REQUEST line. PRIMARY asks for products of up to 1,048,576 bytes
    whole, ALTERNATE, as no word, for those of up to 16,384; each has all products."""
    draw = random.Random(29)
    sizes = [0, BLOCK, BLOCK + 1, 100_000, 1_048_576, 1_048_577]
    products = [Product(f"{size}".encode(), draw.randbytes(size), seqno=i) for i, size in enumerate(sizes)]
    a = place.node(OPEN, *MANY)
    a.put_all(products)
    for word, whole in (("PRIMARY", 1_048_576), ("pRIMARy", 1_048_576), ("ALTERNATE", BLOCK), ("alternate", BLOCK), ("", BLOCK)):
        link = BreakingLink(a.port, [])
        b = place.node(f"REQUEST ANY .* {link.at} {word}\nALLOW ANY .*\n")
        until(lambda b=b: b.stat().queued == len(products), f"the node with {word!r} has all products")
        with b.connect() as subscriber:
            expect(subscriber.subscribe([(ANY, b".*")]), number(OK), "the answer to a FEEDME")
            expect_products(subscriber.products(len(products)), products, f"what came by {word!r}")
        expect(ways_of(link.sent), [HEREIS if size <= whole else COMINGSOON for size in sizes], f"how products came by {word!r}")
        b.stop()
        link.listener.close()


def asks_until_it_is_fed(place):
    """A node that asks another one is told what it may have, is denied, or hears something else. It logs how each session ended, and asks
    again; what it was told it may have it asks for on the same connection, once."""
    asked = product_class([(IDS | DDPLUS, b"^a")])
    less = product_class([(IDS, b"^a")])
    reclass = reply(1, number(RECLASS) + less)
    first = [
        (b"", "truncated"),
        (reply(1, number(OK))[:31], "truncated"),
        (reply(1, number(DENIED)), "refused"),
        (reply(1, number(BADPATTERN)), "refused"),
        (reply(1, number(4)), "refused"),
        (reply(1, number(5)), "badframe"),
        (reply(1, number(RECLASS)), "badframe"),
        (reply(1, number(RECLASS) + asked), "refused"),
        (reply(1, number(RECLASS) + product_class([(IDS, b"(")])), "badframe"),
        (reply(1, number(OK) + number(0)), "badframe"),
        (reply(2, number(OK)), "badframe"),
        (reply(1, status=NO_PROCEDURE), "badframe"),
        (call(1, IS_ALIVE), "badframe"),
        (call(1, HEREIS, Product(b"a", b"a").whole()), "badframe"),
        (number(2**32 - 1), "badframe"),
    ]
    second = [
        (b"", "truncated"),
        (reply(2, number(RECLASS) + product_class([(IDS, b"^ab")])), "refused"),
        (reply(2, number(DENIED)), "refused"),
        (reply(1, number(OK)), "badframe"),
        (reply(2, number(OK)) + call(1, IS_ALIVE) + call(2, 8), "badframe"),
        (reply(2, number(OK)) + call(1, HEREIS, Product(b"a", b"1").whole()) + call(2, IS_ALIVE), "ended"),
    ]
    with Upstream() as upstream:
        node = place.node(f'REQUEST IDS|DDPLUS "^a" {HOST}:{upstream.port}\nALLOW ANY .*\n', *SHORT_RESTS)
        for answer, _ in first:
            with upstream.hears(asked + number(BLOCK)) as peer:
                peer.send(answer)
                peer.say_no_more()
                expect(peer.rest(), b"", f"what comes behind {answer.hex()}")
        for answer, _ in second:
            with upstream.hears(asked + number(BLOCK)) as peer:
                peer.send(reclass)
                expect(peer.next_record(), call(2, FEEDME, less + number(BLOCK))[4:], "the FEEDME of what is left")
                peer.send(answer)
                peer.say_no_more()
                expect(peer.rest(), b"", f"what comes behind {answer.hex()}")
        ends = [f"session 127.0.0.1 {end}" for _, end in first + second]
        until(lambda: len(node.log()) >= len(ends), "a line of each session")
        expect(node.log()[: len(ends)], ends, "the log")
        expect(node.stat()[:3], (1, 1, 0), "the first figures")


def feeds_both_ways(place):
    """Two nodes that ask each other: what is put into one is in both once, and goes no farther. Who is told again of a product that came
    whole logs that; one that is announced is declined without a line."""
    ports = [free_port(), free_port()]
    pair = [
        place.node(f'{OPEN}REQUEST ANY ".*" {HOST}:{other}\n', "-a", 4_194_304, "-w", 5, port=port)
        for port, other in (ports, ports[::-1])
    ]
    own = [[Product(f"{name}{i}".encode(), name.encode() * (1_000 + 7_000 * i), seqno=i) for i in range(6)] for name in "AB"]
    last = [Product(f"last of {name}".encode(), IS_HERE + name.encode()) for name in "AB"]
    with pair[0].connect() as a, pair[1].connect() as b:
        for one, other in zip(*own):
            expect([a.put(one)[0], b.put(other)[0]], [ADMITTED] * 2, "the answers to PUT")
        for peer in (a, b):
            until(lambda peer=peer: peer.stat().queued == 12, "both nodes have all products")
        expect([a.put(last[0])[0], b.put(last[1])[0]], [ADMITTED] * 2, "the answers to PUT")
    for products, product in zip(own, last):
        products.append(product)
    for node, products in zip(pair, own):
        small = [product.ident.decode().replace(" ", "%20") for product in products if len(product.body) <= BLOCK]

        def told_again(node=node):
            return [line.split()[1] for line in node.log() if line.startswith("refused ") and line.split()[2] == "duplicate"]

        # what was put in before the last one came back before it
        until(lambda: small[-1] in told_again(), "the line of the last product that came back")
        expect(told_again(), small, "the products that came back")
        odd = [line for line in node.log() if not line.startswith(("refused ", "unreached 127.0.0.1", "session 127.0.0.1 ended"))]
        expect(odd, [], "lines of the log that have no place there")
        everything = sorted(product.told() for product in own[0] + own[1])
        used = sum(product.extent() for product in everything)
        node.until_stat(14, 14, 0, used, 4_194_304 - used)
        with node.connect() as subscriber:
            expect(subscriber.subscribe([(ANY, b".*")]), number(OK), "the answer to a FEEDME")
            expect(sorted(subscriber.products(14)) == everything, True, "whether the node has all products")


def serves_two_at_once(place):
    """A node of two workers has two peers connected. Each is answered behind what the other one was answered meanwhile, whichever came first;
    and one that is fed waits for what the other one puts in."""
    for waiting in (0, 1):
        node = place.node(OPEN, "-w", 2)
        with node.connect() as first, node.connect() as second:
            waits, other = (first, second)[waiting], (second, first)[waiting]
            products = [Product(f"{i}".encode(), b"%d" % i, seqno=i) for i in range(4)]
            for product in products[:3]:
                expect(waits.stat().admitted, product.seqno, "how many were admitted, as one is told that waits")
                expect(other.put(product)[:2], (ADMITTED, product.seqno), "the answer to a PUT meanwhile")
                expect(waits.stat().admitted, product.seqno + 1, "how many were admitted, as the same is told behind it")
                expect(other.stat().admitted, product.seqno + 1, "how many were admitted, as the other is told behind that")
            expect(waits.subscribe([(ANY, b".*")]), number(OK), "the answer to a FEEDME")
            expect(waits.products(3), [product.told() for product in products[:3]], "what is fed first")
            expect(other.put(products[3])[:2], (ADMITTED, 3), "the answer to a PUT beside a feeding")
            expect(waits.next_product(), products[3].told(), "what is fed then")
            until(lambda other=other: other.stat()[:3] == (4, 4, 0), "nothing is held beside a feeding")
            expect(node.log(), [], "the log while both are connected")


# One connection


def stat_reply(xid, arena=ARENA):
    """The reply to QSTAT of a node into which nothing was put."""
    return reply(xid, number(0) + b"".join(figure.to_bytes(8, "big") for figure in (0, 0, 0, 0, arena)))


P = Product(b"p", b"ABCD", DDS, 1, signed=bytes([1]) * 16)


def cut(message, count):
    """A record without so many bytes of its end, whose header says so."""
    return record(message[4:-count])


def changed(message, at, piece):
    """A record with other bytes at a place of its content."""
    return message[: 4 + at] + piece + message[4 + at + len(piece) :]


def wrong_calls():
    """What a peer may send in place of a call that means something: its name, its bytes, what is answered, and how the session ends, if
    it ends. The number of each call is 7."""
    asks = product_class([(DDS, b".*")])
    largest = number(BLOCK)
    bodies = {
        HEREIS: P.whole(),
        FEEDME: asks + largest,
        HIYA: asks,
        NOTIFICATION: P.metadata(),
        NOTIFYME: asks,
        COMINGSOON: P.metadata() + largest,
        BLKDATA: P.blocks()[0],
        IS_ALIVE: b"",
        QSTAT: b"",
        PUT: P.whole(),
    }
    garbage = reply(7, status=GARBAGE)
    # a body that is longer, or shorter, or has a field that is out of its bounds
    for procedure, body in bodies.items():
        whole = call(7, procedure, body)
        yield f"{procedure} and four bytes more", call(7, procedure, body + bytes(4)), garbage, "badframe"
        if body:
            yield f"{procedure} without its last word", cut(whole, 4), garbage, "badframe"
            yield f"{procedure} without a body", call(7, procedure), garbage, "badframe"
        for header, place in (("kind", 4), ("protocol", 8), ("credential", 24), ("verifier", 32)):
            yield f"{procedure} of another {header}", changed(whole, place, number(3)), b"", "badframe"
        yield f"a reply to {procedure}", changed(whole, 4, number(1)), b"", "badframe"
        yield f"{procedure} of another program", call(7, procedure, body, program=300_030), reply(7, status=NO_PROGRAM), "badframe"
        mismatch = reply(7, number(6) + number(6), OTHER_VERSION)
        yield f"{procedure} of version 5", call(7, procedure, body, version=5), mismatch, "badframe"
    for procedure in (HEREIS, COMINGSOON, BLKDATA, NOTIFICATION):
        yield f"{procedure} that nobody asked for", call(7, procedure, bodies[procedure]), b"", "badframe"
    for procedure in (FEEDME, HIYA, NOTIFYME):
        end = largest if procedure == FEEDME else b""
        front = largest if procedure == HIYA else b""
        specs = {
            "(": BADPATTERN,
            "[": BADPATTERN,
            "*": BADPATTERN,
            "(?-u)\\xff": DENIED,
            "(" * 255: BADPATTERN,
        }
        for pattern, answer in specs.items():
            body = product_class([(HDS, pattern.encode())]) + end
            over = "denied" if answer == DENIED else None
            yield f"{procedure} of HDS and {pattern[:9]}", call(7, procedure, body), reply(7, front + number(answer)), over
        no_utf8 = product_class([(DDS, b"\xff")]) + end
        yield f"{procedure} of no text", call(7, procedure, no_utf8), reply(7, front + number(BADPATTERN)), None
        yield f"{procedure} of nothing", call(7, procedure, product_class([]) + end), reply(7, front + number(DENIED)), "denied"
        less = reply(7, front + number(RECLASS) + asks)
        more = product_class([(DDS | HDS, b".*"), (HDS, b"")]) + end
        yield f"{procedure} of more than it may have", call(7, procedure, more), less, None
        wrong = {
            "micros": changed(call(7, procedure, asks + end), 44, number(1_000_000)),
            "last micros": changed(call(7, procedure, asks + end), 52, number(1_000_000)),
            "33 specifications": call(7, procedure, product_class([(DDS, b"")] * 33) + end),
            "2^32 - 1 specifications": changed(call(7, procedure, asks + end), 56, number(2**32 - 1)),
            "a pattern of 256 bytes": call(7, procedure, product_class([(DDS, b"x" * 256)]) + end),
            "a pattern of 2^32 - 1 bytes": changed(call(7, procedure, asks + end), 64, number(2**32 - 1)),
            "padding": changed(call(7, procedure, asks + end), 70, b"\1"),
        }
        for what, message in wrong.items():
            yield f"{procedure} with wrong {what}", message, garbage, "badframe"
    for procedure in (HEREIS, PUT):
        whole = call(7, procedure, P.whole())
        yield f"{procedure} with an ident of 2^32 - 1 bytes", changed(whole, 80, number(2**32 - 1)), garbage, "badframe"
        yield f"{procedure} with a size of 5", changed(whole, 88, number(5)), garbage, "badframe"
        yield f"{procedure} with a size of 3", changed(whole, 88, number(3)), garbage, "badframe"
        # of a PUT the metadata decide, and what follows them is not asked for
        need = (len(P.metadata()) + 2**32 - 1 + 7) // 8 * 8
        too_big = reply(7, number(TOO_BIG) + struct.pack(">2Q", need, 65_536)), None
        yield f"{procedure} with a size of 2^32 - 1", changed(whole, 88, number(2**32 - 1)), *(
            too_big if procedure == PUT else (garbage, "badframe")
        )
        yield f"{procedure} with a zero byte", changed(whole, 84, b"\0"), garbage, "badframe"
        yield f"{procedure} with wrong padding", changed(whole, 85, b"\1"), garbage, "badframe"
        yield f"{procedure} with wrong micros", changed(whole, 44, number(1_000_000)), garbage, "badframe"
        yield f"{procedure} with a long origin", call(7, procedure, P._replace(origin=b"h" * 65).whole()), garbage, "badframe"
        yield f"{procedure} with a long ident", call(7, procedure, P._replace(ident=b"p" * 256).whole()), garbage, "badframe"
    not_pushed = call(7, PUT, P._replace(feed=HDS).whole())
    yield "PUT of what nobody may push", not_pushed, reply(7, number(NOT_ACCEPTED)), None
    big = Product(b"p", bytes(70_000), DDS)
    refused = number(TOO_BIG) + struct.pack(">2Q", big.extent(), 65_536)
    yield "PUT of what is too big", call(7, PUT, big.whole()), reply(7, refused), None
    yield "IS_ALIVE", call(7, IS_ALIVE), b"", None
    for procedure in (0, 2, 8, 15, 99, 102, 2**32 - 1):
        yield f"procedure {procedure}", call(7, procedure), reply(7, status=NO_PROCEDURE), None
        yield f"procedure {procedure} with bytes", call(7, procedure, b"abc"), reply(7, status=NO_PROCEDURE), None
    qstat = call(7, QSTAT)
    # a credential and a verifier of 400 bytes, of any values
    long_ones = qstat[4:28] + number(0) + number(400) + b"\xff" * 400 + number(0) + number(399) + b"\xee" * 400
    yield "QSTAT with 400 bytes of credential", record(long_ones), stat_reply(7, 65_536), None
    longer = qstat[4:28] + number(0) + number(401) + bytes(404) + number(0) + number(0)
    yield "QSTAT with 401 bytes of credential", record(longer), b"", "badframe"
    pieces = b"".join(number(1) + qstat[4 + i : 5 + i] for i in range(39)) + number(0) * 1_000 + record(qstat[43:])
    yield "QSTAT in fragments of a byte", pieces, stat_reply(7, 65_536), None
    yield "an empty record", record(b""), b"", "badframe"
    yield "a record of 39 bytes", record(qstat[4:43]), b"", "badframe"
    yield "a record that announces 2^31 - 1 bytes", number(2**32 - 1), b"", "badframe"
    yield "a record that announces a byte too many", number(2**31 + LARGEST_RECORD + 1), b"", "badframe"
    yield "two fragments of a byte too many", number(1) + b"x" + number(2**31 + LARGEST_RECORD), b"", "badframe"
    # as a header that is a fragment of 1,195,725,856 bytes
    yield "text", b"GET / HTTP/1.1\r\n\r\n", b"", "badframe"
    yield "a record that announces what may come", number(2**31 + LARGEST_RECORD) + qstat, b"", "truncated"
    yield "a part of a header", b"\x80\0", b"", "truncated"
    yield "a part of a call", qstat[:20], b"", "truncated"


def answers_wrong_calls(place):
    """Each call that is wrong in some way is answered as its rules say, in front of a good call and behind one; the session goes on or
    ends with its named end; and the next connection is served."""
    node = place.node("ALLOW DDS .*\nACCEPT DDS .* .*\n", "-w", 1, "-a", 65_536)
    ends = []
    wrong = []
    for name, message, answer, end in wrong_calls():
        for before in (b"", call(1, QSTAT)):
            with node.connect() as peer:
                behind = b"" if end == "truncated" else call(9, QSTAT)
                peer.send(before + message + behind)
                peer.say_no_more()
                wanted = (stat_reply(1, 65_536) if before else b"") + answer + (b"" if end else stat_reply(9, 65_536))
                found = peer.rest()
            if found != wanted:
                wrong.append(f"{name}{' behind a QSTAT' * bool(before)} is answered {found.hex()}, not {wanted.hex()}")
            ends.append(f"session 127.0.0.1 {end or 'ended'}")
    until(lambda: len(node.log()) >= len(ends), "a line of each session")
    expect(wrong, [], "answers")
    for (name, *_), found, wanted in zip((w for w in wrong_calls() for _ in range(2)), node.log(), ends):
        expect(found, wanted, f"the session of {name}")
    expect(node.stat(), Stat(0, 0, 0, 0, 65_536), "the figures of the node")


def takes_no_part_of_a_call(place):
    """A PUT that is cut at any place puts nothing in. The session is told as truncated, and the next connection is served."""
    node = place.node(OPEN, "-w", 1)
    message = call(1, PUT, P.whole())
    for count in range(1, len(message)):
        with node.connect() as peer:
            peer.send(message[:count])
            peer.say_no_more()
            expect(peer.rest(), b"", f"the answer to {count} bytes of a PUT")
    until(lambda: len(node.log()) == len(message) - 1, "a line of each session")
    expect(set(node.log()), {"session 127.0.0.1 truncated"}, "the lines")
    with node.connect() as peer:
        expect(peer.stat().admitted, 0, "how many were admitted")
        for count in range(1, len(message)):
            product = P._replace(signed=number(count) * 4)
            whole = call(1, PUT, product.whole())
            peer.send(whole[:count])
            time.sleep(0.001)
            peer.send(whole[count:])
            peer.xid = 1
            expect(struct.unpack(">I", peer.hear()[:4])[0], ADMITTED, f"a PUT that comes in two pieces, of which one has {count} bytes")


def keeps_the_rules_of_a_receiving(place):
    """What a peer that pushes sends wrong ends its session; what was whole before stands, a part of a product does not, and its region is
    given up."""
    hereis = call(1, HEREIS, P.whole())
    big = Product(b"big", bytes(40_000), DDS)
    soon = call(1, COMINGSOON, big.metadata() + number(BLOCK))
    blocks = [call(2 + i, BLKDATA, block) for i, block in enumerate(big.blocks())]
    other = big._replace(signed=bytes(16))
    wanted = reply(1, number(OK))
    cases = [
        ("a header of 2^31 - 1", number(2**32 - 1), b"", "badframe", 0),
        ("an ident of 2^32 - 1 bytes", changed(hereis, 80, number(2**32 - 1)), b"", "badframe", 0),
        ("a size of 5", changed(hereis, 88, number(5)), b"", "badframe", 0),
        ("a block that nothing announced", hereis + blocks[0], b"", "badframe", 1),
        ("1,000 empty fragments", number(0) * 1_000 + hereis, b"", "ended", 1),
        ("all but the last byte", hereis[:-1], b"", "truncated", 0),
        ("a part of a second one", hereis + hereis[:7], b"", "truncated", 1),
        ("another size of blocks", call(1, COMINGSOON, big.metadata() + number(BLOCK + 1)), b"", "badframe", 0),
        ("no block", soon, wanted, "truncated", 0),
        ("a product while blocks are to come", soon + hereis, wanted, "badframe", 0),
        ("two announcements", soon + soon, wanted, "badframe", 0),
        ("a block of another number", soon + blocks[1], wanted, "badframe", 0),
        ("a block twice", soon + blocks[0] + blocks[0], wanted, "badframe", 0),
        ("a block of another product", soon + call(2, BLKDATA, other.blocks()[0]), wanted, "badframe", 0),
        ("a short block", soon + call(2, BLKDATA, big._replace(body=bytes(BLOCK - 1), signed=big.signature).blocks()[0]), wanted, "badframe", 0),
        ("a last block that is long", soon + blocks[0] + blocks[1] + call(4, BLKDATA, big.signature + number(2) + string(bytes(BLOCK))), wanted, "badframe", 0),
        ("IS_ALIVE between blocks", soon + blocks[0] + call(3, IS_ALIVE) + blocks[1] + blocks[2], wanted, "ended", 1),
        ("no last block", soon + blocks[0] + blocks[1], wanted, "truncated", 0),
        ("all blocks and one more", soon + b"".join(blocks) + blocks[2], wanted, "badframe", 1),
        ("an empty product that is announced", call(1, COMINGSOON, P._replace(body=b"").metadata() + number(BLOCK)) + call(2, IS_ALIVE), wanted, "ended", 1),
        ("a QSTAT", hereis + call(2, QSTAT), b"", "badframe", 1),
        ("a FEEDME", call(2, FEEDME, product_class([(DDS, b".*")]) + number(BLOCK)), b"", "badframe", 0),
        ("a reply", reply(1, number(0)), b"", "badframe", 0),
        ("a refusal", reply(1, status=1), b"", "badframe", 0),
        ("another procedure", call(1, 8), b"", "badframe", 0),
        ("the largest size", call(1, COMINGSOON, P._replace(ident=b"huge", signed=b"h" * 16).metadata()[:-4] + number(2**32 - 1) + number(BLOCK)), reply(1, number(DONT_SEND)), "ended", 0),
    ]  # fmt: skip
    need = -(-(len(P._replace(ident=b"huge").metadata()) + 2**32 - 1) // 8) * 8
    for name, message, answer, end, admitted in cases:
        node = place.node(OPEN, "-w", 1, "-a", 1_048_576)
        with node.connect() as peer:
            expect(peer.ask(HIYA, product_class([(DDS, b".*")])), number(BLOCK) + number(OK), "the answer to a HIYA")
            peer.send(message)
            peer.say_no_more()
            expect(peer.rest(), answer, f"the answer to {name}")
        expect(node.stat()[:3], (admitted, admitted, 0), f"the first figures behind {name}")
        lines = [f"session 127.0.0.1 {end}"]
        if name == "the largest size":
            lines.insert(0, f"refused huge toobig {need} 1048576")
        expect(node.log()[: len(lines)], lines, f"the log behind {name}")
        node.stop()


def tells_a_wrong_reply(place):
    """A subscriber that answers an announcement by anything but its reply ends its feeding as badreply, and one that goes as peerend."""
    node = place.node(OPEN, "-w", 1)
    node.put_all([Product(b"big", b"x" * 20_000)])
    wrong = [
        (call(1, IS_ALIVE), "badreply"),
        (reply(2, number(OK)), "badreply"),
        (reply(1, number(2)), "badreply"),
        (reply(1, number(OK) + number(0)), "badreply"),
        (reply(1, status=NO_PROCEDURE), "badreply"),
        (record(bytes(1_025)), "badreply"),
        (number(2**32 - 1), "badreply"),
        (record(b""), "badreply"),
        (b"", "peerend"),
        (reply(1, number(OK))[:9], "peerend"),
    ]
    ends = ["ended"]
    for message, end in wrong:
        with node.connect() as peer:
            expect(peer.subscribe([(ANY, b".*")]), number(OK), "the answer to a FEEDME")
            expect(peer.next_call().procedure, COMINGSOON, "what comes of a large product")
            peer.send(message)
            peer.say_no_more()
            expect(peer.rest(), b"", f"what comes behind {message.hex()}")
        ends.append(end)
        expect(node.stat()[:3], (1, 1, 0), "the first figures")
        ends.append("ended")
    until(lambda: len(node.log()) >= len(ends), "a line of each session")
    expect(node.log(), [f"session 127.0.0.1 {end}" for end in ends], "the log")


def goes_on_behind_reclass(place):
    """A connection has one kind of session after another: it is told the part of a class that the rules leave, asks for that, and is fed
    it, told of it, or pushes it."""
    node = place.node("ALLOW DDS .*\nACCEPT DDS ^x .*\n")
    more = [(DDS | HDS, b".*"), (HDS, b"a")]
    less = product_class([(DDS, b".*")])
    reclass = number(RECLASS) + less
    x = Product(b"x1", b"pushed", DDS)
    with node.connect() as pusher, node.connect() as subscriber, node.connect() as watcher:
        expect(pusher.put(x)[:2], (ADMITTED, 0), "the answer to a PUT")
        expect(pusher.put(P), (NOT_ACCEPTED,), "the answer to a PUT of another ident")
        expect(pusher.ask(HIYA, product_class(more)), number(BLOCK) + reclass, "the answer to a HIYA of more")
        expect(pusher.stat()[:2], (1, 1), "the first figures")
        expect(pusher.ask(HIYA, less), number(BLOCK) + number(OK), "the answer to a HIYA of what is left")

        expect(subscriber.ask(NOTIFYME, product_class(more)), reclass, "the answer to a NOTIFYME of more")
        expect(subscriber.subscribe(more), reclass, "the answer to a FEEDME of more")
        expect(subscriber.ask(HIYA, product_class(more)), number(BLOCK) + reclass, "the answer to a HIYA of more")
        expect(subscriber.stat()[:2], (1, 1), "the first figures")
        expect(subscriber.subscribe([(DDS, b".*")]), number(OK), "the answer to a FEEDME of what is left")
        expect(subscriber.next_product(), x.told(), "what is fed")

        expect(watcher.subscribe(more), reclass, "the answer to a FEEDME of more")
        expect(watcher.ask(NOTIFYME, less), number(OK), "the answer to a NOTIFYME of what is left")
        expect(watcher.next_notice(), x.metadata(), "a notice")

        pushed = [Product(b"x2", b"2" * 100, DDS), Product(b"x3", b"3" * 50_000, DDS), Product(b"x4", b"", DDS)]
        pusher.xid = 0
        pusher.feed_whole(pushed[0])
        pusher.feed_whole(Product(b"x of HDS", b"h", HDS))
        expect(pusher.announce(P._replace(body=b"p" * 20_000)), number(DONT_SEND), "the answer to what may not be pushed")
        expect(pusher.announce(x), number(DONT_SEND), "the answer to what is queued")
        pusher.feed_in_blocks(pushed[1])
        pusher.feed_whole(x)
        pusher.feed_in_blocks(pushed[2])
        expect(subscriber.products(3), [product.told() for product in pushed], "what is fed of what was pushed")
        for product in pushed:
            expect(watcher.next_notice(), product.metadata(), "a notice")
        # lines are written behind the replies of the same piece, and no session is over yet
        until(lambda: len(node.log()) >= 3, "three lines")
        expect(node.log(), ["unwanted x%20of%20HDS", "unwanted p", "refused x1 duplicate 0"], "the log")


def accepts_by_host(place):
    """Who offers products is answered by the ACCEPT lines for the address that it came from."""
    node = place.node("ACCEPT 2 .* ^127\\.0\\.0\\.2$\n", "-w", 1)
    asks = product_class([(DDS, b".*")])
    with node.connect(source="127.0.0.2") as peer:
        peer.call(HIYA, asks)
        expect(peer.take(36), reply(1, number(BLOCK) + number(OK)), "the answer to a HIYA of 127.0.0.2")
    with node.connect() as peer:
        peer.call(HIYA, asks)
        expect(peer.rest(), reply(1, number(BLOCK) + number(DENIED)), "the answer to a HIYA of 127.0.0.1")
    until(lambda: len(node.log()) == 2, "both lines")
    expect(node.log(), ["session 127.0.0.2 ended", "session 127.0.0.1 denied"], "the log")
    node.stop()
    node = place.node("ACCEPT 2 ^x .*\nALLOW ANY .*\n", "-w", 1)
    with node.connect() as peer:
        expect(peer.ask(HIYA, asks), number(BLOCK) + number(OK), "the answer to a HIYA")
        peer.send(call(1, HEREIS, P.whole()))
    expect(node.stat(), Stat(0, 0, 0, 0, ARENA), "the figures")
    expect(node.log()[0], "unwanted p", "the log")


def refuses_long_records_of_a_feed(place):
    """Whoever may push sends records of a feed that are longer than any of their kind, of which a front is kept alone: each ends the
    session as a bad frame. A product that is not wanted is passed over however long it is, and one that is wanted is queued."""
    node = place.node("ACCEPT 2 ^x .*\nALLOW ANY .*\n", "-w", 2)
    asks = product_class([(DDS, b".*")])
    wanted = Product(b"x", bytes(300_000), feed=DDS)
    for long in (
        call(2, IS_ALIVE, bytes(100_000)),
        call(2, COMINGSOON, wanted.metadata() + number(BLOCK) + bytes(100_000)),
        call(2, BLKDATA, wanted.signature + number(0) + string(bytes(100_000))),
        call(2, QSTAT, bytes(100_000)),
        record(b"?" * 100_000),
    ):
        before = len(node.log())
        with node.connect() as peer:
            expect(peer.ask(HIYA, asks), number(BLOCK) + number(OK), "the answer to a HIYA")
            peer.send(long)
            expect(peer.rest(), b"", "what comes of a long record")
        until(lambda: len(node.log()) > before, "the line of the session")
        expect(node.log()[before:], ["session 127.0.0.1 badframe"], "the log")
    before = len(node.log())
    with node.connect() as peer:
        expect(peer.ask(HIYA, asks), number(BLOCK) + number(OK), "the answer to a HIYA")
        peer.send(call(2, HEREIS, Product(b"y", bytes(200_000), feed=DDS).whole()) + call(3, HEREIS, wanted.whole()))
        until(lambda: node.stat().admitted == 1, "a product")

    def told():
        # the sessions that ask for the figures have their lines among these
        return [line for line in node.log()[before:] if not line.startswith("session ")]

    until(told, "a line of what is not wanted")
    expect(told(), ["unwanted y"], "the log")


def is_asked_over_ipv6(place):
    """A peer that comes over IPv6 has the text of its address as host."""
    try:
        connection = socket.create_connection(("::1", place.node("ALLOW ANY ^::1$\n").port), PATIENCE)
    except OSError:
        return
    with Peer(connection) as peer:
        expect(peer.stat(), Stat(0, 0, 0, 0, ARENA), "the figures")


# Many peers, and such as mean no good


def some_visit(node, draw):
    """One connects, asks for something at random, waits a little, and drops the connection."""
    with contextlib.suppress(OSError, Wrong):
        with node.connect() as peer:
            peer.patience = 0.2
            kind = draw.randrange(9)
            if kind == 0:
                peer.stat()
            elif kind == 1:
                for _ in range(draw.randrange(1, 6)):
                    peer.put(Product(b"many", draw.randbytes(draw.randrange(30_000))))
            elif kind == 2:
                peer.subscribe([(ANY, b".*")], max_hereis=draw.choice([0, BLOCK, 2**32 - 1]))
                peer.products(draw.randrange(4))
            elif kind == 3:
                peer.ask(NOTIFYME, product_class([(ANY, b"m.*y")]))
                peer.next_call()
            elif kind == 4:
                peer.send(draw.randbytes(draw.randrange(1, 200)))
            elif kind == 5:
                peer.send(call(1, PUT, P.whole())[: draw.randrange(100)])
            elif kind == 6:
                peer.ask(HIYA, product_class([(ANY, b".*")]))
                big = Product(b"pushed", draw.randbytes(40_000))
                peer.announce(big)
                for block in big.blocks()[: draw.randrange(4)]:
                    peer.call(BLKDATA, block)
            elif kind == 7:
                peer.subscribe([(ANY, b"(")])
            if draw.randrange(2):
                peer.reset()


def stays_as_it_was(place):
    """A node with 8 workers is visited by 32 clients at once, each of which asks for something at random and drops the connection, again
    and again. Then it answers as before, holds nothing for them, and has as many descriptors and as much memory as before."""
    node = place.node(OPEN, "-w", 8, "-a", 1_048_576, "-S", 100)

    def visit(count, seed):
        draw = random.Random(seed)
        for _ in range(count):
            some_visit(node, draw)

    def visit_by_all(count, seed):
        """So many visits by each client. How many products the feeder had admitted up to their end."""
        clients = [threading.Thread(target=visit, args=(count, f"{seed} {i}"), daemon=True) for i in range(32)]
        for client in clients:
            client.start()
        fed = 0

        def are_over():
            # those that are fed and went are found out as they are sent something
            nonlocal fed
            fed += 1
            expect(feeder.put(Product(b"many", f"{seed} {fed}".encode(), EXP))[0], ADMITTED, "the answer to a PUT")
            return not any(client.is_alive() for client in clients)

        until(are_over, "the visits are over", 3 * STEP)
        until(lambda: are_over() and node.descriptors() == base and feeder.stat().held == 0, f"{base} descriptors are open and nothing is held")
        return fed

    def sessions():
        return sum(line.startswith("session ") for line in node.log())

    with node.connect() as feeder:
        expect(feeder.put(Product(b"many", b"first"))[0], ADMITTED, "the answer to a PUT")
        base = node.descriptors()
        visit_by_all(30, "at first")
        memory, held = node.memory(), sessions()
        fed = visit_by_all(60, "then")
        grown = node.memory() - memory
        if grown > 8_388_608:
            raise Wrong(f"the node has {grown} bytes more in memory behind {sessions() - held} sessions")
        with node.connect() as peer:
            # a visit that the system had still to hand over may come last
            until(lambda: peer.stat() == feeder.stat(), "two peers are told the same figures")
            stat = peer.stat()
            expect(stat.used <= 1_048_576 and stat.queued <= 100 and stat.admitted > fed, True, f"whether {stat} may be behind {fed} of one peer")
    known = ("session 127.0.0.1 ", "gap 127.0.0.1 ", "refused pushed ")
    odd = [line for line in node.log() if not line.startswith(known)]
    expect(odd, [], "lines of the log that have no place there")


def bears_a_slow_peer(place):
    """A peer that announces much and sends little, or sends a byte a second, holds one worker and no more, and takes no memory for what it
    announces."""
    node = place.node(OPEN, "-w", 4)
    expect(node.stat().admitted, 0, "how many were admitted")
    node.until_logged("session 127.0.0.1 ended")
    base = node.descriptors()
    memory = node.memory()
    call_of_put = call(1, PUT, P.whole())
    with node.connect() as great, node.connect() as greater, node.connect() as slow:
        great.send(number(2**31 + LARGEST_RECORD) + call_of_put[4:60])
        # a product that is 1 GB by its own metadata
        greater.send(number(2**31 + 2**30) + call_of_put[4:92] + number(2**30 - 92) + b"few")
        for i in range(3):
            slow.send(call_of_put[i : i + 1])
            with node.connect() as peer:
                expect(peer.stat().admitted, 0, "how many were admitted")
                until(lambda: node.descriptors() - base == 4, "four connections are served")
            until(lambda: node.descriptors() - base == 3, "a connection is over")
            time.sleep(1)
        if node.memory() - memory > 8_388_608:
            raise Wrong(f"the node took {node.memory() - memory} bytes for what was announced")
        slow.send(call_of_put[3:])
        slow.xid = 1
        expect(slow.hear()[:12], number(ADMITTED) + bytes(8), "the answer to a PUT that came slowly")
        for peer in (great, greater):
            peer.say_no_more()
            expect(peer.rest(), b"", "the answer to a part of a record")
        with node.connect() as lying:
            lying.send(number(2**32 - 1) + b"few")
            expect(lying.rest(), b"", "the answer to a record of 2^31 - 1 bytes")
    until(lambda: node.descriptors() == base, "all connections are over")
    node.until_logged("session 127.0.0.1 truncated", 2)
    node.until_logged("session 127.0.0.1 badframe")


def tells_of_losses(place):
    """A subscriber that does not read for a while is sent what is still queued, in order and each product once; what it missed is told in
    the log, by number. Who connects meanwhile is served."""
    node = place.node(OPEN, "-a", 4_194_304)
    size = 400_000
    products = [Product(f"{i}".encode(), number(i) * (size // 4), seqno=i) for i in range(60)]
    with node.connect(window=4_096) as subscriber, node.connect() as feeder:
        expect(subscriber.subscribe([(ANY, b".*")], max_hereis=2**32 - 1), number(OK), "the answer to a FEEDME")
        for product in products:
            expect(feeder.put(product)[:2], (ADMITTED, product.seqno), "the answer to a PUT")
        came = [subscriber.next_product()]
        while came[-1].seqno != products[-1].seqno:
            came.append(subscriber.next_product())
    numbers = [product.seqno for product in came]
    expect_products(came, [products[i] for i in sorted(set(numbers))], "what came to a slow subscriber")
    gaps = [[int(word) for word in line.split()[2:]] for line in node.log() if line.startswith("gap 127.0.0.1 ")]
    missed = sorted(set(range(60)) - set(numbers))
    if not missed:
        raise Wrong("this case has a subscriber that is slow enough to miss nothing")
    told = []
    for count, first, last in gaps:
        told += [n for n in missed if first <= n <= last]
        expect(count, sum(first <= n <= last for n in missed), f"the products that were missed from {first} to {last}")
    expect(told, missed, "the products that are told as missed")


# Tools


def asks_for_figures(place):
    """`pqmon` writes the figures of a node; it is told where it may not have them, and where no node is."""
    node = place.node(OPEN)
    products = [P, Product(b"", b"", origin=b""), Product(b"p" * 255, b"b" * 1_001, origin=b"o" * 64)]
    node.put_all(products)
    ran = place.run("pqmon", "-q", node.at)
    used = sum(product.extent() for product in products)
    expect(ran, (0, Stat(3, 3, 0, used, ARENA - used).line().encode(), b""), "pqmon")
    denying = place.node("ACCEPT ANY .* .*\nALLOW ANY ^10\\.\n")
    expect(place.run("pqmon", "-q", denying.at), (78, b"", b"ldm: denied\n"), "pqmon at a node that denies")
    nowhere = f"{HOST}:{free_port()}"
    for words in (["pqmon"], ["pqcat"], ["notifyme"], ["pqstats"], ["wmo"], ["pqinsert", place.file("a", "a")]):
        ran = place.run(words[0], "-q", nowhere, *words[1:])
        told = f"ldm: {nowhere}: Connection refused\nldm: net fault\n".encode()
        expect(ran, (69, b"", told), f"{words[0]} where nobody listens")


def asks_again_and_again(place):
    """`pqmon -i` writes a line, rests, and asks again, until it is stopped or the node is gone."""
    node = place.node(OPEN)
    node.put_all([P])
    first = Stat(1, 1, 0, P.extent(), ARENA - P.extent()).line().encode()
    begun = time.monotonic()
    programs = [place.start("pqmon", "-i", seconds, "-q", node.at) for seconds in (1, 2**32 - 1)]
    watch, other = programs
    for program in programs:
        until(lambda: program.paths[0].read_bytes().startswith(first), "the first line")
    second = Product(b"second", b"body")
    node.put_all([second])
    used = P.extent() + second.extent()
    later = Stat(2, 2, 0, used, ARENA - used).line().encode()
    until(lambda: watch.paths[0].read_bytes().endswith(later), "a line of the second product")
    if time.monotonic() - begun < 1:
        raise Wrong("another line came within a second")
    expect(watch.poll(), None, "pqmon between two lines")
    node.stop()
    ran = place.end(watch)
    told = f"ldm: {node.at}: Connection refused\nldm: net fault\n".encode()
    expect((ran.status, ran.log), (69, told), "pqmon whose node is gone")
    expect(ran.output, first * ran.output.count(first) + later * ran.output.count(later), "its lines")
    expect((other.poll(), other.paths[0].read_bytes()), (None, first), "pqmon that rests")


def hears_wrong_replies(place):
    """A tool that is answered by anything but its reply, or whose peer goes, tells the place."""
    answers = [
        (b"", 0, "where the peer goes"),
        (reply(1, number(DENIED))[:9], 9, "where the peer goes within a record"),
        (reply(2, number(0) + bytes(40)), 0, "of another call"),
        (reply(1, status=NO_PROCEDURE), 0, "that refuses"),
        (call(1, IS_ALIVE), 0, "that is a call"),
        (reply(1, number(0) + bytes(36)), 0, "that is short"),
        (number(2**32 - 1), 0, "that is too long"),
    ]
    source = place.file("a", bulletin("001", "SAUS44 KWBC 010000", "TEXT"))
    for answer, at, what in answers:
        for words in (["pqmon"], ["pqinsert", "a"], ["wmo"]):
            with Upstream() as upstream:
                program = place.start(words[0], "-q", f"{HOST}:{upstream.port}", *words[1:], source=source)
                with Peer(upstream.listener.accept()[0]) as peer:
                    expect(peer.next_record() is None, False, "whether a call came")
                    peer.send(answer)
                    peer.say_no_more()
                    expect(place.end(program), (65, b"", f"ldm: bad frame at {at}\n".encode()), f"{words[0]} with a reply {what}")


def hears_wrong_streams(place):
    """A tool that is fed what is not lawful tells the place, and what came whole before is written; so is a part of a stream."""
    hereis = call(1, HEREIS, P.whole())
    other = Product(b"other", b"more", DDS)
    big = Product(b"big", bytes(40_000), DDS)
    notice = call(1, NOTIFICATION, P.metadata())
    line = f"notice 100 {'01' * 16} 0x00000002 1 h p 4\n".encode()
    asked = product_class([(ANY, b".*")])
    answer = reply(1, number(OK))
    # 70,000,000 bytes are announced
    huge = call(1, COMINGSOON, P.metadata()[:-4] + number(70_000_000) + number(BLOCK))
    need = -(-(len(P.metadata()) + 70_000_000) // 8) * 8
    fed = [
        (answer + hereis, 0, b"ABCD", ""),
        (answer + hereis[:50], 65, b"", "ldm: bad frame at 82\n"),
        (answer + number(2**32 - 1), 65, b"", "ldm: bad frame at 32\n"),
        (answer + hereis + call(2, BLKDATA, P.blocks()[0]), 65, b"ABCD", "ldm: bad frame at 132\n"),
        (answer + hereis + hereis + call(2, HEREIS, other.whole()), 0, b"ABCDmore", "refused p duplicate 0\n"),
        (answer + hereis + call(2, QSTAT), 65, b"ABCD", "ldm: bad frame at 132\n"),
        (answer + call(1, COMINGSOON, big.metadata() + number(BLOCK)), 65, b"", f"ldm: bad frame at {80 + len(big.metadata())}\n"),
        (answer + huge + call(2, HEREIS, other.whole()), 0, b"more", f"refused p toobig {need} 67108864\n"),
        (reply(1, number(DENIED)), 78, b"", "ldm: denied\n"),
        (reply(1, number(4)), 78, b"", "ldm: denied\n"),
        (reply(1, number(RECLASS) + asked), 78, b"", "ldm: denied\n"),
        (b"", 65, b"", "ldm: bad frame at 0\n"),
        (answer[:5], 65, b"", "ldm: bad frame at 5\n"),
        (reply(7, number(OK)), 65, b"", "ldm: bad frame at 0\n"),
        (answer, 0, b"", ""),
    ]
    told = [
        (answer + notice, 0, line, ""),
        (answer + notice + call(2, IS_ALIVE) + notice, 0, line * 2, ""),
        (answer + notice[:-1], 65, b"", f"ldm: bad frame at {31 + len(notice)}\n"),
        (answer + hereis, 65, b"", "ldm: bad frame at 32\n"),
        (answer + notice + number(2**32 - 1), 65, line, f"ldm: bad frame at {32 + len(notice)}\n"),
        (reply(1, number(DENIED)), 78, b"", "ldm: denied\n"),
        (b"", 65, b"", "ldm: bad frame at 0\n"),
        (answer, 0, b"", ""),
    ]
    place.file("out.conf", "ANY\t.*\tPIPE\tsh -c \"cat > out\"\n")
    for words, cases in ((["pqcat", "-q"], fed), (["pqact", "out.conf"], fed), (["notifyme", "-q"], told)):
        for stream, status, output, log in cases:
            with Upstream() as upstream:
                program = place.start(*words, f"{HOST}:{upstream.port}")
                with Peer(upstream.listener.accept()[0]) as peer:
                    body = asked if words[0] == "notifyme" else asked + number(BLOCK)
                    expect(peer.next_record(), call(1, NOTIFYME if words[0] == "notifyme" else FEEDME, body)[4:], "what is asked for")
                    peer.send(stream)
                    peer.say_no_more()
                    ran = place.end(program)
                if words[0] == "pqact":
                    out = place.folder / "out"
                    ran = ran._replace(output=ran.output + (out.read_bytes() if out.exists() else b""))
                    out.unlink(missing_ok=True)
                expect(ran, (status, output, log.encode()), f"{words[0]} over {stream.hex()[:400]}")


def tells_what_cannot_be_written(place):
    """A program whose output or whose log takes nothing says so by its status."""
    node = place.node(OPEN, *MANY)
    node.put_all([P])
    place.file("a", "a")
    source = place.file("bulletin", bulletin("001", "SAUS44 KWBC 010000", "TEXT"))
    place.file("bad", b"\x01\x03")
    place.file("none.conf", "")
    sink = [
        ["pqmon", "-q", node.at],
        ["pqcat", "-q", node.at],
        ["notifyme", "-q", node.at],
        ["pqstats", "-c", 1, "-q", node.at],
        ["pqinsert", "-q", node.at, "a"],
        ["wmo", "-q", node.at],
        ["node", "-p", free_port(), "-n", 0, "none.conf"],
    ]
    for words in sink:
        expect(place.run(*words, source=source, output=FULL), (75, b"", b"ldm: sink fault\n"), f"{words[0]} whose output is full")
    expect(place.run("wmo", "-q", node.at, source="bad", log=FULL), (76, b"", b""), "wmo whose log is full at a bad bulletin")
    nowhere = f"{HOST}:{free_port()}"
    tools = [[tool, "-q", nowhere] for tool in ("pqmon", "pqstats", "wmo")]
    for words in (*tools, ["node"], ["node", "missing"], ["pqact", "missing", nowhere]):
        expect(place.run(*words, log=FULL), (76, b"", b""), f"{words} whose log is full")
    # a node whose workers cannot log ends
    port = free_port()
    program = place.start("node", "-p", port, "-w", 1, "none.conf", log=FULL)
    until(lambda: listens(port), "the node listens")
    with connect(port) as peer:
        peer.send(bytes(1))
    expect(place.end(program), (76, Stat(0, 0, 0, 0, ARENA).line().encode(), b""), "a node whose log is full")


def expect_instants(products, instants, before, after):
    """Each product arrived, and was then inserted at its instant, while a program ran."""
    for product, instant in zip(products, instants):
        if not before <= product.arrival <= instant <= after + len(products):
            raise Wrong(f"an arrival at {product.arrival}, an insertion at {instant}, between {before} and {after}")


def answers_to_puts(lines):
    """The answers of a queue without the instants of insertion, and these instants."""
    told = [line.split() for line in lines]
    instants = [int(words.pop(2)) for words in told if words[0] == "admitted"]
    return [" ".join(words) for words in told], instants


def puts_files_in(place):
    """`pqinsert` puts files in, in order, and writes the answers of the queue."""
    node = place.node(OPEN, "-a", 65_536)
    bodies = {"one": b"1" * 100, "dir/two": bytes(range(256)), "same as one": b"1" * 100, "empty": b"", "big": b"b" * 70_000}
    for name, body in bodies.items():
        place.file(name, body)
    big = Product(b"big", bodies["big"], EXP, origin=b"localhost")
    with node.connect() as subscriber:
        expect(subscriber.subscribe([(ANY, b".*")], max_hereis=2**32 - 1), number(OK), "the answer to a FEEDME")

        def put(status, log, answers, products, *words):
            before = time.time_ns() // 1_000
            ran = place.run("pqinsert", "-q", node.at, *words)
            after = time.time_ns() // 1_000
            told, instants = answers_to_puts(ran.output.decode().splitlines())
            expect((ran.status, ran.log.decode(), told), (status, log, answers), f"pqinsert {words}")
            found = subscriber.products(len(products))
            expect_products(found, products, f"what came of pqinsert {words}")
            expect_instants(found, instants, before, after)

        one = Product(b"one", bodies["one"], EXP, origin=b"localhost")
        two = Product(b"dir/two", bodies["dir/two"], EXP, 1, b"localhost")
        put(0, "", ["admitted 0 0", "admitted 1 0"], [one, two], "one", "dir/two")
        put(79, "ldm: refused\n", ["duplicate 0", "admitted 2 0"], [Product(b"empty", b"", EXP, 1, b"localhost")], "same as one", "empty")
        refused = [f"toobig {big.extent()} 65536", "duplicate 0", "duplicate 1"]
        put(79, "ldm: refused\n", refused, [], "big", "one", "dir/two")
        signed = hashlib.md5(b"an ident").digest()
        named = Product(b"an ident", bodies["one"], IDS | DDS, 0, b"site", signed=signed)
        put(0, "", ["admitted 3 0"], [named], "-i", "-p", "an ident", "-o", "site", "-f", "IDS|DDS", "one")
        put(79, "ldm: refused\n", ["duplicate 3"], [], "-p", "an ident", "-i", "-f", "4", "dir/two")
        by_name = Product(b"one", bodies["one"], HDS, 0, b"localhost", signed=hashlib.md5(b"one").digest())
        put(0, "", ["admitted 4 0"], [by_name], "-f", "hds", "-i", "one")
        missing = "ldm: missing: No such file or directory\nldm: store fault\n"
        put(72, missing, ["duplicate 0"], [], "one", "missing", "dir/two")
        put(72, "ldm: dir: Is a directory\nldm: store fault\n", [], [], "dir")
        place.file("three", "3")
        put(72, missing, ["admitted 5 0"], [Product(b"three", b"3", EXP, 0, b"localhost")], "three", "missing")
    choosy = place.node("ACCEPT EXP ^one$ .*\nALLOW ANY .*\n")
    ran = place.run("pqinsert", "-q", choosy.at, "one", "empty", "missing")
    expect((ran.status, ran.output.startswith(b"admitted 0 "), ran.output.count(b"\n"), ran.log), (78, True, 1, b"ldm: denied\n"), "pqinsert that is denied")
    expect(choosy.stat()[:2], (1, 1), "the first figures behind it")
    closed = place.node("ALLOW ANY .*\n")
    expect(place.run("pqinsert", "-q", closed.at, "one"), (78, b"", b"ldm: denied\n"), "pqinsert where no ACCEPT line is")


def bulletin(digits, heading, text, blanks=""):
    """The bytes of a bulletin, as docs/wmo.md has them."""
    return f"\x01\r\r\n{digits}{blanks}\r\r\n{heading}{blanks}\r\r\n{text}\r\r\n\x03".encode("latin-1")


def product_of(whole, heading, seqno, feed=IDS, origin=b"localhost"):
    """The product that is made of a bulletin."""
    signed = hashlib.md5(whole[whole.index(heading.encode()) :]).digest()
    return Product(heading.encode(), whole, feed, seqno, origin, signed=signed)


def puts_bulletins_in(place):
    """`wmo` puts the bulletins of a stream in, in order, writes the answers of the queue, and logs the place of what is no bulletin."""
    headings = ["SAUS44 KWBC 010000", "FTUS80 KWBC 010000 AAA", "SAXX99 EGRR 312359"]
    first = bulletin("001", headings[0], "METAR KDCA 010000Z")
    second = bulletin("99999", headings[1], bytes(b for b in range(256) if b not in (1, 3)).decode("latin-1"), " \t")
    again = bulletin("7", headings[0], "METAR KDCA 010000Z")
    largest = bulletin("0", headings[2], "x" * (1_048_576 - len(bulletin("0", headings[2], ""))))
    noise = b"\r\nnoise\x03 NNNN"
    bad = bulletin("12", "saus44 KWBC 010000", "TEXT")
    long = largest[:-4] + b"x" + largest[-4:]
    one, two = product_of(first, headings[0], 1), product_of(second, headings[1], 99_999)
    node = place.node(OPEN, *MANY)
    with node.connect() as subscriber:
        expect(subscriber.subscribe([(ANY, b".*")], max_hereis=2**32 - 1), number(OK), "the answer to a FEEDME")

        def put(status, log, answers, products, stream, *words):
            place.file("stream", stream)
            before = time.time_ns() // 1_000
            ran = place.run("wmo", "-q", node.at, *words, source="stream")
            after = time.time_ns() // 1_000
            told, instants = answers_to_puts(ran.output.decode().splitlines())
            expect((ran.status, ran.log.decode(), told), (status, log, answers), f"wmo {words} of {stream[:40]!r}")
            found = subscriber.products(len(products))
            expect_products(found, products, f"what came of wmo {words}")
            expect_instants(found, instants, before, after)

        put(0, "", [], [], b"")
        put(0, "", [], [], noise)
        places = len(noise + first), len(noise + first + bad + second + noise)
        log = f"bad bulletin at {places[0]}\ncut bulletin at {places[1]}\n"
        put(65, log, ["admitted 0 0", "admitted 1 0"], [one, two], noise + first + bad + second + noise + second[:-1])
        put(79, "ldm: refused\n", ["duplicate 0", "duplicate 1"], [], again + second)
        third = product_of(largest, headings[2], 0)
        put(79, "ldm: refused\n", ["duplicate 0", "admitted 2 0"], [third], first + largest)
        # what is met first has the status
        put(79, f"bad bulletin at {len(first)}\nldm: refused\n", ["duplicate 0"], [], first + bad)
        put(65, "bad bulletin at 0\n", ["duplicate 0"], [], bad + first)
        # one that is too long ends with its last byte that has room, and all goes on behind that
        put(65, "bad bulletin at 0\n", ["duplicate 1"], [], long + second)
        put(65, "bad bulletin at 0\ncut bulletin at 1\n", [], [], b"\x01\x01")
        other = bulletin("3", "SAXX99 EGRR 010101", "other")
        site = product_of(other, "SAXX99 EGRR 010101", 3, DDS | HDS, b"a site")
        put(0, "", ["admitted 3 0"], [site], other, "-f", "DDS|HDS", "-o", "a site")
    ran = place.run("pqcat", "-q", node.at, "-c", 3)
    expect((ran.status, ran.log, ran.output == first + second + largest), (0, b"", True), "pqcat of bulletins")
    ran = place.run("wmo", "-q", node.at, source=".")
    expect(ran, (74, b"", b"ldm: source fault\n"), "wmo that reads a folder")


def puts_bulletins_in_as_they_come(place):
    """`wmo` sends a bulletin once it is whole, before its stream is at its end; and no more where the node does not let it."""
    headings = ["SAUS44 KWBC 010000", "SAUS44 KWBC 010100"]
    bulletins = [bulletin(f"{i}", heading, f"TEXT {i}") for i, heading in enumerate(headings)]
    node = place.node(OPEN, *MANY)
    os.mkfifo(place.folder / "pipe")
    pipe = os.open(place.folder / "pipe", os.O_RDWR)
    program = place.start("wmo", "-q", node.at, source="pipe")
    with node.connect() as subscriber:
        expect(subscriber.subscribe([(ANY, b".*")]), number(OK), "the answer to a FEEDME")
        os.write(pipe, bulletins[0][:-1])
        os.write(pipe, bulletins[0][-1:] + bulletins[1][:9])
        expect_products([subscriber.next_product()], [product_of(bulletins[0], headings[0], 0)], "the first bulletin, as it came")
        os.write(pipe, bulletins[1][9:])
        expect_products([subscriber.next_product()], [product_of(bulletins[1], headings[1], 1)], "the second bulletin, as it came")
        os.close(pipe)
    ran = place.end(program)
    told, _ = answers_to_puts(ran.output.decode().splitlines())
    expect((ran.status, ran.log, told), (0, b"", ["admitted 0 0", "admitted 1 0"]), "wmo of a pipe")
    place.file("stream", b"\x01\x03" + bulletins[0] + bulletins[1] + bulletins[0])
    closed = place.node("ALLOW ANY .*\n")
    ran = place.run("wmo", "-q", closed.at, source="stream")
    expect(ran, (78, b"", b"bad bulletin at 0\nldm: denied\n"), "wmo where no ACCEPT line is")
    choosy = place.node("ALLOW ANY .*\nACCEPT IDS 0000$ .*\n")
    ran = place.run("wmo", "-q", choosy.at, source="stream")
    told, _ = answers_to_puts(ran.output.decode().splitlines())
    expect((ran.status, ran.log, told), (78, b"bad bulletin at 0\nldm: denied\n", ["admitted 0 0"]), "wmo that is denied")
    expect(choosy.stat()[:2], (1, 1), "the first figures behind it")
    small = place.node(OPEN, "-a", 64)
    need = product_of(bulletins[0], headings[0], 0).extent()
    ran = place.run("wmo", "-q", small.at, source=place.file("one", bulletins[0]))
    expect(ran, (79, f"toobig {need} 64\n".encode(), b"ldm: refused\n"), "wmo to a small queue")


def writes_bodies(place):
    """`pqcat` writes the bodies of the products that are due and nothing between them, up to COUNT or to the end of the stream."""
    node = place.node("ALLOW ANY .* .* ^secret\nACCEPT ANY .* .*\n", "-x", 0, "-n", 1, "-w", 2)
    products = [
        Product(b"a 1", b"first\n", IDS),
        Product(b"b 2", bytes(range(256)) * 200, DDS),
        Product(b"a 3", b"", HDS),
        Product(b"secret", b"not for you"),
        Product(b"a 4", b"fourth", IDS),
    ]
    # who puts them in keeps one of the two workers, each of which holds one session, up to the end
    with node.connect() as feeder:
        for product in products:
            expect(feeder.put(product)[0], ADMITTED, "the answer to a PUT")
        due = [product for product in products if product.ident != b"secret"]
        ran = place.run("pqcat", "-q", node.at)
        expect(ran, (0, b"".join(product.body for product in due), b""), "pqcat to the end of the stream")
        node.until_logged("session 127.0.0.1 stopped")
    ran = node.ended()
    used = sum(product.extent() for product in products)
    figures = Stat(5, 5, 0, used, ARENA - used).line().encode()
    expect(ran, (0, figures, b"session 127.0.0.1 stopped\nsession 127.0.0.1 ended\n"), "the node")


def writes_some_bodies(place):
    """`pqcat` asks for a class, and ends behind so many products."""
    node = place.node("ALLOW IDS|DDS .*\nACCEPT ANY .* .*\n", *MANY)
    products = [Product(f"{'ab'[i % 2]} {i}".encode(), b"%d\n" % i * 5_000, [IDS, DDS, HDS][i % 3], i) for i in range(12)]
    node.put_all(products)

    def bodies(feed, ident=b""):
        return [p.body for p in products if p.feed & feed and ident in p.ident]

    cases = [
        (["-f", "IDS", "-c", 4], bodies(IDS)),
        (["-f", "ids|dds", "-c", 8], bodies(IDS | DDS)),
        (["-c", 3], bodies(IDS | DDS)[:3]),
        (["-p", "^a", "-c", 4], bodies(IDS | DDS, b"a")),
        (["-c", 1, "-f", "8", "-p", "9$"], bodies(IDS, b"9")),
    ]
    for words, wanted in cases:
        expect(place.run("pqcat", "-q", node.at, *words), (0, b"".join(wanted), b""), f"pqcat {words}")
    expect(place.run("pqcat", "-q", node.at, "-f", "HDS"), (78, b"", b"ldm: denied\n"), "pqcat of what nobody may have")


def writes_notices(place):
    """`notifyme` writes a line for each product that is due, and no body is sent."""
    node = place.node("ALLOW IDS .*\nACCEPT ANY .* .*\n", *MANY)
    products = [Product(b"a b", b"x" * i, IDS, i, b"100%", 1_700_000_000_000_000 + i) for i in (0, 5, 40_000)]
    node.put_all([products[0], Product(b"a", b"y", HDS), *products[1:], Product(b"-", b"-", IDS)])
    lines = [
        f"notice {p.arrival} {p.signature.hex()} 0x00000008 {p.seqno} 100%25 a%20b {len(p.body)}\n".encode() for p in products
    ]
    expect(place.run("notifyme", "-q", node.at, "-c", 3), (0, b"".join(lines), b""), "notifyme")
    lines = [
        f"notice 2023-11-14T22:13:20.{p.arrival % 1_000_000:06}Z {p.signature.hex()} IDS {p.seqno} 100%25 a%20b {len(p.body)}\n".encode()
        for p in products
    ]
    expect(place.run("notifyme", "-t", "-q", node.at, "-c", 3), (0, b"".join(lines), b""), "notifyme -t")
    last = f"notice 100 {hashlib.md5(b'-').hexdigest()} 0x00000008 0 h %2D 1\n".encode()
    expect(place.run("notifyme", "-q", node.at, "-f", "IDS|HDS", "-p", "-", "-c", 1), (0, last, b""), "notifyme -p")
    expect(place.run("notifyme", "-q", node.at, "-f", "HDS"), (78, b"", b"ldm: denied\n"), "notifyme of what nobody may have")


class Counted(collections.namedtuple("Counted", "status log lines latencies answers output")):
    """What `pqstats` came to: the lines of its report without the latencies, these, and the answers behind it."""


def counted(ran):
    lines = ran.output.decode().splitlines()
    report = [line.split() for line in lines if line[:1].isdigit()]
    latencies = [int(words.pop()) for words in report]
    answers, _ = answers_to_puts(lines[len(report) :])
    return Counted(ran.status, ran.log.decode(), [" ".join(words) for words in report], latencies, answers, ran.output)


HOUR = 3_600_000_000

# The first hour of 2024-03-01, and of 2100.
MARCH = 1_709_251_200_000_000
FUTURE = 4_102_444_800_000_000


def counts_products(place):
    """`pqstats` writes how many products there were, how many bytes, and how long they took, by hour, feed and origin."""
    node = place.node("ALLOW IDS|DDS|EXP .*\nACCEPT ANY .* .*\n", *MANY)
    products = [
        Product(b"a", b"1" * 4, IDS, 0, b"h", MARCH),
        Product(b"b", b"2" * 12, IDS, 1, b"h", MARCH + HOUR - 1),
        Product(b"c", b"3" * 5, DDS, 2, b"h", MARCH + 30),
        Product(b"d", b"4" * 7, IDS, 3, b"a b", MARCH + 50),
        Product(b"e", b"", IDS, 4, b"h", MARCH + HOUR),
        Product(b"f", b"6", HDS, 5, b"h", MARCH),
    ]
    node.put_all(products)
    dds, site, ids = "2024030100 0x00000002 h 1 5", "2024030100 0x00000008 a%20b 1 7", "2024030100 0x00000008 h 2 16"
    last = "2024030101 0x00000008 h 1 0"
    # the arrival from which each line counts its latency
    since = {dds: MARCH + 30, site: MARCH + 50, ids: MARCH, last: MARCH + HOUR, "2024030100 0x00000008 h 1 4": MARCH}
    cases = [
        (["-c", 5], [dds, site, ids, last]),
        (["-c", 5, "-w", 2], [dds, site, ids, last]),
        (["-c", 5, "-w", 1], [last]),
        (["-c", 5, "-w", 8_760], [dds, site, ids, last]),
        (["-c", 4, "-w", 1], [dds, site, ids]),
        (["-c", 1], ["2024030100 0x00000008 h 1 4"]),
        (["-c", 1, "-f", "DDS"], [dds]),
        (["-c", 2, "-p", "^[ab]$", "-f", "ids|hds"], [ids]),
    ]
    for words, lines in cases:
        before = time.time_ns() // 1_000
        found = counted(place.run("pqstats", "-q", node.at, *words))
        after = time.time_ns() // 1_000 + len(products)
        expect(found[:3], (0, "", lines), f"pqstats {words}")
        for line, latency in zip(lines, found.latencies):
            if not before <= since[line] + latency <= after:
                raise Wrong(f"a latency of {latency}, for {line!r}, between {before} and {after}")
    expect(place.run("pqstats", "-q", node.at, "-f", "HDS"), (78, b"", b"ldm: denied\n"), "pqstats of what nobody may have")


def sends_its_counts(place):
    """`pqstats -s` puts the lines of each hour into the queue of the node, by a connection of its own, behind the report."""
    node = place.node(OPEN, *MANY)
    products = [
        Product(b"a", b"1" * 4, IDS, 0, b"h", MARCH + HOUR),
        Product(b"b", b"2" * 12, IDS, 1, b"h", MARCH),
        Product(b"c", b"3" * 5, DDS, 2, b"h", MARCH),
        Product(b"f", b"6", HDS, 3, b"h", FUTURE),
    ]
    node.put_all(products)
    before = time.time_ns() // 1_000
    found = counted(place.run("pqstats", "-q", node.at, "-f", "IDS|DDS", "-c", 3, "-s"))
    after = time.time_ns() // 1_000
    lines = ["2024030100 0x00000002 h 1 5", "2024030100 0x00000008 h 1 12", "2024030101 0x00000008 h 1 4"]
    expect(found[:3], (0, "", lines), "pqstats -s")
    expect(found.answers, ["admitted 4 0", "admitted 5 0"], "the answers to pqstats -s")
    report = found.output.splitlines(keepends=True)[:3]
    sent = [
        Product(b"stats/2024030100", report[0] + report[1], EXP, 0, b"localhost"),
        Product(b"stats/2024030101", report[2], EXP, 1, b"localhost"),
    ]
    with node.connect() as subscriber:
        expect(subscriber.subscribe([(EXP, b"^stats/")]), number(OK), "the answer to a FEEDME")
        came = subscriber.products(2)
        expect_products(came, sent, "what pqstats -s sent")
        expect_instants(came, [after] * 2, before, after)
    expect(place.run("pqcat", "-q", node.at, "-f", "EXP", "-c", 2), (0, b"".join(report), b""), "pqcat of what pqstats -s sent")
    # who arrives later than it is inserted took no time, so the lines are the same once more
    line = b"2100010100 0x00000004 h 1 1 0\n"
    for status, log, answer in ((0, "", "admitted 6 0"), (79, "ldm: refused\n", "duplicate 6")):
        found = counted(place.run("pqstats", "-q", node.at, "-f", "HDS", "-c", 1, "-s"))
        expect((found.status, found.log, found.answers), (status, log, [answer]), "pqstats -s of the same lines")
        expect(found.output.splitlines(keepends=True)[0], line, "the report of what arrives later")
    closed = place.node("ALLOW ANY .*\nACCEPT IDS .* .*\n", *MANY)
    closed.put_all(products[:1])
    found = counted(place.run("pqstats", "-q", closed.at, "-c", 1, "-s"))
    expect((found[:3], found.answers), ((78, "ldm: denied\n", lines[2:]), []), "pqstats -s where no ACCEPT line lets it")
    # nobody listens any more when it connects again
    with Upstream() as upstream:
        program = place.start("pqstats", "-s", "-q", f"{HOST}:{upstream.port}")
        with upstream.asked(product_class([(ANY, b".*")]) + number(BLOCK)) as peer:
            upstream.listener.close()
            peer.feed_whole(products[0]._replace(seqno=7))
            peer.say_no_more()
            found = counted(place.end(program))
    told = f"ldm: {HOST}:{upstream.port}: Connection refused\nldm: net fault\n"
    expect(found[:3], (69, told, lines[2:]), "pqstats -s that cannot connect again")


def counts_nothing(place):
    """`pqstats` of a node that has nothing, up to the end of the stream, writes nothing; with `-s` it does not connect again."""
    node = place.node(OPEN, "-x", 0, "-n", 1, "-w", 2)
    for words in ([], ["-s"]):
        expect(place.run("pqstats", "-q", node.at, *words), (0, b"", b""), f"pqstats {words} where nothing is")
    empty = Stat(0, 0, 0, 0, ARENA).line().encode()
    expect(node.ended(), (0, empty, b"session 127.0.0.1 stopped\n" * 2), "the node that it asked")


def counts_what_came(place):
    """`pqstats` writes a report where the stream ends as it may, and else none."""
    hereis = call(1, HEREIS, P.whole())
    other = Product(b"other", b"more", DDS)
    answer = reply(1, number(OK))
    # 70,000,000 bytes are announced
    huge = call(1, COMINGSOON, P.metadata()[:-4] + number(70_000_000) + number(BLOCK))
    need = -(-(len(P.metadata()) + 70_000_000) // 8) * 8
    line = "1970010100 0x00000002 h"
    cases = [
        (answer, 0, [], ""),
        (answer + hereis, 0, [f"{line} 1 4"], ""),
        (answer + hereis + hereis + call(2, HEREIS, other.whole()), 0, [f"{line} 2 8"], "refused p duplicate 0\n"),
        (answer + huge + call(2, HEREIS, other.whole()), 0, [f"{line} 1 4"], f"refused p toobig {need} 67108864\n"),
        (answer + hereis[:50], 65, [], "ldm: bad frame at 82\n"),
        (answer + hereis + call(2, QSTAT), 65, [], "ldm: bad frame at 132\n"),
        (answer + hereis + number(2**32 - 1), 65, [], "ldm: bad frame at 132\n"),
        (reply(1, number(DENIED)), 78, [], "ldm: denied\n"),
        (b"", 65, [], "ldm: bad frame at 0\n"),
    ]
    for stream, status, lines, log in cases:
        with Upstream() as upstream:
            program = place.start("pqstats", "-q", f"{HOST}:{upstream.port}")
            with Peer(upstream.listener.accept()[0]) as peer:
                asked = product_class([(ANY, b".*")]) + number(BLOCK)
                expect(peer.next_record(), call(1, FEEDME, asked)[4:], "what is asked for")
                peer.send(stream)
                peer.say_no_more()
                found = counted(place.end(program))
        expect((found[:3], found.answers), ((status, log, lines), []), f"pqstats over {stream.hex()[:400]}")


ACTIONS = """# what is done with the products
IDS	^data ([0-9]+)$
	FILE	-close	data/\\1/(seq)
IDS	^data ([0-9])	FILE	all/\\1
IDS	^last (.)	FILE	-overwrite last/\\1
IDS	^text	FILE	-strip	-flush text
DDS	^sort	PIPE	sh -c "sort -r > sorted"
DDS	^sort	PIPE	-close	sh -c "cat >> piped; echo . >> piped"
DDS	^run (.*)$	EXEC	-wait	sh -c "echo \\1 >> ran"
HDS	^day (..)$	FILE	day/(\\1:dd)
HDS	(?-u)^raw (.)	FILE	raw/\\1
HDS	^no	NOOP
ANY	_ELSE_	FILE	rest
"""


def acts_on_products(place):
    """`pqact` does with the products of a node what its entries say: files and programs have the bodies in order, once it ended behind
    COUNT products."""
    node = place.node(OPEN, *MANY)
    products = [
        Product(b"data 1", b"1-", seqno=7),
        Product(b"data 22", b"2-" * 20_000, seqno=8),
        Product(b"last a", b"long"),
        Product(b"sort", b"a\nc\n", DDS),
        Product(b"sort too", b"d\nb\n", DDS),
        Product(b"last a", b"it"),
        Product(b"data 1", b"more", seqno=7),
        Product(b"text", b"\x41\x01\x0d\x0a\xc3\xa9\x7f\x42\x20\x7e"),
        Product(b"run it", b"ran", DDS),
        Product(b"run twice", b"ran too", DDS),
        Product(b"day 32", b"no such day", HDS),
        Product(b"raw \xff", b"no text", HDS),
        Product(b"no", b"nothing", HDS),
        Product(b"else", b"the rest", HDS),
        Product(b"data x", b"!", EXP),
    ]
    node.put_all(products)
    place.file("pqact.conf", ACTIONS)
    ran = place.run("pqact", "-c", len(products), "pqact.conf", node.at)
    expect(ran, (0, b"", b"nodate day%2032 1\nnottext raw%20%FF 0\n"), "pqact")
    wanted = {
        "data/1/7": b"1-more",
        "data/22/8": b"2-" * 20_000,
        "all/1": b"1-more",
        "all/2": b"2-" * 20_000,
        "last/a": b"it",
        "text": b"A\nB ~",
        "sorted": b"d\nc\nb\na\n",
        "piped": b"a\nc\n.\nd\nb\n.\n",
        "ran": b"it\ntwice\n",
        "rest": b"the rest!",
    }
    for name, content in wanted.items():
        expect((place.folder / name).read_bytes(), content, f"the file {name}")
    for name in ("day", "raw"):
        expect((place.folder / name).exists(), False, f"whether {name} is there")
    (place.folder / "ran").unlink()
    ran = place.run("pqact", "-f", "DDS", "-p", "^run it", "-c", 1, "pqact.conf", node.at)
    expect((ran, (place.folder / "ran").read_bytes()), ((0, b"", b""), b"it\n"), "pqact of a class")


def acts_on_many_files(place):
    """More files than may be open, and a node that ends the stream: each file has its bodies in order."""
    node = place.node(OPEN, "-x", 0, "-n", 1, "-w", 2)
    products = [Product(f"{i % 40}".encode(), b"%d\n" % i, seqno=i) for i in range(200)]
    with node.connect() as feeder:
        for product in products:
            expect(feeder.put(product)[0], ADMITTED, "the answer to a PUT")
        place.file("many.conf", "ANY\t(.*)\tFILE\tout/\\1\nANY\t^7$\tPIPE\tsh -c \"cat > seven\"\n")
        expect(place.run("pqact", "many.conf", node.at), (0, b"", b""), "pqact to the end of the stream")
    expect(node.ended().status, 0, "the status of the node")
    for i in range(40):
        expect((place.folder / f"out/{i}").read_bytes(), b"".join(b"%d\n" % n for n in range(i, 200, 40)), f"the file {i}")
    expect((place.folder / "seven").read_bytes(), b"7\n47\n87\n127\n167\n", "what a program was given")


def state_of(product):
    return product.signature.hex().encode() + b"\n"


def goes_on_behind_its_state(place):
    """With a state a run of `pqact` goes on behind the last product of the run before: each product is acted on once, also one whose action
    fails. Where that product is not queued any more, it begins at the oldest."""
    node = place.node(OPEN, *MANY)
    numbered = [Product(b"n", b"%d\n" % i, seqno=i) for i in range(12)]
    place.file("act.conf", "IDS\t^n$\tFILE\tgot\nIDS\t^bad$\tFILE\tgot/folder\n")
    got, state = place.folder / "got", place.folder / "kept/state"
    words = ["pqact", "-s", "kept/state"]
    node.put_all(numbered[:5])
    expect(place.run(*words, "-c", 5, "act.conf", node.at), (0, b"", b""), "pqact with a state that is not there")
    expect((got.read_bytes(), state.read_bytes()), (b"0\n1\n2\n3\n4\n", state_of(numbered[4])), "what was acted on, and the state")
    expect((place.folder / "kept/state~").read_bytes(), state_of(numbered[4]), "the state that is written before")
    node.put_all(numbered[5:8])
    expect(place.run(*words, "-c", 3, "act.conf", node.at), (0, b"", b""), "pqact with a state")
    expect(got.read_bytes(), b"".join(product.body for product in numbered[:8]), "what two runs acted on")
    # the one whose action fails is not met again
    bad = Product(b"bad", b"no file")
    node.put_all([numbered[8], bad, numbered[9]])
    log = b"ldm: bad: got/folder: Not a directory\nldm: store fault\n"
    expect(place.run(*words, "act.conf", node.at), (72, b"", log), "pqact with an action that fails")
    expect(state.read_bytes(), state_of(bad), "the state behind an action that failed")
    expect(place.run(*words, "-c", 1, "act.conf", node.at), (0, b"", b""), "pqact behind an action that failed")
    expect(got.read_bytes(), b"".join(product.body for product in numbered[:10]), "what four runs acted on")
    # one that was killed while it wrote the state
    node.put_all(numbered[10:11])
    place.file("kept/state", b"")
    place.file("kept/state~", state_of(numbered[9]))
    expect(place.run(*words, "-c", 1, "act.conf", node.at), (0, b"", b""), "pqact with the state that is written before")
    expect(got.read_bytes(), b"".join(product.body for product in numbered[:11]), "what five runs acted on")
    # a product that the node has not queued
    place.file("kept/state", state_of(Product(b"n", b"not here")))
    expect(place.run(*words, "act.conf", node.at)[0], 72, "the status of pqact from the oldest product on")
    expect(got.read_bytes(), b"".join(product.body for product in numbered[:11] + numbered[:9]), "what is acted on from the oldest product on")
    # a state that cannot be written
    (place.folder / "folder").mkdir()
    ran = place.run("pqact", "-s", "folder", "-c", 1, "-p", "^n$", "act.conf", node.at)
    expect(ran, (72, b"", b"ldm: folder: Is a directory\nldm: store fault\n"), "pqact with a state that cannot be written")
    # what is no state
    for text in (b"", b"\n", state_of(bad)[:-1], state_of(bad) + b"\n", b"g" + state_of(bad)[1:]):
        place.file("kept/state", text)
        place.file("kept/state~", text)
        log = b"ldm: kept/state:1: no signature of a product\nldm: bad conf file 0 line 1 kind 2\n"
        expect(place.run(*words, "act.conf", node.at), (65, b"", log), f"pqact with the state {text!r}")


def bears_kills_with_a_state(place):
    """A `pqact` with a state is killed at drawn moments while products come: each run goes on behind the product of its state, and in all of them
    each product is acted on, in order."""
    node = place.node(OPEN, *MANY)
    draw = random.Random(7)
    products = [Product(b"n", b"%d\n" % i, seqno=i) for i in range(1_500)]
    places = {state_of(product): i for i, product in enumerate(products)}
    place.file("act.conf", "IDS\t^n$\tFILE\tgot\n")
    got, state = place.folder / "got", place.folder / "state"
    got.write_bytes(b"")
    feeder = threading.Thread(target=node.put_all, args=(products,))
    feeder.start()
    ran, last = 0, -1
    while last + 1 < len(products):
        before = got.read_bytes()
        whole = ran == 40
        words = ["-c", len(products) - last - 1] if whole else []
        program = place.start("pqact", "-s", "state", *words, "act.conf", node.at)
        if whole:
            expect(place.end(program), (0, b"", b""), "pqact behind all that was killed")
        else:
            time.sleep(draw.uniform(0, 0.2))
            program.kill()
            program.wait()
        ran += 1
        acted = [int(line) for line in got.read_bytes()[len(before) :].split()]
        expect(acted, list(range(last + 1, last + 1 + len(acted))), "what a run acted on behind its state")
        text = state.read_bytes() if state.exists() else None
        if text == b"":
            # it was killed while it wrote the state
            text = (place.folder / "state~").read_bytes()
        now = -1 if text is None else places[text]
        expect(last <= now <= last + len(acted), True, "whether the state is of a product that was acted on")
        last = now
    feeder.join()
    expect(sorted(set(map(int, got.read_bytes().split()))), list(range(len(products))), "what all runs acted on")


def acts_no_more(place):
    """What `pqact` cannot do ends it: each cause has its status."""
    node = place.node("ALLOW IDS .*\nACCEPT ANY .* .*\n", *MANY)
    node.put_all([Product(b"a", b"body")])
    (place.folder / "folder").mkdir()
    nowhere = f"{HOST}:{free_port()}"
    conf = {
        "good": "IDS\t.*\tNOOP\n",
        "action": "# fine\n\nIDS\t.*\tNOOP\nIDS\t.*\tDBFILE\tx\n",
        "fields": "\tx\n",
        "feed": "FOO\t.*\tNOOP\n",
        "pattern": "IDS\t(\tNOOP\n",
        "option": "IDS\t.*\tFILE\t-log x\n",
        "long": "#" * 1_048_577,
        "no file": "IDS\t.*\tFILE\tfolder\n",
        "no program": "IDS\t.*\tPIPE\tno-such-program-is-here\n",
        "no program too": "IDS\t.*\tEXEC\tno-such-program-is-here\n",
    }
    for name, text in conf.items():
        place.file(name, text)
    cases = [
        (["action", nowhere], 65, "action:4: no such action: IDS?.*?DBFILE?x", "bad pqact line 4 kind 4"),
        (["fields", nowhere], 65, "fields:1: too few fields, too many, or one of a wrong form: ?x", "bad pqact line 1 kind 1"),
        (["feed", nowhere], 65, "feed:1: no such feedtype: FOO?.*?NOOP", "bad pqact line 1 kind 2"),
        (["pattern", nowhere], 65, "pattern:1: a pattern that does not read: IDS?(?NOOP", "bad pqact line 1 kind 3"),
        (["option", nowhere], 65, "option:1: no such option of the action: IDS?.*?FILE?-log x", "bad pqact line 1 kind 5"),
        (["long", nowhere], 65, "long: the file is too long", "bad pqact line 0 kind 0"),
        (["missing", nowhere], 72, "missing: No such file or directory", "store fault"),
        (["good", nowhere], 69, f"{nowhere}: Connection refused", "net fault"),
        (["-f", "HDS", "good", node.at], 78, "denied"),
        (["no file", node.at], 72, "a: folder: Is a directory", "store fault"),
        (["no program", node.at], 73, "a: no-such-program-is-here: No such file or directory", "child fault"),
        (["no program too", node.at], 73, "a: no-such-program-is-here: No such file or directory", "child fault"),
    ]
    for words, status, *log in cases:
        expect(place.run("pqact", *words), (status, b"", "".join(f"ldm: {line}\n" for line in log).encode()), f"pqact {words}")


# A node from its start to its end


def ends_as_it_is_told(place):
    """A node ends once its workers held as many sessions as they were to, or were idle as often; it waits for the programs that it started,
    and writes its figures."""
    empty = Stat(0, 0, 0, 0, ARENA).line().encode()
    none = place.file("none.conf", "")
    expect(place.run("node", "-p", free_port(), "-n", 0, none), (0, empty, b""), "a node of no session")
    expect(place.run("node", "-p", free_port(), "-w", 0, none), (0, empty, b""), "a node without workers")
    place.file("slow.sh", "sleep 0.5\necho done >> done\n")
    place.file("exec.conf", 'EXEC "sh slow.sh"\nEXEC "sh\t slow.sh"\n')
    expect(place.run("node", "-p", free_port(), "-n", 0, "-a", 64, "exec.conf"), (0, b"stat 0 0 0 0 64\n", b""), "a node that starts programs")
    expect((place.folder / "done").read_bytes(), b"done\ndone\n", "what the programs wrote")
    # a request worker: idle twice, then it stops behind its third try
    place.file("asks.conf", f"REQUEST ANY .* {HOST}:{free_port()}\n")
    asking = place.run("node", "-p", free_port(), "-n", 0, "-x", 2, "asks.conf")
    expect(asking, (0, empty, b"unreached 127.0.0.1\n" * 3), "a node that asks nobody")
    node = place.node(OPEN, "-n", 2, "-w", 1)
    for _ in range(2):
        expect(node.stat(), Stat(0, 0, 0, 0, ARENA), "the figures")
    expect(node.ended(), (0, empty, b"session 127.0.0.1 ended\n" * 2), "a node of two sessions")
    node = place.node(OPEN, "-x", 3, "-w", 1)
    node.put_all([P])
    with node.connect() as peer:
        expect(peer.subscribe([(ANY, b".*")]), number(OK), "the answer to a FEEDME")
        expect([peer.next_product(), peer.next_product()], [P.told(), None], "what is fed up to the end")
    used = Stat(1, 1, 0, 56, ARENA - 56).line().encode()
    expect(node.ended(), (0, used, b"session 127.0.0.1 ended\nsession 127.0.0.1 stopped\n"), "a node whose worker was idle")


def ends_with_each_status(place):
    """The number that the program ends with is the one that its log line tells: a run for each status that can be had from outside."""
    node = place.node("ALLOW IDS .*\nACCEPT ANY .* .*\n", *MANY)
    node.put_all([Product(b"a", b"body")])
    nowhere = f"{HOST}:{free_port()}"
    place.file("script", "")
    place.file("wrong", "x\n")
    place.file("too long", b"\n" * 67_108_864)
    place.file("lacks", "EXEC no-such-program-is-here\n")
    place.file("twice", "IDS\n")
    expect(place.run("pqinsert", "-q", node.at, "twice").status, 0, "pqinsert")
    cases = [
        (["play", 168, 10], {"source": "script"}, 0),
        (["play"], {}, 64, "usage"),
        (["play", 168, 10], {"source": "wrong"}, 65, "bad line 1 column 1"),
        (["crowd", 64, 1, 1], {"source": "too long"}, 66, "stream limit"),
        (["play", 60, 10], {}, 67, "refused arena 60"),
        (["pqmon", "-q", nowhere], {}, 69, f"{nowhere}: Connection refused", "net fault"),
        (["play", 2**30, 1], {"memory": 2**29}, 71, "no memory"),
        (["pqact", "no-such-file", node.at], {}, 72, "no-such-file: No such file or directory", "store fault"),
        (["node", "-p", free_port(), "lacks"], {}, 73, "no-such-program-is-here: No such file or directory", "child fault"),
        (["play", 168, 10], {"source": "."}, 74, "source fault"),
        (["pqmon", "-q", node.at], {"output": FULL}, 75, "sink fault"),
        (["play"], {"log": FULL}, 76),
        (["pqcat", "-f", "HDS", "-q", node.at], {}, 78, "denied"),
        (["pqinsert", "-q", node.at, "twice"], {}, 79, "refused"),
    ]
    for words, streams, status, *log in cases:
        ran = place.run(*words, **streams)
        expect((ran.status, ran.log), (status, "".join(f"ldm: {line}\n" for line in log).encode()), f"{words} with {streams}")


def does_not_begin(place):
    """A node that cannot begin tells why, by its status and a line."""
    port = free_port()
    node = place.node(OPEN)
    files = {
        "good": OPEN,
        "keyword": "ALLOW ANY .*\nFOO x\n",
        "fields": "# here\nALLOW ANY\n",
        "feed": "ALLOW FOO .*\n",
        "pattern": "ALLOW ANY (\n",
        "include": "ALLOW ANY .*\nINCLUDE pattern\n",
        "missing": "INCLUDE no-such-file\n",
        "itself": "INCLUDE itself\n",
        "long": "#" * 1_048_577,
        "lacks": "EXEC no-such-program-is-here\n",
        "asks": f"REQUEST ANY .* {HOST}\n" * 60,
    }
    for name, text in files.items():
        place.file(name, text)
    at = ["-p", port]
    cases = [
        ([*at, "keyword"], 65, "keyword:2: no such keyword: FOO x", "bad conf file 0 line 2 kind 1"),
        ([*at, "fields"], 65, "fields:2: too few words, too many, or one of a wrong form: ALLOW ANY", "bad conf file 0 line 2 kind 2"),
        ([*at, "feed"], 65, "feed:1: no such feedtype: ALLOW FOO .*", "bad conf file 0 line 1 kind 3"),
        ([*at, "pattern"], 65, "pattern:1: a pattern that does not read: ALLOW ANY (", "bad conf file 0 line 1 kind 4"),
        ([*at, "include"], 65, "pattern:1: a pattern that does not read: ALLOW ANY (", "bad conf file 1 line 1 kind 4"),
        ([*at, "itself"], 65, "itself:1: a file too deep, or one too many: INCLUDE itself", "bad conf file 8 line 1 kind 5"),
        ([*at, "long"], 65, "long: the file is too long", "bad conf file 0 line 0 kind 7"),
        ([*at, "missing"], 72, "no-such-file: No such file or directory", "store fault"),
        ([*at, "no-such-file"], 72, "no-such-file: No such file or directory", "store fault"),
        ([*at, "lacks"], 73, "no-such-program-is-here: No such file or directory", "child fault"),
        ([*at, "-a", 60, "keyword"], 65, "keyword:2: no such keyword: FOO x", "bad conf file 0 line 2 kind 1"),
        ([*at, "-a", 60, "-S", 0, "good"], 67, "refused arena 60"),
        ([*at, "-a", 2**64 - 8, "good"], 67, f"refused arena {2**64 - 8}"),
        ([*at, "-S", 0, "-w", 64, "good"], 67, "refused slots 0"),
        ([*at, "-w", 64, "good"], 67, "refused passes 65"),
        ([*at, "-w", 4, "asks"], 67, "refused passes 65"),
        ([*at, "-w", 2**32 - 1, "good"], 67, f"refused passes {2**32 - 1}"),
        (["-p", node.port, "good"], 69, f"port {node.port}: Address already in use", "net fault"),
    ]
    for words, status, *log in cases:
        ran = place.run("node", *words)
        # no node was begun, so no figures are written
        expect(ran, (status, b"", "".join(f"ldm: {line}\n" for line in log).encode()), f"node {words}")
    usage = [
        ["node"],
        ["node", "good", "good"],
        ["node", "-p", 0, "good"],
        ["node", "-p", 65_536, "good"],
        ["node", "-p", "0388", "good"],
        ["node", "-p", "good"],
        ["node", "-w", 1, "-w", 1, "good"],
        ["node", "-w", 2**32, "good"],
        ["node", "-a", 2**64, "good"],
        ["node", "-a", "+64", "good"],
        ["node", "-z", "good"],
        ["node", "--help"],
        ["pqmon", "x"],
        ["pqmon", "-i", 0],
        ["pqmon", "-i", 2**32],
        ["pqmon", "-i"],
        ["pqmon", "-q", HOST],
        ["pqmon", "-q", f"{HOST}:0"],
        ["pqmon", "-q", f":{port}"],
        ["pqmon", "-q", f"{'h' * 256}:{port}"],
        ["pqcat", "-c", 0],
        ["pqcat", "-a", 2**64],
        ["pqcat", "-S", 2**32],
        ["pqcat", "-c", 2**64],
        ["pqcat", "-f", "FOO"],
        ["pqcat", "-p", "("],
        ["pqcat", "-p", "x" * 256],
        ["pqcat", "x"],
        ["notifyme", "-c", 0],
        ["notifyme", "x"],
        ["pqstats", "-w", 0],
        ["pqstats", "-w", 8_761],
        ["pqstats", "-w", "024"],
        ["pqstats", "-c", 0],
        ["pqstats", "-s", "-s"],
        ["pqstats", "-p", "("],
        ["pqstats", "-o", "h"],
        ["pqstats", "x"],
        ["wmo", "-f", "FOO"],
        ["wmo", "-o", "h" * 65],
        ["wmo", "-p", "ident"],
        ["wmo", "-q", HOST],
        ["wmo", "x"],
        ["pqinsert"],
        ["pqinsert", "-i"],
        ["pqinsert", "-i", "-i", "good"],
        ["pqinsert", "-o", "h" * 65, "good"],
        ["pqinsert", "-p", "p" * 256, "good"],
        ["pqinsert", "x" * 256],
        ["pqact", "good"],
        ["pqact", "good", HOST],
        ["pqact", "-S", "8k", "good", f"{HOST}:{port}"],
        ["pqact", "-c", 0, "good", f"{HOST}:{port}"],
        ["Node", "good"],
    ]
    for words in usage:
        ran = place.run(*words)
        # before the last line one may say why: tests/reasons.py has those
        expect((ran.status, ran.output, ran.log.splitlines()[-1]), (64, b"", b"ldm: usage"), f"{' '.join(map(str, words))[:60]}")


def chains_queues(place):
    """`chain` passes what a script leaves in a queue from queue to queue, by the classes and the rules, and writes what each has."""
    signatures = [f"{i:02}" * 16 for i in range(1, 5)]
    place.file(
        "script",
        f"0 insert 100 {signatures[0]} 2 1 h a 40000*41\n0 open ANY oldest\n0 step .\n"
        f"0 insert 101 {signatures[1]} 4 2 h b 10*42\n0 insert 102 {signatures[2]} 0 3 h a -\n0 insert 103 {signatures[3]} 2 4 h b 4*43\n",
    )
    place.file("allow.conf", "ALLOW DDS ^node1$\nALLOW ANY ^node2$ ^b\n")

    def chained(*words):
        before = time.time_ns() // 1_000
        ran = place.run("chain", *words, source="script")
        lines = [line.split() for line in ran.output.decode().splitlines()]
        for line in lines:
            if line[0] == "product" and not before <= int(line.pop(2)) <= time.time_ns() // 1_000 + 4:
                raise Wrong(f"an instant of insertion in {line}")
        return ran.status, ran.log, [" ".join(line) for line in lines]

    def told(number_of_product, i, arrival, feed, ident, size):
        return f"product {number_of_product} {arrival} {signatures[i]} 0x{feed:08x} {i + 1} h {ident} {size}"

    a, b, last = ("a", 40_000, 40_056), ("b", 10, 64), ("b", 4, 56)
    rest = 65_536 - a[2] - b[2] - last[2]
    all_three = [told(0, 0, 100, 2, "a", 40_000), told(1, 1, 101, 4, "b", 10), told(2, 3, 103, 2, "b", 4)]
    found = chained(65_536, 10, BLOCK, "ANY", ".*")
    expect(found, (0, b"", ["node 1", *all_three, f"stat 3 3 0 {65_536 - rest} {rest}"]), "a chain of two queues")
    only = ["node 1", told(0, 1, 101, 4, "b", 10), told(1, 3, 103, 2, "b", 4), "stat 2 2 0 120 65416"]
    found = chained(65_536, 10, 3, "ANY", "^b", "2", ".*")
    expect(found, (0, b"", [*only, "node 2", told(0, 3, 103, 2, "b", 4), "stat 1 1 0 56 65480"]), "a chain of three queues, by blocks")
    found = chained("-a", "allow.conf", 65_536, 10, BLOCK, "ANY", ".*", "ANY", ".*")
    dds = ["node 1", told(0, 0, 100, 2, "a", 40_000), told(1, 3, 103, 2, "b", 4), "stat 2 2 0 40112 25424"]
    expect(found, (0, b"", [*dds, "node 2", told(0, 3, 103, 2, "b", 4), "stat 1 1 0 56 65480"]), "a chain with rules")
    cases = [
        (["-a", "allow.conf", 65_536, 10, BLOCK, "4", ".*"], 78, "denied"),
        (["-a", "missing", 65_536, 10, BLOCK, "4", ".*"], 72, "store fault"),
        ([60, 10, BLOCK, "4", ".*"], 67, "refused arena 60"),
        ([67_108_872, 10, BLOCK, "4", ".*"], 67, "refused arena 67108872"),
        ([65_536, 0, BLOCK, "4", ".*"], 67, "refused slots 0"),
        ([65_536, 10, BLOCK], 64, "usage"),
        ([65_536, 10, BLOCK, "4"], 64, "usage"),
        ([65_536, 10, BLOCK, *["4", ".*"] * 8], 64, "usage"),
        ([65_536, 10, BLOCK, "4", "("], 64, "usage"),
    ]
    for words, status, log in cases:
        expect(place.run("chain", *words, source="script"), (status, b"", f"ldm: {log}\n".encode()), f"chain {words}")


def starts_anew(place):
    """A node that was ended while peers were connected starts again at the same port, and its subscribers go on behind the last product that
    they have where that is put in again."""
    upstream = place.node(OPEN)
    products = [Product(f"{i}".encode(), b"%d" % i, seqno=i) for i in range(6)]
    upstream.put_all(products[:3])
    node = place.node(f"REQUEST ANY .* {upstream.at}\nALLOW ANY .*\n")
    until(lambda: node.stat().queued == 3, "what was put in before is there")
    upstream.stop()
    node.until_logged("unreached 127.0.0.1")
    upstream.start()
    upstream.put_all(products[2:])
    with node.connect() as subscriber:
        subscriber.subscribe([(ANY, b".*")])
        expect(subscriber.products(6), [product.told() for product in products], "what a subscriber has of both")
    node.until_stat(6, 6, 0)


# Subscribers that wait


def wakes_who_waits(place):
    """A product that comes to an idle node is sent to a subscriber at once, by the node and by one that requests it from the node. Who is not
    woken looks every half second: a quarter of a second in the middle."""
    one = place.node(OPEN)
    two = place.node(f"REQUEST ANY .* {one.at}\nALLOW ANY .*\n")
    for i, node in enumerate((one, two)):
        with one.connect() as source, node.connect() as subscriber:
            expect(subscriber.subscribe([(ANY, f"^{i}".encode())]), number(OK), "the answer to a FEEDME")
            took = []
            for j in range(24):
                time.sleep(0.2 + 0.001 * (17 * j % 50))
                product = Product(b"%d %d" % (i, j), b"the body of %d %d" % (i, j))
                began = time.monotonic()
                expect(source.put(product)[0], ADMITTED, "the answer to a PUT")
                expect_products([subscriber.next_product()], [product], "what a subscriber that waits is sent")
                if j >= 4:
                    took.append(time.monotonic() - began)
        if sorted(took)[10] > 0.1:
            raise Wrong(f"subscribers of node {i + 1} waited {sorted(took)[10]:.3f} seconds in the middle")


def waits_cheaply(place):
    """Sixty subscribers to which nothing comes take little of the processor."""
    node = place.node(OPEN, "-w", 62)
    with contextlib.ExitStack() as stack:
        for _ in range(60):
            peer = stack.enter_context(node.connect())
            expect(peer.subscribe([(ANY, b".*")]), number(OK), "the answer to a FEEDME")
        time.sleep(1)
        before = node.seconds()
        time.sleep(5)
        took = node.seconds() - before
    if took > 0.1:
        raise Wrong(f"60 subscribers that wait took {took:.2f} seconds of 5")


CASES = [
    relays_what_is_due,
    resumes_a_cut_session,
    relays_over_links_that_break,
    asks_for_products_whole,
    asks_until_it_is_fed,
    feeds_both_ways,
    serves_two_at_once,
    starts_anew,
    wakes_who_waits,
    waits_cheaply,
    answers_wrong_calls,
    takes_no_part_of_a_call,
    keeps_the_rules_of_a_receiving,
    tells_a_wrong_reply,
    goes_on_behind_reclass,
    accepts_by_host,
    refuses_long_records_of_a_feed,
    is_asked_over_ipv6,
    stays_as_it_was,
    bears_a_slow_peer,
    tells_of_losses,
    asks_for_figures,
    asks_again_and_again,
    hears_wrong_replies,
    hears_wrong_streams,
    tells_what_cannot_be_written,
    puts_files_in,
    puts_bulletins_in,
    puts_bulletins_in_as_they_come,
    writes_bodies,
    writes_some_bodies,
    writes_notices,
    counts_products,
    sends_its_counts,
    counts_nothing,
    counts_what_came,
    acts_on_products,
    acts_on_many_files,
    goes_on_behind_its_state,
    bears_kills_with_a_state,
    acts_no_more,
    ends_as_it_is_told,
    ends_with_each_status,
    does_not_begin,
    chains_queues,
]


def try_case(case):
    """Whether a case passes; else why not is told."""
    with tempfile.TemporaryDirectory() as folder:
        place = Place(folder)
        try:
            case(place)
        except (Wrong, OSError) as why:
            print(f"{case.__name__}: {why or type(why).__name__}", file=sys.stderr)
            return False
        finally:
            place.end_all()
    return True


def main():
    global PROGRAM
    if sys.argv[1:]:
        PROGRAM = pathlib.Path(sys.argv[1]).resolve()
    cases = [case for case in CASES if not sys.argv[2:] or case.__name__ in sys.argv[2:]]
    sys.exit(not all([try_case(case) for case in cases]))


if __name__ == "__main__":
    main()

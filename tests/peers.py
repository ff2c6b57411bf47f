"""Messages as docs/messages.md spells them, and peers that speak them, in plain Python.

A peer is told of a connection as it comes: a record that is not what it waits for raises Wrong."""

import contextlib
import errno
import hashlib
import socket
import struct
import time
import typing

PROGRAM, VERSION = 300029, 6
HEREIS, FEEDME, HIYA, NOTIFICATION, NOTIFYME, COMINGSOON, BLKDATA, IS_ALIVE, QSTAT, PUT = 1, 4, 5, 6, 7, 12, 13, 14, 100, 101

# What FEEDME, HIYA and NOTIFYME are answered.
OK, RECLASS, DENIED, BADPATTERN, BUSY = range(5)
# What PUT is answered.
ADMITTED, TOO_BIG, DUPLICATE, TIME_END, LOCKED, NOT_ACCEPTED = range(6)
# What COMINGSOON is answered besides OK.
DONT_SEND = 1
# Why a call was not carried out.
NO_PROGRAM, OTHER_VERSION, NO_PROCEDURE, GARBAGE = range(1, 5)

DDS, HDS, IDS, EXP, ANY = 2, 4, 8, 2**30, 2**32 - 1
DDPLUS = 3

BLOCK = 16_384
GREATEST_INSTANT = 4_294_967_295_999_999
LARGEST_RECORD = 2**30 + 1_024

# How long a peer waits for what is to come next, in seconds. A node gives a link up that is silent for 120.
PATIENCE = 100


class Wrong(Exception):
    """What came is not what the rules say."""


def expect(found, wanted, what):
    """Compares the two; a difference is told in some hundred letters."""
    if found != wanted:
        raise Wrong(f"{what}: {repr(found):.400} in place of {repr(wanted):.400}")


# Numbers, texts and metadata


def number(value):
    return struct.pack(">I", value)


def padded(text):
    return text + bytes(-len(text) % 4)


def string(text):
    return number(len(text)) + padded(text)


def instant(micros):
    return number(micros // 1_000_000) + number(micros % 1_000_000)


class Product(typing.NamedTuple):
    ident: bytes
    body: bytes
    feed: int = IDS
    seqno: int = 0
    origin: bytes = b"h"
    arrival: int = 100
    # that of the body, where it is not said
    signed: bytes | None = None

    @property
    def signature(self):
        return hashlib.md5(self.body).digest() if self.signed is None else self.signed

    def metadata(self):
        front = instant(self.arrival) + self.signature + string(self.origin)
        return front + number(self.feed) + number(self.seqno) + string(self.ident) + number(len(self.body))

    def whole(self):
        """Metadata and body, as HEREIS and PUT have them."""
        return self.metadata() + padded(self.body)

    def extent(self):
        """The bytes that it takes in an arena."""
        return -(-(len(self.metadata()) + len(self.body)) // 8) * 8

    def blocks(self):
        """What the calls BLKDATA have as their bodies."""
        starts = range(0, len(self.body), BLOCK)
        return [self.signature + number(i) + string(self.body[at : at + BLOCK]) for i, at in enumerate(starts)]

    def told(self):
        """All that a receiver is told, the signature written out."""
        return self._replace(signed=self.signature)


def read_product(content, at=40):
    """The product whose metadata begin there, without its body; the size of that; and the place behind the metadata."""

    def take(form):
        nonlocal at
        at += struct.calcsize(form)
        return struct.unpack_from(form, content, at - struct.calcsize(form))

    def take_string():
        nonlocal at
        (length,) = take(">I")
        at += length + -length % 4
        return content[at - length - -length % 4 :][:length]

    seconds, micros, signature = take(">II16s")
    origin = take_string()
    feed, seqno = take(">II")
    ident = take_string()
    (size,) = take(">I")
    return Product(ident, b"", feed, seqno, origin, seconds * 1_000_000 + micros, signature), size, at


def product_class(specs, first=0, last=GREATEST_INSTANT):
    """The class of the products of these feeds and patterns that were inserted between the two instants."""
    return instant(first) + instant(last) + number(len(specs)) + b"".join(number(f) + string(p) for f, p in specs)


# Records


def record(content):
    return number(2**31 + len(content)) + content


def call(xid, procedure, body=b"", program=PROGRAM, version=VERSION):
    header = (xid, 0, 2, program, version, procedure, 0, 0, 0, 0)
    return record(struct.pack(">10I", *header) + body)


def reply(xid, result=b"", status=0):
    return record(struct.pack(">6I", xid, 1, 0, 0, 0, status) + result)


# What a program answers with QSTAT, in this order.
class Stat(typing.NamedTuple):
    admitted: int
    queued: int
    held: int
    used: int
    largest_gap: int

    def line(self):
        return f"stat {' '.join(map(str, self))}\n"


class Call(typing.NamedTuple):
    xid: int
    procedure: int
    body: bytes


class Peer:
    """One end of a connection."""

    def __init__(self, connection):
        self.connection = connection
        self.patience = PATIENCE
        self.kept = b""
        # of the last call that was sent, and of the last one that a feeder made
        self.xid = 0
        self.fed_xid = 0
        self.max_hereis = None

    def __enter__(self):
        return self

    def __exit__(self, *_):
        self.connection.close()

    def send(self, piece):
        self.connection.settimeout(self.patience)
        self.connection.sendall(piece)

    def last_moment(self):
        """When it waits no more for what is to come next."""
        return time.monotonic() + self.patience

    def reset(self):
        """Ends the connection at once, whatever is on its way."""
        self.connection.setsockopt(socket.SOL_SOCKET, socket.SO_LINGER, struct.pack("ii", 1, 0))
        self.connection.close()

    def say_no_more(self):
        """Ends what it sends. Where the other end has broken the connection by then, there is nothing left to end."""
        try:
            self.connection.shutdown(socket.SHUT_WR)
        except OSError as why:
            if why.errno != errno.ENOTCONN:
                raise

    def take(self, count, last=None):
        """The next bytes, which have to be there by the last moment; fewer only where the stream ended."""
        last = last or self.last_moment()
        pieces = [self.kept]
        have = len(self.kept)
        while have < count:
            left = last - time.monotonic()
            if left <= 0:
                raise Wrong(f"{have} bytes came in time, of {count}")
            self.connection.settimeout(left)
            try:
                piece = self.connection.recv(max(65_536, min(count - have, 1_048_576)))
            except ConnectionResetError:
                piece = b""
            if not piece:
                break
            pieces.append(piece)
            have += len(piece)
        whole = b"".join(pieces)
        self.kept = whole[count:]
        return whole[:count]

    def rest(self):
        """All bytes up to the end of the stream."""
        return self.take(2**62)

    def next_record(self, last=None):
        """The content of the next record; None where the stream ended in front of it."""
        last = last or self.last_moment()
        content = b""
        while True:
            header = self.take(4, last)
            if not header and not content:
                return None
            if len(header) < 4:
                raise Wrong(f"the stream ended within a header: {header!r}")
            (length,) = struct.unpack(">I", header)
            fragment = self.take(length % 2**31, last)
            if len(fragment) < length % 2**31:
                raise Wrong(f"the stream ended within a record of {length % 2**31} bytes")
            content += fragment
            if length >= 2**31:
                return content

    def call(self, procedure, body=b""):
        self.xid += 1
        self.send(call(self.xid, procedure, body))

    def hear(self):
        """The result of the last call."""
        content = self.next_record()
        if content is None:
            raise Wrong("the stream ended where a reply was awaited")
        expect(content[:24], reply(self.xid)[4:], "the header of a reply")
        return content[24:]

    def ask(self, procedure, body=b""):
        self.call(procedure, body)
        return self.hear()

    def put(self, product):
        """What PUT is answered: its code and its numbers."""
        result = self.ask(PUT, product.whole())
        return struct.unpack(f">I{len(result) // 8}Q", result)

    def stat(self):
        """What QSTAT is answered: the figures, or None."""
        result = self.ask(QSTAT)
        if result == number(DENIED):
            return None
        code, *figures = struct.unpack(">I5Q", result)
        expect(code, 0, "the code of a QSTAT")
        return Stat(*figures)

    def subscribe(self, specs, max_hereis=BLOCK, **times):
        """Asks to be fed a class; tells the answer."""
        self.max_hereis = max_hereis
        self.fed_xid = 0
        return self.ask(FEEDME, product_class(specs, **times) + number(max_hereis))

    def next_call(self):
        """The next call of a feeder but IS_ALIVE; None at the end of the stream. Its calls are numbered from 1."""
        last = self.last_moment()
        while True:
            content = self.next_record(last)
            if content is None:
                return None
            self.fed_xid += 1
            procedure = struct.unpack_from(">I", content, 20)[0] if len(content) >= 40 else None
            expect(content[:40], call(self.fed_xid, procedure or 0)[4:], "the header of a call")
            if procedure != IS_ALIVE:
                return Call(self.fed_xid, procedure, content)
            expect(len(content), 40, "the bytes of an IS_ALIVE")

    def next_product(self, wanted=True):
        """The next product that a feeder sends, whole or in blocks; where it is announced and not wanted, it is declined and told
        without its body. None at the end of the stream."""
        came = self.next_call()
        if came is None:
            return None
        if came.procedure not in (HEREIS, COMINGSOON):
            raise Wrong(f"a call of {came.procedure} where a product was awaited")
        product, size, at = read_product(came.body)
        if came.procedure == HEREIS:
            if size > self.max_hereis:
                raise Wrong(f"a HEREIS of {size} bytes")
            body = came.body[at : at + size]
            expect(came.body[at:], padded(body), "the end of a HEREIS")
            return product._replace(body=body)
        if size <= self.max_hereis:
            raise Wrong(f"a COMINGSOON of {size} bytes")
        expect(came.body[at:], number(BLOCK), "the end of a COMINGSOON")
        self.send(reply(came.xid, number(OK if wanted else DONT_SEND)))
        return product._replace(body=self.body_in_blocks(product, size)) if wanted else product

    def next_notice(self):
        """The metadata of the next product that it is told of; None at the end of the stream."""
        came = self.next_call()
        if came is None:
            return None
        expect(came.procedure, NOTIFICATION, "the procedure of a notice")
        return came.body[40:]

    def body_in_blocks(self, product, size):
        body = b""
        block = 0
        while len(body) < size:
            came = self.next_call()
            length = min(BLOCK, size - len(body))
            expect(came and came.procedure, BLKDATA, "the procedure behind an announcement")
            front = product.signature + number(block) + number(length)
            expect(came.body[40 : 40 + len(front)], front, "the front of a block")
            piece = came.body[40 + len(front) :][:length]
            expect(came.body[40 + len(front) :], padded(piece), "the end of a block")
            body += piece
            block += 1
        return body

    def products(self, count):
        """The next so many products."""
        return [self.next_product() for _ in range(count)]

    # What a feeder does

    def feed_whole(self, product):
        self.call(HEREIS, product.whole())

    def announce(self, product, block_size=BLOCK):
        """What COMINGSOON is answered."""
        return self.ask(COMINGSOON, product.metadata() + number(block_size))

    def feed_in_blocks(self, product):
        expect(self.announce(product), number(OK), f"the answer to a COMINGSOON of {product.ident!r}")
        for block in product.blocks():
            self.call(BLKDATA, block)


def hold_port():
    """A socket that holds a port of this machine, `port_of` it, at all addresses. As long as it is open, the system gives the port to
    nobody, and nobody answers there but a program that asks for the reuse of that port and listens, as a node does."""
    for family in (socket.AF_INET6, socket.AF_INET):
        with contextlib.suppress(OSError), contextlib.ExitStack() as stack:
            holder = stack.enter_context(socket.socket(family))
            holder.setsockopt(socket.SOL_SOCKET, socket.SO_REUSEADDR, 1)
            if family == socket.AF_INET6:
                holder.setsockopt(socket.IPPROTO_IPV6, socket.IPV6_V6ONLY, 0)
            holder.bind(("", 0))
            stack.pop_all()
            return holder
    raise Wrong("the system gives no port")


def port_of(one):
    return one.getsockname()[1]


class Upstream:
    """One whom a node asks."""

    def __init__(self):
        self.listener = socket.create_server(("127.0.0.1", 0))
        self.listener.settimeout(PATIENCE)
        self.port = port_of(self.listener)

    def __enter__(self):
        return self

    def __exit__(self, *_):
        self.listener.close()

    def hears(self, body):
        """The next who connects, once it sent a FEEDME of that body."""
        peer = Peer(self.listener.accept()[0])
        expect(peer.next_record(), call(1, FEEDME, body)[4:], "the FEEDME of a node")
        return peer

    def asked(self, body):
        """The same, once it was answered OK."""
        peer = self.hears(body)
        peer.send(reply(1, number(OK)))
        return peer

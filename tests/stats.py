#!/usr/bin/env python3
"""Runs `ldm pqstats` beside a node in plain Python that feeds products, and compares all that it does with a plain
program: what it asks for, its report, its log and its status; and with `-s` each PUT of the second connection byte for
byte.

The plain program keeps all products that count, and looks at each for a line. The latency alone is not exact: the
moment of an insertion is the clock's, between those at which the node began to send the product and was sure that it
had come.

Called as: tests/stats.py [PROGRAM]
"""

import contextlib
import datetime
import hashlib
import random
import re
import select
import struct
import typing

from peers import (
    ADMITTED, ANY, BADPATTERN, BLKDATA, BLOCK, BUSY, COMINGSOON, DDS, DENIED, DONT_SEND, EXP, FEEDME, GREATEST_INSTANT,
    HDS, HEREIS, IDS, IS_ALIVE, NOT_ACCEPTED, OK, PATIENCE, QSTAT, RECLASS,
    Peer, Product, Upstream, Wrong, call, expect, hold_port, number, port_of, product_class, record, reply,
)  # fmt: skip
from runs import (
    COUNTS, DENY, FULL, HOST, REFUSALS, Run, admissions, answer, hear_put, in_fragments, nothing_comes, now, spelled,
    try_all,
)  # fmt: skip

HOUR = 3_600_000_000
ARENA = 67_108_864
SLOTS = 16_384
def micros_of(*date):
    """The beginning of that hour, in microseconds since the beginning of 1970."""
    return int(datetime.datetime(*date, tzinfo=datetime.timezone.utc).timestamp()) * 1_000_000


MARCH = micros_of(2024, 3, 1)

# Arrivals at the edges of hours, days, months and years.
EDGES = [
    0, 1, HOUR - 1, HOUR, micros_of(1970, 12, 31, 23), micros_of(1971, 1, 1), micros_of(1972, 2, 29, 12),
    micros_of(1999, 12, 31, 23) + HOUR - 1, micros_of(2000, 1, 1), micros_of(2000, 2, 28, 23), micros_of(2000, 2, 29),
    micros_of(2000, 2, 29, 23), micros_of(2000, 3, 1), micros_of(2001, 9, 9, 1), micros_of(2023, 12, 31, 23),
    micros_of(2024, 1, 1), micros_of(2024, 2, 28, 23), micros_of(2024, 2, 29) - 1, micros_of(2024, 2, 29),
    micros_of(2024, 2, 29, 23) + HOUR - 1, MARCH, micros_of(2025, 2, 28, 23), micros_of(2025, 3, 1),
    micros_of(2038, 1, 19, 3) + 847_999_999, micros_of(2038, 1, 19, 4), micros_of(2099, 12, 31, 23),
    micros_of(2100, 2, 28, 23), micros_of(2100, 3, 1), GREATEST_INSTANT - 1, GREATEST_INSTANT,
]  # fmt: skip
ORIGINS = [
    b"h", b"", b"-", b"--", b"a", b"b", b"ab", b"a b", b"a\tb", b"%41", b"A", b"\xff", b"\x7f", b"~", b"!",
    "é".encode(), b"\xff" * 64, b"o" * 64,
]  # fmt: skip
FEEDS = [1, DDS, HDS, IDS, IDS | DDS, EXP, 2**31, ANY]


# The plain program


class Counted(typing.NamedTuple):
    """A product that counts, inserted between two moments; the later one is not known while it is on its way."""

    product: Product
    earliest: int
    latest: int


class Line(typing.NamedTuple):
    """A line of a report, with the least and the greatest latency that it may have."""

    hour: str
    text: str
    least: int
    greatest: int


class Asked(typing.NamedTuple):
    """What the words of `pqstats` ask for."""

    feed: int = ANY
    pattern: str = ".*"
    count: int | None = None
    hours: int = 24
    sends: bool = False

    def words(self):
        words = ["-f", f"{self.feed:#x}", "-p", self.pattern] if self[:2] != (ANY, ".*") else []
        words += ["-c", self.count] if self.count else []
        words += ["-w", self.hours] if self.hours != 24 else []
        return words + (["-s"] if self.sends else [])

    def wants(self, product):
        return product.feed & self.feed and re.search(self.pattern.encode(), product.ident)

    def of_node(self):
        return product_class([(self.feed, self.pattern.encode())]) + number(BLOCK)


class Queue:
    """The queue of the tool: what it takes of what it is fed, and the lines of the log."""

    def __init__(self, asked):
        self.asked = asked
        self.numbers = {}
        self.count = 0
        self.counted = []
        self.log = b""
        # the moment before what came last was sent
        self.last_sent = 0

    def take(self, product):
        """Whether it is a product that counts."""
        ident = spelled(product.ident).encode()
        known = self.numbers.get(product.signature)
        if not self.asked.wants(product):
            self.log += b"unwanted %s\n" % ident
        # no product is evicted but for want of a slot
        elif known is not None and known + SLOTS >= self.count:
            # what is announced is declined without a line
            self.log += b"refused %s duplicate %d\n" % (ident, known) if len(product.body) <= BLOCK else b""
        elif product.extent() > ARENA:
            self.log += b"refused %s toobig %d %d\n" % (ident, product.extent(), ARENA)
        else:
            self.numbers[product.signature] = self.count
            self.count += 1
            return True
        return False


def hour_text(hour):
    return (datetime.datetime(1970, 1, 1) + datetime.timedelta(hours=hour)).strftime("%Y%m%d%H")


def report_of(counted, hours):
    """The lines of the report of these products."""
    hour_of = [one.product.arrival // HOUR for one in counted]
    last = max(hour_of, default=0)
    keys = {(hour, one.product.feed, one.product.origin) for hour, one in zip(hour_of, counted) if hour + hours > last}
    members = {key: [] for key in keys}
    for hour, one in zip(hour_of, counted):
        members.get((hour, one.product.feed, one.product.origin), []).append(one)
    lines = []
    for hour, feed, origin in sorted(keys):
        those = members[hour, feed, origin]
        size = sum(len(one.product.body) for one in those)
        text = f"{hour_text(hour)} 0x{feed:08x} {spelled(origin)} {len(those)} {size}"
        least = max(max(one.earliest - one.product.arrival, 0) for one in those)
        # the moments of insertion rise, so each may be one microsecond behind the one before
        greatest = max(max(one.latest + len(counted) - one.product.arrival, 0) for one in those)
        lines.append(Line(hour_text(hour), text, least, greatest))
    return lines


def expect_report(written, lines, what):
    """Compares the lines of a report."""
    found = [line.rsplit(" ", 1) for line in written.decode().splitlines()]
    expect([text for text, *_ in found], [line.text for line in lines], f"the report of {what}")
    for (text, latency), line in zip(found, lines):
        if not line.least <= int(latency) <= line.greatest or latency != str(int(latency)):
            raise Wrong(f"{what}: the latency {latency} of {text!r} is not between {line.least} and {line.greatest}")
    expect(written[-1:], b"\n" if lines else b"", f"the end of the report of {what}")
    COUNTS["lines"] += len(lines)


# The node


def start(place, upstream, words, **streams):
    COUNTS["runs"] += 1
    return Run(place, ["pqstats", "-q", f"{HOST}:{upstream.port}", *words], **streams)


def fed(upstream, asked=Asked()):
    """The peer that asks for that, once it was answered OK. Its node numbers its calls from 1."""
    peer = upstream.asked(asked.of_node())
    peer.xid = 0
    return peer


def feed_one(peer, product):
    """Sends a product as a node does: whole, or in blocks where it is larger."""
    if len(product.body) <= BLOCK:
        peer.feed_whole(product)
    elif peer.announce(product) == number(OK):
        for block in product.blocks():
            peer.call(BLKDATA, block)


def until_taken(peer, product):
    """Waits until all that was sent has come: what is queued is declined when it is announced again, without a line."""
    expect(peer.announce(product), number(DONT_SEND), "the answer to what is queued already")


def feed_batch(peer, queue, batch):
    """Feeds products up to the one with which as many count as were asked for; tells whether it came to that."""
    first, taken = len(queue.counted), []
    queue.last_sent = now()
    for product in batch:
        if queue.take(product):
            taken.append(Counted(product, now(), None))
        feed_one(peer, product)
        if first + len(taken) == queue.asked.count:
            queue.counted += taken
            return True
    if taken:
        until_taken(peer, taken[-1].product)
    latest = now()
    queue.counted += [one._replace(latest=latest) for one in taken]
    return False


def feed_all(peer, queue, batches):
    """Feeds products in batches, each taken before the next one is sent, until as many count as were asked for."""
    for batch in batches:
        if feed_batch(peer, queue, batch):
            return
    queue.last_sent = now()
    peer.say_no_more()


def is_closed(peer):
    """Whether the other end has closed the connection. The system may be slow to tell so."""
    if not select.select([peer.connection], [], [], PATIENCE)[0]:
        return False
    with contextlib.suppress(ConnectionResetError):
        return peer.connection.recv(1) == b""
    return True


def hours_sent(written, lines):
    """The products that are sent of a report: the lines of each hour."""
    found = written.splitlines(keepends=True)
    hours = sorted({line.hour for line in lines})
    bodies = [b"".join(text for text, line in zip(found, lines) if line.hour == hour) for hour in hours]
    idents = [b"stats/" + hour.encode() for hour in hours]
    return [Product(ident, body, EXP, i, b"localhost") for i, (ident, body) in enumerate(zip(idents, bodies))]


class Sent(typing.NamedTuple):
    """How the second connection ended: the lines of the answers, the status and its line."""

    output: bytes
    status: int
    log: bytes


def take_hours(peer, run, products, answers, begun, waits=False):
    """Takes the PUTs of the hours one after another and answers them; tells what the run has to come to."""
    written = run.written()[0]
    output, status, earliest = b"", 0, begun
    for xid, product in enumerate(products, 1):
        hear_put(peer, xid, product, earliest)
        expect(run.written()[0], written + len(output), f"the bytes of the output before the answer to PUT {xid}")
        if waits:
            expect(nothing_comes(peer), True, f"whether nothing comes before the answer to PUT {xid}")
        told = next(answers)
        earliest = now()
        peer.send(reply(xid, told.result))
        if told.code == NOT_ACCEPTED:
            return Sent(output, 78, b"ldm: denied\n")
        output += told.line
        status = status if told.code == ADMITTED else 79
    return Sent(output, status, b"ldm: refused\n" if status else b"")


def close_counted(queue):
    """What was counted last was taken by now."""
    queue.counted = [one._replace(latest=one.latest or now()) for one in queue.counted]


def play(place, what, batches, answers=None, waits=False, **asked):
    """Runs `pqstats` beside a node that feeds these products, and compares all with the plain program."""
    asked = Asked(**asked)
    queue = Queue(asked)
    sent = Sent(b"", 0, b"")
    with Upstream() as upstream, start(place, upstream, asked.words()) as run:
        try:
            with fed(upstream, asked) as first:
                feed_all(first, queue, batches)
                if asked.sends and queue.counted:
                    sent = see_hours(upstream, first, run, queue, what, answers or admissions(), waits)
                ran = run.end()
            close_counted(queue)
            lines = report_of(queue.counted, asked.hours)
            count = len(ran.output) - len(sent.output)
            expect_report(ran.output[:count], lines, what)
            expect((ran.status, ran.log), (sent.status, queue.log + sent.log), f"the status and the log of {what}")
            expect(ran.output[count:], sent.output, f"the answers of {what}")
            expect(is_asked_again(upstream), False, f"whether somebody connects again behind {what}")
        except Wrong as why:
            told = str(why) if what in str(why) else f"{what}: {why}"
            raise Wrong(f"{told}; the log ends with {run.text(1)[-300:]}") from None
    COUNTS["products"] += len(queue.counted)
    return queue, ran


def see_hours(upstream, first, run, queue, what, answers, waits):
    peer, products = accept_second(upstream, first, run, queue, what)
    with peer:
        sent = take_hours(peer, run, products, answers, queue.last_sent, waits)
        if sent.status != 78:
            expect(peer.next_record(), None, f"what comes behind the last hour of {what}")
    return sent


def accept_second(upstream, first, run, queue, what):
    """The second connection, with the products that it has to send. The first is closed and the report written then."""
    peer = Peer(upstream.listener.accept()[0])
    # it waits for the answer to its first PUT, or is about to send that
    expect(run.sockets(), 1, f"the sockets that are open at the second link of {what}")
    expect(is_closed(first), True, f"whether the first link was closed before the second of {what}")
    close_counted(queue)
    written = run.text()
    lines = report_of(queue.counted, queue.asked.hours)
    expect_report(written, lines, what)
    return peer, hours_sent(written, lines)


def is_asked_again(upstream):
    return bool(select.select([upstream.listener], [], [], 0)[0])


# Products


def some(arrivals, feed=IDS, origin=b"h", size=4, front=b"p"):
    """Products of these arrivals, each with a signature of its own."""
    return [
        Product(b"%s%d" % (front, i), b"x" * size, feed, i, origin, arrival, hashlib.md5(b"%s%d" % (front, i)).digest())
        for i, arrival in enumerate(arrivals)
    ]


def drawn_product(draw, beginning, hours, most):
    hour = beginning + draw.randrange(hours)
    arrival = hour * HOUR + draw.choice([0, HOUR - 1, draw.randrange(HOUR)])
    # Idents are ASCII: in a pattern `[^b]` stands for a character, and a byte 0xff is none. Few signatures, so that
    # some come twice.
    body = b"%d" % draw.randrange(150) * draw.choice([0, 1, 1, 2, draw.randrange(200), draw.randrange(most)])
    signed = hashlib.md5(b"%d" % draw.randrange(150)).digest()
    ident = bytes(draw.choices(b"abc -%", k=draw.randint(0, 4)))
    feed, seqno, origin = draw.choice(FEEDS), draw.randrange(2**32), draw.choice(ORIGINS)
    return Product(ident, body, feed, seqno, origin, min(arrival, GREATEST_INSTANT), signed)


def drawn_case(place, seed):
    draw = random.Random(seed)
    beginning = draw.choice([0, 1, MARCH // HOUR, micros_of(2100, 2, 28) // HOUR, GREATEST_INSTANT // HOUR - 29])
    hours, most = draw.choice([2, 30, 30]), draw.choice([100, 100, 20_000])
    sizes = [draw.randrange(40) for _ in range(draw.randint(1, 5))]
    batches = [[drawn_product(draw, beginning, hours, most) for _ in range(size)] for size in sizes]
    asked = {
        "feed": draw.choice([ANY, ANY, IDS | DDS, HDS, 1]),
        "pattern": draw.choice([".*", ".*", "^a", "b", "c$", "^[^b]*$", ""]),
        "count": draw.choice([None, None, 1, draw.randint(1, 60), 2**64 - 1]),
        "hours": draw.choice([1, 2, 24, 24, 8_760]),
        "sends": draw.random() < 0.6,
    }
    others = [*REFUSALS, *[DENY] * (seed % 5 == 0)]
    answers = (draw.choice([*others, *[one] * draw.choice([1, 30])]) for one in admissions())
    play(place, f"the drawn products {seed}", batches, answers, **asked)


def counts_what_was_drawn(place):
    """Drawn products, with drawn words and answers."""
    for seed in range(60):
        drawn_case(place, seed)


def counts_more_than_are_queued(place):
    """More products than the queue of the tool keeps, all of which count; one that was evicted counts again."""
    draw = random.Random(20)
    arrivals = [MARCH + draw.randrange(30) * HOUR for _ in range(20_000)]
    products = [one._replace(feed=draw.choice(FEEDS), origin=draw.choice(ORIGINS)) for one in some(arrivals, size=1)]
    again = [products[i] for i in (3_615, 3_616, 3_617, 19_999, 0, 1, 0)]
    queue, _ = play(place, "more products than slots", [products[:10_000], products[10_000:], again], hours=24)
    if not 20_000 < len(queue.counted) < 20_007 or queue.log.count(b"duplicate") < 2:
        raise Wrong(f"this case has {len(queue.counted)} products that count, and the log {queue.log!r}")


def tells_the_hours(place):
    """Arrivals at the edges of hours, days, months and years, each alone and all together."""
    for i, arrival in enumerate(EDGES):
        play(place, f"the arrival {arrival}", [some([arrival], front=b"%d." % i)], sends=i % 3 == 0)
    for before in (EDGES, EDGES[::-1]):
        for hours in (1, 2, 24, 8_760):
            play(place, f"the edges with -w {hours}", [some(before)], hours=hours, sends=True)


def keeps_the_window(place):
    """Windows of 1 to 8,760 hours: the last hour of them is the latest of which a product came, wherever it stands."""
    for last in (8_760 * HOUR, MARCH, MARCH + HOUR - 1, GREATEST_INSTANT):
        for hours in (1, 2, 24, 8_760):
            ages = sorted({0, 1, hours - 1, hours, hours + 1, 8_759, 8_760})
            arrivals = [last - last % HOUR - age * HOUR + place for age in ages for place in (0, HOUR - 1)]
            arrivals = [arrival for arrival in arrivals if 0 <= arrival <= last]
            for order in (1, -1):
                what = f"a window of {hours} hours up to {last}, {order}"
                queue, ran = play(place, what, [some(arrivals[::order])], hours=hours)
                found = {line.split()[0] for line in ran.output.split(b"\n")[:-1]}
                due = {hour_text(last // HOUR - age).encode() for age in ages if age < hours and last // HOUR >= age}
                expect(found, due, f"the hours of {what}")
    # what is outside of it counts for -c
    arrivals = [MARCH, MARCH - HOUR, MARCH - 2 * HOUR, MARCH, MARCH]
    _, ran = play(place, "a count of more than the window", [some(arrivals)], hours=1, count=4)
    expect(ran.output.split(b" ")[3], b"2", "the count of the one line")


def tells_latencies(place):
    """The longest time from an arrival to the insertion, of two batches; 0 where the arrival is later."""
    begun = now()
    past, future = begun - 2 * HOUR, begun + 2 * HOUR
    second = 1_000_000
    batches = [
        [(b"first", past - second), (b"other", past), (b"future", future), (b"mixed", future), (b"now", begun)],
        [(b"first", past), (b"other", past - second), (b"future", future + 5), (b"mixed", past), (b"now", begun)],
    ]
    signed = [hashlib.md5(bytes([turn])).digest()[:8] for turn in range(2)]
    products = [
        [Product(b"p", b"x", IDS, 0, origin, arrival, half + origin.ljust(8)) for origin, arrival in batch]
        for half, batch in zip(signed, batches)
    ]
    play(place, "latencies", products)
    play(place, "latencies of a count", products, count=10, sends=True)


def orders_the_lines(place):
    """Lines are in the order of hours, feeds and the bytes of origins, whatever the order of the products."""
    draw = random.Random(21)
    keys = [(hour, feed, origin) for hour in range(3) for feed in FEEDS for origin in ORIGINS] * 2
    for turn in range(3):
        draw.shuffle(keys)
        products = [
            Product(b"p", b"x" * draw.randrange(9), feed, 0, origin, MARCH + hour * HOUR, number(i) * 4)
            for i, (hour, feed, origin) in enumerate(keys)
        ]
        _, ran = play(place, f"the order {turn}", [products], sends=turn == 0)
        answers = 3 if turn == 0 else 0
        expect(ran.output.count(b"\n") - answers, 3 * len(FEEDS) * len(ORIGINS), "the lines of a report")


def stops_at_the_count(place):
    """`-c` ends it after as many products, whatever is behind them, while the node goes on."""
    products = some([MARCH] * 20)
    for count in (1, 5, 20):
        play(place, f"a count of {count}", [products], count=count, sends=count == 5)
        with Upstream() as upstream, start(place, upstream, ["-c", count]) as run:
            with fed(upstream) as peer:
                # all come in one piece
                peer.send(b"".join(call(i, HEREIS, one.whole()) for i, one in enumerate(products, 1)))
                ran = run.end()
        expect((ran.status, ran.log), (0, b""), f"a count of {count} of products in one piece")
        expect(ran.output.split()[:5], f"2024030100 0x00000008 h {count} {4 * count}".encode().split(), "its report")
    play(place, "a count of more than there are", [products], count=21)


def takes_large_products(place):
    """Products that come in blocks, and that are too large."""
    body = bytes(range(256)) * 64
    sizes = (BLOCK, BLOCK + 1, 3 * BLOCK, 100_000)
    products = [Product(b"%d" % size, (body * 8)[:size], DDS, 0, b"h", MARCH, number(size) * 4) for size in sizes]
    play(place, "products in blocks", [products[:2], products[2:]], sends=True)
    play(place, "a count of products in blocks", [products], count=4)


# The second connection


def sends_each_hour(place):
    """`-s` sends the lines of each hour by a PUT of its own, one after the answer to the one before."""
    products = some([MARCH + hour * HOUR + i for hour in range(4) for i in range(3)])
    products = [one._replace(origin=ORIGINS[i % 4]) for i, one in enumerate(products)]
    ok = answer(ADMITTED, 5, 6, 7)
    plans = [
        ("all are admitted", [ok] * 4),
        *[(f"the first is answered {refusal.line!r}", [refusal, ok, ok, ok]) for refusal in REFUSALS],
        ("the last is refused", [ok, ok, ok, REFUSALS[2]]),
        ("all are refused", REFUSALS[:4]),
        *[(f"the one behind {count} is denied", [*[ok] * count, DENY]) for count in range(4)],
        ("a refusal stands before a denial", [REFUSALS[0], DENY]),
    ]
    for what, answers in plans:
        play(place, f"-s where {what}", [products], iter(answers), sends=True)
    play(place, "-s where answers are held back", [products], iter([ok, REFUSALS[1], ok, ok]), waits=True, sends=True)
    play(place, "-s with -w 2", [products], sends=True, hours=2)


def sends_nothing(place):
    """Where no product counts, or the report is not written, nobody is connected again."""
    for sends in (False, True):
        play(place, f"nothing, with -s {sends}", [], sends=sends)
        play(place, f"nothing that is wanted, with -s {sends}", [some([MARCH, MARCH])], sends=sends, feed=HDS)


def wrong_replies(xid):
    """What is no reply to the PUT of that number, by what it is."""
    result = answer(ADMITTED, 0, 100, 0).result
    yield "of the call before", reply(xid - 1, result)
    yield "of the call behind", reply(xid + 1, result)
    for status in (1, 3, 5, 6):
        yield f"of the status {status}", reply(xid, result, status)
    yield "that is a call", call(xid, IS_ALIVE)
    yield "that is short", reply(xid, result[:-1])
    yield "that is long", reply(xid, result + b"\0\0\0\0")
    yield "of an unknown code", reply(xid, number(6))
    yield "that was not accepted", record(struct.pack(">5I", xid, 1, 1, 0, 0))
    yield "that is too long", number(2**31 + 2**30 + 1_025)
    yield "that is garbage", b"HTTP/1.0 400 Bad Request\r\n\r\n"


def second_faults(answered):
    """What a second peer does behind so many answers: what it sends, how it ends, the status and its line."""
    size = len(reply(1, answer(ADMITTED, 0, 100, 0).result))
    at = answered * size
    for what, says in wrong_replies(answered + 1):
        yield f"a reply {what}", says, None, 65, b"ldm: bad frame at %d\n" % at
    whole = reply(answered + 1, answer(ADMITTED, 0, 100, 0).result)
    for count in (0, 3, size - 1):
        yield f"{count} bytes of an answer", whole[:count], "end", 65, b"ldm: bad frame at %d\n" % (at + count)
    yield "a link that breaks", b"", "reset", 69, b"ldm: net fault\n"


def hears_the_second(place):
    """A fault of the second connection stands behind the report; the places count from its own first byte."""
    products = some([MARCH, MARCH + HOUR, MARCH + HOUR, MARCH + 2 * HOUR])
    ok = answer(ADMITTED, 0, 100, 0)
    for answered in (0, 2):
        for what, says, ends, status, log in second_faults(answered):
            what = f"{what} to a PUT behind {answered}"
            queue = Queue(Asked(sends=True))
            with Upstream() as upstream, start(place, upstream, ["-s"]) as run, fed(upstream) as first:
                feed_all(first, queue, [products])
                peer, hours = accept_second(upstream, first, run, queue, what)
                take_hours(peer, run, hours[:answered], iter([ok] * answered), queue.last_sent)
                hear_put(peer, answered + 1, hours[answered], queue.last_sent)
                peer.send(says)
                if ends:
                    peer.say_no_more() if ends == "end" else peer.reset()
                ran = run.end()
                peer.connection.close()
            expect((ran.status, ran.log), (status, log), what)
            report = b"".join(hour.body for hour in hours)
            expect(ran.output, report + ok.line * answered, f"the output behind {what}")
    # nobody listens any more
    with Upstream() as upstream, start(place, upstream, ["-s"]) as run, fed(upstream) as first:
        upstream.listener.close()
        for one in products:
            feed_one(first, one)
        first.say_no_more()
        ran = run.end()
    found = ran.status, ran.log, ran.output.count(b"\n")
    told = f"ldm: {HOST}:{upstream.port}: Connection refused\nldm: net fault\n".encode()
    expect(found, (69, told, 3), "-s where nobody listens any more")


# The first connection


def wrong_streams():
    """What a node may not send: the stream, the status, and the line of the log."""
    whole = Product(b"p", b"ABCD", IDS, 1, b"h", MARCH)
    ok = reply(1, number(OK))
    hereis = call(1, HEREIS, whole.whole())
    asked = product_class([(ANY, b".*")])
    size = len(ok + hereis)
    for count in range(len(ok)):
        yield ok[:count], 65, f"bad frame at {count}"
    for count in (1, 3, 4, 5, len(hereis) - 1):
        yield ok + hereis + hereis[:count], 65, f"bad frame at {size + count}"
    body = whole.whole()
    wrong = [call(2, QSTAT), call(2, FEEDME), call(2, 99), call(2, HEREIS), call(2, IS_ALIVE, b"more"), reply(2)]
    wrong += [call(2, HEREIS, body, version=5), call(2, HEREIS, body, program=1), call(2, HEREIS, body + bytes(4))]
    wrong += [call(2, BLKDATA, whole.signature + number(0) + number(4) + b"ABCD"), call(2, HEREIS, body[:-1])]
    wrong += [call(2, COMINGSOON, whole.metadata() + number(1)), record(b""), b"\xff" * 4, b"GET / HTTP/1.0\r\n\r\n"]
    for piece in wrong:
        yield ok + hereis + piece, 65, f"bad frame at {size}"
    for status in range(1, 7):
        yield reply(1, number(OK), status), 65, "bad frame at 0"
    results = [reply(1), reply(1, number(5)), reply(1, number(OK) + bytes(4))]
    for piece in (reply(2, number(OK)), reply(0, number(OK)), *results, hereis):
        yield piece, 65, "bad frame at 0"
    for code in (DENIED, BADPATTERN, BUSY):
        yield reply(1, number(code)), 78, "denied"
    yield reply(1, number(RECLASS) + asked), 78, "denied"
    other = reply(1, number(RECLASS) + product_class([(IDS, b".*")]))
    yield other + reply(2, number(DENIED)), 78, "denied"
    yield other + reply(2, number(RECLASS) + product_class([(DDS, b".*")])), 78, "denied"
    yield other + reply(1, number(OK)), 65, f"bad frame at {len(other)}"
    yield other, 65, f"bad frame at {len(other)}"
    # one that is announced and does not come
    large = whole._replace(body=b"x" * 20_000, signed=b"L" * 16)
    announced = ok + call(1, COMINGSOON, large.metadata() + number(BLOCK))
    yield announced, 65, f"bad frame at {len(announced)}"
    yield announced + call(2, BLKDATA, large.blocks()[0]), 65, f"bad frame at {len(announced) + 16_452}"
    for other in (call(2, BLKDATA, large.blocks()[1]), hereis, call(1, COMINGSOON, large.metadata() + number(BLOCK))):
        yield announced + other, 65, f"bad frame at {len(announced)}"


def hears_wrong_streams(place):
    """Where the stream does not end as it may there is no report, and nobody is connected again."""
    for i, (stream, status, log) in enumerate(wrong_streams()):
        words = ["-s"] if i % 2 else []
        with Upstream() as upstream, start(place, upstream, words) as run, upstream.hears(Asked().of_node()) as peer:
            peer.send(stream)
            peer.say_no_more()
            ran = run.end()
            expect(is_asked_again(upstream), False, f"whether somebody connects again behind {stream.hex()[:400]}")
        expect(tuple(ran), (status, b"", f"ldm: {log}\n".encode()), f"the stream {stream.hex()[:400]}")


def follows_reclass(place):
    """It asks for the part that it is told of, and counts what is of that. Records come in fragments."""
    queue = Queue(Asked(feed=IDS))
    products = [*some([MARCH, MARCH + 1]), *some([MARCH], DDS, front=b"d"), *some([MARCH], HDS | IDS, b"i", front=b"i")]
    with Upstream() as upstream, start(place, upstream, ["-p", ".*"]) as run, upstream.hears(Asked().of_node()) as peer:
        part = product_class([(IDS, b".*")])
        peer.send(reply(1, number(RECLASS) + part))
        expect(peer.next_record(), call(2, FEEDME, part + number(BLOCK))[4:], "the FEEDME of the part")
        peer.send(reply(2, number(OK)))
        earliest = now()
        for i, product in enumerate(products, 1):
            peer.send(in_fragments(call(i, HEREIS, product.whole())[4:], i) + call(i, IS_ALIVE))
            if queue.take(product):
                queue.counted.append(Counted(product, earliest, None))
        peer.say_no_more()
        ran = run.end()
    close_counted(queue)
    expect((ran.status, ran.log), (0, queue.log), "behind a RECLASS")
    expect_report(ran.output, report_of(queue.counted, 24), "behind a RECLASS")


def breaks_off(place):
    """Nobody listens, a link that breaks, streams of the program that fail, and words that are none."""
    with hold_port() as held, Run(place, ["pqstats", "-s", "-q", f"{HOST}:{port_of(held)}"]) as run:
        told = f"ldm: {HOST}:{port_of(held)}: Connection refused\nldm: net fault\n".encode()
        expect(tuple(run.end()), (69, b"", told), "a node that is not there")
    products = some([MARCH, MARCH + HOUR])
    for sent in (0, 1):
        with Upstream() as upstream, start(place, upstream, ["-s"]) as run, fed(upstream) as peer:
            for one in products[:sent]:
                feed_one(peer, one)
                until_taken(peer, one)
            peer.reset()
            expect(tuple(run.end()), (69, b"", b"ldm: net fault\n"), f"a link that breaks behind {sent}")
    cases = [
        (products, {"output": FULL}, (75, b"", b"ldm: sink fault\n")),
        ([], {"output": FULL}, (0, b"", b"")),
        ([products[0], products[0]], {"log": FULL}, (76, b"", b"")),
    ]
    for given, streams, wanted in cases:
        with Upstream() as upstream, start(place, upstream, ["-s"], **streams) as run, fed(upstream) as peer:
            for one in given:
                feed_one(peer, one)
            peer.say_no_more()
            expect(tuple(run.end()), wanted, f"{len(given)} products with {streams}")
            expect(is_asked_again(upstream), False, f"whether somebody connects again with {streams}")
    wrong = [["-w", 0], ["-w", 8_761], ["-w", "01"], ["-w"], ["-c", 0], ["-s", "x"], ["-s", "-s"], ["-w", 1, "-w", 1]]
    for words in [*wrong, ["-f", "FOO"], ["-p", "("], ["-o", "h"]]:
        with Run(place, ["pqstats", *words]) as run:
            status, output, log = run.end()
            expect((status, output, log.splitlines()[-1]), (64, b"", b"ldm: usage"), f"pqstats {words}")


CASES = [
    counts_what_was_drawn,
    counts_more_than_are_queued,
    tells_the_hours,
    keeps_the_window,
    tells_latencies,
    orders_the_lines,
    stops_at_the_count,
    takes_large_products,
    sends_each_hour,
    sends_nothing,
    hears_the_second,
    hears_wrong_streams,
    follows_reclass,
    breaks_off,
]


if __name__ == "__main__":
    try_all(CASES, "pqstats")

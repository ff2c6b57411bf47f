#!/usr/bin/env python3
"""Runs `ldm wmo` over streams in given pieces, beside a node in plain Python that answers by a plan, and compares all
that it does with a plain program: each PUT byte for byte, the lines of the answers, the log, and the status.

What a stream has, on a line and in frames, is told by regular expressions, which are the grammar of docs/wmo.md. A PUT
may go out only after the answer to the one before, and behind the line of that answer; what the log and the output have
by then is looked at too.

Called as: tests/wmo.py [PROGRAM]
"""

import hashlib
import os
import random
import re
import struct
import threading

from peers import (
    ADMITTED, DDPLUS, DDS, DUPLICATE, HEREIS, IDS, IS_ALIVE, NOT_ACCEPTED, TOO_BIG,
    Peer, Product, Upstream, Wrong, call, expect, hold_port, number, port_of, record, reply,
)  # fmt: skip
from runs import (
    COUNTS, DENY, FULL, HOST, REFUSALS, Run, admissions, answer, hear_put, in_fragments, nothing_comes, now, try_all,
)  # fmt: skip

LARGEST = 1_048_576
HEADING = rb"[A-Z]{4}[0-9]{2} [A-Z0-9]{4} [0-9]{6}(?: [A-Z]{3})?"
FRONT = rb"\x01\r\r\n([0-9]{1,5})[ \t]*\r\r\n(" + HEADING + rb")[ \t]*\r\r\n"
BULLETIN = re.compile(FRONT + rb"[^\x01\x03]*\r\r\n\x03")
BINARY = re.compile(FRONT + rb".*\r\r\n\x03", re.DOTALL)
HEAD = re.compile(rb"([0-9]{8})(AN|BI|FX)")
FILE_END = b"00000000"
MARK = re.compile(rb"[\x01\x03]")

PLAIN_HEADING = b"SAUS44 KWBC 010000"


def bulletin(digits=b"001", heading=PLAIN_HEADING, text=b"TEXT", blanks=b"", behind=b""):
    return b"\x01\r\r\n" + digits + blanks + b"\r\r\n" + heading + behind + b"\r\r\n" + text + b"\r\r\n\x03"


GOOD = bulletin()
BAD = bulletin(heading=PLAIN_HEADING.lower())
# a text that begins and ends bulletins in other framings
MARKS = b"\x01\x03NNNN\r\r\n\x03\x01\r\r\nZCZC 001\r\r\n\xff\x00BUFR7777"
BINARIES = [bulletin(b"%d" % i, b"ISMD01 EDZW 01000%d" % i, MARKS * i) for i in range(4)]
# between noise and what is no bulletin, up to one that the end cuts off
ROW = b"\0\0" + GOOD + b"\x01A\x01"

def frame(message, kind=b"BI", size=None):
    return b"%08d%s" % (len(message) if size is None else size, kind) + message


# The plain program


def found_in_frames(stream):
    """Of each frame where it begins, whether the stream has all of it, and the match of its bulletin, if it is one."""
    at = 0
    while at < len(stream):
        if stream.startswith(FILE_END, at):
            at += len(FILE_END)
            continue
        head = HEAD.fullmatch(stream, at, at + 10)
        size = int(head[1]) if head else 0
        message = stream[at + 10 : at + 10 + size]
        if len(stream) < at + 10 or (1 <= size <= LARGEST and len(message) < size):
            yield at, False, None
            return
        fits = 1 <= size <= LARGEST and message[0] == 1 and message[-1] == 3
        form = BULLETIN if head and head[2] == b"AN" else BINARY
        yield at, True, form.fullmatch(message) if fits else None
        if not fits:
            return
        at += 10 + size


def found_on_a_line(stream):
    """The same of each candidate."""
    for at, candidate, ends in candidates(stream):
        yield at, ends, BULLETIN.fullmatch(candidate) if ends else None


def candidates(stream):
    """Where each candidate begins, its bytes, and whether it ends within the stream."""
    at = stream.find(1)
    while at >= 0:
        mark = MARK.search(stream, at + 1, at + LARGEST)
        if mark:
            end = mark.start() if mark[0] == b"\x01" else mark.end()
        else:
            end = at + LARGEST
        yield at, stream[at:end], end <= len(stream)
        at = stream.find(1, end)


class Plain:
    """What comes of a stream: the steps of a run, each a product that is put or a line of the log; and how it ends."""

    def __init__(self, stream, answers, feed=IDS, origin=b"localhost", framed=False):
        self.steps = []
        self.status = 0
        self.output = b""
        self.log = b""
        self.answers = iter(answers)
        for at, ends, found in (found_in_frames if framed else found_on_a_line)(stream):
            if not found:
                self.add_line(b"%s bulletin at %d\n" % (b"bad" if ends else b"cut", at))
            elif not self.put(Product(found[2], found[0], feed, int(found[1]), origin, signed=digest_of(found))):
                return
        if self.status == 79:
            self.log += b"ldm: refused\n"

    def add_line(self, line):
        self.log += line
        self.status = self.status or 65

    def put(self, product):
        """Whether it goes on behind the answer."""
        told = next(self.answers)
        self.steps.append((product, told, [len(self.output), len(self.log)]))
        self.output += told.line
        if told.code == NOT_ACCEPTED:
            self.status = 78
            self.log += b"ldm: denied\n"
            return False
        if told.code != ADMITTED:
            self.status = self.status or 79
        return True


def digest_of(found):
    return hashlib.md5(found[0][found.start(2) - found.start() :]).digest()


# The node


def serve(peer, run, plain, spell=reply):
    """Takes the PUTs of a run one after another, and answers them."""
    earliest = run.begun
    for xid, (product, told, written) in enumerate(plain.steps, 1):
        hear_put(peer, xid, product, earliest)
        expect(run.written(), written, f"the bytes of output and log before the answer to PUT {xid}")
        earliest = now()
        peer.send(spell(xid, told.result))
    # what came behind the last answer is looked at by its end
    if plain.status != 78:
        expect(peer.next_record(), None, "what comes behind the last PUT")


def start(place, upstream, *words, **streams):
    COUNTS["runs"] += 1
    run = Run(place, ["wmo", "-q", f"{HOST}:{upstream.port}", *words], **streams)
    run.begun = now()
    return run


def accept(upstream):
    return Peer(upstream.listener.accept()[0])


def expect_run(ran, wanted, what):
    """Compares status, output and log."""
    for name, found, due in zip(("status", "output", "log"), ran, wanted):
        expect(found, due, f"the {name} of {what}")
    COUNTS["log lines"] += ran.log.count(b"\n")


def play(place, stream, what, answers=None, pieces=None, words=(), spell=reply, one_by_one=True, **said):
    """Runs `wmo` over the stream in these pieces beside a node that answers so, and compares all with what is due."""
    plain = Plain(stream, answers or admissions(), **said)
    if said.get("framed"):
        words = ["-s", *words]
    with Upstream() as upstream, start(place, upstream, *words) as run, accept(upstream) as peer:
        feeder = threading.Thread(target=run.give, args=(pieces or [stream], one_by_one))
        feeder.start()
        try:
            serve(peer, run, plain, spell)
            ran = run.end()
        except (Wrong, OSError) as why:
            # what the feeder still has to give nobody would read
            run.program.kill()
            raise Wrong(f"{what}: {why or type(why).__name__}") from None
        finally:
            feeder.join()
    expect_run(ran, (plain.status, plain.output, plain.log), what)
    return plain


# Streams


def in_two(stream, cut):
    return [stream[:cut], stream[cut:]]


def single_bytes(stream):
    return [stream[i : i + 1] for i in range(len(stream))]


def is_cut_anywhere(place):
    """A bulletin, a bad and a cut one, in two pieces at each place, and byte by byte."""
    expect(len(ROW), 44, "the bytes of the row")
    plain = play(place, ROW, "a bulletin, a bad and a cut one")
    expect(plain.output, b"admitted 0 100 0\n", "the answer that the plain program tells")
    expect((plain.status, plain.log), (65, b"bad bulletin at 41\ncut bulletin at 43\n"), "what the plain program tells")
    for cut in range(0, 45, 4):
        play(place, ROW, f"the row cut at {cut}", pieces=in_two(ROW, cut))
    pieces = [piece for cut in range(45) for piece in in_two(ROW, cut)]
    play(place, ROW * 45, "the row cut at each place, one behind another", pieces=pieces)
    more = ROW + bulletin(b"12345", PLAIN_HEADING + b" COR", b"\x02\xff", b" \t", b"\t ") + BAD + GOOD[:-1] + ROW
    play(place, more, "bulletins byte by byte", pieces=single_bytes(more))
    # a bulletin over each place of the edge of what is read at once
    for before in range(65_536 - 41, 65_536 + 2, 3):
        play(place, b"\n" * before + ROW, f"the row behind {before} bytes")


HEADINGS = [
    b"SAUS44 KWBC 010000 COR", b"SAUS44 KWBC 010000 AAA", b"SAUS44 KWBC 010000 CO", b"SAUS44 KWBC 010000 CORA",
    b"SAUS44 KWBC 010000 C0R", b"SAUS44 KWBC 010000 cor", b"SAUS44 KWBC 010000  COR", b"SAUS44 KWBC 010000\tCOR",
    b"SAUS44 KWBC 010000 AAA COR", b"SAUS44 KWBC 010000COR", b"SAUS44  KWBC 010000", b"SAUS44\tKWBC 010000",
    b"SAUS44 KWBC  010000", b"SAUS44 KWBC\t010000", b"SAUS44 K9B0 010000", b"SAUS44 1234 999999", b"SAUS4 KWBC 010000",
    b"SAUS444 KWBC 010000", b"SAU444 KWBC 010000", b"SAUSS4 KWBC 010000", b"saUS44 KWBC 010000", b"SAUS44 kwbc 010000",
    b"SAUS44 KWB 010000", b"SAUS44 KWBCX 010000", b"SAUS44 KWBC 01000", b"SAUS44 KWBC 0100000", b"SAUS44 KWBC 01000Z",
    b" SAUS44 KWBC 010000", b"S\xc3US44 KWBC 010000", b"SAUS44 KW-C 010000", b"",
]  # fmt: skip


def streams_of_bounds():
    """Streams at the bounds of the grammar, by what they are."""
    numbers = [b"", b"0", b"7", b"00000", b"00001", b"12345", b"99999", b"000001", b"123456", b"1 2", b" 1", b"1a"]
    for digits in [*numbers, b"-1", b"+1", b"\xb2"]:
        yield f"the number {digits!r}", bulletin(digits)
    for blanks in (b" ", b"\t", b" \t  ", b" " * 1_000, b"\x0b", b"\x0c", b"\xa0", b"\r", b"\n", b"\0"):
        yield f"{blanks[:4]!r} behind the number", bulletin(blanks=blanks)
        yield f"{blanks[:4]!r} behind the heading", bulletin(behind=blanks)
    for heading in HEADINGS:
        yield f"the heading {heading!r}", bulletin(heading=heading)
    all_bytes = bytes(range(256)).translate(None, b"\x01\x03")
    texts = [b"", b"\r\r\n", b"\r\r\n" * 3, b"\r", b"A\x01B", b"A\x03B", b"\x01", b"\x03", b"A\x01", all_bytes]
    for text in texts:
        yield f"the text {text[:8]!r}", bulletin(text=text)
    ends = [b"", b"\x03", b"\n\x03", b"\r\n\x03", b"\r\r\x03", b"\r\r\n", b"\r\r\n\x04", b"\r\r\n\x01", b"\r\r\n \x03"]
    for end in [*ends, b"\r\r\n\x03\x03"]:
        yield f"the end {end!r}", GOOD[:-4] + end
    # the end of the heading's line is not that of the bulletin
    yield "no line of text", GOOD[: GOOD.index(b"\r\r\nTEXT")] + b"\r\r\n\x03"
    fronts = [b"", b"\x01", b"\x01\r\n", b"\x01\r\r\n\r\r\n", b"\x02\r\r\n", b"\x01\x01\r\r\n", b"\x01\n"]
    for front in [*fronts, b"\x01 \r\r\n"]:
        yield f"the front {front!r}", front + GOOD[4:]
    for stream in (b"", b"\x01", b"\x03", b"\x01\x01\x03\x03", bytes(range(256)), b"noise\x03", GOOD[:-1], GOOD[1:]):
        yield f"the stream {stream[:8]!r}", stream


def changes_of(stream):
    """The stream with one byte changed, added or gone, at each place."""
    others = single_bytes(b"\x00\x01\x03\r\n \tAZ[@a09:/\xb0\xc1")
    for at in range(len(stream) + 1):
        for other in others:
            yield stream[:at] + other + stream[at + 1 :]
            yield stream[:at] + other + stream[at:]
        yield stream[:at] + stream[at + 1 :]
        yield stream[:at]


def keeps_the_grammar(place):
    """Each bound of the grammar alone and all in one stream; and each change of one byte."""
    bounds = list(streams_of_bounds())
    for what, stream in bounds:
        play(place, stream, what)
    play(place, b"\0".join(stream + GOOD for _, stream in bounds), "all bounds, each before a bulletin")
    longer = bulletin(b"42", PLAIN_HEADING + b" COR", b"T", b" ", b"\t")
    for whole in (GOOD, longer):
        plain = play(place, b"\0".join(changes_of(whole)), "each change of one byte")
        if not 200 < len(plain.steps) < 1_000:
            raise Wrong(f"{len(plain.steps)} of the changes of one byte are bulletins")


def keeps_the_largest(place):
    """Candidates of one byte less than the most, of the most, and of one more."""
    besides = len(bulletin(text=b""))
    for size in (LARGEST - 1, LARGEST, LARGEST + 1):
        whole = bulletin(text=b"A" * (size - besides))
        expect(len(whole), size, "the bytes of a bulletin")
        long_line = bulletin(blanks=b" " * (size - len(GOOD)))
        streams = [
            ("a bulletin", whole + GOOD),
            ("a bulletin that is the last", whole),
            ("a bulletin with a long line", long_line + GOOD),
            ("a candidate of one byte more than is there", whole[:-1]),
            ("a candidate without an end", b"\x01" + b"A" * (size - 1) + GOOD),
            ("a candidate before a 1", b"\x01" + b"A" * (size - 2) + b"\x01" + GOOD),
            ("a candidate with a 3", b"\x01" + b"A" * (size - 2) + b"\x03\x01" + GOOD),
        ]
        for what, stream in streams:
            play(place, stream, f"{what}, of {size} bytes", one_by_one=False)
        # the byte that decides comes alone
        for cut in (size - 1, LARGEST - 1, LARGEST):
            play(place, whole + GOOD, f"a bulletin of {size} bytes, cut at {cut}", pieces=in_two(whole + GOOD, cut))


def drawn_bulletin(draw):
    digits = b"%0*d" % (draw.randint(1, 5), draw.randrange(10))
    heading = bytes(draw.choices(b"ABXYZ", k=4)) + b"%02d " % draw.randrange(100) + bytes(draw.choices(b"AZ09K", k=4))
    heading += b" %06d" % draw.randrange(1_000_000) + draw.choice([b"", b"", b" COR", b" AAB"])
    text = draw.randbytes(draw.choice([0, 10, 3_500, 3_500, 3_500, 90_000])).translate(None, b"\x01\x03")
    blanks = [b"", b"", b"", b" ", b"\t  "]
    return bulletin(digits, heading, text, draw.choice(blanks), draw.choice(blanks))


def drawn_part(draw):
    """Noise, a bulletin, one that is cut, or one of which a byte is another."""
    kind = draw.randrange(10)
    if kind < 2:
        return draw.randbytes(draw.randrange(300))
    whole = drawn_bulletin(draw)
    if kind == 2:
        return whole[: draw.randrange(len(whole))]
    if kind in (3, 4):
        at = draw.randrange(min(len(whole), 40))
        return whole[:at] + draw.choice(single_bytes(b"\x01\x03\r\n A0\tz")) + whole[at + 1 :]
    return whole


def drawn_pieces(draw, stream, most):
    at = 0
    while at < len(stream):
        size = draw.randint(1, most)
        yield stream[at : at + size]
        at += size


def finds_all_that_was_drawn(place):
    """Ten million drawn bytes with bulletins in them, and as many pieces and answers."""
    draw = random.Random(19)
    stream = bytearray()
    while len(stream) < 10_000_000:
        stream += drawn_part(draw)
    stream = bytes(stream)
    told = admissions()
    answers = (draw.choice(REFUSALS) if draw.randrange(4) == 0 else one for one in told)
    plain = play(place, stream, "a drawn stream", answers, list(drawn_pieces(draw, stream, 150_000)), one_by_one=False)
    if len(plain.steps) < 200 or plain.log.count(b"bad") < 200:
        raise Wrong(f"the drawn stream has {len(plain.steps)} bulletins and {plain.log.count(b'bad')} bad ones")
    for seed in range(20):
        draw = random.Random(seed)
        stream = b"".join(drawn_part(draw) for _ in range(6))
        answers = [draw.choice([*REFUSALS, *[answer(ADMITTED, seed, 1, 2)] * 20, DENY]) for _ in range(100)]
        play(place, stream, f"the drawn stream {seed}", answers, list(drawn_pieces(draw, stream, 700)))


# Frames


def framed_row():
    """Text, binary and a facsimile, the end of a file, bulletins that are none, and a frame that is cut."""
    whole = [frame(GOOD, b"AN"), *map(frame, BINARIES), frame(BINARIES[1], b"FX"), FILE_END]
    none = [frame(BINARIES[2], b"AN"), frame(BAD), frame(b"\x01\x03"), frame(b"\x01\x01ZCZC\x03\x03", b"FX")]
    return b"".join([*whole, *none, FILE_END, FILE_END, frame(GOOD), frame(BINARIES[3])[:-1]])


def takes_frames_cut_anywhere(place):
    """A stream of frames in two pieces at each place, and byte by byte; and each front of it."""
    row = framed_row()
    plain = play(place, row, "frames", framed=True)
    told = [product.ident for product, _, _ in plain.steps]
    headings = [b"ISMD01 EDZW 01000%d" % i for i in range(4)]
    expect(told, [PLAIN_HEADING, *headings, headings[1], PLAIN_HEADING], "the bulletins that the plain program tells")
    expect(plain.log.count(b"bad"), 4, "the bad ones that the plain program tells")
    for cut in range(0, len(row), 7):
        play(place, row, f"frames cut at {cut}", pieces=in_two(row, cut), framed=True)
        play(place, row[:cut], f"the first {cut} bytes of frames", framed=True)
    play(place, row, "frames byte by byte", pieces=single_bytes(row), framed=True)
    for before in range(65_536 - 61, 65_536 + 2, 5):
        long = frame(bulletin(text=b"\x03" * (before - len(frame(bulletin(text=b""))))))
        expect(len(long), before, "the bytes of a frame")
        play(place, long + row, f"frames behind one of {before} bytes", framed=True)


def frames_that_are_none():
    """What ends the run, by what it is."""
    size = len(BINARIES[1])
    for other in (-1, 1, -size, -size + 1, 10, LARGEST, 99_999_999 - size):
        yield f"a length that is {other} more", frame(BINARIES[1], size=size + other)
    for kind in (b"XX", b"an", b"BI ", b"NB", b"A", b"", b"\0\0", b"00"):
        yield f"the type {kind!r}", frame(BINARIES[1], kind)
    digits = b"%08d" % size
    for at in range(8):
        for byte in (b" ", b"/", b":", b"-", b"\xb2", b"A"):
            yield f"{byte!r} for a digit", digits[:at] + byte + digits[at + 1 :] + b"BI" + BINARIES[1]
    yield "a length of no bytes", b"00000000BI" + GOOD
    yield "seven zeros", FILE_END[1:] + frame(GOOD)
    yield "nine zeros", FILE_END + b"0" + frame(GOOD)
    yield "a message without its first byte", frame(GOOD[1:])
    yield "a message without its last byte", frame(GOOD[:-1])
    yield "a bulletin without a frame", GOOD
    yield "noise before a frame", b"\n" + frame(GOOD)
    yield "noise behind a frame", frame(GOOD) + b"\r\n" + frame(GOOD)


def ends_at_a_frame_that_is_none(place):
    """A frame that is none is bad, and nothing behind it is sent."""
    row = framed_row()
    for what, stream in frames_that_are_none():
        plain = play(place, frame(GOOD) + stream + row * 3, what, framed=True)
        if len(plain.steps) > 3 or not plain.log.startswith((b"bad", b"cut")):
            raise Wrong(f"{what} is taken for a frame by the plain program")
        stream = frame(GOOD) + stream
        for cut in range(len(frame(GOOD)), len(frame(GOOD)) + 12, 5):
            play(place, stream, f"{what}, cut at {cut}", pieces=in_two(stream, cut), framed=True)
    # the refusal before it is met first
    play(place, frame(GOOD) + b"x" * 10 + row, "a refusal before it", [REFUSALS[0]], framed=True)
    play(place, b"x" * 10 + row, "no bulletin before it", framed=True)


def keeps_the_largest_frame(place):
    """Bulletins of one byte less than the most, of the most, and of one more, each before another frame."""
    besides = len(bulletin(text=b""))
    for size in (LARGEST - 1, LARGEST, LARGEST + 1):
        whole = frame(bulletin(text=b"\x01" * (size - besides)))
        expect(len(whole), size + 10, "the bytes of a frame")
        play(place, whole + frame(GOOD), f"a frame of {size} bytes", one_by_one=False, framed=True)
        for cut in (len(whole) - 1, len(whole), 9, 10, 11):
            pieces = in_two(whole + frame(GOOD), cut)
            play(place, whole + frame(GOOD), f"a frame of {size} bytes, cut at {cut}", pieces=pieces, framed=True)


def drawn_frame(draw):
    """A frame, whose bulletin may be none; or the end of a file."""
    heading = bytes(draw.choices(b"ABXYZ", k=4)) + b"%02d KWBC %06d" % (draw.randrange(100), draw.randrange(1_000_000))
    text = draw.randbytes(draw.choice([0, 10, 3_500, 90_000]))
    kind = draw.choice([b"AN", b"BI", b"BI", b"FX"])
    text = text.translate(None, b"\x01\x03") if kind == b"AN" and draw.randrange(3) else text
    whole = bulletin(b"%0*d" % (draw.randint(1, 5), draw.randrange(10)), heading, text)
    if draw.randrange(8) == 0:
        at = draw.randrange(1, min(len(whole), 40) - 1)
        whole = whole[:at] + draw.choice(single_bytes(b"\x01\x03\r\n A0z")) + whole[at + 1 :]
    return FILE_END if draw.randrange(10) == 0 else frame(whole, kind)


def finds_all_frames_that_were_drawn(place):
    """Ten million drawn bytes of frames; and streams of a few, of which a byte may be another."""
    draw = random.Random(21)
    stream = bytearray()
    while len(stream) < 10_000_000:
        stream += drawn_frame(draw)
    stream = bytes(stream)
    answers = (draw.choice(REFUSALS) if draw.randrange(4) == 0 else one for one in admissions())
    pieces = list(drawn_pieces(draw, stream, 150_000))
    plain = play(place, stream, "drawn frames", answers, pieces, one_by_one=False, framed=True)
    if len(plain.steps) < 200 or plain.log.count(b"bad") < 20:
        raise Wrong(f"the drawn frames have {len(plain.steps)} bulletins and {plain.log.count(b'bad')} bad ones")
    for seed in range(40):
        draw = random.Random(seed)
        stream = bytearray(b"".join(drawn_frame(draw) for _ in range(6)))
        if draw.randrange(2):
            stream[draw.randrange(len(stream))] = draw.choice(b"\x01\x03\r\n A0z19")
        stream = bytes(stream)
        play(place, stream, f"the drawn frames {seed}", pieces=list(drawn_pieces(draw, stream, 700)), framed=True)


# Answers


def fragments_of_one_byte(xid, result):
    return in_fragments(reply(xid, result)[4:], 1)


def with_verifier(xid, result):
    """A reply with the longest verifier that may be."""
    return record(struct.pack(">5I", xid, 1, 0, 0, 400) + b"\xff" * 400 + number(0) + result)


def tells_the_answers(place):
    """Each answer of a queue has its line, and the status tells what was met first."""
    ok = answer(ADMITTED, 3, 4, 5)
    other = bulletin(b"2", b"SAXX99 EGRR 312359")
    for refusal in REFUSALS:
        play(place, GOOD + other, f"the answer {refusal.line!r}", [refusal, ok])
        play(place, GOOD + other, f"the answer {refusal.line!r} to the second", [ok, refusal])
        play(place, GOOD + BAD + other, f"{refusal.line!r} before a bad bulletin", [refusal, ok])
        play(place, BAD + GOOD + other, f"{refusal.line!r} behind a bad bulletin", [refusal, ok])
        play(place, GOOD + other + b"\x01", f"{refusal.line!r} before a cut bulletin", [ok, refusal])
    play(place, GOOD + other + b"\x01", "a cut bulletin", [ok, ok])
    play(place, GOOD + other, "two refusals", [REFUSALS[0], REFUSALS[-1]])
    for before in (0, 1, 2):
        stream = GOOD * before + BAD + GOOD + BAD + GOOD + b"\x01"
        play(place, stream, f"a denial behind {before} answers", [*[REFUSALS[2]] * before, DENY])
        play(place, stream, f"a denial behind {before} admissions", [*[ok] * before, DENY])
    for spell, what in ((fragments_of_one_byte, "in fragments of one byte"), (with_verifier, "with a verifier")):
        play(place, GOOD + other, f"answers {what}", [ok, REFUSALS[1]], spell=spell)


def hears_one_byte_at_a_time(place):
    """The reply comes in pieces of one byte."""
    plain = Plain(GOOD + GOOD, [answer(ADMITTED, 0, 100, 0), REFUSALS[2]])
    with Upstream() as upstream, start(place, upstream) as run, accept(upstream) as peer:
        run.write(GOOD + GOOD)
        run.end_source()
        for xid, (product, told, written) in enumerate(plain.steps, 1):
            hear_put(peer, xid, product, run.begun)
            for piece in single_bytes(reply(xid, told.result)):
                expect(run.written(), written, "the bytes of output and log before the answer is whole")
                peer.send(piece)
        expect_run(run.end(), (plain.status, plain.output, plain.log), "replies in pieces of one byte")


def says_words(place):
    """The feedtypes and the origin of the words are those of each product."""
    cases = [
        (["-f", "DDS"], {"feed": DDS}),
        (["-f", "ids|DDPLUS"], {"feed": IDS | DDPLUS}),
        (["-f", "ANY - (WMO & ~2)"], {"feed": 2**32 - 1 - 13}),
        (["-f", "NONE"], {"feed": 0}),
        (["-o", "a site"], {"origin": b"a site"}),
        (["-o", ""], {"origin": b""}),
        (["-o", "o" * 64], {"origin": b"o" * 64}),
        (["-oé", "-f0x80000000"], {"origin": "é".encode(), "feed": 2**31}),
    ]
    for words, product in cases:
        play(place, GOOD + BAD + GOOD, f"wmo {words}", words=words, **product)
    wrong = [
        ["x"], ["-f", "FOO"], ["-f", ""], ["-f"], ["-o", "o" * 65], ["-o", "é" * 33], ["-q", HOST],
        ["-q", f"{HOST}:0"],
        ["-s", "-s"], ["-s1"], ["-s", "x"], ["-p", "i"], ["-c", "1"], ["-i"], ["-w", "1"], ["-z"],
        ["-o", "a", "-o", "a"], ["-f", "IDS", "-f", "IDS"],
    ]  # fmt: skip
    for words in wrong:
        with Run(place, ["wmo", *words]) as run:
            run.end_source()
            ran = run.end()
            expect((ran.status, ran.output, ran.log.splitlines()[-1]), (64, b"", b"ldm: usage"), f"wmo {words}")


# Peers that do not do as they should


def wrong_replies(xid):
    """What is no reply to the PUT of that number, by what it is."""
    result = answer(ADMITTED, 0, 100, 0).result
    yield "of the call before", reply(xid - 1, result)
    yield "of the call behind", reply(xid + 1, result)
    for status in range(1, 7):
        yield f"of the status {status}", reply(xid, result, status)
    yield "of the status 2, with versions", reply(xid, number(6) + number(6), 2)
    yield "that is a call", call(xid, IS_ALIVE)
    yield "that is a HEREIS", call(xid, HEREIS, Product(b"p", b"ABCD").whole())
    yield "that is short", reply(xid, result[:-1])
    yield "that is long", reply(xid, result + b"\0\0\0\0")
    yield "without a result", reply(xid)
    yield "of an unknown code", reply(xid, number(6))
    yield "of toobig with a number more", reply(xid, number(TOO_BIG) + bytes(24))
    yield "of duplicate with none", reply(xid, number(DUPLICATE))
    yield "of denied with a number", reply(xid, DENY.result + bytes(8))
    yield "that was not accepted", record(struct.pack(">5I", xid, 1, 1, 0, 0))
    yield "with another flavour", record(struct.pack(">6I", xid, 1, 0, 1, 0, 0) + result)
    yield "with too long a verifier", record(struct.pack(">5I", xid, 1, 0, 0, 404) + bytes(408) + result)
    yield "of a third type", record(struct.pack(">6I", xid, 2, 0, 0, 0, 0) + result)
    yield "of no bytes", record(b"")
    yield "that is cut", record(reply(xid, result)[4:20])
    yield "that is too long", number(2**31 + 2**30 + 1_025)
    yield "that is garbage", b"HTTP/1.0 400 Bad Request\r\n\r\n"


def ends_wrongly(place, what, answered, says, at, say_no_more=False):
    """A run whose peer answers so many PUTs, and then says that: it ends with 65, and tells the place."""
    stream = GOOD * answered + BAD + GOOD + BAD + GOOD
    plain = Plain(stream, [*[answer(ADMITTED, 0, 100, 0)] * answered, DENY])
    with Upstream() as upstream, start(place, upstream) as run, accept(upstream) as peer:
        run.write(stream)
        for xid, (product, told, _) in enumerate(plain.steps, 1):
            hear_put(peer, xid, product, run.begun)
            peer.send(reply(xid, told.result) if xid <= answered else says)
        if say_no_more:
            peer.say_no_more()
        log = plain.log.replace(b"ldm: denied\n", b"ldm: bad frame at %d\n" % at)
        expect_run(run.end(), (65, plain.output, log), what)
        expect(peer.next_record(), None, f"what comes of {what}")


def hears_wrong_replies(place):
    """What is no reply, and a peer that sends no more, end the run."""
    size = len(reply(1, answer(ADMITTED, 0, 100, 0).result))
    for answered in (0, 2):
        for what, says in wrong_replies(answered + 1):
            ends_wrongly(place, f"a reply {what} behind {answered}", answered, says, answered * size)
        whole = reply(answered + 1, answer(ADMITTED, 1, 2, 3).result)
        for count in (0, 1, 4, 9, size - 1):
            at = answered * size + count
            what = f"{count} bytes of the answer behind {answered}"
            ends_wrongly(place, what, answered, whole[:count], at, say_no_more=True)
    # a record of the most bytes that a reply may have is awaited, and one of more is not
    ends_wrongly(place, "a record that does not come", 0, number(2**31 + 1_024), 4, say_no_more=True)
    ends_wrongly(place, "a record that is too long", 0, number(2**31 + 1_025), 0, say_no_more=True)
    # what comes behind the last answer is not looked at
    plain = Plain(GOOD, admissions())
    with Upstream() as upstream, start(place, upstream) as run, accept(upstream) as peer:
        run.write(GOOD)
        hear_put(peer, 1, plain.steps[0][0], run.begun)
        peer.send(reply(1, plain.steps[0][1].result) + b"more")
        run.end_source()
        expect_run(run.end(), (0, plain.output, b""), "bytes behind the last answer")


def refused(held):
    """The log where nobody listens at a port that is held."""
    return f"ldm: {HOST}:{port_of(held)}: Connection refused\nldm: net fault\n".encode()


def closes_early(place):
    """Nobody listens, and a link that breaks: before the first PUT, at its answer, and at that of the second."""
    with hold_port() as held, Run(place, ["wmo", "-q", f"{HOST}:{port_of(held)}"]) as run:
        run.write(GOOD)
        expect_run(run.end(), (69, b"", refused(held)), "a node that is not there")
    stream = BAD + GOOD + BAD + GOOD
    plain = Plain(stream, admissions())
    for answered in (0, 1):
        with Upstream() as upstream, start(place, upstream) as run, accept(upstream) as peer:
            run.write(stream)
            for xid, (product, told, written) in enumerate(plain.steps[: answered + 1], 1):
                hear_put(peer, xid, product, run.begun)
                if xid <= answered:
                    peer.send(reply(xid, told.result))
            peer.reset()
            wanted = (69, plain.output[: written[0]], plain.log[: written[1]] + b"ldm: net fault\n")
            expect_run(run.end(), wanted, f"a link that breaks behind {answered} answers")
    with Upstream() as upstream, start(place, upstream) as run, accept(upstream) as peer:
        # it has dialled once it tells of the first candidate; a reset before that may be the end of its dialling
        run.write(BAD)
        run.until_logged(b"bad bulletin at 0\n")
        peer.reset()
        run.write(stream[len(BAD) :])
        wanted = (69, b"", b"bad bulletin at 0\nldm: net fault\n")
        expect_run(run.end(), wanted, "a link that breaks before the first PUT")


# What comes before what


def connects_before_it_reads(place):
    """It connects before it reads, and reads nothing where it cannot."""
    with Upstream() as upstream, start(place, upstream) as run, accept(upstream) as peer:
        expect(nothing_comes(peer), True, "whether nothing comes before a bulletin is there")
        run.end_source()
        expect_run(run.end(), (0, b"", b""), "a stream without a byte")
        expect(peer.next_record(), None, "what comes of a stream without a byte")
    given, source = os.pipe()
    os.write(source, GOOD)
    words = ["wmo", "-q"]
    with hold_port() as held, Run(place, [*words, f"{HOST}:{port_of(held)}"], source=f"/proc/self/fd/{given}") as run:
        expect_run(run.end(), (69, b"", refused(held)), "a node that is not there")
    expect(os.read(given, 100), GOOD, "what is left of a stream where nobody listens")
    os.close(given)
    os.close(source)


def goes_on_behind_the_answer(place):
    """A PUT goes out once its bulletin is whole, after the answer to the one before and its line."""
    seconds = [bulletin(b"%d" % i, b"SAUS44 KWBC 0%d0000" % i) for i in range(4)]
    plain = Plain(b"".join(seconds) + BAD, [REFUSALS[2], *[answer(ADMITTED, 0, 100, 0)] * 3])
    products = [product for product, _, _ in plain.steps]
    results = [told.result for _, told, _ in plain.steps]
    with Upstream() as upstream, start(place, upstream) as run, accept(upstream) as peer:
        run.write(seconds[0][:-1])
        run.until_read()
        expect(nothing_comes(peer), True, "whether nothing comes before a bulletin is whole")
        whole = now()
        run.write(seconds[0][-1:] + seconds[1])
        hear_put(peer, 1, products[0], whole)
        run.write(seconds[2])
        expect(nothing_comes(peer), True, "whether nothing comes before the answer to the first PUT")
        expect(run.written(), [0, 0], "the bytes that are written before the first answer")
        expect(run.unread(), len(seconds[2]), "the bytes that are not read before the first answer")
        answered = now()
        peer.send(reply(1, results[0]))
        for xid in (2, 3):
            hear_put(peer, xid, products[xid - 1], answered)
            expect(run.written(), plain.steps[xid - 1][2], f"the bytes that are written before PUT {xid}")
            expect(nothing_comes(peer), True, f"whether nothing comes before the answer to PUT {xid}")
            answered = now()
            peer.send(reply(xid, results[xid - 1])[:-1])
            expect(nothing_comes(peer), True, f"whether nothing comes before the answer to PUT {xid} is whole")
            peer.send(reply(xid, results[xid - 1])[-1:])
        expect(nothing_comes(peer), True, "whether nothing comes before the next bulletin is there")
        run.write(seconds[3] + BAD)
        run.end_source()
        hear_put(peer, 4, products[3], answered)
        peer.send(reply(4, results[3]))
        expect(peer.next_record(), None, "what comes behind the last answer")
        expect_run(run.end(), (79, plain.output, plain.log), "answers that are held back")


def tells_what_fails(place):
    """The streams of the program that fail."""
    ok = [answer(ADMITTED, 0, 100, 0)] * 3
    refused = [REFUSALS[2]] * 3
    cases = [
        (GOOD + GOOD, ok, {"output": FULL}, 1, (75, b"", b"ldm: sink fault\n")),
        (BAD + GOOD + GOOD, ok, {"output": FULL}, 1, (75, b"", b"bad bulletin at 0\nldm: sink fault\n")),
        (GOOD + BAD, [DENY], {"output": FULL}, 1, (78, b"", b"ldm: denied\n")),
        (BAD + b"\x01", ok, {"output": FULL}, 0, (65, b"", b"bad bulletin at 0\ncut bulletin at 39\n")),
        (GOOD + BAD + GOOD, ok, {"log": FULL}, 1, (76, ok[0].line, b"")),
        (GOOD + GOOD + b"\x01", ok, {"log": FULL}, 2, (76, ok[0].line * 2, b"")),
        (GOOD + GOOD, refused, {"log": FULL}, 2, (76, refused[0].line * 2, b"")),
        (GOOD + GOOD, [DENY], {"log": FULL}, 1, (76, b"", b"")),
        (GOOD + GOOD, ok, {"log": FULL}, 2, (0, ok[0].line * 2, b"")),
    ]
    for stream, answers, streams, count, wanted in cases:
        what = f"{stream[:60]!r} with {streams}"
        with Upstream() as upstream, start(place, upstream, **streams) as run, accept(upstream) as peer:
            run.write(stream)
            run.end_source()
            for xid in range(1, count + 1):
                hear_put(peer, xid, Plain(stream, ok).steps[xid - 1][0], run.begun)
                peer.send(reply(xid, answers[xid - 1].result))
            expect_run(run.end(), wanted, what)
            expect(peer.next_record(), None, f"what comes of {what}")
    with Upstream() as upstream, start(place, upstream, source=place) as run, accept(upstream) as peer:
        expect_run(run.end(), (74, b"", b"ldm: source fault\n"), "a source that is a folder")
        expect(peer.next_record(), None, "what comes of a source that is a folder")


CASES = [
    is_cut_anywhere,
    keeps_the_grammar,
    keeps_the_largest,
    finds_all_that_was_drawn,
    takes_frames_cut_anywhere,
    ends_at_a_frame_that_is_none,
    keeps_the_largest_frame,
    finds_all_frames_that_were_drawn,
    tells_the_answers,
    hears_one_byte_at_a_time,
    says_words,
    hears_wrong_replies,
    closes_early,
    connects_before_it_reads,
    goes_on_behind_the_answer,
    tells_what_fails,
]


if __name__ == "__main__":
    try_all(CASES, "wmo")

#!/usr/bin/env python3
"""Works out what a driver answers to the cases of images, from the format of images and from the model of a crash alone.

The cases are the lines of the driver's stdin that begin with `image`. Called with no word it compares the answers with those of its stdout,
and ends with 1 where they differ; called with `--print` it prints them. It stands on nothing of the project: images are read and written
here by their table, saving is a list of calls, and a crash leaves the old length and other bytes wherever something was written.

Called as: tests/image.py [--print]
"""

import struct
import sys

from cases import driver_of

MAGIC, VERSION, CLEAN = b"LDMQ", 1, 1
GATE, HEAD, ROW = 5, 48, 24
SMALLEST_ARENA, LARGEST_ARENA, UNIT, MOST_SLOTS = 64, 2**30, 8, 2**20
GREATEST_INSTANT = 4_294_967_295_999_999
LONGEST_ORIGIN, LONGEST_IDENT = 64, 255
PIECE = 262_144
# What the disk in memory leaves of a byte that was written and not synced.
SPOILED = 0xA5


class Bad(Exception):
    """A file is no image: the first field that is not lawful begins at that place."""


# ---- metadata and images


def number(file, at):
    if at + 8 > len(file):
        raise Bad(at)
    return int.from_bytes(file[at : at + 8], "big")


def text_at(arena, at, longest):
    """The text at a place and where the next field begins, or None."""
    if at + 4 > len(arena):
        return None
    count = int.from_bytes(arena[at : at + 4], "big")
    whole = (count + 3) // 4 * 4
    padded = arena[at + 4 : at + 4 + whole]
    if count > longest or len(padded) < whole or 0 in padded[:count] or any(padded[count:]):
        return None
    return padded[:count], at + 4 + whole


def metadata_at(arena, at):
    """The signature, the bytes of the metadata and those of the body, or None where no metadata are spelled."""
    if at + 24 > len(arena) or int.from_bytes(arena[at + 4 : at + 8], "big") >= 1_000_000:
        return None
    origin = text_at(arena, at + 24, LONGEST_ORIGIN)
    if origin is None:
        return None
    ident = text_at(arena, origin[1] + 8, LONGEST_IDENT)
    if ident is None or ident[1] + 4 > len(arena):
        return None
    return arena[at + 8 : at + 24], ident[1] + 4 - at, int.from_bytes(arena[ident[1] : ident[1] + 4], "big")


def extent(head, size):
    return (head + size + 7) // 8 * 8


def sizes_of(file):
    if file[:4] != MAGIC:
        raise Bad(0)
    if file[4:5] != bytes([VERSION]):
        raise Bad(4)
    if file[5:6] != bytes([CLEAN]):
        raise Bad(5)
    if file[6:8] != b"\0\0":
        raise Bad(6)
    arena = number(file, 8)
    if not SMALLEST_ARENA <= arena <= LARGEST_ARENA or arena % UNIT:
        raise Bad(8)
    slots = number(file, 16)
    if not 0 < slots <= MOST_SLOTS:
        raise Bad(16)
    admitted = number(file, 24)
    last = number(file, 32)
    if last > GREATEST_INSTANT + 1 or admitted > last or (admitted == 0) != (last == 0):
        raise Bad(32)
    count = number(file, 40)
    if count > slots:
        raise Bad(40)
    return arena, slots, admitted, last, count


def check_place(arena, place, taken, signatures):
    found = metadata_at(arena, place)
    if found is None:
        return False
    signature, head, size = found
    end = place + extent(head, size)
    if place + head + size > len(arena) or signature in signatures:
        return False
    if any(place < other_end and other < end for other, other_end in taken):
        return False
    taken.append((place, end))
    signatures.add(signature)
    return True


def open_clean(file):
    """What is opened of a file whose gate says nothing against it."""
    size, slots, admitted, last, count = sizes_of(file)
    start = HEAD + ROW * count
    arena = file[start : start + size]
    # Where the end cuts the arena, rows are judged by their own fields alone.
    whole = len(arena) == size
    rows, taken, signatures = [], [], set()
    for i in range(count):
        at = HEAD + ROW * i
        n = number(file, at)
        if n >= admitted or (rows and n <= rows[-1][0]):
            raise Bad(at)
        time = number(file, at + 8)
        if time >= last or (rows and time <= rows[-1][1]) or (n + 1 == admitted and time + 1 != last):
            raise Bad(at + 8)
        place = number(file, at + 16)
        if place % UNIT or (whole and not check_place(arena, place, taken, signatures)):
            raise Bad(at + 16)
        rows.append((n, time, place))
    if not whole:
        raise Bad(start)
    if len(file) > start + size:
        raise Bad(start + size)
    return size, slots, admitted, last, rows, arena


def opened(file):
    """What opening a file answers, in the words of the driver."""
    if len(file) > GATE and file[GATE] != CLEAN:
        return f"unclean {file[GATE]}"
    try:
        size, slots, admitted, last, rows, _ = open_clean(file)
    except Bad as bad:
        return f"bad {bad.args[0]}"
    return f"clean {size} {slots} {admitted} {last} {len(rows)}"


def image(size, slots, admitted, last, rows, arena):
    head = MAGIC + bytes([VERSION, CLEAN, 0, 0]) + struct.pack(">5Q", size, slots, admitted, last, len(rows))
    return head + b"".join(struct.pack(">3Q", *row) for row in rows) + arena


# ---- a queue of products of one kind: what `I` of a script means, with a body of so many bytes


def queue(size, slots, count):
    """The image of a queue after products 1 to `count`, of four bytes each, were inserted from 100 on; the oldest go."""
    arena, rows, admitted = bytearray(size), [], 0
    for i in range(count):
        product = product_bytes(i + 1)
        need = (len(product) + 7) // 8 * 8
        place = best_fit(size, slots, rows, need)
        while place is None:
            rows.pop(0)
            place = best_fit(size, slots, rows, need)
        arena[place : place + len(product)] = product
        rows.append((admitted, 100 + admitted, place, need))
        admitted += 1
    last = 100 + admitted if admitted else 0
    return image(size, slots, admitted, last, [row[:3] for row in rows], bytes(arena))


def product_bytes(i):
    """Metadata of origin `h` and ident `p`, arrived at 100, with feedtype 2 and sequence number 1, and a body of 0x41."""
    texts = struct.pack(">I4s", 1, b"h"), struct.pack(">I4s", 1, b"p")
    head = struct.pack(">II", 0, 100) + bytes([i]) * 16 + texts[0] + struct.pack(">II", 2, 1) + texts[1] + struct.pack(">I", 4)
    return head + b"A" * 4


def best_fit(size, slots, rows, need):
    if len(rows) == slots:
        return None
    gaps, at = [], 0
    for _, _, place, long in sorted(rows, key=lambda row: row[2]):
        gaps.append((place - at, at))
        at = place + long
    gaps.append((size - at, at))
    fits = [gap for gap in gaps if gap[0] >= need]
    return min(fits)[1] if fits else None


# ---- saving, and crashes


class Disk:
    def __init__(self, file, fails):
        self.synced, self.seen, self.changes, self.made, self.fails = file, file, [], 0, fails

    def call(self):
        self.made += 1
        if self.fails(self.made):
            raise OSError

    def read_gate(self):
        self.call()
        return self.seen[GATE : GATE + 1]

    def write(self, at, piece):
        self.call()
        if piece:
            self.changes.append((min(at, len(self.seen)), at + len(piece)))
            self.seen = self.seen[:at] + bytes(max(0, at - len(self.seen))) + piece + self.seen[at + len(piece) :]

    def cut(self, length):
        self.call()
        self.changes.append((len(self.seen), length))
        self.seen = self.seen[:length] + bytes(max(0, length - len(self.seen)))

    def sync(self):
        self.call()
        self.synced, self.changes = self.seen, []

    def crash(self):
        """The old length, and another byte wherever something was written."""
        left = bytearray(self.synced)
        for start, end in self.changes:
            for place in range(start, min(end, len(left))):
                left[place] = SPOILED
        return bytes(left)


def save(disk, new):
    try:
        gate = disk.read_gate()
        if gate in (b"", b"\1"):
            disk.write(GATE, b"\0")
            disk.sync()
        disk.write(0, new[:GATE])
        head = HEAD + ROW * int.from_bytes(new[40:48], "big")
        at = GATE + 1
        while True:
            rows = max(0, -(-(PIECE - (HEAD - at if at < HEAD else 0)) // ROW))
            end = min(head, (HEAD if at < HEAD else at) + rows * ROW)
            disk.write(at, new[at:end])
            at = end
            if at == head:
                break
        disk.write(head, new[head:])
        disk.cut(len(new))
        disk.sync()
        disk.write(GATE, b"\1")
        disk.sync()
        return "saved"
    except OSError:
        return "fault"


# ---- cases


def bytes_in(word):
    if word == "-":
        return b""
    parts = (part.split("x") if "x" in part else ("1", part) for part in word.split("_"))
    return b"".join(int(times) * bytes.fromhex(digits) for times, digits in parts)


def runs(answers):
    """Answers in a row, each with how often it comes, where it comes more than once."""
    told = []
    for answer in answers:
        if told and told[-1][0] == answer:
            told[-1][1] += 1
        else:
            told.append([answer, 1])
    return ", ".join(answer if often == 1 else f"{answer} ({often} times)" for answer, often in told)


def file_in(words):
    """A file as a case names it: its bytes, or a queue."""
    if words[0] == "queue":
        size, slots, count = map(int, words[1:4])
        del words[:4]
        return queue(size, slots, count)
    return bytes_in(words.pop(0))


def stops(old, new, fails_from):
    """What saving and then opening what a crash left answers, where each call in turn fails."""
    told, call = [], 1
    while True:
        disk = Disk(old, fails_from(call))
        end = save(disk, new)
        told.append(f"{end} {opened(disk.crash())}")
        if end == "saved":
            return runs(told)
        call += 1


def answer(line):
    word, *words = line.split(" ")
    file = file_in(words)
    match word:
        case "open":
            return opened(file)
        case "bytes":
            return file.hex()
        case "cuts":
            return runs(opened(file[:length]) for length in range(len(file) + 1))
        case "gates":
            return runs(opened(file[:GATE] + bytes([gate]) + file[GATE + 1 :]) for gate in range(256))
        case "changes":
            turned = int(words[0])
            return runs(opened(file[:at] + bytes([file[at] ^ turned]) + file[at + 1 :]) for at in range(len(file)))
        case "surplus":
            return opened(file + bytes_in(words[0]))
        case "at":
            place, piece = int(words[0]), bytes_in(words[1])
            return opened(file[:place] + piece + file[place + len(piece) :])
        case "stops":
            return stops(file, file_in(words), lambda first: lambda call: call >= first)
        case "faults":
            return stops(file, file_in(words), lambda one: lambda call: call == one)
    raise ValueError(word)


def main():
    folder = driver_of("image")
    lines = (folder / "stdin").read_text().splitlines()
    cases = [(at, line.removeprefix("image ")) for at, line in enumerate(lines) if line.startswith("image ")]
    told = [(at, answer(case)) for at, case in cases]
    if sys.argv[1:] == ["--print"]:
        print("\n".join(text for _, text in told))
        return 0
    given = (folder / "stdout").read_text().splitlines()
    differing = [at + 1 for at, text in told if given[at] != text]
    if not told or len(lines) != len(given) or differing:
        print(f"differs at lines {differing[:10]} of {len(lines)}, of which {len(told)} are cases of images")
        return 1
    print(f"{len(told)} lines agree")
    return 0


if __name__ == "__main__":
    sys.exit(main())

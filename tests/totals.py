#!/usr/bin/env python3
"""Answers the cases of hourly totals of a driver by a plain program, and compares them with its `stdout`.

A table of the plain program keeps all products that it was ever given, and how often each; its report is made of those that lie within the
window, line by line.

Called as: tests/totals.py [--write]. With --write the answers are written to `stdout`.
"""

import collections
import datetime
import hashlib
import sys
import typing

from cases import driver_of

HOUR = 3_600_000_000
MOST_HOURS = 8_760
MOST_PRODUCTS = 2**31
LONGEST_TOLD = 4_000
FOLDER = driver_of("split")


class Product(typing.NamedTuple):
    time: int
    arrival: int
    feed: int
    origin: bytes
    size: int

    def hour(self):
        return self.arrival // HOUR

    def place(self):
        return self.hour(), self.feed, self.origin


def spelled(origin):
    if origin in (b"", b"-"):
        return {b"": "-", b"-": "%2D"}[origin]
    return "".join(chr(byte) if 0x21 <= byte <= 0x7E and byte != 0x25 else f"%{byte:02X}" for byte in origin)


def hour_text(hour):
    return (datetime.datetime(1970, 1, 1) + datetime.timedelta(hours=hour)).strftime("%Y%m%d%H")


class Table:
    """How often it was given each product."""

    def __init__(self, hours):
        self.hours = hours
        self.given = collections.Counter()
        self.total = 0

    def add(self, product, times=1):
        self.given[product] += times
        self.total += times

    def kept(self):
        last = max((product.hour() for product in self.given), default=0)
        return [(product, times) for product, times in self.given.items() if product.hour() + self.hours > last]

    def count(self):
        return sum(times for _, times in self.kept())

    def lines(self):
        """The report."""
        kept = self.kept()
        members = {product.place(): [] for product, _ in kept}
        for product, times in kept:
            members[product.place()].append((product, times))
        for hour, feed, origin in sorted(members):
            those = members[hour, feed, origin]
            count = sum(times for _, times in those)
            size = sum(times * product.size for product, times in those)
            latency = max(max(product.time - product.arrival, 0) for product, _ in those)
            yield f"{hour_text(hour)} 0x{feed:08x} {spelled(origin)} {count} {size} {latency}\n"

    def told(self):
        report = "".join(self.lines())
        if len(report) > LONGEST_TOLD:
            report = f"{len(report)} bytes {hashlib.md5(report.encode()).hexdigest()}\n"
        return " | ".join([f"{self.count()} counted", *report.splitlines()])

    def has_room(self, count):
        """Whether so many more may be counted, or absorbed."""
        return self.total + count < MOST_PRODUCTS or self.count() + count < MOST_PRODUCTS


def add(table, product):
    if not table.has_room(0):
        return "full "
    table.add(product)
    return ""


def absorb(table, other):
    if not table.has_room(other.count()):
        return "full "
    for product, times in other.given.items():
        table.add(product, times)
    return ""


def product_in(words):
    time, arrival, feed, origin, size = (words.popleft() for _ in range(5))
    return Product(int(time), int(arrival), int(feed), b"" if origin == "-" else bytes.fromhex(origin), int(size))


def tell_steps(words):
    hours = int(words.popleft())
    if not 1 <= hours <= MOST_HOURS:
        return "None"
    first, second, told = Table(hours), Table(hours), ""
    while words:
        match words.popleft():
            case "add":
                told += add(first, product_in(words))
            case "each":
                begin, count = int(words.popleft()), int(words.popleft())
                for hour in range(begin, begin + count):
                    told += add(first, Product(0, hour * HOUR, 8, b"o", 1))
            case "swap":
                first, second = second, first
            case "absorb":
                told += absorb(first, second)
            case "copy":
                second = Table(hours)
                told += absorb(second, first)
    return told + first.told()


def tell_split(words):
    """Of a list that is split into two tables, however, the one that absorbs the other has what one table of all has."""
    table = Table(int(words.popleft()))
    count = 0
    while words:
        table.add(product_in(words))
        count += 1
    return f"{2**count} alike: {table.told()}"


ANSWERS = {"hour": lambda words: hour_text(int(words[0])), "table": tell_steps, "split": tell_split}


def is_asked(line):
    return line.split(" ")[0] in ANSWERS


def answer(line):
    word, *fields = line.split(" ")
    return ANSWERS[word](collections.deque(fields))


def main():
    cases = (FOLDER / "stdin").read_text().splitlines()
    found = (FOLDER / "stdout").read_text().splitlines()
    if len(found) != len(cases):
        sys.exit(f"stdout of {FOLDER.name} has {len(found)} lines for {len(cases)} of stdin")
    asked = [at for at, line in enumerate(cases) if is_asked(line)]
    if sys.argv[1:] == ["--write"]:
        for at in asked:
            found[at] = answer(cases[at])
        (FOLDER / "stdout").write_text("".join(f"{line}\n" for line in found))
        return
    for at in asked:
        wanted = answer(cases[at])
        if wanted != found[at]:
            sys.exit(f"to {cases[at][:300]!r} the answer is {wanted[:500]!r}, and stdout of {FOLDER.name} has {found[at][:500]!r}")
    if not asked:
        sys.exit("no case of hourly totals is there")
    print(f"{len(asked)} cases of hourly totals have the answers of a plain program")


if __name__ == "__main__":
    main()

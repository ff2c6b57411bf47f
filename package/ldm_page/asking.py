"""Asks a node by the tools of ldm, and keeps the files of samples and reports."""

import collections
import os
import statistics
import time

import ldm_beside
from ldm_beside.asking import CannotAsk, Notices, ask
from ldm_beside.habit import MICRO

from .drawing import utc
from .reading import (
    DAY, FIGURES, HOUR, LAST, LATENCY, MOST_SAMPLES, MOST_TOTALS, REPORT, SAMPLES, STAMP, Failed, Reading, Window, read_report, sample_of,
    seconds_of,
)  # fmt: skip

# How many seconds products are watched behind those that are queued, of which the time is known that they took.
LIVE = 5
# How many feeds, and how many origins, have lines of their own in a sample.
MOST_LINES = 100
# How long a line of a feed or an origin is kept: what is usual of a feed is seen in a day.
KEPT = 25 * HOUR


class Found:
    """What the notices of a node come to: totals of hours, as pqstats has them; of feeds and origins what came since the last sample."""

    def __init__(self, last_of):
        self.totals = {}
        self.last_of = last_of
        self.lines = {}
        self.took = collections.defaultdict(list)

    def take(self, notice, now):
        self.count(notice, now)
        last = self.last_of.get(notice.feed)
        if last is None or notice.arrival > last:
            gap = 0 if last is None else notice.arrival - last
            if notice.feed in self.lines or len(self.lines) < MOST_LINES:
                self.lines[notice.feed] = notice.arrival, max(gap, self.lines.get(notice.feed, (0, 0))[1])
            self.last_of[notice.feed] = notice.arrival
        if notice.came is not None and (notice.origin in self.took or len(self.took) < MOST_LINES):
            self.took[notice.origin].append(max(0, int(notice.came * MICRO) - notice.arrival))

    def count(self, notice, now):
        key = notice.arrival // MICRO // HOUR, notice.feed, notice.origin
        if key in self.totals or len(self.totals) < MOST_TOTALS:
            count, size, latency = self.totals.get(key, (0, 0, 0))
            age = int((notice.came or now) * MICRO) - notice.arrival
            self.totals[key] = count + 1, size + notice.size, max(latency, age)

    def texts(self):
        """The lines of a sample besides its figures."""
        for feed, (arrival, gap) in sorted(self.lines.items()):
            yield f"last 0x{feed:08x} {arrival} {gap}"
        for origin, took in sorted(self.took.items()):
            yield f"latency {origin} {int(statistics.median(took))}"


def take_sample(node, path, days, given=None):
    """Adds lines to a file of samples, and lets those of earlier days go. Answers the totals of what is queued, and why there are none."""
    now = given or int(time.time())
    why = None
    try:
        output, reason = ask(["pqmon", "-q", node])
        figures = FIGURES.fullmatch(output.rstrip(b"\n")) if output is not None else None
        kept, last_of = fresh_samples(path, now, days) if os.path.exists(path) else (b"", {})
        found = Found(last_of)
        if figures and int(figures[2]):
            notices = Notices(node, int(figures[2]), LIVE)
            for notice in notices:
                found.take(notice, now)
            why = notices.reason and f"ldm notifyme: {notices.reason}"
    except CannotAsk as fault:
        raise Failed(str(fault)) from None
    # of a part of the notices the last product of a feed is not known
    texts = [figures[0].decode() if figures else reason or "ldm: no figures", *(() if why else found.texts())]
    stamp = utc(now, "%Y-%m-%dT%H:%M:%SZ")
    write_file(path, kept + "".join(f"{stamp} {text}\n" for text in texts).encode())
    return found.totals, why


def fresh_samples(path, now, days):
    """The lines of a file of samples that are of the last days, and the last product of each feed. It may have no other lines: none is
    ever cut."""
    kept = collections.deque(maxlen=MOST_SAMPLES)
    last_of, newest = {}, {}
    for number, line in Reading(path, SAMPLES).lines():
        stamp = STAMP.match(line)
        when = stamp and seconds_of(stamp, now)
        form, match = sample_of(line[stamp.end() :]) if when is not None else (None, None)
        if form is None:
            raise Failed(f"{path} is no file of samples, by its line {number}")
        if when < now - days * DAY:
            continue
        feed = int(match[1], 16) if form is LAST else None
        if form is LAST:
            last_of[feed] = max(last_of.get(feed, 0), int(match[2]))
            newest[feed] = max(newest.get(feed, when), when)
        kept.append((form, feed, when, line + b"\n"))
    # lines of a feed are of use up to a day before its last product
    since = {LAST: lambda feed: newest[feed] - KEPT, LATENCY: lambda _: now - KEPT}
    return b"".join(line for form, feed, when, line in kept if form not in since or when >= since[form](feed)), last_of


def take_report(path, totals, now, days):
    """Adds totals to what a file has of the last days, as `read_report` does."""
    window = Window(now, days * 24)
    if os.path.exists(path):
        reading = Reading(path, REPORT)
        before = {}
        read_report(reading, window, before)
        if reading.unknown:
            raise Failed(f"{path} is no report, by its line {reading.examples[0][0]}")
        for key, figures in before.items():
            totals[key] = max(totals.get(key, (0, 0, 0)), figures)
    written = (report_line(*key, *figures) for key, figures in sorted(totals.items()) if key[0] in window.hours)
    write_file(path, "".join(written).encode())


def report_line(hour, feed, origin, count, size, latency):
    return f"{utc(hour * HOUR, '%Y%m%d%H')} 0x{feed:08x} {origin} {count} {size} {latency}\n"


def write_file(path, content):
    """Puts a file in the place of another at once."""
    try:
        ldm_beside.write_file(path, content)
    except OSError as why:
        raise Failed(f"cannot write {path}: {why.strerror}") from None

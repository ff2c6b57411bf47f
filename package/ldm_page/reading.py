"""Reads reports, samples and logs of nodes.

Files are read line by line, and what is kept of them is bounded by the constants below, however long a file is. A line
that is none of those that are known is counted, and never ends the reading.
"""

import collections
import datetime
import itertools
import re
import sys

from ldm_beside.asking import REASON
from ldm_beside.habit import MICRO, Habit

# A longer line is none of those that are known.
LONGEST_LINE = 65_536
# How many hosts of a log are told apart, and how many lines of reports and of samples are kept.
MOST_HOSTS = 10_000
MOST_TOTALS = 200_000
MOST_SAMPLES = 400_000
# How many lines that are not known are shown of a file, and how much of each.
EXAMPLES = 3
EXAMPLE = 80

HOUR = 3600
DAY = 24 * HOUR
OTHERS = "others"

# What a file is, and what its lines are called.
REPORT, SAMPLES, LOG = "lines of a report", "samples", "lines of a log"

TEXT = rb"([!-~]{1,768})"
NUMBER = rb"(0|[1-9]\d{0,19})"
SUM = rb"(0|[1-9]\d{0,29})"
REPORT_LINE = re.compile(rb"(\d{10}) 0x([0-9a-f]{8}) ([!-~]{1,192}) %s %s %s" % (NUMBER, SUM, NUMBER))
FIGURES = re.compile(rb"stat" + 5 * (b" " + NUMBER))
# Of a feed: its last product, and the longest gap before it since the sample before. Of an origin: how long its products took.
LAST = re.compile(rb"last 0x([0-9a-f]{8}) (\d{1,16}) (\d{1,16})")
LATENCY = re.compile(rb"latency ([!-~]{1,192}) (\d{1,16})")
# What stands in front of a line of the journal: when, and often on which machine and by which program.
STAMP = re.compile(
    rb"(?:(\d{9,11})(?:\.\d+)?"
    rb"|(\d{4}-\d\d-\d\dT\d\d:\d\d:\d\d)(?:[.,]\d+)?(Z|[+-]\d\d:?\d\d)"
    rb"|([A-Z][a-z]{2}) +(\d{1,2}) (\d\d:\d\d:\d\d))"
    rb" (?:[!-~]{1,255} [!-~]{1,255}: )?"
)
REFUSALS = rb"duplicate|toobig|locked|allreserved|timeend|noreservation|unfilled"
LOG_LINES = {
    b"session": re.compile(rb"session %s ([a-z]{1,32})" % TEXT),
    b"unreached": re.compile(rb"unreached %s" % TEXT),
    b"gap": re.compile(rb"gap %s %s %s %s" % (TEXT, NUMBER, NUMBER, NUMBER)),
    b"refused": re.compile(rb"refused %s (%s)(?: %s){0,2}" % (TEXT, REFUSALS, NUMBER)),
    b"journal": re.compile(rb"journal (fault|changed)"),
    b"Suppressed": re.compile(rb"Suppressed %s messages from ([!-~]{1,255})" % NUMBER),
    b"unwanted": re.compile(rb"unwanted %s" % TEXT),
    b"nodate": re.compile(rb"nodate %s %s" % (TEXT, NUMBER)),
    b"nottext": re.compile(rb"nottext %s %s" % (TEXT, NUMBER)),
    b"stat": FIGURES,
    b"ldm:": REASON,
}
MONTHS = "Jan Feb Mar Apr May Jun Jul Aug Sep Oct Nov Dec".split()

# How sessions end: what the page says of the words that log lines have.
WELL, DECLINED, BROKEN, UNREACHED = "ended", "declined", "broke off", "not reached"
ENDS = {
    WELL: ["ended", "stopped"],
    DECLINED: ["denied", "refused", "reclassed", "allbusy"],
    BROKEN: "truncated badframe badreply peerend linkfault logfault streamlimit worn outofmemory".split(),
}
KIND_OF_END = {end: kind for kind, ends in ENDS.items() for end in ends}


# Behind these lines a host that is asked does not feed. Behind another end it is asked again at once.
FEEDS_NOT = {UNREACHED, "badframe", "badreply", *ENDS[DECLINED]}


class Failed(Exception):
    """Why there is no page."""


class Reading:
    """A file that is read once: its lines, and how many of them were taken."""

    def __init__(self, path, kind):
        self.path = path
        self.kind = kind
        self.taken = self.unknown = self.outside = self.too_many = 0
        self.examples = []

    def lines(self):
        """Its lines, without what ends them. Of one that is too long only the front is read, which is not known."""
        try:
            file = sys.stdin.buffer if self.path == "-" else open(self.path, "rb")
            with file:
                for number in itertools.count(1):
                    line = file.readline(LONGEST_LINE)
                    if not line:
                        return
                    rest = line
                    while rest and not rest.endswith(b"\n") and len(rest) == LONGEST_LINE:
                        rest = file.readline(LONGEST_LINE)
                    yield number, line.rstrip(b"\r\n")
        except OSError as why:
            raise Failed(f"cannot read {self.path}: {why.strerror}") from None

    def pass_over(self, number, line):
        """Counts a line that is none of those that are known."""
        self.unknown += 1
        if len(self.examples) < EXAMPLES:
            text = line[:EXAMPLE].decode("ascii", "backslashreplace")
            text = "".join(letter if letter.isprintable() else f"\\x{ord(letter):02x}" for letter in text)
            self.examples.append((number, text + (" .." if len(line) > EXAMPLE else "")))


class Window:
    """The hours of a page: the one in which it is made, and those before it."""

    def __init__(self, now, hours):
        self.now = now
        self.hours = range(now // HOUR - hours + 1, now // HOUR + 1)
        # the last one that is over, where there is one
        self.last = self.hours[max(0, hours - 2)]
        self.start = self.hours[0] * HOUR
        self.end = (self.hours[-1] + 1) * HOUR


def hour_of(digits):
    """The hour that YYYYMMDDHH names, counted from 1970, or None."""
    try:
        when = datetime.datetime.strptime(digits.decode(), "%Y%m%d%H").replace(tzinfo=datetime.timezone.utc)
    except ValueError:
        return None
    return int(when.timestamp()) // HOUR


def seconds_of(stamp, now):
    """The second that a match of STAMP tells, or None."""
    if stamp[1]:
        return int(stamp[1])
    date, zone, month, day, clock = (part and part.decode() for part in stamp.groups()[1:])
    try:
        if date:
            zone = "+00:00" if zone == "Z" else zone if ":" in zone else zone[:3] + ":" + zone[3:]
            return int(datetime.datetime.fromisoformat(date + zone).timestamp())
        # by the clock of this machine, and without a year: the last such day
        latest = datetime.datetime.fromtimestamp(now + DAY)
        for year in (latest.year, latest.year - 1):
            when = datetime.datetime.fromisoformat(f"{year}-{MONTHS.index(month) + 1:02}-{int(day):02}T{clock}")
            if when <= latest:
                return int(when.timestamp())
    except (ValueError, OverflowError, OSError):
        pass
    return None


def read_report(reading, window, totals):
    """Adds the lines of a report: to (hour, feed, origin) belong count, bytes and latency.

    Several reports of one node tell of some products again, and of none too many: the line with most products stands.
    """
    for number, line in reading.lines():
        match = REPORT_LINE.fullmatch(line)
        hour = match and hour_of(match[1])
        if hour is None:
            reading.pass_over(number, line)
            continue
        key = hour, int(match[2], 16), match[3].decode()
        if hour not in window.hours:
            reading.outside += 1
        elif key not in totals and len(totals) >= MOST_TOTALS:
            reading.too_many += 1
        else:
            reading.taken += 1
            totals[key] = max(totals.get(key, (0, 0, 0)), tuple(int(match[place]) for place in (4, 5, 6)))


class Sample(collections.namedtuple("Sample", "time admitted queued held used largest")):
    """The figures of the queue at a second, or None for each where the node did not answer."""


class Samples:
    """What a file of samples has: the figures of the queue, how each feed came, and how long products of each origin took."""

    def __init__(self):
        self.figures = []
        self.feeds = {}
        self.latencies = collections.defaultdict(list)


def read_samples(reading, window):
    """The samples of a file, in the order of their times."""
    samples = Samples()
    figures = collections.deque(maxlen=MOST_SAMPLES)
    lasts = collections.defaultdict(list)
    for number, line in reading.lines():
        stamp = STAMP.match(line)
        when = stamp and seconds_of(stamp, window.now)
        form, found = sample_of(line[stamp.end() :]) if when is not None else (None, None)
        if form is None:
            reading.pass_over(number, line)
            continue
        if when > window.now:
            reading.outside += 1
            continue
        reading.taken += 1
        if form is LAST:
            lasts[int(found[1], 16)].append((when, int(found[2]), int(found[3])))
        elif form is LATENCY:
            samples.latencies[found[1].decode()].append((when, int(found[2]) / MICRO))
        else:
            figures.append(Sample(when, *(map(int, found.groups()) if form is FIGURES else [None] * 5)))
    samples.figures = sorted(figures, key=lambda sample: sample.time)
    samples.feeds = {feed: habit_of(lines) for feed, lines in lasts.items()}
    return samples


def habit_of(lines):
    """How a feed came in the day before its last product: each line has a time, an arrival and a gap."""
    habit = Habit()
    newest = max(when for when, _, _ in lines)
    habit.last = max(arrival for _, arrival, _ in lines)
    for when, _, gap in lines:
        if gap and when > newest - DAY:
            habit.add_gap(gap)
    return habit


def sample_of(text):
    """Which line of samples a text is behind its time, and its match; or None twice."""
    for form in (FIGURES, LAST, LATENCY, REASON):
        found = form.fullmatch(text)
        if found:
            return form, found
    return None, None


class Host:
    """What a log tells of a host."""

    def __init__(self):
        self.ends = collections.Counter()
        self.unreached = self.gaps = self.lost = 0
        # the last line of a session or a try, and when it was written, or None
        self.last = self.when = None

    def counts(self):
        found = collections.Counter({UNREACHED: self.unreached})
        for end, count in self.ends.items():
            found[KIND_OF_END[end]] += count
        return found

    def add(self, other):
        self.ends.update(other.ends)
        self.unreached += other.unreached
        self.gaps += other.gaps
        self.lost += other.lost

    def is_away(self, now):
        """Whether the last line tells that the host could not be reached, or did not feed. Each later try that failed would have written
        another one, so behind an old line the host feeds; a line without a time is taken for a new one."""
        return self.last in FEEDS_NOT and (self.when is None or now - self.when <= NEXT_TRY)


# A node tries a host again within 30 seconds, and gives it 10 for each of its addresses.
NEXT_TRY = 90
# The losses of the last hour: products that were evicted before a host, or a tool here, was sent them; products that were not taken;
# products that the node's journal has not; lines of the log that the system's journal dropped.
EVICTED, REFUSED, UNWANTED, UNKEPT, LINES = "evicted unsent", "refused", "unwanted", "not in the journal", "lines of the log"


class Log:
    """What the lines of logs come to."""

    def __init__(self, now=None):
        self.hosts = collections.defaultdict(Host)
        self.not_taken = collections.Counter()
        self.losses = collections.Counter()
        # what the log tells of the node's journal: of each line how often, and when last
        self.journal = {}
        self.untimed = 0
        self.since = None if now is None else now - HOUR

    def host(self, name):
        text = name.decode()
        return self.hosts[text if text in self.hosts or len(self.hosts) < MOST_HOSTS else OTHERS]

    def lose(self, what, count, when):
        if self.since is None or when is None or when >= self.since:
            self.losses[what] += count

    def take(self, match, when=None):
        """Counts a line, by the words that it begins with. False where its end is none."""
        word = match[0].split(b" ", 1)[0]
        if word == b"session":
            end = match[2].decode()
            if end not in KIND_OF_END:
                return False
            host = self.host(match[1])
            host.ends[end] += 1
            host.last, host.when = end, when
        elif word == b"unreached":
            host = self.host(match[1])
            host.unreached += 1
            host.last, host.when = UNREACHED, when
        elif word == b"gap":
            self.take_gap(match, when)
        elif word == b"journal":
            self.note(f"journal {match[1].decode()}", when)
        elif word == b"refused":
            self.not_taken["refused, " + match[2].decode()] += 1
            if match[2] != b"duplicate":
                self.lose(REFUSED, 1, when)
        elif word in (b"unwanted", b"nodate", b"nottext"):
            self.not_taken[word.decode()] += 1
            if word == b"unwanted":
                self.lose(UNWANTED, 1, when)
        elif word == b"Suppressed":
            self.lose(LINES, int(match[1]), when)
        return True

    def take_gap(self, match, when):
        count = int(match[2])
        if match[1] in (b"journal", b"ring"):
            self.note(f"gap {match[1].decode()}", when)
            self.lose(UNKEPT, count, when)
            return
        host = self.host(match[1])
        host.gaps += 1
        host.lost += count
        self.lose(EVICTED, count, when)

    def note(self, line, when):
        self.journal[line] = self.journal.get(line, (0, None))[0] + 1, when


def read_log(reading, window, log):
    """Adds the lines of a log that are of the window's hours, or have no time."""
    for number, line in reading.lines():
        when, said = None, line
        form = LOG_LINES.get(said.split(b" ", 1)[0])
        stamp = STAMP.match(line) if form is None else None
        if stamp:
            when, said = seconds_of(stamp, window.now), line[stamp.end() :]
            form = LOG_LINES.get(said.split(b" ", 1)[0]) if when is not None else None
        match = form and form.fullmatch(said)
        if when is not None and match and not window.start <= when <= window.now:
            reading.outside += 1
        elif match and log.take(match, when):
            reading.taken += 1
            log.untimed += when is None
        else:
            reading.pass_over(number, line)


class Depth(collections.namedtuple("Depth", "sample seconds at_least")):
    """How far back the queue went at a sample; None where that is not known."""


def depths(samples):
    """How far back the queue went at each sample, in seconds.

    Products leave in the order in which they came. So the oldest queued one has the number ADMITTED - QUEUED, and the
    first sample at which more products were admitted had it. Where that is the first sample of all, it may be older.
    """
    run = []
    oldest = 0
    began = False
    for sample in samples:
        if sample.admitted is None:
            yield Depth(sample, None, False)
            continue
        if run and sample.admitted < run[-1].admitted:
            # the node began anew, after the sample before
            run, oldest, began = [], 0, True
        run.append(sample)
        if sample.queued == 0:
            yield Depth(sample, 0, False)
            continue
        while run[oldest].admitted <= sample.admitted - sample.queued:
            oldest += 1
        yield Depth(sample, sample.time - run[oldest].time, oldest == 0 and not began)


def longest_pause(times):
    """Three times what is usual between two of them; 0 where there are not two."""
    apart = sorted(after - before for before, after in zip(times, times[1:]))
    return 3 * apart[len(apart) // 2] if apart else 0

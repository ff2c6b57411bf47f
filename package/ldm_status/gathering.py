"""Gathers what a node, its log, its configuration and the system tell."""

import tempfile
import time
import typing

from ldm_beside import requests
from ldm_beside.asking import Notices, ask
from ldm_beside.habit import MICRO, Habit
from ldm_page import reading

from . import system

# The id that the system's journal gives to its lines about lines that it dropped.
DROPPED = "a596d6fe7bfa4994828e72309e95d61e"
HOURS = 24


class Asked(typing.NamedTuple):
    """A REQUEST line: its products in the queue, and whether its host is connected: True, False, or None where nothing tells."""

    request: requests.Request
    habit: Habit
    connected: typing.Optional[bool]
    why: str


class Told:
    """What is told of a node at a moment."""

    def __init__(self, node):
        self.node = node
        self.host, _, port = node.rpartition(":")
        self.port = int(port)
        self.figures = self.reason = None
        self.began = self.links = None
        self.feeds = {}
        self.oldest = None
        self.all = Habit()
        self.asked = []
        self.log = None
        self.now = time.time()

    def journal_faults(self):
        """What the log tells of the node's journal since the node began, and when: a node that was started anew has opened it again."""
        # both times are of whole seconds of clocks that may differ a little
        since = self.began - 2 if self.began else 0
        for line, (_, last) in self.log.journal.items():
            if line.startswith("journal") and (last is None or last >= since):
                yield line, last


def gather(node, conf=None, log=None, unit=None):
    told = Told(node)
    output, told.reason = ask(["pqmon", "-q", node])
    found = reading.FIGURES.fullmatch(output.rstrip(b"\n")) if output is not None else None
    told.figures = reading.Sample(int(time.time()), *map(int, found.groups())) if found else None
    if log or unit:
        told.log = read_log(log, unit)
    process = None
    if system.is_here(told.host):
        table = list(system.rows())
        told.links = system.peers(told.port, table)
        process = system.process_at(told.port, table)
    told.began = process.began if process else unit and system.unit_began(unit)
    asked = requests.read(conf) if conf else []
    habits = [Habit() for _ in asked]
    read_notices(told, asked, habits)
    told.now = time.time()
    for request, habit in zip(asked, habits):
        told.asked.append(Asked(request, habit, *connection(told, request, process)))
    return told


def read_notices(told, asked, habits):
    """Takes what the node has queued: by feed, and by REQUEST line. Whether a pattern is found, the program says."""
    if told.figures is None or not told.figures.queued:
        return
    notices = Notices(told.node, told.figures.queued)
    latest = int(time.time() * MICRO)
    for notice in notices:
        # a clock that is ahead somewhere makes no product newer than now
        arrival = min(notice.arrival, latest)
        told.oldest = arrival if told.oldest is None else told.oldest
        told.all.add(arrival)
        told.feeds.setdefault(notice.feed, Habit()).add(arrival)
        for request, habit in zip(asked, habits):
            if request.takes_all() and notice.feed & request.bits:
                habit.add(arrival)
    told.reason = notices.reason
    if told.reason:
        # the last product of a feed is not known
        told.feeds.clear()
        told.all = Habit()
        told.oldest = None
        habits[:] = [Habit() for _ in habits]
        return
    for request, habit in zip(asked, habits):
        if not request.takes_all():
            for notice in Notices(told.node, told.figures.queued, 0, ["-f", request.feed, "-p", request.pattern]):
                habit.add(min(notice.arrival, latest))


def connection(told, request, process):
    """Whether the host of a REQUEST line is connected, and by what that is known."""
    if process:
        is_linked = any((address, request.port) in process.asked for address in system.addresses(request.host))
        if is_linked:
            return True, "connected"
    host = told.log.hosts.get(request.host) if told.log else None
    if host is not None and host.last and (process or host.is_away(told.now)):
        ago = f" {age_text(told.now - host.when)} ago" if host.when else ""
        if host.last == reading.UNREACHED:
            return False, f"not reached{', last try' + ago if ago else ''}"
        return False, f"its last session{ago}: {host.last}"
    if process:
        return False, "not connected"
    if told.log is None:
        return None, "not known: no log"
    return True, "connected, by the log"


def age_text(seconds):
    """A length of time, in whole units."""
    for unit, size in (("d", 86_400), ("h", 3600), ("min", 60)):
        if seconds >= 2 * size:
            return f"{int(seconds / size)} {unit}"
    return f"{int(seconds)} s"


def read_log(path, unit):
    """What a log tells, of the last day where its lines have times. None where this user may not read the journal."""
    now = int(time.time())
    log = reading.Log(now)
    window = reading.Window(now, HOURS)
    if path:
        reading.read_log(reading.Reading(path, reading.LOG), window, log)
        return log
    words = ["journalctl", "-q", "-o", "short-unix", f"--since=-{HOURS}h", f"_SYSTEMD_UNIT={unit}", "+", f"MESSAGE_ID={DROPPED}"]
    lines = system.run(words) if system.reads_journal() else None
    if lines is None:
        return None
    with tempfile.NamedTemporaryFile("w") as file:
        file.write(lines)
        file.flush()
        reading.read_log(reading.Reading(file.name, reading.LOG), window, log)
    return log

"""The line of states at the top of a page: of the node, each upstream, each feed, losses and the journal."""

import ipaddress

from ldm_beside.feeds import feed_name
from ldm_beside.habit import MICRO

from .drawing import count_text, tag, time_text, together, utc
from .reading import DAY, longest_pause

GOOD, BAD, LOSS, UNKNOWN = "good", "bad", "loss", "unknown"
# Samples are old where the last one is older than this, and than three times what is usual between two.
OLD = 300
# How many states of one kind are shown; those that are bad come first.
MOST = 40


def node(window, figures):
    if not figures:
        yield UNKNOWN, "node", "no sample"
        return
    last = figures[-1]
    age = window.now - last.time
    if last.admitted is None:
        since = last.time
        for sample in reversed(figures):
            if sample.admitted is not None:
                break
            since = sample.time
        yield BAD, "node", f"no answer since {at(since, window)}"
    elif age > max(OLD, longest_pause([sample.time for sample in figures])):
        yield BAD, "node", f"no sample for {time_text(age)}"
    else:
        yield GOOD, "node", "up"


def at(when, window):
    """A time, with its day where that is another one."""
    return utc(when, "%H:%M" if when // DAY == window.now // DAY else "%Y-%m-%d %H:%M")


def is_address(host):
    try:
        ipaddress.ip_address(host.partition("%")[0])
    except ValueError:
        return False
    return True


def upstreams(window, log, asked):
    """Those of REQUEST lines; without a configuration those hosts of the log that only a REQUEST line can name."""
    if asked is None:
        names = [name for name, host in log.hosts.items() if host.unreached or host.last and not is_address(name)] if log else []
    else:
        names = [request.host for request in asked]
    for name in dict.fromkeys(names):
        host = log.hosts.get(name) if log else None
        if log is None:
            yield UNKNOWN, name, "no log"
        elif host is None or host.last is None:
            yield GOOD, name, "connected: the log has no fault"
        elif host.is_away(window.now):
            ago = f" {time_text(window.now - host.when)} ago" if host.when else ""
            yield BAD, name, f"away: {host.last}{ago}"
        else:
            yield GOOD, name, "connected" + (f", no fault since {at(host.when, window)}" if host.when else "")


def feeds(window, samples):
    """Each feed as it was at the last sample that the node answered."""
    answered = [sample.time for sample in samples.figures if sample.admitted is not None]
    for feed, habit in samples.feeds.items():
        when = max(answered, default=window.now)
        last, usual = f"last product {at(habit.last / MICRO, window)}", habit.usual()
        if habit.is_late(when):
            yield BAD, feed_name(feed), f"late: {last}, usual gap {time_text(usual)}"
        else:
            yield (GOOD, feed_name(feed), last) if usual is not None else (UNKNOWN, feed_name(feed), f"{last}, no habit yet")


def losses(window, log):
    if log is None:
        yield UNKNOWN, "losses", "no log"
        return
    when = "in the log" if log.untimed else "in the last hour"
    if not log.losses:
        yield GOOD, "losses", f"none {when}"
    for what, count in log.losses.items():
        yield LOSS, "lost", f"{count_text(count)} {what} {when}"
    for line, (_, last) in log.journal.items():
        if line.startswith("journal"):
            yield BAD, line, at(last, window) if last else "in the log"


def shown(found):
    """The states of one kind, as items of a list."""
    order = [BAD, LOSS, UNKNOWN, GOOD]
    states = sorted(found, key=lambda state: (order.index(state[0]), state[1]))
    for kind, name, said in states[:MOST]:
        yield tag("li", tag("b", name), f" {said}", class_=kind)
    if len(states) > MOST:
        yield tag("li", f"{count_text(len(states) - MOST)} more", class_=states[MOST][0])


def line(window, samples, log, asked):
    kinds = (
        node(window, samples.figures), upstreams(window, log, asked), feeds(window, samples), losses(window, log)
    )  # fmt: skip
    return tag("ul", together(*(item for found in kinds for item in shown(found))), class_="states")

"""The parts of a page, most of them a plot with its table: totals of hours, ages, the queue, sessions and losses."""

import collections
import math
import statistics

from .drawing import (
    CROSS, LEFT, RIGHT, TOP, Plot, area, bytes_text, card, count_text, hour_text, marker, more, named, short_count,
    shortened, steps, table, tag, time_text, utc,
)  # fmt: skip
from .reading import BROKEN, DAY, DECLINED, ENDS, HOUR, MICRO, OTHERS, UNREACHED, WELL, Host, depths, longest_pause

# How many feeds or origins, and how many hosts, a plot tells apart; how many hosts a table does.
SERIES = 6
HOSTS_SHOWN = 8
HOSTS_LISTED = 40
# How many points a line has.
POINTS = 288

NO_LINES = "No line of a report is of these hours."
NO_LOG = "No log was given."


class Series:
    """The totals of feeds, or of origins, hour by hour: those with most products and bytes, and all others as one."""

    def __init__(self, window, totals, key_of, name_of):
        sums = collections.defaultdict(lambda: [0, 0])
        for key, (count, size, _) in totals.items():
            sums[key_of(key)][0] += count
            sums[key_of(key)][1] += size
        count, size = (max(1, sum(each[place] for each in sums.values())) for place in (0, 1))
        order = sorted(sums, key=lambda key: (-sums[key][0] / count - sums[key][1] / size, key))
        # a single one takes no more room than "others"
        shown = order if len(order) <= SERIES + 1 else order[:SERIES]
        self.names = [name_of(key) for key in shown]
        if len(shown) < len(order):
            self.names.append(f"{len(order) - len(shown):,} {OTHERS}")
        place = {key: at for at, key in enumerate(shown)}
        self.at = {hour: [(0, 0, 0)] * len(self.names) for hour in window.hours}
        for key, (count, size, latency) in totals.items():
            at = place.get(key_of(key), len(shown))
            before = self.at[key[0]][at]
            self.at[key[0]][at] = before[0] + count, before[1] + size, max(before[2], latency)

    def values(self, field):
        """For each hour the value of each series: its products, its bytes, or its greatest age."""
        return {hour: [each[field] for each in row] for hour, row in self.at.items()}


# Totals of hours


def gaps(window, values):
    """The hours of each series without a product, between hours of which most had one, up to the last whole hour."""
    for at in range(len(values[window.last])):
        had = [hour for hour in window.hours if values[hour][at]]
        if had and 2 * len(had) > window.last - had[0]:
            yield from ((at, hour) for hour in range(had[0], window.last + 1) if not values[hour][at])


def stacked(window, values, title, caption, words, names=None):
    """Bars of hours, in which the series stand on each other in the order of the table; with names, hours in which one is missing."""
    plot = Plot(title)
    marks = steps(max(map(sum, values.values())))
    high = plot.linear(marks[-1])
    plot.caption(caption)
    plot.heights(marks, high, words)
    width = (RIGHT - LEFT) / len(values)
    wide = min(width - min(2, width / 4), 48)
    for hour, row in values.items():
        x = plot.at(window, hour * HOUR) + (width - wide) / 2
        below = 0
        said = [tag("title", f"{hour_text(hour)}: {words(sum(row))}")]
        for at, value in enumerate(row):
            if value:
                top = high(below + value)
                said.append(area(at, x, top, wide, high(below) - top))
                below += value
        if below:
            plot.put("g", *said)
    missing = collections.Counter()
    for at, hour in gaps(window, values) if names else ():
        place = plot.at(window, (hour + 0.5) * HOUR), TOP + 4 + 9 * missing[hour]
        plot.put("g", tag("title", f"{names[at]}: none in {hour_text(hour)}"), marker(at, *place, CROSS), class_="gap")
        missing[hour] += 1
    plot.hours(window)
    return plot.done()


def totals_card(window, series, field, name, title, caption, words, kind):
    marked = kind == "feed"
    values = series.values(field)
    rows = []
    for at, each in enumerate(series.names):
        of_hours = [row[at] for row in values.values()]
        sums = (sum(of_hours), max(of_hours), values[window.last][at])
        rows.append([named(at, each, of_bars=True), *map(words, sums)])
    hours = [[hour_text(hour), *map(words, row)] for hour, row in reversed(values.items())]
    return card(
        name,
        title,
        "A cross: an hour in which a feed is missing that most hours have." if marked and any(gaps(window, values)) else None,
        stacked(window, values, title, caption, short_count if words is count_text else words, series.names if marked else None),
        table([kind, "all hours", "greatest hour", "last whole hour"], rows, f"{title}: the sums"),
        more("each hour", table(["hour, UTC", *series.names], hours, f"{title}: each hour")),
    )


def totals_cards(window, totals, series, kind):
    """Bytes and products, by feed or by origin."""
    for field, what, words in ((1, "Bytes", bytes_text), (0, "Products", count_text)):
        title = f"{what} an hour by {kind}"
        name = f"{what.lower()}-by-{kind}"
        if totals:
            yield totals_card(window, series, field, name, title, f"{what.lower()} an hour", words, kind)
        else:
            yield card(name, title, NO_LINES)


# Ages at reports

# Units of time in microseconds, and which lengths of each are marked; each round length with its name.
UNITS = ((1, "µs", 3), (10**3, "ms", 3), (10**6, "s", 2), (60 * 10**6, "min", 2), (3600 * 10**6, "h", 4))
ROUND = {
    length * unit: f"{length:,} {name}" for unit, name, count in UNITS for length in (1, 10, 100, 1000)[:count]
}


def age_marks(values):
    """The round lengths of time around these, at least two."""
    marks = sorted(ROUND)
    first = max((at for at, mark in enumerate(marks[:-1]) if mark <= min(values)), default=0)
    last = min((at for at, mark in enumerate(marks) if mark >= max(values)), default=len(marks) - 1)
    return marks[first : max(last, first + 1) + 1]


def age_plot(window, series, title, caption):
    """A line with marks for each series, on a logarithmic scale."""
    plot = Plot(title)
    had = [[(hour, row[at][2]) for hour, row in series.at.items() if row[at][0]] for at in range(len(series.names))]
    marks = age_marks([value for values in had for _, value in values])
    least, whole = marks[0], math.log(marks[-1] / marks[0])

    def high(value):
        part = math.log(max(value, least) / least) / whole
        return plot.linear(1)(min(part, 1))

    apart = math.ceil(len(window.hours) / 40)
    plot.caption(f"{caption}, logarithmic")
    plot.heights(marks[:: 1 if len(marks) < 8 else 2], high, ROUND.get)
    for at, values in reversed(list(enumerate(had))):
        places = [(plot.at(window, (hour + 0.5) * HOUR), high(value)) for hour, value in values]
        for before, after, a, b in zip(values, values[1:], places, places[1:]):
            if after[0] == before[0] + 1:
                plot.rule(a, b, f"s{at} line")
        came = {hour for hour, _ in values}
        for (hour, value), place in zip(values, places):
            # where hours are close, some have a mark, and those that stand alone
            if hour % apart == 0 or not came & {hour - 1, hour + 1}:
                said = tag("title", f"{series.names[at]}, {hour_text(hour)}: {time_text(value / 1e6)}")
                plot.put("g", said, marker(at, *place))
    plot.hours(window)
    return plot.done()


def age_card(window, totals, series):
    title = "Age at the report by feed"
    if not totals:
        return card("age", title, NO_LINES)

    def said(each):
        return time_text(each[2] / 1e6) if each[0] else "none came"

    rows = []
    for at, name in enumerate(series.names):
        greatest = max(row[at][2] for row in series.at.values())
        rows.append([named(at, name), time_text(greatest / 1e6), said(series.at[window.last][at])])
    hours = [[hour_text(hour), *map(said, row)] for hour, row in reversed(series.at.items())]
    return card(
        "age",
        title,
        "How old the products of the hour were at most when they were counted. Of a report over what is queued it is about their age "
        "at that report, and not the time that they took to come.",
        age_plot(window, series, title, "oldest of an hour"),
        table(["feed", "greatest", "last whole hour"], rows, f"{title}: the greatest"),
        more("each hour", table(["hour, UTC", *series.names], hours, f"{title}: each hour")),
    )


def latency_card(window, latencies):
    """How long products took that came while the node was asked."""
    title = "Latency by origin"
    found = collections.defaultdict(list)
    for origin, samples in latencies.items():
        for when, seconds in samples:
            if when // HOUR in window.hours:
                found[when // HOUR, 0, origin].append(seconds)
    if not found:
        return card("latency", title, "No sample of these hours has a product that came while the node was asked.")
    totals = {key: (len(values), 0, statistics.median(values) * MICRO) for key, values in found.items()}
    series = Series(window, totals, lambda key: key[2], lambda origin: shortened(origin, 60))
    rows = []
    for at, name in enumerate(series.names):
        last, greatest = series.at[window.hours[-1]][at], max(row[at][2] for row in series.at.values())
        rows.append([named(at, name), time_text(greatest / 1e6), time_text(last[2] / 1e6) if last[0] else "none came"])
    return card(
        "latency",
        title,
        "From a product's own arrival, which its origin set, until its notice came here, of products that came while the node was asked.",
        age_plot(window, series, title, "median of an hour"),
        table(["origin", "greatest", "this hour"], rows, f"{title}: the medians"),
    )


# The queue


def depth_text(depth):
    if depth.seconds is None:
        return "no answer"
    return ("at least " if depth.at_least else "") + time_text(depth.seconds)


def least_of(found):
    """The least of those that are known exactly, where there are some."""
    exact = [depth for depth in found if not depth.at_least]
    return min(exact or found, key=lambda depth: depth.seconds)


def thinned(window, found):
    """At most POINTS of them: of each stretch of time the least, or one without an answer."""
    kept = {}
    for depth in found:
        at = (depth.sample.time - window.start) * POINTS // (window.end - window.start)
        before = kept.setdefault(at, depth)
        if before.seconds is not None and (depth.seconds is None or depth.seconds < before.seconds):
            kept[at] = depth
    return list(kept.values())


def depth_marks(greatest):
    """The marks of the scale, with the seconds and the name of their unit."""
    for unit, name, sizes in ((1, "s", (1, 2, 3)), (60, "min", (1, 2, 3)), (HOUR, "h", (1, 2, 3, 6))):
        if greatest <= 120 * unit:
            break
    else:
        unit, name, sizes = DAY, "d", (1, 2, 5)
    return [mark * unit for mark in steps(greatest / unit, sizes)], unit, name


def depth_plot(window, title, found):
    plot = Plot(title)
    marks, unit, name = depth_marks(max(depth.seconds or 0 for depth in found))
    high = plot.linear(marks[-1])
    plot.caption("age of the oldest product in the queue")
    plot.heights(marks, high, lambda mark: f"{mark // unit} {name}")
    points = thinned(window, found)
    # samples that are farther apart are not joined
    pause = longest_pause([depth.sample.time for depth in points])
    for before, after in zip(points, points[1:]):
        if None not in (before.seconds, after.seconds) and after.sample.time - before.sample.time <= pause:
            a, b = ((plot.at(window, each.sample.time), high(each.seconds)) for each in (before, after))
            plot.rule(a, b, "s0 line dashed" if before.at_least or after.at_least else "s0 line")
    for each in points:
        x = plot.at(window, each.sample.time)
        if each.seconds is None:
            plot.parts.append(marker(1, x, plot.foot - 6, CROSS))
        elif each is points[-1]:
            plot.parts.append(marker(0, x, high(each.seconds)))
    plot.hours(window)
    return plot.done()


def depth_hours(window, found):
    """For each hour, newest first: the least depth, what was admitted, the last figures, and missing answers."""
    of_hour = collections.defaultdict(list)
    admitted = collections.Counter()
    before = None
    for depth in found:
        hour, sample = depth.sample.time // HOUR, depth.sample
        of_hour[hour].append(depth)
        if sample.admitted is not None:
            if before is not None:
                # a node that began anew counts from 0
                admitted[hour] += sample.admitted - (before if before <= sample.admitted else 0)
            before = sample.admitted
    for hour in reversed(window.hours):
        known = [depth for depth in of_hour[hour] if depth.seconds is not None]
        figures = ["", "", "", ""]
        if known:
            last = known[-1].sample
            figures = [*map(count_text, (admitted[hour], last.queued, last.held)), bytes_text(last.used)]
        if of_hour[hour]:
            silent = count_text(len(of_hour[hour]) - len(known))
            yield [hour_text(hour), depth_text(least_of(known)) if known else "no answer", *figures, silent]


def depth_card(window, figures):
    title = "How far back the queue goes"
    found = [depth for depth in depths(figures) if depth.sample.time >= window.start]
    if not found:
        return card("queue", title, "No sample is of these hours.")
    known = [depth for depth in found if depth.seconds is not None]
    note = "A subscriber that is away for longer loses products."
    if any(depth.at_least for depth in known):
        note += " Dashed: at least so far, as the oldest product is older than the samples."
    rows = []
    if known:
        last = known[-1].sample
        rows += [
            ["oldest product", depth_text(known[-1])],
            ["least in these hours", depth_text(least_of(known))],
            ["products in the queue", count_text(last.queued)],
            ["held regions", count_text(last.held)],
            ["bytes in use", bytes_text(last.used)],
            ["longest gap", bytes_text(last.largest)],
            ["admitted since the node began", count_text(last.admitted)],
        ]
    rows.append([named(1, "samples without an answer", CROSS), f"{len(found) - len(known):,} of {len(found):,}"])
    heads = ["hour, UTC", "least", "admitted", "queued", "held", "in use", "no answer"]
    return card(
        "queue",
        title,
        note,
        depth_plot(window, title, found),
        table(["at the last answer", ""], rows, f"{title}: the last figures"),
        more("each hour", table(heads, list(depth_hours(window, found)), f"{title}: each hour")),
    )


# Hosts

# What is told of sessions.
KINDS = [WELL, BROKEN, DECLINED, UNREACHED]


def last_text(host):
    """How the last session of a host ended, and when."""
    return (host.last or "") + (utc(host.when, " %H:%M") if host.when else "")


def ranked(hosts, size_of, most):
    """The hosts with most of something, without those with none, and the others as one."""
    order = [name for name in hosts if size_of(hosts[name])]
    order.sort(key=lambda name: (name == OTHERS, -size_of(hosts[name]), name))
    rows = [(name, hosts[name]) for name in order[:most]]
    if len(order) > most:
        others = Host()
        for name in order[most:]:
            others.add(hosts[name])
        rows.append((f"{len(order) - most:,} {OTHERS}", others))
    return rows


# Where a host's line begins.
EDGE = 14


def sessions_card(log, when):
    title = "Sessions by host"
    if log is None:
        return card("sessions", title, NO_LOG)

    def size(host):
        return sum(host.counts().values())

    listed = ranked(log.hosts, size, HOSTS_LISTED)
    if not listed:
        return card("sessions", title, f"The log has no session {when}.")
    rows = [[name, *(count_text(host.counts()[kind]) for kind in KINDS)] for name, host in listed]
    ends = [end for kind in ENDS for end in ENDS[kind] if any(host.ends[end] for host in log.hosts.values())]
    each = [[name, *(count_text(host.ends[end]) for end in ends), last_text(host)] for name, host in listed]
    return card(
        "sessions",
        title,
        f"What the log has {when}. A session that goes on has no line yet.",
        table(["host", *KINDS], rows, f"{title}: how they ended"),
        more("each end, and the last line", table(["host", *ends, "last"], each, f"{title}: each end")),
    )


def losses_plot(title, rows):
    """A bar for each host."""
    band = 40
    plot = Plot(title, TOP + band * len(rows) + 30)
    plot.foot = TOP + band * len(rows)
    marks = steps(max(host.lost for _, host in rows))

    def right(value):
        return EDGE + (RIGHT - 60 - EDGE) * value / marks[-1]

    plot.caption("products")
    for mark in marks:
        plot.rule((right(mark), TOP), (right(mark), plot.foot))
        plot.text(right(mark), plot.foot + 16, short_count(mark), "start" if mark == 0 else "middle")
    for row, (name, host) in enumerate(rows):
        y = TOP + band * row
        plot.text(EDGE + 4, y + 14, shortened(name, 48))
        bar = tag("rect", x=EDGE, y=y + 19, width=max(1.0, right(host.lost) - EDGE), height=14, class_="lost")
        plot.put("g", tag("title", f"{name}: {count_text(host.lost)} products"), bar)
        plot.text(right(host.lost) + 6, y + 31, short_count(host.lost))
    plot.rule((EDGE, TOP), (EDGE, plot.foot), "axis")
    return plot.done()


def losses_card(log, when):
    title = "Lost products by host"
    if log is None:
        return card("losses", title, NO_LOG)

    def lost(host):
        return host.lost

    parts = []
    listed = ranked(log.hosts, lost, HOSTS_LISTED)
    if listed:
        note = f"Evicted before the host was sent them: what the log has {when}."
        rows = [[name, count_text(host.lost), count_text(host.gaps)] for name, host in listed]
        parts.append(losses_plot(title, ranked(log.hosts, lost, HOSTS_SHOWN)))
        parts.append(table(["host", "products", "lines"], rows, f"{title}: the sums"))
    else:
        note = f"The log has no lost product {when}."
    if log.journal:
        rows = [[line, count_text(count), utc(when) if when else ""] for line, (count, when) in sorted(log.journal.items())]
        parts.append(table(["the node's journal", "lines", "last"], rows, "What the log says of the node's journal"))
    if log.not_taken:
        rows = [[words, count_text(count)] for words, count in sorted(log.not_taken.items())]
        shown = table(["what the log says", "lines"], rows, "Products that were not taken or not acted on")
        parts.append(more("products that were not taken or not acted on", shown))
    return card("losses", title, note, *parts)

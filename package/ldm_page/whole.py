"""The page: its parts, what is above them, and what was read below."""

import pathlib

from ldm_beside.feeds import feed_name

from . import states
from .cards import Series, age_card, depth_card, depth_text, latency_card, losses_card, sessions_card, totals_cards
from .drawing import Markup, bytes_text, count_text, shortened, tag, together, utc
from .reading import BROKEN, HOUR, LOG, depths

THIS_MACHINE = ("127.0.0.1", "::1")

# What a browser may do with the page: show it.
POLICY = "default-src 'none'; style-src 'unsafe-inline'"

# What the areas of every second series are covered with.
HATCH = Markup(
    '<svg width="0" height="0" aria-hidden="true" style="position:absolute"><defs><pattern id="hatch" width="5" '
    'height="5" patternUnits="userSpaceOnUse" patternTransform="rotate(45)">'
    '<line class="hatch" x1="2.5" y1="0" x2="2.5" y2="5"/></pattern></defs></svg>'
)


class Found:
    """What was read: the totals of reports, samples, what logs come to, the files themselves, and the REQUEST lines of a configuration."""

    def __init__(self, totals, samples, log, readings, asked):
        self.totals = totals
        self.samples = samples
        self.log = log
        self.readings = readings
        self.asked = asked

    def has_log(self):
        return any(reading.kind == LOG for reading in self.readings)

    def when(self):
        """Of what time the log tells."""
        if not self.log.untimed:
            return "in these hours"
        if self.log.untimed == sum(reading.taken for reading in self.readings if reading.kind == LOG):
            return "in all its lines, which have no time"
        return "in these hours, and in lines without a time"


def key_figures(window, found):
    """The figures that are looked at first: a name, a text, and what stands below it."""
    if found.totals:
        of_last = [figures for key, figures in found.totals.items() if key[0] == window.last]
        count, size = sum(figures[0] for figures in of_last), sum(figures[1] for figures in of_last)
        products = f"{count_text(count)} products from {utc(window.last * HOUR, '%H:%M')} on"
        yield "the last whole hour", bytes_text(size), products
    for depth in list(depths(found.samples.figures))[-1:]:
        at = utc(depth.sample.time)
        if depth.seconds is None:
            yield "the node", "no answer", at
        else:
            yield "the queue goes back", depth_text(depth), at
            yield "in the queue", count_text(depth.sample.queued), f"products, {bytes_text(depth.sample.used)}"
    if found.has_log():
        yield "lost", count_text(sum(host.lost for host in found.log.hosts.values())), "products"
        # a tool of this machine that has what it wants breaks off, and so does each report
        others = [host for name, host in found.log.hosts.items() if name not in THIS_MACHINE]
        broken = sum(host.counts()[BROKEN] for host in others)
        sessions = sum(sum(host.ends.values()) for host in others)
        yield "sessions that broke off", count_text(broken), f"of {count_text(sessions)} with other machines"


def cards(window, found):
    """The parts of the page."""
    by_feed = Series(window, found.totals, lambda key: key[1], feed_name)
    by_origin = Series(window, found.totals, lambda key: key[2], lambda origin: shortened(origin, 60))
    yield from totals_cards(window, found.totals, by_feed, "feed")
    yield from totals_cards(window, found.totals, by_origin, "origin")
    yield age_card(window, found.totals, by_feed)
    yield latency_card(window, found.samples.latencies)
    yield depth_card(window, found.samples.figures)
    log = found.log if found.has_log() else None
    yield sessions_card(log, found.when())
    yield losses_card(log, found.when())


def foot(readings):
    """What was read of each file, and what was not taken."""
    items = []
    for reading in readings:
        said = [f"{count_text(reading.taken)} {reading.kind}"]
        if reading.outside:
            said.append(f"{count_text(reading.outside)} of other hours")
        if reading.too_many:
            said.append(f"{count_text(reading.too_many)} left out, as there are too many")
        if reading.unknown:
            said.append(f"{count_text(reading.unknown)} lines that are none")
        name = "standard input" if reading.path == "-" else reading.path
        shown = [tag("li", f"line {count_text(number)}: ", tag("code", text)) for number, text in reading.examples]
        items.append(tag("li", f"{name}: {', '.join(said)}", tag("ul", *shown) if shown else ""))
    return tag("footer", "Read: ", tag("ul", *items), "Hours are in UTC. Made by ldm-page.")


def page(window, name, found, links, seconds):
    """The page, as a text: with links to other pages, each a name and an address; it reloads itself after so many seconds, or never."""
    hours = len(window.hours)
    title = f"{name}: {f'{hours} hours' if hours > 1 else 'an hour'} of a relay"
    style = pathlib.Path(__file__).with_name("page.css").read_text()
    head = tag(
        "head",
        tag("meta", charset="utf-8"),
        tag("meta", http_equiv="Content-Security-Policy", content=POLICY),
        tag("meta", http_equiv="refresh", content=seconds) if seconds else "",
        tag("meta", name="viewport", content="width=device-width, initial-scale=1"),
        tag("title", title),
        tag("style", Markup(style)),
    )
    figures = [
        tag("div", tag("dt", what), tag("dd", said, " ", tag("small", below)))
        for what, said, below in key_figures(window, found)
    ]
    body = tag(
        "body",
        HATCH,
        states.line(window, found.samples, found.log if found.has_log() else None, found.asked),
        tag("h1", title),
        tag("nav", together(*(tag("a", other, href=address) for other, address in links))) if links else "",
        tag("p", f"{utc(window.start)} to {utc(window.now)}, UTC", class_="note"),
        tag("dl", *figures) if figures else "",
        tag("main", together("\n".join(cards(window, found)))),
        foot(found.readings),
    )
    return "<!DOCTYPE html>\n" + tag("html", head, "\n", body, lang="en") + "\n"

"""The state of a node in the text format of Prometheus."""

import re

from ldm_beside.feeds import feed_name
from ldm_beside.habit import MICRO
from ldm_page.reading import EVICTED, LINES, REFUSED, UNKEPT, UNWANTED

LOSSES = {EVICTED: "evicted", REFUSED: "refused", UNWANTED: "unwanted", UNKEPT: "unkept", LINES: "log_lines"}
# A log has as many hosts as strangers like, and a queue as many feeds as who may push likes.
MOST_HOSTS = 1000
MOST_FEEDS = 100


def families(told):
    """Each metric with its help, and its values with their labels. What is not told has no value."""
    queue = told.figures
    yield "ldm_up", "Whether the node answered.", [({}, int(queue is not None))]
    yield "ldm_start_time_seconds", "When the node began, since 1970.", [({}, told.began)] if told.began else []
    if queue is not None:
        yield "ldm_products_admitted_total", "Products admitted since the node began.", [({}, queue.admitted)]
        yield "ldm_queue_products", "Products in the queue.", [({}, queue.queued)]
        yield "ldm_queue_used_bytes", "Bytes of the arena that products take.", [({}, queue.used)]
        yield "ldm_queue_largest_gap_bytes", "Bytes of the longest gap of the arena.", [({}, queue.largest)]
        yield "ldm_queue_held_regions", "Regions that are read or filled.", [({}, queue.held)]
    oldest = [({}, told.oldest / MICRO)] if told.oldest is not None else []
    yield "ldm_queue_oldest_arrival_timestamp_seconds", "Arrival of the oldest product in the queue.", oldest
    feeds = [({"feed": feed_name(feed)}, habit) for feed, habit in sorted(told.feeds.items())[:MOST_FEEDS]]
    yield from habits("ldm_feed", "of the feed", feeds, told.now)
    asked = {each.request.text(): ({"request": each.request.text()}, each) for each in told.asked}.values()
    yield from habits("ldm_request", "of the REQUEST line", [(labels, each.habit) for labels, each in asked if each.habit.last], told.now)
    connected = [(labels, int(each.connected)) for labels, each in asked if each.connected is not None]
    yield "ldm_request_connected", "Whether the host of the REQUEST line feeds.", connected
    links = [({"host": host}, count) for host, count in (told.links or {}).items()]
    yield "ldm_links", "Connections to the port of the node.", links
    if told.log:
        yield "ldm_lost_last_hour", "Products, or lines of the log, lost in the last hour.", [
            ({"how": word}, told.log.losses[what]) for what, word in LOSSES.items()
        ]
        faults = list(told.journal_faults())
        yield "ldm_journal_faulty", "Whether the log tells of a fault of the journal since the node began.", [({}, int(bool(faults)))]
        hosts = list(told.log.hosts.items())[:MOST_HOSTS]
        lost = [({"host": name}, host.lost) for name, host in hosts]
        yield "ldm_host_lost_last_day", "Products evicted before the host was sent them.", lost
        ends = [({"host": name}, host.when) for name, host in hosts if host.when]
        yield "ldm_host_last_line_timestamp_seconds", "When a session of the host ended last, or a try failed.", ends


def habits(name, whose, rows, now):
    yield f"{name}_queued_products", f"Products {whose} in the queue.", [(labels, habit.count) for labels, habit in rows]
    yield f"{name}_last_arrival_timestamp_seconds", f"Arrival of the last product {whose}.", [
        (labels, habit.last / MICRO) for labels, habit in rows
    ]
    yield f"{name}_late", f"Whether the last product {whose} is older than is usual.", [
        (labels, int(habit.is_late(now))) for labels, habit in rows
    ]


def text(told):
    lines = []
    for name, help_text, values in families(told):
        if not values:
            continue
        lines.append(f"# HELP {name} {help_text}")
        lines.append(f"# TYPE {name} {'counter' if name.endswith('_total') else 'gauge'}")
        for labels, value in values:
            said = ",".join(f'{key}="{escaped(word)}"' for key, word in {"node": told.node, **labels}.items())
            lines.append(f"{name}{{{said}}} {value if isinstance(value, int) else f'{value:.6f}'}")
    return "\n".join(lines) + "\n"


def escaped(word):
    """A value of a label: what no text has, is a question mark."""
    return re.sub(r'[\\"]', r"\\\g<0>", re.sub(r"[^\x20-\x7e]", "?", word))

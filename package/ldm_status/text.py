"""The state of a node as a person reads it."""

from ldm_beside.feeds import feed_name
from ldm_page.drawing import bytes_text, count_text, utc

from .gathering import age_text

# What the answer of pqmon that did not come means.
REASONS = {
    "ldm: net fault": "nobody listens there, or the link failed",
    "ldm: denied": "no ALLOW line of it lets this host ask",
}
BUSY = "it does not answer: all its workers are busy, or it hangs"
MOST_HOSTS = 30
MOST_FEEDS = 40


def faults(told):
    """What is wrong, gravest first: each a word and a sentence."""
    if told.figures is None:
        yield "DOWN", REASONS.get(told.reason, BUSY if "no answer" in told.reason else told.reason.removeprefix("ldm: "))
        return
    late = [asked for asked in told.asked if asked.habit.is_late(told.now)]
    covered = 0
    for asked in late:
        yield "BEHIND", f"{asked.request.text()}: {gap_text(asked.habit, told.now)}"
        covered |= asked.request.bits
    for feed, habit in sorted(told.feeds.items())[:MOST_FEEDS]:
        if habit.is_late(told.now) and not feed & covered:
            yield "BEHIND", f"{feed_name(feed)}: {gap_text(habit, told.now)}"
    for asked in told.asked:
        if asked.connected is False:
            yield "AWAY", f"the upstream {asked.request.host}:{asked.request.port} is away: {asked.why}"
    if told.reason:
        yield "SILENT", f"its products are not known: {told.reason.removeprefix('ldm: ')}"
    if told.log:
        for what, count in told.log.losses.items():
            yield "LOSING", f"{count_text(count)} {what} {when(told.log)}"
        for line, last in told.journal_faults():
            yield "JOURNAL", f"{line}: the file does not keep the queue" + (f" since {age_text(told.now - last)}" if last else "")


def gap_text(habit, now):
    return f"no product for {age_text(habit.age(now))}, where {age_text(habit.usual())} is usual"


def when(log):
    return "in the log, whose lines have no time" if log.untimed else "in the last hour"


def status(told):
    """The text, and whether all is well."""
    found = list(faults(told))
    lines = [f"{told.node}: {found[0][0] if found else 'OK'}"]
    lines += [f"  {said}" for _, said in found]
    if told.figures is not None:
        lines += ["", *figures(told)]
        parts = (
            (["request", "last product", "usual gap", "upstream"], requests(told)),
            (["feed", "last product", "usual gap", "queued"], feeds(told)),
            (["host", "sessions", "not reached", "lost", "last"], hosts(told)),
        )
        for head, rows in parts:
            rows = list(rows)
            lines += ["", *columns([head, *rows])] if rows else []
    lines += ["", *log_lines(told)]
    return "\n".join(lines) + "\n", not found


def columns(rows):
    """Rows with each column as wide as its widest cell."""
    wide = [max(len(row[at]) for row in rows) for at in range(len(rows[0]))]
    for row in rows:
        yield "  ".join(cell.ljust(width) for cell, width in zip(row, wide)).rstrip()


def figures(told):
    queue = told.figures
    began = f"{utc(told.began, '%Y-%m-%d %H:%M:%S')} UTC, {age_text(told.now - told.began)}" if told.began else "not told"
    yield f"up since  {began}"
    yield f"admitted  {count_text(queue.admitted)} products since then"
    yield f"queue     {count_text(queue.queued)} products in {bytes_text(queue.used)}, {count_text(queue.held)} regions held"
    if told.oldest is not None:
        yield f"oldest    {age_text(told.now - told.oldest / 1e6)} old, by its arrival"
        yield f"newest    {age_text(told.all.age(told.now))} old"
    if told.links is not None:
        by_peer = ", ".join(f"{peer} ({count})" for peer, count in told.links.most_common(MOST_HOSTS))
        yield f"peers     {by_peer or 'none'} connected"


def last_text(habit, now):
    if habit.last is None:
        return "none queued"
    return age_text(habit.age(now)) + (" LATE" if habit.is_late(now) else "")


def usual_text(habit):
    usual = habit.usual()
    return "not known" if usual is None else age_text(usual) if usual >= 1 else "below 1 s"


def requests(told):
    for asked in told.asked:
        state = "AWAY, " if asked.connected is False else ""
        yield [asked.request.text(), last_text(asked.habit, told.now), usual_text(asked.habit), state + asked.why]


def feeds(told):
    for feed, habit in sorted(told.feeds.items())[:MOST_FEEDS]:
        yield [feed_name(feed), last_text(habit, told.now), usual_text(habit), count_text(habit.count)]
    if len(told.feeds) > MOST_FEEDS:
        yield [f"{count_text(len(told.feeds) - MOST_FEEDS)} others", "", "", ""]


def hosts(told):
    """What the log has of each host, and who is connected now. The log does not tell which feeds a subscriber asked for."""
    links = told.links or {}
    log = told.log.hosts if told.log else {}
    names = sorted({*links, *log}, key=lambda name: (-links.get(name, 0), -(log[name].when or 0) if name in log else 0, name))
    for name in names[:MOST_HOSTS]:
        host = log.get(name)
        last = "connected" if name in links else ""
        if host and host.last:
            last += (", " if last else "") + host.last + (f" {age_text(told.now - host.when)} ago" if host.when else "")
        sessions = sum(host.ends.values()) if host else 0
        yield [name, *map(count_text, (sessions, host.unreached if host else 0, host.lost if host else 0)), last]
    if len(names) > MOST_HOSTS:
        yield [f"{count_text(len(names) - MOST_HOSTS)} others", "", "", "", ""]


def log_lines(told):
    if told.log is None:
        yield "log       none that this user may read; -l names a file, -u a unit"
        return
    lost = ", ".join(f"{count_text(count)} {what}" for what, count in told.log.losses.items())
    yield f"lost      {lost or 'nothing'} {when(told.log)}"
    for line, (count, last) in sorted(told.log.journal.items()):
        yield f"journal   {line}, {count_text(count)} lines" + (f", last {age_text(told.now - last)} ago" if last else "")
    if not told.log.journal:
        yield "journal   no fault in the log"

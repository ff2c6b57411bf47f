"""Words, elements and plots of a page. Every text goes through `tag`, which escapes it."""

import datetime
import html
import math

from .reading import DAY, HOUR

# The unit of a length of time, its seconds, and where the next one begins.
UNITS_OF_TIME = (("µs", 1e-6, 1e-3), ("ms", 1e-3, 0.9995), ("s", 1, 119.5), ("min", 60, 7170), ("h", HOUR, 2 * DAY))


def rounded(number):
    """A number to three digits, without zeros behind its point."""
    text = f"{number:.{0 if number >= 100 else 1 if number >= 10 else 2}f}"
    return text.rstrip("0").rstrip(".") if "." in text else text


def scaled(number, units):
    for unit in units[:-1]:
        if number < 999.5:
            return f"{rounded(number)} {unit}".strip()
        number /= 1000
    return f"{rounded(number)} {units[-1]}"


def bytes_text(number):
    return scaled(number, ["B", "KB", "MB", "GB", "TB", "PB", "EB"])


def count_text(number):
    return f"{int(number):,}"


def short_count(number):
    return count_text(number) if number < 100_000 else scaled(number, ["", "k", "M", "G", "T", "P", "E"])


def time_text(seconds):
    """A length of time, in the unit that suits it."""
    if seconds == 0:
        return "0"
    for unit, length, below in UNITS_OF_TIME:
        if seconds < below:
            return f"{rounded(seconds / length)} {unit}"
    return f"{rounded(seconds / DAY)} d"


def utc(seconds, form="%Y-%m-%d %H:%M"):
    return datetime.datetime.fromtimestamp(seconds, datetime.timezone.utc).strftime(form)


def hour_text(hour):
    return utc(hour * HOUR)


def shortened(text, most):
    return text if len(text) <= most else text[: most - 2] + ".."


def steps(greatest, sizes=(1, 2, 5), count=4):
    """Round numbers from 0 to the greatest or above, equally far apart, with at most so many steps; whole ones."""
    greatest = max(greatest, 1)
    power = 10 ** max(0, math.floor(math.log10(greatest / count)))
    size = next(size * power for size in (*sizes, 10, 20, 50) if size * power * count >= greatest)
    return [size * place for place in range(-int(-greatest // size) + 1)]


# Elements


class Markup(str):
    """Text that is written as it is."""


EMPTY = ("meta", "rect", "line", "path")


def tag(name, /, *content, **attributes):
    """An element. Texts in it and in its attributes are escaped; what is Markup is not."""

    def said(value):
        return html.escape(f"{value:.5g}" if isinstance(value, float) else str(value))

    named = ((key.rstrip("_").replace("_", "-"), value) for key, value in attributes.items() if value is not None)
    front = name + "".join(f' {key}="{said(value)}"' for key, value in named)
    if name in EMPTY:
        return Markup(f"<{front}>" if name == "meta" else f"<{front}/>")
    inside = "".join(part if isinstance(part, Markup) else html.escape(str(part)) for part in content)
    return Markup(f"<{front}>{inside}</{name}>")


def together(*parts):
    return Markup("".join(parts))


# A circle, a square, a triangle, a diamond, a triangle upside down, a plus and a cross.
SHAPES = [
    "M-4 0a4 4 0 1 0 8 0a4 4 0 1 0 -8 0z",
    "M-3.6-3.6h7.2v7.2h-7.2z",
    "M0-4.6L4.4 3.4H-4.4z",
    "M0-5L5 0L0 5L-5 0z",
    "M0 4.6L4.4-3.4H-4.4z",
    "M-4.4-1.4h3v-3h2.8v3h3v2.8h-3v3h-2.8v-3h-3z",
    "M-4-2.4L-2.4-4L0-1.6L2.4-4L4-2.4L1.6 0L4 2.4L2.4 4L0 1.6L-2.4 4L-4 2.4L-1.6 0z",
]
CROSS = 6


def marker(series, x, y, shape=None):
    """The sign of a series at a place of a plot: its own shape, where no other is named."""
    place = f"translate({x:.1f} {y:.1f})"
    return tag("path", d=SHAPES[series if shape is None else shape], class_=f"f{series} edge", transform=place)


def area(series, x, y, width, height):
    """A bar of a series. Every second one is hatched, for print and for who does not tell the colours apart."""
    apart = " apart" if width > 6 else ""
    bar = tag("rect", x=x, y=y, width=width, height=height, class_=f"f{series}{apart}")
    if series % 2:
        bar = together(bar, tag("rect", x=x, y=y, width=width, height=height, fill="url(#hatch)"))
    return bar


def named(series, words, shape=None, of_bars=False):
    """The name of a series, behind its sign."""
    sign = area(series, 1, 1, 10, 10) if of_bars else marker(series, 6, 6, shape)
    return together(tag("svg", sign, viewBox="0 0 12 12", class_="swatch", aria_hidden="true"), tag("span", words))


WIDTH = 440
LEFT = 58
RIGHT = 428
TOP = 26


class Plot:
    """A plot that is being drawn: WIDTH wide, with its axes from LEFT to RIGHT and from TOP to `foot`."""

    def __init__(self, title, height=210):
        self.title = title
        self.height = height
        self.foot = height - 36
        self.parts = []

    def put(self, name, *content, **attributes):
        self.parts.append(tag(name, *content, **attributes))

    def text(self, x, y, words, anchor="start", **more):
        self.put("text", words, x=x, y=y, text_anchor=anchor, **more)

    def rule(self, a, b, class_="grid"):
        """A line from one place to another."""
        self.put("line", x1=a[0], y1=a[1], x2=b[0], y2=b[1], class_=class_)

    def caption(self, words):
        self.text(4, 13, words, class_="caption")

    def heights(self, marks, place, words):
        """The scale of heights: a line and a word for each mark."""
        for mark in marks:
            y = place(mark)
            self.rule((LEFT, y), (RIGHT, y))
            self.text(LEFT - 6, y + 4, words(mark), "end")
        self.rule((LEFT, self.foot), (RIGHT, self.foot), "axis")

    def hours(self, window):
        """The scale of hours, with the day in place of midnight."""
        step = next((step for step in (1, 3, 6, 12) if len(window.hours) <= 6 * step), 24)
        for hour in window.hours:
            if hour % step == 0:
                x = self.at(window, hour * HOUR)
                self.rule((x, self.foot), (x, self.foot + 5), "axis")
                if LEFT + 12 < x < RIGHT - 12:
                    day = utc(hour * HOUR, "%d %b").lstrip("0")
                    self.text(x, self.foot + 18, utc(hour * HOUR, "%H:%M") if hour % 24 else day, "middle")
        self.text(RIGHT, self.height - 3, "hour, UTC", "end", class_="caption")

    def at(self, window, seconds):
        """Where a second is, from left to right."""
        return LEFT + (RIGHT - LEFT) * (seconds - window.start) / (window.end - window.start)

    def linear(self, greatest):
        """The scale from 0 at the foot to the greatest at the top."""
        return lambda value: self.foot - (self.foot - TOP) * value / greatest

    def done(self):
        head = tag("title", self.title)
        box = f"0 0 {WIDTH} {self.height}"
        return tag("svg", head, *self.parts, viewBox=box, role="img", aria_label=self.title, class_="plot")


def table(heads, rows, label):
    """A table in a frame that can be moved where it is too wide. First cells name the rows, the others are numbers."""

    def row(cells, name, scope):
        first = tag("th", cells[0], scope=scope)
        return tag("tr", first, *(tag(name, cell, scope="col" if name == "th" else None) for cell in cells[1:]))

    body = Markup("\n".join(row(cells, "td", "row") for cells in rows))
    shown = tag("table", tag("thead", row(heads, "th", "col")), Markup("\n"), tag("tbody", body))
    return tag("div", shown, class_="frame", tabindex="0", role="region", aria_label=label)


def more(summary, content):
    """What is shown where the reader asks for it."""
    return tag("details", tag("summary", summary), content)


def card(name, title, note, *content):
    """A section of the page."""
    return tag("section", tag("h2", title), tag("p", note, class_="note") if note else "", *content, id=name)

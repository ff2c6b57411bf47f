"""The REQUEST lines of an ldmd.conf, also of those that it includes."""

import contextlib
import typing

from ldm_from_ldm6 import words
from ldm_from_ldm6.notes import LeftOut

from . import feeds

BLANKS = " \\t"
PORT = 388
MOST_FILES, DEEPEST = 1024, 8


class Request(typing.NamedTuple):
    feed: str
    pattern: str
    host: str
    port: int
    bits: int

    def text(self):
        return " ".join((self.feed, self.pattern, f"{self.host}:{self.port}"))

    def takes_all(self):
        """Whether its pattern is found in each ident."""
        return self.pattern in ("", ".*", "^", "^.*")


def read(path):
    """The REQUEST lines of a file and of those that it includes, whose paths go from this folder. What means nothing, or is included and
    cannot be read, is passed over: `ldm check` tells that. Raises OSError."""
    return list(_read(_lines(path), 0, [path]))


def _lines(path):
    with open(path, encoding="utf-8", errors="replace") as file:
        return file.read().split("\n")


def _read(lines, depth, files):
    for line in lines:
        try:
            found = [word.text for word in words.split(line.rstrip("\r"), BLANKS, True)[0]]
        except LeftOut:
            continue
        name = found[0].upper() if found else ""
        if name == "INCLUDE" and len(found) == 2 and depth < DEEPEST and len(files) < MOST_FILES:
            files.append(found[1])
            with contextlib.suppress(OSError):
                yield from _read(_lines(found[1]), depth + 1, files)
        elif name == "REQUEST" and len(found) >= 4:
            request = _request(found)
            if request:
                yield request


def _request(found):
    host, colon, port = found[3].rpartition(":")
    if not colon:
        host, port = found[3], str(PORT)
    try:
        return Request(found[1], found[2], host, int(port), feeds.value_of(found[1]))
    except ValueError:
        return None

"""What is said of the lines that are taken over, and what was written."""

import collections

# What a comment of this program begins with.
MARK = "# ldm-from-ldm6"


class LeftOut(Exception):
    """Why a line cannot be written here."""


class Notes:
    """What is written, and how many lines were kept, changed and left out. A text is the bytes of a file in latin-1."""

    def __init__(self):
        self.written = []
        self.counts = collections.Counter()

    def keep(self, lines, looks=()):
        """Lines that mean here what they do there; and what the reader has to look at."""
        self.look(looks)
        self.written += lines
        self.counts["kept"] += len(lines)

    def change(self, lines, reasons, looks=(), count=None):
        """Lines that stand for COUNT lines of the file."""
        self.written += [f"{MARK} changed: {reason}" for reason in dict.fromkeys(reasons)]
        self.look(looks)
        self.written += lines
        self.counts["changed"] += len(lines) if count is None else count

    def leave_out(self, lines, reason, *stand_in):
        """Lines that become comments, and what may stand for them."""
        self.written.append(f"{MARK} left out: {reason}")
        # a comment within an entry, and a blank line, stay as they are
        self.written += [line if line.startswith("#") or not line.strip(" \t") else f"#{line}" for line in lines]
        self.written += stand_in
        self.counts["left out"] += len(lines)

    def look(self, looks):
        self.written += [f"{MARK} look: {look}" for look in dict.fromkeys(looks)]
        self.counts["to look at"] += bool(looks)

    def head(self, reason):
        """What holds of the whole file."""
        self.written.insert(0, f"{MARK} changed: {reason}")

    def text(self):
        return "".join(f"{line}\n" for line in self.written)

    def summary(self):
        parts = [f"{self.counts[what]} {what}" for what in ("kept", "changed", "left out")]
        more = self.counts["to look at"]
        return f"lines: {', '.join(parts)}" + (f"; {more} to look at" if more else "")

    def is_whole(self):
        """Whether all was taken over, and nobody has to look at it."""
        return not (self.counts["left out"] or self.counts["to look at"])


def replaced(text, edits):
    """The text with other pieces: each edit has where a piece begins, where it ends, and what comes there."""
    for begin, end, piece in sorted(edits, reverse=True):
        text = text[:begin] + piece + text[end:]
    return text

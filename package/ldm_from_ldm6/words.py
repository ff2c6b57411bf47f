"""The words of a line, as both configuration files have them."""

import re
import typing

from .notes import LeftOut


class Word(typing.NamedTuple):
    """A word: where it stands in its text, what it says, and whether quotes are around it."""

    begin: int
    end: int
    text: str
    quoted: bool

    def having(self, text):
        """An edit that puts another text in its place."""
        if '"' in text and (self.quoted or text.startswith('"')):
            raise LeftOut(f"there is no quote within quotes here: {text}")
        return self.begin, self.end, f'"{text}"' if self.quoted else text


def split(text, blanks, comments):
    """The words of a text, between those blanks, and where a comment begins, where a # may begin one."""
    words, at = [], 0
    word = re.compile(rf'"((?:[^"\\]|\\.)*)"|[^{blanks}]+', re.DOTALL)
    blank = re.compile(f"[{blanks}]*")
    while (at := blank.match(text, at).end()) < len(text):
        if comments and text[at] == "#":
            return words, at
        found = word.match(text, at)
        quoted = text[at] == '"'
        if quoted and found[1] is None:
            raise LeftOut("a quote is left open")
        if quoted and not re.match(f"[{blanks}]|$", text[found.end():]):
            raise LeftOut("a quoted word is followed by something else than a blank")
        words.append(Word(at, found.end(), found[1] if quoted else found[0], quoted))
        at = found.end()
    return words, len(text)

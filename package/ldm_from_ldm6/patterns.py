"""Patterns: POSIX extended ones, as LDM 6 has them by the C library, become those of the crate regex."""

import re
import typing

from .notes import LeftOut

CLASSES = set("alnum alpha blank cntrl digit graph lower print punct space upper xdigit".split())
# Those that have letters.
WITH_LETTERS = CLASSES - set("blank cntrl digit punct space".split())

# Escapes that mean the same in both, and are no bytes; of these the ones that stand at a place between bytes.
SAME = "wWsSbB<>"
PLACES = "bB<>"

REPEATS = re.compile(r"[*+?]|\{(?P<from>\d*)(?P<comma>,?)(?P<to>\d*)\}")
# How deep groups nest; what is made of them for regex nests up to 250 deep with all else.
DEEPEST = 40
OURS = "(?i), (?-u) and (?: are no patterns of LDM 6, and stay as they are"
IN_BRACKETS = "a backslash within brackets is itself in LDM 6, and an escape here"
NOT_NESTED = "[ && ~~ -- within brackets are bytes in LDM 6, and operators here"


class Translated(typing.NamedTuple):
    """A pattern as it is written here; why it differs; what may mean something else, and what its groups may get; and the letters
    that it asks for."""

    text: str
    reasons: list
    doubts: list
    groups_doubt: typing.Optional[str]
    letters: set


def translate(text):
    """A pattern of a file, whose bytes are given in latin-1."""
    try:
        plain = text.encode("latin-1").decode()
    except UnicodeDecodeError:
        raise LeftOut(f"the pattern {text} is not UTF-8") from None
    reading = Reading(plain)
    try:
        written = reading.flags() + reading.alternatives(0)
    except LeftOut as why:
        raise LeftOut(f"the pattern {text} {why}") from None
    if not plain.isascii():
        reading.doubts.append("a letter outside ASCII is several bytes in a pattern of LDM 6, and one letter here")
    written = written.encode().decode("latin-1")
    reasons = [f"the pattern {text} is {written} here: {'; '.join(reading.reasons)}"] if reading.reasons else []
    return Translated(written, reasons, reading.doubts, reading.groups_doubt, reading.letters)


class Reading:
    """A pattern that is read from the left."""

    def __init__(self, text):
        self.text = text
        self.at = 0
        self.letters = set()
        self.reasons = []
        self.doubts = []
        self.groups_doubt = None

    def why(self, reason):
        if reason not in self.reasons:
            self.reasons.append(reason)

    def literal(self, text):
        self.letters.update(letter for letter in text if letter.isalpha())
        return text

    def rest(self, *beginnings):
        return self.text.startswith(beginnings, self.at)

    def flags(self):
        """What a pattern begins with that was written for this program."""
        found = re.match(r"\(\?(?:[ims]+|-u)\)", self.text)
        if not found:
            return ""
        self.doubt_ours()
        self.at = found.end()
        return found[0]

    def doubt_ours(self):
        if OURS not in self.doubts:
            self.doubts.append(OURS)

    def alternatives(self, depth):
        if depth > DEEPEST:
            raise LeftOut(f"has more than {DEEPEST} groups in each other")
        branches = [self.branch(depth)]
        while self.rest("|"):
            self.at += 1
            branches.append(self.branch(depth))
        for number, branch in enumerate(branches):
            longer = [other for other in branches[number + 1:] if other != branch and other.startswith(branch)]
            if longer and re.fullmatch(r"[\w /-]*", branch):
                among = "|".join(branches)
                self.groups_doubt = f"of {among} LDM 6 takes the longest match, and this program the first: see what the groups get"
        return "|".join(branches)

    def branch(self, depth):
        pieces = []
        while self.at < len(self.text) and not self.rest("|") and not (depth and self.rest(")")):
            pieces.append(self.piece(depth))
        return "".join(pieces)

    def piece(self, depth):
        """An atom with what repeats it."""
        if self.is_repeat():
            raise LeftOut(f"repeats nothing by {self.text[self.at]}, in LDM 6 too")
        begin = self.at
        atom = self.atom(depth)
        is_place = self.text[begin] in "^$" or (self.text[begin] == "\\" and self.text[begin + 1] in PLACES + "`'")
        repeated = False
        while self.is_repeat():
            if is_place:
                raise LeftOut(f"repeats {self.text[begin:self.at]}, which LDM 6 refuses")
            if repeated and self.rest("?"):
                self.why("? behind a repetition makes it lazy here, so what it follows stands in parentheses")
                atom = f"(?:{atom})"
            atom += self.repeat()
            repeated = True
        return atom

    def is_repeat(self):
        found = REPEATS.match(self.text, self.at)
        return found and (found["comma"] is None or found["from"] or found["comma"])

    def repeat(self):
        found = REPEATS.match(self.text, self.at)
        self.at = found.end()
        if found["comma"] is None:
            return found[0]
        if found["from"] and found["to"] and int(found["from"]) > int(found["to"]):
            raise LeftOut(f"has {found[0]}, which LDM 6 refuses")
        if not found["from"]:
            self.why("the least number of a repetition is written out")
            return f"{{0,{found['to']}}}"
        return found[0]

    def atom(self, depth):
        here = self.text[self.at]
        if here == "(":
            return self.group(depth)
        if here == "[":
            return self.brackets()
        if here == "\\":
            return self.escape()
        self.at += 1
        if here == ")":
            self.why("a parenthesis that closes none is a byte in LDM 6")
            return "\\)"
        if here == "{":
            self.why("a literal brace is written \\{")
            return "\\{"
        return self.literal(here)

    def group(self, depth):
        # one that was written for this program
        begins = "(?:" if self.rest("(?:") else "("
        if begins == "(?:":
            self.doubt_ours()
        elif self.rest("(?"):
            raise LeftOut("has (?, which LDM 6 refuses")
        self.at += len(begins)
        inside = self.alternatives(depth + 1)
        if not self.rest(")"):
            raise LeftOut("leaves a parenthesis open")
        self.at += 1
        return f"{begins}{inside})"

    def escape(self):
        if self.at + 1 == len(self.text):
            raise LeftOut("ends in a backslash")
        escaped = self.text[self.at + 1]
        self.at += 2
        if escaped in "123456789":
            raise LeftOut(f"has the back reference \\{escaped}, and there is none here")
        if escaped in "`'":
            self.why(f"the {'beginning' if escaped == '`' else 'end'} of a text is written otherwise")
            return "\\A" if escaped == "`" else "\\z"
        if escaped.isalnum() and escaped not in SAME:
            self.why(f"\\{escaped} is the byte {escaped} in LDM 6")
            return self.literal(escaped)
        if not escaped.isascii() or not escaped.isprintable():
            self.why(f"a backslash stands before no {escaped!r} here")
            return escaped
        return "\\" + escaped

    def brackets(self):
        begin = self.at
        self.at += 1
        sign = "^" if self.rest("^") else ""
        self.at += len(sign)
        first = self.at
        items = []
        while not items or not self.rest("]"):
            if self.at >= len(self.text):
                raise LeftOut("leaves a bracket open")
            items.append(self.item())
        written = self.text[begin:self.at + 1]
        self.at += 1
        # of what is written, what has another meaning here
        plain = re.sub(r"\[:\w+:\]", "", self.text[first:self.at - 1])
        if "\\" in plain:
            self.why(IN_BRACKETS)
        elif re.search(r"\[|&&|~~|--", plain):
            self.why(NOT_NESTED)
        elif plain.startswith("]-") and len(plain) > 2:
            self.why("] at the beginning of a range is written \\]")
        else:
            return written
        return f"[{sign}{''.join(items)}]"

    def class_name(self):
        end = self.text.find(":]", self.at)
        name = self.text[self.at + 2:end]
        if end < 0 or name not in CLASSES:
            raise LeftOut("has a class of letters that is none")
        self.at = end + 2
        self.letters.update("az" if name in WITH_LETTERS else "")
        return f"[:{name}:]"

    def item(self):
        """A class, a byte or a range of bytes."""
        is_class = self.rest("[=", "[:")
        least = self.class_name() if self.rest("[:") else self.element()
        if self.rest("-") and not self.rest("-]"):
            self.at += 1
            if is_class or self.rest("[=", "[:"):
                raise LeftOut("has a range with a class at an end, which LDM 6 refuses")
            greatest = self.element()
            if least > greatest:
                raise LeftOut(f"has the range {least}-{greatest}, which LDM 6 refuses")
            self.letters.update(letter for letter in "azAZ" if least <= letter <= greatest)
            self.letters.update(letter for letter in least + greatest if letter.isalpha())
            return f"{in_brackets(least)}-{in_brackets(greatest)}"
        return least if len(least) > 1 else in_brackets(self.literal(least))

    def element(self):
        """A byte, also as [.x.] and [=x=]."""
        if self.rest("[.", "[="):
            sign = self.text[self.at + 1]
            if self.text[self.at + 3:self.at + 5] != f"{sign}]":
                raise LeftOut("has a collating symbol of more than one byte")
            self.why("a collating symbol is written as its byte")
            self.at += 5
            return self.text[self.at - 3]
        if self.at >= len(self.text):
            raise LeftOut("leaves a bracket open")
        self.at += 1
        return self.text[self.at - 1]


def in_brackets(byte):
    return f"\\{byte}" if byte in "\\[]^-&~" else byte

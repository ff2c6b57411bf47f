"""A pqact.conf of LDM 6."""

import re
import typing

from . import commands, feeds, patterns, words
from .notes import MARK, LeftOut, replaced

# Of an entry that has several lines the ends of lines, with the lines behind them that are skipped, are each one character above these
# of latin-1.
FIRST_BREAK = 0x100
BREAKS = "\u0100-\uffff"
TABS = f"\\t{BREAKS}"
BLANKS = f" {TABS}"
MOST_BREAKS = 0xD000 - FIRST_BREAK

FIELDS = re.compile(rf"([^{TABS}]+)[{TABS}]+([^{TABS}]+)[{TABS}]+([^{TABS}]+)")

OPTIONS = {
    "FILE": {"-overwrite", "-close", "-flush", "-strip"},
    "STDIOFILE": {"-overwrite", "-close", "-flush", "-strip"},
    "PIPE": {"-close", "-flush", "-strip"},
    "EXEC": {"-wait"},
    "NOOP": set(),
}
ELSE = ("_ELSE_", "^_ELSE_$")

# Why lines that begin with a tab are left out: an entry that is whole ends at a comment or an empty line.
OF_NO_ENTRY = "it begins with a tab, and the entry before it is whole, or there is none"

# An action of LDM 6 that is none here.
OTHER_ACTIONS = {"DBFILE"}

# The dates that words may ask for, and what strftime makes of letters that are none here.
DATES = {"yyyy", "yy", "mm", "mmm", "dd", "hh"}
LONGER = {"%F": "%Y-%m-%d", "%D": "%m/%d/%y", "%T": "%H:%M:%S", "%R": "%H:%M"}
OTHER_TIMES = set("aAbBcCeEgGhIklnOpPrstuUVwWxXzZ+")


def is_line(line):
    """Whether the line can be one of a pqact.conf alone: it begins an entry."""
    feed, tab, _ = line.partition("\t")
    return bool(tab) and feeds.is_expression(feed)


def is_blank(line):
    return not line.strip(" \t")


class Entry(typing.NamedTuple):
    """The lines of an entry, each with whether it is skipped; whether some of them were written anew to go on from line to line; and as
    they stand in the file."""

    lines: list
    skipped: list
    joined: bool
    before: list

    def text(self):
        """Its text, with a character for each end of a line; and what each of these stands for."""
        text, ends = self.lines[0], []
        between = "\n"
        for line, is_skipped in zip(self.lines[1:], self.skipped[1:]):
            if is_skipped:
                between += f"{line}\n"
                continue
            text += chr(FIRST_BREAK + len(ends)) + line
            ends.append(between)
            between = "\n"
        return text, ends


def take_over(lines, notes):
    """Takes the lines over, which have no carriage return at their ends."""
    entries = list(divide(lines))
    last_else = max((number for number, entry in enumerate(entries) if isinstance(entry, Entry) and is_else(entry)), default=-1)
    for number, entry in enumerate(entries):
        if not isinstance(entry, Entry):
            take_other(entry, notes)
        else:
            take_entry(entry, number < last_else, notes)


class Other(typing.NamedTuple):
    """Lines that are of no entry; and why they are left out, or None."""

    lines: list
    why: typing.Optional[str]


def divide(lines):
    """The entries, and the lines between them."""
    at = 0
    while at < len(lines):
        line = lines[at]
        if line.startswith("#") or is_blank(line):
            yield Other([line], None)
            at += 1
        elif line.startswith("\t"):
            begin = at
            while at < len(lines) and lines[at].startswith("\t") and not is_blank(lines[at]):
                at += 1
            yield Other(lines[begin:at], OF_NO_ENTRY)
        else:
            entry = gather(lines, at)
            yield entry
            at += len(entry.lines)


def gather(lines, at):
    """The entry that begins there."""
    taken, skipped, joined = [lines[at]], [False], False
    # the place of its last line that is not skipped, and lines to skip if the entry goes on behind them
    last, waiting = 0, []
    for number in range(at + 1, min(at + MOST_BREAKS, len(lines))):
        line = lines[number]
        is_text = not line.startswith("#") and not is_blank(line)
        backslash = re.search(r"[ \t]*\\[ \t]*$", taken[last])
        if not waiting and is_text and (backslash or line.startswith(" ") and not is_line(line.lstrip(" "))):
            if backslash:
                taken[last] = taken[last][:backslash.start()]
            line = "\t" + line.lstrip(" \t")
            joined = True
        if not is_text:
            waiting.append(line)
        elif line.startswith("\t") and not (waiting and is_complete(taken, skipped)):
            taken += [*waiting, line]
            skipped += [True] * len(waiting) + [False]
            last, waiting = len(taken) - 1, []
        else:
            break
    return Entry(taken, skipped, joined, lines[at:at + len(taken)])


def is_complete(lines, skipped):
    """Whether an entry has all its fields, and words behind them, so that a line behind a comment is none of it."""
    text, _ = Entry(lines, skipped, False, lines).text()
    found = FIELDS.match(text)
    if not found:
        return False
    behind = [word for word in re.split(f"[{BLANKS}]+", text[found.end():]) if word and not word.startswith("-")]
    return bool(behind) or found[3].upper() == "NOOP"


def is_else(entry):
    found = FIELDS.match(entry.text()[0])
    return bool(found) and found[2] in ELSE


def take_other(other, notes):
    if other.why is None:
        notes.keep(other.lines)
    else:
        notes.leave_out(other.lines, other.why)


def take_entry(entry, before_else, notes):
    text, ends = entry.text()
    try:
        edits, reasons, looks = edit(text)
        written = replaced(text, edits)
    except LeftOut as why:
        notes.leave_out(entry.before, *why.args, *(stand_in(text) if before_else else []))
        return
    for number, end in enumerate(ends):
        written = written.replace(chr(FIRST_BREAK + number), end)
    if entry.joined:
        reasons.insert(0, "a line that goes on with the one before it begins with a tab here, and no backslash ends that")
    if reasons:
        notes.change(written.split("\n"), reasons, looks, len(entry.lines))
    else:
        notes.keep(written.split("\n"), looks)


def stand_in(text):
    """An entry that does nothing in place of one that is left out, so that an _ELSE_ entry behind it acts on nothing more."""
    found = FIELDS.match(text)
    if not found or found[2] in ELSE or found[3].upper() not in {*OPTIONS, *OTHER_ACTIONS}:
        return []
    try:
        entry = f"{feeds.translate(found[1])[0]}\t{patterns.translate(found[2]).text}\tNOOP"
    except LeftOut:
        return []
    return [f"{MARK} changed: this keeps a later _ELSE_ from acting on what the entry above matched", entry]


def edit(text):
    """The edits of an entry, why they are made, and what has to be looked at."""
    if re.match(r"INCLUDE[ \t]", text, re.IGNORECASE):
        raise LeftOut("there is no INCLUDE in a pqact.conf here: put the lines of that file here, or run a pqact for it")
    found = FIELDS.match(text)
    if not found:
        raise LeftOut("it lacks a field: feedtype, pattern and action, with tabs between them")
    edits, reasons, looks = [], [], []
    feed, why = feeds.translate(found[1])
    edits.append((*found.span(1), feed))
    reasons += why
    groups_doubt = None
    if found[2] not in ELSE:
        translated = patterns.translate(found[2])
        edits.append((*found.span(2), translated.text))
        reasons += translated.reasons
        looks += translated.doubts
        groups_doubt = translated.groups_doubt
        if len(found[2]) > 1 and found[2][0] == found[2][-1] == '"':
            looks.append("the quotes around the pattern are bytes of it here")

    action = found[3].upper()
    if action not in OPTIONS:
        raise LeftOut(f"there is no action {found[3]} here")
    begin = found.end()
    behind, _ = words.split(text[begin:], BLANKS, False)
    behind = [word._replace(begin=word.begin + begin, end=word.end + begin) for word in behind]
    if action == "NOOP":
        if behind:
            edits.append(without(text, begin, behind[-1].end))
            reasons.append("nothing follows NOOP here")
        return edits, reasons, looks
    while behind and behind[0].text.startswith("-"):
        option = behind.pop(0)
        if option.text == "-log":
            # the tab behind the action stays
            first = begin == found.end() and behind
            edits.append(without(text, option.begin, behind[0].begin) if first else without(text, begin, option.end))
            reasons.append("there is no -log here: what is filed or piped has no line in the log")
        elif option.text not in OPTIONS[action]:
            raise LeftOut(f"{action} has no option {option.text} here")
        begin = option.end
    if not behind:
        raise LeftOut(f"{action} names no {'path' if 'FILE' in action else 'program'}")
    if "FILE" in action and len(behind) > 1:
        raise LeftOut(f"{action} has one word behind its options, a path, and quotes around it if it has blanks")
    for word in behind:
        edits += edits_of_word(word, reasons, looks)
    if groups_doubt and any(re.search(r"\\[1-9]", word.text) for word in behind):
        looks.append(groups_doubt)
    if any(word.text.startswith("'") for word in behind):
        looks.append("a word in ' is split at its blanks here; only \" joins words")
    if "FILE" not in action and (why := commands.other_here(behind[0].text)):
        looks.append(why)
    return edits, reasons, looks


def without(text, begin, end):
    """An edit that takes a piece out, but for ends of lines, each of which stands before a tab."""
    return begin, end, "".join(f"{line_end}\t" for line_end in re.findall(f"[{BREAKS}]", text[begin:end]))


def edits_of_word(word, reasons, looks):
    """The edits of a word of which some forms are replaced as an action is taken."""
    if '\\"' in word.text:
        raise LeftOut("there is no quote within quotes here")
    if "\\0" in word.text:
        raise LeftOut("\\0 represents itself here: put parentheses around the pattern, and count its groups anew")
    for form in re.findall(r"\(\\\d+:(\w+)\)", word.text):
        if form not in DATES:
            raise LeftOut(f"there is no date in the form {form} here")
    for group in re.findall(r"\\[1-9]\d", word.text):
        looks.append(f"{group} is group {group[1]} here, with a {group[2]} behind it")

    def spelled_out(found):
        if found[1] in OTHER_TIMES:
            raise LeftOut(f"{found[0]} represents itself here")
        if found[0] in LONGER:
            reasons.append(f"{found[0]} is {LONGER[found[0]]} here")
        return LONGER.get(found[0], found[0])

    text = re.sub("%(.)", spelled_out, word.text)
    return [word.having(text)] if text != word.text else []

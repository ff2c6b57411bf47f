"""An ldmd.conf of LDM 6."""

import re

from . import commands, feeds, patterns, words
from .notes import LeftOut, replaced

BLANKS = " \\t"
KEYWORDS = {"ALLOW": (3, 5), "ACCEPT": (4, 4), "REQUEST": (4, 5), "EXEC": (2, 2), "INCLUDE": (2, 2)}
# Keywords of LDM 6 that are none here.
OTHERS = {
    "MULTICAST": "there is no multicast here",
    "RECEIVE": "there is no multicast here",
    "SEND": "there is no multicast here",
}
LONGEST_PATTERN = 255
LONGEST_HOST = 255
NO_NAMES = "no name is looked up here: the text of a host is its address, as 10.1.0.9"


def first_word(line):
    found = re.match(r"[ \t]*([A-Za-z]+)(?=[ \t]|$)", line)
    return found[1].upper() if found else None


def is_line(line):
    """Whether the line can be one of an ldmd.conf alone."""
    return first_word(line) in {*KEYWORDS, *OTHERS} - {"INCLUDE"}


def is_skipped(line):
    return not line.strip(" \t") or line.lstrip(" \t").startswith("#")


def take_over(lines, notes):
    """Takes the lines over, which have no carriage return at their ends."""
    at = 0
    while at < len(lines):
        count = 1
        if is_skipped(lines[at]):
            notes.keep(lines[at:at + 1])
        else:
            text, count = join(lines, at)
            take_entry(text, lines[at:at + count], notes)
        at += count


def join(lines, at):
    """The text of the entry that begins there, and how many lines it has: a backslash at the end of a line joins the next one to it,
    and so does a missing word."""
    text, count = lines[at], 1
    while at + count < len(lines):
        following = lines[at + count]
        if not has_comment(text) and re.search(r"\\[ \t]*$", text):
            text = re.sub(r"\\[ \t]*$", "", text) + following
        elif following[:1] in (" ", "\t") and not is_skipped(following) and goes_on(text, following):
            text += following
        else:
            break
        count += 1
    return text, count


def has_comment(text):
    try:
        return words.split(text, BLANKS, True)[1] < len(text)
    except LeftOut:
        return False


def goes_on(text, following):
    """Whether the line has words that the entry before it lacks or may have."""
    if first_word(following) in {*KEYWORDS, *OTHERS} or has_comment(text):
        return False
    try:
        count = sum(len(words.split(part, BLANKS, True)[0]) for part in (text, following))
    except LeftOut:
        return False
    return count <= KEYWORDS.get(first_word(text), (0, 0))[1]


def take_entry(text, lines, notes):
    try:
        found, _ = words.split(text, BLANKS, True)
        edits, reasons, looks = entry(found)
        written = replaced(text, edits)
    except LeftOut as why:
        notes.leave_out(lines, *why.args)
        return
    if len(lines) > 1:
        reasons.insert(0, "a line does not go on on the next one here")
    if reasons:
        notes.change([written], reasons, looks, len(lines))
    else:
        notes.keep([written], looks)


def entry(found):
    """The edits of an entry, why they are made, and what has to be looked at."""
    if not found:
        raise LeftOut("it has no word")
    name = found[0].text.upper()
    if name in OTHERS:
        raise LeftOut(OTHERS[name])
    if name not in KEYWORDS:
        raise LeftOut(f"no line of an ldmd.conf begins with {found[0].text}")
    least, most = KEYWORDS[name]
    if not least <= len(found) <= most:
        needed = f"{least - 1} to {most - 1}" if most > least else least - 1
        raise LeftOut(f"{name} needs {needed} words behind it, and has {len(found) - 1}")
    edits, reasons, looks = [], [], []

    def put(word, text, why):
        if text != word.text:
            edits.append(word.having(text))
            reasons.extend(why)

    def put_pattern(word, is_host=False):
        translated = patterns.translate(word.text.replace('\\"', '"') if word.quoted else word.text)
        pattern = translated.text.replace('"', "\\x22") if word.quoted else translated.text
        put(word, pattern, translated.reasons or ["a quote in a pattern is \\x22 here"])
        looks.extend(translated.doubts)
        if is_host and translated.letters and not (":" in word.text and translated.letters <= set("abcdefABCDEF")):
            looks.append(NO_NAMES)
        return pattern

    if name in ("EXEC", "INCLUDE"):
        if '\\"' in found[1].text:
            raise LeftOut("there is no quote within quotes here")
        if not is_utf8(found[1].text):
            raise LeftOut("it is not UTF-8")
        if name == "EXEC":
            put(found[1], *commands.translate(found[1].text))
        else:
            looks.append("that file has to be taken over too; its path goes from the folder in which the node runs")
        return edits, reasons, looks

    put(found[1], *feeds.translate(found[1].text))
    if name == "ALLOW":
        put_pattern(found[2], is_host=True)
        for word in found[3:]:
            put_pattern(word)
    elif name == "ACCEPT":
        put_pattern(found[2])
        put_pattern(found[3], is_host=True)
    else:
        pattern = put_pattern(found[2])
        if len(pattern) > LONGEST_PATTERN:
            raise LeftOut(f"a pattern that is asked for has at most {LONGEST_PATTERN} bytes")
        put(found[3], host(found[3].text), ["a port has no leading zero here"])
        if len(found) == 5 and found[4].text.upper() not in ("PRIMARY", "ALTERNATE"):
            raise LeftOut(f"only PRIMARY or ALTERNATE follows the host: {found[4].text}")
    return edits, reasons, looks


def is_utf8(text):
    try:
        text.encode("latin-1").decode()
    except UnicodeDecodeError:
        return False
    return True


def host(text):
    name, colon, port = text.rpartition(":")
    if not colon:
        name, port = text, str(commands.PORT)
    if not re.fullmatch(r"\d+", port, re.ASCII) or not 1 <= int(port) <= 65535 or not 1 <= len(name) <= LONGEST_HOST:
        raise LeftOut(f"{text} is no HOST or HOST:PORT")
    return f"{name}:{int(port)}" if colon else text

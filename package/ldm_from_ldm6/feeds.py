"""Feed expressions: names of LDM 6 that have only a bit here become FTn."""

import re

from ldm_beside.feeds import NAMES, VALUES

from .notes import LeftOut

# The names that are read here.
KNOWN = set(VALUES)
HERE = {name: f"FT{bit}" for bit, names in NAMES.items() for name in names.split()}
# the products of NOAAPort but for radar and images
HERE["NPORT"] = "(FT22|FT23|FT24|FT25|FT26)"

PART = re.compile(r"[A-Za-z]\w*|0x[0-9A-Fa-f]+|\d+|[|&~()-]", re.ASCII)
LARGEST = 2**32 - 1
MOST_OPEN = 64


def is_expression(text):
    try:
        translate(text)
    except LeftOut:
        return False
    return True


def translate(text):
    """The expression as it is written here, and why it differs."""
    written, renamed = [], {}
    wanted, opened, at = True, 0, 0
    while at < len(text):
        if text[at] in " \t":
            written.append(text[at])
            at += 1
            continue
        part = PART.match(text, at)
        if not part:
            raise LeftOut(f"{text} is no feed expression")
        at = part.end()
        word = part[0]
        if word in "|&-)":
            fits = not wanted and (word != ")" or opened)
            wanted = word != ")"
            opened -= word == ")"
        else:
            fits = wanted
            wanted = word in "~("
            opened += word == "("
        if not fits or opened > MOST_OPEN:
            raise LeftOut(f"{text} is no feed expression")
        written.append(name_here(word, renamed) if word[0].isalpha() else checked(word))
    if wanted or opened:
        raise LeftOut(f"{text} is no feed expression")
    reason = " and ".join(f"{name} is {here}" for name, here in renamed.items())
    return "".join(written), [f"{reason} here"] if renamed else []


def name_here(name, renamed):
    upper = name.upper()
    if upper in KNOWN:
        return name
    if upper not in HERE:
        raise LeftOut(f"{name} is no feedtype here")
    renamed[name] = HERE[upper]
    return HERE[upper]


def checked(part):
    if part[0].isdigit() and int(part, 0 if part.startswith("0x") else 10) > LARGEST:
        raise LeftOut(f"{part} is above {LARGEST}")
    return part

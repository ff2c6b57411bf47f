"""Feedtypes: their names, and what an expression of them means."""

import re

# The names that the program reads, by their bits; one that has two stands with the better known first.
VALUES = {
    "NONE": 0, "PPS": 1, "DDS": 2, "DOMESTIC": 2, "DDPLUS": 3, "HDS": 4, "HRS": 4, "IDS": 8, "INTNL": 8, "WMO": 15, "SPARE": 16,
    "UNIWISC": 32, "MCIDAS": 32, "UNIDATA": 47, "EXP": 2**30, "ANY": 2**32 - 1,
}  # fmt: skip
VALUES.update({f"FT{bit}": 2**bit for bit in range(32)})

# The other names of LDM 6, by the number of their bit.
NAMES = {
    6: "PCWS ACARS",
    7: "FSL2 PROFILER",
    8: "FSL3",
    9: "FSL4",
    10: "FSL5",
    11: "GPSSRC",
    12: "CONDUIT NCEPH NMC2",
    13: "FNEXRAD NMC3",
    14: "LIGHTNING NLDN",
    15: "WSI",
    16: "DIFAX",
    17: "FAA604",
    18: "GPS",
    19: "FNMOC",
    20: "GEM CMC",
    21: "NIMAGE",
    22: "NTEXT",
    23: "NGRID",
    24: "NPOINT NBUFR",
    25: "NGRAPH",
    26: "NOTHER",
    27: "NEXRAD3 NNEXRAD NEXRAD",
    28: "NEXRAD2 NEXRD2 CRAFT",
    29: "NXRDSRC",
}

# A set with more members has no name but its number.
MOST_MEMBERS = 4

_NAME_OF = {}
for _name, _bits in VALUES.items():
    _NAME_OF.setdefault(_bits, _name)
_NAME_OF.update({2**bit: names.split()[0] for bit, names in NAMES.items()})

PART = re.compile(r"[ \t]*([A-Za-z]\w*|0x[0-9A-Fa-f]+|\d+|[|&~()-])", re.ASCII)


def feed_name(bits):
    """How people call a set of feedtypes: by LDM 6's name, or those of its members, or by its number."""
    if bits in _NAME_OF:
        return _NAME_OF[bits]
    members = [2**bit for bit in range(32) if bits >> bit & 1]
    return "|".join(map(feed_name, members)) if len(members) <= MOST_MEMBERS else f"0x{bits:08x}"


def value_of(expression):
    """The bits that an expression means, as the program reads it; raises ValueError."""
    parts = []
    at = 0
    text = expression.rstrip(" \t")
    while at < len(text):
        part = PART.match(text, at)
        if not part:
            raise ValueError(f"{expression} is no feed expression")
        parts.append(part[1])
        at = part.end()
    value = _sum(parts, expression)
    if parts:
        raise ValueError(f"{expression} is no feed expression")
    return value


def _sum(parts, expression):
    """Takes terms with operators between them off the parts, from the left; none binds tighter."""
    value = _term(parts, expression)
    while parts and parts[0] in "|&-":
        operator = parts.pop(0)
        other = _term(parts, expression)
        value = value | other if operator == "|" else value & other if operator == "&" else value & ~other
    return value


def _term(parts, expression):
    part = parts.pop(0) if parts else ""
    if part == "~":
        return VALUES["ANY"] & ~_term(parts, expression)
    if part == "(":
        value = _sum(parts, expression)
        if not parts or parts.pop(0) != ")":
            raise ValueError(f"{expression} is no feed expression")
        return value
    if part[:1].isdigit():
        return int(part, 16 if part.startswith("0x") else 10)
    if part.upper() not in VALUES:
        raise ValueError(f"{expression} is no feed expression")
    return VALUES[part.upper()]

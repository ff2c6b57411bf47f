"""EXEC lines: what stands here for the programs of LDM 6, and what no shell reads."""

import getopt
import os
import shlex

from . import feeds, patterns
from .notes import LeftOut

PORT = 388
NODE = f"127.0.0.1:{PORT}"
WAIT = f"/usr/lib/ldm/when-up {NODE}"

TOTALS = "pqstats has the figures, and a timer runs it: pqstats -c N"
IN_MEMORY = "the queue is in the memory of the node, and makes room by itself"
NO_SATELLITE = "there is no NOAAPort here"
BULLETINS = "wmo reads bulletins from a pipe: SOURCE | ldm wmo"
FOR_PROGRAMS = {
    "rtstats": TOTALS,
    "pqbinstats": TOTALS,
    "pqsurf": "no program splits bulletins here; pqact files them whole",
    "pqexpire": IN_MEMORY,
    "pqcopy": IN_MEMORY,
    "pqutil": IN_MEMORY,
    "pqing": BULLETINS,
    "dds": BULLETINS,
    "ddplus": BULLETINS,
    "ids": BULLETINS,
    "noaaportIngester": NO_SATELLITE,
    "readnoaaport": NO_SATELLITE,
    "dvbs_multicast": NO_SATELLITE,
    "feedme": "pqcat stands for it, and has to be told the node: pqcat -q HOST:PORT",
    "ldmsend": "pqinsert stands for it, and sends files: pqinsert -q HOST:PORT FILE ..",
    "pqsend": "pqinsert stands for it, and sends files: pqinsert -q HOST:PORT FILE ..",
    "ldmping": "pqmon stands for it: pqmon -q HOST:PORT",
    "ldmadmin": "systemd starts and stops the node",
    "scour": "find -mtime +N -delete stands for it, and is run by a timer",
    "hupsyslog": "the log is standard error, and is not told to be opened anew",
}
# They have their names here too, and other options.
SAME_NAME = {"pqact", "pqmon", "pqcat", "notifyme", "pqinsert"}

# The options of pqact of LDM 6, and those of them that are none here.
OPTIONS = "vxl:d:f:q:o:p:i:t:"
PLACES = {"-d": "paths go from the folder in which pqact runs", "-q": "pqact is told the node in place of the queue"}

READ_BY_A_SHELL = set("$`~*?[]|&;<>(){}")


def translate(command):
    """The command as it is written here, and why it differs. One that is left out may have lines that stand in for it."""
    try:
        words = shlex.split(command)
    except ValueError:
        raise LeftOut("a quote within the command is left open") from None
    if not words:
        raise LeftOut("there is no command")
    program = os.path.basename(words[0])
    if program == "pqact":
        raise LeftOut(*pqact(words[1:]))
    if why := other_here(program):
        raise LeftOut(why)
    if READ_BY_A_SHELL & set(command):
        raise LeftOut("no shell reads the command here: put it into a script, and name that")
    if words == command.split():
        return command, []
    if any(not word or set(" \t\"") & set(word) for word in words):
        raise LeftOut("a command has no quotes within it here: put it into a script, and name that")
    return " ".join(words), ["a command has no quotes and no backslashes within it here"]


def other_here(program):
    """Why a program of LDM 6 is not to be called as it is, or None."""
    name = os.path.basename(program)
    if name in SAME_NAME:
        return f"{name} connects to a node here, and has other options: ldm help {name}"
    return FOR_PROGRAMS.get(name)


def pqact(words):
    """Why pqact is left out, and a line that stands for it."""
    try:
        options, files = getopt.getopt(words, OPTIONS)
    except getopt.GetoptError as why:
        return (f"pqact of LDM 6 has no such option: {why.msg}",)
    here, more = [], []
    for option, value in options:
        if option == "-f":
            here += ["-f", feeds.translate(value)[0]]
        elif option == "-p":
            here += ["-p", patterns.translate(value).text]
        else:
            more.append(PLACES.get(option, f"{option} is no option here"))
    conf = (files or ["etc/pqact.conf"])[0]
    line = " ".join([WAIT, "pqact", *here, conf, NODE])
    reason = "; ".join([f"pqact runs beside the node. Once {conf} is taken over, take the # off the line below", *dict.fromkeys(more)])
    if any(set(" \t\"") & set(word) for word in [*here, conf]):
        return ("pqact runs beside the node; put its command into a script, since a command has no quotes within it here",)
    return reason, f'#EXEC "{line}"'

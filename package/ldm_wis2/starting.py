"""The words of both programs, and how they end."""

import argparse
import sys

import ldm_beside

from .common import USAGE, Failed, Log, stop_on_signals


class Words(argparse.ArgumentParser):
    def error(self, message):
        print(f"{self.prog}: usage: {message}", file=sys.stderr)
        sys.exit(USAGE)


def read_words(name):
    words = Words(prog=name, add_help=False, allow_abbrev=False)
    words.add_argument("--help", "-h", action="store_true")
    words.add_argument("-v", action="store_true")
    words.add_argument("conf", nargs="?")
    given = words.parse_args()
    if not given.help and not given.conf:
        words.error("no configuration is named")
    return given


def main(name, here, begin):
    """Runs a program to its end. Its parts are read only then, so that it tells its help also where paho is missing."""
    given = read_words(name)
    if given.help:
        sys.exit(not ldm_beside.show_help(name, here))
    try:
        begin(given.conf, Log(name, given.v), stop_on_signals())
    except ModuleNotFoundError as why:
        print(f"{name}: there is no {why.name}: python3-paho-mqtt is to be installed", file=sys.stderr)
        sys.exit(1)
    except Failed as why:
        print(f"{name}: {why}", file=sys.stderr)
        sys.exit(why.status)

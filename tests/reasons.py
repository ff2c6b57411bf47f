#!/usr/bin/env python3
"""Makes mistakes that new users make, with real files, programs and ports, and compares what the program says of each: the line that
names the word, the file or the host, and then the line of its status.

Called as: tests/reasons.py [PROGRAM]. The program is that of tests/program.py, where none is named. The lines are those of
docs/commands.md.
"""

import fcntl
import os
import pathlib
import socket
import sys
import time

import nodes
from nodes import FULL, HOST, MANY, OPEN, free_port, try_case
from peers import Product, expect, port_of

CONF = {
    "good": OPEN,
    "keyword.conf": "# a comment\nALOW ANY .*\n",
    "fields.conf": "ALLOW ANY\n",
    "feed.conf": "\nALLOW NEXRAD9 ^.*\r\n",
    "pattern.conf": "REQUEST ANY ( host:388\n",
    "port.conf": "REQUEST ANY .* host:0\n",
    "tab.conf": "ALLOW\tANY\n",
    "wide.conf": "ALOW " + "x" * 300 + "\n",
    "include.conf": "INCLUDE gone.conf\n",
    "inner.conf": "ALLOW ANY .*\nINCLUDE keyword.conf\n",
    "second.conf": "INCLUDE good\nINCLUDE etc/rules.conf\n",
    "etc/rules.conf": "# the rules\n\nALLOW NEXRAD9 ^.*\n",
    "behind.conf": "INCLUDE between.conf\n",
    "between.conf": "INCLUDE good\nINCLUDE good\nALOW ANY\n",
    "itself.conf": "INCLUDE itself.conf\n",
    "too long.conf": "INCLUDE long\n",
    "inner long.conf": 'INCLUDE "too long.conf"\n',
    "program.conf": "EXEC no-such-program\n",
    "forbidden.conf": "EXEC ./no-right\n",
    "action": "IDS\t^S\tFILLE\tdata\n",
    "option": "\nIDS\t^S\tFILE\t-overwrit data\n",
    "two fields": "IDS\t^S\n",
    "class": "NEXRAD9\t^S\tFILE\tdata\n",
    "pattern": "IDS\t(\tNOOP\n",
    "long": "#" * 1_048_577,
    "no-right": "x",
    "in a file": "IDS\t^SAUS\tFILE\tgood/x\n",
    "in a folder": "IDS\t^SAUS\tFILE\tfolder\n",
    "on a full disk": f"IDS\t^SAUS\tFILE\t{FULL}\n",
    "of a long ident": "IDS\t^iii\tFILE\tfolder\n",
    "of a tab": "IDS\t^tab\tFILE\tfolder\n",
    "behind another": "IDS\t^SAUS\tFILE\tdata\nIDS\t^tab\tFILE\tdata/x\n",
    "no pipe": "IDS\t^SAUS\tPIPE\tno-such-program\n",
    "no program": "IDS\t^SAUS\tEXEC\t./no-right\n",
    "no reader": "IDS\t^big\tPIPE\ttrue\n",
    "cidr.conf": f"{OPEN}ALLOW ANY 10.1.0.0/16\n",
    "star.conf": f"{OPEN}ALLOW ANY *\n",
    "order.conf": f"{OPEN}ACCEPT ANY ^10[.]1[.] .*\n",
    "far.conf": f"{OPEN}REQUEST ANY .* host:99999\n",
    "brackets.conf": f"{OPEN}REQUEST ANY .* [::1]:388\n",
    "spaces": "IDS ^S FILE data\n",
    "some spaces": "IDS\t^S\tFILE    -close  data\n",
    "words": "no bulletin is here\n",
    "heading": "SAUS44 KWBC 010000\r\r\nMETAR KDCA=\r\r\n",
    "every.conf": f"{OPEN}ALOW ANY .*\nALLOW IDS ^.*[.]edu$\nINCLUDE some.conf\nINCLUDE gone.conf\nREQUEST ANY ( host:388\n",
    "some.conf": "ALLOW ANY .*\nEXEC\n",
    "every": "\tFILE\tdata\nIDS\t^S\tFILE\n\tdata/(\\1:dd)\nHDS\t^(.*)\tPIPE\t-flush\n\tdecoder \\1\nHDS\t^(.*)\tFILE\tdata/\\1\nANY\t_ELSE_\tNOP\n",
}

PATH_OF_100 = "p" * 100


def usage(place):
    """Words that are no form of a command."""
    cases = [
        (["node"], "node: no configuration is named"),
        (["node", "-a", "1G", "good"], "node: -a: 1G is no number"),
        (["node", "-p", 65_536, "good"], "node: -p: 65536 is no port"),
        (["node", "-w", 2**32, "good"], "node: -w: 4294967296 is no number below 4294967296"),
        (["node", "-z", "good"], "node: -z: no such option"),
        (["node", "good", "more"], "node: more: one word too many"),
        (["node", "-a"], "node: -a: has no value"),
        (["node", "-a", 64, "-a", 64, "good"], "node: -a: given twice"),
        (["pqinsert"], "pqinsert: no file is named"),
        (["pqinsert", "-i"], "pqinsert: no file is named"),
        (["pqinsert", "-i", "good", "i" * 256], f"pqinsert: {'i' * 80} is no ident: name one by -p"),
        (["pqinsert", "-o", "h" * 65, "good"], f"pqinsert: -o: {'h' * 65} is no origin"),
        (["pqcat", "-f", "NEXRAD9"], "pqcat: -f: NEXRAD9 is no feedtype"),
        (["pqcat", "-p", "("], "pqcat: -p: ( is no pattern"),
        (["pqinsert", "-p", "i" * 256, "good"], f"pqinsert: -p: {'i' * 80} is no ident"),
        (["pqcat", "-c", 0], "pqcat: -c: 0 is no count of at least 1"),
        (["pqcat", "-a", "64M"], "pqcat: -a: 64M is no number"),
        (["pqact", "-S", 2**32], "pqact: -S: 4294967296 is no number below 4294967296"),
        (["pqmon", "-i", 0], "pqmon: -i: 0 is no number from 1 to 4294967295"),
        (["pqcat", "x\ty"], "pqcat: x?y: one word too many"),
        (["notifyme", "-q", HOST], f"notifyme: -q: {HOST} is no HOST:PORT"),
        (["notifyme", "-c"], "notifyme: -c: has no value"),
        (["pqmon", f"{HOST}:388"], f"pqmon: {HOST}:388: one word too many"),
        (["pqmon", "-q", f"{HOST}:0"], f"pqmon: -q: {HOST}:0 is no HOST:PORT"),
        (["pqstats", "-w", 8_761], "pqstats: -w: 8761 is no number from 1 to 8760"),
        (["pqstats", "-ss"], "pqstats: -s: given twice"),
        (["wmo", "-f", "FOO"], "wmo: -f: FOO is no feedtype"),
        (["wmo", "-p", "ident"], "wmo: -p: no such option"),
        (["pqact"], "pqact: no pqact.conf is named"),
        (["pqact", "action"], "pqact: no HOST:PORT is named"),
        (["pqact", "-q", f"{HOST}:388", "action"], "pqact: -q: no such option"),
        (["save", "queue", "1K", 10], "save: 1K is no number"),
        (["save", "queue", 168], "save: no number of slots is named"),
        (["resume"], "resume: no file is named"),
        (["pqcheck", "queue", "more"], "pqcheck: more: one word too many"),
        (["check"], "check: no file is named"),
        (["check", "-q", "good"], "check: -q: no such option"),
        # these have no more than their status line
        (["play", "1K", 10], None),
        (["crowd", 168], None),
        (["exercise"], None),
        (["chain", 168, 10], None),
        (["pqcta"], None),
        ([], None),
    ]
    for words, why in cases:
        ran = place.run(*words)
        expect(ran, (64, b"", lines(why, "usage")), f"{words}")


def configurations(place):
    """Faults of an ldmd.conf and of a pqact.conf."""
    fields = "too few words, too many, or one of a wrong form"
    few = "too few fields, too many, or one of a wrong form"
    at = ["node", "-p", free_port()]
    cases = [
        ([*at, "keyword.conf"], "keyword.conf:2: no such keyword: ALOW ANY .*", "conf file 0 line 2 kind 1"),
        ([*at, "fields.conf"], f"fields.conf:1: {fields}: ALLOW ANY", "conf file 0 line 1 kind 2"),
        ([*at, "tab.conf"], f"tab.conf:1: {fields}: ALLOW?ANY", "conf file 0 line 1 kind 2"),
        ([*at, "port.conf"], f"port.conf:1: {fields}: REQUEST ANY .* host:0", "conf file 0 line 1 kind 2"),
        ([*at, "feed.conf"], "feed.conf:2: no such feedtype: ALLOW NEXRAD9 ^.*", "conf file 0 line 2 kind 3"),
        ([*at, "pattern.conf"], "pattern.conf:1: a pattern that does not read: REQUEST ANY ( host:388", "conf file 0 line 1 kind 4"),
        ([*at, "wide.conf"], f"wide.conf:1: no such keyword: ALOW {'x' * 95}", "conf file 0 line 1 kind 1"),
        ([*at, "inner.conf"], "keyword.conf:2: no such keyword: ALOW ANY .*", "conf file 1 line 2 kind 1"),
        ([*at, "second.conf"], "etc/rules.conf:3: no such feedtype: ALLOW NEXRAD9 ^.*", "conf file 2 line 3 kind 3"),
        ([*at, "behind.conf"], "between.conf:3: no such keyword: ALOW ANY", "conf file 1 line 3 kind 1"),
        ([*at, "itself.conf"], "itself.conf:1: a file too deep, or one too many: INCLUDE itself.conf", "conf file 8 line 1 kind 5"),
        ([*at, "too long.conf"], "too long.conf:1: the file is too long: INCLUDE long", "conf file 0 line 1 kind 7"),
        ([*at, "inner long.conf"], "too long.conf:1: the file is too long: INCLUDE long", "conf file 1 line 1 kind 7"),
        ([*at, "long"], "long: the file is too long", "conf file 0 line 0 kind 7"),
        (["pqact", "action", f"{HOST}:1"], "action:1: no such action: IDS?^S?FILLE?data", "pqact line 1 kind 4"),
        (["pqact", "option", f"{HOST}:1"], "option:2: no such option of the action: IDS?^S?FILE?-overwrit data", "pqact line 2 kind 5"),
        (["pqact", "two fields", f"{HOST}:1"], f"two fields:1: {few}: IDS?^S", "pqact line 1 kind 1"),
        (["pqact", "class", f"{HOST}:1"], "class:1: no such feedtype: NEXRAD9?^S?FILE?data", "pqact line 1 kind 2"),
        (["pqact", "pattern", f"{HOST}:1"], "pattern:1: a pattern that does not read: IDS?(?NOOP", "pqact line 1 kind 3"),
        (["pqact", "long", f"{HOST}:1"], "long: the file is too long", "pqact line 0 kind 0"),
    ]
    for words, why, kind in cases:
        expect(place.run(*words), (65, b"", lines(why, f"bad {kind}")), f"{words}")


def every_fault(place):
    """All that is wrong with files, by `check`."""
    fields = "too few words, too many, or one of a wrong form"
    expect(place.run("check", "good"), (0, b"", b""), "a good file")
    expect(place.run("check", "every.conf", "gone", "long", "-p", "every", "-p", "folder"), (65, (
        "every.conf:3: no such keyword: ALOW ANY .*\n"
        f"some.conf:2: {fields}: EXEC\n"
        "every.conf:6: the file cannot be read: INCLUDE gone.conf\n"
        "every.conf:7: a pattern that does not read: REQUEST ANY ( host:388\n"
        "gone: No such file or directory\n"
        "long: the file is too long\n"
        "every:1: too few fields, too many, or one of a wrong form: ?FILE?data\n"
        "every:7: no such action: ANY?_ELSE_?NOP\n"
        "folder: Is a directory\n"
        "every.conf:4: warning: the host pattern has letters of a name, and hosts are known by their addresses\n"
        "every:6: warning: a group of the pattern stands in the path, and may hold a slash or two dots\n"
    ).encode(), b""), "all faults")
    expect(place.run("check", "keyword.conf", output=FULL), (75, b"", b"ldm: sink fault\n"), "a full disk")


def files_and_programs(place):
    """Files that are not there, that may not be read or are none, and programs that do not start."""
    node = place.node(OPEN)
    missing = "No such file or directory"
    (place.folder / "no-right").chmod(0)
    at = ["node", "-p", free_port()]
    cases = [
        ([*at, "etc/ldmd.conf"], 72, f"etc/ldmd.conf: {missing}"),
        ([*at, "include.conf"], 72, f"gone.conf: {missing}"),
        ([*at, "folder"], 72, "folder: Is a directory"),
        ([*at, "good/x"], 72, "good/x: Not a directory"),
        ([*at, PATH_OF_100 * 2], 72, f"{PATH_OF_100}{'p' * 30}: {missing}"),
        (["pqinsert", "-q", node.at, "gone"], 72, f"gone: {missing}"),
        (["pqinsert", "-q", node.at, "/dev/null"], 72, "/dev/null: Is no regular file"),
        (["pqact", "etc/pqact.conf", node.at], 72, f"etc/pqact.conf: {missing}"),
        ([*at, "program.conf"], 73, f"no-such-program: {missing}"),
        ([*at, "forbidden.conf"], 73, "./no-right: Permission denied"),
    ]
    if os.geteuid():
        cases += [(["pqinsert", "-q", node.at, "no-right"], 72, "no-right: Permission denied")]
    for words, status, why in cases:
        expect(place.run(*words), (status, b"", lines(why, {72: "store fault", 73: "child fault"}[status])), f"{words}")


def actions(place):
    """Actions of `pqact` that fail: the line tells the product that was in hand."""
    node = place.node(OPEN, *MANY)
    (place.folder / "no-right").chmod(0)
    idents = [b"SAUS44 KWBC 010000", b"i" * 70, b"tab\there"]
    node.put_all([Product(ident, b"body of " + ident) for ident in idents] + [Product(b"big", b"b" * 1_000_000)])
    first = "SAUS44 KWBC 010000"
    cases = [
        ("in a file", 72, f"{first}: good/x: Not a directory"),
        ("in a folder", 72, f"{first}: folder: Is a directory"),
        ("on a full disk", 72, f"{first}: {FULL}: No space left on device"),
        ("of a long ident", 72, f"{'i' * 60}: folder: Is a directory"),
        ("of a tab", 72, "tab?here: folder: Is a directory"),
        ("behind another", 72, "tab?here: data/x: Not a directory"),
        ("no pipe", 73, f"{first}: no-such-program: No such file or directory"),
        ("no program", 73, f"{first}: ./no-right: Permission denied"),
        ("no reader", 73, "big: true: Broken pipe"),
    ]
    for conf, status, why in cases:
        expect(place.run("pqact", conf, node.at), (status, b"", lines(why, {72: "store fault", 73: "child fault"}[status])), f"pqact {conf}")
    expect((place.folder / "data").read_bytes(), b"body of SAUS44 KWBC 010000", "what was written before")


def images(place):
    """Files that have no queue, that no queue can be kept in, and that another program has: the status alone says so."""
    for name, text in {"script": "", "queue": "", "short": "xx"}.items():
        place.file(name, text)
    cases = [
        (["pqcheck", "short"], 65, "bad image at 0"),
        (["resume", "short"], 65, "bad image at 0"),
        (["pqcheck", "good"], 80, "unclean image"),
        (["resume", "good"], 80, "unclean image"),
        (["pqcheck", "folder"], 72, "store fault"),
        (["resume", "/dev/null"], 72, "store fault"),
        (["save", FULL, 168, 10], 72, "store fault"),
        (["save", "good/queue", 168, 10], 72, "store fault"),
        (["save", "queue", 60, 10], 67, "refused arena 60"),
    ]
    for words, status, log in cases:
        expect(place.run(*words, source="script"), (status, b"", lines(None, log)), f"{words}")
    with open(place.folder / "queue") as held:
        fcntl.flock(held, fcntl.LOCK_EX)
        for words in (["save", "queue", 168, 10], ["resume", "queue"], ["pqcheck", "queue"]):
            expect(place.run(*words, source="script"), (72, b"", lines(None, "store fault")), f"{words} of a file that is locked")


def hosts_and_ports(place):
    """Ports at which nobody listens, that are taken, and names that are none."""
    nowhere = free_port()
    for words in (["pqmon"], ["pqcat"], ["notifyme"], ["pqstats"], ["wmo"], ["pqinsert", "good"]):
        ran = place.run(words[0], "-q", f"{HOST}:{nowhere}", *words[1:])
        expect(ran, (69, b"", lines(f"{HOST}:{nowhere}: Connection refused", "net fault")), f"{words} where nobody listens")
    with socket.create_server(("", 0)) as taken:
        ran = place.run("node", "-p", port_of(taken), "good")
        expect(ran, (69, b"", lines(f"port {port_of(taken)}: Address already in use", "net fault")), "a port that is taken")
    ran = place.run("pqmon", "-q", "no-such-host.invalid:388")
    said = ran.log.decode().splitlines()
    if ran.status != 69 or len(said) != 2 or not said[0].startswith("ldm: no-such-host.invalid:388: ") or said[1] != "ldm: net fault":
        expect(ran, (69, b"", "a line about no-such-host.invalid:388"), "a name that is none")


def sizes(place):
    """Sizes that no queue has, and too many workers: the status alone says so, and names no option."""
    at = ["node", "-p", free_port()]
    cases = [
        ([*at, "-a", 1001, "good"], "arena 1001"),
        ([*at, "-a", 2**31, "good"], f"arena {2**31}"),
        ([*at, "-S", 0, "good"], "slots 0"),
        # a pass for each worker and one more
        ([*at, "-w", 100, "good"], "passes 101"),
        (["pqcat", "-a", 1001, "-q", f"{HOST}:1"], "arena 1001"),
    ]
    for words, what in cases:
        expect(place.run(*words), (67, b"", lines(None, f"refused {what}")), f"{words}")
    # no worker: nobody is served, and it ends at once
    expect(place.run(*at, "-w", 0, "good"), (0, b"stat 0 0 0 0 67108864\n", b""), "a node without workers")


def rules(place):
    """Lines that are read, and mean something else than what was wanted: `check` is silent of some."""
    few = "too few fields, too many, or one of a wrong form"
    cases = [
        (["cidr.conf"], 0, ""),
        (["order.conf"], 0, ""),
        (["brackets.conf"], 0, ""),
        (["star.conf"], 65, "star.conf:3: a pattern that does not read: ALLOW ANY *\n"),
        (["far.conf"], 65, "far.conf:3: too few words, too many, or one of a wrong form: REQUEST ANY .* host:99999\n"),
        (["-p", "spaces"], 65, f"spaces:1: {few}: IDS ^S FILE data\n"),
        (["-p", "some spaces"], 65, "some spaces:1: no such action: IDS?^S?FILE    -close  data\n"),
    ]
    for words, status, said in cases:
        expect(place.run("check", *words), (status, said.encode(), b""), f"check {words}")
    expect(place.run("pqmon", "-q", "[::1]:388").status, 69, "a host in brackets")


def no_right(place):
    """A node with no rule for this host, and one whose worker is taken: a tool is told no more than `denied`, or waits."""
    strict = place.node("ALLOW ANY ^9$\n")
    for words in (["pqmon"], ["pqcat"], ["notifyme"], ["pqstats"], ["pqinsert", "good"]):
        expect(place.run(words[0], "-q", strict.at, *words[1:]), (78, b"", b"ldm: denied\n"), f"{words} of a node without a rule for it")
    busy = place.node(OPEN, "-w", 1)
    with busy.connect() as peer:
        peer.stat()
        waiting = place.start("pqmon", "-q", busy.at)
        time.sleep(1)
        expect(waiting.poll(), None, "the end of a tool while the worker is taken")
    expect(place.end(waiting)[::2], (0, b""), "its end behind that")


def no_bulletin(place):
    """Streams in which `wmo` finds no bulletin: nothing says so."""
    node = place.node(OPEN)
    for name in ("words", "heading"):
        expect(place.run("wmo", "-q", node.at, source=name), (0, b"", b""), f"wmo of {name}")


def lines(why, status):
    """The line that says why, if one does, and that of the status."""
    return (f"ldm: {why}\n" if why else "").encode() + f"ldm: {status}\n".encode()


def with_files(case):
    def run(place):
        for name, text in CONF.items():
            place.file(name, text)
        (place.folder / "folder").mkdir()
        case(place)

    run.__name__ = case.__name__
    return run


def main():
    if sys.argv[1:]:
        nodes.PROGRAM = pathlib.Path(sys.argv[1]).resolve()
    cases = [
        usage, configurations, every_fault, files_and_programs, actions, images, hosts_and_ports, sizes, rules, no_right, no_bulletin,
    ]  # fmt: skip
    sys.exit(not all([try_case(with_files(case)) for case in cases]))


if __name__ == "__main__":
    main()

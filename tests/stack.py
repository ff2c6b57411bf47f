#!/usr/bin/env python3
"""Runs each command of the program, and nodes of most workers, with a megabyte of stack for the main thread and for
each other one.

No proof bounds how much stack a program takes. A machine gives eight megabytes by default; this looks that one is
enough. What commands then answer is compared by cases of tests/nodes.py. A program whose stack does not suffice is
ended by a signal, which no case expects.

Called as: tests/stack.py [PROGRAM]. The program is that of tests/program.py, where none is named.
"""

import contextlib
import pathlib
import resource
import sys

import nodes
from peers import Wrong

# In bytes, of each thread.
STACK = 2**20

# Door workers and REQUEST lines are at most so many together.
MOST_WORKERS = 63

# At most so many INCLUDE lines lead to a file.
DEEPEST = 8

# Cases that have each command do its work between them.
CASES = [
    nodes.resumes_a_cut_session,
    nodes.feeds_both_ways,
    nodes.answers_wrong_calls,
    nodes.accepts_by_host,
    nodes.asks_for_figures,
    nodes.puts_files_in,
    nodes.puts_bulletins_in,
    nodes.writes_bodies,
    nodes.writes_notices,
    nodes.counts_products,
    nodes.sends_its_counts,
    nodes.acts_on_products,
    nodes.ends_with_each_status,
    nodes.does_not_begin,
    nodes.chains_queues,
]


def goes_well(ran, words):
    if ran.status != 0:
        raise Wrong(f"{words} ended with {ran.status}: {ran.log}")
    return ran.output


def plays_scripts(place):
    """The commands that need no node. A crowd has the most workers."""
    signature = "0123456789abcdef" * 2
    script = place.file("script", f"0 insert 100 {signature} 2 1 h p 4*41\n0 open ANY oldest\n0 step .\n0 stat\n")
    for words in (["play", 168, 10], ["crowd", 1120, 20, 64], ["save", "queue", 1120, 20], ["resume", "queue"]):
        if not goes_well(place.run(*words, source=script), words):
            raise Wrong(f"{words} answers nothing")
    for words in (["pqcheck", "queue"], ["exercise", 7, 1000]):
        if not goes_well(place.run(*words), words):
            raise Wrong(f"{words} writes nothing")


def includes_as_deep_as_it_may(place):
    """A node of most workers, whose rules stand in the deepest file, serves a peer in each of them."""
    for depth in range(1, DEEPEST):
        place.file(f"conf.{depth}", f'INCLUDE "conf.{depth + 1}"\n')
    place.file(f"conf.{DEEPEST}", nodes.OPEN)
    node = place.node('INCLUDE "conf.1"\n', "-w", MOST_WORKERS)
    with contextlib.ExitStack() as connected:
        for _ in range(MOST_WORKERS):
            connected.enter_context(node.connect()).stat()
    node.stop()


def asks_of_many(place):
    """A node with most REQUEST lines asks as many times for what another one has."""
    above = place.node(nodes.OPEN, "-w", MOST_WORKERS)
    asked = "".join(f'REQUEST ANY "^{i:02}" {above.at}\n' for i in range(MOST_WORKERS - 1))
    below = place.node(nodes.OPEN + asked, "-w", 1)
    below.until_stat(0)
    above.stop()
    below.stop()


def main():
    if sys.argv[1:]:
        nodes.PROGRAM = pathlib.Path(sys.argv[1]).resolve()
    # (threads are given as much as the main thread may have)
    _, most = resource.getrlimit(resource.RLIMIT_STACK)
    resource.setrlimit(resource.RLIMIT_STACK, (STACK, most))
    cases = [plays_scripts, includes_as_deep_as_it_may, asks_of_many, *CASES]
    sys.exit(not all([nodes.try_case(case) for case in cases]))


if __name__ == "__main__":
    main()

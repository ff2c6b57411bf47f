#!/usr/bin/env python3
"""Searches all schedules of gates that rest and links that beat for one that leaves a gate asleep though it missed a beat.

The gates and the links follow a model of crates/ldm_adapters/src/bell.rt: each read or write of what they share is one step. The system
keeps for each gate that bytes came, and goes on with its sleep only where a byte is there when the gate runs. The body in use is to leave no
gate asleep, and three others, each with one change, are to be found to.

Called as: bell.py"""

import sys
from collections import deque

# the body in use, and: the count is looked at before the wait is told of; no byte stays; the bell is rung before it is counted
BODIES = IN_USE, LOOKS_FIRST, DRAINS, RINGS_FIRST = "in use", "looks first", "drains", "rings first"


def put(items, i, item):
    return items[:i] + (item,) + items[i + 1 :]


def step_gate(body, state, i):
    """The states after a step of a gate, if it can take one."""
    rings, awaited, count, came, gates, links = state
    name, heard, left = gates[i]

    def to(gate, awaited=awaited, came=came):
        return [(rings, awaited, count, came, put(gates, i, gate), links)]

    first, second = ("look", "say") if body == LOOKS_FIRST else ("say", "look")
    after = {first: second, second: "sleep"}
    if name == "count":
        return to((first, rings, left))
    if name == "say":
        return to((after[name], heard, left), awaited=1)
    if name == "look":
        if rings == heard:
            return to((after[name], heard, left))
        return to(("count", 0, left - 1) if left > 1 else ("done", 0, 0))
    if name == "sleep" and came[i]:
        return to((first if count else "sleep", heard, left), came=put(came, i, 0))
    return []


def step_link(body, state, i):
    """The same of a link."""
    rings, awaited, count, came, gates, links = state
    name, left = links[i]

    def to(link, rings=rings, awaited=awaited, count=count, came=came):
        return [(rings, awaited, count, came, gates, put(links, i, link))]

    over = ("add", left - 1) if left > 1 else ("done", 0)
    last = ("count", left) if body == RINGS_FIRST else over
    if name == "add":
        return to(("load", left), rings=rings if body == RINGS_FIRST else rings + 1)
    if name == "load":
        return to(("swap", left) if awaited else last)
    if name == "swap":
        return to(("write", left) if awaited else last, awaited=0)
    if name == "write":
        return to(("read", left), count=count + 1, came=(1,) * len(came))
    if name == "read":
        return to(last, count=count - 1)
    if name == "count":
        return to(over, rings=rings + 1)
    return []


def search(body, gates, links, beats, rests):
    """How many states there are, and one in which a gate sleeps that missed a beat and nobody goes on."""
    start = (0, 0, 0 if body == DRAINS else 1, (0,) * gates, (("count", 0, rests),) * gates, (("add", beats),) * links)
    seen, todo, stuck = {start}, deque([start]), None
    while todo:
        state = todo.popleft()
        nexts = [after for i in range(gates) for after in step_gate(body, state, i)]
        nexts += [after for i in range(links) for after in step_link(body, state, i)]
        if not nexts and any(name == "sleep" and heard != state[0] for name, heard, _ in state[4]):
            stuck = stuck or state
        for after in nexts:
            if after not in seen:
                seen.add(after)
                todo.append(after)
    return len(seen), stuck


def main():
    faults = []
    for body in BODIES:
        for numbers in [(1, 1, 3, 3), (1, 2, 2, 2), (2, 2, 2, 2)] if body == IN_USE else [(1, 2, 2, 2)]:
            states, stuck = search(body, *numbers)
            print(f"{body}, {numbers} gates, links, beats, rests: {states} states, {'stuck' if stuck else 'goes on'}", flush=True)
            if bool(stuck) != (body != IN_USE):
                faults.append(f"{body}: {stuck or 'no gate is found asleep'}")
    for fault in faults:
        print(fault, file=sys.stderr)
    return 1 if faults else 0


if __name__ == "__main__":
    sys.exit(main())

#!/usr/bin/env python3
"""Searches all schedules of links that bring products and of a desk that stops behind them, for one that leaves a product unrecorded.

They follow a model of crates/ldm_adapters/src: `receive` of a link and its pulse, `leave` of beats.rt, where a station is at work no more,
and `is_over` of resting.rt. Each read or write of what they share is one step. The input of the program ends at any moment, or never; a
station leaves behind the last call of its link. The body in use is to lose nothing, and others, each with one change, are to be found to.

Called as: ending.py"""

import sys
from collections import deque

# the body in use, and: a link looks whether the input has ended before it opens; it shuts before what it brought is queued; its station
# leaves before that; the desk stops where no link is open or no station at work, though it did not look at the queue since
BODIES = IN_USE, LOOKS_FIRST, SHUTS_EARLY, LEAVES_EARLY, ASKS_ONCE = "in use", "looks first", "shuts early", "leaves early", "asks once"

# what a link does in a call and behind it, in order; it brings something or not. The station leaves where the call is the last
ORDER = {
    IN_USE: ("open", "look", "read", "queue", "shut", "leave"),
    LOOKS_FIRST: ("look", "open", "read", "queue", "shut", "leave"),
    SHUTS_EARLY: ("open", "look", "read", "shut", "queue", "leave"),
    LEAVES_EARLY: ("open", "look", "read", "leave", "queue", "shut"),
    ASKS_ONCE: ("open", "look", "read", "queue", "shut", "leave"),
}


def put(items, i, item):
    return items[:i] + (item,) + items[i + 1 :]


def step_link(body, state, i):
    """The states after a step of a link, if it can take one: how often it is asked, its step, whether it is open and has bytes."""
    over, opened, busy, left, links, desk = state
    asked, at, is_open, has = links[i]
    order = ORDER[body]
    if asked == 0:
        return []

    def to(is_open=is_open, has=has, opened=opened, busy=busy, left=left):
        last = at + 1 == len(order)
        link = (asked - 1, 0, is_open, False) if last else (asked, at + 1, is_open, has)
        return [(over, opened, busy, left, put(links, i, link), desk)]

    name = order[at]
    if name == "open":
        return to(is_open=True, opened=opened + 1)
    if name == "look":
        # it fails, is shut where it is open, and so is each later call; then its station stops
        return [(over, opened - is_open, busy - 1, left, put(links, i, (0, 0, False, False)), desk)] if over else to()
    if name == "read":
        return to(has=False) + to(has=True)
    if name == "queue":
        return to(left=left + has)
    if name == "shut":
        return to(is_open=False, opened=opened - 1)
    return to(busy=busy - (asked == 1))


def step_desk(body, state):
    """The same of the desk: its step, and whether nothing could come when it asked before."""
    over, opened, busy, left, links, (name, was) = state

    def to(name, was=was, left=left):
        return [(over, opened, busy, left, links, (name, was))]

    def answer(quiet):
        return to("done", False) if quiet and (was or body == ASKS_ONCE) else to("turn", quiet)

    if name == "turn":
        return to("left", left=0)
    if name == "left":
        return answer(True) if busy == 0 else to("over")
    if name == "over":
        return to("quiet") if over else answer(False)
    if name == "quiet":
        return answer(opened == 0)
    return []


def search(body, links, asked):
    """How many states there are, one in which the desk has stopped and a product is left, and whether it stops with the input and without."""
    start = (False, 0, links, 0, ((asked, 0, False, False),) * links, ("turn", False))
    seen, todo, lost, stops = {start}, deque([start]), None, {False: False, True: False}
    while todo:
        state = todo.popleft()
        over, opened, busy, left, them, desk = state
        nexts = [] if over else [(True, opened, busy, left, them, desk)]
        nexts += [after for i in range(links) for after in step_link(body, state, i)]
        nexts += step_desk(body, state)
        if desk[0] == "done":
            stops[over] = True
            if left:
                lost = lost or state
        for after in nexts:
            if after not in seen:
                seen.add(after)
                todo.append(after)
    return len(seen), lost, all(stops.values())


def main():
    faults = []
    for body in BODIES:
        for numbers in [(1, 3), (2, 2), (3, 2)] if body == IN_USE else [(2, 2)]:
            states, lost, stops = search(body, *numbers)
            print(f"{body}, {numbers} links, calls: {states} states, {'loses' if lost else 'records all'}", flush=True)
            if bool(lost) != (body != IN_USE) or not stops:
                faults.append(f"{body}: {lost or 'nothing is found lost' if stops else 'the desk never stops'}")
    for fault in faults:
        print(fault, file=sys.stderr)
    return 1 if faults else 0


if __name__ == "__main__":
    sys.exit(main())

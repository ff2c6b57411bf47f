#!/usr/bin/env python3
"""Searches all schedules of callers of the shared queue for one that leaves a caller asleep.

The callers follow a model of how a call of `Shared` takes its turn, gives it back, sleeps and wakes: BODY below, the code of
crates/ldm_shared/src/steps.rt. Each line of it that reads or writes what callers share is one step of the model, a method of
`Now` under that line. A search goes through all orders in which the steps of some callers can follow one another. A caller is
left asleep where some have not made all their calls, and none can take a step. Three things that may happen at any moment are
among the steps: the system wakes any one of those that sleep; a caller that sleeps returns for no reason; and a caller stops
looking before it sleeps, so the search holds for every number of looks.

The program says first whether steps.rt still has BODY, and each such line its step. Then it tries `Now`, which is to leave
nobody asleep, and to keep in every state what the argument in the README of ldm_shared says of callers that sleep; and bodies that
are each to be found stuck: the one that was in use before, and some with one change.

Called as: search.py"""

import pathlib
import sys
from typing import NamedTuple

BODY = {
    "take": """
        let mut looks = 0;
        let mut slept = false;
        for _ in rt.forever() {
            let word = self.see(seat);
            if word >= WORN {
                self.take_over(seat);
                self.table.shared.wake_all(MAY_SLEEP);
                return Turn::Worn { turns: MOST_TURNS };
            }
            if word % 2 == 0 {
                if self.try_take(seat, word) == word {
                    self.speak(seat, slept);
                    return Turn::Done(());
                }
            } else if looks < LOOKS {
                looks += 1;
                spin_loop();
            } else {
                looks = 0;
                slept = true;
                self.sleep(rt, seat);
            }
        }
        unreachable!()""",
    "sleep": """
        self.say(seat);
        if self.table.shared.peek(TURNS) % 2 == 1 {
            self.table.shared.park(rt, MAY_SLEEP, 1);
        }""",
    "speak": """
        if slept {
            self.say(seat);
        }""",
    "end": """
        self.table.shared.fetch_add::<Add<C>>(seat, TURNS, 1);
        if self.take_over(seat) {
            self.table.shared.wake_one(MAY_SLEEP);
        }""",
    "take_over": """
        self.may_sleep() && self.table.shared.swap::<Say>(seat, MAY_SLEEP, 0) == 1""",
    "may_sleep": """
        self.table.shared.peek(MAY_SLEEP) == 1""",
    "say": """
        self.table.shared.store::<Say>(seat, MAY_SLEEP, 1);""",
}

# What a line has that reads or writes what callers share.
SHARED = ("self.may_sleep()", "self.take_over(", "self.say(", "self.see(", "self.try_take(", "self.table.shared.")

# Lines that another line, which calls them, stands for.
WITHIN = ("self.table.shared.peek(MAY_SLEEP) == 1", "self.table.shared.store::<Say>(seat, MAY_SLEEP, 1);")


class Caller(NamedTuple):
    at: str  # its next step, or "asleep", or "done"
    left: int  # calls that it has not ended, with the one that it makes
    word: int = 0  # the word that it saw
    slept: bool = False
    took_over: bool = False


class Queue(NamedTuple):
    word: int
    may_sleep: bool


def line(text):
    """The line of the body that a step is."""

    def mark(step):
        step.line = text
        return step

    return mark


class Now:
    """A step is given what callers share and the caller that takes it. It answers all that can come of it: what is shared then,
    the caller then, and who is woken."""

    def __init__(self, worn):
        self.worn = worn
        self.known = {}

    def step(self, queue, me):
        if (queue, me) not in self.known:
            self.known[queue, me] = getattr(self, me.at)(queue, me)
        return self.known[queue, me]

    # take

    @line("let word = self.see(seat);")
    def see(self, queue, me):
        me = me._replace(word=queue.word)
        if me.word >= self.worn:
            return [(queue, me._replace(at="worn_asks"), None)]
        return [(queue, me._replace(at="try_take" if me.word % 2 == 0 else "look"), None)]

    @line("self.take_over(seat);")
    def worn_asks(self, queue, me):
        return [(queue, me._replace(at="worn_takes_over" if queue.may_sleep else "wake_all"), None)]

    @line("self.take_over(seat);")
    def worn_takes_over(self, queue, me):
        return [(queue._replace(may_sleep=False), me._replace(took_over=queue.may_sleep, at="wake_all"), None)]

    @line("self.table.shared.wake_all(MAY_SLEEP);")
    def wake_all(self, queue, me):
        return [(queue, self.ended(me), "all")]

    @line("if self.try_take(seat, word) == word {")
    def try_take(self, queue, me):
        if queue.word != me.word:
            return [(queue, me._replace(at="see"), None)]
        return [(queue._replace(word=queue.word + 1), self.taken(me), None)]

    # it looks again, or no more: that reads nothing that is shared
    def look(self, queue, me):
        sleeps = (queue, me._replace(slept=True, at="say"), None)
        return [sleeps, (queue, me._replace(at="see"), None)]

    # sleep

    @line("self.say(seat);")
    def say(self, queue, me):
        return [(queue._replace(may_sleep=True), me._replace(at="see_again"), None)]

    @line("if self.table.shared.peek(TURNS) % 2 == 1 {")
    def see_again(self, queue, me):
        return [(queue, me._replace(at="park" if queue.word % 2 == 1 else "see"), None)]

    @line("self.table.shared.park(rt, MAY_SLEEP, 1);")
    def park(self, queue, me):
        return [(queue, me._replace(at="asleep" if queue.may_sleep else "see"), None)]

    # speak

    def taken(self, me):
        return me._replace(at="speak" if me.slept else "add")

    @line("self.say(seat);")
    def speak(self, queue, me):
        return [(queue._replace(may_sleep=True), me._replace(slept=False, at="add"), None)]

    # end, take_over

    @line("self.table.shared.fetch_add::<Add<C>>(seat, TURNS, 1);")
    def add(self, queue, me):
        return [(queue._replace(word=queue.word + 1), me._replace(at="asks"), None)]

    @line("if self.take_over(seat) {")
    def asks(self, queue, me):
        return [(queue, me._replace(at="takes_over") if queue.may_sleep else self.ended(me), None)]

    @line("self.may_sleep() && self.table.shared.swap::<Say>(seat, MAY_SLEEP, 0) == 1")
    def takes_over(self, queue, me):
        then = me._replace(took_over=True, at="wake_one") if queue.may_sleep else self.ended(me)
        return [(queue._replace(may_sleep=False), then, None)]

    @line("self.table.shared.wake_one(MAY_SLEEP);")
    def wake_one(self, queue, me):
        return [(queue, self.ended(me), "one")]

    # between steps

    awake = "see"  # the step of a caller that slept

    def ended(self, me):
        return Caller("see", me.left - 1) if me.left > 1 else Caller("done", 0)


class Before(Now):
    """The body that was in use before: callers slept on the word that they saw."""

    awake = "say_again"

    def say(self, queue, me):
        return [(queue._replace(may_sleep=True), me._replace(at="park"), None)]

    def park(self, queue, me):
        return [(queue, me._replace(at="asleep" if queue.word == me.word else self.awake), None)]

    def say_again(self, queue, me):
        return [(queue._replace(may_sleep=True), me._replace(slept=False, at="see"), None)]


class SeesNoMore(Now):
    """Does not look whether the turn is still taken, once it has said that it sleeps."""

    def say(self, queue, me):
        return [(queue._replace(may_sleep=True), me._replace(at="park"), None)]


class SaysItLate(Now):
    """Looks whether the turn is still taken, and then says that it sleeps."""

    def look(self, queue, me):
        return [(queue_then, me_then._replace(at=me_then.at.replace("say", "see_again")), None) for queue_then, me_then, _ in super().look(queue, me)]

    def see_again(self, queue, me):
        return [(queue, me._replace(at="say" if queue.word % 2 == 1 else "see"), None)]

    def say(self, queue, me):
        return [(queue._replace(may_sleep=True), me._replace(at="park"), None)]


class SpeaksForNone(Now):
    """A caller that slept does not speak for those that sleep still."""

    def taken(self, me):
        return me._replace(at="add")


class TakesOverAndForgets(Now):
    """Does not wake one where it took the sleepers over."""

    def takes_over(self, queue, me):
        return [(queue._replace(may_sleep=False), self.ended(me), None)]


class TakesOverEarly(Now):
    """Takes the sleepers over before it gives the turn back, and not after."""

    def taken(self, me):
        return me._replace(at="speak" if me.slept else "asks")

    def speak(self, queue, me):
        return [(queue._replace(may_sleep=True), me._replace(slept=False, at="asks"), None)]

    def asks(self, queue, me):
        return [(queue, me._replace(at="takes_over" if queue.may_sleep else "add"), None)]

    def takes_over(self, queue, me):
        return [(queue._replace(may_sleep=False), me._replace(took_over=queue.may_sleep, at="add"), None)]

    def add(self, queue, me):
        return [(queue._replace(word=queue.word + 1), me._replace(at="wake_one") if me.took_over else self.ended(me), None)]


class WornTakesNoneOver(Now):
    """A caller that finds the queue worn wakes all, and does not take them over."""

    def see(self, queue, me):
        return [(queue, me._replace(at=me.at.replace("worn_asks", "wake_all")), None) for queue, me, _ in super().see(queue, me)]


class WornWakesNone(Now):
    """A caller that finds the queue worn wakes nobody."""

    def wake_all(self, queue, me):
        return [(queue, self.ended(me), None)]


def following(body, state):
    """All states that a step leads to, and whether it is one that the callers need not wait for: not a return for no reason."""
    queue, callers = state
    for i, me in enumerate(callers):
        # Of callers that are at the same place one is enough.
        if me.at == "done" or (i > 0 and callers[i - 1] == me):
            continue
        others = callers[:i] + callers[i + 1 :]
        if me.at == "asleep":
            yield state_of(queue, (me._replace(at=body.awake), *others)), False
            continue
        for queue_then, me_then, woken in body.step(queue, me):
            for after in woken_of(body, others, woken):
                yield state_of(queue_then, (me_then, *after)), True


def woken_of(body, others, woken):
    """The other callers where one that sleeps is woken, whichever it is, or all are."""
    awake = [other._replace(at=body.awake) if other.at == "asleep" else other for other in others] if woken else others
    if woken != "one" or awake == list(others):
        return [awake]
    return [(*others[:k], awake[k], *others[k + 1 :]) for k, other in enumerate(others) if other.at == "asleep"]


def are_cared_for(queue, callers):
    """What holds wherever a caller sleeps: one took the sleepers over, and has not woken one yet; or one that slept is awake and
    has not spoken for others; or it is said that a caller may sleep, and whoever has the turn, or gave it back, will see that."""
    will_ask = queue.word % 2 == 1 or any(me.at in ("asks", "takes_over") for me in callers)
    return (
        all(me.at != "asleep" for me in callers)
        or any(me.took_over for me in callers)
        or any(me.slept and me.at != "asleep" for me in callers)
        or (queue.may_sleep and will_ask)
    )


def state_of(queue, callers):
    """It does not matter which caller is which, nor which of the words that are gone a caller saw."""
    word = queue.word
    return queue, tuple(sorted([me if me.word in (word, -1) else me._replace(word=-1) for me in callers]))


def search(body, callers, calls, keeps=lambda queue, callers: True):
    """How many states there are, and one in which some caller is left asleep, or that is not kept as it should be, or None."""
    begun = state_of(Queue(0, False), (Caller("see", calls),) * callers)
    seen, todo = {begun}, [begun]
    while todo:
        state = todo.pop()
        goes_on = all(me.at == "done" for me in state[1])
        for after, is_step in following(body, state):
            goes_on = goes_on or is_step
            if after not in seen:
                seen.add(after)
                todo.append(after)
        if not goes_on or not keeps(*state):
            return len(seen), state
    return len(seen), None


def code_of(source, function):
    """The lines of a function's body, without comments and blanks in front."""
    lines = iter(source.splitlines())
    for text in lines:
        if text.lstrip().removeprefix("pub(crate) ").startswith((f"fn {function}(", f"fn {function}<")):
            break
    if not text.endswith("{"):
        for text in lines:
            if text == "    {":
                break
    found = []
    for text in lines:
        if text == "    }":
            break
        if not text.lstrip().startswith("//"):
            found.append(text.strip())
    return found


def differences(source):
    """In what steps.rt differs from the model."""
    for function, text in BODY.items():
        if code_of(source, function) != [part.strip() for part in text.strip().splitlines()]:
            yield f"the body of {function} in steps.rt is not that of the model"
    shared = {part.strip() for text in BODY.values() for part in text.splitlines() if any(word in part for word in SHARED)}
    shared -= set(WITHIN)
    steps = {step.line for step in vars(Now).values() if hasattr(step, "line")}
    for text in shared ^ steps:
        yield f"the model has no step for a line of the body, or one too many: {text}"
    for word in ("MAY_SLEEP", "wake_one", "wake_all", "park("):
        outside = 1 if word == "MAY_SLEEP" else 0
        if sum(text.count(word) for text in BODY.values()) + outside != count(source, word):
            yield f"steps.rt has {word} outside of the functions of the model"


def count(source, word):
    return sum(text.count(word) for text in source.splitlines() if not text.lstrip().startswith("//"))


def main():
    source = (pathlib.Path(__file__).resolve().parents[2] / "crates/ldm_shared/src/steps.rt").read_text()
    faults = list(differences(source))
    never = 1 << 62
    # Callers, calls of each, and the word at which the queue is worn.
    sizes = [(2, 1, never), (2, 2, never), (3, 1, never), (3, 2, never), (4, 1, never), (4, 2, never)]
    sizes += [(3, 2, 4), (4, 2, 2)]
    for callers, calls, worn in sizes:
        states, stuck = search(Now(worn), callers, calls, are_cared_for)
        print(f"{callers} callers, {calls} calls each, worn {'never' if worn == never else f'after {worn // 2}'}: {states} states")
        if stuck:
            faults.append(f"a caller is left asleep, or not cared for: {stuck}")
    for body, callers, calls, worn in [
        (Before, 3, 1, never),
        (SeesNoMore, 2, 1, never),
        (SaysItLate, 3, 1, never),
        (SpeaksForNone, 3, 1, never),
        (TakesOverAndForgets, 3, 1, never),
        (TakesOverEarly, 3, 1, never),
        (WornTakesNoneOver, 4, 1, 2),
        (WornWakesNone, 3, 2, 2),
    ]:
        states, stuck = search(body(worn), callers, calls)
        print(f"{body.__name__}: {'stuck' if stuck else 'goes on'}, {states} states")
        if not stuck:
            faults.append(f"the search does not find that {body.__name__} leaves a caller asleep")
    for fault in faults:
        print(fault, file=sys.stderr)
    return 1 if faults else 0


if __name__ == "__main__":
    sys.exit(main())

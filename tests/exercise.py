#!/usr/bin/env python3
"""Writes the script of `ldm exercise NUMBER COUNT` as lines, plays it with `ldm play`, sums the answers up, and compares that with
what the exercise writes.

Called as: tests/exercise.py. The script is drawn as crates/ldm_exercise/specs/Orders.antt says.
"""

import hashlib
import subprocess
import sys

from program import PROGRAM

RUNS = [(7, 0), (7, 1000), (2**64 - 1, 1000), (1, 20000)]


def script(number, count):
    """The lines of the script."""
    state = number

    def draw():
        nonlocal state
        state = (state * 6364136223846793005 + 1442695040888963407) % 2**64
        return state // 2**32

    for actor in range(4):
        yield f"{actor} open ANY oldest\n"
    for i in range(count):
        r = draw()
        actor = r % 4
        choice = r // 4 % 8
        if choice <= 2:
            s = draw()
            d = draw()
            signature = "0" * 24 + (d % 1024).to_bytes(4, "big").hex()
            feed = 2 ** (d // 1024 % 32)
            body = f"{s % 40000}*{d % 256:02x}" if s % 40000 else "-"
            yield f"{actor} insert {1000000 + i} {signature} 0x{feed:08x} {i} h x {body}\n"
        elif choice <= 4:
            yield f"{actor} step {actor}\n"
        elif choice == 5:
            yield f"{actor} read {actor} 0 64\n"
        else:
            yield f"{actor} release {actor}\n"


def summary(number, count, answers):
    """The three lines, by the text of all answers."""
    fields = [line.split() for line in answers.splitlines()]
    told = []
    for word in ["admitted", "evicted", "duplicate", "locked", "product", "gap", "lost", "end"]:
        if word == "evicted":
            told.append(sum(int(f[3]) for f in fields if f[0] == "admitted"))
        elif word == "lost":
            told.append(sum(int(f[1]) for f in fields if f[0] == "gap"))
        else:
            told.append(sum(f[0] == word for f in fields))
        told[-1] = f"{word} {told[-1]}"
    digest = hashlib.md5(answers.encode()).hexdigest()
    return f"exercise {number} {count}\n{' '.join(told)}\nanswers {digest}\n"


def run(words, given):
    """What the program writes for these words; it has to end with 0."""
    done = subprocess.run([PROGRAM, *words], input=given, capture_output=True, text=True, check=True)
    return done.stdout


def main():
    for number, count in RUNS:
        answers = run(["play", "1048576", "1024"], "".join(script(number, count)))
        if answers.count("\n") != count + 4:
            sys.exit(f"the script of exercise {number} {count} is not played to its end")
        if run(["exercise", str(number), str(count)], "") != summary(number, count, answers):
            sys.exit(f"exercise {number} {count} does not sum up the answers to its script")


if __name__ == "__main__":
    main()

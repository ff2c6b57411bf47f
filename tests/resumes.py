#!/usr/bin/env python3
"""Plays random scripts in two parts and in three, kept in a file between them (`ldm save`, then `ldm resume`), and compares the answers
with those of one `ldm play`, in which all that is open is closed and discarded where the parts meet.

Called as: tests/resumes.py [COUNT]: so many scripts, 1,000 if it is not given.
"""

import pathlib
import random
import subprocess
import sys
import tempfile

from program import PROGRAM

ACTORS = 4
SIZES = [(64, 1), (168, 10), (1_120, 4), (4_096, 64), (65_536, 300)]


def lines_of(draw, count, arena):
    """Lines of one part. A cursor or a reservation is named only behind one that this part may have opened."""
    opened, reserved = set(), set()
    for _ in range(count):
        actor = draw.randrange(ACTORS)
        signature = f"{draw.randrange(24):032x}"
        choice = draw.randrange(16)
        if choice < 6:
            body = f"{draw.randrange(1, arena // 3)}*{draw.randrange(256):02x}"
            yield f"{actor} insert {draw.randrange(10**6)} {signature} {draw.choice(['DDS', 'IDS', '7'])} {draw.randrange(9)} h p {body}"
        elif choice == 6:
            opened.add(actor)
            yield f"{actor} open {draw.choice(['ANY', 'IDS'])} {draw.choice(['oldest', 'next', f'after {draw.randrange(10**6)}'])}"
        elif choice == 7:
            reserved.add(actor)
            yield f"{actor} reserve 5 {signature} DDS 1 h r {draw.randrange(1, arena // 3)}"
        elif choice < 11 and actor in opened:
            yield f"{actor} {draw.choice(['step .', 'step .', 'read . 0 64', 'release .', 'tally .'])}"
        elif choice < 13 and actor in reserved:
            yield f"{actor} {draw.choice([f'fill . {draw.randrange(1, 40)}*41', f'commit . {draw.randrange(10**6)}', 'discard .'])}"
        else:
            yield f"{actor} {draw.choice(['stat', 'expire', f'look {signature}'])}"


def run(words, lines):
    ran = subprocess.run([PROGRAM, *map(str, words)], input="".join(f"{line}\n" for line in lines), capture_output=True, text=True)
    if ran.returncode:
        sys.exit(f"resumes: {words} ends with {ran.returncode}: {ran.stderr}")
    return ran.stdout.splitlines()


def closings(answers, lines):
    """The lines that close and discard what a part has left open, by its answers."""
    cursors, reservations = {}, {}
    for line, answer in zip(lines, answers):
        actor, words = line.split()[0], answer.split()
        if words[0] == "opened":
            cursors[words[1]] = actor
        elif words[0] == "reserved":
            reservations[words[1]] = actor
    # one that is closed already, or another's, answers so, and nothing is changed
    return [f"{a} close {k}" for k, a in cursors.items()] + [f"{a} discard {r}" for r, a in reservations.items()]


def compare(number, folder):
    draw = random.Random(number)
    arena, slots = draw.choice(SIZES)
    parts = [list(lines_of(draw, draw.randrange(60), arena)) for _ in range(draw.choice([2, 2, 3]))]
    file = folder / "queue"
    kept = []
    for i, part in enumerate(parts):
        kept.append(run(["save", file, arena, slots] if i == 0 else ["resume", file], part))
    whole, shown = [], []
    for part, answers in zip(parts, kept):
        whole += part
        shown += [True] * len(part)
        closed = closings(answers, part)
        whole += closed
        shown += [False] * len(closed)
    played = [answer for answer, is_shown in zip(run(["play", arena, slots], whole), shown) if is_shown]
    if played != [answer for answers in kept for answer in answers]:
        (folder.parent / f"resumes.{number}").write_text("\n".join(whole))
        sys.exit(f"resumes: script {number} on a queue of {arena} bytes and {slots} slots is answered otherwise in parts")
    return sum(map(len, parts))


def main():
    count = int(sys.argv[1]) if sys.argv[1:] else 1_000
    with tempfile.TemporaryDirectory() as folder:
        lines = sum(compare(number, pathlib.Path(folder)) for number in range(count))
    print(f"{count} random scripts with {lines} lines are answered in parts as in one play")


main()

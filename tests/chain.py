#!/usr/bin/env python3
"""Runs `ldm chain` over random scripts, sizes, classes and rules, and compares what it writes with a plain program.

The queue of node 0 is told by `ldm play` of the same script, with a reader behind it. What each later node has is worked out here: the
products of the node before it that its class wants and the rules let it have, in order, in a queue that was empty.

Called as: tests/chain.py [COUNT]
"""

import os
import random
import re
import subprocess
import sys
import tempfile

from program import PROGRAM

PATTERNS = [".*", ".*", "^a", "b", "c$", "^(ab|c)", "^[^b]*$"]
ANY = 2**32 - 1


def run(words, script):
    done = subprocess.run([PROGRAM, *map(str, words)], input=script, capture_output=True, text=True, check=False)
    return done.returncode, done.stdout, done.stderr


def extent(fields):
    """The bytes that a product takes of the arena, by the fields ORIGIN IDENT SIZE."""
    origin, ident, size = fields
    padded = sum((len(text) + 3) // 4 * 4 for text in (origin, ident))
    return (44 + padded + int(size) + 7) // 8 * 8


def draw_script(draw, longest):
    for number in range(draw.randrange(40)):
        if draw.random() < 0.1:
            yield "0 expire\n"
        signature = draw.randrange(30).to_bytes(16, "big").hex()
        ident = "".join(draw.choice("abc") for _ in range(draw.randint(1, 5)))
        body = draw.choice([0, draw.randint(1, 20), draw.randint(1, longest)])
        yield f"0 insert {1000 + number} {signature} {draw.randrange(16)} {number} h{number % 7} {ident} {f'{body}*41' if body else '-'}\n"


def queued(script, arena, slots):
    """The fields ARRIVAL SIG FEED SEQNO ORIGIN IDENT SIZE of each product that a play of the script leaves in the queue and that has a
    feedtype."""
    reader = "1 open ANY oldest\n" + "1 step 0\n1 release 0\n" * slots
    status, answers, _ = run(["play", arena, slots], script + reader)
    assert status == 0
    answers = answers[answers.index("opened 0\n") :]
    return [line.split()[3:] for line in answers.splitlines() if line.startswith("product ")]


def is_due(fields, feed, pattern, rule):
    ident = fields[5]
    allowed, found, not_found = rule
    if not int(fields[2], 16) & feed & allowed or not re.search(pattern, ident):
        return False
    return bool(re.search(found, ident)) and not (not_found and re.search(not_found, ident))


def check(seed, folder):
    draw = random.Random(seed)
    arena = draw.choice([168, 1_000, 8_192, 262_144])
    slots = draw.choice([3, 10, 64])
    most = draw.choice([0, 3, 60, 16_384, ANY])
    script = "".join(draw_script(draw, draw.choice([30, 600, 50_000])))
    # 8 is of each class and of each rule, so none is reduced to nothing
    classes = [(draw.choice([15, 8 | draw.randrange(16)]), draw.choice(PATTERNS)) for _ in range(draw.randint(1, 7))]
    rule = (ANY, ".*", None)
    words = ["chain"]
    if draw.random() < 0.5:
        rule = (draw.choice([15, 8 | draw.randrange(16)]), draw.choice(PATTERNS), draw.choice([None, *PATTERNS[2:]]))
        conf = os.path.join(folder, "conf")
        with open(conf, "w", encoding="ascii") as file:
            file.write(" ".join(["ALLOW", str(rule[0]), ".*", *filter(None, rule[1:])]) + "\n")
        words += ["-a", conf]
    words += [arena, slots, most] + [word for asked in classes for word in asked]
    status, output, log = run(words, script)

    wanted = []
    products = queued(script, arena, slots)
    for node, (feed, pattern) in enumerate(classes, 1):
        products = [fields for fields in products if is_due(fields, feed, pattern, rule)]
        used = sum(extent(fields[4:]) for fields in products)
        wanted.append(f"node {node}")
        wanted += [f"product {number} .. {' '.join(fields)}" for number, fields in enumerate(products)]
        wanted.append(f"stat {len(products)} {len(products)} 0 {used} {arena - used}")
    # the times are those of the clock, and rise
    found = output.splitlines()
    last = 0
    for at, line in enumerate(found):
        fields = line.split()
        if fields[0] == "product":
            assert int(fields[2]) > (last if fields[1] != "0" else 0), f"the times of {words}"
            last = int(fields[2])
            found[at] = " ".join(["product", fields[1], "..", *fields[3:]])
    if (status, log, found) != (0, "", wanted):
        ended = f"{words} over\n{script}ends with {status} {log!r} and writes\n{output}in place of\n"
        sys.exit(f"chain: of seed {seed}, {ended}" + "\n".join(wanted))
    return sum(line.startswith("product") for line in found), len(found)


def main():
    count = int(sys.argv[1]) if sys.argv[1:] else 300
    with tempfile.TemporaryDirectory() as folder:
        told = [check(seed, folder) for seed in range(count)]
    products = sum(products for products, _ in told)
    # a comparison of empty chains would tell nothing
    if products < count:
        sys.exit(f"chain: {count} chains passed on {products} products")
    print(f"{count} random chains have the {products} products that a plain program has")


main()

"""As regexec.c, with Python's re: searches for each pattern of a file in so many idents, and prints the same two figures."""

import re
import sys
import time

with open(sys.argv[1], encoding="ascii") as file:
    searches = [re.compile(line.rstrip("\n")).search for line in file]
count, limit = int(sys.argv[2]), int(sys.argv[3])
found = 0
start = time.process_time()
for i in range(count):
    ident = str(i % limit)
    for search in searches:
        if search(ident):
            found += 1
print(f"{(time.process_time() - start) * 1e6 / count:.4f} {found}")

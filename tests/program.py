#!/usr/bin/env python3
"""Which program the checks try: release/ldm, or with LDM_BUILD=1 in the environment crates/ldm/out/ldm, which `rt ci` has built. Called as
a program this prints its path."""

import os
import pathlib

TOP = pathlib.Path(__file__).resolve().parent.parent
PROGRAM = TOP / ("crates/ldm/out/ldm" if os.environ.get("LDM_BUILD") == "1" else "release/ldm")


# The status of a check of which nothing was tried.
LEFT_OUT = 77


def leave_out(tool, what):
    """Says that a check, or a part of it, is not tried on this machine, and for want of what. tests/all gathers these lines."""
    print(f"left out without {tool}: {what}", flush=True)


if __name__ == "__main__":
    print(PROGRAM)

"""Where the cases of the drivers stand: in the folder of a crate crates/drive_*, of which the file stdin has a case a line and the file
stdout an answer a line."""

import pathlib
import sys

TOP = pathlib.Path(__file__).resolve().parent.parent


def driver_of(word):
    """The folder of the driver that has the cases whose lines begin with that word."""
    folders = [path.parent for path in sorted(TOP.glob("crates/drive_*/stdin")) if f"\n{word} " in "\n" + path.read_text()]
    if len(folders) != 1:
        sys.exit(f"{len(folders)} drivers have cases that begin with {word!r}")
    return folders[0]

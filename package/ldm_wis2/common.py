"""What both programs have in common: the line that ends one, their log, the program ldm, and a folder that one of them keeps to itself."""

import fcntl
import os
import pathlib
import shutil
import signal
import sys
import threading


class Failed(Exception):
    """What ends a program, as one line says it, and its status."""

    def __init__(self, reason, status=1):
        super().__init__(reason)
        self.status = status


USAGE = 64
FAULTY = 65


class Log:
    """Lines on standard error, which name the program. What comes from outside is shortened, and a control byte of it is a `?`."""

    def __init__(self, name, is_verbose=False):
        self.name = name
        self.is_verbose = is_verbose

    def tell(self, line):
        shown = "".join(letter if letter.isprintable() else "?" for letter in line[:400])
        # in one piece: lines of several threads may come at once
        sys.stderr.write(f"{self.name}: {shown}\n")
        sys.stderr.flush()

    def detail(self, line):
        if self.is_verbose:
            self.tell(line)


def find_program():
    """The program ldm. A script of that name, which may stay in front of it, is passed over: signals are for the program."""
    found = os.environ.get("LDM_COMMAND") or shutil.which("ldm")
    if not found:
        raise Failed("there is no ldm on the PATH")
    folder = pathlib.Path(found).resolve().parent
    for path in (folder.parent / "lib/ldm/ldm", folder / "release/ldm"):
        if path.is_file():
            return str(path)
    return found


def make_folder(path):
    try:
        path.mkdir(parents=True, exist_ok=True)
    except OSError as why:
        raise Failed(f"cannot make {path}: {why.strerror}") from None


def lock_folder(folder):
    """Keeps a second run from the same folder: both would take the same files. The lock lasts as long as the answer is kept."""
    make_folder(folder)
    try:
        lock = open(folder / "lock", "w")
        fcntl.flock(lock, fcntl.LOCK_EX | fcntl.LOCK_NB)
    except BlockingIOError:
        raise Failed(f"another run has {folder}") from None
    except OSError as why:
        raise Failed(f"cannot lock {folder}: {why.strerror}") from None
    return lock


def stop_on_signals():
    """An event that SIGTERM and SIGINT set, so that a run ends in order."""
    told = threading.Event()
    for number in (signal.SIGTERM, signal.SIGINT):
        signal.signal(number, lambda *_: told.set())
    return told

"""Asks a node by the tools of ldm."""

import os
import re
import select
import subprocess
import time
import typing

# How long a tool may take, in seconds; notices of a whole queue may take longer. Those of what is queued come without a rest: where none
# comes for so long, there are no more. Of a whole queue the last one is known by its number, but to a host that may not have all.
PATIENCE = 10
PATIENCE_FOR_NOTICES = 50
SILENCE = 5
SILENCE_OF_SOME = 2

# The status of arguments that are no form of a command.
USAGE = 64

REASON = re.compile(rb"ldm: [ -~]{1,400}")
NOTICE = re.compile(rb"notice (\d{1,16}) [0-9a-f]{32} 0x([0-9a-f]{8}) \d{1,10} ([!-~]{1,192}) ([!-~]{0,765}) (\d{1,10})")


class CannotAsk(Exception):
    """Why no node can be asked at all."""


class Notice(typing.NamedTuple):
    """A product that a node has: its arrival in microseconds since 1970; and when its notice came, if the product came after the asking."""

    arrival: int
    feed: int
    origin: str
    size: int
    came: typing.Optional[float]


def command():
    """The program that is run: ./ldm of a clone names itself."""
    return os.environ.get("LDM_COMMAND") or "ldm"


def ask(words, patience=PATIENCE):
    """What a tool writes, as bytes; and why it does not, as the last line of its log. One of them is None."""
    try:
        done = subprocess.run([command(), *words], stdin=subprocess.DEVNULL, capture_output=True, timeout=patience, check=False)
    except subprocess.TimeoutExpired:
        return None, f"ldm: no answer in {patience} seconds"
    except OSError as why:
        raise CannotAsk(f"cannot run ldm: {why.strerror}") from None
    return (done.stdout, None) if done.returncode == 0 else (None, _reason(words, done.returncode, done.stderr))


def _reason(words, status, log):
    reason = (log.splitlines() or [b""])[-1]
    reason = reason.decode() if REASON.fullmatch(reason) else f"ldm: status {status}"
    if status == USAGE:
        raise CannotAsk(f"ldm {words[0]} ends with {USAGE}, {reason}")
    return reason


class Notices:
    """The notices of what a node has queued, oldest first, and of what comes in the next seconds. `reason` tells why they are not all."""

    def __init__(self, node, count, live=0, more=()):
        self.words = ["notifyme", *more, "-q", node]
        self.count = count
        self.live = live
        self.silence = SILENCE_OF_SOME if more else SILENCE
        self.reason = None

    def __iter__(self):
        streams = {"stdin": subprocess.DEVNULL, "stdout": subprocess.PIPE, "stderr": subprocess.PIPE}
        try:
            program = subprocess.Popen([command(), *self.words], **streams)
        except OSError as why:
            raise CannotAsk(f"cannot run ldm: {why.strerror}") from None
        with program:
            ended = False
            try:
                for line in self._lines(program.stdout.fileno()):
                    if line is None:
                        ended = True
                    else:
                        yield line
            finally:
                if not ended:
                    program.kill()
            if ended:
                log = program.stderr.read()
                status = program.wait()
                self.reason = _reason(self.words, status, log) if status else None

    def _lines(self, output):
        """The notices of a stream; None where it ends by itself."""
        last = time.monotonic() + PATIENCE_FOR_NOTICES
        seen = 0
        live_until = None
        rest = b""
        while True:
            now = time.monotonic()
            if live_until is None and seen >= self.count:
                live_until = now + self.live
            wait = min(last, live_until or now + self.silence) - now
            if wait <= 0 or not select.select([output], [], [], wait)[0]:
                if live_until is None and time.monotonic() >= last:
                    self.reason = f"ldm: more notices than come in {PATIENCE_FOR_NOTICES} seconds"
                return
            piece = os.read(output, 1 << 16)
            came = time.time()
            if not piece:
                yield None
                return
            *lines, rest = (rest + piece).split(b"\n")
            for line in lines:
                seen += 1
                found = NOTICE.fullmatch(line)
                if found:
                    is_live = live_until is not None
                    yield Notice(int(found[1]), int(found[2], 16), found[3].decode(), int(found[5]), came if is_live else None)

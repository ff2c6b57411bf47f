"""`ldm pqact`, which gives each product that a rule names to wis2-take."""

import ctypes
import os
import re
import signal
import subprocess
import time

from .common import FAULTY, Failed

PR_SET_PDEATHSIG = 1

# How long it rests behind an end, in seconds.
REST = 5

# What no further start makes better: arguments, a faulty file, a queue that there is not.
NO_BETTER = (64, 65, 67)


def entries(number, rule, take, spool):
    """The entries of a rule: the body goes into a file, and then wis2-take moves that to the others. The pattern stands in a group that is
    the whole ident, so that groups of the topic count from 2. The file is this run's alone: of a run that was killed a wis2-take may be
    left, which moves its own."""
    body = spool / f"body.{os.getpid()}"
    topic = re.sub(r"\\([1-8])", lambda group: f"\\{int(group[1]) + 1}", rule.topic)
    front = f"{rule.feed}\t^((?s:.*?)(?:{rule.pattern})(?s:.*))$\t"
    return (
        f'{front}FILE\t-overwrite -close "{body}"\n'
        f'{front}EXEC\t-wait "{take}" "{body}" "{spool}/%Y%m%d%H%M%S" {number} "{topic}" "\\1"\n'
    )


class Actions:
    """The process of `ldm pqact`. It ends where its node does, and is started again a while later."""

    def __init__(self, program, take, settings, spool, log):
        self.program = program
        self.log = log
        self.conf = settings.state / "pqact.conf"
        self.words = ["pqact", "-a", settings.arena, "-s", settings.state / "pqact.state", self.conf, settings.node]
        self.process = None
        self.next_start = 0
        self.check(settings.rules)
        self.conf.write_text("".join(entries(number, rule, take, spool) for number, rule in enumerate(settings.rules)))

    def check(self, rules):
        """Tells the first rule whose feed or pattern means nothing to pqact: each has a line of its own."""
        # by itself no pattern may close the group in which it will stand
        self.conf.write_text("".join(f"{rule.feed}\t{rule.pattern or '.*'}\tNOOP\n" for rule in rules))
        done = subprocess.run([self.program, "check", "-p", str(self.conf)], stdin=subprocess.DEVNULL, capture_output=True, text=True)
        found = re.search(rf"^{re.escape(str(self.conf))}:([0-9]+): ([^\n]*)", done.stdout, re.MULTILINE)
        if done.returncode and found:
            raise Failed(f"[rule {rules[int(found[1]) - 1].name}]: {found[2]}", FAULTY)
        if done.returncode:
            raise Failed(f"ldm check ends with {done.returncode}: {done.stderr.strip()}", FAULTY)

    def tend(self):
        """Starts it where it does not run and is due."""
        if self.process:
            status = self.process.poll()
            if status is None:
                return
            self.process = None
            self.next_start = time.monotonic() + REST
            if status in NO_BETTER:
                raise Failed(f"ldm pqact ends with {status}", FAULTY)
            self.log.tell(f"ldm pqact ends with {status}, and is started again in {REST} seconds")
        if time.monotonic() >= self.next_start:
            parent = os.getpid()
            words = [self.program, *map(str, self.words)]
            self.process = subprocess.Popen(words, stdin=subprocess.DEVNULL, preexec_fn=lambda: end_with(parent))

    def stop(self):
        """Ends it; what it had in hand comes again at the next start."""
        if self.process:
            self.process.terminate()
            self.process.wait()
            self.process = None


def end_with(parent):
    """Has the system end this process where the one that starts it is killed: else the next run would have two of them."""
    ctypes.CDLL(None).prctl(PR_SET_PDEATHSIG, signal.SIGTERM)
    if os.getppid() != parent:
        os.kill(os.getpid(), signal.SIGTERM)

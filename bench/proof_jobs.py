"""The processes of a run that proves crates, by what they are for: what bench/proof and .ci/progress read of /proc.

A job is a process whose command line tells what it is for, with all that it starts. `rt ci` starts `rattle` in the folder of a crate for
its proof, for the proof of its tests (`--test`) and for its program; and in a folder of its own, whose name begins with rt-edit-, for each
try of an edit. What it tries there first of each crate is the crate as it stands, once more, over a folder `seed` in which each edit of
that crate then begins. Programs and tests run in folders whose names begin with rt-run-."""

import contextlib
import dataclasses
import os
import re

TICKS = os.sysconf("SC_CLK_TCK")

PROOF, TESTS, SECOND, EDIT, PROGRAM, RUN, SCRIPT, CHECKS = KINDS = (
    "proofs of crates",
    "proofs of their tests",
    "second proofs that edits begin with",
    "edits that must fail",
    "compiling and linking programs",
    "running programs and tests",
    "edits that a script of tests/ tries",
    "tests/all",
)
COMPILERS = ("rattle-link", "clang", "ld.lld", "lld", "llvm-nm")


@dataclasses.dataclass
class Job:
    kind: str
    crate: str | None
    # of an edit that is tried over what was proved: its number in its crate
    number: str | None = None
    seconds: float = 0
    peak_mb: float = 0
    runs: bool = True


def job_of(command, folder):
    """The job that a process of this command line in this folder begins, if it begins one."""
    for word in command[:3]:
        if re.search(r"(^|/)tests/(all|edits\w*(/\w+)?)$", word):
            return Job(CHECKS if word.endswith("/all") else SCRIPT, None)
    name = os.path.basename(command[0])
    if name == "rattle" and command[1:2] in (["build"], ["check"]) and "--crate-name" in command:
        crate = command[command.index("--crate-name") + 1]
        if "/rt-edit-" in folder:
            over = os.path.basename(command[command.index("--incremental") + 1]) if "--incremental" in command else None
            return Job(SECOND, crate) if over == "seed" else Job(EDIT, crate, over)
        return Job(TESTS if "--test" in command else PROGRAM if "--crate-checked" in command else PROOF, crate)
    if "/rt-run-" in folder:
        return Job(RUN, None)
    if name in COMPILERS:
        return Job(PROGRAM, os.path.basename(folder))
    return None


class Jobs:
    """The jobs below a process. Of each it has the processor time at the last look, so up to a second of it may be missing where it is
    looked at each second."""

    def __init__(self, root):
        self.root = root
        # by the number of the process and the moment at which it began
        self.jobs = {}

    def look(self):
        below, times = {}, {}
        for number in map(int, filter(str.isdigit, os.listdir("/proc"))):
            with contextlib.suppress(OSError), open(f"/proc/{number}/stat", "rb") as file:
                fields = file.read().rpartition(b")")[2].split()
                below.setdefault(int(fields[1]), []).append(number)
                # its own time, and that of its children which ended
                times[number] = sum(map(int, fields[11:15])) / TICKS, fields[19]
        for job in self.jobs.values():
            job.runs = False
        sums = {}
        todo = [(number, None) for number in below.get(self.root, [])]
        while todo:
            number, owner = todo.pop()
            seconds, began = times[number]
            owner = owner or self.job(number, began)
            if owner:
                sums[id(owner)] = owner, sums.get(id(owner), (owner, 0))[1] + seconds
                owner.peak_mb = max(owner.peak_mb, peak_mb(number))
            todo += [(child, owner) for child in below.get(number, [])]
        for job, seconds in sums.values():
            job.seconds, job.runs = max(job.seconds, seconds), True

    def job(self, number, began):
        key = number, began
        if key not in self.jobs:
            with contextlib.suppress(OSError, IndexError):
                with open(f"/proc/{number}/cmdline", "rb") as file:
                    command = os.fsdecode(file.read()).split("\0")
                job = job_of(command, os.readlink(f"/proc/{number}/cwd"))
                if job:
                    self.jobs[key] = job
        return self.jobs.get(key)

    def running(self):
        return [job for job in self.jobs.values() if job.runs]


def peak_mb(number):
    """The most memory that a process had resident, in MB."""
    with contextlib.suppress(OSError), open(f"/proc/{number}/status") as file:
        for line in file:
            if line.startswith("VmHWM:"):
                return int(line.split()[1]) * 1024 / 1e6
    return 0


def crates_of(top):
    """The crates of crates.txt, each with those of them that it stands on."""
    stands_on = {}
    with open(f"{top}/crates.txt", encoding="utf-8") as file:
        for line in file:
            name, colon, others = line.partition("#")[0].partition(":")
            if colon:
                stands_on[name.split()[0]] = others.split()
    return {name: [other for other in others if other in stands_on] for name, others in stands_on.items()}


# What a line of bench/results/proof has of a crate behind its name: the seconds of its proof, its peak, and the seconds of the rest.
COLUMNS = (PROOF, "MB at most", SECOND, EDIT, TESTS, PROGRAM)


def read_figures(path):
    """What a file of bench/proof has: of each crate its figures by the names of COLUMNS, as many as it has."""
    figures = {}
    with contextlib.suppress(OSError), open(path, encoding="utf-8") as file:
        for line in file:
            if not line.startswith("#"):
                crate, _, *values = line.rstrip("\n").split("\t")
                figures[crate] = dict(zip(COLUMNS, map(float, values)))
    return figures

"""What the system tells of a node on this machine: who is connected to its port, and, to whoever may see its process, when it began and
to whom it is connected."""

import collections
import ipaddress
import os
import pathlib
import re
import socket
import struct
import subprocess
import typing

CONNECTED, LISTENS = "01", "0A"
# How long systemctl and journalctl may take, in seconds.
PATIENCE = 20


class Row(typing.NamedTuple):
    """A line of the system's tables of TCP."""

    address: str
    port: int
    peer: str
    peer_port: int
    state: str
    inode: str


class Process(typing.NamedTuple):
    began: float
    # the address and port of each host that it is connected to at a port of theirs
    asked: set


def is_here(host):
    """Whether a host is this machine, by its loopback."""
    try:
        return ipaddress.ip_address(host).is_loopback
    except ValueError:
        return host == "localhost"


def addresses(host):
    """The addresses that a name has here."""
    try:
        return {found[4][0] for found in socket.getaddrinfo(host, None, proto=socket.IPPROTO_TCP)}
    except OSError:
        return set()


def rows():
    for name in ("tcp", "tcp6"):
        try:
            lines = pathlib.Path("/proc/net", name).read_text().splitlines()[1:]
        except OSError:
            continue
        for fields in map(str.split, lines):
            yield Row(*end(fields[1]), *end(fields[2]), fields[3], fields[9])


def end(text):
    """The address and port of an end, which the table has in the order of bytes of this machine."""
    digits, port = text.split(":")
    words = [struct.pack("=I", int(digits[at : at + 8], 16)) for at in range(0, len(digits), 8)]
    address = ipaddress.ip_address(b"".join(words))
    return str(getattr(address, "ipv4_mapped", None) or address), int(port, 16)


def peers(port, table):
    """How many connections each address has to a port of this machine."""
    return collections.Counter(row.peer for row in table if row.port == port and row.state == CONNECTED)


def process_at(port, table):
    """The process that listens at a port, where this user may see it."""
    listening = {row.inode for row in table if row.port == port and row.state == LISTENS}
    for folder in pathlib.Path("/proc").glob("[0-9]*"):
        sockets = sockets_of(folder)
        if listening & sockets:
            asked = {
                (row.peer, row.peer_port) for row in table
                if row.inode in sockets and row.state == CONNECTED and row.port != port
            }  # fmt: skip
            return Process(began(folder), asked)
    return None


def sockets_of(folder):
    found = set()
    try:
        for link in os.scandir(folder / "fd"):
            match = re.fullmatch(r"socket:\[(\d+)\]", os.readlink(link.path))
            found.update(match.groups() if match else ())
    except OSError:
        pass
    return found


def began(folder):
    """When a process began, in seconds since 1970."""
    ticks = (folder / "stat").read_text().rpartition(")")[2].split()[19]
    boot = re.search(r"^btime (\d+)$", pathlib.Path("/proc/stat").read_text(), re.MULTILINE)
    return int(boot[1]) + int(ticks) / os.sysconf("SC_CLK_TCK")


def unit_began(unit):
    """When a unit of systemd became active, in seconds since 1970, or None."""
    words = ["systemctl", "show", "--timestamp=unix", "-p", "ActiveState", "-p", "ActiveEnterTimestamp", unit]
    output = run(words) or ""
    found = re.search(r"^ActiveEnterTimestamp=@(\d+)$", output, re.MULTILINE)
    return int(found[1]) if found and "ActiveState=active" in output else None


def reads_journal():
    """Whether this user may read the journal of the system: to who may not, journalctl shows nothing, and says nothing of that."""
    files = [file for folder in ("/var/log/journal", "/run/log/journal") for file in pathlib.Path(folder).glob("*/system.journal")]
    return any(os.access(file, os.R_OK) for file in files)


def run(words):
    """What a command writes, or None."""
    try:
        done = subprocess.run(words, stdin=subprocess.DEVNULL, capture_output=True, text=True, timeout=PATIENCE, check=False)
    except (OSError, subprocess.TimeoutExpired):
        return None
    return done.stdout if done.returncode == 0 else None

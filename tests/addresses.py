#!/usr/bin/env python3
"""Looks at the links over TCP of nodes and tools from more addresses than 127.0.0.1.

A peer comes to a node from 127.0.0.2, and where the machine has IPv6, from ::1; a tool calls a node there, and a host of two addresses of
which one answers. Programs that were stopped while they wait for bytes wait on. A node listens at once at a port where one before it ended
its links first.

Called as: tests/addresses.py [PROGRAM [CASE ..]]. The program is that of tests/program.py, where none is named; with names of cases only
these are tried."""

import contextlib
import pathlib
import signal
import socket
import subprocess
import sys

import nodes
from nodes import HOST, try_case, until
from peers import PATIENCE, QSTAT, Peer, Stat, call, expect, hold_port, number, port_of, reply
from program import leave_out

SECOND = "127.0.0.2"
THIRD = "::1"

# Runs a program that sees another list of hosts.
WITH_HOSTS = ["unshare", "-rm", "sh", "-c", 'mount --bind "$0" /etc/hosts && exec "$@"']

# What a peer answers to who asks for its figures.
FIGURES = Stat(5, 4, 3, 200, 100)


def allow(address):
    """A line that lets that address ask for figures, and no other one."""
    return f"ALLOW ANY ^{address.replace('.', '[.]')}$\n"


def connect(target, port, source):
    """A peer from that address of this machine."""
    connection = socket.create_connection((target, port), PATIENCE, source_address=(source, 0))
    connection.settimeout(PATIENCE)
    return Peer(connection)


def tells_address(place, target, source):
    """A node whose rules let that one address in knows a peer by it: in its log, and as it denies who comes from elsewhere."""
    node = place.node(allow(source))
    with connect(target, node.port, source) as peer:
        expect(peer.stat() is None, False, f"whether a peer from {source} is denied")
    node.until_logged(f"session {source} ended")
    with connect(HOST, node.port, HOST) as peer:
        expect(peer.stat(), None, f"what a peer from {HOST} is told where {source} is let in")


def hears_from_a_second_address(place):
    tells_address(place, HOST, SECOND)


def hears_from_ipv6(place):
    if has_ipv6():
        tells_address(place, THIRD, THIRD)
    else:
        leave_out("IPv6", "links over it")


def is_in_state(program, letter):
    """Whether the program is in that state, as the system names it."""
    return pathlib.Path(f"/proc/{program.pid}/stat").read_text().rpartition(")")[2].split()[0] == letter


def stop_and_go_on(program):
    for order, letter in ((signal.SIGCONT, "S"), (signal.SIGSTOP, "T"), (signal.SIGCONT, "S")):
        program.send_signal(order)
        until(lambda: is_in_state(program, letter), f"a program in the state {letter}")


def waits_on_where_it_was_stopped(place):
    """A node that waits for the calls of a peer, and a tool that waits for a reply, are stopped and go on."""
    node = place.node(nodes.OPEN)
    with node.connect() as peer:
        before = peer.stat()
        stop_and_go_on(node.program)
        expect(peer.stat(), before, "what a node that was stopped answers")
    with socket.create_server((HOST, 0)) as listener:
        expect(called(place, HOST, listener, stop_and_go_on), HOST, "where a tool that was stopped calls from")


def is_held(port):
    """Whether the system refuses the port to a listener that does not ask for its reuse."""
    with socket.socket(socket.AF_INET6 if has_ipv6() else socket.AF_INET) as listener:
        try:
            listener.bind(("", port))
            return False
        except OSError:
            return True


def listens_where_one_was(place):
    """Two nodes at one port, one after the other. The first ends its link before the peer does, so that the system holds the port."""
    with hold_port() as holder:
        port = port_of(holder)
        node = place.node(nodes.OPEN, port=port)
        with node.connect() as peer:
            peer.stat()
            node.stop()
            with contextlib.suppress(ConnectionResetError):
                expect(peer.connection.recv(1), b"", "what comes of a node that was killed")
    expect(is_held(port), True, "whether the system holds the port")
    with place.node(nodes.OPEN, port=port).connect() as peer:
        expect(peer.stat() is None, False, "whether a peer is denied")


def called(place, host, listener, delay=lambda program: None, before=()):
    """From which address a tool calls that host, where the listener answers it."""
    listener.settimeout(PATIENCE)
    output = place.folder / "figures"
    words = [*before, nodes.PROGRAM, "pqmon", "-q", f"{host}:{port_of(listener)}"]
    with open(output, "wb") as file:
        program = subprocess.Popen([*map(str, words)], stdin=subprocess.DEVNULL, stdout=file)
    place.running.append(program)
    connection, address = listener.accept()
    with connection:
        peer = Peer(connection)
        expect(peer.next_record(), call(1, QSTAT)[4:], "what pqmon asks")
        delay(program)
        peer.send(reply(1, number(0) + b"".join(figure.to_bytes(8, "big") for figure in FIGURES)))
        expect((program.wait(PATIENCE), output.read_text()), (0, FIGURES.line()), f"pqmon at {host}")
    return address[0]


def calls_a_host_of_two_addresses(place):
    """One of them answers, the one and then the other."""
    hosts = place.folder / place.file("hosts", f"{SECOND} two-addresses\n{HOST} two-addresses\n")
    before = [*WITH_HOSTS, hosts]
    try:
        subprocess.run([*before, "true"], check=True, stderr=subprocess.DEVNULL)
    except (OSError, subprocess.CalledProcessError):
        leave_out("another list of hosts for a program", "a host of two addresses")
        return
    for at in (HOST, SECOND):
        # the port is held at the other addresses too, so that nobody answers there
        with hold_port() as holder, socket.create_server((at, port_of(holder))) as listener:
            called(place, "two-addresses", listener, before=before)


def calls_ipv6(place):
    if has_ipv6():
        with socket.create_server((THIRD, 0), family=socket.AF_INET6) as listener:
            expect(called(place, THIRD, listener), THIRD, "where pqmon calls from")
    # (what is left out without it was said)


def has_ipv6():
    try:
        with socket.socket(socket.AF_INET6) as listener:
            listener.bind((THIRD, 0))
            return True
    except OSError:
        return False


CASES = [
    hears_from_a_second_address,
    hears_from_ipv6,
    waits_on_where_it_was_stopped,
    listens_where_one_was,
    calls_a_host_of_two_addresses,
    calls_ipv6,
]


def main():
    if sys.argv[1:]:
        nodes.PROGRAM = pathlib.Path(sys.argv[1]).resolve()
    cases = [case for case in CASES if not sys.argv[2:] or case.__name__ in sys.argv[2:]]
    sys.exit(not all([try_case(case) for case in cases]))


main()

"""Fetches a product from a web server that a stranger named: within bounds, and from no place that only this site can reach."""

import http.client
import ipaddress
import os
import socket
import ssl
import threading
import time
import urllib.parse

from .notification import Wrong

REDIRECTIONS = 3
PIECE = 65_536
PORTS = {"http": 80, "https": 443}


class Unreachable(Exception):
    """Why a product did not come, which may be otherwise at another time."""


def is_public(address):
    """Whether an address is one of the whole internet: no loopback, no private network, no link-local one, as of a cloud's own services."""
    found = ipaddress.ip_address(address.partition("%")[0])
    if found.version == 6:
        # one that stands for an address of IPv4 is that one
        found = found.ipv4_mapped or found.sixtofour or found
    return found.is_global and not found.is_multicast


def open_link(host, port, seconds, allow_private):
    """A connection to a host. The address that is looked at is the one that is called, so no second answer of a name server counts."""
    reason = "it has no address"
    for family, kind, protocol, _, address in socket.getaddrinfo(host, port, type=socket.SOCK_STREAM):
        if not allow_private and not is_public(address[0]):
            raise Wrong(f"its host {host} has the address {address[0]}, which is not public")
        link = socket.socket(family, kind, protocol)
        try:
            link.settimeout(seconds)
            link.connect(address)
            if not allow_private and link.getpeername()[0] == link.getsockname()[0]:
                raise Wrong(f"its host {host} is this machine")
            return link
        except OSError as why:
            link.close()
            reason = why.strerror or str(why)
        except BaseException:
            link.close()
            raise
    raise Unreachable(f"{host}: {reason}")


class Deadline:
    """The moment by which all has to have come. Then the connection is shut: a peer that sends a byte now and then could keep it for
    ever."""

    def __init__(self, seconds):
        self.seconds = seconds
        self.last = time.monotonic() + seconds

    def left(self):
        left = self.last - time.monotonic()
        if left <= 0:
            raise Unreachable(f"it did not come within {self.seconds} seconds")
        return left

    def watch(self, link):
        """A timer that shuts the connection; it has a handle of its own, since that of the link may be closed first."""
        handle = socket.socket(fileno=os.dup(link.fileno()))

        def shut():
            try:
                handle.shutdown(socket.SHUT_RDWR)
            except OSError:
                # it has ended
                pass

        timer = threading.Timer(self.left(), shut)
        timer.daemon = True
        timer.start()
        return timer, handle


class Fetcher:
    def __init__(self, settings):
        self.settings = settings
        self.context = ssl.create_default_context(cafile=settings.cafile or None)

    def fetch(self, url, path):
        """Writes what is at that address to a file; raises Wrong where it is not to be had from there, and Unreachable."""
        deadline = Deadline(self.settings.seconds)
        for _ in range(REDIRECTIONS + 1):
            further = self.fetch_once(url, path, deadline)
            if further is None:
                return
            url = self.redirected(url, further)
        raise Wrong(f"its link leads on more than {REDIRECTIONS} times")

    def redirected(self, url, further):
        """Where a link leads on: never from https to http, and never to another scheme."""
        to = urllib.parse.urljoin(url, further)
        before, behind = urllib.parse.urlsplit(url).scheme, urllib.parse.urlsplit(to).scheme
        if behind not in PORTS or (before == "https" and behind != "https"):
            raise Wrong(f"its link leads on to {to}")
        return to

    def fetch_once(self, url, path, deadline):
        """Answers where the link leads on, or None where the file is here."""
        timer = handle = link = None
        try:
            parts = urllib.parse.urlsplit(url)
            if not parts.hostname:
                raise Wrong(f"its link leads to {url}")
            link = open_link(parts.hostname, parts.port or PORTS[parts.scheme], deadline.left(), self.settings.allow_private)
            timer, handle = deadline.watch(link)
            if parts.scheme == "https":
                link = self.context.wrap_socket(link, server_hostname=parts.hostname)
            further = self.ask(link, parts, path)
            # a connection that was shut at the deadline looks as if it had ended well, where no length tells otherwise
            deadline.left()
            return further
        except (OSError, http.client.HTTPException, ValueError) as why:
            # a connection that was shut at the deadline says something else
            deadline.left()
            raise Unreachable(f"{url}: {getattr(why, 'strerror', None) or why or type(why).__name__}") from None
        finally:
            if timer:
                timer.cancel()
                handle.close()
            if link:
                link.close()

    def ask(self, link, parts, path):
        connection = http.client.HTTPConnection(parts.hostname, parts.port or PORTS[parts.scheme])
        connection.default_port = PORTS[parts.scheme]
        connection.sock = link
        target = urllib.parse.urlunsplit(("", "", parts.path or "/", parts.query, ""))
        connection.request("GET", target, headers={"User-Agent": "ldm-from-wis2", "Accept-Encoding": "identity", "Connection": "close"})
        response = connection.getresponse()
        if response.status in (301, 302, 303, 307, 308) and response.headers["Location"]:
            return response.headers["Location"]
        if response.status != 200:
            raise Unreachable(f"{parts.geturl()}: status {response.status}")
        self.take_body(response, path)
        return None

    def take_body(self, response, path):
        most = self.settings.bytes
        size = 0
        with open(path, "wb") as file:
            if (response.length or 0) > most:
                raise Wrong(f"its product has {response.length} bytes, more than {most}")
            while piece := response.read1(PIECE):
                size += len(piece)
                if size > most:
                    raise Wrong(f"its product has more than {most} bytes")
                file.write(piece)
        # read1 does not tell a body that breaks off
        if response.length:
            raise http.client.HTTPException(f"it breaks off {response.length} bytes before its end")

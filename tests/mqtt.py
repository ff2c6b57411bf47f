"""A plain client of MQTT 3.1.1, and the rows of the WIS 2 Notification Message standard, for tests/wis2."""

import base64
import datetime
import hashlib
import json
import re
import socket
import struct
import threading
import time

CONNECT, CONNACK, PUBLISH, PUBACK, SUBSCRIBE, SUBACK, PINGREQ, DISCONNECT = 1, 2, 3, 4, 8, 9, 12, 14

CORE = "http://wis.wmo.int/spec/wnm/1/conf/core"
MOMENT = r"[0-9]{4}-[0-9]{2}-[0-9]{2}T[0-9]{2}:[0-9]{2}:[0-9]{2}Z"


def text(value):
    value = value.encode()
    return struct.pack(">H", len(value)) + value


def packet(kind, flags, body):
    length, size = b"", len(body)
    while True:
        size, low = divmod(size, 128)
        length += bytes([low | (128 if size else 0)])
        if not size:
            return bytes([kind << 4 | flags]) + length + body


class Client:
    """A connection to a broker at that port of this machine, with its session kept for the next one where it is not clean."""

    def __init__(self, port, name, is_clean=True):
        self.link = socket.create_connection(("127.0.0.1", port), 30)
        self.number = 0
        self.link.sendall(packet(CONNECT, 0, text("MQTT") + bytes([4, 2 if is_clean else 0]) + struct.pack(">H", 0) + text(name)))
        kind, _, body = self.read()
        assert (kind, body[1]) == (CONNACK, 0), (kind, body)

    def read(self):
        kind = self.exactly(1)[0]
        size = shift = 0
        while True:
            byte = self.exactly(1)[0]
            size |= (byte & 127) << shift
            shift += 7
            if byte < 128:
                return kind >> 4, kind & 15, self.exactly(size)

    def exactly(self, size):
        content = b""
        while len(content) < size:
            piece = self.link.recv(size - len(content))
            if not piece:
                raise ConnectionError("the broker ended the connection")
            content += piece
        return content

    def subscribe(self, topic):
        self.link.sendall(packet(SUBSCRIBE, 2, struct.pack(">H", 1) + text(topic) + b"\1"))
        kind, _, body = self.read()
        assert (kind, body[2]) == (SUBACK, 1), (kind, body)

    def publish(self, topic, payload):
        """Publishes with QoS 1, and waits until the broker has acknowledged it."""
        self.number = self.number % 65_535 + 1
        self.link.sendall(packet(PUBLISH, 2, text(topic) + struct.pack(">H", self.number) + payload))
        kind, _, body = self.read()
        assert (kind, body) == (PUBACK, struct.pack(">H", self.number)), (kind, body)

    def message(self):
        """The next message, which is acknowledged."""
        kind, flags, body = self.read()
        assert kind == PUBLISH and flags >> 1 & 3 == 1, (kind, flags)
        size = struct.unpack(">H", body[:2])[0]
        self.link.sendall(packet(PUBACK, 0, body[2 + size : 4 + size]))
        return body[2 : 2 + size].decode(), body[4 + size :]

    def close(self):
        self.link.close()


class Subscriber(threading.Thread):
    """Keeps all that a broker sends for a topic, also while that is stopped and started again."""

    def __init__(self, port, topic):
        super().__init__(daemon=True)
        self.port, self.topic = port, topic
        self.messages = []
        self.subscribed = threading.Event()
        self.start()

    def run(self):
        while True:
            try:
                client = Client(self.port, "subscriber-of-the-test", is_clean=False)
                # later the broker knows that, and begins with what it has for this name
                if not self.subscribed.is_set():
                    client.subscribe(self.topic)
                    self.subscribed.set()
                client.link.settimeout(None)
                while True:
                    self.messages.append(client.message())
            except (OSError, AssertionError):
                time.sleep(0.1)


# What the standard asks of a notification: the field, the rule, and whether a message keeps it.

def is_moment(value):
    return isinstance(value, str) and re.fullmatch(MOMENT, value) and datetime.datetime.strptime(value, "%Y-%m-%dT%H:%M:%SZ") is not None


def has_content(content):
    return (
        content["encoding"] in ("utf-8", "base64")
        and isinstance(content["value"], str)
        and len(content["value"]) <= 4096
        and content["size"] == len(content_of(content)) <= 4096
    )


def content_of(content):
    return content["value"].encode() if content["encoding"] == "utf-8" else base64.b64decode(content["value"], validate=True)


def has_link(link):
    return (
        set(link) == {"rel", "type", "href", "length"}
        and link["rel"] == "canonical"
        and re.fullmatch("https?://[^ ]+", link["href"])
        and re.fullmatch("(application|text)/[a-z-]+", link["type"])
        and type(link["length"]) is int
    )


NO_CONTENT = {"encoding": "utf-8", "value": "", "size": 0}

STANDARD = [
    ("message", "has at most 8,192 bytes", lambda it, raw: len(raw) <= 8192),
    ("id", "is a UUID", lambda it, raw: re.fullmatch("[0-9a-f]{8}(-[0-9a-f]{4}){3}-[0-9a-f]{12}", it["id"])),
    ("type", "is Feature", lambda it, raw: it["type"] == "Feature"),
    ("geometry", "is there, and null where it is not known", lambda it, raw: it["geometry"] is None),
    ("conformsTo", "has the core of the standard", lambda it, raw: it["conformsTo"] == [CORE]),
    ("properties", "is an object", lambda it, raw: isinstance(it["properties"], dict)),
    ("properties.data_id", "is a text without a blank", lambda it, raw: re.fullmatch(r"[!-~]{1,255}", it["properties"]["data_id"])),
    ("properties.pubtime", "is a time in UTC", lambda it, raw: is_moment(it["properties"]["pubtime"])),
    ("properties.datetime", "is a time, or null", lambda it, raw: is_moment(it["properties"]["datetime"] or "2026-12-01T00:00:00Z")),
    ("properties.integrity.method", "is one that the standard names", lambda it, raw: it["properties"]["integrity"]["method"] == "sha512"),
    ("properties.integrity.value", "is 64 bytes in base64", lambda it, raw: len(digest_of(it)) == 64),
    ("properties.content", "is short, and of its size", lambda it, raw: has_content(it["properties"].get("content", NO_CONTENT))),
    ("links", "is a canonical link with type and length", lambda it, raw: len(it["links"]) == 1 and has_link(it["links"][0])),
    ("all", "has no other fields", lambda it, raw: set(it) == {"id", "type", "geometry", "conformsTo", "properties", "links"}),
]  # fmt: skip


def digest_of(message):
    return base64.b64decode(message["properties"]["integrity"]["value"], validate=True)


def breaks(raw):
    """The first row of the standard that a message does not keep, or None."""
    message = json.loads(raw.decode())
    for field, rule, keeps in STANDARD:
        try:
            holds = keeps(message, raw)
        except (KeyError, TypeError, ValueError) as why:
            return f"{field} {rule}: {why!r}"
        if not holds:
            return f"{field} {rule}"
    return None


def good_message(name, body, href, **properties):
    """A notification that keeps the standard, of a product at that address, or of one within it where it is short."""
    content = {"encoding": "base64", "value": base64.b64encode(body).decode(), "size": len(body)}
    return {
        "id": name,
        "type": "Feature",
        "geometry": None,
        "conformsTo": [CORE],
        "properties": {
            "data_id": f"wis2/xx-test/data/{name}",
            "pubtime": "2026-12-01T00:00:00Z",
            "datetime": None,
            "integrity": {"method": "sha512", "value": base64.b64encode(hashlib.sha512(body).digest()).decode()},
            **({"content": content} if len(body) <= 3000 else {}),
            **properties,
        },
        "links": [{"rel": "canonical", "type": "application/octet-stream", "href": href, "length": len(body)}],
    }

"""What is said of a product: its notification, and the names that follow from it. The same product has the same ones at each try."""

import base64
import datetime
import hashlib
import json
import re
import typing
import urllib.parse
import uuid

CONFORMS_TO = "http://wis.wmo.int/spec/wnm/1/conf/core"

# What the standard lets a message have, the value of its content, and the product in that.
GREATEST_MESSAGE = 8_192
GREATEST_VALUE = 4_096
GREATEST_CONTENT = 4_096

# An abbreviated heading, in an ident, and at the beginning of a bulletin, perhaps behind its starting line.
HEADING = re.compile(r"(?<![A-Z0-9])[A-Z]{4}[0-9]{2} [A-Z0-9]{4} ([0-9]{2})([0-9]{2})([0-9]{2})(?![0-9])")
FRONT = re.compile(rb"(?:\x01?\r*\n)?(?:[0-9]{1,5}[ \t]*\r*\n)?([A-Z]{4}[0-9]{2} [A-Z0-9]{4} [0-9]{6})(?![0-9])[^\r\n]{0,8}\r*\n")

# What no text has: control bytes but for tab, line ends, form feed, record separator, and SOH and ETX of bulletins.
NO_TEXT = re.compile(r"[\x00\x02\x04-\x08\x0b\x0e-\x1d\x1f\x7f]")

ENDINGS = {"application/bufr": "bufr", "application/grib": "grib", "text/plain": "txt", "application/octet-stream": "bin"}

# A topic that may be published to.
TOPIC = re.compile(r"[A-Za-z0-9._~-]+(/[A-Za-z0-9._~-]+)*")
LONGEST_TOPIC = 250


class Product(typing.NamedTuple):
    """A product that came, with the first bytes of its body, all of them where there are not more than an embedded one may have."""

    rule: int
    topic: str
    ident: str
    time: datetime.datetime
    size: int
    digest: bytes
    head: bytes


def name_key(product):
    """By what a product is known to have been published: its ident and its body."""
    return hashlib.sha256(product.ident.encode() + b"\0" + product.digest).hexdigest()


def media_type(product):
    front = FRONT.match(product.head)
    start = product.head[front.end() if front else 0 :][:4]
    if start in (b"BUFR", b"GRIB"):
        return f"application/{start.decode().lower()}"
    text = as_text(product.head, product.size > len(product.head))
    return "application/octet-stream" if text is None else "text/plain"


def as_text(content, is_cut=False):
    """The content as a text, or None; the last letter of one that is cut may lack bytes."""
    for less in range(4 if is_cut else 1):
        try:
            text = content[: len(content) - less].decode()
        except UnicodeDecodeError:
            continue
        return None if NO_TEXT.search(text) else text
    return None


def data_time(product):
    """The moment that the heading tells, in the ident or else in the product: of its day in the last, this and the next month the one
    nearest to when the product came, as in pqact.conf. None where there is no heading, or no such day or hour."""
    heading = HEADING.search(product.ident)
    if not heading:
        front = FRONT.match(product.head)
        heading = front and HEADING.match(front[1].decode())
    if not heading:
        return None
    day, hour, minute = map(int, heading.groups())
    found = []
    for months in (-1, 0, 1):
        month = product.time.year * 12 + product.time.month - 1 + months
        try:
            found.append(datetime.datetime(month // 12, month % 12 + 1, day, hour, minute, tzinfo=datetime.timezone.utc))
        except ValueError:
            pass
    return min(found, key=lambda moment: abs(moment - product.time), default=None)


def spelled(moment):
    return moment.strftime("%Y-%m-%dT%H:%M:%SZ") if moment else None


def file_stem(product):
    """A name for people that no other product has: the ident in safe letters, the day of its heading, and the beginning of a digest."""
    safe = re.sub(r"[^A-Za-z0-9-]+", "_", product.ident).strip("_")[:100] or "product"
    moment = data_time(product)
    return "_".join([safe, *([moment.strftime("%Y%m%dT%H%M%S")] if moment else []), name_key(product)[:12]])


def file_path(product):
    """Where a product lies below the folder of the web server: a folder for each hour in which products came."""
    return f"{product.time:%Y%m%d}/{product.time:%H}/{file_stem(product)}.{ENDINGS[media_type(product)]}"


def is_topic(topic):
    return len(topic) <= LONGEST_TOPIC and TOPIC.fullmatch(topic) is not None


def build(product, url, metadata_id=""):
    """The notification of a product whose file the web server shows, as bytes."""
    data_id = f"{re.sub('^origin/a/', '', product.topic)}/{file_stem(product)}"
    value = base64.b64encode(product.digest).decode()
    properties = {
        "data_id": data_id,
        **({"metadata_id": metadata_id} if metadata_id else {}),
        "pubtime": spelled(product.time),
        "datetime": spelled(data_time(product)),
        "integrity": {"method": "sha512", "value": value},
    }
    message = {
        "id": str(uuid.uuid5(uuid.NAMESPACE_URL, f"{data_id}#{value}")),
        "conformsTo": [CONFORMS_TO],
        "type": "Feature",
        "geometry": None,
        "properties": properties,
        "links": [
            {
                "rel": "canonical",
                "type": media_type(product),
                "href": f"{url}/{urllib.parse.quote(file_path(product))}",
                "length": product.size,
            }
        ],
    }
    for content in contents(product):
        text = as_bytes({**message, "properties": {**properties, "content": content}})
        if len(text) <= GREATEST_MESSAGE:
            return text
    return as_bytes(message)


def contents(product):
    """The ways to embed a product, the best one first: as a text, and in base64, as far as its value is not too long."""
    if product.size > GREATEST_CONTENT:
        return
    text = as_text(product.head)
    if text is not None and len(text) <= GREATEST_VALUE:
        yield {"encoding": "utf-8", "value": text, "size": product.size}
    text = base64.b64encode(product.head).decode()
    if len(text) <= GREATEST_VALUE:
        yield {"encoding": "base64", "value": text, "size": product.size}


def as_bytes(message):
    return json.dumps(message, ensure_ascii=False, separators=(",", ":")).encode()

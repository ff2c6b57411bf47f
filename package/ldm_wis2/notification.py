"""What a notification says that came: each field is looked at before anything is done by it."""

import base64
import binascii
import datetime
import hashlib
import json
import re
import typing
import urllib.parse

from .message import CONFORMS_TO, GREATEST_CONTENT, GREATEST_MESSAGE, GREATEST_VALUE

UUID = re.compile(r"[0-9a-f]{8}-[0-9a-f]{4}-[0-9a-f]{4}-[0-9a-f]{4}-[0-9a-f]{12}", re.IGNORECASE)
MOMENT = re.compile(r"[0-9]{4}-[0-9]{2}-[0-9]{2}T[0-9]{2}:[0-9]{2}:[0-9]{2}(\.[0-9]{1,9})?(Z|[+-][0-9]{2}:[0-9]{2})", re.IGNORECASE)
METHODS = {"sha256", "sha384", "sha512", "sha3-256", "sha3-384", "sha3-512"}
LONGEST_TEXT = 1_024
LONGEST_LINK = 2_048

# What a link is about whose product is to be taken: a new product, or another version of one.
PRODUCTS = ("canonical", "update")


class Wrong(Exception):
    """Why a notification, or its product, is not taken."""


class Notification(typing.NamedTuple):
    id: str
    data_id: str
    # the product itself, where it is embedded
    content: bytes | None
    href: str
    length: int | None
    # the method and the digest
    integrity: tuple[str, bytes] | None


def demand(holds, reason):
    if not holds:
        raise Wrong(reason)


def check_size(payload):
    demand(len(payload) <= GREATEST_MESSAGE, f"it has {len(payload)} bytes, more than {GREATEST_MESSAGE}")


def read(payload):
    """The notification of these bytes; raises Wrong."""
    check_size(payload)
    try:
        given = json.loads(payload.decode())
    except (ValueError, RecursionError):
        raise Wrong("it is no JSON") from None
    demand(isinstance(given, dict), "it is no object")
    demand(given.get("type") == "Feature", "its type is not Feature")
    demand(is_text(given.get("id")) and UUID.fullmatch(given["id"]), "its id is no UUID")
    conforms = given.get("conformsTo")
    demand(isinstance(conforms, list) and CONFORMS_TO in conforms, f"it does not conform to {CONFORMS_TO}")
    check_geometry(given)
    properties = given.get("properties")
    demand(isinstance(properties, dict), "it has no properties")
    demand(is_text(properties.get("data_id")), "it has no data_id")
    check_moments(properties)
    content = read_content(properties.get("content"))
    href, length = read_links(given.get("links"))
    return Notification(given["id"].lower(), properties["data_id"], content, href, length, read_integrity(properties.get("integrity")))


def is_text(value):
    return isinstance(value, str) and 0 < len(value) <= LONGEST_TEXT and value.isprintable()


def is_count(value):
    return isinstance(value, int) and not isinstance(value, bool) and value >= 0


def is_moment(value):
    if not isinstance(value, str) or not MOMENT.fullmatch(value):
        return False
    try:
        datetime.datetime.fromisoformat(value[:19])
    except ValueError:
        return False
    return True


def check_geometry(given):
    demand("geometry" in given, "it has no geometry")
    geometry = given["geometry"]
    if geometry is not None:
        demand(isinstance(geometry, dict) and geometry.get("type") in ("Point", "Polygon"), "its geometry is no point and no polygon")
        demand(isinstance(geometry.get("coordinates"), list), "its geometry has no coordinates")


def check_moments(properties):
    demand(is_moment(properties.get("pubtime")), "its pubtime is no time")
    if "datetime" in properties:
        demand(properties["datetime"] is None or is_moment(properties["datetime"]), "its datetime is no time")
    else:
        for name in ("start_datetime", "end_datetime"):
            demand(is_moment(properties.get(name)), f"it has neither a datetime nor a {name}")


def read_integrity(given):
    if given is None:
        return None
    demand(isinstance(given, dict), "its integrity is no object")
    method, value = given.get("method"), given.get("value")
    demand(isinstance(method, str) and method in METHODS, "its integrity has no method that is known")
    digest = decoded(value, "its integrity")
    demand(len(digest) == hashlib.new(hash_name(method)).digest_size, "its integrity has another length than its method")
    return method, digest


def hash_name(method):
    return method.replace("-", "_")


def decoded(value, what):
    demand(isinstance(value, str), f"{what} has no value")
    try:
        return base64.b64decode(value, validate=True)
    except (binascii.Error, ValueError):
        raise Wrong(f"{what} is no base64") from None


def read_content(given):
    """The product that is embedded. Of an encoding that is not known here it is fetched."""
    if given is None:
        return None
    demand(isinstance(given, dict), "its content is no object")
    value, size, encoding = given.get("value"), given.get("size"), given.get("encoding")
    demand(isinstance(value, str) and len(value) <= GREATEST_VALUE, "its content has no value, or a longer one than the standard has")
    demand(is_count(size) and size <= GREATEST_CONTENT, "its content has no size, or a greater one than the standard has")
    demand(encoding in ("utf-8", "base64", "gzip"), "its content has no encoding that is known")
    if encoding == "gzip":
        return None
    try:
        content = value.encode() if encoding == "utf-8" else decoded(value, "its content")
    except UnicodeEncodeError:
        raise Wrong("its content is no text") from None
    demand(len(content) == size, f"its content has {len(content)} bytes, not {size}")
    return content


def read_links(given):
    """Where the product is, and how long."""
    demand(isinstance(given, list) and given, "it has no links")
    for link in given:
        demand(isinstance(link, dict) and is_text(link.get("rel")) and isinstance(link.get("href"), str), "one of its links is none")
    link = next((link for relation in PRODUCTS for link in given if link["rel"] == relation), None)
    demand(link, "it has no canonical link")
    href, length = link["href"], link.get("length")
    demand(len(href) <= LONGEST_LINK and re.fullmatch(r"[\x21-\x7e]+", href), "its link is none")
    try:
        parts = urllib.parse.urlsplit(href)
        demand(parts.scheme in ("http", "https") and parts.hostname, "its link is none of http or https")
    except ValueError:
        raise Wrong("its link is none") from None
    demand(length is None or is_count(length), "the length of its link is none")
    return href, length


def check_product(notification, digest_of, size):
    """Whether a product is what was notified, where that says so; `digest_of` answers for the name of a method."""
    if notification.length is not None:
        demand(size == notification.length, f"its product has {size} bytes, not {notification.length}")
    if notification.integrity:
        method, digest = notification.integrity
        demand(digest_of(hash_name(method)) == digest, f"its product has another {method}")

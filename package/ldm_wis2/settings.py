"""The configurations of both programs: files of sections, in which each word is known and looked at before anything begins."""

import configparser
import os
import pathlib
import re
import socket
import stat
import typing
import urllib.parse

from .common import FAULTY, Failed

YES_OR_NO = {"yes": True, "no": False}
NODE = re.compile(r"[^\s]{1,255}:[0-9]{1,5}")

# A word of pqact.conf stands behind tabs: what goes into one has none, and no end of a line.
ONE_WORD = re.compile(r"[^\s\x00-\x1f\x7f]+")
ONE_LINE = re.compile(r"[^\x00-\x1f\x7f]*")

# A topic: letters, digits and the forms that pqact replaces, between slashes.
TOPIC_OF_RULE = re.compile(r"[A-Za-z0-9._~%:()\\-]+(/[A-Za-z0-9._~%:()\\-]+)*")


class Section:
    """A section of a configuration, which notes what was asked for: what nobody asked for is a mistake."""

    def __init__(self, path, name, words):
        self.place = f"{path}: [{name}]"
        self.words = dict(words)

    def fault(self, key, reason):
        return Failed(f"{self.place} {key}: {reason}", FAULTY)

    def text(self, key, usual=None):
        value = self.words.pop(key, usual)
        if value is None:
            raise self.fault(key, "is missing")
        if not ONE_LINE.fullmatch(value):
            raise self.fault(key, "has a control byte, or goes on on another line")
        return value

    def number(self, key, usual, least, most):
        value = self.text(key, str(usual))
        if not re.fullmatch("[0-9]{1,12}", value) or not least <= int(value) <= most:
            raise self.fault(key, f"{value} is no number from {least} to {most}")
        return int(value)

    def is_yes(self, key, usual="no"):
        value = self.text(key, usual).lower()
        if value not in YES_OR_NO:
            raise self.fault(key, f"{value} is neither yes nor no")
        return YES_OR_NO[value]

    def path(self, key):
        value = self.text(key)
        if not value.startswith("/") or not ONE_WORD.fullmatch(value) or set(value) & set('%"\\()'):
            raise self.fault(key, f"{value} is no path from / on without blanks and % \" \\ ( )")
        return pathlib.Path(value)

    def node(self, key):
        value = self.text(key)
        if not NODE.fullmatch(value):
            raise self.fault(key, f"{value} is no HOST:PORT")
        return value

    def pattern(self, key, usual=None):
        value = self.text(key, usual)
        try:
            return re.compile(value)
        except (re.error, RecursionError) as why:
            raise self.fault(key, f"{value} is no pattern: {why}") from None

    def end(self):
        for key in self.words:
            raise self.fault(key, "means nothing here")


class BrokerSettings(typing.NamedTuple):
    """Where the broker is, and how it knows this program, in the words of mosquitto's tools."""

    host: str
    port: int
    id: str
    keepalive: int
    username: str
    pw_file: str
    cafile: str
    capath: str
    cert: str
    key: str
    tls_version: str
    tls_use_os_certs: bool
    insecure: bool

    def password(self):
        """The first line of its file, read anew for each connection. Nobody else may read the file."""
        if not self.pw_file:
            return None
        try:
            with open(self.pw_file, encoding="utf-8") as file:
                if os.fstat(file.fileno()).st_mode & stat.S_IROTH:
                    raise Failed(f"{self.pw_file} can be read by everybody", FAULTY)
                return file.readline().rstrip("\r\n")
        except OSError as why:
            raise Failed(f"cannot read {self.pw_file}: {why.strerror}", FAULTY) from None


class SendingRule(typing.NamedTuple):
    """Which products are published, and where."""

    name: str
    feed: str
    pattern: str
    topic: str
    metadata_id: str


class SendingSettings(typing.NamedTuple):
    node: str
    arena: int
    state: pathlib.Path
    broker: BrokerSettings
    folder: pathlib.Path
    url: str
    keep_hours: int
    rules: list


class ReceivingRule(typing.NamedTuple):
    """Which notifications are taken, and what their products are in the node."""

    name: str
    topic: str
    pattern: re.Pattern
    feed: str
    ident: str
    origin: str


class FetchSettings(typing.NamedTuple):
    workers: int
    seconds: int
    bytes: int
    tries: int
    allow_private: bool
    require_integrity: bool
    cafile: str


class ReceivingSettings(typing.NamedTuple):
    node: str
    state: pathlib.Path
    broker: BrokerSettings
    fetch: FetchSettings
    rules: list


def read_sections(path):
    """The sections of a file, those whose name begins with `rule` apart and in order."""
    parser = configparser.ConfigParser(
        delimiters="=", comment_prefixes="#", interpolation=None, empty_lines_in_values=False, default_section="\0"
    )
    # allow_private is allow-private
    parser.optionxform = lambda key: key.lower().replace("_", "-")
    try:
        with open(path, encoding="utf-8") as file:
            parser.read_file(file, str(path))
    except OSError as why:
        raise Failed(f"cannot read {path}: {why.strerror}", FAULTY) from None
    except (configparser.Error, UnicodeDecodeError) as why:
        raise Failed(f"{path}: {' '.join(str(why).split())}", FAULTY) from None
    sections, rules = {}, []
    for name in parser.sections():
        kind, _, rest = name.partition(" ")
        if kind == "rule" and rest.strip():
            rules.append((rest.strip(), Section(path, name, parser[name])))
        else:
            sections[name] = Section(path, name, parser[name])
    if not rules:
        raise Failed(f"{path}: there is no rule", FAULTY)
    return sections, rules


def take_section(path, sections, name):
    return sections.pop(name, None) or Section(path, name, {})


def end_sections(path, sections):
    for name in sections:
        raise Failed(f"{path}: [{name}] means nothing here", FAULTY)


def read_broker(section, program):
    settings = BrokerSettings(
        host=section.text("host", "localhost"),
        port=section.number("port", 1883, 1, 65_535),
        # the broker keeps what comes under this name while the program is away
        id=section.text("id", f"{program}-{socket.gethostname()}"),
        keepalive=section.number("keepalive", 60, 5, 65_535),
        username=section.text("username", ""),
        pw_file=section.text("pw-file", ""),
        cafile=section.text("cafile", ""),
        capath=section.text("capath", ""),
        cert=section.text("cert", ""),
        key=section.text("key", ""),
        tls_version=section.text("tls-version", ""),
        tls_use_os_certs=section.is_yes("tls-use-os-certs"),
        insecure=section.is_yes("insecure"),
    )
    if settings.tls_version not in ("", "tlsv1.2", "tlsv1.3"):
        raise section.fault("tls-version", f"{settings.tls_version} is neither tlsv1.2 nor tlsv1.3")
    if settings.pw_file and not settings.username:
        raise section.fault("pw-file", "there is no username for it")
    section.end()
    # a mistake is told at the start
    settings.password()
    return settings


def read_feed(section):
    feed = section.text("feed", "ANY")
    if not ONE_WORD.fullmatch(feed):
        raise section.fault("feed", f"{feed} is no feed expression")
    return feed


def read_sending(path):
    """The settings of ldm-to-wis2."""
    sections, rules = read_sections(path)
    node, broker, web = (take_section(path, sections, name) for name in ("node", "broker", "web"))
    settings = SendingSettings(
        node=node.node("address"),
        arena=node.number("arena", 67_108_864, 64, 1_073_741_824),
        state=node.path("state"),
        broker=read_broker(broker, "ldm-to-wis2"),
        folder=web.path("folder"),
        url=read_url(web),
        keep_hours=web.number("keep-hours", 48, 0, 100_000),
        rules=[read_sending_rule(name, section) for name, section in rules],
    )
    for section in (node, web):
        section.end()
    end_sections(path, sections)
    return settings


def read_url(section):
    url = section.text("url").rstrip("/")
    parts = urllib.parse.urlsplit(url)
    if parts.scheme not in ("http", "https") or not parts.hostname or parts.query or parts.fragment or not ONE_WORD.fullmatch(url):
        raise section.fault("url", f"{url} is no address of a folder of a web server")
    return url


def read_sending_rule(name, section):
    rule = SendingRule(name, read_feed(section), section.text("pattern", ""), section.text("topic"), section.text("metadata-id", ""))
    if not TOPIC_OF_RULE.fullmatch(rule.topic) or "\\9" in rule.topic:
        raise section.fault("topic", f"{rule.topic} is no topic, or has a group above \\8")
    section.end()
    return rule


def read_receiving(path):
    """The settings of ldm-from-wis2."""
    sections, rules = read_sections(path)
    node, broker, fetch = (take_section(path, sections, name) for name in ("node", "broker", "fetch"))
    settings = ReceivingSettings(
        node=node.node("address"),
        state=node.path("state"),
        broker=read_broker(broker, "ldm-from-wis2"),
        fetch=FetchSettings(
            workers=fetch.number("workers", 4, 1, 64),
            seconds=fetch.number("seconds", 60, 1, 3600),
            bytes=fetch.number("bytes", 67_108_864, 1, 1_073_741_824),
            tries=fetch.number("tries", 3, 1, 20),
            allow_private=fetch.is_yes("allow-private"),
            require_integrity=fetch.is_yes("require-integrity"),
            cafile=fetch.text("cafile", ""),
        ),
        rules=[read_receiving_rule(name, section) for name, section in rules],
    )
    for section in (node, fetch):
        section.end()
    end_sections(path, sections)
    return settings


def read_receiving_rule(name, section):
    rule = ReceivingRule(
        name,
        section.text("topic"),
        section.pattern("pattern", ""),
        read_feed(section),
        section.text("ident", "(data-id)"),
        section.text("origin", "(centre)"),
    )
    if not is_filter(rule.topic):
        raise section.fault("topic", f"{rule.topic} is no filter of topics")
    section.end()
    return rule


def is_filter(text):
    """Whether it may be subscribed to: `+` is a whole level, and `#` the last one."""
    levels = text.split("/")
    return bool(text) and all(
        level in ("+", "#") or not set(level) & set("+#") for level in levels
    ) and "#" not in levels[:-1]

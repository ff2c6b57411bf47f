"""ldm-from-wis2: from the broker into a folder of notifications, from there, by several workers, into a node."""

import hashlib
import queue
import re
import subprocess
import tempfile
import threading
import time

from . import inbox, notification
from .broker import Broker, Unreachable
from .common import Failed, find_program, lock_folder, make_folder
from .fetching import Fetcher
from .fetching import Unreachable as NotFetched
from .notification import Wrong
from .seen import Seen

# How long a turn waits for what the broker sends, in seconds.
TURN = 0.2

# With so many notifications that are not handled no more are taken; with half of them, they are again. The broker keeps the others.
MOST_WAITING = 20_000

HOUR = 3600
REMEMBERED_HOURS = 48

# How long a run waits at its end for its workers, in seconds. What they have in hand then comes again at the next start.
GRACE = 5

# How long a worker rests before it asks a node again, and before it fetches again, in seconds.
REST = 5

LONGEST_IDENT = 255
LONGEST_ORIGIN = 64

# Statuses of pqinsert.
ADMITTED, DENIED, REFUSED = 0, 78, 79
# What is worth another try: a link that failed, memory, a program that could not be started.
PASSING = (69, 71)

PIECE = 65_536


class Receiver:
    """The broker is told that a notification is here once it is a file, and the file goes once its product is in the node, or is not to be
    put there. A kill between has it handled again: then its id was noted, or the queue of the node has its product."""

    def __init__(self, settings, log, told):
        self.settings = settings
        self.log = log
        self.told = told
        self.lock = lock_folder(settings.state)
        self.products = settings.state / "products"
        make_folder(self.products)
        for path in self.products.iterdir():
            path.unlink()
        self.program = find_program()
        self.seen = Seen(settings.state / "seen.sqlite", REMEMBERED_HOURS)
        self.inbox = inbox.Inbox(settings.state / "inbox")
        self.fetcher = Fetcher(settings.fetch)
        filters = dict.fromkeys(rule.topic for rule in settings.rules)
        self.broker = Broker(settings.broker, is_clean=False, filters=filters, on_message=self.keep)
        self.waiting = queue.Queue()
        self.busy = set()
        self.busy_lock = threading.Lock()
        self.fault = None
        self.next_clearing = 0

    def run(self):
        for path in self.inbox.files():
            self.waiting.put(path)
        workers = [threading.Thread(target=self.work, daemon=True) for _ in range(self.settings.fetch.workers)]
        for worker in workers:
            worker.start()
        try:
            while not self.told.is_set():
                self.clear()
                self.step()
        finally:
            self.broker.drop()
        last = time.monotonic() + GRACE
        for worker in workers:
            worker.join(max(0, last - time.monotonic()))
        if self.fault:
            raise self.fault

    def step(self):
        if self.waiting.qsize() > MOST_WAITING:
            self.rest()
            return
        try:
            if not self.broker.client:
                if not self.broker.is_due():
                    self.told.wait(TURN)
                    return
                self.broker.connect()
                self.log.tell(f"connected to {self.broker}")
            self.broker.turn(TURN)
        except Unreachable as why:
            self.log.tell(f"{self.broker}: {why}")

    def rest(self):
        """Takes nothing until half of what waits is handled."""
        self.log.tell(f"more than {MOST_WAITING} notifications wait, and no more are taken")
        self.broker.drop()
        while self.waiting.qsize() > MOST_WAITING // 2 and not self.told.wait(TURN):
            pass

    def keep(self, topic, payload):
        try:
            notification.check_size(payload)
        except Wrong as why:
            self.log.tell(f"not taken from {topic}: {why}")
        else:
            # the broker is told behind the end of this, and not where it raises
            self.waiting.put(self.inbox.add(topic, payload))

    def clear(self):
        if time.monotonic() >= self.next_clearing:
            self.next_clearing = time.monotonic() + HOUR
            self.seen.forget_old()

    def work(self):
        """What a worker does. A fault of this machine, as a full disk, ends the run: the notification is still there."""
        while not self.told.is_set():
            try:
                path = self.waiting.get(timeout=TURN)
            except queue.Empty:
                continue
            try:
                self.handle_file(path)
            except Failed as why:
                self.fault = why
                self.told.set()
            except OSError as why:
                self.fault = Failed(f"cannot write {why.filename or 'a file'}: {why.strerror}")
                self.told.set()

    def handle_file(self, path):
        topic, payload = inbox.read_file(path)
        try:
            found = notification.read(payload)
        except Wrong as why:
            self.log.tell(f"not taken from {topic}: {why}")
            path.unlink()
            return
        if not self.begin(found.id):
            # another worker has a notification of this id, and may yet fail
            time.sleep(TURN)
            self.waiting.put(path)
            return
        try:
            if self.handle(topic, found):
                path.unlink()
        finally:
            self.end(found.id)

    def begin(self, name):
        with self.busy_lock:
            if name in self.busy:
                return False
            self.busy.add(name)
            return True

    def end(self, name):
        with self.busy_lock:
            self.busy.discard(name)

    def handle(self, topic, found):
        """Answers whether it is done with: not so where the run ends meanwhile."""
        if self.seen.has(found.id):
            self.log.detail(f"seen: {found.data_id}")
            return True
        rule, ident, origin = self.rule_of(topic, found)
        if not rule:
            self.log.detail(f"no rule is about {found.data_id} of {topic}")
            return True
        try:
            check_name("ident", ident, LONGEST_IDENT)
            check_name("origin", origin, LONGEST_ORIGIN)
            with tempfile.NamedTemporaryFile(dir=self.products) as file:
                if not self.obtain(found, file.name) or not self.put(rule, ident, origin, found, file.name):
                    return False
        except Wrong as why:
            self.log.tell(f"not taken: {found.data_id}: {why}")
        else:
            self.seen.add(found.id)
        return True

    def rule_of(self, topic, found):
        """The first rule that is about a notification, and the ident and origin by it."""
        for rule in self.settings.rules:
            match = matches_filter(rule.topic, topic) and rule.pattern.search(found.data_id)
            if match:
                return rule, fill(rule.ident, match, topic, found), fill(rule.origin, match, topic, found)
        return None, None, None

    def obtain(self, found, path):
        """Has the product in a file, and looks whether it is what was notified."""
        if self.settings.fetch.require_integrity and not found.integrity:
            raise Wrong("it has no integrity")
        if found.content is not None:
            with open(path, "wb") as file:
                file.write(found.content)
        elif not self.fetch(found, path):
            return False
        with open(path, "rb") as file:
            size = file.seek(0, 2)
        notification.check_product(found, lambda method: digest_of(path, method), size)
        return True

    def fetch(self, found, path):
        if found.length is not None and found.length > self.settings.fetch.bytes:
            raise Wrong(f"its product has {found.length} bytes, more than {self.settings.fetch.bytes}")
        for left in reversed(range(self.settings.fetch.tries)):
            try:
                self.fetcher.fetch(found.href, path)
                return True
            except NotFetched as why:
                if not left:
                    raise Wrong(str(why)) from None
                self.log.detail(f"{why}; fetched again")
            if self.told.wait(REST):
                return False
        return False

    def put(self, rule, ident, origin, found, path):
        """Puts the product into the node, as soon as that can be; raises Wrong where the node will not have it."""
        words = [f"-q={self.settings.node}", f"-f={rule.feed}", f"-p={ident}", f"-o={origin}", path]
        denied = 0
        is_told = False
        while not self.told.is_set():
            done = self.insert(words)
            answer = done.stdout.partition(" ")[0].strip()
            if done.returncode == ADMITTED or answer == "duplicate":
                self.log.detail(f"{answer}: {ident}")
                return True
            denied += done.returncode == DENIED
            reason = " ".join([done.stdout.strip(), *done.stderr.split("\n")[:1]]).strip()
            # a node that is busy declines too
            is_busy = done.returncode == DENIED and denied < self.settings.fetch.tries
            if done.returncode not in PASSING and answer != "locked" and not is_busy:
                raise Wrong(f"pqinsert ends with {done.returncode}, {reason}")
            if not is_told:
                self.log.tell(f"{found.data_id} waits for the node: {reason}")
                is_told = True
            self.told.wait(REST)
        return False

    def insert(self, words):
        return subprocess.run(
            [self.program, "pqinsert", *words], stdin=subprocess.DEVNULL, capture_output=True, text=True, errors="replace"
        )


def matches_filter(pattern, topic):
    """Whether a topic is one of a filter, in which `+` is one level and `#` all that follow."""
    wanted, levels = pattern.split("/"), topic.split("/")
    for place, level in enumerate(wanted):
        if level == "#":
            return True
        if place == len(levels) or level not in ("+", levels[place]):
            return False
    return len(wanted) == len(levels)


def fill(text, match, topic, found):
    """A word of a rule, with its groups and names replaced. The centre is the fourth level of a topic of WIS 2."""
    values = {"data-id": found.data_id, "centre": (topic.split("/") + [""] * 4)[3], "topic": topic}

    def value(form):
        if form[1]:
            return match[int(form[1])] or "" if int(form[1]) <= match.re.groups else ""
        return values[form[2]]

    return re.sub(r"\\([1-9])|\((data-id|centre|topic)\)", value, text)


def check_name(what, name, most):
    size = len(name.encode("utf-8", "replace"))
    if not 0 < size <= most or not name.isprintable():
        raise Wrong(f"its {what} would be {name[:80]!r}, which has {size} bytes")


def digest_of(path, method):
    digest = hashlib.new(method)
    with open(path, "rb") as file:
        while piece := file.read(PIECE):
            digest.update(piece)
    return digest.digest()


def run(settings, log, told):
    try:
        Receiver(settings, log, told).run()
    except OSError as why:
        raise Failed(f"cannot write {why.filename or 'a file'}: {why.strerror}") from None

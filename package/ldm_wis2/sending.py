"""ldm-to-wis2: from `ldm pqact` into a folder of products, from there to the web server's folder and to the broker."""

import datetime
import pathlib
import time

from . import message, spool
from .actions import Actions
from .broker import WINDOW, Broker, Unreachable
from .common import Failed, find_program, lock_folder, make_folder
from .seen import Seen

# How long a turn waits for what the broker says, and for a product, in seconds.
TURN = 0.1

HOUR = 3600

# How long a run waits at its end for what the broker has not acknowledged, in seconds.
GRACE = 5

# A product that came again within these hours is the same one: behind a kill `ldm pqact` gives its last ones once more.
REMEMBERED_HOURS = 24


class Sender:
    """Each product is a file of the spool until the broker acknowledged its notification; then its key is noted, and the file goes. A kill
    between leaves either the file, and the same notification is published again, or the key, and it is not."""

    def __init__(self, settings, take, log):
        self.settings = settings
        self.log = log
        self.lock = lock_folder(settings.state)
        make_folder(settings.folder)
        self.spool = spool.Spool(settings.state / "spool")
        self.published = Seen(settings.state / "published.sqlite", REMEMBERED_HOURS)
        self.actions = Actions(find_program(), take, settings, self.spool.folder, log)
        self.broker = Broker(settings.broker, is_clean=True, on_published=self.note_published)
        # by the number of its message: the file and the key of each product that the broker has not acknowledged
        self.under_way = {}
        self.keys = set()
        self.next_clearing = 0

    def run(self, told):
        """Goes on until it is told to stop."""
        try:
            while not told.is_set():
                self.actions.tend()
                self.clear()
                self.step(told)
            self.wait_for_broker()
        finally:
            self.actions.stop()
            self.broker.drop()

    def step(self, told):
        try:
            if not self.broker.client:
                if not self.broker.is_due():
                    told.wait(TURN)
                    return
                self.broker.connect()
                self.log.tell(f"connected to {self.broker}")
            self.publish_waiting()
            self.broker.turn(TURN)
        except Unreachable as why:
            self.log.tell(f"{self.broker}: {why}")
            self.under_way.clear()
            self.keys.clear()
            self.spool.give_back()

    def publish_waiting(self):
        while len(self.under_way) < WINDOW:
            path = self.spool.next()
            if not path:
                return
            try:
                product = spool.read_product(path)
            except ValueError as why:
                self.log.tell(f"not published: {path.name}: {why}")
                self.spool.done(path)
            else:
                self.publish(path, product)

    def publish(self, path, product):
        key = message.name_key(product)
        if key in self.keys or self.published.has(key):
            self.log.detail(f"seen: {product.ident}")
            self.spool.done(path)
        elif not message.is_topic(product.topic):
            self.log.tell(f"not published, since its topic would be {product.topic}: {product.ident}")
            self.spool.done(path)
        else:
            rule = self.settings.rules[product.rule] if product.rule < len(self.settings.rules) else None
            spool.copy_body(path, self.settings.folder / message.file_path(product))
            text = message.build(product, self.settings.url, rule.metadata_id if rule else "")
            self.under_way[self.broker.publish(product.topic, text)] = path, key, product
            self.keys.add(key)

    def note_published(self, number):
        path, key, product = self.under_way.pop(number)
        self.published.add(key)
        self.spool.done(path)
        self.keys.discard(key)
        self.log.detail(f"published on {product.topic}: {product.ident}")

    def clear(self):
        """Each hour lets go what is older than it is kept."""
        if time.monotonic() < self.next_clearing:
            return
        self.next_clearing = time.monotonic() + HOUR
        self.published.forget_old()
        if self.settings.keep_hours:
            now = datetime.datetime.now(datetime.timezone.utc)
            spool.forget_files(self.settings.folder, now - datetime.timedelta(hours=self.settings.keep_hours))

    def wait_for_broker(self):
        last = time.monotonic() + GRACE
        while self.broker.client and self.under_way and time.monotonic() < last:
            try:
                self.broker.turn(TURN)
            except Unreachable:
                return


def run(settings, here, log, told):
    take = next((path for path in (here / "wis2-take", here.parent / "lib/ldm/wis2-take") if path.is_file()), None)
    if not take:
        raise Failed("there is no wis2-take")
    try:
        Sender(settings, pathlib.Path(take), log).run(told)
    except OSError as why:
        raise Failed(f"cannot write {why.filename or 'a file'}: {why.strerror}") from None

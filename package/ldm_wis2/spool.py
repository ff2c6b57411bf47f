"""The products that `ldm pqact` gave and that are not published yet: a folder with two files for each, by wis2-take. NAME.words has the
number of its rule, the topic and the ident, with zero bytes between; NAME.body is there once both are whole."""

import collections
import datetime
import hashlib
import os
import re
import shutil

from .common import make_folder
from .message import GREATEST_CONTENT, Product

# The name of a body: a second, and the number of a process.
BODY = re.compile(r"[0-9]{14}\.([0-9]+)\.body")

PIECE = 65_536


class Spool:
    def __init__(self, folder):
        self.folder = folder
        make_folder(folder)
        self.listed = collections.deque()
        # those that were given out, and are not done
        self.taken = set()
        # of a run that was killed, whose product comes again
        for path in [*folder.glob("*.words"), *folder.glob("body.*")]:
            if not path.with_suffix(".body").exists():
                path.unlink()

    def next(self):
        """The body of the next product, or None. What came first is first: of two rules about a product the first one counts."""
        if not self.listed:
            self.listed.extend(self.names())
        if not self.listed:
            return None
        name = self.listed.popleft()
        self.taken.add(name)
        return self.folder / name

    def names(self):
        """The names of all bodies that were not given out, in the order in which they were written."""
        found = []
        with os.scandir(self.folder) as entries:
            for entry in entries:
                name = BODY.fullmatch(entry.name)
                if name and entry.name not in self.taken:
                    found.append((entry.stat().st_mtime_ns, int(name[1]), entry.name))
        return [name for _, _, name in sorted(found)]

    def give_back(self):
        """All that was given out and is not done comes again."""
        self.listed.clear()
        self.taken.clear()

    def done(self, path):
        path.unlink()
        path.with_suffix(".words").unlink(missing_ok=True)
        self.taken.discard(path.name)


def read_product(path):
    """The product whose body that is; raises ValueError where its words are none of wis2-take."""
    try:
        rule, topic, ident = (field.decode() for field in path.with_suffix(".words").read_bytes().split(b"\0"))
    except FileNotFoundError:
        raise ValueError("nothing says what it is") from None
    digest = hashlib.sha512()
    head = b""
    with open(path, "rb") as file:
        while piece := file.read(PIECE):
            digest.update(piece)
            head = head or piece[:GREATEST_CONTENT]
        size = file.tell()
    time = datetime.datetime.strptime(path.name[:14], "%Y%m%d%H%M%S").replace(tzinfo=datetime.timezone.utc)
    return Product(int(rule), topic, ident, time, size, digest.digest(), head)


def copy_body(path, target):
    """Puts the body of a product where the web server shows it, whole or not at all."""
    target.parent.mkdir(parents=True, exist_ok=True)
    new = target.with_name(f".{target.name}.new")
    shutil.copyfile(path, new)
    os.replace(new, target)


def forget_files(folder, before):
    """Removes the hours of the web server's folder that ended before that moment."""
    for day in folder.glob("[0-9]" * 8):
        for hour in day.glob("[0-9][0-9]"):
            moment = datetime.datetime.strptime(day.name + hour.name, "%Y%m%d%H").replace(tzinfo=datetime.timezone.utc)
            if moment + datetime.timedelta(hours=1) < before:
                shutil.rmtree(hour)
        try:
            day.rmdir()
        except OSError:
            # it has hours that are kept
            pass

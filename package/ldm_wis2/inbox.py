"""The notifications that the broker gave and that are not handled yet: a folder with a file for each, so that none is lost by a kill."""

import os
import time

from .common import make_folder


class Inbox:
    def __init__(self, folder):
        self.folder = folder
        make_folder(folder)
        self.count = 0
        for path in folder.glob("new.*"):
            # the broker was not told that it is here, and sends it again
            path.unlink()

    def files(self):
        return [self.folder / name for name in sorted(os.listdir(self.folder))]

    def add(self, topic, payload):
        # the clock may have been set back
        self.count += 1
        name = f"{time.time_ns():020d}.{self.count}"
        new = self.folder / f"new.{name}"
        with open(new, "wb") as file:
            file.write(topic.encode() + b"\0" + payload)
        path = self.folder / name
        os.replace(new, path)
        return path


def read_file(path):
    """The topic and the bytes of a notification."""
    topic, _, payload = path.read_bytes().partition(b"\0")
    return topic.decode(), payload

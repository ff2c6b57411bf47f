"""What was handled lately, in a file of SQLite: it outlives a kill at any moment, and is never read whole."""

import sqlite3
import threading
import time

from .common import Failed

HOUR = 3600


class Seen:
    """Keys that were handled within so many hours."""

    def __init__(self, path, hours):
        self.path = path
        self.hours = hours
        self.lock = threading.Lock()
        try:
            self.base = sqlite3.connect(path, isolation_level=None, check_same_thread=False)
            # what a kill leaves is whole; what a power failure takes is at most handled again
            self.base.execute("PRAGMA journal_mode = WAL")
            self.base.execute("PRAGMA synchronous = NORMAL")
            self.base.execute("CREATE TABLE IF NOT EXISTS seen (key TEXT PRIMARY KEY, time REAL NOT NULL) WITHOUT ROWID")
            self.base.execute("CREATE INDEX IF NOT EXISTS by_time ON seen (time)")
        except sqlite3.Error as why:
            raise Failed(f"cannot read {path}: {why}") from None

    def has(self, key):
        return bool(self.ask("SELECT 1 FROM seen WHERE key = ?", key))

    def add(self, key):
        self.ask("INSERT OR REPLACE INTO seen VALUES (?, ?)", key, time.time())

    def forget_old(self):
        self.ask("DELETE FROM seen WHERE time < ?", time.time() - self.hours * HOUR)

    def ask(self, words, *values):
        try:
            with self.lock:
                return self.base.execute(words, values).fetchall()
        except sqlite3.Error as why:
            raise Failed(f"cannot write {self.path}: {why}") from None

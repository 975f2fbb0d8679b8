"""A region's cache: what it keeps, when it shows it, and how a purge holds a title off."""
from collections import OrderedDict
from typing import NamedTuple

LIFE_WHOLE, LIFE_LAGGED, LIFE_INTERIM = 86400000, 30000, 2000
KEYS = 65536  # of a script's caches


class Value(NamedTuple):
    page: bytes
    upto: int  # the page is that of the first `upto` entries
    set_at: int
    life: int
    lagged: bool
    version: int  # the markup that it was rendered with


class Ask(NamedTuple):
    epoch: int
    version: int
    need: int


class Row:
    """What is kept of a key: until when it is held off, and its values."""

    def __init__(self):
        self.floor, self.main, self.interim = 0, None, None


def set_rule(lag, age, pending, read_lag):
    """How a value made from a snapshot is stored: the first that holds."""
    if pending:
        return "no-pending"
    if lag + age <= read_lag:
        return "whole"
    if age > read_lag:
        return "no-old"
    return "lagged" if lag > read_lag else "no-medium"


class Cache:
    def __init__(self, hold_off, keys=KEYS):
        self.hold_off, self.keys = hold_off, keys
        self.rows = OrderedDict()  # by title, the last put or purged at the end
        self.floor_of_all = 0
        self.checks = {"Template:": 0, "MediaWiki:": 0}

    def check(self):
        return max(self.checks.values())

    def floor(self, title):
        row = self.rows.get(title)
        return max(self.floor_of_all, row.floor if row else 0)

    def is_held(self, title, now):
        return now < self.floor(title) or 0 < self.check() and now <= self.check()

    def main(self, title):
        """The main value. It is gone if the floor has risen above it."""
        row = self.rows.get(title)
        return row.main if row and row.main and row.main.set_at >= self.floor(title) else None

    def interim(self, title):
        row = self.rows.get(title)
        return row.interim if row else None

    def look(self, title, now, ask):
        """Where a value was found, and the value; or None, and the cause."""
        if self.is_held(title, now):
            value = self.interim(title)
            if value and self.passes(title, value, now, ask):
                return "interim", value
            return None, f"purged:{self.floor(title)}" if now < self.floor(title) else f"checked:{self.check()}"
        value = self.main(title)
        cause = self.staleness(value, now, ask) if value else "absent"
        return (None, cause) if cause else ("hit", value)

    def passes(self, title, value, now, ask):
        """Whether an interim value may be shown."""
        return (self.floor(title) <= value.set_at + self.hold_off and self.check() <= value.set_at + self.hold_off
                and now < value.set_at + LIFE_INTERIM and ask.epoch <= value.set_at and value.version == ask.version
                and ask.need <= value.upto)

    def staleness(self, value, now, ask):
        """Why a main value is not fresh: the first that holds, or None."""
        if 0 < self.check() and value.set_at <= self.check():
            return f"checked:{self.check()}"
        if value.set_at + value.life <= now:
            return f"expired:{value.set_at + value.life}"
        if value.set_at < ask.epoch:
            return "epoch"
        if value.version != ask.version:
            return "version"
        return f"position:{value.upto}" if value.upto < ask.need else None

    def used(self, title, now):
        """The key's row. A new key in a full cache evicts the one whose last use is oldest; if that was held off, all keys are."""
        if title not in self.rows and len(self.rows) >= self.keys:
            _, oldest = self.rows.popitem(last=False)
            if oldest.floor > now:
                self.floor_of_all = max(self.floor_of_all, oldest.floor)
        row = self.rows.setdefault(title, Row())
        self.rows.move_to_end(title)
        return row

    def put(self, title, value):
        """Where the value was put: `main`, `interim`, or None if a value marked lagged meets a hold-off."""
        row = self.used(title, value.set_at)
        if not self.is_held(title, value.set_at):
            row.main = value
            return "main"
        if value.lagged:
            return None
        row.interim = value
        return "interim"

    def purge(self, title, now):
        row = self.used(title, now)
        row.floor, row.main = max(row.floor, now + self.hold_off), None

    def touch(self, prefix, now):
        """Every page depends on this title's class: all keys are held off."""
        self.checks[prefix] = max(self.checks[prefix], now + self.hold_off)

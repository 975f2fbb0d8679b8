"""The farm of two regions: the one history, what each region has of it, messages between them, and every step.

A step takes the readings of both clocks first, and gives an answer or None.
"""
from bisect import bisect_right
from typing import NamedTuple, Optional

from .caches import LIFE_LAGGED, LIFE_WHOLE, Ask, Cache, Value, set_rule
from .pages import DEPTHS, Page, class_of
from .scripts import MOMENT_MOST, REGIONS, Edit, View

LAG_MOST, POSITION_LIFE, COOKIE_SECONDS, WAIT_LIMIT = 6000, 60000, 10, 5000
BOUNDS = (3000, 7000, 1000)  # commit delay, read lag, skew


class Answer(NamedTuple):
    words: str
    facts: dict = {}
    page: Optional[bytes] = None

    def text(self, with_note):
        shown = (f" {name}={fact}" for name, fact in self.facts.items() if fact is not None and (with_note or name != "put"))
        return self.words + "".join(shown)


class Entry(NamedTuple):
    stamp: int
    edit: Optional[Edit] = None  # None for a beat
    purge: int = 0
    revision: int = 0
    index: int = 0


class Texts:
    """The pages of the first `upto` entries, as a dict from title to text."""

    def __init__(self, history, upto):
        self.history, self.upto = history, upto

    def get(self, title):
        numbers = self.history.by_title.get(title, [])
        place = bisect_right(numbers, self.upto)
        return self.history.entry(numbers[place - 1]).edit.text if place else None

    def __contains__(self, title):
        return self.get(title) is not None

    __getitem__ = get


class History:
    def __init__(self):
        self.entries, self.by_title, self.by_client, self.by_token = [], {}, {}, {}

    def __len__(self):
        return len(self.entries)

    def entry(self, number):
        return self.entries[number - 1]

    def stamp(self, number):
        return self.entry(number).stamp if number else 0

    def revision(self, title):
        return len(self.by_title.get(title, []))

    def append(self, entry):
        self.entries.append(entry)
        if entry.edit:
            self.by_title.setdefault(entry.edit.title, []).append(len(self))
            self.by_client.setdefault(entry.edit.client, []).append(len(self))
            self.by_token[entry.edit.client, entry.edit.token] = len(self)

    def commit_for(self, edit, stamp, purge):
        return Entry(stamp, edit, purge, self.revision(edit.title) + 1, len(self.by_client.get(edit.client, [])) + 1)

    def saved(self, number):
        entry = self.entry(number)
        return Answer("saved", {"entry": number, "revision": entry.revision, "cookie": f"{entry.index}@{entry.stamp // 1000}"})

    def decides(self, edit):
        """The answer of an edit that the history already decides, or None."""
        number = self.by_token.get((edit.client, edit.token))
        if number:
            same = self.entry(number).edit == edit
            return self.saved(number) if same else Answer("token", {"entry": number})
        current = self.revision(edit.title)
        return None if edit.base == current else Answer("conflict", {"base": edit.base, "current": current})


class Message(NamedTuple):
    title: Optional[str]  # of a purge
    issued: int
    entry: int = 0  # of a position


class Region:
    def __init__(self, name, weights, hold_off):
        self.name, self.weights, self.moment = name, weights, 0
        self.applied = [0] * len(weights)
        self.positions = {}  # by client, the number of the last commit that this region has heard of
        self.cache = Cache(hold_off)

    def receive(self, title):
        self.cache.purge(title, self.moment)
        if class_of(title):
            self.cache.touch(class_of(title), self.moment)

    def hear(self, client, number):
        """A position that is heard late, twice or after a newer one changes nothing."""
        self.positions[client] = max(self.positions.get(client, 0), number)

    def known(self, client, history):
        """Index and number of the client's last commit, if this region heard of it and it is young; or 0 and 0."""
        number = self.positions.get(client, 0)
        young = number and self.moment < history.stamp(number) + POSITION_LIFE
        return (history.entry(number).index, number) if young else (0, 0)

    def choose(self, need, word, history):
        """A replica drawn by weight among those that are near enough; else the first that has applied most, as lagging."""
        near = [weight if self.moment - history.stamp(applied) <= LAG_MOST and need <= applied else 0
                for weight, applied in zip(self.weights, self.applied)]
        if sum(near):
            drawn = word % sum(near)
            return next(i for i in range(len(near)) if drawn < sum(near[:i + 1])), False
        return self.applied.index(max(self.applied)), True


class Open:
    """An open request, and the point that it has come to."""

    def __init__(self, asked):
        self.asked, self.point = asked, "arrived"


class Farm:
    def __init__(self, weights=((1,), (1,)), epoch=0, bounds=BOUNDS, failing=()):
        self.commit_delay, self.read_lag, skew = bounds
        self.hold_off, self.epoch = sum(bounds), epoch
        self.regions = {name: Region(name, own, self.hold_off) for name, own in zip(REGIONS, weights)}
        self.home, self.west = self.regions["home"], self.regions["west"]
        self.history, self.messages, self.dropped, self.requests, self.markup = History(), [], set(), {}, 1
        self.failing, self.appends = failing, 0  # which appends fail, counted from 1, and how many were tried

    def read(self, readings):
        """Moments never fall, whatever the clocks read."""
        for region, reading in zip((self.home, self.west), readings):
            region.moment = max(region.moment, min(reading, MOMENT_MOST))

    def append(self, entry):
        self.appends += 1
        if self.appends in self.failing:
            return Answer("store")
        self.history.append(entry)
        return None

    def issue(self, message):
        self.messages.append(message)
        return len(self.messages)

    def at_point(self, id, point):
        """The request, if it stands at this point."""
        request = self.requests.get(id)
        return request if request and request.point == point else None

    def closed(self, id, answer):
        del self.requests[id]
        return answer

    # The steps

    def beat(self, readings):
        self.read(readings)
        return self.append(Entry(self.home.moment))

    def arrive(self, readings, id, asked):
        self.read(readings)
        request = self.requests[id] = Open(asked)
        if isinstance(asked, View):
            request.region = self.regions["home" if asked.use_master else asked.host]
            request.arrived = request.region.moment

    def begin(self, readings, id):
        self.read(readings)
        request = self.at_point(id, "arrived")
        if not request or not isinstance(request.asked, Edit):
            return Answer("not-open", {"id": id})
        decided = self.history.decides(request.asked)
        if decided:
            return self.closed(id, decided)
        request.point, request.purge = "begun", self.purge(request.asked.title)

    def purge(self, title):
        """A purge, which home receives at once, and its message to west."""
        number = self.issue(Message(title, self.home.moment))
        self.home.receive(title)
        return number

    def commit(self, readings, id):
        self.read(readings)
        request = self.at_point(id, "begun")
        if not request:
            return Answer("not-open", {"id": id})
        edit, now = request.asked, self.home.moment
        refused = self.history.decides(edit) or self.append(self.history.commit_for(edit, now, request.purge))
        if refused:
            return self.closed(id, refused)
        if now > self.messages[request.purge - 1].issued + self.commit_delay:
            self.purge(edit.title)
        number = len(self.history)
        self.home.hear(edit.client, number)
        self.issue(Message(None, now, number))
        return self.closed(id, self.history.saved(number))

    def wait(self, readings, id, last):
        self.read(readings)
        request = self.at_point(id, "arrived")
        if not request or not isinstance(request.asked, View):
            return Answer("not-open", {"id": id})
        view, region = request.asked, request.region
        live = view.index is not None and region.moment // 1000 <= view.seconds + COOKIE_SECONDS
        index, position = region.known(view.client, self.history)
        behind = None
        if live and index < view.index:
            behind = Answer("lag index", {"needed": view.index, "reached": index})
        elif max(region.applied) < position:
            behind = Answer("lag entry", {"needed": position, "reached": max(region.applied)})
        if not behind:
            request.point, request.need = "waited", position
        elif last or region.moment >= request.arrived + WAIT_LIMIT:
            return self.closed(id, behind)

    def look(self, readings, id):
        self.read(readings)
        request = self.at_point(id, "waited")
        if not request:
            return Answer("not-open", {"id": id})
        ask = Ask(self.epoch, self.markup, request.need)
        where, found = request.region.cache.look(request.asked.title, request.region.moment, ask)
        if where:
            return self.closed(id, page_answer(found.upto, where, None, found.lagged, found.page))
        request.point = "looked"
        return Answer(f"miss {found}")

    def snap(self, readings, id):
        self.read(readings)
        request = self.at_point(id, "looked")
        if not request:
            return Answer("not-open", {"id": id})
        region, title = request.region, request.asked.title
        request.replica, request.lagging = region.choose(request.need, request.asked.word, self.history)
        request.upto, request.since = region.applied[request.replica], region.moment
        request.lag = max(0, region.moment - self.history.stamp(request.upto))
        begun = (other.asked.title for other in self.requests.values() if other.point == "begun")
        request.pending = region is self.home and title in begun
        request.point = "snapped"

    def store(self, readings, id):
        self.read(readings)
        request = self.at_point(id, "snapped")
        if not request:
            return Answer("not-open", {"id": id})
        title, texts, region = request.asked.title, Texts(self.history, request.upto), request.region
        if title not in texts:
            return self.closed(id, Answer("no-page", {"source": request.upto}))
        page = Page(texts, DEPTHS[self.markup]).html(title).encode()
        note = set_rule(request.lag, region.moment - request.since, request.pending, self.read_lag)
        if note in ("whole", "lagged"):
            life = LIFE_WHOLE if note == "whole" else LIFE_LAGGED
            value = Value(page, request.upto, region.moment, life, note == "lagged", self.markup)
            note = {"main": note, "interim": "interim", None: "held"}[region.cache.put(title, value)]
        return self.closed(id, page_answer(request.upto, f"replica:{request.replica}", note, request.lagging, page))

    def apply(self, readings, name, replica, count):
        self.read(readings)
        applied = self.regions[name].applied
        applied[replica] = min(applied[replica] + count, len(self.history))

    def carry(self, readings, number):
        self.read(readings)
        if not 1 <= number <= len(self.messages):
            return Answer("unknown", {"message": number})
        if number in self.dropped:
            return Answer("gone", {"message": number})
        message = self.messages[number - 1]
        if message.title is not None:
            self.west.receive(message.title)
        else:
            self.west.hear(self.history.entry(message.entry).edit.client, message.entry)

    def drop(self, readings, number):
        self.read(readings)
        if not 1 <= number <= len(self.messages):
            return Answer("unknown", {"message": number})
        self.dropped.add(number)

    def set_markup(self, readings, markup):
        self.read(readings)
        self.markup = markup


def page_answer(source, origin, note, lagged, page):
    return Answer("ok", {"source": source, "from": origin, "put": note, "lagged": int(lagged), "bytes": len(page)}, page)

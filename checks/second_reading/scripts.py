"""What a script may say: its lines, each by its form, and the first line that is none."""
import re
from typing import NamedTuple, Optional

from .pages import title_of

SCRIPT_MOST, TEXT_MOST = 16777216, 65536  # bytes
NUMBER_LIMIT, SECONDS_LIMIT, ID_LIMIT = 2**63, 10**16, 2**32
MOMENT_MOST, WEIGHT_MOST, REPLICAS_MOST, COUNT_MOST, BOUND_MOST = 4 * 10**15, 1000, 8, 1000000, 60000
REGIONS = ("home", "west")


class Edit(NamedTuple):
    client: int
    token: str
    title: str
    base: int
    text: str


class View(NamedTuple):
    host: str
    client: int
    index: Optional[int]  # of the cookie; None without one
    seconds: int
    use_master: bool
    word: int
    title: str


class Line(NamedTuple):
    form: str
    values: tuple = ()


class FaultyLine(Exception):
    """The number of the first line that is outside the grammar."""


class NoLine(Exception):
    """These bytes are no line."""


def wants(holds):
    if not holds:
        raise NoLine


def number(word, least, most):
    wants(len(word) <= 19 and re.fullmatch("0|[1-9][0-9]*", word) and least <= int(word) <= most)
    return int(word)


def region(word):
    wants(word in REGIONS)
    return word


def plain_text(word):
    """A text without its escapes, its carriage returns being line feeds."""
    wants("\\" not in re.sub(r"\\[n\\]", "", word))
    plain = re.sub(r"\\(.)", lambda found: {"n": "\n", "\\": "\\"}[found[1]], word)
    text = plain.replace("\r\n", "\n").replace("\r", "\n")
    wants(len(text.encode()) <= TEXT_MOST)
    return text


def title(word):
    found = title_of(word)
    wants(found is not None)
    return found


def edit(client, token, name, base, text):
    wants(re.fullmatch("[A-Za-z0-9_-]{1,64}", token))
    return Edit(number(client, 0, NUMBER_LIMIT - 1), token, title(name), number(base, 0, NUMBER_LIMIT - 1), plain_text(text))


def view(host, client, cookie, word, name):
    index, seconds, use_master = None, 0, False
    if cookie != "-":
        use_master = cookie.endswith("+")
        parts = (cookie[:-1] if use_master else cookie).split("@")
        wants(len(parts) == 2)
        index, seconds = number(parts[0], 1, NUMBER_LIMIT - 1), number(parts[1], 0, SECONDS_LIMIT - 1)
    return View(region(host), number(client, 0, NUMBER_LIMIT - 1), index, seconds, use_master, number(word, 0, NUMBER_LIMIT - 1),
                title(name))


def asked(kind, rest):
    """What `edit` or `view` asks with the rest of its line."""
    wants(kind in ("edit", "view"))
    words = rest.split(" ", 4) if kind == "edit" else rest.split(" ")
    wants(len(words) == 5)
    return edit(*words) if kind == "edit" else view(*words)


def weights(word):
    found = tuple(number(weight, 0, WEIGHT_MOST) for weight in word.split(","))
    wants(len(found) <= REPLICAS_MOST)
    return found


def words(rest, count):
    found = rest.split(" ")
    wants(len(found) == count)
    return found


class Reader:
    """Reads line after line: what was read decides what may follow."""

    def __init__(self):
        self.lines, self.replicas, self.last_id = [], {"home": 1, "west": 1}, 0

    def line(self, text):
        form, _, rest = text.partition(" ")
        wants(form in self.FORMS and (rest or form == text))
        self.lines.append(Line(form, self.FORMS[form](self, rest)))

    def farm(self, rest):
        wants(not self.lines)
        home, west, epoch = words(rest, 3)
        home, west = weights(home), weights(west)
        self.replicas = {"home": len(home), "west": len(west)}
        return home, west, number(epoch, 0, MOMENT_MOST)

    def bounds(self, rest):
        wants([line.form for line in self.lines] in ([], ["farm"]))
        delay, lag, skew = words(rest, 3)
        return number(delay, 0, BOUND_MOST), number(lag, 0, BOUND_MOST), number(skew, 1, BOUND_MOST)

    def readings(self, rest):
        return tuple(number(word, 0, MOMENT_MOST) for word in words(rest, 2))

    def apply(self, rest):
        name, replica, count = words(rest, 3)
        return region(name), number(replica, 0, self.replicas[name] - 1), number(count, 1, COUNT_MOST)

    def edit(self, rest):
        return (asked("edit", rest),)

    def view(self, rest):
        return (asked("view", rest),)

    def open(self, rest):
        found = rest.split(" ", 2)
        wants(len(found) == 3)
        self.last_id = number(found[0], self.last_id + 1, ID_LIMIT - 1)
        return self.last_id, asked(found[1], found[2])

    def id(self, rest):
        return (number(rest, 1, ID_LIMIT - 1),)

    def message(self, rest):
        return (number(rest, 0, NUMBER_LIMIT - 1),)

    def markup(self, rest):
        return (number(rest, 1, 2),)

    def nothing(self, rest):
        wants(rest == "")
        return ()

    FORMS = {
        "farm": farm, "bounds": bounds, "at": readings, "beat": nothing, "apply": apply, "edit": edit, "view": view, "open": open,
        "begin": id, "commit": id, "wait": id, "look": id, "snap": id, "store": id, "carry": message, "drop": message,
        "markup": markup, "end": nothing,
    }


def read_script(script):
    """The lines of a script's bytes."""
    reader, ended, size = Reader(), False, 0
    pieces = script.split(b"\n")
    for place, piece in enumerate(pieces, 1):
        if place == len(pieces) and ended and not piece:
            return reader.lines
        size += len(piece) + 1
        try:
            wants(place < len(pieces) and not ended and size <= SCRIPT_MOST)
            reader.line(piece.decode())
        except (NoLine, UnicodeDecodeError):
            raise FaultyLine(place) from None
        ended = reader.lines[-1].form == "end"

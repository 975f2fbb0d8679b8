"""The examples of docs/HTTP.md: each a request, and the response that a wiki answers to it."""
import re
import time

from served import TOP, ask, documented, wants, wants_documented

STATUSES = documented()


def examples_of_the_documents():
    """The examples of docs/HTTP.md: a block whose fence says `request`, and the next one, whose fence says `response`.

    What the fences say besides is how the wiki comes to answer so. Nothing: it is new, and was asked the examples before this
    one. `pace`: it has the layout PACE, and two edits were made with a second between them. `elsewhere`: not here.
    """
    text = (TOP / "docs/HTTP.md").read_text(encoding="utf-8")
    blocks = re.findall(r"^```(request|response) ?([a-z]*)\n(.*?\n)```$", text, re.S | re.M)
    wants([block[0] for block in blocks] == ["request", "response"] * (len(blocks) // 2), "a request or a response stands alone")
    wants(all(one[1] == two[1] for one, two in zip(blocks[::2], blocks[1::2])), "two fences of an example differ")
    return [Example(one[2], two[2], one[1]) for one, two in zip(blocks[::2], blocks[1::2])]


class Example:
    """A request and its response, as docs/HTTP.md shows them."""

    # What differs from day to day: seconds, numbers of entries, where a page is from, and the length of what has these.
    NUMBERS = re.compile(r"(?<=@)\d+|(?<=\bentry=)\d+|(?<=ource[=:])( ?)\d+|(?<=\b[Ff]rom[=:])( ?)\S+|(?<=Content-Length: )\d+")

    def __init__(self, request, response, kind):
        self.request, self.kind = request, kind
        head, _, self.body = response.partition("\n\n")
        self.head = head.split("\n")
        self.is_head = request.startswith("HEAD ") and self.body == ""
        self.status, self.phrase = int(self.head[0].split(" ")[1]), self.head[0].split(" ", 2)[2]
        self.length = int(dict(line.split(": ", 1) for line in self.head[1:])["Content-Length"])
        wants(self.is_head or len(self.body.encode()) == self.length, f"{self}: it says that its body has {self.length} bytes")

    def __str__(self):
        return f"the example {self.request.splitlines()[0][:60]!r}"

    def sent(self):
        """The request as it is sent: a head's lines end with CR LF, and a form, or a head without an end, as it stands."""
        text = re.sub(r"\{(.)\*(\d+)\}", lambda found: found[1] * int(found[2]), self.request)
        text = re.sub(r"(?<=@)\d+(?=#)", str(int(time.time())), text)
        head, end, rest = text.partition("\n\n")
        return (head + end).replace("\n", "\r\n").encode() + rest[:-1].encode() if end else text[:-1].encode()

    def asks(self):
        """Sends it, and compares the response that comes with the one that is shown."""
        reply = ask(self.sent(), self.is_head)
        wants_documented(reply, STATUSES, self.is_head)
        came = (reply.head + reply.body).decode().replace("\r\n", "\n")
        shown = "\n".join(self.head) + "\n\n" + self.body
        wants(self.NUMBERS.sub("N", came) == self.NUMBERS.sub("N", shown), f"{self}: {came!r} and not {shown!r}")
        wants(not self.is_head or self.length == int(reply.named["content-length"]), f"{self}: the head is of another body")

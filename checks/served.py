"""A wiki that is served, for the checks and measurements that ask it over HTTP. No command of its own.

The program always listens at 127.0.0.1:8080. So that it meets no other one there, `apart` takes a network of this process's own
first, where the system allows that; elsewhere the port has to be free.
"""
import ctypes
import fcntl
import os
import pathlib
import re
import signal
import socket
import struct
import subprocess
import sys
import threading
import time
import urllib.parse

TOP = pathlib.Path(__file__).resolve().parent.parent
ADDRESS = ("127.0.0.1", 8080)
URL = "http://127.0.0.1:8080"
NEW_USER, NEW_NETWORK, SET_FLAGS, GET_FLAGS, IS_UP = 0x10000000, 0x40000000, 0x8914, 0x8913, 1
FORM = "application/x-www-form-urlencoded"
LIMIT = 0.7  # seconds: whoever took longer may have met the wiki's own limit, of 0.8
SET_DEATH_SIGNAL = 1


class Skip(Exception):
    """Why a check can't be made here."""


class Wrong(Exception):
    """What came instead."""


def wants(holds, otherwise):
    if not holds:
        raise Wrong(otherwise)


def apart():
    """Takes a network of its own for this process and those that it starts, if the system allows it. Call it first."""
    libc = ctypes.CDLL(None, use_errno=True)
    if libc.unshare(NEW_NETWORK if os.geteuid() == 0 else NEW_USER | NEW_NETWORK) != 0:
        return False
    with socket.socket(socket.AF_INET, socket.SOCK_DGRAM) as asked:
        found = fcntl.ioctl(asked, GET_FLAGS, struct.pack("16sH14s", b"lo", 0, b""))
        flags = struct.unpack("16sH14s", found)[1]
        fcntl.ioctl(asked, SET_FLAGS, struct.pack("16sH14s", b"lo", flags | IS_UP, b""))
    return True


def ends_with_its_parent(before=None):
    """What a process does before it becomes the program: if this script is killed, the program is too."""
    def prepare():
        ctypes.CDLL(None).prctl(SET_DEATH_SIGNAL, signal.SIGKILL)
        if before:
            before()
    return prepare


def program_of(path):
    """The program: the one at this path, or the one that ./wiki builds."""
    if path:
        return pathlib.Path(path).resolve()
    if subprocess.run([TOP / "wiki", "drill"], input=b"end\n", stdout=subprocess.DEVNULL, check=False).returncode:
        sys.exit("the program is not built: ./wiki says why")
    return TOP / "out/wiki"


class Served:
    """A process of the program that serves; `with` ends it."""

    def __init__(self, program, *words, layout=b"", connections=1_000_000, ready=True, before=None, **started):
        command = [str(program), "serve", "--connections", str(connections), *map(str, words)]
        if ready and is_taken():
            raise Wrong("another program listens at 127.0.0.1:8080")
        self.begun = time.perf_counter()
        self.process = subprocess.Popen(command, stdin=subprocess.PIPE, stdout=subprocess.PIPE, stderr=subprocess.PIPE,
                                        preexec_fn=ends_with_its_parent(before), **started)
        self.process.stdin.write(layout)
        self.process.stdin.close()
        self.said, self.took = b"", None
        self.listener = threading.Thread(target=self._listen, daemon=True)
        self.listener.start()
        if ready:
            self.until_answered()

    def _listen(self):
        while piece := os.read(self.process.stderr.fileno(), 4096):
            self.said += piece

    def until_answered(self, seconds=60):
        """Waits for the first answer, and keeps how long it took from the start."""
        end = time.monotonic() + seconds
        while True:
            try:
                with Client(timeout=seconds) as client:
                    wants(client.ask(b"GET /none HTTP/1.0\r\n\r\n").status == 404, "the first answer is no 404")
                self.took = time.perf_counter() - self.begun
                return
            except OSError as error:
                status = self.process.poll()
                if status is not None or end < time.monotonic():
                    self.kill()
                    raise Wrong(f"no answer: status {status}, {error}, {self.said.decode(errors='replace')!r}") from error
                time.sleep(0.0005)

    def is_running(self):
        return self.process.poll() is None

    def kill(self):
        """Kills it, as a lost power does."""
        self.process.kill()
        self.process.wait()

    def ended(self, seconds=30):
        """The status, and what was written, of a program that ends by itself."""
        try:
            status = self.process.wait(timeout=seconds)
        except subprocess.TimeoutExpired as error:
            self.kill()
            raise Wrong(f"it had not ended after {seconds} seconds") from error
        return status, self.process.stdout.read()

    def __enter__(self):
        return self

    def __exit__(self, *_why):
        if self.is_running():
            self.kill()
        self.process.stdout.close()
        self.listener.join(timeout=5)
        self.process.stderr.close()


def is_taken():
    with socket.socket() as asked:
        return asked.connect_ex(ADDRESS) == 0


class Reply:
    """A response, as it came."""

    def __init__(self, status, phrase, fields, body, head):
        self.status, self.phrase, self.fields, self.body, self.head = status, phrase, fields, body, head
        self.named = {name.lower(): value for name, value in fields}
        self.text = body.decode(errors="replace").strip()

    @property
    def closes(self):
        return self.named["connection"] == "close"

    def all_of(self, name):
        return [value for own, value in self.fields if own.lower() == name]

    def cookies(self):
        """The pairs that it sets."""
        return dict(line.split(";")[0].split("=", 1) for line in self.all_of("set-cookie"))

    def __str__(self):
        return f"{self.status} {self.text[:60]!r}"


class Client:
    """A connection to the wiki, byte for byte."""

    def __init__(self, timeout=20, address=ADDRESS):
        self.socket = socket.create_connection(address, timeout=timeout)
        self.socket.setsockopt(socket.IPPROTO_TCP, socket.TCP_NODELAY, 1)
        self.came = b""

    def send(self, data):
        self.socket.sendall(data)

    def _more(self):
        piece = self.socket.recv(65536)
        self.came += piece
        return piece != b""

    def reply(self, of_head=False):
        """The next response, or None if the connection has ended; it has to be well formed to the byte."""
        while (end := self.came.find(b"\r\n\r\n")) < 0:
            if not self._more():
                wants(self.came == b"", f"the connection ended inside a head: {self.came[:80]!r}")
                return None
        head, self.came = self.came[:end + 4], self.came[end + 4:]
        status, phrase, fields = read_head(head)
        count = 0 if of_head else int(dict(fields)["Content-Length"])
        while len(self.came) < count:
            wants(self._more(), f"the connection ended inside a body of {count} bytes: {len(self.came)} came")
        body, self.came = self.came[:count], self.came[count:]
        return Reply(status, phrase, fields, body, head)

    def ask(self, request, of_head=False):
        """The response to a request; there has to be one."""
        self.send(request)
        reply = self.reply(of_head)
        wants(reply is not None, f"no response to {request[:80]!r}")
        return reply

    def has_ended(self):
        """Whether nothing more comes, up to the end. A reset is an end too."""
        try:
            return self.came == b"" and not self._more()
        except ConnectionError:
            return self.came == b""

    def close(self):
        self.socket.close()

    def __enter__(self):
        return self

    def __exit__(self, *_why):
        self.close()


def read_head(head):
    """The status, the phrase and the fields of a response's head."""
    lines = head.decode("ascii").split("\r\n")
    first = re.fullmatch(r"HTTP/1\.1 (\d{3}) ([A-Za-z ]+)", lines[0])
    wants(first, f"no line of a status: {lines[0]!r}")
    fields = [tuple(line.split(": ", 1)) for line in lines[1:-2]]
    names = [field[0] for field in fields]
    wants(all(len(field) == 2 for field in fields), f"a line is no field: {lines!r}")
    wants(names[:2] == ["Content-Type", "Content-Length"] and names[-1] == "Connection", f"the fields are {names}")
    wants(fields[-1][1] in ("keep-alive", "close"), f"Connection is {fields[-1][1]!r}")
    return int(first[1]), first[2], fields


def get(target, host="wiki.example", method="GET", version="1.1", **fields):
    """The bytes of a request without a body; a field's name is written with _ for -."""
    lines = [f"{method} {target} HTTP/{version}"]
    lines += [f"Host: {host}"] if host is not None else []
    lines += [f"{name.replace('_', '-').title()}: {value}" for name, value in fields.items()]
    return ("\r\n".join(lines) + "\r\n\r\n").encode()


def post(body, host="wiki.example", target="/edit", **fields):
    """The bytes of a request with this form."""
    return get(target, host, "POST", content_type=FORM, content_length=len(body), **fields) + body


def form(title, base, token, text):
    return urllib.parse.urlencode({"title": title, "base": base, "token": token, "text": text}).encode()


def edit(title, base, token, text, **fields):
    return post(form(title, base, token, text), **fields)


def ask(request, of_head=False, tries=5):
    """The response to a request on a connection of its own. The wiki ends a connection, without a response, if it had to wait for
    its client for 800 ms; this script may be that slow on a machine that is busy, and the request is then sent again, as often as
    this says. An edit is saved once all the same."""
    for left in reversed(range(tries)):
        begun = time.monotonic()
        try:
            with Client() as client:
                return client.ask(request, of_head)
        except (Wrong, OSError):
            if left == 0 or time.monotonic() - begun < LIMIT:
                raise
    return None


def documented():
    """The statuses of docs/HTTP.md: by their number the phrase, and the bodies that it may have (None: a page)."""
    found = {}
    for line in (TOP / "docs/HTTP.md").read_text().splitlines():
        row = re.fullmatch(r"\| (\d{3}) ([A-Za-z ]+) \| .* \| (.*) \|", line)
        if not row:
            continue
        phrase, bodies = found.setdefault(int(row[1]), (row[2], []))
        wants(phrase == row[2], f"docs/HTTP.md has two phrases for {row[1]}")
        for text in re.findall(r"`([^`]*)`", row[3]):
            # A capital letter stands for a number, and `..` for names with numbers.
            shape = re.sub(r"\b[A-Z]\b", "[0-9]+", re.escape(text)).replace(r"\ \.\.", "( [a-z]+=[0-9]+)+")
            bodies.append(re.compile(shape + "\n"))
        if "`" not in row[3]:
            bodies.append(None)
    return found


def wants_documented(reply, statuses, of_head=False):
    """The response is one that docs/HTTP.md has."""
    wants(reply.status in statuses, f"{reply}: no such status in docs/HTTP.md")
    phrase, bodies = statuses[reply.status]
    wants(reply.phrase == phrase, f"{reply.status} is {reply.phrase!r}, and in docs/HTTP.md {phrase!r}")
    plain = "text/plain; charset=utf-8"
    is_batch = reply.status == 200 and reply.named["content-type"] == plain
    is_page = None in bodies and not is_batch
    kind = "text/html; charset=utf-8" if is_page else plain
    wants(reply.named["content-type"] == kind, f"{reply}: Content-Type is {reply.named['content-type']}")
    if is_batch:
        wants(of_head or re.match(rb"1 (ok|no-page|memory)\b", reply.body), f"{reply}: no page and no batch")
    elif not is_page and not of_head:
        text = reply.body.decode()
        wants(any(shape.fullmatch(text) for shape in bodies), f"{reply.status} has the body {text!r}, which is not in docs/HTTP.md")
    extra = [name for name, _ in reply.fields[2:-1]]
    wanted = {200: [[]] if is_batch else [["Wiki-Source", "Wiki-From", "Wiki-Lagged"]], 303: [["Location"] + ["Set-Cookie"] * 3], 405: [["Allow"]],
              404: [[], ["Wiki-Source"]]}
    wants(extra in wanted.get(reply.status, [[]]), f"{reply}: its fields are {extra}")


def run_checks(checks, *given):
    """Makes each check, a function whose name says what holds, and writes a line of it. Answers the exit status."""
    failed = 0
    for check in checks:
        name = check.__name__.replace("_", " ")
        begun = time.monotonic()
        try:
            more = check(*given)
            print(f"ok       {name}" + (f": {more}" if more else ""), flush=True)
        except Skip as why:
            print(f"skipped  {name}: {why}", flush=True)
        except (Wrong, OSError, KeyError, ValueError, subprocess.SubprocessError) as came:
            failed += 1
            print(f"FAILED   {name}, after {time.monotonic() - begun:.1f} s: {type(came).__name__}: {came}", flush=True)
    return 1 if failed else 0

"""What is asked of a server, and what it answers, as rows."""
import hashlib
import re
from typing import NamedTuple

from served import children_of, exchange, request_text, sockets_in, words_of
from trials.tally import Secrets

PHRASES = {
    200: "OK", 400: "Bad Request", 401: "Unauthorized", 403: "Forbidden", 404: "Not Found", 409: "Conflict", 411: "Length Required",
    413: "Payload Too Large", 502: "Bad Gateway",
}
# Those of the lines of each client here that a grain is told.
SENT = ["user-agent: trial", "accept: */*"]


class Plain(str):
    """An answer of the server's own that is a plain text; any other of its own is JSON."""


class Relayed(str):
    """What a grain answered."""


class Ask(NamedTuple):
    """A request on a connection of its own: by whom, what, with which body, and with which status and text it is answered."""
    name: str
    who: str
    request: str
    body: str
    status: int
    answer: str


class Runs(NamedTuple):
    """Which runs have a program, where `ended` is one that has ended and that the server hasn't waited for, and which a socket."""
    name: str
    programs: list
    sockets: list


class Handed(NamedTuple):
    """What a run's program was handed on its standard input."""
    name: str
    run: int
    text: str


class Account(NamedTuple):
    """An account as grains are told of it."""
    number: int
    handle: str
    name: str

    def lines(self):
        known_as = hashlib.sha256(f"account:{self.number}".encode()).hexdigest()[:32]
        return [f"X-Sandstorm-Username: {self.name}", f"X-Sandstorm-User-Id: {known_as}", f"X-Sandstorm-Preferred-Handle: {self.handle}"]


def asked(line, by, permissions, session=None, lines=SENT, body=None):
    """The text that a grain is asked, which the small program that stands for an application answers as it came."""
    marks = [f"X-Sandstorm-Tab-Id: {session:016x}", f"X-Sandstorm-Session-Id: {session:016x}"] if session else []
    who = by.lines() if by else ["X-Sandstorm-Username: Anonymous%20User"]
    length = [f"Content-Length: {len(body)}"] if body is not None else []
    head = [f"{line} HTTP/1.1", "Host: sandbox", "Connection: close", *marks, *who, f"X-Sandstorm-Permissions: {permissions}", *lines, *length]
    return Relayed("".join(one + "\r\n" for one in head) + "\r\n" + (body or ""))


def whole_answer(status, answer, length=None):
    """All bytes of an answer, as text."""
    length = len(answer.encode()) if length is None else length
    line = "content-type" if isinstance(answer, Relayed) else "Content-Type"
    kind = "text/plain" if isinstance(answer, (Relayed, Plain)) else "application/json"
    return f"HTTP/1.1 {status} {PHRASES[status]}\r\nContent-Length: {length}\r\n{line}: {kind}\r\n\r\n{answer}"


def run_of(words):
    """The run whose program has these words, which stand behind an interpreter's where it is a script."""
    found = re.search(r"run-(\d+)\.sock$", words[-2]) if len(words) >= 4 else None
    return f"run {found[1]}" if found else "ended" if not words else " ".join(words)


class Talk:
    """Rows over one server, with the secrets that it handed out."""

    def __init__(self, tally, server):
        self.tally, self.server = tally, server
        self.secrets = Secrets()

    def fits(self, name, expected, actual):
        """A row of a text with secrets."""
        if self.secrets.learn(expected, actual):
            self.tally.passed += 1
        else:
            self.tally.differs(name, self.secrets.filled(expected), actual)

    def first_login(self):
        """Learns the first account's login, which is all that a server on a new file has printed."""
        self.fits("the first login is printed", "login $first\n", self.server.printed().decode(errors="replace"))

    def request_of(self, row, domain, lines=()):
        """The name that a request is sent to, and its text."""
        method, _, where = row.request.partition(" ")
        host, slash, target = self.secrets.filled(where).partition("/")
        token = self.secrets.filled(f"${row.who}") if row.who else ""
        body = None if row.body is None else self.secrets.filled(row.body)
        return f"{host}.{domain}", request_text(method, f"{host}.{domain}", slash + target, token, body, lines)

    def ask(self, row, lines=()):
        """What comes back of a request, as text."""
        _, text = self.request_of(row, f"localhost:{self.server.port}", lines)
        return exchange(self.server.port, text).decode(errors="replace")

    def answered(self, row, lines=()):
        """A row of a request."""
        expected = whole_answer(row.status, row.answer, self.secrets.length(row.answer))
        self.fits(f"{row.name}: {row.request}", expected, self.ask(row, lines))

    def programs(self):
        return sorted(run_of(words_of(child)) for child in children_of(self.server.number))

    def play(self, rows):
        for row in rows:
            if isinstance(row, Ask):
                self.answered(row)
            elif isinstance(row, Runs):
                self.tally.same(row.name, (row.programs, row.sockets), (self.programs(), sockets_in(self.server.runs())))
            else:
                self.fits(row.name, row.text, self.server.handed_to(row.run).decode(errors="replace"))


def count_of(*tables):
    """How many requests the rows of tables make, each on a connection of its own."""
    return sum(isinstance(row, Ask) for table in tables for row in table)

"""Connections to a server, of clients that keep to the rules and of others."""
import contextlib

from served import Connection, Port, exchange, request_text
from trials.rows import ADMIN, A_GRAIN
from trials.talk import Ask, asked, count_of, whole_answer

SETTING_OUT = [
    *A_GRAIN,
    Ask("it is opened", "first", "POST desk/grains/1/open", "{}", 200, '{"key":"$key","session":1}'),
]
# How many connections the server takes, and how many of its workers clients may keep, so that one is left.
COUNT, KEPT = 80, 15
LARGEST, LONGEST_HEAD = 1048576, 16384
# What is no request, so that it doesn't count as one that was answered, and how it is refused; a number says where it begins.
NO_REQUESTS = [
    ("no request line", "hello\r\n\r\n", 400, '{"error":"BadHead","of":[0]}'),
    ("no host", "GET / HTTP/1.1\r\n\r\n", 400, '{"error":"BadHead","of":[0]}'),
    ("a body without a length", "POST / HTTP/1.1\r\nHost: a\r\nTransfer-Encoding: chunked\r\n\r\n", 411, '{"error":"NeedLength","of":[0]}'),
    ("a body that is too long", f"POST / HTTP/1.1\r\nHost: a\r\nContent-Length: {LARGEST + 1}\r\n\r\n", 413, '{"error":"LongBody","of":[0]}'),
    ("a head that is too long", "GET /" + LONGEST_HEAD * "a", 413, '{"error":"LongHead","of":[0]}'),
]


class Visits:
    """Connections to a server's grain, which are counted, and so are the requests that are answered."""

    def __init__(self, bench, talk):
        self.bench, self.talk = bench, talk
        self.connections = self.answered = count_of(SETTING_OUT)

    def connect(self, answered=0):
        self.connections += 1
        self.answered += answered
        return Connection(self.talk.server.port)

    def exchange(self, data, answered=0):
        """What comes back of bytes on a connection of their own."""
        self.connections += 1
        self.answered += answered
        return exchange(self.talk.server.port, data).decode(errors="replace")

    def text(self, target, method="GET", body=None):
        return request_text(method, self.talk.secrets.filled("ui-$key"), target, body=body)

    def answer(self, target, method="GET", body=None):
        return whole_answer(200, asked(f"{method} {target}", ADMIN, "view,edit", 1, body=body))

    def next_is_answered(self, what):
        """The next client is served after one that wasn't like others."""
        self.bench.same(f"the next one after {what}", self.answer("/next"), self.exchange(self.text("/next"), 1))


def connections(bench):
    folder, port = bench.place.make("connections"), Port()
    talk = bench.talk(folder, port, COUNT)
    talk.play(SETTING_OUT)
    visits = Visits(bench, talk)
    for trial in (in_turns, at_once, in_pieces, half_closed, large, head_alone, no_requests, leaving, beside_silent):
        trial(bench, visits)
    while visits.connections < COUNT - 1:
        visits.exchange(b"")
    bench.ends(talk, visits.answered)


def in_turns(bench, visits):
    with visits.connect(3) as connection:
        for target in ("/one", "/two", "/three"):
            connection.send(visits.text(target))
            bench.same(f"requests in turns: {target}", visits.answer(target), connection.read_answer().decode())


def at_once(bench, visits):
    """A hundred requests in one piece, of which each other one is denied."""
    denied = request_text("GET", "ui-" + 32 * "0", "/")
    refusal = whole_answer(401, '{"error":"UnknownKey","of":[]}')
    targets = [f"/{number}" for number in range(50)]
    actual = visits.exchange(b"".join(visits.text(target) + denied for target in targets), 100)
    bench.same("requests at once", "".join(visits.answer(target) + refusal for target in targets), actual)


def in_pieces(bench, visits):
    """A request byte by byte, and two that are cut at odd places."""
    with visits.connect(1) as connection:
        for byte in visits.text("/bytes", "POST", "body"):
            connection.send(bytes([byte]))
        bench.same("a request byte by byte", visits.answer("/bytes", "POST", "body"), connection.read_answer().decode())
    whole = visits.text("/one", "POST", "first") + visits.text("/two", "POST", "second")
    with visits.connect(2) as connection:
        for at in range(0, len(whole), 37):
            connection.send(whole[at : at + 37])
        connection.say_end()
        expected = visits.answer("/one", "POST", "first") + visits.answer("/two", "POST", "second")
        bench.same("two requests in pieces", expected, connection.read_all().decode())


def half_closed(bench, visits):
    """A client that says that no more comes is answered what it asked whole, and its connection ends."""
    bench.same("nothing at all", "", visits.exchange(b""))
    bench.same("the end within a head", "", visits.exchange(b"GET / HTTP/1.1\r\nHo"))
    bench.same("the end within a body", visits.answer("/one"), visits.exchange(visits.text("/one") + visits.text("/two", "POST", "body")[:-1], 1))


def large(bench, visits):
    body = "".join(f"{number:07}\n" for number in range(LARGEST // 8))
    bench.same("the largest body, there and back", visits.answer("/large", "POST", body), visits.exchange(visits.text("/large", "POST", body), 1))


def head_alone(bench, visits):
    """The head of an answer alone, for which the grain is asked for all."""
    head = visits.answer("/head").partition("\r\n\r\n")[0] + "\r\n\r\n"
    bench.same("the head alone", head, visits.exchange(visits.text("/head", "HEAD"), 1))


def no_requests(bench, visits):
    for name, text, status, refusal in NO_REQUESTS:
        bench.same(name, whole_answer(status, refusal), visits.exchange(text.encode()))
    bench.same("one that is sent all the same", whole_answer(413, NO_REQUESTS[3][3]), visits.exchange(NO_REQUESTS[3][1].encode() + (LARGEST + 1) * b"a"))
    text = visits.text("/one")
    expected = visits.answer("/one") + whole_answer(400, f'{{"error":"BadHead","of":[{len(text)}]}}')
    bench.same("what comes behind it isn't read", expected, visits.exchange(text + b"hello\r\n\r\n" + text, 1))


def leaving(_, visits):
    """Clients that leave, and such as reset their connection: at once, within a head, and within a body."""
    begun = {"at once": b"", "within a head": b"GET / HTTP/1.1\r\nHo", "within a body": visits.text("/", "POST", "body")[:-1]}
    for when, data in begun.items():
        with visits.connect() as connection:
            connection.send(data)
        visits.next_is_answered(f"one that left {when}")
        connection = visits.connect()
        connection.send(data)
        connection.reset()
        visits.next_is_answered(f"one that was reset {when}")


def beside_silent(bench, visits):
    """Clients that say nothing, or begin a request and go no further, hold up nobody as long as a worker is left."""
    with contextlib.ExitStack() as silent:
        for place in range(KEPT):
            connection = silent.enter_context(visits.connect())
            connection.send(b"" if place % 2 else b"GET / HTTP/1.1\r\nHo")
        for turn in range(3):
            visits.next_is_answered(f"{KEPT} that are silent, {turn + 1}")
    visits.next_is_answered("those that were silent")

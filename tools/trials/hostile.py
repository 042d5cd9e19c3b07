"""What a grain's program sends that it shouldn't: without an end, a byte at a time, nothing, or lines that are for servers and other hosts alone. Each
meets its stated answer, and another grain's program is asked meanwhile and answers."""
import contextlib
import os
import socket
import threading
import time

from served import PATIENCE, Connection, Port, request_text, until
from trials.rows import ADMIN, A_GRAIN
from trials.talk import Ask, Relayed, asked, whole_answer

GRAINS = [
    *A_GRAIN,
    Ask("another grain", "first", "POST desk/grains", '{"app":1,"title":"Plans"}', 200, '{"grain":2}'),
    Ask("the first is opened", "first", "POST desk/grains/1/open", "{}", 200, '{"key":"$key_1","session":1}'),
    Ask("the second is opened", "first", "POST desk/grains/2/open", "{}", 200, '{"key":"$key_2","session":2}'),
]
WELL = Ask("another grain is asked", "", "GET ui-$key_2/", None, 200, asked("GET /", ADMIN, "view,edit", 2))

HEAD = "HTTP/1.1 200 OK\r\nContent-Type: text/plain\r\nContent-Length: {}\r\n\r\n"
GOOD = HEAD.format(5) + "hello"
LINES = """HTTP/1.1 200 OK
Connection: keep-alive, Set-Cookie
Keep-Alive: timeout=600
Proxy-Authenticate: Basic
Trailer: X-A
Upgrade: h2c
Strict-Transport-Security: max-age=0
Access-Control-Allow-Origin: *
X-Sandstorm-Permissions: manage
Set-Cookie: a=1; Domain=localhost
Set-Cookie: b=2; Path=/
set-cookie: c=3;HttpOnly;\t DOMAIN = .localhost
Set-Cookie: domain=4
Content-Length: 2

ok""".replace("\n", "\r\n")
PASSED = "HTTP/1.1 200 OK\r\nContent-Length: 2\r\nset-cookie: b=2; Path=/\r\nset-cookie: domain=4\r\n\r\nok"
# What is sent at once, and what the client is answered.
SENT = [
    ("an answer", GOOD, whole_answer(200, Relayed("hello"))),
    ("half a head", GOOD[:20], whole_answer(502, '{"error":"BadAnswer","of":[0]}')),
    ("an interim answer in front", "HTTP/1.1 100 Continue\r\n\r\n" + GOOD, whole_answer(502, '{"error":"BadAnswer","of":[0]}')),
    ("another protocol", "HTTP/1.1 101 Switching Protocols\r\nUpgrade: h2c\r\n\r\n", whole_answer(502, '{"error":"BadAnswer","of":[0]}')),
    ("two lengths", GOOD.replace("\r\n\r\n", "\r\nContent-Length: 5\r\n\r\n"), whole_answer(502, '{"error":"BadAnswer","of":[0]}')),
    ("a length and a coding", GOOD.replace("\r\n\r\n", "\r\nTransfer-Encoding: chunked\r\n\r\n"), whole_answer(502, '{"error":"NoLength","of":[]}')),
    ("two answers", 2 * GOOD, whole_answer(502, f'{{"error":"BadAnswer","of":[{len(GOOD)}]}}')),
    ("a name with a blank behind it", GOOD.replace("Content-Type:", "Content-Type :"), whole_answer(502, '{"error":"BadAnswer","of":[0]}')),
    ("a line that goes on", GOOD.replace("text/plain", "text\r\n /plain"), whole_answer(502, '{"error":"BadAnswer","of":[0]}')),
    ("a byte 0 in a line", GOOD.replace("text/plain", "text\0plain"), whole_answer(502, '{"error":"BadAnswer","of":[0]}')),
    ("lines for servers and cookies for other hosts", LINES, PASSED),
]
TOO_LONG = whole_answer(502, '{"error":"LongAnswer","of":[4194305]}')
# How many requests another grain answers while one is silent.
MEANWHILE = 20
# How many seconds an answer may take, how much later it may be noticed, and how many lie between two bytes of a slow one.
MOST_ASKING, AFTER, STILL = 60, 5, 5


def hostile(bench):
    talk = bench.talk(bench.place.make("hostile"), Port(), 1000000)
    talk.play(GRAINS)
    with in_place_of(talk.server, 1) as listener:
        for name, text, answer in SENT:
            bench.same(name, answer, visited(talk, listener, lambda program, text=text: program.sendall(text.encode())))
            talk.play([WELL])
        bench.same("a byte at a time", whole_answer(200, Relayed("hello")), visited(talk, listener, by_bytes))
        for name, piece in (("a body without an end", HEAD.format(5) + 65536 * "a"), ("a head without an end", "HTTP/1.1 200 OK\r\n" + 8192 * "a: b\r\n")):
            cut = []
            bench.same(name, TOO_LONG, visited(talk, listener, lambda program, piece=piece, cut=cut: cut.append(without_end(program, piece))))
            bench.same(f"{name}: it is cut off", [True], cut)
            talk.play([WELL])
        nothing = whole_answer(502, '{"error":"BadAnswer","of":[0]}')
        bench.same("silence, and then an end", nothing, visited(talk, listener, lambda program: talk.play(MEANWHILE * [WELL])))
        unread = whole_answer(502, '{"error":"LinkFailed","of":[]}')
        bench.same("a request that isn't read", unread, visited(talk, listener, None, body=1000000 * "a"))
        talk.play([WELL])
        bench.same("an answer at last", whole_answer(200, Relayed("hello")), visited(talk, listener, lambda program: program.sendall(GOOD.encode())))
    talk.server.stop()
    until("the end of its grains' programs", lambda: not bench.place.left())


def late(bench):
    """Answers that aren't whole after a minute: each is a fault then, and not before."""
    talk = bench.talk(bench.place.make("late"), Port(), 1000000)
    talk.play(GRAINS)
    with in_place_of(talk.server, 1) as listener:
        for name, act in (("no byte", lambda program: None), ("a byte now and then", slowly)):
            answer, seconds = awaited(talk, listener, act)
            bench.same(name, whole_answer(502, '{"error":"LinkFailed","of":[]}'), answer)
            bench.same(f"{name}: after a minute", True, MOST_ASKING <= seconds <= MOST_ASKING + AFTER)
            talk.play([WELL])
    talk.server.stop()
    until("the end of its grains' programs", lambda: not bench.place.left())


def awaited(talk, listener, act):
    """What a client is answered at last of a request for which the program at the socket does that meanwhile, and after how many seconds."""
    with Connection(talk.server.port) as client:
        client.socket.settimeout(MOST_ASKING + 4 * AFTER)
        began = time.monotonic()
        client.send(request_text("GET", talk.secrets.filled("ui-$key_1"), "/"))
        program, _ = listener.accept()
        acting = threading.Thread(target=act, args=(program,))
        acting.start()
        client.say_end()
        answer, seconds = client.read_all().decode(), time.monotonic() - began
        acting.join()
        program.close()
        return answer, seconds


@contextlib.contextmanager
def in_place_of(server, run):
    """A socket at which this process listens, in the place of the program of a run."""
    path = os.path.join(server.runs(), f"run-{run}.sock")
    os.unlink(path)
    with socket.socket(socket.AF_UNIX) as listener:
        listener.bind(path)
        listener.listen()
        listener.settimeout(PATIENCE)
        yield listener


def slowly(program):
    """Sends an answer so slowly that it isn't whole in time."""
    try:
        for byte in GOOD.encode():
            program.sendall(bytes([byte]))
            time.sleep(STILL)
    except OSError:
        # (the server has hung up)
        pass


def visited(talk, listener, act, body=None):
    """What a client is answered of a request for which the program at the socket does that, once it has read the request; without an act it reads
    nothing and leaves."""
    with Connection(talk.server.port) as client:
        client.send(request_text("GET" if body is None else "POST", talk.secrets.filled("ui-$key_1"), "/", body=body))
        program, _ = listener.accept()
        with program:
            program.settimeout(PATIENCE)
            if act:
                while program.recv(1 << 16):
                    pass
                act(program)
        client.say_end()
        return client.read_all().decode()


def by_bytes(program):
    for byte in GOOD.encode():
        program.sendall(bytes([byte]))
        time.sleep(0.001)


def without_end(program, piece):
    """Sends a piece again and again; whether it was cut off before it had sent far too much."""
    try:
        for _ in range(1000):
            program.sendall(piece.encode())
    except OSError:
        return True
    return False

"""Many clients at once: silent ones, slow ones, such as read nothing, and busy ones, whom none of the others holds up."""
import contextlib
import os
import resource
import socket
import subprocess
import threading
import time

from served import PATIENCE, Connection, Port, request_text
from trials.rows import ADMIN, A_GRAIN
from trials.talk import Ask, asked, whole_answer

SETTING_OUT = [
    *A_GRAIN,
    Ask("it is opened", "first", "POST desk/grains/1/open", "{}", 200, '{"key":"$key","session":1}'),
]
SILENT, SLOW, DEAF, BUSY = 200, 50, 20, 50
# How many seconds they are at it, how long the slowest answer to a busy one may take, and how many descriptors all of that takes.
SECONDS, SLOWEST, DESCRIPTORS = 10, 1.0, 1024
# What one that reads nothing asks for: answers of 1 MiB, more of them than sockets hold.
LARGE, ANSWERS = 1000000, 6


class Busy(threading.Thread):
    """A client that asks as fast as it is answered: how many answers came, which was the slowest, and what came otherwise."""

    def __init__(self, port, host, until):
        super().__init__(daemon=True)
        self.port, self.host, self.until = port, host, until
        self.answers, self.slowest, self.otherwise = 0, 0.0, []

    def run(self):
        with contextlib.suppress(OSError), Connection(self.port) as connection:
            while time.monotonic() < self.until:
                target = f"/{self.name}/{self.answers}"
                began = time.monotonic()
                connection.send(f"GET {target} HTTP/1.1\r\nHost: {self.host}\r\n\r\n".encode())
                actual = connection.read_answer().decode()
                self.slowest = max(self.slowest, time.monotonic() - began)
                if actual != whole_answer(200, asked(f"GET {target}", ADMIN, "view,edit", 1, lines=())):
                    self.otherwise.append(actual[:200])
                    return
                self.answers += 1


def drip(connections, until):
    """A byte a second on each connection, which is never a whole request."""
    for byte in b"GET / HTTP/1.1\r\nHost: a":
        if time.monotonic() > until:
            return
        for connection in connections:
            with contextlib.suppress(OSError):
                connection.send(bytes([byte]))
        time.sleep(1)


def ask_deaf(connection, text):
    """Asks as often as the connection takes it, and reads nothing."""
    connection.socket.setsockopt(socket.SOL_SOCKET, socket.SO_RCVBUF, 4096)
    connection.socket.settimeout(SECONDS)
    with contextlib.suppress(OSError):
        for _ in range(ANSWERS):
            connection.send(text)


def start(function, *given):
    thread = threading.Thread(target=function, args=given, daemon=True)
    thread.start()
    return thread


def crowd(bench):
    soft, hard = resource.getrlimit(resource.RLIMIT_NOFILE)
    resource.setrlimit(resource.RLIMIT_NOFILE, (max(soft, min(DESCRIPTORS, hard)), hard))
    folder, port = bench.place.make("crowd"), Port()
    talk = bench.talk(folder, port, 1000000, given=subprocess.PIPE)
    talk.play(SETTING_OUT)
    host = talk.secrets.filled("ui-$key")
    with contextlib.ExitStack() as open_ones:
        def several(count):
            return [open_ones.enter_context(Connection(port.number)) for _ in range(count)]

        silent, slow, deaf = several(SILENT), several(SLOW), several(DEAF)
        until = time.monotonic() + SECONDS
        large = request_text("POST", host, "/large", body=LARGE * "a")
        others = [start(drip, slow, until), *(start(ask_deaf, one, large) for one in deaf)]
        busy = [Busy(port.number, host, until) for _ in range(BUSY)]
        for one in busy:
            one.start()
        for one in [*busy, *others]:
            one.join(SECONDS + PATIENCE)
        bench.same("answers that were wrong", [], [text for one in busy for text in one.otherwise])
        bench.same("busy clients that were answered to the end", BUSY, sum(not one.is_alive() and one.answers > 0 for one in busy))
        bench.same(f"busy clients with an answer that took longer than {SLOWEST} s", 0, sum(one.slowest > SLOWEST for one in busy))
        bench.same("silent clients whose connection has ended", SILENT, sum(one.take() == b"" for one in silent))
        print(f"crowd: {sum(one.answers for one in busy)} answers, the slowest after {max(one.slowest for one in busy) * 1000:.0f} ms")
    talk.play([Ask("the next one", "", "GET ui-$key/next", None, 200, asked("GET /next", ADMIN, "view,edit", 1))])
    ends_by_input(bench, talk)


def ends_by_input(bench, talk):
    """The end of its input is the end of a server, in order."""
    talk.server.process.stdin.close()
    bench.same("it ends with its input", 0, talk.server.status())
    bench.same("it says how many requests it answered", True, b"\nserved " in talk.server.printed())
    bench.same("no socket is left", [], os.listdir(talk.server.runs()))
    bench.same("no program is left", [], bench.left())

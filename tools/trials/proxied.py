"""A server behind a proxy, by the configurations of docs/proxy: its clients speak TLS to the proxy, which alone speaks to the server."""
import contextlib
import os
import re
import signal
import ssl
import subprocess
import time
from typing import NamedTuple

from served import Connection, Port, request_text, until
from trials import proxy_rows as rows
from trials.desk_text import is_page
from trials.hostile import in_place_of
from trials.proxies import DOMAIN, Caddy, Nginx
from trials.rows import ADMIN
from trials.talk import Plain, Relayed, Talk, asked
from trials.tunnel_rows import ASKING, BEN, BETWEEN, LOST, REVOKED, SETTING_OUT, closed, pong, relayed, said, text
from trials.tunnels import is_silent, without_pings
from trials.web_socket import PING, WebSocket, close_of

# How many connections the server serves at a time, and for how many seconds one that has to end, or has to wait, is looked at.
WORKERS, SOON = 128, 2
HALF_A_HEAD = b"GET / HTTP/1.1\r\nHo"
# The state of an open connection in /proc/net/tcp.
OPEN = "01"
# How many seconds a client has for its head, a grain for its answer, and a silent tunnel before a ping; and how much later that may be noticed.
FOR_A_HEAD, FOR_AN_ANSWER, BEFORE_A_PING, AFTER = 30, 60, 30, 8


class Expected(NamedTuple):
    """What differs between the proxies: what is seen of a body that is far too long, of one in chunks, and without a server; and what is logged."""
    too_long: str
    in_chunks: str
    no_server: str
    is_logged: str


def seen(answer):
    """What a client sees of an answer: its status, its type and its body."""
    head, _, body = answer.decode(errors="replace").partition("\r\n\r\n")
    kind = re.search(r"(?i)\r\ncontent-type: (\S+)", head)
    return f"{' '.join(head.split(' ')[1:2])} {kind[1] if kind else 'nothing'}\n{body}"


def seen_of(status, answer):
    """What a client sees of an answer of the server's."""
    kind = "text/plain" if isinstance(answer, (Relayed, Plain)) else "application/json"
    return f"{status} {kind}\n{answer}"


# Caddy 2.6 passes chunks on, which the server refuses, and has 502 for whatever breaks off; where it breaks off a body that is too long, the
# server's own refusal of it may have come before.
EXPECTED = {
    Nginx: Expected(["413 text/html"], seen_of(200, rows.IN_CHUNKS), "502 text/html", " POST 200 "),
    Caddy: Expected(["413 application/json", "502 nothing"], seen_of(411, rows.NO_LENGTH), "502 nothing", '"msg":"serving initial configuration"'),
}


class Behind(Talk):
    """Rows over a server behind a proxy."""

    def __init__(self, tally, server, proxy):
        super().__init__(tally, server)
        self.proxy, self.expected = proxy, EXPECTED[type(proxy)]

    def name(self, host="ui-$key"):
        return self.secrets.filled(f"{host}.{DOMAIN}")

    def exchange(self, name, *pieces):
        """What comes back of bytes on a connection of their own."""
        with self.proxy.connect(name) as connection:
            with contextlib.suppress(ConnectionError, ssl.SSLError):
                # (the proxy may answer and leave before it has all)
                for piece in pieces:
                    connection.send(piece)
            return connection.read_answer()

    def ask(self, row, lines=()):
        return seen(self.exchange(*self.request_of(row, DOMAIN, lines)))

    def answered(self, row, lines=()):
        self.fits(f"{row.name}: {row.request}", seen_of(row.status, row.answer), self.ask(row, lines))

    def tunnel(self, key="key"):
        """A tunnel whose key was sent."""
        name = self.name("desk")
        tunnel = self.proxy.secured(WebSocket(self.proxy.port, name), name)
        tunnel.open()
        tunnel.put(text(self.secrets.known[key].encode()))
        return tunnel


def behind(bench, proxy_of):
    """A server on a new file, and a proxy in front of it."""
    title, ports = bench.tally.title, (Port(), Port())
    folder, beside = bench.place.make(title), bench.place.make(f"{title}_proxy")
    server = bench.serve(folder, ports[0], 1000000, tunnels=(ports[1], 1000000), given=subprocess.PIPE)
    talk = Behind(bench.tally, server, proxy_of(beside, Port(), server))
    talk.first_login()
    talk.play(SETTING_OUT)
    return talk


def through(proxy_of):
    """The trial of a proxy."""

    def trial(bench):
        talk = behind(bench, proxy_of)
        talk.play(rows.HOSTS)
        for part in (page, bodies, kept, told, tunnels, slow, at_once, without_server, logs):
            part(bench, talk)
        finish(bench, talk)

    return trial


def finish(bench, talk):
    talk.server.process.stdin.close()
    bench.same("the server ends in order", 0, talk.server.status())
    bench.same("the proxy ends in order", 0, talk.proxy.stop(signal.SIGTERM))
    until("the end of the proxy's processes", lambda: not bench.place.left())


def page(bench, talk):
    """The desk's page, with its own lines."""
    is_page(bench.same, talk.exchange(talk.name("desk"), request_text("GET", talk.name("desk"), "/")))


def posted(talk, body):
    return request_text("POST", talk.name(), "/large", body=body)


def bodies(bench, talk):
    """Bodies of the largest length, of more than that, and of none that is told before."""
    largest = "".join(f"{number:07}\n" for number in range(rows.LARGEST // 8))
    answer = asked("POST /large", ADMIN, "view,edit", 1, body=largest)
    bench.same("a megabyte, there and back", seen_of(200, answer), seen(talk.exchange(talk.name(), posted(talk, largest))))
    refused = seen(talk.exchange(talk.name(), posted(talk, rows.TOO_LONG * "a")))
    bench.same("a byte more is refused by the server", seen_of(413, rows.REFUSED), refused)
    refused = seen(talk.exchange(talk.name(), posted(talk, rows.FAR_TOO_LONG * "a"))).partition("\n")[0]
    bench.same(f"far more is refused, by one of {talk.expected.too_long}", True, refused in talk.expected.too_long)
    head = request_text("POST", talk.name(), "/spread", lines=["Transfer-Encoding: chunked"])
    spread = seen(talk.exchange(talk.name(), head, *rows.CHUNKS))
    bench.same("a body in chunks", talk.expected.in_chunks, spread)


def kept(bench, talk):
    """A client's connection is kept, and none of the proxy's."""
    with talk.proxy.connect(talk.name()) as connection:
        for target in ("/one", "/two"):
            connection.send(request_text("GET", talk.name(), target))
            answer = asked(f"GET {target}", ADMIN, "view,edit", 1)
            bench.same(f"requests on one connection: {target}", seen_of(200, answer), seen(connection.read_answer()))
        end = time.monotonic() + SOON
        while connections_to(talk.server.port) and time.monotonic() < end:
            time.sleep(SOON / 20)
        bench.same("connections of the proxy's that are open behind them", 0, connections_to(talk.server.port))


def connections_to(port):
    """How many connections to a port are open."""
    with open("/proc/net/tcp", encoding="ascii") as file:
        found = [line.split() for line in file.readlines()[1:]]
    return sum(row[2].endswith(f":{port:04X}") and row[3] == OPEN for row in found)


def told(bench, talk):
    """What browsers are told beside the answer."""
    answer = talk.exchange(talk.name(), request_text("GET", talk.name(), "/", lines=[f"Referer: https://{talk.name()}/"])).decode()
    found = re.findall(r"(?i)\r\nreferrer-policy: ([^\r]*)\r\n", answer)
    bench.same("what pages tell other sites", [rows.POLICY], found)


def tunnels(bench, talk):
    with talk.tunnel() as tunnel:
        for name, sent, back in rows.MESSAGES:
            tunnel.put(*sent)
            bench.same(f"in a tunnel: {name}", back, tunnel.reads(len(back)))
        tunnel.put(close_of(1000, b"done"))
        bench.same("a tunnel is closed by its client", [closed(1000, b"done")], tunnel.reads())
    with talk.tunnel("key_ben") as tunnel:
        for between, permissions in BETWEEN:
            talk.play(between)
            tunnel.put(text(b"anew"))
            bench.same(f"in a tunnel with {permissions}", relayed(text(b"anew"), BEN, permissions, 2), tunnel.read())
        talk.play(REVOKED)
        tunnel.put(text(b"revoked"))
        bench.same("in a tunnel without a share", [said(LOST), closed(1008)], tunnel.reads())


def slow(bench, talk):
    """As many slow clients as the server has workers keep none of them: all but one are then kept by clients of the server's own port, and the last
    one answers."""
    half_heads = WORKERS // 2 * [request_text("GET", talk.name(), "/slow")]
    half_bodies = WORKERS // 2 * [request_text("POST", talk.name(), "/slow", body=1000 * "a")]
    with contextlib.ExitStack() as stack:
        clients = [(stack.enter_context(talk.proxy.connect(talk.name())), request) for request in half_heads + half_bodies]
        for client, request in clients:
            client.send(request[:-20])
        time.sleep(SOON / 4)
        holding = [stack.enter_context(Connection(talk.server.port)) for _ in range(WORKERS - 1)]
        for connection in holding:
            connection.send(HALF_A_HEAD)
        talk.play([rows.visit("the last worker, beside slow clients", "GET /last")])
        waiting(bench, talk, holding, stack)
        for client, request in clients:
            client.send(request[-20:])
        answers = [seen(client.read_answer()) for client, _ in clients]
        for name, line, body in (("half a head", "GET /slow", None), ("half a body", "POST /slow", 1000 * "a")):
            answer = seen_of(200, asked(line, ADMIN, "view,edit", 1, body=body))
            bench.same(f"slow clients that sent {name} and were answered", WORKERS // 2, answers.count(answer))


def waiting(bench, talk, holding, stack):
    """Where no worker is left a request waits, until one is; then those that kept them leave."""
    holding.append(stack.enter_context(Connection(talk.server.port)))
    holding[-1].send(HALF_A_HEAD)
    client = stack.enter_context(talk.proxy.connect(talk.name()))
    time.sleep(SOON / 4)
    client.send(request_text("GET", talk.name(), "/waits"))
    bench.same("where no worker is left a request waits", True, is_silent(client))
    for connection in holding:
        connection.socket.close()
    answer = asked("GET /waits", ADMIN, "view,edit", 1)
    bench.same("it is answered once one is", seen_of(200, answer), seen(client.read_answer()))


def at_once(bench, talk):
    """As many requests at once as the server has workers."""
    with contextlib.ExitStack() as stack:
        clients = [stack.enter_context(talk.proxy.connect(talk.name())) for _ in range(WORKERS)]
        for number, client in enumerate(clients):
            client.send(request_text("GET", talk.name(), f"/{number}"))
        right = 0
        for number, client in enumerate(clients):
            right += seen(client.read_answer()) == seen_of(200, asked(f"GET /{number}", ADMIN, "view,edit", 1))
        bench.same("requests at once that were answered", WORKERS, right)


def without_server(bench, talk):
    """The server ends in order, is away for a while and comes again, behind the proxy that goes on."""
    with talk.tunnel() as tunnel:
        tunnel.put(text(b"hello"))
        bench.same("a tunnel before the server ends", relayed(text(b"hello")), tunnel.read())
        talk.server.process.stdin.close()
        bench.same("its close comes through", [closed(1001)], without_pings(tunnel.reads()))
    bench.same("the server ends", 0, talk.server.status())
    for name, lines in (("a request", ()), ("a tunnel", ASKING)):
        away = seen(talk.exchange(talk.name(), request_text("GET", talk.name(), "/", lines=lines)))
        bench.same(f"{name} without a server", talk.expected.no_server, away.partition("\n")[0])
    ports = talk.server.held
    talk.server = bench.serve(talk.server.folder, ports[0], 1000000, tunnels=ports[1], given=subprocess.PIPE)
    talk.play([rows.AGAIN])
    with talk.tunnel("key_again") as tunnel:
        tunnel.put(text(b"hello"))
        bench.same("a tunnel to the server that came again", relayed(text(b"hello")), tunnel.read())


def logs(bench, talk):
    """What the proxy has written has no secret."""
    written = talk.proxy.logs()
    bench.same("something was logged", True, talk.expected.is_logged in written)
    bench.same("secrets in what was logged", [], [name for name, value in talk.secrets.known.items() if value in written])


def late(proxy_of):
    """The trial of a proxy's time limits: they don't come before the server's, and keep no client that sends nothing."""

    def trial(bench):
        talk, began = behind(bench, proxy_of), time.monotonic()
        with in_place_of(talk.server, 2), contextlib.ExitStack() as stack:
            half, asking = (stack.enter_context(talk.proxy.connect(talk.name(host))) for host in ("desk", "ui-$key_plans"))
            tunnel = stack.enter_context(talk.tunnel())
            for connection in (half, asking, tunnel):
                connection.socket.settimeout(2 * FOR_AN_ANSWER)
            half.send(HALF_A_HEAD)
            asking.send(request_text("GET", talk.name("ui-$key_plans"), "/"))
            tunnel.put(text(b"hello"))
            bench.same("a tunnel that will be silent", relayed(text(b"hello")), tunnel.read())
            half.read_all()
            bench.same("half a head: when it ends", True, FOR_A_HEAD - 1 <= time.monotonic() - began <= FOR_A_HEAD + AFTER)
            for turn in (1, 2):
                bench.same(f"a silent tunnel gets ping {turn}", PING, tunnel.read().opcode)
                bench.same(f"ping {turn}: when", True, turn * BEFORE_A_PING - 1 <= time.monotonic() - began <= turn * BEFORE_A_PING + AFTER)
                tunnel.put(pong())
            bench.same("a grain that doesn't answer", seen_of(502, rows.LINK_FAILED), seen(asking.read_answer()))
            bench.same("when that is told", True, FOR_AN_ANSWER - 1 <= time.monotonic() - began <= FOR_AN_ANSWER + AFTER)
            tunnel.put(text(b"still"))
            bench.same("the tunnel goes on", relayed(text(b"still")), tunnel.read())
        finish(bench, talk)

    return trial

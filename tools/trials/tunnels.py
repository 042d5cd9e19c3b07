"""Tunnels: WebSockets at a port of their own, each message of which is decided anew."""
import contextlib
import os
import re
import signal
import socket
import subprocess
import threading
import time

from served import PATIENCE, Port, Started, exchange, listeners_on, until
from trials import tunnel_rows as rows
from trials.hostile import in_place_of
from trials.rows import ADMIN, A_GRAIN
from trials.talk import Ask, count_of
from trials.tunnel_rows import BEN, binary, closed, ping, ponged, relayed, said, text
from trials.web_socket import ACCEPTED, CLOSE, PING, Frame, WebSocket, close_of
from trials.web_socket_cases import Pause, Turns, cases, pieces_of

# How many tunnels the server serves in all, and at a time, and for how many seconds one that has to wait is looked at.
COUNT, AT_ONCE, LOOK = 200, 64, 0.3
# How many tunnels there are at once on threads, and how many messages each has.
TOGETHER, ROUNDS = 16, 20
# How many seconds the link is good for.
A_WHILE = 3
OPENED = [*A_GRAIN, Ask("it is opened", "first", "POST desk/grains/1/open", "{}", 200, '{"key":"$key","session":1}')]
AGAIN = [Ask("it is opened again", "first", "POST desk/grains/1/open", "{}", 200, '{"key":"$key_again","session":1}')]
PAGE = os.path.join(os.path.dirname(os.path.dirname(os.path.dirname(os.path.realpath(__file__)))), "docs", "TRY.md")


class Tunnels:
    """Tunnels to a server, which are counted."""

    def __init__(self, bench, talk):
        self.bench, self.talk, self.opened = bench, talk, 0

    def connect(self):
        """A connection on which nothing was sent."""
        self.opened += 1
        return WebSocket(self.talk.server.tunnels)

    def open(self, key="key"):
        """A tunnel whose key was sent."""
        tunnel = self.connect()
        tunnel.open()
        if key:
            tunnel.put(text(self.talk.secrets.known[key].encode()))
        return tunnel

    def exchange(self, data):
        """What comes back of bytes on a connection of their own."""
        self.opened += 1
        return exchange(self.talk.server.tunnels, data).decode(errors="replace")

    def next_is_served(self, what):
        """The next client is served after one that wasn't like others."""
        with self.open() as tunnel:
            tunnel.put(text(b"next"))
            self.bench.same(f"the next one after {what}", relayed(text(b"next")), tunnel.read())

    def refused(self, name, tunnel, words):
        """A row of a tunnel that ends with these words."""
        self.bench.same(name, [said(words), closed(1008)], tunnel.reads())


def tunnels(bench):
    folder, ports = bench.place.make("tunnels"), (Port(), Port())
    answered = count_of(rows.SETTING_OUT, rows.FOR_A_WHILE, rows.AT_PORT, rows.REVOKED, rows.GIVEN_AGAIN) + count_of(*(each[0] for each in rows.BETWEEN))
    answered += count_of(*(each[2] for each in rows.ENDS))
    talk = bench.talk(folder, ports[0], answered + 1, tunnels=(ports[1], COUNT))
    talk.play(rows.SETTING_OUT)
    visits = Tunnels(bench, talk)
    with lasting_a_while(visits):
        for trial in (handshakes, messages, decided_anew, keys, too_long, wrong_frames, together, waiting, leaving, answers, ends):
            trial(bench, visits)
    until_counted(bench, visits)
    bench.ends(talk, answered)
    started_again(bench, folder, ports, talk)
    both_ports(bench)
    conformance(bench)


@contextlib.contextmanager
def lasting_a_while(visits):
    """A tunnel of a link that ends by itself, beside all others."""
    moment = str(int(time.time()) + A_WHILE)
    visits.talk.play([row._replace(body=row.body.replace("MOMENT", moment)) for row in rows.FOR_A_WHILE])
    with visits.open("key_link") as tunnel:
        tunnel.put(text(b"in time"))
        visits.bench.same("before it ends", relayed(text(b"in time"), None, session=4), tunnel.read())
        yield
        time.sleep(max(0, int(moment) - time.time()))
        tunnel.put(text(b"late"))
        visits.refused("behind its end", tunnel, rows.EXPIRED.replace("MOMENT", moment))


def handshakes(bench, visits):
    with visits.connect() as tunnel:
        bench.same("the head that accepts", ACCEPTED.format(tunnel.accepted_by()), tunnel.open())
        tunnel.put(close_of(1000))
        bench.same("closed before a key", [closed(1000)], tunnel.reads())
    for name, head in rows.GOOD_HANDSHAKES:
        with visits.connect() as tunnel:
            tunnel.send(head[:40])
            tunnel.send(head[40:])
            bench.same(f"accepted: {name}", ACCEPTED.format(rows.ACCEPTS), tunnel.read_answer().decode())
            tunnel.put(text(visits.talk.secrets.known["key"].encode()), text(b"hello"))
            bench.same(f"{name}, and a message", relayed(text(b"hello")), tunnel.read())
    for name, head in rows.BAD_HANDSHAKES:
        bench.same(f"refused: {name}", rows.REFUSED, visits.exchange(head))
    for row in rows.AT_PORT:
        visits.talk.answered(row, rows.ASKING)


def messages(bench, visits):
    with visits.open() as tunnel:
        for name, sent, back in rows.MESSAGES:
            tunnel.put(*sent)
            bench.same(name, back, tunnel.reads(len(back)))
        tunnel.put(close_of(1000, b"done"))
        bench.same("closed by its client", [closed(1000, b"done")], tunnel.reads())


def decided_anew(bench, visits):
    """What is done on connections shows in the next message of a tunnel that is open."""
    with visits.open("key_ben") as tunnel:
        for between, permissions in rows.BETWEEN:
            visits.talk.play(between)
            tunnel.put(text(b"anew"))
            bench.same(f"with {permissions}", relayed(text(b"anew"), BEN, permissions, 2), tunnel.read())
        visits.talk.play(rows.REVOKED)
        tunnel.put(text(b"revoked"), text(b"not read"))
        visits.refused("without a share", tunnel, rows.LOST)
    with visits.open("key_ben") as tunnel:
        visits.talk.play(rows.GIVEN_AGAIN)
        tunnel.put(text(b"again"))
        bench.same("with a share again", relayed(text(b"again"), BEN, "view", 2), tunnel.read())


def keys(bench, visits):
    known = visits.talk.secrets.known
    for name, first in rows.NO_KEYS:
        with visits.open(None) as tunnel:
            tunnel.put(first(known))
            visits.refused(f"no key: {name}", tunnel, rows.NO_KEY)
    for name, first in rows.OTHER_KEYS:
        with visits.open(None) as tunnel:
            tunnel.put(first(known), text(b"hello"))
            visits.refused(f"the key of nothing: {name}", tunnel, rows.NO_KEY)
    with visits.open(None) as tunnel:
        tunnel.put(text(32 * b"0"), rows.LONG[0][1][0], text(b"hello"))
        back = [*rows.LONG[0][2], said(rows.NO_KEY), closed(1008)]
        bench.same("a message that is too long, behind the key of nothing", back, tunnel.reads())


def too_long(bench, visits):
    with visits.open() as tunnel:
        for name, sent, back in rows.LONG:
            tunnel.put(*sent)
            bench.same(name, back, tunnel.reads(len(back)))


def wrong_frames(bench, visits):
    for name, sent, back in rows.WRONG_FRAMES:
        with visits.open() as tunnel:
            with contextlib.suppress(ConnectionError):
                tunnel.send(sent)
            bench.same(name, [back], tunnel.reads())


def together(bench, visits):
    """Tunnels of three sessions at once: all that is sent first, and then all that is read; and each on a thread of its own."""
    with contextlib.ExitStack() as several:
        shown = [("key", ADMIN, "view,edit", 1), ("key_ben", BEN, "view", 2), ("key_plans", ADMIN, "view,edit", 3)]
        open_ones = [(several.enter_context(visits.open(who[0])), who, number) for number, who in zip(range(TOGETHER), TOGETHER * shown)]
        for turn in range(3):
            for tunnel, _, number in open_ones:
                tunnel.put(text(b"%d of %d" % (turn, number)))
            for tunnel, who, number in reversed(open_ones):
                bench.same(f"message {turn} of tunnel {number}", relayed(text(b"%d of %d" % (turn, number)), *who[1:]), tunnel.read())
        right = []
        threads = [threading.Thread(target=converse, args=(*one, right), daemon=True) for one in open_ones]
        for thread in threads:
            thread.start()
        for thread in threads:
            thread.join(PATIENCE)
        bench.same("messages on threads that were answered", TOGETHER * ROUNDS, len(right))


def converse(tunnel, who, number, right):
    """Sends messages in turns; those that are answered as they should be are noted."""
    for turn in range(ROUNDS):
        message = binary(b"%d of %d" % (turn, number))
        tunnel.put(message)
        if tunnel.read() == relayed(message, *who[1:]):
            right.append((number, turn))


def waiting(bench, visits):
    """As many tunnels as are served at a time, of which one is open already, and one more, which is served once another has ended."""
    with contextlib.ExitStack() as several:
        open_ones = [several.enter_context(visits.open()) for _ in range(AT_ONCE - 1)]
        for tunnel in open_ones:
            tunnel.put(text(b"one of many"))
        right = [tunnel.read() for tunnel in open_ones].count(relayed(text(b"one of many")))
        bench.same("tunnels at once", len(open_ones), right)
        last = several.enter_context(visits.connect())
        last.send(last.request())
        bench.same("one more waits", True, is_silent(last))
        open_ones[0].put(close_of(1000))
        bench.same("one of them is closed", [closed(1000)], open_ones[0].reads())
        open_ones[0].socket.close()
        last.opened()
        last.put(text(visits.talk.secrets.known["key"].encode()), text(b"at last"))
        bench.same("the one that waited is served", relayed(text(b"at last")), last.read())


def is_silent(connection):
    """Whether nothing comes for a little while."""
    connection.socket.settimeout(LOOK)
    try:
        return not connection.take()
    except TimeoutError:
        return True
    finally:
        connection.socket.settimeout(PATIENCE)


def leaving(_, visits):
    """Clients that leave without a close, and such as reset their connection."""
    key = text(visits.talk.secrets.known["key"].encode())
    begun = {
        "before the key": b"",
        "within the key": key.sent()[:-2],
        "within a message": key.sent() + text(b"whole").sent()[:-2],
        "between two fragments": key.sent() + text(b"half", False).sent(),
        "before an answer": key.sent() + binary(1000000 * b"a").sent(),
    }
    for when, data in begun.items():
        for how, leave in (("left", lambda tunnel: tunnel.socket.close()), ("was reset", lambda tunnel: tunnel.reset())):
            tunnel = visits.connect()
            tunnel.open()
            tunnel.send(data)
            leave(tunnel)
            visits.next_is_served(f"one that {how} {when}")
    tunnel = visits.connect()
    tunnel.send(tunnel.request()[:-5])
    tunnel.reset()
    visits.next_is_served("one that was reset within the handshake")


def answers(bench, visits):
    """What a grain's program answers that isn't the small one."""
    with visits.open("key_plans") as tunnel:
        with in_place_of(visits.talk.server, 2) as listener:
            for name, answer, back in rows.ANSWERS:
                tunnel.put(text(b"asked"))
                give(listener, answer.encode())
                bench.same(name, back, tunnel.read())
        tunnel.put(text(b"asked"))
        bench.same("nobody listens", rows.NOT_REACHED, tunnel.read())
        tunnel.put(text(b"asked"), ping(b"still open"))
        bench.same("the tunnel goes on", [rows.NOT_REACHED, ponged(b"still open")], tunnel.reads(2))


def give(listener, answer):
    """Takes what the program is asked, and gives an answer, as far as it is read."""
    program, _ = listener.accept()
    with program, contextlib.suppress(ConnectionError):
        program.settimeout(PATIENCE)
        while program.recv(1 << 16):
            pass
        program.sendall(answer)


def ends(_, visits):
    for name, key, actions, words in rows.ENDS:
        with visits.open(key) as tunnel:
            visits.talk.play(actions)
            tunnel.put(text(b"hello"))
            visits.refused(name, tunnel, words)


def until_counted(bench, visits):
    """The other tunnels that the server is to serve; further ones aren't taken, though it goes on at its other port."""
    while visits.opened < COUNT:
        visits.exchange(b"")
    telling = re.compile(rf" tunnels=0 tunneled={COUNT} passed=\d+\n".encode())
    until("a line that tells how many tunnels were served", lambda: telling.search(visits.talk.server.complaints()))
    with visits.connect() as tunnel:
        tunnel.send(tunnel.request())
        bench.same("one too many isn't taken", True, is_silent(tunnel))


def started_again(bench, folder, ports, talk):
    """A server on the same file and ports that is killed, and one that ends with its input, each with tunnels open."""
    former = talk.secrets.known["key"]
    for turn in range(2):
        talk.server = server = bench.serve(folder, ports[0], 1000000, tunnels=(ports[1], 1000000), given=subprocess.PIPE)
        talk.secrets.known.pop("key_again", None)
        talk.play(AGAIN)
        visits = Tunnels(bench, talk)
        with visits.open(None) as tunnel:
            tunnel.put(text(former.encode()), text(b"hello"))
            visits.refused("a key of the server before", tunnel, rows.NO_KEY)
        with visits.open("key_again") as tunnel, visits.open(None) as other, visits.open("key_again") as third:
            tunnel.put(text(b"hello"))
            bench.same("a key of this one", relayed(text(b"hello")), tunnel.read())
            third.put(text(b"half", False))
            if turn == 0:
                bench.same("it is killed", -signal.SIGKILL, server.stop())
                bench.same("its tunnel has ended", [], tunnel.reads())
                until("the end of its grains' programs", lambda: not bench.place.left())
            else:
                server.process.stdin.close()
                bench.same("its tunnels are closed", 3 * [[closed(1001)]], [without_pings(one.reads()) for one in (tunnel, other, third)])
    bench.same("it ends with its input", "status 0: served 1\n", bench.end_of(server))


def without_pings(frames):
    """Frames but for pings, which a server may send before it closes."""
    return [frame for frame in frames if not isinstance(frame, Frame) or frame.opcode != PING]


def both_ports(bench):
    """Ports for tunnels that can't be had: the port of connections, and one on which another listens."""
    folder, port = bench.place.make("ports"), Port()
    with socket.create_server(("127.0.0.1", 0)) as taken:
        for name, number in (("one port for both", port.number), ("a port that is taken", taken.getsockname()[1])):
            server = Started(bench.program, ["serve", "club.db", str(port.number), "1", str(number), "1"], folder)
            until("a server, or its end", lambda server=server: server.has_ended() or listeners_on(port.number))
            with contextlib.suppress(ConnectionError):
                exchange(port.number, b"")
            bench.same(name, 4, server.status())


def conformance(bench):
    """Each of the cases, in a tunnel of its own; and they are those that docs/TRY.md has."""
    talk = bench.talk(bench.place.make("cases"), Port(), 1000000, tunnels=(Port(), 1000000), given=subprocess.PIPE)
    talk.play(OPENED)
    visits, numbers = Tunnels(bench, talk), []
    for case in cases():
        numbers.append(case.number)
        is_closed = case.back != [] and case.back[-1].opcode == CLOSE
        back = case.back if is_closed else [*case.back, closed(1000)]
        bench.same(f"case {case.number}: {case.name}", back, played(visits, case, is_closed))
    with open(PAGE, encoding="utf-8") as page:
        bench.same("the cases that docs/TRY.md has", sorted(numbers), sorted(numbers_in(page.read())))
    talk.server.process.stdin.close()
    bench.same("it ends with its input", f"status 0: {talk.secrets.filled('login $first')}\nserved {len(OPENED)}\n", bench.end_of(talk.server))


def played(visits, case, is_closed):
    """What comes back of a case."""
    with visits.open() as tunnel:
        back = []
        with contextlib.suppress(ConnectionError):
            for item in case.sent:
                if isinstance(item, Pause):
                    time.sleep(item.seconds)
                elif isinstance(item, Turns):
                    for _ in range(item.count):
                        tunnel.put(item.message)
                        back.append(tunnel.read())
                else:
                    for piece in pieces_of(item):
                        tunnel.send(piece)
            if not is_closed:
                tunnel.put(close_of(1000))
        return back + tunnel.reads()


def numbers_in(page):
    """The numbers of the cases in the table of a page that were played, each of them or from one to another."""
    found = []
    for row in re.findall(r"^\| (\d[\d., –]*) \|.*\| (?!not played)[^|]+ \|$", page, re.MULTILINE):
        for part in row.split(", "):
            first, _, last = part.partition("–")
            group, place = first.rsplit(".", 1)
            found += [f"{group}.{number}" for number in range(int(place), int((last or first).rsplit(".", 1)[1]) + 1)]
    return found

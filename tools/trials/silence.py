"""Tunnels whose clients are silent."""
import contextlib
import threading
import time

from served import PATIENCE, Port, until
from trials.tunnel_rows import REFUSED, closed, ping, ponged, relayed, text
from trials.tunnels import OPENED, Tunnels, without_pings
from trials.web_socket import CLOSE, PING, PONG, close_of

# How many seconds a client has for its key and one message, how many it may be silent, and how much later that is noticed.
MOST_STILL, AFTER = 30, 5


class Silent(threading.Thread):
    """A client that does something and then waits for what comes: frames, or the bytes of an answer, and after how many seconds the end."""

    def __init__(self, tunnel, name, act, back, seconds):
        super().__init__(daemon=True)
        self.tunnel, self.title, self.act, self.back, self.seconds = tunnel, name, act, back, seconds
        self.came, self.after = None, None

    def run(self):
        began = time.monotonic()
        self.tunnel.socket.settimeout(3 * MOST_STILL + AFTER)
        with contextlib.suppress(OSError):
            self.came = self.act(self.tunnel)
        self.after = time.monotonic() - began


def silent_tunnels(bench):
    """Clients that are silent: in the handshake, before the key, before a message, and behind one, who answers pings or doesn't."""
    talk = bench.talk(bench.place.make("silent"), Port(), 1000000, tunnels=(Port(), 1000000))
    talk.play(OPENED)
    visits, key = Tunnels(bench, talk), text(talk.secrets.known["key"].encode())
    started, pinged = text(b"begun"), ping()._replace(masked=False)
    clients = [
        Silent(visits.connect(), "within the handshake", half_a_handshake, REFUSED, MOST_STILL),
        Silent(visits.connect(), "before the key", lambda tunnel: behind(tunnel, []), [closed(1001)], MOST_STILL),
        Silent(visits.connect(), "before a message", lambda tunnel: behind(tunnel, [key]), [closed(1001)], MOST_STILL),
        Silent(visits.connect(), "pings alone", lambda tunnel: pings_alone(tunnel, key), [closed(1001)], MOST_STILL),
        Silent(visits.connect(), "within a message", lambda tunnel: behind(tunnel, [key, text(b"half", False)]), [closed(1001)], MOST_STILL),
        Silent(visits.connect(), "behind a message, and pings aren't answered", lambda tunnel: deaf(tunnel, key, started),
               [relayed(started), pinged, closed(1001)], 2 * MOST_STILL),
        Silent(visits.connect(), "behind a message, and pings are answered", lambda tunnel: patient(tunnel, key, started),
               [relayed(started), pinged, pinged, relayed(started), closed(1000)], 2 * MOST_STILL),
    ]
    for client in clients:
        client.start()
    for client in clients:
        client.join(3 * MOST_STILL + PATIENCE)
        bench.same(client.title, client.back, client.came)
        is_in_time = client.after is not None and client.seconds - 1 <= client.after <= client.seconds + AFTER
        bench.same(f"{client.title}: after {client.seconds} seconds", True, is_in_time)
    visits.next_is_served("those that were silent")
    talk.server.stop()
    until("the end of its grains' programs", lambda: not bench.place.left())


def half_a_handshake(tunnel):
    tunnel.send(tunnel.request()[:-5])
    return tunnel.read_all().decode()


def behind(tunnel, frames):
    """What comes behind these frames but for pings, of which there may be one."""
    tunnel.open()
    tunnel.put(*frames)
    return without_pings(tunnel.reads())


def pings_alone(tunnel, key):
    """What comes but for pongs where pings are sent behind the key, and no message."""
    tunnel.open()
    tunnel.put(key)
    tunnel.socket.settimeout(2)
    back, end = [], time.monotonic() + 2 * MOST_STILL
    while time.monotonic() < end:
        tunnel.put(ping(b"here"))
        try:
            frame = tunnel.read()
        except TimeoutError:
            continue
        if frame is None or frame.opcode == CLOSE:
            return back + [frame]
        if frame.opcode != PING and frame != ponged(b"here"):
            back.append(frame)
        time.sleep(0.5)
    return back


def deaf(tunnel, key, message):
    tunnel.open()
    tunnel.put(key, message)
    return tunnel.reads()


def patient(tunnel, key, message):
    """Answers two pings, and sends another message then."""
    tunnel.open()
    tunnel.put(key, message)
    back = [tunnel.read()]
    for _ in range(2):
        back.append(tunnel.read())
        tunnel.put(back[-1]._replace(opcode=PONG, masked=True))
    tunnel.put(message)
    back.append(tunnel.read())
    tunnel.put(close_of(1000))
    return back + tunnel.reads()

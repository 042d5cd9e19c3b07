"""A client of WebSockets over the standard library: the opening handshake, and frames as they are, right or wrong (RFC 6455)."""
import base64
import hashlib
import os
import re
import struct
from typing import NamedTuple

from served import Connection

GUID = b"258EAFA5-E914-47DA-95CA-C5AB0DC85B11"
MORE, TEXT, BINARY, CLOSE, PING, PONG = 0, 1, 2, 8, 9, 10
# The head that accepts a handshake; the last value depends on the client's key.
ACCEPTED = "HTTP/1.1 101 Switching Protocols\r\nconnection: Upgrade\r\nupgrade: websocket\r\nsec-websocket-accept: {}\r\n\r\n"


class Frame(NamedTuple):
    """One frame. A client's are masked, and a server's aren't."""
    opcode: int
    payload: bytes = b""
    final: bool = True
    reserved: int = 0
    masked: bool = True

    def sent(self):
        """Its bytes."""
        return head_of(self, len(self.payload)) + (masked(self.payload) if self.masked else self.payload)


def head_of(frame, size, form=None):
    """The bytes before the mask of a frame of so many bytes, their number in its shortest form, or in that of so many bytes."""
    form = (0 if size < 126 else 2 if size < 65536 else 8) if form is None else form
    first, mask = frame.opcode | frame.reserved << 4 | frame.final << 7, frame.masked << 7
    if form == 0:
        return bytes([first, mask | size])
    return bytes([first, mask | (126 if form == 2 else 127)]) + struct.pack(">H" if form == 2 else ">Q", size)


def masked(payload):
    """A new mask, and a payload under it."""
    mask, size = os.urandom(4), len(payload)
    under = int.from_bytes((mask * (size // 4 + 1))[:size], "big")
    return mask + (int.from_bytes(payload, "big") ^ under).to_bytes(size, "big")


def close_of(code=None, reason=b"", is_ours=True):
    """A frame that closes, by a code or by none."""
    return Frame(CLOSE, b"" if code is None else struct.pack(">H", code) + reason, masked=is_ours)


class NoWebSocket(Exception):
    """A handshake wasn't accepted, or not as it has to be."""


class WebSocket(Connection):
    """A client's WebSocket. Nothing is done by itself: who asks opens it, and answers the server's pings."""

    def __init__(self, to, host="localhost"):
        super().__init__(to)
        self.host = host
        self.key = base64.b64encode(os.urandom(16)).decode()

    def request(self, target="/", lines=()):
        """The head that asks for a WebSocket."""
        head = [f"GET {target} HTTP/1.1", f"Host: {self.host}", "Upgrade: websocket", "Connection: Upgrade", f"Sec-WebSocket-Key: {self.key}",
                "Sec-WebSocket-Version: 13", *lines]
        return "".join(line + "\r\n" for line in head).encode() + b"\r\n"

    def accepted_by(self):
        """The value by which a server shows that it read this client's key."""
        return base64.b64encode(hashlib.sha1(self.key.encode() + GUID).digest()).decode()

    def open(self, target="/", lines=()):
        """Asks for the WebSocket, and gives the head that accepts it."""
        self.send(self.request(target, lines))
        return self.opened()

    def opened(self):
        """The head that accepts what was asked for."""
        head = self.read_answer().decode(errors="replace")
        found = re.search(r"(?i)\r\nsec-websocket-accept: (\S+)\r\n", head)
        if not head.startswith("HTTP/1.1 101 ") or not found or found[1] != self.accepted_by():
            raise NoWebSocket(f"no handshake of this key is accepted: {head!r}")
        return head

    def put(self, *frames):
        """Sends frames in one piece."""
        self.send(b"".join(frame.sent() for frame in frames))

    def has(self, size):
        """Whether so many bytes come."""
        while len(self.held) < size and self.take():
            pass
        return len(self.held) >= size

    def read(self):
        """The next frame, or nothing at the end of the connection."""
        if not self.has(2):
            return None
        first, second = self.held[:2]
        form = {126: 2, 127: 8}.get(second & 127, 0)
        start = 2 + form + (4 if second & 128 else 0)
        if not self.has(start):
            return None
        size = int.from_bytes(self.held[2 : 2 + form], "big") if form else second & 127
        if not self.has(start + size):
            return None
        payload, self.held = self.held[start : start + size], self.held[start + size :]
        return Frame(first & 15, payload, first >= 128, first >> 4 & 7, second >= 128)

    def reads(self, count=None):
        """So many frames, or all that come to the end of the connection or to where it was reset; and a word where they don't come."""
        frames = []
        try:
            while len(frames) != count and (frame := self.read()) is not None:
                frames.append(frame)
        except ConnectionResetError:
            pass
        except TimeoutError:
            frames.append("nothing more came")
        return frames

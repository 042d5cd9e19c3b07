"""Cases of how a server of WebSockets has to behave, under the numbers of the public Autobahn TestSuite: what a client sends, and what comes back.

That suite asks a server that sends each message back. Here each comes back in the relay of what the grain was asked. docs/TRY.md tells which of its
cases are played, and what is otherwise.
"""
import functools
from typing import NamedTuple

from trials.tunnel_rows import binary, closed, more, ping, pong, ponged, relayed, said, text
from trials.web_socket import Frame, close_of, head_of


class Case(NamedTuple):
    """A case: its number, what it is about, what is sent behind the key, and what comes back. Where the server doesn't close, the client does then."""
    number: str
    name: str
    sent: list
    back: list


class Split(NamedTuple):
    """A message in fragments of so many bytes."""
    message: Frame
    size: int


class Pieces(NamedTuple):
    """Frames whose bytes are sent in pieces of so many, or each in a piece of its own."""
    frames: list
    size: int = 0


class Turns(NamedTuple):
    """A message that is sent so often, each time once the one before is answered."""
    message: Frame
    count: int


class Pause(NamedTuple):
    """So many seconds in which nothing is sent."""
    seconds: float


class Begun(NamedTuple):
    """The head of a message of so many bytes, and the first of them."""
    message: Frame
    size: int


HELLO = text(b"Hello, world!")
BROKEN, INVALID = [closed(1002)], [closed(1007)]
# A close by a code that may not be sent is answered so, by the WebSocket itself.
NO_CODE = [closed(1002, b"Protocol violation")]
TOO_LONG = [said('{"error":"LongBody","of":[1]}')]
MIB = 1048576
# How many messages are sent one after another, where the suite sends 1,000, and how many seconds a pause is that is one second there.
MANY, SHORT = 100, 0.1


def ways(frames):
    """The same frames at once, each by itself, and byte by byte."""
    return [frames, [Pieces(frames)], [Pieces(frames, 1)]]


def framing():
    """1.1 and 1.2: texts and bytes of several lengths."""
    for group, kind in (("1.1", text), ("1.2", binary)):
        for place, size in enumerate((0, 125, 126, 127, 128, 65535, 65536), 1):
            yield Case(f"{group}.{place}", f"{size} bytes", [kind(size * b"*")], [relayed(kind(size * b"*"))])
        yield Case(f"{group}.8", "65,536 bytes in pieces of 997", [Pieces([kind(65536 * b"*")], 997)], [relayed(kind(65536 * b"*"))])


NO_TEXT = b"\x00\xff\xfe\xfd\xfc\xfb\x00\xff"
PAYLOADS = [b"payload-%d" % number for number in range(10)]
PINGS = [
    Case("2.1", "a ping without a payload", [ping()], [ponged()]),
    Case("2.2", "one with a text", [ping(b"Hello, world!")], [ponged(b"Hello, world!")]),
    Case("2.3", "one with bytes that are no text", [ping(NO_TEXT)], [ponged(NO_TEXT)]),
    Case("2.4", "one of 125 bytes", [ping(125 * b"\xfe")], [ponged(125 * b"\xfe")]),
    Case("2.5", "one of 126 bytes", [ping(126 * b"\xfe")], BROKEN),
    Case("2.6", "one of 125 bytes, byte by byte", [Pieces([ping(125 * b"\xfe")], 1)], [ponged(125 * b"\xfe")]),
    Case("2.7", "a pong without a payload that nobody asked for", [pong()], []),
    Case("2.8", "one with a payload", [pong(b"unasked")], []),
    Case("2.9", "one, and then a ping", [pong(b"unasked"), ping(b"asked")], [ponged(b"asked")]),
    Case("2.10", "ten pings", [ping(payload) for payload in PAYLOADS], [ponged(payload) for payload in PAYLOADS]),
    Case("2.11", "ten pings, byte by byte", [Pieces([ping(payload) for payload in PAYLOADS], 1)], [ponged(payload) for payload in PAYLOADS]),
]


def reserved_bits():
    """3: the bits that are for extensions, of which none was agreed on."""
    yield Case("3.1", "reserved bits 1, of a text", [HELLO._replace(reserved=1)], BROKEN)
    for place, bits in enumerate((2, 3, 4)):
        sent = ways([HELLO, HELLO._replace(reserved=bits), ping()])[place]
        yield Case(f"3.{bits}", f"reserved bits {bits}, of a second text", sent, [relayed(HELLO), *BROKEN])
    yield Case("3.5", "reserved bits 5, of bytes", [binary(NO_TEXT)._replace(reserved=5)], BROKEN)
    yield Case("3.6", "reserved bits 6, of a ping", [ping(b"Hello, world!")._replace(reserved=6)], BROKEN)
    yield Case("3.7", "reserved bits 7, of a close", [close_of(1000)._replace(reserved=7)], BROKEN)


def opcodes():
    """4: opcodes that are reserved, of data and of control."""
    for group, first in (("4.1", 3), ("4.2", 11)):
        for place in range(5):
            wrong = Frame(first + place, b"reserved opcode payload" if place % 2 else b"")
            alone = place < 2
            sent = [wrong] if alone else ways([HELLO, wrong, ping()])[place - 2]
            yield Case(f"{group}.{place + 1}", f"opcode {first + place}", sent, BROKEN if alone else [relayed(HELLO), *BROKEN])


WHOLE = relayed(text(b"fragment1fragment2"))
PARTS = [text(b"fragment1", False), more(b"fragment2")]
BETWEEN = [PARTS[0], ping(b"ping payload"), PARTS[1]]
FIVE = [text(b"fragment1", False), more(b"fragment2", False), ping(b"one"), Pause(SHORT), more(b"fragment3", False), more(b"fragment4", False), ping(b"two"),
        more(b"fragment5")]
ALL_FIVE = [ponged(b"one"), ponged(b"two"), relayed(text(b"fragment1fragment2fragment3fragment4fragment5"))]


def fragments():
    """5: messages in fragments, and what may stand between them."""
    yield Case("5.1", "a ping in two fragments", [ping(b"fragment1")._replace(final=False), more(b"fragment2")], BROKEN)
    yield Case("5.2", "a pong in two fragments", [pong(b"fragment1")._replace(final=False), more(b"fragment2")], BROKEN)
    for place, sent in enumerate(ways(PARTS)):
        yield Case(f"5.{3 + place}", "a text in two fragments", sent, [WHOLE])
    for place, sent in enumerate(ways(BETWEEN)):
        yield Case(f"5.{6 + place}", "a ping between its fragments", sent, [ponged(b"ping payload"), WHOLE])
    for first, final in ((9, True), (12, False)):
        for place, sent in enumerate(ways([more(b"nothing to continue", final), HELLO])):
            yield Case(f"5.{first + place}", f"a fragment of nothing, the last one: {final}", sent, BROKEN)
    yield Case("5.15", "a fragment behind a text that is whole", [*PARTS, more(b"fragment3", False), HELLO], [WHOLE, *BROKEN])
    for number, final in (("5.16", False), ("5.17", True)):
        yield Case(number, "a fragment of nothing before a text in two", [more(b"fragment1", final), *PARTS, more(b"fragment1", final), *PARTS], BROKEN)
    yield Case("5.18", "two fragments that both begin a text", [PARTS[0], text(b"fragment2")], BROKEN)
    yield Case("5.19", "five fragments and two pings", FIVE, ALL_FIVE)
    yield Case("5.20", "the same, each by itself", [Pieces([one]) if isinstance(one, Frame) else one for one in FIVE], ALL_FIVE)


GREEK = b"\xce\xba\xe1\xbd\xb9\xcf\x83\xce\xbc\xce\xb5"
CUT = b"\xed\xa0\x80"
OUTSIDE = b"\xf4\x90\x80\x80"
# The first bytes that begin letters of two to six bytes, and the first and second halves of letters of UTF-16.
STARTS = ((0xC0, 0xDF), (0xE0, 0xEF), (0xF0, 0xF7), (0xF8, 0xFB), (0xFC, 0xFD))
HIGH, LOW = (b"\xed\xa0\x80", b"\xed\xad\xbf", b"\xed\xae\x80", b"\xed\xaf\xbf"), (b"\xed\xb0\x80", b"\xed\xbf\xbf")
# Texts, and whether they are UTF-8, by groups.
TEXTS = [
    ("6.5", True, [b"hello$world", "hello¢world".encode(), "hello€world".encode(), "hello\U00024b62world".encode(), GREEK]),
    ("6.7", True, [b"\x00", b"\xc2\x80", b"\xe0\xa0\x80", b"\xf0\x90\x80\x80"]),
    ("6.8", False, [b"\xf8\x88\x80\x80\x80", b"\xfc\x84\x80\x80\x80\x80"]),
    ("6.9", True, [b"\x7f", b"\xdf\xbf", b"\xef\xbf\xbf", b"\xf4\x8f\xbf\xbf"]),
    ("6.10", False, [b"\xf7\xbf\xbf\xbf", b"\xfb\xbf\xbf\xbf\xbf", b"\xfd\xbf\xbf\xbf\xbf\xbf"]),
    ("6.12", False, [b"\x80", b"\xbf", *((b"\x80\xbf" * 3)[:size] for size in range(2, 7)), bytes(range(0x80, 0xBF))]),
    ("6.13", False, [b"".join(bytes([byte, 0x20]) for byte in range(*ends)) for ends in STARTS]),
    ("6.14", False, [b"\xc0", b"\xe0\x80", b"\xf0\x80\x80", b"\xf8\x80\x80\x80", b"\xfc\x80\x80\x80\x80", b"\xdf", b"\xef\xbf", b"\xf7\xbf\xbf",
                     b"\xfb\xbf\xbf\xbf", b"\xfd\xbf\xbf\xbf\xbf"]),
    ("6.15", False, [b"\xc0\xe0\x80\xf0\x80\x80\xf8\x80\x80\x80\xfc\x80\x80\x80\x80\xdf\xef\xbf\xf7\xbf\xbf\xfb\xbf\xbf\xbf\xfd\xbf\xbf\xbf\xbf"]),
    ("6.16", False, [b"\xfe", b"\xff", b"\xfe\xfe\xff\xff"]),
    ("6.17", False, [b"\xc0\xaf", b"\xe0\x80\xaf", b"\xf0\x80\x80\xaf", b"\xf8\x80\x80\x80\xaf", b"\xfc\x80\x80\x80\x80\xaf"]),
    ("6.18", False, [b"\xc1\xbf", b"\xe0\x9f\xbf", b"\xf0\x8f\xbf\xbf", b"\xf8\x87\xbf\xbf\xbf", b"\xfc\x83\xbf\xbf\xbf\xbf"]),
    ("6.19", False, [b"\xc0\x80", b"\xe0\x80\x80", b"\xf0\x80\x80\x80", b"\xf8\x80\x80\x80\x80", b"\xfc\x80\x80\x80\x80\x80"]),
    ("6.20", False, [b"\xed\xa0\x80", b"\xed\xad\xbf", b"\xed\xae\x80", b"\xed\xaf\xbf", b"\xed\xb0\x80", b"\xed\xbe\x80", b"\xed\xbf\xbf"]),
    ("6.21", False, [high + low for high in HIGH for low in LOW]),
    ("6.22", True, [chr(plane * 0x10000 + last).encode() for plane in range(17) for last in (0xFFFE, 0xFFFF)]),
    ("6.23", True, [chr(0xFFF9 + place).encode() for place in range(7)]),
]
BOUNDARIES = [(b"\xed\x9f\xbf", True), (b"\xee\x80\x80", True), (b"\xef\xbf\xbd", True), (b"\xf4\x8f\xbf\xbf", True), (OUTSIDE, False)]


def text_of(payload, is_valid):
    """What is sent for a text, and what comes back, by whether it is UTF-8."""
    return [text(payload)], [relayed(text(payload))] if is_valid else INVALID


def texts():
    """6: texts that are UTF-8, and others."""
    whole, cut = "Hello-µ@ßöäüàá-UTF-8!!".encode(), GREEK + CUT + b"edited"
    yield Case("6.1.1", "a text without a byte", [text(b"")], [relayed(text(b""))])
    yield Case("6.1.2", "three fragments without a byte", [text(b"", False), more(b"", False), more(b"")], [relayed(text(b""))])
    yield Case("6.1.3", "a fragment between two without a byte", [text(b"", False), more(b"middle", False), more(b"")], [relayed(text(b"middle"))])
    yield Case("6.2.1", "a text of several letters", *text_of(whole, True))
    yield Case("6.2.2", "the same, cut between two letters", [text(whole[:12], False), more(whole[12:])], [relayed(text(whole))])
    yield Case("6.2.3", "the same in fragments of a byte", [Split(text(whole), 1)], [relayed(text(whole))])
    yield Case("6.2.4", "another in fragments of a byte", [Split(text(GREEK), 1)], [relayed(text(GREEK))])
    yield Case("6.3.1", "half a letter of UTF-16 within", *text_of(cut, False))
    yield Case("6.3.2", "the same in fragments of a byte", [Split(text(cut), 1)], INVALID)
    for number, at in (("6.4.1", 0), ("6.4.2", 1)):
        parts = [text(GREEK + OUTSIDE[:at], False), more(OUTSIDE[at:], False)]
        yield Case(number, "no letter, before the last fragment has come", parts, INVALID)
    for number, at in (("6.4.3", 4), ("6.4.4", 1)):
        pieces = [GREEK + OUTSIDE[:at], OUTSIDE[at:] + b"edited"]
        yield Case(number, "no letter, in a frame that comes in two pieces", [Pieces([text(b"".join(pieces))], len(pieces[0]) + 6)], INVALID)
    for size in range(1, len(GREEK) + 1):
        yield Case(f"6.6.{size}", f"the first {size} bytes of a text", *text_of(GREEK[:size], size in (2, 5, 7, 9, 11)))
    for place, (payload, is_valid) in enumerate(BOUNDARIES, 1):
        yield Case(f"6.11.{place}", "a letter beside those that are none", *text_of(payload, is_valid))
    for group, is_valid, payloads in TEXTS:
        for place, payload in enumerate(payloads, 1):
            yield Case(f"{group}.{place}", payload[:12].hex(), *text_of(payload, is_valid))


LARGE = text(262144 * b"*")
REASON = b"Hello World!"
BEHIND_CLOSE = [
    Case("7.1.1", "a message, and a close", [HELLO, close_of(1000)], [relayed(HELLO), closed(1000)]),
    Case("7.1.2", "two closes", [close_of(1000), close_of(1000)], [closed(1000)]),
    Case("7.1.3", "a ping behind a close", [close_of(1000), ping()], [closed(1000)]),
    Case("7.1.4", "a message behind a close", [close_of(1000), HELLO], [closed(1000)]),
    Case("7.1.5", "a close between two fragments", [PARTS[0], close_of(1000), PARTS[1]], [closed(1000)]),
    Case("7.1.6", "a large message, another, a close and a ping", [LARGE, HELLO, close_of(1000), ping()], [relayed(LARGE), relayed(HELLO), closed(1000)]),
]
# The payload of a close, and how it is answered.
CLOSES = [
    ("7.3.1", b"", [closed()]),
    ("7.3.2", b"a", BROKEN),
    ("7.3.3", close_of(1000).payload, [closed(1000)]),
    ("7.3.4", close_of(1000, REASON).payload, [closed(1000, REASON)]),
    ("7.3.5", close_of(1000, 123 * b"*").payload, [closed(1000, 123 * b"*")]),
    ("7.3.6", close_of(1000, 124 * b"*").payload, BROKEN),
    ("7.5.1", close_of(1000, GREEK + CUT + b"edited").payload, INVALID),
]
GOOD_CODES = (1000, 1001, 1002, 1003, 1007, 1008, 1009, 1010, 1011, 3000, 3999, 4000, 4999)
BAD_CODES = (0, 999, 1004, 1005, 1006, 1016, 1100, 2000, 2999)
FAR_CODES = (5000, 65535)


def closes():
    """7: closes, and what comes behind them."""
    yield from BEHIND_CLOSE
    for number, payload, back in CLOSES:
        yield Case(number, f"a close of {len(payload)} bytes", [close_of()._replace(payload=payload)], back)
    for place, code in enumerate(GOOD_CODES, 1):
        yield Case(f"7.7.{place}", f"the code {code}", [close_of(code)], [closed(code)])
    for group, codes in (("7.9", BAD_CODES), ("7.13", FAR_CODES)):
        for place, code in enumerate(codes, 1):
            yield Case(f"{group}.{place}", f"the code {code}", [close_of(code)], NO_CODE)


def sizes(group, kind):
    """Messages of 64 KiB to 16 MiB in one frame."""
    for place, size in enumerate((65536, 262144, MIB), 1):
        yield Case(f"{group}.{place}", f"{size} bytes", [kind(size * b"*")], [relayed(kind(size * b"*"))])
    yield Case(f"{group}.4", "4 MiB", [kind(4 * MIB * b"*")], TOO_LONG)
    for place, size in ((5, 8 * MIB), (6, 16 * MIB)):
        yield Case(f"{group}.{place}", f"{size} bytes", [Begun(kind(65536 * b"*"), size)], [closed(1009)])


def limits():
    """9: long messages, and many of them."""
    for group, kind in (("9.1", text), ("9.2", binary)):
        yield from sizes(group, kind)
    for group, kind in (("9.3", text), ("9.4", binary)):
        for place, size in enumerate((64, 256, 1024, 4096, 16384, 65536, 262144, MIB, 4 * MIB), 1):
            yield Case(f"{group}.{place}", f"4 MiB in fragments of {size}", [Split(kind(4 * MIB * b"*"), size)], TOO_LONG)
    for group, kind in (("9.5", text), ("9.6", binary)):
        for place, size in enumerate((64, 128, 256, 512, 1024, 2048), 1):
            yield Case(f"{group}.{place}", f"1 MiB in pieces of {size}", [Pieces([kind(MIB * b"*")], size)], [relayed(kind(MIB * b"*"))])
    for group, kind in (("9.7", text), ("9.8", binary)):
        for place, size in enumerate((0, 16, 64, 256, 1024, 4096), 1):
            yield Case(f"{group}.{place}", f"many of {size} bytes", [Turns(kind(size * b"*"), MANY)], MANY * [relayed(kind(size * b"*"))])
    yield Case("10.1.1", "a text of 65,536 in fragments of 1,300", [Split(text(65536 * b"*"), 1300)], [relayed(text(65536 * b"*"))])


def cases():
    """All of them, one after another, since some are large."""
    yield from framing()
    yield from PINGS
    for group in (reserved_bits, opcodes, fragments, texts, closes, limits):
        yield from group()


def fragments_of(item):
    """The bytes of the fragments of a message; those that are alike have one mask."""
    sent = functools.cache(lambda opcode, payload, final: Frame(opcode, payload, final).sent())
    opcode, whole, starts = item.message.opcode, item.message.payload, range(0, len(item.message.payload), item.size)
    return [sent(0 if at else opcode, whole[at : at + item.size], at == starts[-1]) for at in starts]


def pieces_of(item):
    """The pieces in which something is sent."""
    if isinstance(item, Frame):
        return [item.sent()]
    if isinstance(item, Begun):
        return [head_of(item.message, item.size) + item.message.sent()[-4 - len(item.message.payload) :]]
    if isinstance(item, Split):
        return [b"".join(fragments_of(item))]
    if not item.size:
        return [frame.sent() for frame in item.frames]
    whole = b"".join(frame.sent() for frame in item.frames)
    return [whole[at : at + item.size] for at in range(0, len(whole), item.size)]

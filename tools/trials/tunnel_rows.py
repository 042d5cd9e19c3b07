"""Rows of tunnels: what clients send, and beside it what comes back."""
from trials.rows import ADMIN, A_GRAIN
from trials.talk import Account, Ask, Relayed, asked, whole_answer
from trials.web_socket import BINARY, MORE, PING, PONG, TEXT, Frame, close_of, head_of

BEN = Account(2, "ben", "Ben%20%C3%85s")
# The longest message that is passed on, and the longest that is read.
LONGEST, MOST_READ = 1048576, 4194304
NO_KEY = '{"error":"UnknownKey","of":[]}'


def text(payload, final=True):
    return Frame(TEXT, payload, final)


def binary(payload, final=True):
    return Frame(BINARY, payload, final)


def more(payload, final=True):
    return Frame(MORE, payload, final)


def ping(payload=b""):
    return Frame(PING, payload)


def pong(payload=b""):
    return Frame(PONG, payload)


def ponged(payload=b""):
    """What the server sends for a ping."""
    return Frame(PONG, payload, masked=False)


def closed(code=None, reason=b""):
    """What the server closes with."""
    return close_of(code, reason, is_ours=False)


def said(words):
    """A text of the server's own."""
    return Frame(TEXT, words.encode(), masked=False)


def relayed(message, by=ADMIN, permissions="view,edit", session=1):
    """What comes of a message that goes through: all that the grain was asked, as the small program that stands for an application answers it."""
    kind = "text/plain" if message.opcode == TEXT else "application/octet-stream"
    lines = [f"content-type: {kind}", f"Content-Length: {len(message.payload)}"]
    question = asked("POST /", by, permissions, session, lines)
    head = whole_answer(200, question, len(question) + len(message.payload))
    return Frame(BINARY, head.encode() + message.payload, masked=False)


def came(answer):
    """What comes of a message whose relay is this answer."""
    return Frame(BINARY, answer.encode(), masked=False)


# Requests on connections, before the tunnels.
SETTING_OUT = [
    *A_GRAIN,
    Ask("an account", "first", "POST desk/accounts", '{"handle":"ben","name":"Ben Ås"}', 200, '{"account":2,"token":"$ben"}'),
    Ask("a share as a reader", "first", "POST desk/grains/1/share", '{"assignment":{"base":0},"to":2}', 200, '{"grant":1}'),
    Ask("its owner opens it", "first", "POST desk/grains/1/open", "{}", 200, '{"key":"$key","session":1}'),
    Ask("it is opened by another", "ben", "POST desk/grains/1/open", "{}", 200, '{"key":"$key_ben","session":2}'),
    Ask("another grain", "first", "POST desk/grains", '{"app":1,"title":"Plans"}', 200, '{"grain":2}'),
    Ask("it is opened", "first", "POST desk/grains/2/open", "{}", 200, '{"key":"$key_plans","session":3}'),
]
# A link that ends at a moment, by which nobody's session is opened.
A_WHILE = '{"assignment":{"base":"all"},"expires":MOMENT}'
FOR_A_WHILE = [
    Ask("a link for a while", "first", "POST desk/grains/1/link", A_WHILE, 200, '{"grant":2,"token":"$link"}'),
    Ask("it is opened by its bearer", "link", "POST desk/open", "{}", 200, '{"key":"$key_link","session":4}'),
]
EXPIRED = '{"error":"Expired","of":[2,MOMENT]}'
# What is done on connections between two messages of Ben's tunnel, and with which permissions the next one goes through.
BETWEEN = [
    ([], "view"),
    ([Ask("a share of all", "first", "POST desk/grains/1/share", '{"assignment":{"base":"all"},"to":2}', 200, '{"grant":3}')], "view,edit"),
    ([Ask("it is revoked", "first", "POST desk/grants/3/revoke", "{}", 200, "{}")], "view"),
]
REVOKED = [Ask("the share is revoked", "first", "POST desk/grants/1/revoke", "{}", 200, "{}")]
LOST = '{"error":"NoShare","of":[1,2]}'
GIVEN_AGAIN = [Ask("a share again", "first", "POST desk/grains/1/share", '{"assignment":{"base":0},"to":2}', 200, '{"grant":4}')]
ENABLED = [
    Ask("he is enabled", "first", "POST desk/accounts/2/enabled", '{"on":true}', 200, "{}"),
    Ask("he closes his session", "ben", "POST desk/sessions/2/close", "{}", 200, "{}"),
]
# Tunnels that end: whose key was sent, what is done then on connections, and what is said to the first message.
ENDS = [
    ("his account is disabled", "key_ben", [Ask("he is disabled", "first", "POST desk/accounts/2/enabled", '{"on":false}', 200, "{}")],
     '{"error":"AccountDisabled","of":[2]}'),
    ("it is enabled, and his session closed", "key_ben", ENABLED, '{"error":"SessionClosed","of":[2]}'),
    ("the grain's program is stopped", "key_plans", [Ask("it is stopped", "first", "POST desk/grains/2/stop", "{}", 200, "{}")],
     '{"error":"GrainStopped","of":[2]}'),
    ("the grain is in the trash", "key_plans", [Ask("into the trash", "first", "POST desk/grains/2/trash", "{}", 200, "{}")],
     '{"error":"GrainTrashed","of":[2]}'),
]
FIRST_HALF, SECOND_HALF = text("é".encode()[:1], False), more("é".encode()[1:])
# Messages of one tunnel, one after another, and what comes of each.
MESSAGES = [
    ("a text", [text("hé".encode())], [relayed(text("hé".encode()))]),
    ("bytes", [binary(bytes(range(256)))], [relayed(binary(bytes(range(256))))]),
    ("a text without a byte", [text(b"")], [relayed(text(b""))]),
    ("no bytes", [binary(b"")], [relayed(binary(b""))]),
    ("a text that looks like a request", [text(b"GET / HTTP/1.1\r\nHost: a\r\n\r\n")], [relayed(text(b"GET / HTTP/1.1\r\nHost: a\r\n\r\n"))]),
    ("a ping", [ping(b"beat")], [ponged(b"beat")]),
    ("fragments, and a ping between", [FIRST_HALF, ping(b"beat"), SECOND_HALF], [ponged(b"beat"), relayed(text("é".encode()))]),
    ("a pong that nobody asked for, and a message", [pong(b"?"), binary(b"!")], [relayed(binary(b"!"))]),
    ("two messages in one piece", [text(b"one"), binary(b"two")], [relayed(text(b"one")), relayed(binary(b"two"))]),
    ("the longest message", [binary(LONGEST * b"a")], [relayed(binary(LONGEST * b"a"))]),
]
# Messages of one tunnel that are too long, and others; a refusal has the message's number.
LONG = [
    ("a byte too long", [binary((LONGEST + 1) * b"a")], [said('{"error":"LongBody","of":[1]}')]),
    ("the next one", [text(b"short")], [relayed(text(b"short"))]),
    ("fragments that are too long together", [text(LONGEST * b"a", False), more(b"a")], [said('{"error":"LongBody","of":[3]}')]),
    ("the longest that is read", [text(MOST_READ * b"a")], [said('{"error":"LongBody","of":[4]}')]),
    ("the next one", [binary(b"short")], [relayed(binary(b"short"))]),
]
# First messages that are no key: each is answered so at once, and the tunnel ends.
NO_KEYS = [
    ("a key as bytes", lambda known: binary(known["key"].encode())),
    ("65 bytes", lambda known: text(65 * b"0")),
    ("a key, and blanks behind it", lambda known: text(known["key"].encode() + 33 * b" ")),
    ("a text that is far too long", lambda known: text((LONGEST + 1) * b"0")),
]
# Texts that could be the key of a session, and aren't: that is said to the first message behind them.
OTHER_KEYS = [
    ("a key that none has", lambda known: text(32 * b"0")),
    ("no byte", lambda known: text(b"")),
    ("64 bytes", lambda known: text(64 * b"0")),
    ("a key and a line feed", lambda known: text(known["key"].encode() + b"\n")),
    ("a key in capitals", lambda known: text(known["key"].upper().encode())),
    ("an account's login", lambda known: text(known["ben"].encode())),
]
# Frames that no client may send, and what they are closed with; docs/TRY.md has them behind the cases that have numbers.
WRONG_FRAMES = [
    ("a frame without a mask", text(b"a")._replace(masked=False).sent(), closed(1002)),
    ("a length of 5 in two bytes", head_of(text(b""), 5, 2) + b"mask" + b"hello", closed(1002)),
    ("a length of 5 in eight bytes", head_of(text(b""), 5, 8) + b"mask" + b"hello", closed(1002)),
    ("a length of 65,535 in eight bytes", head_of(text(b""), 65535, 8) + b"mask", closed(1002)),
    ("a length whose first bit is set", head_of(text(b""), 1 << 63, 8) + b"mask", closed(1002)),
    ("a byte more than is read, of which the head alone comes", head_of(text(b""), MOST_READ + 1) + b"mask", closed(1009)),
    ("a byte more than is read, in fragments", text(MOST_READ * b"a", False).sent() + more(b"a").sent(), closed(1009)),
]


def head(*lines):
    return "".join(line + "\r\n" for line in lines).encode() + b"\r\n"


GET, HOST, UPGRADE, CONNECTION = "GET / HTTP/1.1", "Host: localhost", "Upgrade: websocket", "Connection: Upgrade"
KEY, VERSION = "Sec-WebSocket-Key: dGhlIHNhbXBsZSBub25jZQ==", "Sec-WebSocket-Version: 13"
REFUSED = "HTTP/1.1 400 Bad Request\r\nContent-Length: 0\r\nConnection: close\r\n\r\n"
# Handshakes that are refused.
BAD_HANDSHAKES = [
    ("a request for no WebSocket", head(GET, HOST)),
    ("another method", head("POST / HTTP/1.1", HOST, UPGRADE, CONNECTION, KEY, VERSION)),
    ("an older version of HTTP", head("GET / HTTP/1.0", HOST, UPGRADE, CONNECTION, KEY, VERSION)),
    ("no line that upgrades", head(GET, HOST, CONNECTION, KEY, VERSION)),
    ("an upgrade to something else", head(GET, HOST, "Upgrade: h2c", CONNECTION, KEY, VERSION)),
    ("a connection that isn't upgraded", head(GET, HOST, UPGRADE, "Connection: keep-alive", KEY, VERSION)),
    ("another version", head(GET, HOST, UPGRADE, CONNECTION, KEY, "Sec-WebSocket-Version: 8")),
    ("no version", head(GET, HOST, UPGRADE, CONNECTION, KEY)),
    ("no key", head(GET, HOST, UPGRADE, CONNECTION, VERSION)),
    ("a key of 15 bytes", head(GET, HOST, UPGRADE, CONNECTION, "Sec-WebSocket-Key: dGhlIHNhbXBsZSBub25j", VERSION)),
    ("a key that is none", head(GET, HOST, UPGRADE, CONNECTION, "Sec-WebSocket-Key: ????????????????????????", VERSION)),
    ("no head", b"hello\r\n\r\n"),
    ("the end within a head", head(GET, HOST, UPGRADE, CONNECTION, KEY, VERSION)[:-3]),
    ("a message in one piece with the head", head(GET, HOST, UPGRADE, CONNECTION, KEY, VERSION) + text(b"early").sent()),
    ("a head of 70,000 bytes", head(GET, HOST, UPGRADE, CONNECTION, KEY, VERSION, "X-Long: " + 70000 * "a")),
]
# Handshakes that are accepted all the same; the last two name an extension and a protocol, of which the server has none.
GOOD_HANDSHAKES = [
    ("names and words in other cases", head(GET, "HOST: localhost", "UPGRADE: WebSocket", "connection: keep-alive, upgrade", KEY, VERSION)),
    ("another path and host", head("GET /a/b?c HTTP/1.1", "Host: ui-x.club.example", UPGRADE, CONNECTION, KEY, VERSION)),
    ("a page's origin", head(GET, HOST, UPGRADE, CONNECTION, KEY, VERSION, "Origin: http://localhost")),
    ("an extension", head(GET, HOST, UPGRADE, CONNECTION, KEY, VERSION, "Sec-WebSocket-Extensions: permessage-deflate; client_max_window_bits")),
    ("a protocol", head(GET, HOST, UPGRADE, CONNECTION, KEY, VERSION, "Sec-WebSocket-Protocol: chat")),
]
# The value that answers the key above, as RFC 6455 has both (section 1.3).
ACCEPTS = "s3pPLMBiTxaQ9kYGzzhZRbK+xOo="

# A WebSocket that is asked for at the port of connections: it is a request like others there.
ASKING = ["Upgrade: websocket", "Connection: Upgrade", "Sec-WebSocket-Version: 13", "Sec-WebSocket-Key: dGhlIHNhbXBsZSBub25jZQ=="]
AT_PORT = [
    Ask("a WebSocket of the desk", "", "GET desk/a", None, 404, '{"error":"NoRoute","of":[]}'),
    Ask("a WebSocket of a session", "", "GET ui-$key/", None, 200, asked("GET /", ADMIN, "view,edit", 1)),
]

OK = "HTTP/1.1 200 OK\r\nContent-Type: text/plain\r\nContent-Length: 5\r\n\r\nhello"
# What a grain's program answers that isn't the small one, and what comes of it: the tunnel goes on.
ANSWERS = [
    ("an answer", OK, came(whole_answer(200, Relayed("hello")))),
    ("a status and no body", "HTTP/1.1 204 X\r\nSet-Cookie: a=1\r\n\r\n", came("HTTP/1.1 204 No Content\r\nset-cookie: a=1\r\n\r\n")),
    ("no answer", "", said('{"error":"BadAnswer","of":[0]}')),
    ("half an answer", OK[:-1], said(f'{{"error":"BadAnswer","of":[{len(OK) - 1}]}}')),
    ("an answer without a length", "HTTP/1.1 200 OK\r\n\r\nhello", said('{"error":"NoLength","of":[]}')),
    ("an answer that is too long", OK.replace("5\r\n\r\nhello", f"{MOST_READ}\r\n\r\n") + MOST_READ * "a", said('{"error":"LongAnswer","of":[4194305]}')),
]
NOT_REACHED = said('{"error":"LinkFailed","of":[]}')

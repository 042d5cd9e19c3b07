"""Rows of a server behind a proxy: what is asked, and beside it what the client sees of the answer."""
from trials.rows import ADMIN
from trials.talk import Ask, asked
from trials.tunnel_rows import LONGEST, binary, ping, ponged, relayed, text

# The longest body, and one that the proxy passes on, so that the server refuses it, and one that the proxy refuses.
LARGEST, TOO_LONG, FAR_TOO_LONG = 1048576, 1048577, 2097152
REFUSED = '{"error":"LongBody","of":[0]}'
NO_KEY = '{"error":"UnknownKey","of":[]}'
# A body in chunks, what the grain is asked where the proxy has put them together, and how the server refuses them.
CHUNKS = (b"5\r\nhello\r\n", b"6\r\n world\r\n", b"0\r\n\r\n")
IN_CHUNKS = asked("POST /spread", ADMIN, "view,edit", 1, body="hello world")
NO_LENGTH = '{"error":"NeedLength","of":[0]}'
# What pages tell other sites of the name that they are at.
POLICY = "same-origin"

# Messages of one tunnel, one after another, and what comes of each.
MESSAGES = [
    ("a text", [text("hé".encode())], [relayed(text("hé".encode()))]),
    ("bytes", [binary(bytes(range(256)))], [relayed(binary(bytes(range(256))))]),
    ("a ping", [ping(b"beat")], [ponged(b"beat")]),
    ("two messages in one piece", [text(b"one"), binary(b"two")], [relayed(text(b"one")), relayed(binary(b"two"))]),
    ("the longest message", [binary(LONGEST * b"a")], [relayed(binary(LONGEST * b"a"))]),
]
AGAIN = Ask("it is opened again", "first", "POST desk/grains/1/open", "{}", 200, '{"key":"$key_again","session":1}')
LINK_FAILED = '{"error":"LinkFailed","of":[]}'


def visit(name, line, body=None):
    """A request of the first session, which the grain's program answers with what it was asked."""
    method, _, target = line.partition(" ")
    return Ask(name, "", f"{method} ui-$key{target}", body, 200, asked(line, ADMIN, "view,edit", 1, body=body))


# Requests that come to what their `Host` line names.
HOSTS = [
    visit("a session, by its host name", "GET /hello?x=1"),
    visit("a path as it was sent", "GET /a//b%2Fc/../d?e=%20&f"),
    visit("a body", "POST /pages", "a=b&c"),
    visit("another method", "DELETE /pages/1"),
    Ask("a key that none has is refused by the server", "", "GET ui-" + 32 * "0" + "/", None, 401, NO_KEY),
    Ask("the desk without a login", "", "POST desk/grains", '{"app":1,"title":"A"}', 401, NO_KEY),
    Ask("what the desk hasn't", "first", "GET desk/grains", None, 404, '{"error":"NoRoute","of":[]}'),
    Ask("a link", "first", "POST desk/grains/1/link", '{"assignment":{"base":"all"}}', 200, '{"grant":2,"token":"$link"}'),
    Ask("its bearer", "link", "GET api/notes", None, 200, asked("GET /notes", None, "view,edit")),
    Ask("a run's token that is none", "link", "POST grain/drop", '{"token":"a"}', 401, NO_KEY),
]

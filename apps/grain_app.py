"""What the applications here have in common: being a grain's program, as docs/GRAINS.md says, by the standard library.

An application makes an `Application` and calls `main`. Its routes say which permission each action needs; the server
tells, with each request, which ones its caller holds now. What is kept is a SQLite file in the folder that the program
is started in, and is on the disk before an answer.
"""
import base64
import contextlib
import hashlib
import http.client
import http.server
import json
import os
import re
import socket
import socketserver
import sqlite3
import sys
import threading
import traceback
import urllib.parse

HTML, JSON, TEXT = "text/html; charset=utf-8", "application/json", "text/plain; charset=utf-8"
FILE = "data.db"
# How many seconds a connection waits for another one that writes, and how many the server may take to answer.
PATIENCE, ANSWERING = 10, 5
# What no text may have: control characters, and halves of characters.
CONTROLS = re.compile("[\x00-\x1f\x7f-\x9f\ud800-\udfff]")


class Refusal(Exception):
    """Why an action isn't done: a status of 400 to 499, a sentence for who asked, and further fields of the answer."""

    def __init__(self, status, sentence, **more):
        self.status, self.fields = status, {"error": sentence, **more}


class Answer:
    """What is answered: a status, bytes (halves of characters as `?`), what they are, and further lines of the head."""

    def __init__(self, body, kind=JSON, status=200, lines=()):
        text = body if isinstance(body, (bytes, str)) else json.dumps(body, ensure_ascii=False)
        self.body = text if isinstance(text, bytes) else text.encode(errors="replace")
        self.kind, self.status, self.lines = kind, status, list(lines)


class Text:
    """The shape of a text: how many characters it has, without the blanks around it, and whether in lines."""

    def __init__(self, most, least=1, lines=False):
        self.least, self.most, self.passed = least, most, "\n\t" if lines else ""

    def taken(self, name, value):
        text = value.replace("\r\n", "\n").strip()
        if not self.least <= len(text) <= self.most:
            raise Refusal(400, f"The {name} has to have {self.least} to {self.most:,} characters.")
        if set(CONTROLS.findall(text)) - set(self.passed):
            raise Refusal(400, f"The {name} has a character in it that isn't allowed.")
        return text


class Request:
    """One request: what for, by whom, and with which permissions. Whoever comes by a link has no user's id."""

    def __init__(self, method, target, head, body):
        self.method, self.body, self.numbers = method, body, ()
        self.path, _, query = target.partition("?")
        self.query = dict(urllib.parse.parse_qsl(query, keep_blank_values=True, errors="surrogateescape"))
        self.permissions = [name for name in head.get("X-Sandstorm-Permissions", "").split(",") if name]
        self.name = urllib.parse.unquote(head.get("X-Sandstorm-Username", "Anonymous%20User"))
        self.user = head.get("X-Sandstorm-User-Id", "")

    def fields(self, **shapes):
        """The fields of the body, which is a JSON object, each of the type or the `Text` that is named."""
        try:
            given = json.loads(self.body or b"{}")
        except (ValueError, RecursionError):
            raise Refusal(400, "What was sent is no JSON.") from None
        given = given if isinstance(given, dict) else {}
        for name, shape in shapes.items():
            is_text = isinstance(shape, Text)
            if type(given.get(name)) is not (str if is_text else shape):
                raise Refusal(400, f"“{name}” is missing, or isn't what it should be.")
            given[name] = shape.taken(name, given[name]) if is_text else given[name]
        return given


def apart(act):
    """Marks an action that asks the server: it gets the application in place of the file, which it opens in between."""
    act.is_apart = True
    return act


class Application:
    """The statements that make its tables, its page, and its routes: a method and a path, in which N stands for a
    number, the permission that it needs, and what is done, of the request and the file, in one transaction."""

    def __init__(self, tables, page, routes):
        self.tables, self.page, self.token = tables, page_of(page), ""
        self.routes = [(method, re.compile(path.replace("N", "([0-9]{1,9})")), needed, act)
                       for (method, path), (needed, act) in routes.items()]
        self.server = os.environ.get("LUMBYTE_SERVER", "127.0.0.1:0")

    def answer(self, request):
        """The answer to a request; a refusal is a JSON object with a sentence."""
        try:
            if request.path == "/me":
                return Answer({"name": request.name, "account": request.user != "", "permissions": request.permissions})
            if request.path != "/":
                return self.act(request)
            if not request.permissions:
                return Answer("You may do nothing here any more.\n", TEXT, 403)
            return Answer(self.page, HTML)
        except Refusal as refusal:
            return Answer(refusal.fields, status=refusal.status)
        except Exception:
            traceback.print_exc()
            return Answer({"error": "The program failed at this; its log says how."}, status=500)

    def act(self, request):
        for method, path, needed, act in self.routes:
            found = path.fullmatch(request.path)
            if not found or method != request.method:
                continue
            if needed not in request.permissions:
                raise Refusal(403, f"You may not do that: it needs the permission “{needed}”.")
            request.numbers = [int(number) for number in found.groups()]
            is_apart = hasattr(act, "is_apart")
            with contextlib.nullcontext(self) if is_apart else self.open(request.method != "GET") as given:
                answer = act(request, given)
            return answer if isinstance(answer, Answer) else Answer(answer)
        raise Refusal(404, "There is nothing of that kind here.")

    @contextlib.contextmanager
    def open(self, writes=True):
        """The file of the grain, for one action: all of it is kept, or nothing."""
        file = sqlite3.connect(FILE, timeout=PATIENCE, isolation_level=None)
        try:
            file.row_factory = sqlite3.Row
            file.execute("PRAGMA synchronous = FULL")
            file.execute("BEGIN IMMEDIATE" if writes else "BEGIN")
            yield file
            file.execute("COMMIT")
        finally:
            file.close()

    def make(self):
        """Makes the tables that aren't there. The file stays open, since with the last connection that closes the log
        is copied into it."""
        self.held = sqlite3.connect(FILE, timeout=PATIENCE, isolation_level=None, check_same_thread=False)
        self.held.executescript(f"PRAGMA journal_mode = WAL; BEGIN IMMEDIATE; {'; '.join(self.tables)}; COMMIT")

    def ask(self, method, path, body=None):
        """What the server answers to the grain itself: a status and a JSON value, or the bytes of a `/use`."""
        head = {"Host": "grain.localhost", "Authorization": f"Bearer {self.token}", "Connection": "close"}
        try:
            with contextlib.closing(to_server(self.server)) as connection:
                connection.request(method, path, None if body is None else json.dumps(body), head)
                answer = connection.getresponse()
                data = answer.read()
            return answer.status, data if path.startswith("/use/") else json.loads(data)
        except (OSError, ValueError, http.client.HTTPException) as error:
            raise Refusal(424, f"The server gave no answer: {error or type(error).__name__}.") from None


def to_server(place):
    """A connection to the server, at HOST:PORT, or at a socket file, as tools/confine makes one."""
    if not place.startswith("/"):
        return http.client.HTTPConnection(place, timeout=ANSWERING)
    connection = http.client.HTTPConnection("localhost", timeout=ANSWERING)
    connection.sock = socket.socket(socket.AF_UNIX)
    connection.sock.settimeout(ANSWERING)
    connection.sock.connect(place)
    return connection


def page_of(path):
    """The text of a page. Its policy gets the digests of its own script and style: a browser then runs no others."""
    with open(path, encoding="utf-8") as file:
        page = file.read()
    for part in ("script", "style"):
        text = re.search(f"<{part}>(.*?)</{part}>", page, re.DOTALL)[1]
        digest = base64.b64encode(hashlib.sha256(text.encode()).digest()).decode()
        page = page.replace(f"DIGEST-OF-{part.upper()}", f"sha256-{digest}")
    return page


def rows(file, query, *values):
    """What a query gives, as a list of objects."""
    return [dict(row) for row in file.execute(query, values)]


def row(file, query, *values):
    """The one object that a query gives, or a refusal."""
    found = rows(file, query, *values)
    if not found:
        raise Refusal(404, "That isn't there any more.")
    return found[0]


class Handler(http.server.BaseHTTPRequestHandler):
    """One connection, with one request, whose answer is sent in one piece where it is short."""
    timeout, wbufsize = 60, -1

    def handle_any(self):
        body = self.rfile.read(int(self.headers.get("Content-Length") or 0))
        answer = self.server.application.answer(Request(self.command, self.path, self.headers, body))
        self.send_response(answer.status)
        for name, value in [("Content-Type", answer.kind), ("Content-Length", len(answer.body)), *answer.lines]:
            self.send_header(name, str(value))
        self.end_headers()
        self.wfile.write(answer.body)

    do_GET = do_POST = do_PUT = do_PATCH = do_DELETE = do_OPTIONS = handle_any

    def log_message(self, *_):
        """(each request would be a line)"""


class Listener(socketserver.ThreadingMixIn, socketserver.UnixStreamServer):
    daemon_threads, request_queue_size = True, 256

    def handle_error(self, *_):
        print(f"a connection broke: {sys.exc_info()[1]!r}", file=sys.stderr)


def end_with_input():
    """The input ends when the server stops the program, or is gone."""
    while sys.stdin.buffer.read(4096):
        pass
    os._exit(0)


def main(application):
    """Is the program of a grain: `grain SOCKET COUNT`. It serves until its input ends."""
    if len(sys.argv) != 4 or sys.argv[1] != "grain":
        sys.exit(f"usage: {sys.argv[0]} grain SOCKET COUNT, with the run's token on its input")
    application.token = sys.stdin.buffer.readline().decode().strip()
    threading.Thread(target=end_with_input, daemon=True).start()
    application.make()
    path = sys.argv[2]
    if os.path.exists(path):
        os.remove(path)
    with Listener(path, Handler) as listener:
        listener.application = application
        print("ready", flush=True)
        listener.serve_forever()

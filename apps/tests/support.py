"""What the tests of the applications share: programs that are started as a server starts them, and asked over their
sockets; and a small server that stands for the real one where a program asks that.

All that is started here ends with its test, and works in a temporary folder, which is removed.
"""
import http.client
import http.server
import json
import os
import shutil
import socket
import subprocess
import sys
import tempfile
import threading
import time
import unittest
import unittest.mock
import urllib.parse
from typing import NamedTuple

sys.dont_write_bytecode = True
HERE = os.path.dirname(os.path.abspath(__file__))
APPS = os.path.dirname(HERE)
# (the module that was imported first may have been written there before)
shutil.rmtree(os.path.join(HERE, "__pycache__"), ignore_errors=True)
sys.path.insert(0, APPS)
for name in ("notes", "polls", "files"):
    sys.path.insert(0, os.path.join(APPS, name))

import grain_app  # noqa: E402

# How many seconds anything is waited for before it counts as not coming, and how many lie between two looks.
PATIENCE, PAUSE = 20, 0.01
TOKEN = "the-run's-token"


def until(what, look):
    """What `look` gives once that isn't false."""
    end = time.monotonic() + PATIENCE
    while not (found := look()):
        if time.monotonic() > end:
            raise AssertionError(f"{what}: not within {PATIENCE} seconds")
        time.sleep(PAUSE)
    return found


class Now:
    """Equal to each moment since the tests began, in whole seconds."""
    began = int(time.time())

    def __eq__(self, other):
        return type(other) is int and Now.began <= other <= time.time()

    def __repr__(self):
        return "a moment of this test"


class Who(NamedTuple):
    """Who asks, as the server tells a program: a name, a user's id, which may be empty, and permissions."""
    name: str
    user: str
    permissions: str

    def may(self, permissions):
        return self._replace(permissions=permissions)

    def lines(self):
        name = urllib.parse.quote(self.name, safe="")
        lines = {"Host": "sandbox", "Connection": "close", "X-Sandstorm-Username": name}
        if self.user:
            lines["X-Sandstorm-User-Id"] = self.user
        return {**lines, "X-Sandstorm-Permissions": self.permissions}


class Ask(NamedTuple):
    """A row: its name, who asks, a method and a target, what is sent, and the status and the JSON value expected."""
    name: str
    who: Who
    line: str
    sent: object
    status: int
    expected: object


class Got(NamedTuple):
    """An answer: its status, the lines of its head under names in lower case, and its body."""
    status: int
    lines: dict
    body: bytes


def ask_socket(path, who, line, sent=None):
    """The answer of who listens at a socket file to one request: of bytes, or of a value as JSON, or of nothing."""
    connection = http.client.HTTPConnection("sandbox", timeout=PATIENCE)
    connection.sock = socket.socket(socket.AF_UNIX)
    connection.sock.settimeout(PATIENCE)
    try:
        connection.sock.connect(path)
        body = sent if isinstance(sent, bytes) or sent is None else json.dumps(sent)
        connection.request(*line.split(" ", 1), body, who.lines())
        answer = connection.getresponse()
        return Got(answer.status, {name.lower(): value for name, value in answer.getheaders()}, answer.read())
    finally:
        connection.close()


class Program:
    """A program of a grain, started in a folder of its own beside that of its socket."""

    def __init__(self, words, place, server="127.0.0.1:0", run=1, more=()):
        self.folder, runs = os.path.join(place, "grains", "1"), os.path.join(place, "runs")
        os.makedirs(self.folder, exist_ok=True)
        os.makedirs(runs, exist_ok=True)
        self.socket = os.path.join(runs, f"run-{run}.sock")
        path = f"{os.path.dirname(sys.executable)}:/usr/bin:/bin"
        environment = {"PATH": path, "LANG": "C.UTF-8", "HOME": self.folder, "LUMBYTE_SERVER": server, **dict(more)}
        pipe = subprocess.PIPE
        self.process = subprocess.Popen(
            [*words, "grain", self.socket, "1000000000"], cwd=self.folder, env=environment,
            stdin=pipe, stdout=pipe, stderr=pipe)
        self.process.stdin.write(f"{TOKEN}\n".encode())
        self.process.stdin.flush()

    def wait(self):
        """Waits until it is ready."""
        said = self.process.stdout.readline()
        if said != b"ready\n":
            raise AssertionError(f"it said {said} and complained {self.end()[2]}")
        return self

    def ask(self, who, line, sent=None):
        return ask_socket(self.socket, who, line, sent)

    def end_input(self):
        self.process.stdin.close()
        self.process.stdin = None

    def end(self):
        """Ends it by the end of its input: its status, and what it printed and complained about to the end."""
        try:
            out, complaints = self.process.communicate(timeout=PATIENCE)
        finally:
            self.process.kill()
        return self.process.returncode, out, complaints


class Within:
    """An application in this process and in the folder that it works in, asked without a socket between."""

    def __init__(self, module, server):
        self.application = module.APPLICATION
        self.application.token, self.application.server = TOKEN, server
        self.application.make()

    def ask(self, who, line, sent=None):
        body = sent if isinstance(sent, bytes) else b"" if sent is None else json.dumps(sent).encode()
        answer = self.application.answer(grain_app.Request(*line.split(" ", 1), who.lines(), body))
        lines = {"Content-Type": answer.kind, "Content-Length": str(len(answer.body)), **dict(answer.lines)}
        return Got(answer.status, {name.lower(): value for name, value in lines.items()}, answer.body)


class Tests(unittest.TestCase):
    """A test with a folder, in which programs are started, and which must be left without any."""
    script = None
    maxDiff = None

    def setUp(self):
        self.place = os.path.realpath(tempfile.mkdtemp(prefix="grain-"))
        self.addCleanup(shutil.rmtree, self.place)

    def within(self, module, server="127.0.0.1:0", **values):
        """An application in this process, with other values in the place of some of its own, as of limits."""
        before = os.getcwd()
        self.addCleanup(os.chdir, before)
        os.chdir(self.place)
        for name, value in values.items():
            changed = unittest.mock.patch.object(module, name, value)
            changed.start()
            self.addCleanup(changed.stop)
        application = Within(module, server)
        self.addCleanup(application.application.held.close)
        return application

    def start(self, words=None, **how):
        program = Program(words or [self.script], self.place, **how)
        self.addCleanup(program.end)
        return program.wait()

    def ends(self, program):
        """Ends a program, which has nothing to complain about."""
        self.assertEqual((0, b"", b""), program.end())

    def play(self, program, rows):
        """Asks each row, and compares the status and all of the answer."""
        for row in rows:
            got = program.ask(row.who, row.line, row.sent)
            with self.subTest(row.name):
                self.assertEqual("application/json", got.lines["content-type"])
                self.assertEqual((row.status, row.expected), (got.status, json.loads(got.body)))


class Server(http.server.ThreadingHTTPServer):
    """Stands for the server where a run asks it for its grain, at a port of 127.0.0.1.

    It knows tokens of things that were chosen, and what their grains answer: a function of the method and path that
    gives a status and bytes. Saved references outlast a run, handles don't."""

    def __init__(self):
        self.chosen, self.saved, self.dropped, self.handles, self.asked = {}, {}, set(), {}, []
        self.refusing = None
        super().__init__(("127.0.0.1", 0), RunHandler)
        threading.Thread(target=self.serve_forever, kwargs={"poll_interval": 0.01}, daemon=True).start()

    @property
    def place(self):
        return f"127.0.0.1:{self.server_address[1]}"

    def end(self):
        self.shutdown()
        self.server_close()

    def handle_for(self, thing):
        self.handles[len(self.handles) + 1] = thing
        return len(self.handles)

    def claim(self, fields):
        thing = self.chosen.get(fields["token"])
        if thing is None:
            return 401, {"error": "UnknownKey", "of": []}
        if callable(thing):
            self.chosen[fields["token"]] = (409, {"error": "AlreadyClaimed", "of": [3]})
            return 200, {"grant": 4, "handle": self.handle_for(thing)}
        return thing

    def save(self, fields):
        token = f"saved-{len(self.saved) + 1}"
        self.saved[token] = self.handles[fields["handle"]]
        return 200, {"saved": len(self.saved), "token": token}

    def restore(self, fields):
        if fields["token"] in self.dropped:
            return 403, {"error": "Dropped", "of": [1]}
        return 200, {"handle": self.handle_for(self.saved[fields["token"]])}

    def drop(self, fields):
        self.dropped.add(fields["token"])
        return 200, {}

    def use(self, method, path):
        """What stands behind a handle answers, or the server in its place."""
        _, _, handle, rest = path.split("/", 3)
        if int(handle) not in self.handles:
            return 401, b'{"error":"UnknownKey","of":[]}'
        return self.handles[int(handle)](method, f"/{rest}")


class RunHandler(http.server.BaseHTTPRequestHandler):
    """One request of a run, which shows its token."""

    def handle_any(self):
        body = self.rfile.read(int(self.headers.get("Content-Length") or 0))
        fields = json.loads(body) if body else None
        shown = self.headers["Host"].split(".")[0], self.headers["Authorization"]
        self.server.asked.append((f"{self.command} {self.path}", fields))
        if shown != ("grain", f"Bearer {TOKEN}"):
            status, answer = 401, {"error": "UnknownKey", "of": []}
        elif self.server.refusing:
            status, answer = self.server.refusing
        elif self.path.startswith("/use/"):
            status, answer = self.server.use(self.command, self.path)
        else:
            status, answer = getattr(self.server, self.path[1:])(fields)
        data = answer if isinstance(answer, bytes) else json.dumps(answer).encode()
        self.send_response(status)
        self.send_header("Content-Length", str(len(data)))
        self.end_headers()
        self.wfile.write(data)

    do_GET = do_POST = handle_any

    def log_message(self, *_):
        """(nothing is told)"""

"""What the applications have in common: how they are started and ended, who they think asks, their front page, and
what they do where something fails."""
import base64
import hashlib
import json
import os
import re
import signal
import socket
import subprocess
import sys
import unittest

from support import APPS, Ask, Tests, Who

import files
import grain_app
import notes
import polls
from grain_app import Answer, Request, Text

SCRIPTS = [os.path.join(APPS, name, f"{name}.py") for name in ("notes", "polls", "files")]
ADA = Who("Ada Holm", "aaaa", "view,edit")
GUEST = Who("Anonymous User", "", "view")
STRANGER = Who("Dan", "dddd", "")
NOTHING = {"error": "There is nothing of that kind here."}

ROUTES = [
    Ask("who asks", ADA, "GET /me", None, 200, {"name": "Ada Holm", "account": True, "permissions": ["view", "edit"]}),
    Ask("a name of all signs", ADA._replace(name="Zoë %&\""), "GET /me?a", None, 200,
        {"name": "Zoë %&\"", "account": True, "permissions": ["view", "edit"]}),
    Ask("by a link", GUEST, "GET /me", None, 200,
        {"name": "Anonymous User", "account": False, "permissions": ["view"]}),
    Ask("without a permission", STRANGER, "GET /me", None, 200, {"name": "Dan", "account": True, "permissions": []}),
    Ask("no route", ADA, "GET /nothing", None, 404, NOTHING),
    Ask("no such method", ADA, "PATCH /notes", None, 404, NOTHING),
    Ask("more than a route", ADA, "GET /notes/", None, 404, NOTHING),
    Ask("a number of ten digits", ADA, "DELETE /notes/1234567890", None, 404, NOTHING),
    Ask("no number", ADA, "DELETE /notes/N", None, 404, NOTHING),
    Ask("no known method, and no known path", ADA, "OPTIONS *", None, 404, NOTHING),
]
# A shape of a text, a text, and the text that is taken or the refusal.
TEXTS = [
    (Text(3), "abc", "abc"),
    (Text(3), " abc\n", "abc"),
    (Text(3), "abcd", "The word has to have 1 to 3 characters."),
    (Text(3), "", "The word has to have 1 to 3 characters."),
    (Text(3, least=0), " ", ""),
    (Text(3), "a\tb", "The word has a character in it that isn't allowed."),
    (Text(3), "a\x85b", "The word has a character in it that isn't allowed."),
    (Text(3), "a\x7fb", "The word has a character in it that isn't allowed."),
    (Text(3), "a\udc80", "The word has a character in it that isn't allowed."),
    (Text(9, lines=True), "a\r\nb\tc\n", "a\nb\tc"),
    (Text(9, lines=True), "a\rb", "The word has a character in it that isn't allowed."),
    (Text(1), "\U0001f600", "\U0001f600"),
    (Text(1234), 1235 * "a", "The word has to have 1 to 1,234 characters."),
]


class Starting(Tests):

    def test_words(self):
        """Whatever isn't how the server starts it is told, and nothing is made."""
        usage = f"usage: {SCRIPTS[0]} grain SOCKET COUNT, with the run's token on its input\n"
        program = [sys.executable, SCRIPTS[0], "serve", "a.sock", "1"]
        ended = subprocess.run(program, cwd=self.place, input=b"", capture_output=True)
        self.assertEqual((1, b"", usage.encode()), (ended.returncode, ended.stdout, ended.stderr))
        self.assertEqual([], os.listdir(self.place))

    def test_each_starts(self):
        """Each starts, over a socket that was left, keeps its file in its folder, and ends with its input."""
        for number, script in enumerate(SCRIPTS):
            runs = os.path.join(self.place, "runs")
            os.makedirs(runs, exist_ok=True)
            left = socket.socket(socket.AF_UNIX)
            self.addCleanup(left.close)
            left.bind(os.path.join(runs, f"run-{number}.sock"))
            program = self.start([script], run=number)
            self.assertEqual(200, program.ask(ADA, "GET /me").status)
            self.assertEqual(["data.db", "data.db-shm", "data.db-wal"], sorted(os.listdir(program.folder)))
            self.ends(program)

    def test_killed(self):
        """What was answered outlasts a program that is killed."""
        program = self.start([SCRIPTS[0]])
        sent = {"title": "a", "text": "b"}
        self.play(program, [Ask("added", ADA, "POST /notes", sent, 200, {"number": 1, "version": 1})])
        program.process.kill()
        self.assertEqual(-signal.SIGKILL, program.end()[0])
        program = self.start([SCRIPTS[0]])
        self.assertEqual(["a"], [one["title"] for one in json.loads(program.ask(ADA, "GET /notes").body)["notes"]])
        self.ends(program)

    def test_visitors(self):
        """Whoever leaves in between harms nobody, and nothing but that is complained about."""
        program = self.start([SCRIPTS[0]])
        for data in (b"", b"GET /no", b"GET / HTTP/1.1\r\n\r\n", b"POST /notes HTTP/1.1\r\nContent-Length: 9\r\n\r\n1"):
            with socket.socket(socket.AF_UNIX) as visitor:
                visitor.connect(program.socket)
                visitor.sendall(data)
        self.play(program, ROUTES)
        status, _, complaints = program.end()
        others = [line for line in complaints.splitlines() if not line.startswith(b"a connection broke: ")]
        self.assertEqual((0, []), (status, others))

    def test_failing(self):
        """An action that fails is answered as that, told on standard error, and leaves the others."""
        program = self.start([SCRIPTS[0]])
        os.remove(os.path.join(program.folder, "data.db"))
        os.mkdir(os.path.join(program.folder, "data.db"))
        failed = {"error": "The program failed at this; its log says how."}
        self.play(program, [Ask("no file", ADA, "GET /notes", None, 500, failed), ROUTES[0]])
        status, _, complaints = program.end()
        self.assertEqual((0, 1), (status, complaints.count(b"sqlite3.OperationalError: unable to open database file")))


class Fronts(Tests):

    def test_page(self):
        """The page comes with a policy that lets its own script and style run; whoever may do nothing gets none."""
        for module in (notes, polls, files):
            with self.subTest(module.__name__):
                got = module.APPLICATION.answer(Request("GET", "/?a=b", GUEST.lines(), b""))
                self.assertEqual((200, "text/html; charset=utf-8"), (got.status, got.kind))
                page = got.body.decode()
                for part in ("script", "style"):
                    text = re.search(f"<{part}>(.*?)</{part}>", page, re.DOTALL)[1]
                    digest = base64.b64encode(hashlib.sha256(text.encode()).digest()).decode()
                    self.assertIn(f"{part}-src 'sha256-{digest}'", page)
                got = module.APPLICATION.answer(Request("GET", "/", STRANGER.lines(), b""))
                expected = 403, "text/plain; charset=utf-8", b"You may do nothing here any more.\n"
                self.assertEqual(expected, (got.status, got.kind, got.body))

    def test_known_digest(self):
        """The digest of the example in the definition of such policies."""
        path = os.path.join(self.place, "page.html")
        with open(path, "w") as file:
            file.write("'DIGEST-OF-SCRIPT'<style></style><script>alert('Hello, world.');</script>")
        self.assertIn("'sha256-qznLcsROx4GACP2dm0UCKCzCG+HiZ1guq6ZZDob/Tng='", grain_app.page_of(path))


class Shapes(unittest.TestCase):

    def test_texts(self):
        for shape, text, expected in TEXTS:
            with self.subTest(text):
                try:
                    found = shape.taken("word", text)
                except grain_app.Refusal as refusal:
                    self.assertEqual(400, refusal.status)
                    found = refusal.fields["error"]
                self.assertEqual(expected, found)

    def test_requests(self):
        """What a program takes from the lines of the server; a query may be anything."""
        head = {"X-Sandstorm-Permissions": "", "X-Sandstorm-Username": "Anonymous%20User"}
        request = Request("GET", "/a%20b?x=%C3%A9&y&x=%ff&&=", head, b"")
        self.assertEqual(("/a%20b", {"x": "\udcff", "y": "", "": ""}), (request.path, request.query))
        self.assertEqual(("Anonymous User", "", []), (request.name, request.user, request.permissions))

    def test_answers(self):
        self.assertEqual('{"a": "é?"}'.encode(), Answer({"a": "é\ud800"}).body)
        answer = Answer(b"\xff")
        found = answer.body, answer.kind, answer.status, answer.lines
        self.assertEqual((b"\xff", "application/json", 200, []), found)


if __name__ == "__main__":
    unittest.main()

"""tools/confine, where bwrap may make its namespaces: what a confined program sees and reaches, how its socket gets to
its place, how it acts for its grain, and that all of it ends."""
import importlib.machinery
import json
import os
import re
import shutil
import signal
import socket
import subprocess
import sys
import types
import unittest

from support import APPS, PATIENCE, TOKEN, Ask, Now, Program, Server, Tests, Who, until

TOP = os.path.dirname(APPS)
CONFINE = os.path.join(TOP, "tools", "confine")
ADA = Who("Ada Holm", "aaaa", "view,edit")

# A program that tells what it sees, and tries what it is asked to.
PROBE = """#!/usr/bin/env python3
import os
import socket
import sys

HERE = os.path.dirname(os.path.realpath(__file__))
sys.path.insert(0, os.path.dirname(HERE))
from grain_app import Application, main


def tried(work):
    try:
        return str(work())
    except OSError as error:
        return type(error).__name__


def seen(request, file):
    processes = sorted(int(name) for name in os.listdir("/proc") if name.isdigit())
    names = {path: sorted(os.listdir(path)) for path in ("/", "/etc", "/run", "/run/grain", "/tmp", "/grain")}
    return {"environment": dict(os.environ), "names": names, "processes": processes, "words": sys.argv,
            "folder": os.getcwd(), "session": os.getsid(0)}


def write(path):
    with open(path, "w") as file:
        return file.write("a")


def connect(path):
    with socket.socket(socket.AF_UNIX) as one:
        return one.connect(path)


def call(place):
    host, _, port = place.rpartition(":")
    return socket.create_connection((host, int(port)), 1)


def listen(path):
    os.unlink(path)
    with socket.socket(socket.AF_UNIX) as one:
        return one.bind(path)


def read(path):
    with open(path) as file:
        return file.read(20)


def fill(path):
    with open(path, "wb") as file:
        return [file.write(bytes(1 << 20)) for _ in range(65)]


def each(request, file):
    return [tried(lambda: globals()[name](path)) for name, path in request.query.items()]


def ask(request, file):
    return APPLICATION.ask("POST", "/claim", {"token": "a", "permissions": []})


APPLICATION = Application([], os.path.join(HERE, "page.html"), {
    ("GET", "/seen"): ("look", seen),
    ("GET", "/try"): ("look", each),
    ("GET", "/ask"): ("look", ask),
})
main(APPLICATION)
"""
LOOKER = Who("Ada Holm", "aaaa", "look")
# Programs of the shell that do otherwise, where $2 is the path of the socket that they are to make.
OTHERWISE = [
    ("a link in the place of its socket", 'ln -s OTHER "$2"; echo ready', b"",
     b"confine: what the program made isn't a socket\n", 1),
    ("a file in the place of its socket", ': > "$2"; echo ready', b"",
     b"confine: what the program made isn't a socket\n", 1),
    ("no socket", "echo ready", b"", b"confine: [Errno 2] No such file or directory: "
     b"'SOCKET.private-X/own/grain.sock' -> 'SOCKET.private-X/found'\n", 1),
    ("another word", ': > "$2"; echo steady', b"steady\n", b"", 0),
    ("a status", "echo no >&2; exit 7", b"", b"no\n", 7),
    ("a signal", "kill -9 $$", b"", b"", 137),
]


def can_confine():
    """Whether bwrap may do here what it is asked to."""
    words = ["bwrap", "--unshare-user", "--disable-userns", "--unshare-pid", "--unshare-net", "--ro-bind", "/", "/",
             "--size", "4096", "--tmpfs", "/tmp", "true"]
    return shutil.which("bwrap") is not None and subprocess.run(words, capture_output=True).returncode == 0


class Confined(Tests):

    def setUp(self):
        super().setUp()
        self.runs = os.path.join(self.place, "runs")
        os.makedirs(self.runs)
        self.addCleanup(self.all_ended)

    def all_ended(self):
        until("the end of all that was confined", lambda: self.left() == [])

    def left(self):
        """The processes in whose words or folder the place of this test is."""
        found = []
        for number in filter(str.isdigit, os.listdir("/proc")):
            try:
                # (one that has ended, and waits for its parent to know, has no words)
                with open(f"/proc/{number}/cmdline", "rb") as file:
                    words = file.read()
            except OSError:
                continue
            if self.place.encode() in words:
                found.append(int(number))
        return found

    def written(self, name, text):
        """An executable file in a folder of the place."""
        path = os.path.join(self.place, name)
        os.makedirs(os.path.dirname(path), exist_ok=True)
        with open(path, "w") as file:
            file.write(text)
        os.chmod(path, 0o755)
        return path

    def probe(self, **how):
        """The program that tells what it sees, confined, with the module that it needs beside its folder."""
        path = self.written("apps/probe/probe.py", PROBE)
        self.written("apps/probe/page.html", "<style></style><script></script>")
        shutil.copy(os.path.join(APPS, "grain_app.py"), os.path.join(self.place, "apps"))
        return self.start([CONFINE, path], **how)

    def tried(self, program, *tries):
        """Tries of a kind and a path, each with what is expected of it."""
        query = "&".join(f"{kind}={path}" for kind, path, _ in tries)
        self.play(program, [Ask(query, LOOKER, f"GET /try?{query}", None, 200, [expected for _, _, expected in tries])])

    def private(self):
        """The folders that are shared with programs, without what is drawn in their names."""
        return [re.sub(r"-\w+$", "-", name) for name in os.listdir(self.runs) if "private" in name]

    def nothing_left(self):
        self.all_ended()
        self.assertEqual([], self.private())


@unittest.skipUnless(can_confine(), "bwrap isn't there, or may not make its namespaces here")
class Inside(Confined):

    def test_notebook(self):
        """The notebook, from a file of two lines, with a poll that it gets over the socket for the server."""
        summary = {"question": "When?", "options": [], "closed": False}
        server = Server()
        self.addCleanup(server.end)
        server.chosen["chosen"] = lambda method, path: (200, json.dumps(summary).encode())
        script = os.path.join(APPS, "notes", "notes.py")
        path = self.written("apps/1", f'#!/bin/sh\nexec "{CONFINE}" "{script}" "$@"\n')
        program = self.start([path], server=server.place)
        self.play(program, [
            Ask("a note", ADA, "POST /notes", {"title": "a", "text": "b"}, 200, {"number": 1, "version": 1}),
            Ask("a poll", ADA, "POST /polls", {"token": "chosen"}, 200, {"number": 1}),
        ])
        self.assertEqual(("POST /claim", {"token": "chosen", "permissions": [True]}), server.asked[0])
        self.ends(program)
        self.nothing_left()
        program = self.start([path])
        note = {"number": 1, "title": "a", "text": "b", "version": 1, "writer": "Ada Holm", "moment": Now()}
        self.play(program, [Ask("it is kept", ADA, "GET /notes", None, 200, {"change": 1, "notes": [note]})])
        self.ends(program)
        self.nothing_left()

    def test_sees(self):
        """All that a program sees: names, processes, its environment and words, and a session that begins inside."""
        program = self.probe(server="127.0.0.1:9", more={"SECRET": "told to nobody"})
        found = json.loads(program.ask(LOOKER, "GET /seen").body)
        names = found.pop("names")
        root = {"bin", "dev", "etc", "grain", "lib", "proc", "run", "tmp", "usr"}
        others = {"sbin", "lib32", "lib64", "libx32", self.place.split("/")[1], sys.base_prefix.split("/")[1]}
        self.assertEqual(set(), set(names["/"]) - root - others)
        self.assertEqual(set(), set(names["/etc"]) - {"alternatives", "ld.so.cache", "localtime"})
        self.assertEqual({"data.db", "data.db-shm", "data.db-wal"}, set(names["/grain"]))
        self.assertEqual((["grain", "server.sock"], ["grain.sock"]), (names["/run"], names["/run/grain"]))
        within = self.place.split("/")[2:3] if self.place.startswith("/tmp/") else []
        self.assertEqual(within, names["/tmp"])
        path = os.path.join(self.place, "apps", "probe", "probe.py")
        environment = {"PATH": "/usr/bin:/bin", "LANG": "C.UTF-8", "HOME": "/grain", "PWD": "/grain",
                       "LUMBYTE_SERVER": "/run/server.sock"}
        self.assertEqual({"environment": environment, "processes": [1, 2], "folder": "/grain", "session": 1,
                          "words": [path, "grain", "/run/grain/grain.sock", "1000000000"]}, found)
        self.ends(program)

    def test_reaches(self):
        """What it reaches of what is outside: nothing of others, no network, and of its own code no change."""
        other = os.path.join(self.runs, "run-2.sock")
        with socket.socket(socket.AF_UNIX) as listener, socket.create_server(("127.0.0.1", 0)) as port:
            listener.bind(other)
            listener.listen()
            secret = self.written("club.db", "rows")
            program = self.probe()
            code = os.path.join(self.place, "apps")
            self.tried(
                program, ("connect", other, "FileNotFoundError"), ("read", secret, "FileNotFoundError"),
                ("call", f"127.0.0.1:{port.getsockname()[1]}", "ConnectionRefusedError"))
            self.tried(program, ("read", f"{code}/grain_app.py", '"""What the applicat'),
                       ("write", f"{code}/grain_app.py", "OSError"))
            for path, expected in [
                (f"{code}/probe/probe.py", "OSError"), (f"{code}/probe/new", "OSError"), ("/usr/new", "OSError"),
                ("/new", "OSError"), ("/etc/new", "OSError"), ("/dev/shm/new", "OSError"), ("/run/new", "OSError"),
                (f"{self.place}/new", "1"), ("/grain/new", "1"), ("/tmp/new", "1"), ("new", "1"),
            ]:
                self.tried(program, ("write", path, expected))
            self.tried(program, ("fill", "/tmp/large", "OSError"))
            # What a program does to its socket afterwards changes nothing at the path that the server connects to.
            self.tried(program, ("listen", "/run/grain/grain.sock", "None"))
            self.tried(program, ("write", "/run/grain/new", "1"))
            self.assertEqual(["apps", "club.db", "grains", "runs"], sorted(os.listdir(self.place)))
            self.assertIn("new", os.listdir(program.folder))
            self.ends(program)

    def test_acts(self):
        """It asks the server for its grain by a path, which ends where the server is gone."""
        server = Server()
        program = self.probe(server=server.place)
        unknown = [401, {"error": "UnknownKey", "of": []}]
        many = [Ask("asked", LOOKER, "GET /ask", None, 200, unknown)] * 20
        self.play(program, many)
        self.assertEqual(20 * [("POST /claim", {"token": "a", "permissions": []})], server.asked)
        server.end()
        got = program.ask(LOOKER, "GET /ask")
        self.assertEqual((424, "The server gave no answer"), (got.status, json.loads(got.body)["error"].split(":")[0]))
        self.ends(program)

    def test_otherwise(self):
        """Programs that don't keep to how they are to start get no socket at the path, and their status is told."""
        other, started = os.path.join(self.place, "run-9.sock"), []
        listener = socket.socket(socket.AF_UNIX)
        self.addCleanup(listener.close)
        listener.bind(other)
        listener.listen()
        for number, (name, text, out, complaint, status) in enumerate(OTHERWISE):
            path = self.written(f"code-{number}/act", f"#!/bin/sh\n{text.replace('OTHER', other)}\n")
            program = Program([CONFINE, path], self.place, run=number)
            self.addCleanup(program.end)
            complaint = complaint.replace(b"SOCKET", program.socket.encode())
            started.append((name, program, (out, complaint, status)))
        for name, program, expected in started:
            with self.subTest(name):
                out, complaint = program.process.stdout.read(), program.process.stderr.read()
                complaint = re.sub(rb"private-\w+", b"private-X", complaint)
                self.assertEqual(expected, (out, complaint, program.process.wait(PATIENCE)))
        self.assertEqual([], os.listdir(self.runs))

    def test_no_python(self):
        """A program of another kind is run as it is."""
        path = self.written("code/act", '#!/bin/sh\nread token; echo "$token $1 $2 $HOME"; cat\n')
        program = Program([CONFINE, path], self.place)
        self.addCleanup(program.end)
        said = program.process.stdout.readline().decode()
        self.assertEqual(f"{TOKEN} grain /run/grain/grain.sock /grain\n", said)
        self.ends(program)

    def test_ends(self):
        """However it ends, all that it began ends too."""
        ends = "sleep 600 & read token; echo $token; read more"
        goes_on = "read token; echo $token; while :; do sleep 600; done"
        for name, text, end, status, is_cleared in [
            ("its input, and by itself", ends, Program.end_input, 1, True),
            ("its input, but not by itself", goes_on, Program.end_input, 137, True),
            ("asked to end", goes_on, lambda program: program.process.terminate(), 128 + signal.SIGTERM, True),
            ("killed", goes_on, lambda program: program.process.kill(), -signal.SIGKILL, False),
        ]:
            with self.subTest(name):
                path = self.written("code/act", f"#!/bin/sh\n{text}\n")
                program = Program([CONFINE, path], self.place)
                self.addCleanup(program.end)
                self.assertEqual(f"{TOKEN}\n".encode(), program.process.stdout.readline())
                self.assertGreater(len(self.left()), 2)
                end(program)
                self.assertEqual(status, program.process.wait(PATIENCE))
                self.all_ended()
                self.assertEqual([] if is_cleared else ["run-1.sock.private-"], self.private())
        self.start([CONFINE, os.path.join(APPS, "notes", "notes.py")])
        until("the end of what a killed one left", lambda: self.private() == ["run-1.sock.private-"])

    def test_left_in_folder(self):
        """What a program leaves in its folder is no part of the script that confines it the next time."""
        escaped, version = os.path.join(self.place, "escaped"), f"python{sys.version_info[0]}.{sys.version_info[1]}"
        site = f"grains/1/.local/lib/{version}/site-packages"
        for name in (f"{site}/left.pth", f"{site}/usercustomize.py", "grains/1/glob.py", "grains/1/sitecustomize.py"):
            self.written(name, f"import os; os.getpid() > 9 and open({escaped!r}, 'w').close()\n")
        program = self.start([CONFINE, os.path.join(APPS, "notes", "notes.py")])
        self.ends(program)
        self.assertFalse(os.path.exists(escaped))

    def test_too_much_seen(self):
        """A program in a folder in which other grains' folders are isn't run."""
        path = self.written("act", "#!/usr/bin/env python3\n")
        program = Program([CONFINE, path], self.place)
        sentence = f"{self.place} would be seen by {path}, and what other grains have is in there"
        self.assertEqual((1, b"", f"confine: {sentence}\n".encode()), program.end())
        self.nothing_left()


class Without(Confined):
    """Where bwrap isn't there, or fails, nothing runs."""

    def ended(self, path, *words, server=""):
        made, folder = os.path.join(self.place, "made"), os.path.join(self.place, "grains", "1")
        os.makedirs(folder)
        program = self.written("code/act", f"#!/bin/sh\ntouch '{made}'\n")
        ended = subprocess.run([sys.executable, CONFINE, *([program, *words] if words else [])], cwd=folder,
                               env={"PATH": path, "LUMBYTE_SERVER": server}, stdin=subprocess.DEVNULL,
                               capture_output=True)
        self.assertFalse(os.path.exists(made))
        return ended.returncode, ended.stdout, ended.stderr

    def test_no_bwrap(self):
        said = b"confine: bwrap isn't there (Debian's package bubblewrap), and nothing runs without it\n"
        path = os.path.join(self.runs, "run-1.sock")
        self.assertEqual((1, b"", said), self.ended(self.place, "grain", path, "1"))

    def test_bwrap_fails(self):
        self.written("bin/bwrap", "#!/bin/sh\necho 'bwrap: no permission' >&2\nexit 1\n")
        path = os.path.join(self.runs, "run-1.sock")
        found = self.ended(os.path.join(self.place, "bin") + ":/bin", "grain", path, "1")
        self.assertEqual((1, b"", b"bwrap: no permission\n"), found)
        self.nothing_left()

    def test_server_in_usr(self):
        """Where the server's files are in /usr, all of which is seen, nothing runs either."""
        name, words = "/usr/share/club.db", {"count": "1", "has_server": False}
        confine = types.ModuleType("confine")
        importlib.machinery.SourceFileLoader("confine", CONFINE).exec_module(confine)
        script = os.path.join(APPS, "notes", "notes.py")
        for place, private in ((f"{name}.grains/1", "/run/private"), ("/run/1", f"{name}.runs/run-1.sock.private")):
            with self.assertRaises(SystemExit) as caught:
                confine.words_of(script, place, private, **words)
            sentence = f"confine: /usr would be seen by {script}, and what other grains have is in there"
            self.assertEqual(sentence, caught.exception.code)
        self.assertIn("--bind", confine.words_of(script, "/run/1", "/run/private", **words))

    def test_server_is_no_place(self):
        self.written("bin/bwrap", "#!/bin/sh\nexec touch made\n")
        said = b"confine: invalid literal for int() with base 10: 'there'\n"
        path = os.path.join(self.runs, "run-1.sock")
        found = self.ended(os.path.join(self.place, "bin") + ":/bin", "grain", path, "1", server="here:there")
        self.assertEqual((1, b"", said), found)
        self.assertEqual([], os.listdir(os.path.join(self.place, "grains", "1")))
        self.nothing_left()

    def test_words(self):
        usage = 1, b"", b"confine: usage: confine PROGRAM grain SOCKET COUNT\n"
        self.assertEqual(usage, self.ended("/bin", "serve", "a", "1"))


if __name__ == "__main__":
    unittest.main()

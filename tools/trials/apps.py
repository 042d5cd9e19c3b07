"""The three applications of apps/, put in place as an operator would and walked through by two accounts, with a server that is killed in between."""
import json
import os
import re
import shlex
import shutil
import signal
import subprocess
import time

from served import Late, Port, children_of, exchange, request_text, until, words_of
from trials.app_rows import (
    AFTER_A_KILL, APPS, BEN_CHOOSES, CONFINED, EMBEDDING, FILES, NOTES, POLL, REVOKING, SETTING_UP, STOPPING, Fetched, Page, Soon,
)
from trials.talk import Talk

NAMES = ["notes", "polls", "files"]
PARTS = {
    "notes": NOTES, "a poll": POLL, "a poll beneath notes": EMBEDDING, "another's choice": BEN_CHOOSES, "files": FILES, "taken back": REVOKING,
}
CONFINE = os.path.join(os.path.dirname(APPS), "tools", "confine")
# What shows whether bwrap may be used here, as tools/confine uses it.
CONFINES = [
    "bwrap", "--unshare-user", "--disable-userns", "--unshare-pid", "--unshare-net",
    "--ro-bind", "/", "/", "--proc", "/proc", "--dev", "/dev", "true",
]
# What a page has in the places of the digests that its program puts in.
DIGEST = re.compile(r"sha256-[A-Za-z0-9+/]{43}=|DIGEST-OF-[A-Z]+")
# How many seconds lie between two looks at what comes soon.
PAUSE = 0.1


def program_of(name):
    return os.path.join(APPS, name, f"{name}.py")


def page_of(name):
    """The page of an application as it stands in its file."""
    with open(os.path.join(APPS, name, "page.html"), encoding="utf-8") as file:
        return DIGEST.sub("DIGEST", file.read())


def parts_of(answer):
    """The head of an answer as lines, but for a length that is right, and its body."""
    head, _, body = answer.partition(b"\r\n\r\n")
    status, *lines = head.decode(errors="replace").split("\r\n")
    named = [f"{name.lower()}: {value}" for name, _, value in (line.partition(": ") for line in lines)]
    return "\n".join([*status.split()[1:2], *sorted(line for line in named if line != f"content-length: {len(body)}")]), body


class Walk(Talk):
    """Rows over a server whose grains are applications of apps/."""

    def __init__(self, tally, server):
        super().__init__(tally, server)
        self.began = int(time.time())
        self.first_login()

    def told(self, row):
        """What comes back of a request."""
        method, _, where = row.request.partition(" ")
        host, slash, target = self.secrets.filled(where).partition("/")
        token = self.secrets.filled(f"${row.who}") if row.who else ""
        body = self.secrets.filled(row.body) if isinstance(row.body, str) else row.body
        return parts_of(exchange(self.server.port, request_text(method, f"{host}.localhost:{self.server.port}", slash + target, token, body)))

    def as_json(self, text):
        """A JSON text in one form, with moments of the walk as "now"; any other text as Python writes it."""
        try:
            return json.dumps(json.loads(text, object_hook=self.with_moment), ensure_ascii=False, sort_keys=True)
        except ValueError:
            return repr(text)

    def with_moment(self, fields):
        if type(fields.get("moment")) is int and self.began <= fields["moment"] <= time.time():
            fields["moment"] = "now"
        return fields

    def json_told(self, row):
        head, body = self.told(row)
        return f"{head}\n{self.as_json(body.decode(errors='replace'))}"

    def json_expected(self, row):
        return f"{row.status}\ncontent-type: application/json\n{self.as_json(row.answer)}"

    def answered(self, row, lines=()):
        """A row of a request."""
        name = f"{row.name}: {row.request}"
        if isinstance(row, Page):
            head, body = self.told(row)
            expected = f"{row.status}\ncontent-type: text/html; charset=utf-8", page_of(row.answer)
            self.tally.same(name, expected, (head, DIGEST.sub("DIGEST", body.decode(errors="replace"))))
        elif isinstance(row, Fetched):
            disposition, content = row.answer
            head = f"{row.status}\ncontent-disposition: {disposition}\ncontent-type: application/octet-stream"
            self.tally.same(name, (head, content), self.told(row))
        else:
            if isinstance(row, Soon):
                self.wait_for(row)
            self.fits(name, self.json_expected(row), self.json_told(row))

    def wait_for(self, row):
        """Asks until the answer is the expected one; where it never is, the row tells what it is."""
        try:
            until(row.name, lambda: self.secrets.learn(self.json_expected(row), self.json_told(row)) or time.sleep(PAUSE))
        except Late:
            pass


def install(server):
    """Puts the three programs in place, by links."""
    os.mkdir(f"{server.folder}/{server.file}.apps")
    for number, name in enumerate(NAMES, 1):
        os.symlink(program_of(name), f"{server.folder}/{server.file}.apps/{number}")


def apps(bench):
    folder, port = bench.place.make("apps"), Port()
    walk = Walk(bench.tally, bench.serve(folder, port, 1000000))
    install(walk.server)
    walk.play(SETTING_UP)
    for part, rows in PARTS.items():
        bench.tally.title = f"apps: {part}"
        walk.play(rows)
    bench.tally.title = "apps: after a kill"
    kill(bench, walk.server)
    walk.server = bench.serve(folder, port, 1000000)
    walk.play(AFTER_A_KILL)
    bench.tally.title = "apps: confined"
    confined(bench, walk)
    kill(bench, walk.server)


def kill(bench, server):
    bench.same("the server is killed", -signal.SIGKILL, server.stop())
    until("the end of its grains' programs", lambda: not bench.place.left())


def confined(bench, walk):
    """The notes' program is put in place by tools/confine, where that can be; its grain is the same."""
    if not can_confine():
        print("apps: left out: a program that tools/confine runs, since bwrap (of Debian's bubblewrap) isn't here or can't be used", flush=True)
        return
    walk.play([STOPPING])
    place = f"{walk.server.folder}/{walk.server.file}.apps/1"
    with open(f"{place}.new", "w") as file:
        file.write(f'#!/bin/sh\nexec {shlex.quote(CONFINE)} {shlex.quote(program_of("notes"))} "$@"\n')
    os.chmod(f"{place}.new", 0o755)
    os.replace(f"{place}.new", place)
    walk.play(CONFINED)
    below = [one for child in children_of(walk.server.number) for one in children_of(child)]
    bench.same("bwrap runs it", 1, sum(words_of(one)[:1] == ["bwrap"] for one in below))
    walk.play([STOPPING])
    bench.same("nothing of it is left beside its socket", [], [name for name in os.listdir(walk.server.runs()) if not name.endswith(".sock")])


def can_confine():
    if not shutil.which("bwrap"):
        return False
    return subprocess.run(CONFINES, stdin=subprocess.DEVNULL, capture_output=True).returncode == 0

"""The pages of apps/ in a browser: what is typed and clicked there, what the server has then, and how they look."""
import os
import re
import shutil
import subprocess
import time

from served import Late, Port, until
from trials import page_rows as rows
from trials.apps import Walk, install, kill
from trials.browser import Browser, BrowserFault, missing

PARTS = {"notes": rows.NOTES, "a poll": rows.POLL, "files": rows.FILES, "a reader": rows.READER}
# How many bytes a picture may have.
LARGEST = 100000
# How many seconds lie between two looks at a page.
PAUSE = 0.1


class Visit:
    """Rows in a browser, and of the server beside it."""

    def __init__(self, bench, walk, browser, folder):
        self.bench, self.walk, self.browser, self.folder = bench, walk, browser, folder

    def play(self, part):
        for row in part:
            act = self.ACTS.get(type(row))
            if act:
                act(self, row)
            else:
                self.walk.play([row])

    def soon(self, name, expected, look):
        """A row whose value is soon the expected one."""
        try:
            until(name, lambda: look() == expected or time.sleep(PAUSE))
        except Late:
            pass
        self.bench.same(name, expected, look())

    def does(self, row, act, *values):
        """A row that is done, which nothing may lie over."""
        try:
            act(*values)
            self.bench.same(row.name, "done", "done")
        except BrowserFault as fault:
            self.bench.same(row.name, "done", str(fault))

    def opens(self, row):
        key = self.walk.secrets.known[row.key]
        self.browser.open(f"http://ui-{key}.localhost:{self.walk.server.port}/")
        self.soon(row.name, [row.title], lambda: [self.browser.run("return document.title")])

    def clicks(self, row):
        self.does(row, self.browser.click, row.where)

    def types(self, row):
        self.does(row, self.browser.type, row.where, self.walk.secrets.filled(row.text))

    def chooses(self, row):
        path = os.path.join(self.browser.folder, row.file)
        with open(path, "wb") as file:
            file.write(row.content)
        self.does(row, self.browser.type, row.where, path)

    def sees(self, row):
        self.soon(f"{row.name}: {row.where}", row.texts, lambda: self.browser.texts(row.where))

    def shows(self, row):
        self.browser.show_as(row.width, row.height, row.is_phone)
        self.soon(f"{row.name}: its width", row.width, self.browser.width)

    def pictures(self, row):
        seen = self.browser.texts("main")
        self.browser.reload()
        self.soon(f"{row.name}: the page as it was", seen, lambda: self.browser.texts("main"))
        self.browser.element(row.where)
        until(f"{row.name}: a page that is still", self.browser.is_still)
        self.keep_picture(row.name)

    def keep_picture(self, name):
        path = os.path.join(self.folder, f"{name}.png")
        with open(path, "wb") as file:
            file.write(self.browser.picture())
        make_small(path)
        self.bench.same(f"{name}: a picture that isn't large", True, os.path.getsize(path) < LARGEST)

    def complains(self, row):
        self.bench.same(row.name, row.texts, sorted({re.sub(r"^https?://[^/ ]*", "", text) for text in self.browser.complaints()}))

    ACTS = {
        rows.Opens: opens, rows.Clicks: clicks, rows.Types: types, rows.Chooses: chooses, rows.Sees: sees, rows.Shows: shows, rows.Pictures: pictures,
        rows.Complains: complains,
    }


def make_small(path):
    """Gives a picture fewer colours, where there is a command for that."""
    if shutil.which("pngquant"):
        subprocess.run(["pngquant", "--force", "--skip-if-larger", "--strip", "--output", path, "64", path], stdin=subprocess.DEVNULL)


def pages_in(folder):
    """The trial, with a folder for its pictures."""
    def pages(bench):
        if missing():
            bench.same("what it needs (apt-get install chromium chromium-driver)", [], missing())
            return
        os.makedirs(folder, exist_ok=True)
        walk = Walk(bench.tally, bench.serve(bench.place.make("pages"), Port(), 1000000))
        install(walk.server)
        walk.play(rows.ACCOUNTS + rows.CONTENT)
        with Browser(bench.place.make("browser")) as browser:
            for part, steps in PARTS.items():
                bench.tally.title = f"pages: {part}"
                Visit(bench, walk, browser, folder).play(steps)
        kill(bench, walk.server)

    return pages

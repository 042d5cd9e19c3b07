"""The desk's page in two browsers, of a server by itself, and of one behind nginx by the configuration of docs/proxy."""
import os
import signal

from served import Port, until
from trials import desk_rows as rows
from trials.apps import Walk, install, kill
from trials.browser import Browser, missing
from trials.pages import Visit
from trials.proxies import DOMAIN, Nginx

# The browser finds all names of the domain at this machine.
FOUND_HERE = f"--host-resolver-rules=MAP *.{DOMAIN} 127.0.0.1"


class DeskVisit(Visit):
    """Rows in a browser with the desk's page, and with the tabs that are opened there."""

    def __init__(self, bench, walk, browser, folder, address):
        super().__init__(bench, walk, browser, folder)
        self.address = address

    def play(self, part):
        for row in part:
            self.ACTS[type(row)](self, row)

    def comes(self, row):
        self.browser.open(self.address)
        self.soon(row.name, row.title, lambda: self.browser.run("return document.title"))

    def presses(self, row):
        for key in row.keys:
            self.does(row, self.browser.press, key)

    def reads(self, row):
        until(row.name, lambda: self.browser.texts(row.where))
        self.walk.secrets.known[row.known] = self.browser.texts(row.where)[0]

    def follows(self, row):
        until(row.name, lambda: len(self.browser.tabs()) > 1)
        self.browser.turn_to(self.browser.tabs()[-1])
        self.soon(row.name, row.title, lambda: self.browser.run("return document.title"))

    def returns(self, _):
        self.browser.turn_to(self.browser.tabs()[0])

    def reloads(self, _):
        self.browser.reload()

    def darkens(self, row):
        self.browser.set_dark(row.is_dark)

    def pictures(self, row):
        """A picture of the page as it is now: it isn't opened anew, since a dialog may be open."""
        self.browser.element(row.where)
        until(f"{row.name}: a page that is still", self.browser.is_still)
        self.keep_picture(row.name)

    ACTS = {
        **Visit.ACTS, rows.Comes: comes, rows.Presses: presses, rows.Reads: reads, rows.Follows: follows, rows.Returns: returns, rows.Reloads: reloads,
        rows.Darkens: darkens, rows.Pictures: pictures,
    }


def started(bench, name, **how):
    """A server with applications, and who has what at first, in a folder of this name."""
    server = bench.serve(bench.place.make(name), Port(), 1000000, **how)
    walk = Walk(bench.tally, server)
    install(server)
    walk.play(rows.BEGINNING)
    return server, walk


def visited(bench, walk, folder, address, *words):
    """Who does what at an address, each in a browser of their own; pictures come into the folder."""
    os.makedirs(folder, exist_ok=True)
    name = bench.tally.title
    with Browser(bench.place.make(f"{name}_ada"), *words) as ada, Browser(bench.place.make(f"{name}_ben"), *words) as ben:
        browsers = {"ada": ada, "ben": ben}
        for who, part, steps in rows.PARTS:
            bench.tally.title = f"{name}: {part}"
            DeskVisit(bench, walk, browsers[who], folder, address).play(steps)


def is_lacking(bench):
    """Whether there is no browser, which is a row that failed."""
    if missing():
        bench.same("what it needs (apt-get install chromium chromium-driver)", [], missing())
    return bool(missing())


def by_itself(bench):
    """The page of a server that nothing stands in front of, at a name that browsers take for this machine."""
    if is_lacking(bench):
        return
    server, walk = started(bench, "alone")
    visited(bench, walk, bench.place.make("alone_pictures"), f"http://desk.localhost:{server.port}/")
    kill(bench, server)


def behind_nginx(folder):
    """The trial of one behind nginx, with a folder for its pictures."""
    def desk(bench):
        if is_lacking(bench):
            return
        server, walk = started(bench, "desk", tunnels=(Port(), 1000000))
        proxy = Nginx(bench.place.make("proxy"), Port(), server)
        visited(bench, walk, folder, f"https://desk.{DOMAIN}:{proxy.port}/", FOUND_HERE)
        bench.same("the proxy ends in order", 0, proxy.stop(signal.SIGTERM))
        kill(bench, server)

    return desk

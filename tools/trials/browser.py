"""A browser that is started here, and is told over WebDriver what to do. Debian's chromium and chromium-driver; nothing else is needed."""
import base64
import contextlib
import http.client
import json
import os
import re
import shutil

from served import PATIENCE, Started, until

COMMANDS = ("chromium", "chromedriver")
# It runs without a window, and without a sandbox of its own, which it refuses to root; it opens the pages of apps/ alone.
WORDS = [
    "--headless=new", "--no-sandbox", "--disable-gpu", "--disable-dev-shm-usage", "--hide-scrollbars", "--no-first-run", "--disable-breakpad",
    "--disable-background-networking", "--disable-component-update",
]
# How many milliseconds an element is waited for that isn't there yet.
WAITING = 5000
# The name under which WebDriver tells the number of an element.
ELEMENT = "element-6066-11e4-a52e-4f735466cecf"
# The texts of what is seen of some elements.
TEXTS = "return [...document.querySelectorAll(arguments[0])].filter(one => one.getClientRects().length).map(one => one.innerText)"
WIDTH = "return document.documentElement.scrollWidth"
TO_THE_MIDDLE = "arguments[0].scrollIntoView({block: 'center', behavior: 'instant'})"


class BrowserFault(Exception):
    """The browser couldn't do what it was told."""


def missing():
    """The commands of a browser that aren't here."""
    return [command for command in COMMANDS if not shutil.which(command)]


class Browser:
    """A browser without a window, and all that it keeps in a folder."""

    def __init__(self, folder, *words):
        self.folder = folder
        kept = [f"{name}={folder}" for name in ("HOME", "TMPDIR", "XDG_CONFIG_HOME", "XDG_CACHE_HOME", "XDG_RUNTIME_DIR")]
        self.driver = Started("env", [*kept, "chromedriver", "--port=0"], folder)
        self.port = int(until("a port of chromedriver", lambda: re.search(rb"successfully on port (\d+)", self.driver.printed()))[1])
        options = {"args": [*WORDS, *words, f"--user-data-dir={os.path.join(folder, 'profile')}"]}
        wanted = {"browserName": "chrome", "goog:chromeOptions": options, "goog:loggingPrefs": {"browser": "ALL"}}
        # (a certificate that is made for a trial is nobody's)
        wanted["acceptInsecureCerts"] = True
        self.session = ""
        self.session = self.call("POST", "", {"capabilities": {"alwaysMatch": wanted}})["sessionId"]
        self.call("POST", "/timeouts", {"implicit": WAITING})
        self.emulate("LocaleOverride", locale="en-GB")

    def __enter__(self):
        return self

    def __exit__(self, *_):
        with contextlib.suppress(BrowserFault, OSError):
            self.call("DELETE", "")
        self.driver.stop()

    def call(self, method, path, fields=None):
        """What the driver answers to a command."""
        connection = http.client.HTTPConnection("127.0.0.1", self.port, timeout=3 * PATIENCE)
        with contextlib.closing(connection):
            target = f"/session/{self.session}{path}" if self.session else "/session"
            connection.request(method, target, None if fields is None else json.dumps(fields))
            answer = connection.getresponse()
            value = json.loads(answer.read())["value"]
        if answer.status != 200:
            raise BrowserFault(f"{method} {path}: {value['error']}: {value['message'].splitlines()[0]}")
        return value

    def emulate(self, what, **values):
        """Has the browser pass for another one."""
        self.call("POST", "/goog/cdp/execute", {"cmd": f"Emulation.set{what}", "params": values})

    def open(self, address):
        """Opens a page, and waits until it is there."""
        self.call("POST", "/url", {"url": address})

    def run(self, script, *values):
        """What a script gives that is run in the page."""
        return self.call("POST", "/execute/sync", {"script": script, "args": values})

    def element(self, where):
        """The first element that a selector finds, which is scrolled to as somebody would who has to see it."""
        element = self.call("POST", "/element", {"using": "css selector", "value": where})
        self.run(TO_THE_MIDDLE, element)
        return f"/element/{element[ELEMENT]}"

    def click(self, where):
        """Clicks into the middle of an element, as far as nothing lies over it."""
        self.call("POST", f"{self.element(where)}/click", {})

    def type(self, where, text):
        """Types a text; into an element that takes a file, its path."""
        self.call("POST", f"{self.element(where)}/value", {"text": text})

    def tabs(self):
        """The tabs that are open, in the order in which they were opened."""
        return self.call("GET", "/window/handles")

    def turn_to(self, tab):
        self.call("POST", "/window", {"handle": tab})

    def press(self, key):
        """Presses a key, wherever the focus is."""
        actions = [{"type": "keyDown", "value": key}, {"type": "keyUp", "value": key}]
        self.call("POST", "/actions", {"actions": [{"type": "key", "id": "keys", "actions": actions}]})

    def set_dark(self, is_dark):
        """Shows the page from now on as to somebody who has chosen dark colours, or light ones."""
        self.emulate("EmulatedMedia", features=[{"name": "prefers-color-scheme", "value": "dark" if is_dark else "light"}])

    def reload(self):
        """Opens the page once more."""
        self.call("POST", "/refresh", {})

    def is_still(self):
        """Whether nothing in the page moves."""
        return self.run("return document.getAnimations().length === 0")

    def texts(self, where):
        """The texts that are seen of all elements that a selector finds."""
        return self.run(TEXTS, where)

    def complaints(self):
        """What the browser has complained of since the last look."""
        return [entry["message"] for entry in self.call("POST", "/se/log", {"type": "browser"})]

    def show_as(self, width, height, is_phone):
        """Shows the page from now on as on a screen of that many points."""
        self.emulate("DeviceMetricsOverride", width=width, height=height, deviceScaleFactor=1, mobile=is_phone)

    def width(self):
        """How wide the page is, with what one would have to scroll to."""
        return self.run(WIDTH)

    def picture(self):
        """The page as it is seen, as a PNG."""
        return base64.b64decode(self.call("GET", "/screenshot"))

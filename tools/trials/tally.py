"""Counts rows: those that came out as they should, and those that didn't, which are printed."""
import re

# How many characters of a value are shown, from a little before the first one that differs.
SHOWN, BEFORE = 500, 60
SECRET = re.compile(r"\$([a-z]\w*)")


def shown(value, at):
    text = value if isinstance(value, str) else repr(value)
    begin = max(0, at - BEFORE)
    cut = text[begin : begin + SHOWN]
    return ("..." if begin else "") + cut + ("..." if begin + SHOWN < len(text) else "")


def first_difference(one, other):
    one, other = (it if isinstance(it, str) else repr(it) for it in (one, other))
    return next((at for at, (a, b) in enumerate(zip(one, other)) if a != b), min(len(one), len(other)))


class Tally:
    """The rows of all trials."""

    def __init__(self):
        self.passed = self.failed = 0
        self.title = ""

    def same(self, name, expected, actual):
        """A row whose value has to be exactly the expected one."""
        if type(expected) is type(actual) and expected == actual:
            self.passed += 1
        else:
            self.differs(name, expected, actual)

    def differs(self, name, expected, actual):
        self.failed += 1
        at = first_difference(expected, actual)
        print(f"DIFFERS: {self.title}: {name}\n  expected: {shown(expected, at)}\n  actual:   {shown(actual, at)}", flush=True)


class Secrets:
    """The secrets that a server has handed out, by the names under which the rows know them: $ada, $key_of_ben."""

    def __init__(self):
        self.known = {}

    def filled(self, text):
        """A text with the known secrets in the place of their names."""
        return SECRET.sub(lambda found: self.known.get(found[1], found[0]), text)

    def length(self, text):
        """How many bytes a text has once its secrets stand in it."""
        return len(SECRET.sub(lambda found: "x" * (32 if found[1].startswith("key") else 43), text).encode())

    def learn(self, expected, actual):
        """Whether a text is the expected one, in which names that aren't known yet stand for secrets that were never seen before."""
        pattern, end = "", 0
        filled = self.filled(expected)
        for found in SECRET.finditer(filled):
            form = "[0-9a-f]{32}" if found[1].startswith("key") else "[A-Za-z0-9_-]{43}"
            pattern += re.escape(filled[end : found.start()]) + f"(?P<{found[1]}>{form})"
            end = found.end()
        fits = re.fullmatch(pattern + re.escape(filled[end:]), actual, re.S)
        if not fits or any(value in self.known.values() for value in fits.groupdict().values()):
            return False
        self.known.update(fits.groupdict())
        return True

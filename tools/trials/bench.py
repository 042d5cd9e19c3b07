"""Where the program is tried."""
import os
import re
import signal
import sys
import tempfile
import time
import traceback

from served import PATIENCE, PAUSE, Server, Started, Workplace, end_in_order, exchange, words_of
from trials.talk import Talk
from trials.tally import Tally

# What a server says on standard error, a line a second.
TELLING = re.compile(r"^lumbyte:( [a-z_]+=\d+){14}\n", re.MULTILINE)


class Bench:
    """The program, the folder in which it is tried, and the count of rows."""

    def __init__(self, program, place, tally):
        self.program, self.place, self.tally = program, place, tally
        self.same = tally.same

    def serve(self, folder, port, count, **how):
        """A server that takes connections."""
        server = Server(how.pop("program", self.program), folder, port, count, **how)
        if server.has_ended():
            raise ChildProcessError(f"the server ended at once, with {self.end_of(server)!r}")
        return server

    def talk(self, folder, port, count, **how):
        """A server on a new file, whose first login is known then."""
        talk = Talk(self.tally, self.serve(folder, port, count, **how))
        talk.first_login()
        return talk

    def start(self, words, folder, given=b"", **how):
        """The program with these words and this input."""
        with tempfile.TemporaryFile() as file:
            file.write(given)
            file.seek(0)
            return Started(self.program, words, folder, given=file, **how)

    def result(self, words, folder, given=b""):
        """How the program ends with these words and this input."""
        return self.end_of(self.start(words, folder, given))

    def end_of(self, started):
        """How something ends that was started: its status, and what it printed."""
        text = f"status {started.status()}: {started.printed().decode(errors='backslashreplace')}"
        complaints = TELLING.sub("", started.complaints().decode(errors="replace"))
        return f"{text} (on standard error: {complaints})" if complaints else text

    def ends(self, talk, answered, has_login=True):
        """The last connection of a server, on which nothing is asked: it ends, with so many requests answered."""
        exchange(talk.server.port, b"")
        login = talk.secrets.filled("login $first\n") if has_login else ""
        self.same("it ends in order", f"status 0: {login}served {answered}\n", self.end_of(talk.server))
        self.same("no socket is left", [], sorted(os.listdir(talk.server.runs())))
        self.same("no program is left", [], self.left())

    def left(self):
        """The words of the processes that are left."""
        return sorted(" ".join(words_of(process)) for process in self.place.left())

    def left_at_last(self):
        """The words of the processes that don't end by themselves: the programs of a server that was killed end a moment behind it."""
        end = time.monotonic() + PATIENCE
        while (words := self.left()) and time.monotonic() < end:
            time.sleep(PAUSE)
        return words

    def play(self, title, trial):
        """Plays the rows of a trial, which leaves no process; one that breaks off is a row that failed."""
        began, counted = time.monotonic(), self.tally.passed + self.tally.failed
        self.tally.title = title
        try:
            trial(self)
        except Exception as error:
            frames = traceback.extract_tb(error.__traceback__)
            at = [frame for frame in frames if f"/trials/{trial.__module__.rpartition('.')[2]}.py" in frame.filename][-1]
            self.tally.differs("the trial broke off", f"no error at: {at.line}", f"{type(error).__name__}: {error}")
        self.same("no process is left", [], self.left_at_last())
        self.place.clear()
        print(f"{title}: {self.tally.passed + self.tally.failed - counted} rows, {time.monotonic() - began:.1f} s", flush=True)


class TooLong(BaseException):
    """All of it took too long."""


def stop_late(*_):
    raise TooLong


def play_all(name, program, trials, limit):
    """Plays trials, by their titles, in a folder that is made for them and for so many seconds at the most. Prints what came of it, and gives the
    status to end with."""
    if not os.path.isfile(program) or not os.access(program, os.X_OK):
        print(f"{name}: {program} isn't there, or can't be run\n0 passed, 1 failed")
        return 2
    sys.stdout.reconfigure(errors="backslashreplace")
    end_in_order()
    signal.signal(signal.SIGALRM, stop_late)
    signal.alarm(limit)
    tally, began = Tally(), time.monotonic()
    with Workplace(name) as place:
        try:
            for title, trial in trials.items():
                Bench(program, place, tally).play(title, trial)
        except TooLong:
            tally.differs("all trials", f"an end within {limit} seconds", "none")
        signal.alarm(0)
    print(f"tried in {time.monotonic() - began:.0f} s")
    print(f"{tally.passed} passed, {tally.failed} failed")
    return 1 if tally.failed or not tally.passed else 0

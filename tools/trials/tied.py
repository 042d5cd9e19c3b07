"""Ends in order: the programs of grains end with their server, however that ends, and tools/supervise ends a server by a signal."""
import os
import signal
import subprocess

from served import Port, Started, children_of, end_process, listeners_on, until, words_of
from trials.rows import ADMIN, A_GRAIN
from trials.talk import Ask, Runs, Talk, asked, count_of

SUPERVISE = os.path.join(os.path.dirname(os.path.dirname(os.path.abspath(__file__))), "supervise")
OPENED = [
    Ask("it is opened", "first", "POST desk/grains/1/open", "{}", 200, '{"key":"$key","session":1}'),
    Runs("its program runs", ["run 1"], ["run-1.sock"]),
    Ask("it is asked", "", "GET ui-$key/", None, 200, asked("GET /", ADMIN, "view,edit", 1)),
]
ROWS = [*A_GRAIN, *OPENED]


def server_of(supervisor):
    """The process of the server that a supervisor runs, or None."""
    return next((child for child in children_of(supervisor.number) if words_of(child)[1:2] == ["serve"]), None)


class Supervised(Started):
    """A server that tools/supervise runs, on a file of a folder."""

    def __init__(self, program, folder, port, seconds):
        self.folder, self.port, self.held = folder, port.number, port
        super().__init__(SUPERVISE, ["-t", str(seconds), program, "serve", "club.db", str(self.port), "1000000"], folder)
        until(f"a server on port {self.port}", lambda: self.has_ended() or (listeners_on(self.port) and b"\n" in self.printed()))

    def runs(self):
        return os.path.join(self.folder, "club.db.runs")


def tied(bench):
    for number, by in enumerate((signal.SIGTERM, signal.SIGINT)):
        supervised(bench, f"in-order-{number}", by)
    killed(bench)
    supervisor_killed(bench)
    stubborn(bench)
    grain_alone(bench)


def supervised(bench, name, by):
    """A signal to the supervisor ends the server and its grains, with its last line printed."""
    folder, port = bench.place.make(name), Port()
    started = Supervised(bench.program, folder, port, 10)
    talk = Talk(bench.tally, started)
    talk.first_login()
    server = server_of(started)
    rows = [row for row in ROWS if not isinstance(row, Runs)]
    talk.play(rows)
    bench.same("its grain's program runs", 1, len(children_of(server)))
    started.process.send_signal(by)
    expected = talk.secrets.filled(f"status 0: login $first\nserved {count_of(rows)}\n")
    bench.same(f"{by.name} ends it in order", expected, f"status {started.status()}: {started.printed().decode()}")
    bench.same("no socket is left", [], os.listdir(started.runs()))
    until("the end of the supervisor's watch", lambda: not bench.left())


def killed(bench):
    """A server that is killed leaves no program of a grain behind."""
    folder, port = bench.place.make("killed"), Port()
    talk = bench.talk(folder, port, 1000000)
    talk.play(ROWS)
    bench.same("it is killed", -signal.SIGKILL, talk.server.stop())
    until("the end of its grain's program", lambda: not bench.left())
    bench.same("its socket is left", ["run-1.sock"], os.listdir(talk.server.runs()))


def supervisor_killed(bench):
    """A server whose supervisor is killed ends in order."""
    folder, port = bench.place.make("supervisor"), Port()
    started = Supervised(bench.program, folder, port, 10)
    talk = Talk(bench.tally, started)
    talk.first_login()
    talk.play([row for row in ROWS if not isinstance(row, Runs)])
    bench.same("the supervisor is killed", -signal.SIGKILL, started.stop())
    until("the end of the server", lambda: not bench.left())
    bench.same("it has said how many requests it answered", True, b"\nserved " in started.printed())
    bench.same("no socket is left", [], os.listdir(started.runs()))


def stubborn(bench):
    """A program that doesn't end with its input is killed, and a program that ends by itself keeps its status."""
    folder = bench.place.make("stubborn")
    started = Started(SUPERVISE, ["-t", "1", "sleep", "600"], folder)
    until("the program", lambda: children_of(started.number))
    until("its pipe", lambda: any("sleep" in word for child in children_of(started.number) for word in words_of(child)))
    started.process.send_signal(signal.SIGTERM)
    bench.same("a stubborn program is killed", 128 + signal.SIGKILL, started.status())
    bench.same("a status is kept", 3, Started(SUPERVISE, ["sh", "-c", "exit 3"], folder).status())
    bench.same("no program: usage", 2, Started(SUPERVISE, [], folder).status())


def grain_alone(bench):
    """A grain's program ends with its input where that is a pipe, and goes on where it is none."""
    folder = bench.place.make("grain")
    for name, given, ends in (("a pipe", subprocess.PIPE, True), ("no pipe", subprocess.DEVNULL, False)):
        grain = Started(bench.program, ["grain", f"{ends}.sock", "1"], folder, given=given)
        until("a grain that is ready", lambda: grain.printed() or grain.has_ended())
        bench.same(f"it goes on: {name}", False, grain.has_ended())
        if ends:
            grain.process.stdin.close()
            bench.same("it ends with its input", 0, grain.status())
        else:
            end_process(grain.number)

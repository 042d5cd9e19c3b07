"""Where the sockets of grains' programs are, and two servers side by side."""
import os

from served import Port, sockets_in
from trials.rows import ADMIN, A_GRAIN
from trials.talk import Ask, Runs, asked, count_of

STARTS = [
    Ask("it is opened", "first", "POST desk/grains/1/open", "{}", 200, '{"key":"$key","session":1}'),
    Runs("its program runs", ["run 1"], ["run-1.sock"]),
    Ask("it is asked", "", "GET ui-$key/", None, 200, asked("GET /", ADMIN, "view,edit", 1)),
]
FAILS = [
    Ask("no run starts", "first", "POST desk/grains/1/open", "{}", 502, '{"error":"StartFailed","of":[]}'),
    Runs("no program runs", [], []),
]
# How many bytes a socket's path may have, and how many of them follow the name of the file of rows.
MOST, BEHIND = 107, len(".runs/run-1.sock")


def names(folder):
    """The names of files in a folder, and what becomes of a server's grains on each."""
    longest = MOST - BEHIND - len(os.path.join(folder, ""))
    return [
        ("a name with a blank, a quote and other letters", 'the "böok" of runs.db', STARTS),
        ("a path as long as may be", longest * "a", STARTS),
        ("a path of one byte more", (longest + 1) * "a", FAILS),
    ]


def folders(bench):
    folder = bench.place.make("folders")
    for name, file, rows in names(folder):
        bench.tally.title = f"folders: {name}"
        talk = bench.talk(folder, Port(), count_of(A_GRAIN, rows) + 1, file=file)
        talk.play(A_GRAIN + rows)
        bench.ends(talk, count_of(A_GRAIN, rows))
    bench.tally.title = "folders"
    in_place(bench, folder)


def in_place(bench, folder):
    """Something stands in the place of the socket, or of its folder, or there is no folder."""
    answered = count_of(A_GRAIN, FAILS, FAILS, FAILS, STARTS)
    talk = bench.talk(folder, Port(), answered + 1)
    talk.play(A_GRAIN)
    runs = talk.server.runs()
    path = os.path.join(runs, "run-1.sock")
    with open(path, "w") as file:
        file.write("kept")
    talk.play(FAILS)
    with open(path) as file:
        bench.same("a file in the place of the socket", "kept", file.read())
    os.unlink(path)
    os.rmdir(runs)
    talk.play(FAILS)
    bench.same("the folder isn't there", False, os.path.exists(runs))
    with open(runs, "w") as file:
        file.write("kept")
    talk.play(FAILS)
    with open(runs) as file:
        bench.same("a file in the place of the folder", "kept", file.read())
    os.unlink(runs)
    os.mkdir(runs)
    talk.play(STARTS)
    bench.ends(talk, answered)


def neighbours(bench):
    """Two servers on one port, and two on one file: the second ends, and the first goes on."""
    folder, port = bench.place.make("neighbours"), Port()
    answered = count_of(A_GRAIN, STARTS)
    talk = bench.talk(folder, port, answered + 1)
    talk.play(A_GRAIN)
    talk.fits("another on the port", "status 4: login $other\n", bench.result(["serve", "other.db", str(port.number), "1"], folder))
    bench.same("its file is whole", "status 0: rows 1 accounts 1 apps 0 grains 0 grants 0 saved 0\n", bench.result(["check", "other.db"], folder))
    talk.play(STARTS[:2])
    bench.same("another on the file", "status 9: ", bench.result(["serve", "club.db", str(Port().number), "1"], folder))
    bench.same("the file judged", "status 9: ", bench.result(["check", "club.db"], folder))
    bench.same("the first's socket stands", ["run-1.sock"], sockets_in(talk.server.runs()))
    talk.play(STARTS[2:])
    bench.ends(talk, answered)
    bench.same("the file after it", "status 0: rows 3 accounts 1 apps 1 grains 1 grants 0 saved 0\n", bench.result(["check", "club.db"], folder))

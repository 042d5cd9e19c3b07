"""The programs of grains: started and stopped by a server, asked over their sockets, and what comes of those that do otherwise."""
import os
import shlex
import shutil
import signal
import socket

from served import PATIENCE, Connection, Port, end_process, is_gone, request_text, until
from trials.rows import ADMIN, A_GRAIN
from trials.talk import Ask, Relayed, Runs, asked, whole_answer

FIRST, SECOND = (asked("GET /", ADMIN, "view,edit", session) for session in (1, 2))

SETTING_OUT = [
    *A_GRAIN,
    Ask("another grain", "first", "POST desk/grains", '{"app":1,"title":"Plans"}', 200, '{"grain":2}'),
]
TWO_RUNS = [
    Ask("a grain that never ran is stopped", "first", "POST desk/grains/1/stop", "{}", 200, "{}"),
    Ask("the first is opened", "first", "POST desk/grains/1/open", "{}", 200, '{"key":"$key_1","session":1}'),
    Ask("the second is opened", "first", "POST desk/grains/2/open", "{}", 200, '{"key":"$key_2","session":2}'),
    Runs("two programs", ["run 1", "run 2"], ["run-1.sock", "run-2.sock"]),
    Ask("the first is asked", "", "GET ui-$key_1/", None, 200, FIRST),
    Ask("the second is asked", "", "GET ui-$key_2/", None, 200, SECOND),
    Ask("the first is stopped", "first", "POST desk/grains/1/stop", "{}", 200, "{}"),
    Runs("one program", ["run 2"], ["run-2.sock"]),
    Ask("the first is asked", "", "GET ui-$key_1/", None, 409, '{"error":"GrainStopped","of":[1]}'),
    Ask("the second is asked", "", "GET ui-$key_2/", None, 200, SECOND),
    Ask("the first is stopped again", "first", "POST desk/grains/1/stop", "{}", 200, "{}"),
    Ask("the first is woken", "first", "POST desk/grains/1/wake", "{}", 200, "{}"),
    Ask("the first is woken again", "first", "POST desk/grains/1/wake", "{}", 200, "{}"),
    Runs("two programs", ["run 2", "run 3"], ["run-2.sock", "run-3.sock"]),
    Ask("the first is asked", "", "GET ui-$key_1/", None, 200, FIRST),
]
# A program that ended by itself, or was ended: the server finds out by asking it, and waits for it where it stops the run.
NO_ANSWER = Ask("it gives no answer", "", "GET ui-$key_1/", None, 502, '{"error":"LinkFailed","of":[]}')
GONE = [
    NO_ANSWER,
    NO_ANSWER,
    Ask("its run counts as live", "first", "POST desk/grains/1/wake", "{}", 200, "{}"),
]
STOP = Ask("it is stopped", "first", "POST desk/grains/1/stop", "{}", 200, "{}")
WAKE = Ask("it is woken", "first", "POST desk/grains/1/wake", "{}", 200, "{}")
ANSWERED = Ask("it is asked", "", "GET ui-$key_1/", None, 200, FIRST)

# What another program answers at a grain's socket, and what the client is answered.
MOST = 4194304
HEAD = "HTTP/1.1 200 OK\r\nContent-Type: text/plain\r\nContent-Length: {}\r\n\r\n"
LONGEST = MOST - len(HEAD.format(MOST))
OTHER_LINES = "HTTP/1.1 404 Not Here\r\nServer: other\r\nContent-Type: text/plain\r\nConnection: close\r\nContent-Length: 2\r\n\r\nno"
ANSWERS = [
    ("an answer of its own", OTHER_LINES, 404, Relayed("no")),
    ("an answer of 4,194,304 bytes", HEAD.format(LONGEST) + LONGEST * "a", 200, Relayed(LONGEST * "a")),
    ("an answer of one byte more", HEAD.format(LONGEST + 1) + (LONGEST + 1) * "a", 502, '{"error":"LongAnswer","of":[4194305]}'),
    ("an answer of 5,000,000 bytes", 5000000 * "a", 502, '{"error":"LongAnswer","of":[4194305]}'),
    ("no byte", "", 502, '{"error":"BadAnswer","of":[0]}'),
    ("no answer", "hello\r\n\r\n", 502, '{"error":"BadAnswer","of":[0]}'),
    ("an answer without a length", "HTTP/1.1 200 OK\r\n\r\nhello", 502, '{"error":"NoLength","of":[]}'),
    ("an answer that is cut short", HEAD.format(5) + "hell", 502, f'{{"error":"BadAnswer","of":[{len(HEAD.format(5)) + 4}]}}'),
    ("an answer that goes on", HEAD.format(5) + "hello you", 502, f'{{"error":"BadAnswer","of":[{len(HEAD.format(5)) + 5}]}}'),
    ("one that leaves", None, 502, '{"error":"LinkFailed","of":[]}'),
]

# What a program does in the place of the server's own: the lines of a shell, where $1, $2 and $3 are the words and $PROGRAM is the program.
FAILING = [
    ("a program without a word", "exit 3"),
    ("a program that says another line", "echo never; exec sleep 600"),
    ("a program that is ready without a socket", "echo ready; exec sleep 600"),
]
FAILS = Ask("no run starts", "first", "POST desk/grains/1/wake", "{}", 502, '{"error":"StartFailed","of":[]}')
OWN_TOKEN = Ask("that is its token", "run", "POST grain/save", '{"handle":9,"label":"a"}', 404, '{"error":"UnknownHandle","of":[9]}')
HANDED = 'head -n 1 > handed; exec "$PROGRAM" "$@"'
TWO_ANSWERS = 'exec "$PROGRAM" grain "$2" 2'


def grains(bench):
    folder, port = bench.place.make("grains"), Port()
    program = shutil.copy(bench.program, os.path.join(folder, "program"))
    talk = bench.talk(folder, port, 1000000, program=program, apart=True)
    server = talk.server
    talk.play(SETTING_OUT + TWO_RUNS)
    many(bench, talk)
    visitors(bench, talk)
    stand_ins(bench, talk)
    end_process(server.program_of(3))
    talk.play([Runs("its program is ended", ["ended", "run 2"], ["run-2.sock", "run-3.sock"]), *GONE])
    talk.play([STOP, Runs("nothing is left of it", ["run 2"], ["run-2.sock"]), WAKE])
    talk.play([Runs("its next run", ["run 2", "run 4"], ["run-2.sock", "run-4.sock"]), ANSWERED, STOP])
    other_programs(bench, talk, program)
    os.killpg(server.number, signal.SIGINT)
    bench.same("it is ended as in a terminal", -signal.SIGINT, server.status())
    until("the end of its grains' programs", lambda: not bench.place.left())


def many(bench, talk):
    """Two hundred requests, each of which is a connection to the grain's program."""
    host = talk.secrets.filled("ui-$key_1")
    with Connection(talk.server.port) as connection:
        echoed = 0
        for number in range(200):
            connection.send(f"GET /{number} HTTP/1.1\r\nHost: {host}\r\n\r\n".encode())
            expected = whole_answer(200, asked(f"GET /{number}", ADMIN, "view,edit", 1, lines=()))
            echoed += connection.read_answer().decode() == expected
    bench.same("requests that are answered", 200, echoed)


def visitors(bench, talk):
    """Clients that leave: of a program, by its socket, and of the server, with an answer under way. The next request is answered each time."""
    path = os.path.join(talk.server.runs(), "run-3.sock")
    large = 1000000 * b"a"
    for data in (b"", b"GET /hel", b"GET / HTTP/1.1\r\n\r\n", b"POST / HTTP/1.1\r\nContent-Length: 1000000\r\n\r\n" + large):
        with Connection(path) as connection:
            connection.send(data)
        talk.play([ANSWERED])
    connection = Connection(talk.server.port)
    connection.send(request_text("POST", talk.secrets.filled("ui-$key_1"), "/", body=large.decode()))
    bench.same("an answer is under way", b"HTTP/1.1 200 OK", connection.take()[:15])
    connection.reset()
    talk.play([ANSWERED])


def stand_ins(bench, talk):
    """No program listens at the socket of a run, and then another one."""
    path = os.path.join(talk.server.runs(), "run-3.sock")
    os.unlink(path)
    talk.play([NO_ANSWER])
    with socket.socket(socket.AF_UNIX) as listener:
        listener.bind(path)
        listener.listen()
        listener.settimeout(PATIENCE)
        for name, answer, status, expected in ANSWERS:
            with Connection(talk.server.port) as client:
                client.send(request_text("GET", talk.secrets.filled("ui-$key_1"), "/"))
                text = answer_one(listener, answer)
                client.say_end()
                bench.same(f"{name}: answered", whole_answer(status, expected), client.read_all().decode())
            bench.same(f"{name}: asked", "" if answer is None else str(FIRST), text)


def answer_one(listener, answer):
    """Reads the text of the next connection and answers it; where there is no answer, leaves without reading it."""
    connection, _ = listener.accept()
    with connection:
        connection.settimeout(PATIENCE)
        text = b""
        while answer is not None and (piece := connection.recv(1 << 16)):
            text += piece
        try:
            connection.sendall((answer or "").encode())
        except OSError:
            # (no more is read than an answer may have)
            pass
        return text.decode()


def other_programs(bench, talk, program):
    """The program's own file is replaced: what the server starts then is a program under the name that Linux gives to a file that is gone."""
    os.unlink(program)
    talk.play([FAILS, Runs("a program that isn't there", ["run 2"], ["run-2.sock"])])
    act = os.path.join(talk.server.folder, "act")
    with open(f"{program} (deleted)", "w") as file:
        file.write(f"#!/bin/sh\nPROGRAM={shlex.quote(bench.program)}\n. {shlex.quote(act)}\n")
    os.chmod(f"{program} (deleted)", 0o755)
    for name, line in FAILING:
        write(act, line)
        talk.play([FAILS, Runs(name, ["run 2"], ["run-2.sock"])])
    write(act, HANDED)
    talk.play([WAKE])
    with open(os.path.join(talk.server.folder_of(1), "handed")) as file:
        talk.fits("a program that reads what it is handed", "$run\n", file.read())
    talk.play([OWN_TOKEN, ANSWERED, STOP])
    write(act, TWO_ANSWERS)
    talk.play([WAKE, ANSWERED, ANSWERED])
    ending = talk.server.program_of(6)
    until("the end of a program after two connections", lambda: ending is None or is_gone(ending))
    talk.play([*GONE, Runs("a program that ended by itself", ["ended", "run 2"], ["run-2.sock", "run-6.sock"]), STOP, WAKE, ANSWERED])


def write(path, text):
    with open(path, "w") as file:
        file.write(text + "\n")

"""A club's server on a file: from no file at all to its end, killed, and on from there."""
import json
import os
import re
import signal

from served import Connection, Port, listeners_on, open_files, request_text, sockets_in, until, words_of
from trials.files import files_of_a_club
from trials.rows import ADA, AFTER_A_KILL, AGAIN, BEGINNING, ENDING, POWERBOX, SHARING
from trials.talk import SENT, Ask, asked, count_of

# Lines that a client writes in the place of the server, and others, and those that pass.
FORGED = [
    "X-Sandstorm-Permissions: view,edit,all", "X-Sandstorm-Username: Admin", "Connection: keep-alive", "X-Other: a", "Cookie: b=c", "Range: bytes=0-1",
    "Accept-Language: en", "Content-Type: text/html", "X-Sandstorm-App-Note: d",
]
PASSED = ["cookie: b=c", "range: bytes=0-1", "accept-language: en", "content-type: text/html", "x-sandstorm-app-note: d"]

# How many orders are sent at once, how many are answered before the server is killed, and what shows that a login is known: there is no such grain.
ORDERS, ANSWERED = 300, 50
KNOWN = ("POST desk/grains/1/open", "{}", 404, '{"error":"Unknown","of":[3,1]}')


def club(bench):
    folder, port = bench.place.make("club"), Port()
    talk = from_nothing(bench, folder, port)
    files_of_a_club(bench, folder, talk.secrets)
    killed(bench, folder, port, talk)
    after_a_kill(bench, folder, port, talk)


def from_nothing(bench, folder, port):
    """A server on a new file, to its end after so many connections."""
    answered = count_of(BEGINNING, SHARING, POWERBOX, ENDING) + 1
    talk = bench.talk(folder, port, answered + 1)
    bench.same("it listens on this machine alone", ["127.0.0.1"], listeners_on(port.number))
    talk.play(BEGINNING)
    forged = Ask("lines of the server's own", "", "GET ui-$key_ada/", None, 200, asked("GET /", ADA, "view,edit", 1, SENT + PASSED))
    talk.answered(forged, FORGED)
    program_of_a_run(bench, talk.server)
    talk.play(SHARING + POWERBOX + ENDING)
    bench.ends(talk, answered)
    return talk


def program_of_a_run(bench, server):
    """A run's program is the server's own, with a socket in the folder beside the file, and holds nothing that the server has open."""
    process = server.program_of(1)
    made = [os.readlink(f"/proc/{one}/exe") for one in (server.number, process)]
    bench.same("a grain's program is this one", made[0], made[1])
    bench.same("its words", ["grain", os.path.join(server.runs(), "run-1.sock"), "1000000000"], words_of(process)[1:])
    bench.same("what it has open", ["anon_inode:[eventpoll]", "pipe", "pipe", "pipe", "socket"], open_files(process))


def killed(bench, folder, port, talk):
    """A server on the same file, which is killed: its grains' programs end, and their sockets are left."""
    talk.server = server = bench.serve(folder, port, 1000000)
    talk.play(AGAIN)
    bench.same("no login is printed", "", server.printed().decode())
    bench.same("it is killed", -signal.SIGKILL, server.stop())
    until("the end of its grains' programs", lambda: not bench.place.left())
    bench.same("their sockets are left", ["run-1.sock", "run-2.sock"], sockets_in(server.runs()))


def after_a_kill(bench, folder, port, talk):
    """A server on that file and port, beside the sockets that were left."""
    answered = count_of(AFTER_A_KILL)
    talk.server = bench.serve(folder, port, answered + 1)
    talk.play(AFTER_A_KILL)
    os.unlink(os.path.join(talk.server.runs(), "run-2.sock"))
    bench.ends(talk, answered, has_login=False)


def killed_at_work(bench):
    """A server that is killed with orders under way: what it answered is kept."""
    folder, port = bench.place.make("work"), Port()
    talk = bench.talk(folder, port, 10)
    answers = answered_until_killed(talk)
    bench.same("orders that were answered", list(range(2, ANSWERED + 2)), [answer["account"] for answer in answers])
    said = bench.result(["check", "club.db"], folder)
    kept = re.fullmatch(r"status 0: rows (\d+) accounts \1 apps 0 grains 0 grants 0 saved 0\n", said)
    bench.same("the file is whole", True, kept is not None)
    bench.same("with all that was answered, and no more than was asked", True, kept is not None and ANSWERED < int(kept[1]) <= ORDERS + 1)
    talk.server = bench.serve(folder, port, ANSWERED + 1)
    talk.secrets.known.update({f"account_{answer['account']}": answer["token"] for answer in answers})
    talk.play([Ask("its login is known", f"account_{answer['account']}", *KNOWN) for answer in answers])
    bench.ends(talk, ANSWERED, has_login=False)


def answered_until_killed(talk):
    """The first answers to many orders in one piece, after which the server is killed."""
    login = talk.secrets.known["first"]
    orders = [request_text("POST", "desk", "/accounts", login, f'{{"handle":"a{number}","name":"A"}}') for number in range(ORDERS)]
    with Connection(talk.server.port) as connection:
        connection.send(b"".join(orders))
        answers = [connection.read_answer() for _ in range(ANSWERED)]
        talk.server.stop()
    return [json.loads(answer.partition(b"\r\n\r\n")[2]) for answer in answers]

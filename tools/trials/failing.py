"""Calls on the file that fail, one at a time or from one on, and a server that is killed under load, again and again."""
import os
import shutil
import signal
import threading
import time

from served import Connection, Port, Server, exchange, request_text
from trials.disk import calls_in, traced
from trials.files import read_rows
from trials.rows import A_GRAIN
from trials.talk import Ask, Talk

# Which calls fail, and how: as those of a disk that breaks, and of one that is full.
FAILURES = (("pwrite64", "ENOSPC"), ("pwrite64", "EIO"), ("fdatasync", "EIO"), ("fsync", "EIO"))
# What is ordered, each with the kind and number of the row that it changes; and what needs no row, before and behind it.
ORDERS = [
    (Ask("an admin", "first", "POST desk/accounts/2/admin", '{"on":true}', 200, "{}"), (1, 2)),
    (Ask("into the trash", "first", "POST desk/grains/1/trash", "{}", 200, "{}"), (3, 1)),
    (Ask("another", "first", "POST desk/grains/3/trash", "{}", 200, "{}"), (3, 3)),
]
WAKE = Ask("a grain is woken", "first", "POST desk/grains/2/wake", "{}", 200, "{}")
LOOK = Ask("what needs no row", "robot", "GET api/notes", None, 200, "GET /notes HTTP/1.1")
BEGINNING = [
    Ask("an account", "first", "POST desk/accounts", '{"handle":"ada","name":"Ada"}', 200, '{"account":2,"token":"$ada"}'),
    *A_GRAIN,
    Ask("another", "first", "POST desk/grains", '{"app":1,"title":"Plans"}', 200, '{"grain":2}'),
    Ask("a third", "first", "POST desk/grains", '{"app":1,"title":"Lists"}', 200, '{"grain":3}'),
    Ask("a token", "first", "POST desk/grains/2/token", '{"assignment":{"base":0}}', 200, '{"grant":1,"token":"$robot"}'),
]
STORE_FAILED = '{"error":"StoreFailed","of":[]}'
# How often the server is killed, after how many more milliseconds each time, and how many clients give orders to it.
KILLS, STEP, MOST, CLIENTS = 200, 7, 150, 4


def club_file(bench, name, orders):
    """A folder with the file of a server that has ended, and the talk by which it was made."""
    folder, port = bench.place.make(name), Port()
    talk = bench.talk(folder, port, len(orders) + 1)
    talk.play(orders)
    exchange(port.number, b"")
    bench.same("it ends", 0, talk.server.status())
    return folder, talk


def failing(bench):
    """Each call on the file and its log fails once, or from then on: an order is answered with 200 and its row is kept, or with StoreFailed, and what
    needs no row is answered as ever; or the server can't begin, and says so. Nothing is lost."""
    folder, talk = club_file(bench, "failing", BEGINNING)
    whole = tried(bench, folder, talk.secrets, "none", "-e trace=pwrite64,fdatasync,fsync")
    bench.same("where none fails", (0, [200] * len(ORDERS), True), whole[:3])
    before, after = read_rows(os.path.join(folder, "club.db")), whole[3]
    for call, error in FAILURES:
        for number in range(1, whole[4].count(call) + 1):
            for more in ("", "+"):
                title = f"{call} number {number}{more and ' and each later one'} fails by {error}"
                options = f"-e trace=pwrite64,fdatasync,fsync -e inject={call}:error={error}:when={number}{more}"
                status, answers, looks, rows, _ = tried(bench, folder, talk.secrets, "some", options)
                bench.same(f"{title}: how it ends", True, (status, answers) == (9, []) or (status == 0 and set(answers) <= {200, 503}))
                bench.same(f"{title}: what needs no row", answers != [], looks)
                bench.same(f"{title}: what is kept", True, has_kept(before, after, answers, rows))


def tried(bench, folder, secrets, name, options):
    """What comes of a server on a copy of a file whose calls are looked at: its status, the statuses of the orders, whether what needs no row was
    answered around them, the rows behind its end, and the names of the calls."""
    work, port = bench.place.make("work"), Port()
    shutil.copytree(folder, work, dirs_exist_ok=True)
    program = traced(bench, work, name, bench.program, options)
    count = len(ORDERS) + 4
    server, answers, looks = Server(program, work, port, count), [], []
    talk = Talk(bench.tally, server)
    talk.secrets = secrets
    try:
        talk.ask(WAKE)
        looks.append(LOOK.answer in talk.ask(LOOK))
        answers += [int(talk.ask(order).split(" ")[1]) for order, _ in ORDERS]
        looks.append(LOOK.answer in talk.ask(LOOK))
        exchange(port.number, b"")
    except ConnectionRefusedError:
        # (it couldn't begin, which its status tells)
        pass
    status = server.status()
    bench.result(["check", "club.db"], work)
    rows, calls = read_rows(os.path.join(work, "club.db")), [call for call, *_ in calls_in(f"{program}.log")]
    shutil.rmtree(work)
    return status, answers, looks != [] and all(looks), rows, calls


def has_kept(before, after, answers, rows):
    """Whether rows are as answers say: changed by each order that was answered with 200, perhaps by one that wasn't, and else as before."""
    done = {row for (_, row), answer in zip(ORDERS, answers) if answer == 200}
    return list(rows) == list(before) and all(body == after[row] or row not in done and body == before[row] for row, body in rows.items())


def kills(bench):
    """A server is killed again and again while several clients move a grain each into the trash and out of it: each is where it was answered, or where
    the order in hand wanted it."""
    grains = [Ask(f"grain {number}", "first", "POST desk/grains", '{"app":1,"title":"A"}', 200, f'{{"grain":{number}}}') for number in range(1, CLIENTS + 1)]
    folder, talk = club_file(bench, "kills", [A_GRAIN[0], *grains])
    login, path = talk.secrets.known["first"], os.path.join(folder, "club.db")
    wrong, answered, rows = [], 0, read_rows(path)
    for number in range(KILLS):
        server = bench.serve(folder, Port(), 1000000)
        movers = [Mover(server.port, login, grain, rows) for grain in range(1, CLIENTS + 1)]
        time.sleep(number * STEP % MOST / 1000)
        server.stop(signal.SIGKILL)
        for mover in movers:
            mover.join()
        said = bench.result(["check", "club.db"], folder)
        rows = read_rows(path)
        answered += sum(mover.answered for mover in movers)
        wrong += [f"{said}, grain {mover.grain} at kill {number}" for mover in movers if not mover.is_right(rows)]
    bench.same(f"grains that are elsewhere, of {answered} answered orders", [], wrong)
    bench.same("orders were answered", True, answered > KILLS)


class Mover(threading.Thread):
    """A client that moves its grain into the trash and out of it until its connection breaks."""

    def __init__(self, port, login, grain, rows):
        super().__init__()
        self.port, self.login, self.grain, self.answered = port, login, grain, 0
        self.trashed = self.wanted = rows[3, grain][-1] == 1
        self.start()

    def run(self):
        try:
            with Connection(self.port) as connection:
                while True:
                    self.wanted = not self.trashed
                    word = "trash" if self.wanted else "untrash"
                    connection.send(request_text("POST", f"desk.localhost:{self.port}", f"/grains/{self.grain}/{word}", self.login, "{}"))
                    if not connection.read_answer().startswith(b"HTTP/1.1 200 "):
                        return
                    self.trashed, self.answered = self.wanted, self.answered + 1
        except OSError:
            pass

    def is_right(self, rows):
        return (rows[3, self.grain][-1] == 1) in (self.trashed, self.wanted)

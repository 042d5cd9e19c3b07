"""Copies of a file that a server is writing, by `tools/backup`: each has all that was answered before it began."""
import os
import re
import subprocess
import sys
import threading

from served import Connection, Port, exchange, request_text
from trials.files import read_rows
from trials.rows import A_GRAIN

BACKUP = os.path.join(os.path.dirname(os.path.dirname(os.path.abspath(__file__))), "backup")
# How many copies are made, and how many clients write meanwhile.
COPIES, CLIENTS = 40, 4
# The kind of the rows that are written.
GRAIN = 3


class Writer(threading.Thread):
    """A client that makes grains until its connection breaks, and knows the last that was answered."""

    def __init__(self, port, login):
        super().__init__()
        self.port, self.login, self.last = port, login, 0
        self.start()

    def run(self):
        try:
            with Connection(self.port) as connection:
                while True:
                    connection.send(request_text("POST", f"desk.localhost:{self.port}", "/grains", self.login, '{"app":1,"title":"A"}'))
                    answer = connection.read_answer()
                    if not answer.startswith(b"HTTP/1.1 200 "):
                        return
                    self.last = int(re.search(rb'"grain":(\d+)', answer)[1])
        except OSError:
            pass


def backed_up(bench, folder, name):
    """The status of a copy of the file, and what is printed of it."""
    ran = subprocess.run([sys.executable, BACKUP, bench.program, "club.db", name], cwd=folder, stdout=subprocess.PIPE, stderr=subprocess.DEVNULL, check=False)
    return ran.returncode, ran.stdout.decode()


def backups(bench):
    """Copies while clients write have each row that was answered before, and all before the last that they have; one over another is refused, and
    a server begins on one."""
    folder, port = bench.place.make("backups"), Port()
    talk = bench.talk(folder, port, 1000000)
    talk.play([A_GRAIN[0]])
    writers = [Writer(port.number, talk.secrets.known["first"]) for _ in range(CLIENTS)]
    wrong, seen = [], []
    for number in range(COPIES):
        before = max(writer.last for writer in writers)
        status, said = backed_up(bench, folder, f"copy{number}")
        rows = sorted(num for kind, num in read_rows(os.path.join(folder, f"copy{number}")) if kind == GRAIN)
        seen.append(len(rows))
        if status != 0 or rows != list(range(1, len(rows) + 1)) or len(rows) < before or f" grains {len(rows)} " not in said:
            wrong.append(f"copy {number}: status {status}, {len(rows)} grains of {before}, {said}")
    bench.same(f"copies that lack something, of {seen[-1]} grains", [], wrong)
    bench.same("it was written meanwhile", True, seen[-1] > seen[0] + COPIES)
    bench.same("a copy over another", (1, ""), backed_up(bench, folder, "copy0"))
    talk.server.stop(9)
    for writer in writers:
        writer.join()
    other = bench.place.make("copied")
    bench.same("a copy behind a kill", 0, backed_up(bench, folder, os.path.join(other, "club.db"))[0])
    again = bench.serve(other, port, 1)
    exchange(port.number, b"")
    bench.same("a server on a copy", "status 0: served 0\n", bench.end_of(again))

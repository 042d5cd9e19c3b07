"""A file of rows that version 0.2.0 wrote: it is read as it is, and its rows stay as they are."""
import contextlib
import os
import re
import sqlite3

from served import Port
from trials.files import COUNTS, NONE, read_rows
from trials.rows import ADA
from trials.talk import Ask, Talk, asked, count_of

# The file as the statements that SQLite makes of it, behind the secrets of it that are known, each on a line of its own.
WRITTEN = os.path.join(os.path.dirname(os.path.abspath(__file__)), "older.sql")
A_SECRET = re.compile(r"^-- (\w+) (\S+)$", re.MULTILINE)
# What is done on it: what was given gives what it gave, and one grant more ends by itself.
GOING_ON = [
    Ask("its owner opens a grain", "ada", "POST desk/grains/1/open", "{}", 200, '{"key":"$key_ada","session":1}'),
    Ask("a token gives what it gave", "robot", "GET api/notes", None, 200, asked("GET /notes", ADA, "view")),
    Ask("a share until the year 2100", "ada", "POST desk/grains/1/share", '{"assignment":{"base":0},"expires":4102444800,"to":1}', 200, '{"grant":9}'),
]
THE_SHARE = (4, 9)
ITS_ROW = f"02 00000001 01 00000002 02 00000001 02 0000 {NONE} {NONE} 0000 00 00 00000000f4865700"


def older(bench):
    """A file of version 0.2.0: judged, served, and what its rows are then."""
    folder, port = bench.place.make("older"), Port()
    with open(WRITTEN, encoding="utf-8") as file:
        text = file.read()
    path = os.path.join(folder, "club.db")
    with contextlib.closing(sqlite3.connect(path)) as database:
        database.executescript(text)
    before = read_rows(path)
    bench.same("what is said of it", COUNTS, bench.result(["check", "club.db"], folder))
    talk = Talk(bench.tally, bench.serve(folder, port, count_of(GOING_ON) + 1))
    talk.secrets.known.update(A_SECRET.findall(text))
    talk.play(GOING_ON)
    bench.ends(talk, count_of(GOING_ON), has_login=False)
    after = read_rows(path)
    bench.same("the row of a share that ends", bytes.fromhex(ITS_ROW).hex(), after.pop(THE_SHARE, b"").hex())
    bench.same("the other rows", before, after)

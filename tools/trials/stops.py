"""Stops of the machine at each call on the file, calls that fail, and kills: what was answered with 200 is in the file."""
import os
import re
import shutil
from typing import NamedTuple

from served import Port, exchange
from trials.disk import CALLS, stops_in, traced
from trials.files import read_rows
from trials.talk import Ask


class Order(NamedTuple):
    """An order that is accepted, and the kind and number of the row that it adds or changes, if there is one."""
    ask: Ask
    row: tuple


NOTES = (
    '{"title":"Notes","version":1,"permissions":[{"name":"view","title":"view"},{"name":"edit","title":"edit"},{"name":"manage","title":"manage"}],'
    '"roles":[{"title":"reader","permissions":[true]},{"title":"writer","permissions":[true,true]}],"matchRequests":[{"tags":[{"id":7}]}]}'
)
POLL = '{"title":"Poll","version":1,"permissions":[{"name":"vote","title":"vote"},{"name":"close","title":"close"}],"roles":[{"title":"voter","permissions":[true],"default":true}]}'

# The rows of the small book, in their order, behind that of account 1, which the server makes with the file.
BOOK = [
    Order(Ask("account 2", "first", "POST desk/accounts", '{"handle":"zoe","name":"Zoë K."}', 200, '{"account":2,"token":"$zoe"}'), (1, 2)),
    Order(Ask("account 3", "first", "POST desk/accounts", '{"handle":"ben","name":"Ben Roy"}', 200, '{"account":3,"token":"$ben"}'), (1, 3)),
    Order(Ask("account 4", "first", "POST desk/accounts", '{"handle":"dan","name":"Dan Ito"}', 200, '{"account":4,"token":"$dan"}'), (1, 4)),
    Order(Ask("application 1", "first", "POST desk/apps", NOTES, 200, '{"app":1}'), (2, 1)),
    Order(Ask("application 2", "first", "POST desk/apps", POLL, 200, '{"app":2}'), (2, 2)),
    Order(Ask("grain 1", "first", "POST desk/grains", '{"app":1,"title":"Minutes"}', 200, '{"grain":1}'), (3, 1)),
    Order(Ask("grain 2", "first", "POST desk/grains", '{"app":2,"title":"Vote"}', 200, '{"grain":2}'), (3, 2)),
    Order(Ask("grant 1", "first", "POST desk/grains/1/share", '{"assignment":{"base":1},"to":2}', 200, '{"grant":1}'), (4, 1)),
    Order(Ask("grant 2", "zoe", "POST desk/grains/1/share", '{"assignment":{"base":"all"},"to":3}', 200, '{"grant":2}'), (4, 2)),
]
SIX = [
    Order(Ask("an admin", "first", "POST desk/accounts/2/admin", '{"on":true}', 200, "{}"), (1, 2)),
    Order(Ask("a share", "first", "POST desk/grains/1/share", '{"assignment":{"base":0},"to":4}', 200, '{"grant":3}'), (4, 3)),
    Order(Ask("a link", "first", "POST desk/grains/1/link", '{"assignment":{"base":"all"}}', 200, '{"grant":4,"token":"$link"}'), (4, 4)),
    Order(Ask("it is redeemed", "dan", "POST desk/redeem", '{"token":"$link"}', 200, '{"grant":5}'), (4, 5)),
    Order(Ask("a revocation", "first", "POST desk/grants/4/revoke", "{}", 200, "{}"), (4, 4)),
    Order(Ask("into the trash", "first", "POST desk/grains/2/trash", "{}", 200, "{}"), (3, 2)),
]
MORE = [
    Order(Ask("a session", "zoe", "POST desk/grains/1/open", "{}", 200, '{"key":"$key_zoe","session":1}'), None),
    Order(Ask("out of it", "first", "POST desk/grains/2/untrash", "{}", 200, "{}"), (3, 2)),
    Order(Ask("a disabled account", "first", "POST desk/accounts/3/enabled", '{"on":false}', 200, "{}"), (1, 3)),
]
ORDERS = [*BOOK, *SIX, *MORE]
# How many states there are at least.
LEAST_STATES = 140


def stops(bench):
    """A server on a new file that makes the ten rows of the small book, carries out six orders and then some, stopped at each of its calls on the file
    and its log, from none on: each file that may be left is whole, and has what was answered by then, or also what was in hand."""
    folder, port = bench.place.make("stops"), Port()
    program = traced(bench, folder, "traced", bench.program, f"-e trace={CALLS}")
    talk = bench.talk(folder, port, len(ORDERS) + 1, program=program)
    talk.play([order.ask for order in ORDERS])
    exchange(port.number, b"")
    bench.same("it ends", 0, talk.server.status())
    states, rows = list(stops_in(f"{program}.log", os.path.join(folder, "club.db"))), {}
    for said, state in states:
        if state not in rows:
            rows[state] = rows_left(bench, state)
    # (the first state behind an answer has what was synced by then, and nothing else)
    answered = [rows[next(state for said, state in states if said == count)] for count in range(len(ORDERS) + 2)]
    bench.same("the rows before the login is printed, and behind it", [[], [(1, 1)]], [list(one) for one in answered[:2]])
    for order, before, after in zip(ORDERS, answered[1:], answered[2:]):
        changed = [row for row in after if before.get(row) != after[row]]
        bench.same(f"{order.ask.name}: the row that it puts", [order.row] if order.row else [], changed)
        bench.same(f"{order.ask.name}: no other is lost", [], [row for row in before if row not in after])
    bench.same("states that are tried, or enough of them", LEAST_STATES, min(len(rows), LEAST_STATES))
    wrong = [(said, list(rows[state])) for said, state in states if rows[state] not in answered[said : said + 2]]
    bench.same("states with other rows than were answered", [], wrong)


def rows_left(bench, state):
    """The rows that are found in a state of a file and its log: the program counts as many as SQLite itself has then."""
    folder = bench.place.make("state")
    for name, content in zip(("club.db", "club.db-wal"), state):
        if content is not None:
            with open(os.path.join(folder, name), "wb") as file:
                file.write(content)
    said = bench.result(["check", "club.db"], folder)
    rows = read_rows(os.path.join(folder, "club.db"))
    shutil.rmtree(folder)
    counted = re.match(r"status 0: rows (\d+) ", said)
    return rows if counted and int(counted[1]) == len(rows) else {"said": said}

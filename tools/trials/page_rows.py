"""Rows of what is done in a browser with the pages of apps/, and of what the server has then.

Elements are named by selectors of CSS. What is asked of the server beside that is as in trials/app_rows.py, with whose accounts and grains it begins.
"""
from typing import NamedTuple

from trials.app_rows import ADA_POLL, SETTING_UP, Fetched, polls
from trials.talk import Ask


class Opens(NamedTuple):
    """The page of a session is opened, and has this title soon."""
    name: str
    key: str
    title: str


class Clicks(NamedTuple):
    """An element is clicked."""
    name: str
    where: str


class Types(NamedTuple):
    """A text is typed into an element."""
    name: str
    where: str
    text: str


class Chooses(NamedTuple):
    """A file of that name and content is chosen in an element."""
    name: str
    where: str
    file: str
    content: bytes


class Sees(NamedTuple):
    """The texts that are soon seen of the elements there."""
    name: str
    where: str
    texts: list


class Shows(NamedTuple):
    """The page is shown as on a screen of that many points, and nothing in it is wider."""
    name: str
    width: int
    height: int
    is_phone: bool


class Pictures(NamedTuple):
    """A picture of the page as it is when it is opened, which is kept under that name, with an element in the middle."""
    name: str
    where: str


class Complains(NamedTuple):
    """What the browser has complained of, each complaint once and without the address of the page."""
    name: str
    texts: list


PHONE, DESK = Shows("on a phone", 390, 844, True), Shows("on a desk", 1000, 800, False)
WELL = Complains("the browser complains of nothing", [])


def both_pictures(name, where):
    return [DESK, Pictures(f"{name}-desk", where), PHONE, Pictures(f"{name}-phone", "h1")]


def share(name, grain, account, role, grant):
    return Ask(name, "ada", f"POST desk/grains/{grain}/share", f'{{"to":{account},"assignment":{{"base":{role}}}}}', 200, f'{{"grant":{grant}}}')


def opened(who, grain, key, session):
    return Ask(f"{who} opens grain {grain}", who, f"POST desk/grains/{grain}/open", "{}", 200, f'{{"key":"${key}","session":{session}}}')


ACCOUNTS = [
    *SETTING_UP,
    Ask("a third account", "first", "POST desk/accounts", '{"handle":"eva","name":"Eva Lind"}', 200, '{"account":4,"token":"$eva"}'),
    Ask("a fourth", "first", "POST desk/accounts", '{"handle":"dan","name":"Dan Roth"}', 200, '{"account":5,"token":"$dan"}'),
    share("Ben writes notes", 1, 3, 1, 1),
    share("Dan reads them", 1, 5, 0, 2),
    *(share(f"account {account} votes", 2, account, 0, account) for account in (3, 4, 5)),
    share("Ben adds files", 3, 3, 1, 6),
    *(opened(who, 1, f"key_{who}_notes", session) for session, who in enumerate(("ada", "ben", "dan"), 1)),
    *(opened(who, 2, f"key_{who}_poll", session) for session, who in enumerate(("ada", "ben", "eva", "dan"), 4)),
    *(opened(who, 3, f"key_{who}_files", session) for session, who in enumerate(("ada", "ben"), 8)),
]

CAKE = "Two sheets of plum cake, and one without nuts for Eva. Who has a large tin to lend?"
ROOM = "The small hall is ours from seven to ten. The key is with Ben; the heating has to be turned on an hour before."
AGENDA = "1. The roof\n2. A new mower, or the old one once more\n3. Who does what at the summer fair\n"


def listed(number, title, text, version, writer):
    """A note as it is listed."""
    text = text.replace("\n", "\\n")
    return f'{{"number":{number},"title":"{title}","text":"{text}","version":{version},"writer":"{writer}","moment":"now"}}'


CAKE_NOTE, ROOM_NOTE = listed(1, "Cake", CAKE, 1, "Ben Ås"), listed(2, "The hall", ROOM, 2, "Ada Holm")
AGENDA_NOTE = listed(3, "Agenda for Friday", AGENDA.strip(), 3, "Ada Holm")
CHANGED_NOTE = listed(3, "Agenda for Friday", f"{AGENDA}4. Cake", 4, "Ada Holm")
FIRST, TITLES = "#notes article:first-child", ["Agenda for Friday", "The hall", "Cake"]


def notes(change, newest):
    """All notes after so many changes."""
    return f'{{"change":{change},"notes":[{newest},{ROOM_NOTE},{CAKE_NOTE}]}}'


def evenings(thursday, friday, other, closed="false"):
    votes = (("Thursday, 3 December", thursday), ("Friday, 4 December", friday), ("Any other week", other))
    options = ",".join(f'{{"text":"{text}","votes":{count}}}' for text, count in votes)
    return f'{{"question":"Which evening suits you?","options":[{options}],"closed":{closed}}}'


def ballot(thursday, friday, other, mine, closed="false"):
    return f'{evenings(thursday, friday, other, closed)[:-1]},"version":1,"mine":{mine}}}'


def votes(who, option, *then):
    return Ask(f"{who} votes", "", f"PUT ui-$key_{who}_poll/vote", f'{{"option":{option},"version":1}}', 200, ballot(*then, option))


QUESTION = '{"question":"Which evening suits you?","options":["Thursday, 3 December","Friday, 4 December","Any other week"],"version":0}'
PLAN, BILL = b"The hall, seen from above\n" * 1800, b"Plums, 12 kg\n"

CONTENT = [
    Ask("a note by Ben", "", "POST ui-$key_ben_notes/notes", f'{{"title":"Cake","text":"{CAKE}"}}', 200, '{"number":1,"version":1}'),
    Ask("a note by Ada", "", "POST ui-$key_ada_notes/notes", f'{{"title":"The hall","text":"{ROOM}"}}', 200, '{"number":2,"version":2}'),
    Ask("a poll", "", "PUT ui-$key_ada_poll/poll", QUESTION, 200, ballot(0, 0, 0, "null")),
    votes("ben", 1, 0, 1, 0),
    votes("eva", 0, 1, 1, 0),
    Ask("it is chosen for the notes", "ada", "POST desk/grains/1/choose", ADA_POLL, 200, '{"grant":7,"token":"$chosen"}'),
    Ask("a file by Ada", "", "POST ui-$key_ada_files/files?name=Plan%20of%20the%20hall.svg", PLAN, 200, '{"number":1}'),
    Ask("a file by Ben", "", "POST ui-$key_ben_files/files?name=Bill%20for%20plums.txt", BILL, 200, '{"number":2}'),
]

NOTES = [
    Opens("Ada's notes", "key_ada_notes", "Notes"),
    PHONE,
    Sees("who she is", "#who", ["Ada Holm, who may read and write"]),
    Sees("the notes", "#notes h3", TITLES[1:]),
    Clicks("a new one", "#new summary"),
    Types("its title", "#new input", "Agenda for Friday"),
    Types("its text", "#new textarea", AGENDA),
    Clicks("it is saved", "#new button.first"),
    Sees("that is said", "#said", ["Added."]),
    Sees("it is there", "#notes h3", TITLES),
    Ask("the server has it", "", "GET ui-$key_ada_notes/notes", None, 200, notes(3, AGENDA_NOTE)),
    Clicks("it is to be changed", f"{FIRST} button"),
    Types("a line more", f"{FIRST} textarea", "\n4. Cake"),
    Clicks("the change is saved", f"{FIRST} button.first"),
    Sees("that is said too", "#said", ["Saved."]),
    Ask("the server has the change", "", "GET ui-$key_ada_notes/notes", None, 200, notes(4, CHANGED_NOTE)),
    Clicks("a poll is to be shown", "#embed summary"),
    Types("its token", "#token", "$chosen"),
    Clicks("it is shown", "#embed button.first"),
    Sees("its question", "#polls h3", ["Which evening suits you?"]),
    Sees("its counts", "#polls b", ["1", "1", "0"]),
    Ask("the server has the poll", "", "GET ui-$key_ben_notes/polls", None, 200, polls((1, evenings(1, 1, 0)))),
    *both_pictures("notes", "#polls"),
    WELL,
]

POLL = [
    Opens("Ada's poll", "key_ada_poll", "Which evening suits you?"),
    DESK,
    Sees("how it stands", "#state", ["2 votes so far."]),
    Sees("no vote of hers", "#vote", ["Vote"]),
    Clicks("an option", "#options label:nth-child(1)"),
    Clicks("her vote", "#vote"),
    Sees("that is said", "#said", ["Your vote is counted."]),
    Ask("the server has it", "", "GET ui-$key_ada_poll/poll", None, 200, ballot(2, 1, 0, 0)),
    Clicks("another option", "#options label:nth-child(2)"),
    Clicks("her vote once more", "#vote"),
    Sees("what she voted for", "#legend", ["You voted for “Friday, 4 December”."]),
    Ask("the server has the other", "", "GET ui-$key_ada_poll/poll", None, 200, ballot(1, 2, 0, 1)),
    votes("dan", 2, 1, 2, 1),
    Sees("another's vote comes by itself", "#options b", ["1", "2", "1"]),
    *both_pictures("polls", "h1"),
    Clicks("what keepers do", "#keeping summary"),
    Clicks("it is closed", "#close"),
    Sees("that is seen", "#state", ["The poll is closed. 4 votes."]),
    Sees("nobody votes now", "#vote, #options input", []),
    Ask("the server has that", "", "GET ui-$key_dan_poll/poll", None, 200, ballot(1, 2, 1, 2, "true")),
    WELL,
]

FILES = [
    Opens("Ada's files", "key_ada_files", "Files"),
    PHONE,
    Sees("the files", "#files a", ["Bill for plums.txt", "Plan of the hall.svg"]),
    Chooses("one more", "#chosen", "Agenda, 4 December.txt", AGENDA.encode()),
    Clicks("it is added", "#adding button.first"),
    Sees("that is said", "#said", ["1 file added."]),
    Sees("it is there", "#files a", ["Agenda, 4 December.txt", "Bill for plums.txt", "Plan of the hall.svg"]),
    Fetched("the server has it", "", "GET ui-$key_ben_files/files/3", None, 200, (
        "attachment; filename=\"Agenda_ 4 December.txt\"; filename*=UTF-8''Agenda%2C%204%20December.txt", AGENDA.encode())),
    *both_pictures("files", "h1"),
    WELL,
]

NO_ACCESS = "You have no access to this document any more."
READER = [
    Opens("Dan's page of the notes", "key_dan_notes", "Notes"),
    DESK,
    Sees("he is a reader", "#who", ["Dan Roth, who may read"]),
    Sees("the notes", "#notes h3", TITLES),
    Sees("the poll's counts", "#polls b", ["1", "2", "1"]),
    Sees("nothing to write with", "#new, #embed, button", []),
    WELL,
    Ask("he is one no more", "ada", "POST desk/grants/2/revoke", "{}", 200, "{}"),
    Sees("he is told", "#said", [NO_ACCESS]),
    Complains("the browser says why", ["/me - Failed to load resource: the server responded with a status of 403 (Forbidden)"]),
]

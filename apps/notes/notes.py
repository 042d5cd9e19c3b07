#!/usr/bin/env python3
"""The program of a notebook: notes, which whoever holds `view` reads and whoever holds `edit` writes, and polls of
other grains beneath them.

A poll is found by asking the server for what matches QUERY, for the notebook's grain N (`/grains/N/query`), and is
chosen there (`/grains/N/choose`). The token that is answered is handed to this program, which claims it, so that each
reader of the notebook sees the poll's counts for as long as whoever chose it may see the poll and the notebook.
"""
import json
import os
import sys
import threading
import time

sys.dont_write_bytecode = True
FOLDER = os.path.dirname(os.path.realpath(__file__))
sys.path.insert(0, os.path.dirname(FOLDER))

from grain_app import Application, Refusal, Text, apart, main, row, rows  # noqa: E402

# What finds polls: the tag's number is the bytes of "poll", its value says that they answer GET /summary, as of 1.
QUERY = [{"tags": [{"id": 1886350444, "value": {"summary": 1}}]}]
TITLE, BODY = Text(200), Text(100000, least=0, lines=True)
# The most that there may be, so that an answer with all notes fits in what the server relays.
MOST_NOTES, MOST_BYTES, MOST_POLLS = 1000, 1500000, 20
# How many seconds what a poll showed counts as new, and how many it is shown for; and how long its summary may be.
FRESH, SHOWN, LONGEST = 3, 15, 65536

TABLES = [
    "CREATE TABLE IF NOT EXISTS changes (number INTEGER NOT NULL)",
    "INSERT INTO changes SELECT 0 WHERE NOT EXISTS (SELECT * FROM changes)",
    """CREATE TABLE IF NOT EXISTS notes (number INTEGER PRIMARY KEY AUTOINCREMENT, title TEXT NOT NULL,
       text TEXT NOT NULL, version INTEGER NOT NULL, writer TEXT NOT NULL, moment INTEGER NOT NULL)""",
    "CREATE TABLE IF NOT EXISTS polls (number INTEGER PRIMARY KEY AUTOINCREMENT, saved TEXT NOT NULL)",
]
NOTES = "SELECT number, title, text, version, writer, moment FROM notes"

# Why a poll that was chosen can't be had, by the server's name for it.
REFUSED = {
    "UnknownKey": "The server doesn't know that token. It has to be pasted whole.",
    "AlreadyClaimed": "That token was used before. Choose the poll again, to get a new one.",
    "NotHolder": "That token was made for another document.",
    "TooMany": "The server keeps no more of these.",
}
LOST = "This poll can't be seen any more: it, or this notebook, was taken back from whoever put it here."
ASLEEP = "This poll's program isn't running. It starts when somebody opens the poll."
FAR = "This poll can't be reached at the moment."
NO_POLL = "What stands behind this doesn't answer as a poll."
WAITING = "This poll is being fetched."
UNFIT = {NO_POLL: "What was chosen isn't a poll.", LOST: "What was chosen gives no right to see the poll."}


# Notes. A change is a number of its own, and the version of a note is the last change of it.

def list_notes(request, file):
    """All notes, the newest first; none are told to a page that has seen the last change."""
    change = row(file, "SELECT number FROM changes")["number"]
    is_seen = request.query.get("seen") == str(change)
    return {"change": change, "notes": None if is_seen else rows(file, f"{NOTES} ORDER BY number DESC")}


def add_note(request, file):
    given = request.fields(title=TITLE, text=BODY)
    version = next_change(file)
    values = given["title"], given["text"], version, request.name, int(time.time())
    added = file.execute("INSERT INTO notes (title, text, version, writer, moment) VALUES (?, ?, ?, ?, ?)", values)
    check_room(file)
    return {"number": added.lastrowid, "version": version}


def change_note(request, file):
    given = request.fields(title=TITLE, text=BODY, version=int)
    note = as_it_was_seen(request, file, given["version"])
    version = next_change(file)
    values = given["title"], given["text"], version, request.name, int(time.time()), note["number"]
    file.execute("UPDATE notes SET title = ?, text = ?, version = ?, writer = ?, moment = ? WHERE number = ?", values)
    check_room(file)
    return {"number": note["number"], "version": version}


def remove_note(request, file):
    note = as_it_was_seen(request, file, request.fields(version=int)["version"])
    next_change(file)
    file.execute("DELETE FROM notes WHERE number = ?", [note["number"]])
    return {}


def as_it_was_seen(request, file, version):
    """The note of the path, if it is as its changer has seen it; else a refusal with what stands there now."""
    note = row(file, f"{NOTES} WHERE number = ?", request.numbers[0])
    if note["version"] != version:
        raise Refusal(409, f"{note['writer']} has changed this note meanwhile.", note=note)
    return note


def next_change(file):
    file.execute("UPDATE changes SET number = number + 1")
    return row(file, "SELECT number FROM changes")["number"]


def check_room(file):
    """Refuses what has just been written where the notebook has got too large by it."""
    sizes = "sum(length(CAST(title AS BLOB)) + length(CAST(text AS BLOB)))"
    found = row(file, f"SELECT count(*) AS notes, {sizes} AS bytes FROM notes")
    if found["notes"] > MOST_NOTES:
        raise Refusal(413, f"The notebook is full: no more than {MOST_NOTES:,} notes fit.")
    if found["bytes"] > MOST_BYTES:
        raise Refusal(413, f"The notebook is full: its notes may have {MOST_BYTES:,} bytes together.")


# Polls of other grains.

class Embedded:
    """The polls as this run of the program sees them: the handles by which it uses them, and what each showed last.

    Whoever reads gets what was seen last, at once, and has all of them looked at soon; the program never keeps a
    reader waiting for another program."""

    def __init__(self):
        self.handles, self.shown, self.next_look = {}, {}, 0
        self.looking, self.adding = threading.Lock(), threading.Lock()

    def show(self, number, shown):
        self.shown[number] = time.monotonic(), shown

    def latest(self, number):
        """What a poll showed last, unless that is so long ago that it may be lost since."""
        moment, shown = self.shown.get(number, (0, None))
        return shown if shown and time.monotonic() - moment < SHOWN else {"sentence": WAITING}

    def look_soon(self):
        if time.monotonic() >= self.next_look and self.looking.acquire(blocking=False):
            threading.Thread(target=self.look_at_all, daemon=True).start()

    def look_at_all(self):
        try:
            with APPLICATION.open(writes=False) as file:
                polls = rows(file, "SELECT number, saved FROM polls")
            for poll in polls:
                self.show(poll["number"], self.look(**poll))
        finally:
            self.next_look = time.monotonic() + FRESH
            self.looking.release()

    def look(self, number, saved):
        """What a poll shows, or why it doesn't; a run that has no handle of it yet restores it."""
        if number not in self.handles:
            try:
                status, answer = APPLICATION.ask("POST", "/restore", {"token": saved})
            except Refusal:
                return {"sentence": FAR}
            if status != 200:
                return {"sentence": LOST if status in (401, 403) else FAR}
            self.handles[number] = answer["handle"]
        return summary_by(self.handles[number])


def summary_by(handle):
    """What the poll of a handle shows, or why it doesn't."""
    try:
        status, data = APPLICATION.ask("GET", f"/use/{handle}/summary")
    except Refusal:
        return {"sentence": FAR}
    if status == 200:
        return summary_from(data) or {"sentence": NO_POLL}
    return {"sentence": {401: LOST, 403: LOST, 404: NO_POLL, 409: ASLEEP}.get(status, FAR)}


def summary_from(data):
    """A poll's question, options and counts, if the bytes are that."""
    try:
        given = json.loads(data) if len(data) <= LONGEST else None
        options = [{"text": str(option["text"]), "votes": int(option["votes"])} for option in given["options"]]
        return {"question": str(given["question"]), "options": options, "closed": given["closed"] is True}
    except (ValueError, TypeError, KeyError, OverflowError, RecursionError):
        return None


def list_polls(request, file):
    polls = rows(file, "SELECT number FROM polls ORDER BY number DESC")
    if polls:
        EMBEDDED.look_soon()
    return {"polls": [poll | EMBEDDED.latest(poll["number"]) for poll in polls], "query": QUERY}


@apart
def add_poll(request, application):
    """Claims what a user chose, sees that it is a poll, if it can be reached, and saves it for later runs."""
    token = request.fields(token=Text(200))["token"]
    # (one at a time, so that no two are the last that fit)
    with EMBEDDED.adding:
        with application.open(writes=False) as file:
            if row(file, "SELECT count(*) AS polls FROM polls")["polls"] >= MOST_POLLS:
                raise Refusal(413, f"There are {MOST_POLLS} polls here, and no more fit.")
        # It gives something for as long as whoever chose it may view this grain.
        handle = granted("/claim", token=token, permissions=[True])["handle"]
        shown = summary_by(handle)
        if shown.get("sentence") in UNFIT:
            raise Refusal(409, UNFIT[shown["sentence"]])
        saved = granted("/save", handle=handle, label="A poll in a notebook")["token"]
        with application.open() as file:
            number = file.execute("INSERT INTO polls (saved) VALUES (?)", [saved]).lastrowid
        EMBEDDED.handles[number] = handle
        EMBEDDED.show(number, shown)
    return {"number": number}


def granted(path, **fields):
    status, answer = APPLICATION.ask("POST", path, fields)
    if status == 200:
        return answer
    raise Refusal(409, REFUSED.get(answer.get("error"), LOST if status == 403 else "The server refused this poll."))


@apart
def remove_poll(request, application):
    """Drops what was saved, and forgets it; where the server says that it isn't there, it is only forgotten."""
    number = request.numbers[0]
    with application.open(writes=False) as file:
        saved = row(file, "SELECT saved FROM polls WHERE number = ?", number)["saved"]
    status, _ = application.ask("POST", "/drop", {"token": saved})
    if status >= 500:
        raise Refusal(424, "The server couldn't do that now. Try it again.")
    with application.open() as file:
        file.execute("DELETE FROM polls WHERE number = ?", [number])
    EMBEDDED.handles.pop(number, None)
    return {}


EMBEDDED = Embedded()
APPLICATION = Application(TABLES, os.path.join(FOLDER, "page.html"), {
    ("GET", "/notes"): ("view", list_notes),
    ("POST", "/notes"): ("edit", add_note),
    ("PUT", "/notes/N"): ("edit", change_note),
    ("DELETE", "/notes/N"): ("edit", remove_note),
    ("GET", "/polls"): ("view", list_polls),
    ("POST", "/polls"): ("edit", add_poll),
    ("DELETE", "/polls/N"): ("edit", remove_poll),
})

if __name__ == "__main__":
    main(APPLICATION)

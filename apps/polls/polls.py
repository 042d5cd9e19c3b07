#!/usr/bin/env python3
"""The program of a poll: a question and its options. Whoever holds `vote` sees them and has one vote, which may be
changed while the poll is open; whoever holds `close` sets them while nobody has voted, and closes and opens the poll.

The poll has a version, which rises when it is set: a vote counts for what its voter has seen, or not at all.
GET /summary is what other grains show of it; the manifest offers it to them by the powerbox.
"""
import os
import sys

sys.dont_write_bytecode = True
FOLDER = os.path.dirname(os.path.realpath(__file__))
sys.path.insert(0, os.path.dirname(FOLDER))

from grain_app import Application, Refusal, Text, main, row, rows  # noqa: E402

QUESTION, OPTION = Text(500), Text(200)
FEWEST, MOST = 2, 20

TABLES = [
    "CREATE TABLE IF NOT EXISTS poll (question TEXT NOT NULL, closed INTEGER NOT NULL, version INTEGER NOT NULL)",
    "INSERT INTO poll SELECT '', 0, 0 WHERE NOT EXISTS (SELECT * FROM poll)",
    "CREATE TABLE IF NOT EXISTS options (place INTEGER PRIMARY KEY, text TEXT NOT NULL)",
    "CREATE TABLE IF NOT EXISTS votes (user TEXT PRIMARY KEY, place INTEGER NOT NULL)",
]


def summary(request, file):
    """What anybody who may see the poll is told, and what other grains show of it."""
    poll = row(file, "SELECT question, closed FROM poll")
    counts = "SELECT text, (SELECT count(*) FROM votes WHERE votes.place = options.place) AS votes FROM options"
    options = rows(file, f"{counts} ORDER BY place")
    return {"question": poll["question"], "options": options, "closed": poll["closed"] == 1}


def show_poll(request, file):
    """The summary, the version, and the option that the caller has voted for, counted from 0."""
    mine = rows(file, "SELECT place FROM votes WHERE user = ?", request.user)
    version = row(file, "SELECT version FROM poll")["version"]
    return {**summary(request, file), "version": version, "mine": mine[0]["place"] if mine else None}


def set_poll(request, file):
    """Sets the question and the options, while nobody has voted."""
    given = request.fields(question=QUESTION, options=list, version=int)
    options = options_from(given["options"])
    check_version(request, file, given["version"])
    if row(file, "SELECT count(*) AS votes FROM votes")["votes"]:
        raise Refusal(409, "Somebody has voted already, so the question stays as it is.")
    file.execute("UPDATE poll SET question = ?, version = version + 1", [given["question"]])
    file.execute("DELETE FROM options")
    file.executemany("INSERT INTO options (place, text) VALUES (?, ?)", enumerate(options))
    return show_poll(request, file)


def options_from(given):
    """The texts of options, which differ."""
    if not all(isinstance(option, str) for option in given):
        raise Refusal(400, "The options have to be texts.")
    options = [OPTION.taken("option", option) for option in given]
    if not FEWEST <= len(options) <= MOST:
        raise Refusal(400, f"A poll has {FEWEST} to {MOST} options.")
    if len(set(options)) != len(options):
        raise Refusal(400, "Two of the options are the same.")
    return options


def check_version(request, file, version):
    """Refuses what was meant for the poll as it was before."""
    now = show_poll(request, file)
    if now["version"] != version:
        raise Refusal(409, "The poll was changed meanwhile.", poll=now)


def vote(request, file):
    """One vote for an account, which takes the place of its earlier one."""
    given = request.fields(option=int, version=int)
    if not request.user:
        raise Refusal(403, "You came by a link, without an account, and so may look but not vote.")
    check_version(request, file, given["version"])
    if row(file, "SELECT closed FROM poll")["closed"]:
        raise Refusal(409, "The poll is closed.")
    if not 0 <= given["option"] < row(file, "SELECT count(*) AS options FROM options")["options"]:
        raise Refusal(400, "The poll has no such option.")
    file.execute("INSERT OR REPLACE INTO votes (user, place) VALUES (?, ?)", [request.user, given["option"]])
    return show_poll(request, file)


def close(request, file):
    """Closes the poll, or opens it again."""
    closed = request.fields(closed=bool)["closed"]
    if not row(file, "SELECT version FROM poll")["version"]:
        raise Refusal(409, "Nothing has been asked yet.")
    file.execute("UPDATE poll SET closed = ?", [closed])
    return show_poll(request, file)


APPLICATION = Application(TABLES, os.path.join(FOLDER, "page.html"), {
    ("GET", "/poll"): ("vote", show_poll),
    ("GET", "/summary"): ("vote", summary),
    ("PUT", "/poll"): ("close", set_poll),
    ("PUT", "/vote"): ("vote", vote),
    ("PUT", "/closed"): ("close", close),
})

if __name__ == "__main__":
    main(APPLICATION)

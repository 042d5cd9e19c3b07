"""The polls: each action and refusal, who may what, two at once, limits, and what outlasts the program."""
import json
import os
import threading
import unittest

from support import APPS, Ask, Tests, Who

import notes
import polls

ADA = Who("Ada Holm", "aaaa", "vote,close")
BEN = Who("Ben de Wit", "bbbb", "vote")
ZOE = Who("Zoë K.", "cccc", "vote")
NOBODY = Who("Anonymous User", "", "vote")
STRANGER = Who("Dan", "dddd", "")

WHEN, DAYS = "When shall we meet?", ["Monday", "Friday", "Sunday"]


def counted(*votes, closed=False):
    """The summary of the poll with so many votes for its options."""
    options = [{"text": text, "votes": count} for text, count in zip(DAYS, votes)]
    return {"question": WHEN, "options": options, "closed": closed}


def shown(*votes, version=1, mine=None, closed=False):
    return {**counted(*votes, closed=closed), "version": version, "mine": mine}


def no(sentence, **more):
    return {"error": sentence, **more}


SET = {"question": f"  {WHEN} ", "options": DAYS, "version": 0}
NOT_VOTE = no("You may not do that: it needs the permission “vote”.")
NOT_CLOSE = no("You may not do that: it needs the permission “close”.")
VOTED = no("Somebody has voted already, so the question stays as it is.")
BY_LINK = no("You came by a link, without an account, and so may look but not vote.")
NOTHING = {"question": "", "options": [], "closed": False}

NEW = [
    Ask("nothing is asked", BEN, "GET /poll", None, 200, {**NOTHING, "version": 0, "mine": None}),
    Ask("and others see that", BEN, "GET /summary", None, 200, NOTHING),
    Ask("nothing to vote for", BEN, "PUT /vote", {"option": 0, "version": 0}, 400, no("The poll has no such option.")),
    Ask("nothing to close", ADA, "PUT /closed", {"closed": True}, 409, no("Nothing has been asked yet.")),
    Ask("a voter doesn't set it", BEN, "PUT /poll", SET, 403, NOT_CLOSE),
    Ask("it is set", ADA, "PUT /poll", SET, 200, shown(0, 0, 0)),
    Ask("it is seen", BEN, "GET /poll", None, 200, shown(0, 0, 0)),
]
VOTING = [
    Ask("Ben votes", BEN, "PUT /vote", {"option": 1, "version": 1}, 200, shown(0, 1, 0, mine=1)),
    Ask("Zoë votes", ZOE, "PUT /vote", {"option": 1, "version": 1}, 200, shown(0, 2, 0, mine=1)),
    Ask("Ben changes his vote", BEN, "PUT /vote", {"option": 2, "version": 1}, 200, shown(0, 1, 1, mine=2)),
    Ask("and votes the same again", BEN, "PUT /vote", {"option": 2, "version": 1}, 200, shown(0, 1, 1, mine=2)),
    Ask("Zoë sees her own", ZOE, "GET /poll", None, 200, shown(0, 1, 1, mine=1)),
    Ask("Ada has none", ADA, "GET /poll", None, 200, shown(0, 1, 1)),
    Ask("whoever comes by a link looks", NOBODY, "GET /poll", None, 200, shown(0, 1, 1)),
    Ask("but doesn't vote", NOBODY, "PUT /vote", {"option": 0, "version": 1}, 403, BY_LINK),
    Ask("others see the counts", NOBODY, "GET /summary", None, 200, counted(0, 1, 1)),
    Ask("it stays as it is", ADA, "PUT /poll", {**SET, "version": 1}, 409, VOTED),
]
CLOSING = [
    Ask("a voter doesn't close it", BEN, "PUT /closed", {"closed": True}, 403, NOT_CLOSE),
    Ask("it is closed", ADA, "PUT /closed", {"closed": True}, 200, shown(0, 1, 1, closed=True)),
    Ask("no more votes", ZOE, "PUT /vote", {"option": 0, "version": 1}, 409, no("The poll is closed.")),
    Ask("others see that", BEN, "GET /summary", None, 200, counted(0, 1, 1, closed=True)),
    Ask("it is opened", ADA, "PUT /closed", {"closed": False}, 200, shown(0, 1, 1)),
    Ask("votes again", ZOE, "PUT /vote", {"option": 0, "version": 1}, 200, shown(1, 0, 1, mine=0)),
]
STRANGERS = [
    Ask("look", STRANGER, "GET /poll", None, 403, NOT_VOTE),
    Ask("the summary", STRANGER, "GET /summary", None, 403, NOT_VOTE),
    Ask("a vote", STRANGER, "PUT /vote", {"option": 0, "version": 0}, 403, NOT_VOTE),
    Ask("with the other permission", STRANGER.may("close"), "GET /summary", None, 403, NOT_VOTE),
]
A_OPTION, A_QUESTION = "The option has to have 1 to 200 characters.", "The question has to have 1 to 500 characters."
SHAPES = [
    ("no question", {"options": DAYS, "version": 0}, 400, no("“question” is missing, or isn't what it should be.")),
    ("an empty question", {**SET, "question": " "}, 400, no(A_QUESTION)),
    ("a long question", {**SET, "question": "q" * 501}, 400, no(A_QUESTION)),
    ("a question in lines", {**SET, "question": "a\nb"}, 400,
     no("The question has a character in it that isn't allowed.")),
    ("no list", {**SET, "options": "a,b"}, 400, no("“options” is missing, or isn't what it should be.")),
    ("one option", {**SET, "options": ["a"]}, 400, no("A poll has 2 to 20 options.")),
    ("21 options", {**SET, "options": [f"{n}" for n in range(21)]}, 400, no("A poll has 2 to 20 options.")),
    ("no texts", {**SET, "options": ["a", 5]}, 400, no("The options have to be texts.")),
    ("an empty option", {**SET, "options": ["a", ""]}, 400, no(A_OPTION)),
    ("a long option", {**SET, "options": ["a", "b" * 201]}, 400, no(A_OPTION)),
    ("half a character", {**SET, "options": ["a", "\ud800"]}, 400,
     no("The option has a character in it that isn't allowed.")),
    ("two alike", {**SET, "options": ["a", "b", " a"]}, 400, no("Two of the options are the same.")),
]
VOTES = [
    ("no option", {"version": 1}, 400, no("“option” is missing, or isn't what it should be.")),
    ("an option that is no number", {"option": "1", "version": 1}, 400,
     no("“option” is missing, or isn't what it should be.")),
    ("an option below", {"option": -1, "version": 1}, 400, no("The poll has no such option.")),
    ("an option above", {"option": 20, "version": 1}, 400, no("The poll has no such option.")),
    ("the last option", {"option": 19, "version": 1}, 200,
     {"question": "q" * 500, "options": [{"text": f"{n}", "votes": int(n == 19)} for n in range(20)],
      "closed": False, "version": 1, "mine": 19}),
]


class Polls(Tests):
    script = os.path.join(APPS, "polls", "polls.py")

    def test_from_new_to_closed(self):
        poll = self.start()
        self.play(poll, NEW + VOTING + CLOSING + STRANGERS)
        self.ends(poll)
        poll = self.start()
        self.play(poll, [Ask("kept", ZOE, "GET /poll", None, 200, shown(1, 0, 1, mine=0))])
        self.ends(poll)

    def test_shapes(self):
        poll = self.within(polls)
        self.play(poll, [Ask(name, ADA, "PUT /poll", *row) for name, *row in SHAPES])
        most = {"question": "q" * 500, "options": [f"{n}" for n in range(20)], "version": 0}
        self.assertEqual(200, poll.ask(ADA, "PUT /poll", most).status)
        self.play(poll, [Ask(name, BEN, "PUT /vote", *row) for name, *row in VOTES])

    def test_two_at_once(self):
        """What was meant for the poll as it was before isn't done, and what stands now is told."""
        poll, changed = self.within(polls), no("The poll was changed meanwhile.", poll=shown(0, 0, 0))
        other = {"question": "Where?", "options": ["Here", "There"], "version": 0}
        self.play(poll, [
            Ask("the first", ADA, "PUT /poll", SET, 200, shown(0, 0, 0)),
            Ask("the second", ADA, "PUT /poll", other, 409, changed),
            Ask("a vote for what was before", BEN, "PUT /vote", {"option": 0, "version": 0}, 409, changed),
            Ask("the second, who has seen it", ADA, "PUT /poll", {**SET, "version": 1}, 200, shown(0, 0, 0, version=2)),
        ])

    def test_many_at_once(self):
        """Each account has one vote, whatever it sends at once."""
        poll = self.within(polls)
        poll.ask(ADA, "PUT /poll", SET)
        voters = [BEN._replace(user=f"user-{number % 8}") for number in range(24)]
        work = [threading.Thread(target=poll.ask, args=(voter, "PUT /vote", {"option": 0, "version": 1}))
                for voter in voters]
        for one in work:
            one.start()
        for one in work:
            one.join()
        self.play(poll, [Ask("eight votes", ADA, "GET /summary", None, 200, counted(8, 0, 0))])

    def test_manifest(self):
        """What the server is told of polls, and that notebooks look for what they offer."""
        with open(os.path.join(APPS, "polls", "manifest.json"), encoding="utf-8") as file:
            manifest = json.load(file)
        self.assertEqual(["vote", "close"], [permission["name"] for permission in manifest["permissions"]])
        roles = [(role["title"], role["permissions"], role.get("default", False)) for role in manifest["roles"]]
        self.assertEqual([("Voter", [True, False], True), ("Keeper", [True, True], False)], roles)
        self.assertEqual([{"tags": [{"id": int.from_bytes(b"poll", "big"), "value": {"summary": 1}}]}], notes.QUERY)
        self.assertEqual(notes.QUERY, manifest["matchRequests"])


if __name__ == "__main__":
    unittest.main()

"""The notebook: each action and refusal, who may what, two at once, limits, what outlasts the program; and the polls
of other grains, which it gets from a small server that stands for the real one."""
import json
import os
import threading
import unittest
import unittest.mock

from support import APPS, TOKEN, Ask, Now, Server, Tests, Who, until

import notes
from grain_app import Answer

ADA = Who("Ada Holm", "aaaa", "view,edit")
BEN = Who("Ben de Wit", "bbbb", "view")
GUEST = Who("Anonymous User", "", "view")
STRANGER = Who("Dan", "dddd", "")


def no(sentence, **more):
    return {"error": sentence, **more}


def note(number, version, title, text, writer="Ada Holm"):
    return {"number": number, "title": title, "text": text, "version": version, "writer": writer, "moment": Now()}


def listed(change, *notes):
    return {"change": change, "notes": list(notes)}


NOT_VIEW = no("You may not do that: it needs the permission “view”.")
NOT_EDIT = no("You may not do that: it needs the permission “edit”.")
GONE = no("That isn't there any more.")
TITLE, TEXT = "The title has to have 1 to 200 characters.", "The text has to have 0 to 100,000 characters."
CHARACTER = "has a character in it that isn't allowed."
TEA = {"title": " Tea ", "text": "Assam\r\n\tand more\n"}
CUPS = {"title": "Cups <b>", "text": ""}
TEA_THEN, CUPS_THEN = note(1, 1, "Tea", "Assam\n\tand more"), note(2, 2, "Cups <b>", "", "Zoë K.")

WRITING = [
    Ask("none", BEN, "GET /notes", None, 200, listed(0)),
    Ask("one", ADA, "POST /notes", TEA, 200, {"number": 1, "version": 1}),
    Ask("another", ADA._replace(name="Zoë K."), "POST /notes", CUPS, 200, {"number": 2, "version": 2}),
    Ask("both, the newest first", GUEST, "GET /notes", None, 200, listed(2, CUPS_THEN, TEA_THEN)),
    Ask("nothing new", BEN, "GET /notes?seen=2", None, 200, {"change": 2, "notes": None}),
    Ask("something new", BEN, "GET /notes?seen=1", None, 200, listed(2, CUPS_THEN, TEA_THEN)),
    Ask("what is seen is no number", BEN, "GET /notes?seen=%ff", None, 200, listed(2, CUPS_THEN, TEA_THEN)),
    Ask("changed", ADA, "PUT /notes/2", {"title": "Cups", "text": "six", "version": 2}, 200,
        {"number": 2, "version": 3}),
    Ask("its writer is another", BEN, "GET /notes", None, 200, listed(3, note(2, 3, "Cups", "six"), TEA_THEN)),
]
AT_ONCE = [
    Ask("changed by another", ADA, "PUT /notes/2", {"title": "Mine", "text": "b", "version": 2}, 409,
        no("Ada Holm has changed this note meanwhile.", note=note(2, 3, "Cups", "six"))),
    Ask("removed as it was", ADA, "DELETE /notes/2", {"version": 2}, 409,
        no("Ada Holm has changed this note meanwhile.", note=note(2, 3, "Cups", "six"))),
    Ask("as it is", ADA, "PUT /notes/2", {"title": "Mine", "text": "b", "version": 3}, 200,
        {"number": 2, "version": 4}),
    Ask("removed", ADA, "DELETE /notes/2", {"version": 4}, 200, {}),
    Ask("removed before", ADA, "DELETE /notes/2", {"version": 4}, 404, GONE),
    Ask("changed after", ADA, "PUT /notes/2", {"title": "a", "text": "b", "version": 4}, 404, GONE),
    Ask("one is left", BEN, "GET /notes?seen=4", None, 200, listed(5, TEA_THEN)),
]
MISSING = [
    Ask("to read", STRANGER, "GET /notes", None, 403, NOT_VIEW),
    Ask("to read, of who may write", STRANGER.may("edit"), "GET /notes", None, 403, NOT_VIEW),
    Ask("to see polls", STRANGER, "GET /polls", None, 403, NOT_VIEW),
    Ask("to add", BEN, "POST /notes", TEA, 403, NOT_EDIT),
    Ask("to change", BEN, "PUT /notes/1", {**TEA, "version": 1}, 403, NOT_EDIT),
    Ask("to remove", BEN, "DELETE /notes/1", {"version": 1}, 403, NOT_EDIT),
    Ask("to add a poll", BEN, "POST /polls", {"token": "chosen"}, 403, NOT_EDIT),
    Ask("to remove a poll", BEN, "DELETE /polls/1", None, 403, NOT_EDIT),
]
SHAPES = [
    ("no JSON", b"{", no("What was sent is no JSON.")),
    ("too deep", b"[" * 100000, no("What was sent is no JSON.")),
    ("no object", b"[1]", no("“title” is missing, or isn't what it should be.")),
    ("no title", {"text": "a"}, no("“title” is missing, or isn't what it should be.")),
    ("a title that is no text", {"title": 1, "text": "a"}, no("“title” is missing, or isn't what it should be.")),
    ("an empty title", {"title": " \t", "text": "a"}, no(TITLE)),
    ("a long title", {"title": "é" * 201, "text": "a"}, no(TITLE)),
    ("a title in lines", {"title": "a\nb", "text": "a"}, no(f"The title {CHARACTER}")),
    ("no text", {"title": "a"}, no("“text” is missing, or isn't what it should be.")),
    ("a long text", {"title": "a", "text": "b" * 100001}, no(TEXT)),
    ("a control character", {"title": "a", "text": "a\0b"}, no(f"The text {CHARACTER}")),
    ("half a character", {"title": "a", "text": "\udcff"}, no(f"The text {CHARACTER}")),
]
A_VERSION = no("“version” is missing, or isn't what it should be.")
VERSIONS = [
    Ask("no version", ADA, "PUT /notes/1", TEA, 400, A_VERSION),
    Ask("no version to remove", ADA, "DELETE /notes/1", None, 400, A_VERSION),
    Ask("a version that is no number", ADA, "DELETE /notes/1", {"version": True}, 400, A_VERSION),
    Ask("a version of many digits", ADA, "DELETE /notes/1", {"version": 10 ** 30}, 404, GONE),
]


class Notes(Tests):
    script = os.path.join(APPS, "notes", "notes.py")

    def test_from_new_to_kept(self):
        notebook = self.start()
        self.play(notebook, WRITING + AT_ONCE + MISSING)
        self.ends(notebook)
        notebook = self.start()
        self.play(notebook, [
            Ask("kept", BEN, "GET /notes", None, 200, listed(5, TEA_THEN)),
            Ask("no number is used twice", ADA, "POST /notes", CUPS, 200, {"number": 3, "version": 6}),
        ])
        self.ends(notebook)

    def test_shapes(self):
        notebook = self.within(notes)
        self.play(notebook, [Ask(name, ADA, "POST /notes", sent, 400, expected) for name, sent, expected in SHAPES])
        self.play(notebook, [*VERSIONS, Ask("nothing is added", BEN, "GET /notes", None, 200, listed(0))])

    def test_many_at_once(self):
        """Of those who change the same version at once one succeeds, and what it wrote stands there."""
        notebook, got = self.within(notes), []
        notebook.ask(ADA, "POST /notes", TEA)

        def change(number):
            sent = {"title": f"{number}", "text": "", "version": 1}
            got.append((notebook.ask(ADA, "PUT /notes/1", sent).status, number))

        work = [threading.Thread(target=change, args=(number,)) for number in range(12)]
        for one in work:
            one.start()
        for one in work:
            one.join()
        self.assertEqual([200] + 11 * [409], sorted(status for status, _ in got))
        first = next(number for status, number in got if status == 200)
        self.play(notebook, [Ask("the first", BEN, "GET /notes", None, 200, listed(2, note(1, 2, f"{first}", "")))])

    def test_full(self):
        """The largest notebook fits in an answer, and nothing more in the notebook."""
        notebook = self.within(notes)
        text = 99998 * '"'
        full = no("The notebook is full: its notes may have 1,500,000 bytes together.")
        for number in range(15):
            self.assertEqual(200, notebook.ask(ADA, "POST /notes", {"title": "aa", "text": text}).status)
        self.play(notebook, [
            Ask("one byte more", ADA, "POST /notes", {"title": "a", "text": ""}, 413, full),
            Ask("one byte more of one", ADA, "PUT /notes/1", {"title": "aaa", "text": text, "version": 1}, 413, full),
            Ask("as many bytes", ADA, "PUT /notes/1", {"title": "é", "text": text, "version": 1}, 200,
                {"number": 1, "version": 16}),
        ])
        self.assertLess(len(notebook.ask(BEN, "GET /notes").body), 4 << 20)

    def test_full_of_notes(self):
        self.assertEqual(1000, notes.MOST_NOTES)
        notebook = self.within(notes, MOST_NOTES=1)
        self.play(notebook, [
            Ask("the first", ADA, "POST /notes", TEA, 200, {"number": 1, "version": 1}),
            Ask("the second", ADA, "POST /notes", CUPS, 413, no("The notebook is full: no more than 1 notes fit.")),
            Ask("the first is there", BEN, "GET /notes", None, 200, listed(1, TEA_THEN)),
        ])


OPTIONS = [{"text": "Now", "votes": 2}, {"text": "Later", "votes": 0}]
SUMMARY = {"question": "When?", "options": OPTIONS, "closed": False}
LOST = "This poll can't be seen any more: it, or this notebook, was taken back from whoever put it here."
ASLEEP = "This poll's program isn't running. It starts when somebody opens the poll."
FAR = "This poll can't be reached at the moment."
NO_POLL = "What stands behind this doesn't answer as a poll."
QUERY = [{"tags": [{"id": 1886350444, "value": {"summary": 1}}]}]
REFUSED = "The server refused this poll."
# What the server says to a token, and what comes of it.
CLAIMS = [
    ("unknown", None, no("The server doesn't know that token. It has to be pasted whole.")),
    ("another's", (403, "NotHolder"), no("That token was made for another document.")),
    ("used", (409, "AlreadyClaimed"), no("That token was used before. Choose the poll again, to get a new one.")),
    ("revoked", (403, "Revoked"), no(LOST)),
    ("too many", (507, "TooMany"), no("The server keeps no more of these.")),
    ("other", (503, "StoreFailed"), no(REFUSED)),
]
# What answers in the place of a poll's summary, and what is shown.
BEHIND = [
    (200, json.dumps(SUMMARY).encode(), SUMMARY),
    (200, json.dumps({**SUMMARY, "closed": True, "more": 1}).encode(), {**SUMMARY, "closed": True}),
    (200, b"hello", {"sentence": NO_POLL}),
    (200, b'{"question":"a","options":[],"closed":false}', {"question": "a", "options": [], "closed": False}),
    (200, b'{"question":"a","closed":false}', {"sentence": NO_POLL}),
    (200, b'{"question":"a","options":[1],"closed":false}', {"sentence": NO_POLL}),
    (200, b'{"question":"a","options":[{"text":"b","votes":Infinity}],"closed":false}', {"sentence": NO_POLL}),
    (200, b'{"question":"\\ud800","options":[],"closed":false}', {"question": "?", "options": [], "closed": False}),
    (200, b" " * 65537, {"sentence": NO_POLL}),
    (401, b"", {"sentence": LOST}),
    (403, b'{"error":"SourceLost","of":[4]}', {"sentence": LOST}),
    (404, b"", {"sentence": NO_POLL}),
    (409, b'{"error":"GrainStopped","of":[2]}', {"sentence": ASLEEP}),
    (502, b'{"error":"LinkFailed","of":[]}', {"sentence": FAR}),
]


class Polls(Tests):
    """Polls of other grains in a notebook."""
    script = os.path.join(APPS, "notes", "notes.py")

    def setUp(self):
        super().setUp()
        self.server = Server()
        self.addCleanup(self.server.end)
        self.behind = 200, json.dumps(SUMMARY).encode()

    def answer(self, method, path):
        """What the poll answers."""
        self.assertEqual(("GET", "/summary"), (method, path))
        return self.behind

    def open(self):
        return self.start(server=self.server.place)

    def open_within(self, server=None, **values):
        """The notebook in this process; at the end what it looks at is waited for."""
        embedded = notes.Embedded()
        notebook = self.within(notes, server or self.server.place, EMBEDDED=embedded, **values)
        self.addCleanup(embedded.looking.acquire)
        return notebook

    def shows(self, notebook, *polls):
        """The notebook shows polls, in the end."""
        expected = {"polls": list(polls), "query": QUERY}

        def look():
            found = json.loads(notebook.ask(BEN, "GET /polls").body)
            return found == expected or seen.append(found)
        seen = []
        try:
            until("the polls", look)
        except AssertionError:
            self.assertEqual(expected, seen[-1])

    def test_embedded(self):
        """Chosen, claimed, saved, shown to readers, restored by the next run, and dropped."""
        self.server.chosen["chosen"] = self.answer
        notebook = self.open()
        self.play(notebook, [
            Ask("no polls", BEN, "GET /polls", None, 200, {"polls": [], "query": QUERY}),
            Ask("one is put there", ADA, "POST /polls", {"token": " chosen "}, 200, {"number": 1}),
            Ask("it is shown at once", GUEST, "GET /polls", None, 200,
                {"polls": [{"number": 1, **SUMMARY}], "query": QUERY}),
        ])
        label = {"handle": 1, "label": "A poll in a notebook"}
        claimed = {"token": "chosen", "permissions": [True]}
        look = "GET /use/1/summary", None
        until("what the reader has looked at soon", lambda: len(self.server.asked) == 4)
        self.assertEqual([("POST /claim", claimed), look, ("POST /save", label), look], self.server.asked)
        self.ends(notebook)

        self.server.handles.clear()
        self.server.asked.clear()
        notebook = self.open()
        waiting = [{"number": 1, "sentence": "This poll is being fetched."}]
        self.play(notebook, [Ask("the next run", BEN, "GET /polls", None, 200, {"polls": waiting, "query": QUERY})])
        self.shows(notebook, {"number": 1, **SUMMARY})
        self.assertEqual([("POST /restore", {"token": "saved-1"}), look], self.server.asked[:2])

        self.play(notebook, [
            Ask("it is removed", ADA, "DELETE /polls/1", None, 200, {}),
            Ask("it is gone", BEN, "GET /polls", None, 200, {"polls": [], "query": QUERY}),
            Ask("it was removed", ADA, "DELETE /polls/1", None, 404, GONE),
        ])
        self.assertEqual({"saved-1"}, self.server.dropped)
        self.ends(notebook)

    def test_refused(self):
        """A token that gives nothing leaves nothing behind, and says why."""
        notebook = self.open_within()
        for name, said, expected in CLAIMS:
            if said:
                self.server.chosen["chosen"] = said[0], {"error": said[1], "of": []}
            self.play(notebook, [Ask(name, ADA, "POST /polls", {"token": "chosen"}, 409, expected)])
        for name, status, sentence in [
            ("no poll", 200, "What was chosen isn't a poll."),
            ("nothing there", 404, "What was chosen isn't a poll."),
            ("no permission to see it", 403, "What was chosen gives no right to see the poll."),
        ]:
            self.behind = status, b"<p>hello</p>"
            self.server.chosen[name] = self.answer
            self.play(notebook, [Ask(name, ADA, "POST /polls", {"token": name}, 409, no(sentence))])
        self.play(notebook, [
            Ask("no token", ADA, "POST /polls", {}, 400, no("“token” is missing, or isn't what it should be.")),
            Ask("nothing is there", BEN, "GET /polls", None, 200, {"polls": [], "query": QUERY}),
        ])
        self.assertEqual({}, self.server.saved)

    def test_full(self):
        """A poll that doesn't fit isn't claimed."""
        self.assertEqual(20, notes.MOST_POLLS)
        notebook = self.open_within(MOST_POLLS=2)
        for name in ("first", "second", "third"):
            self.server.chosen[name] = self.answer
        self.play(notebook, [
            Ask("the first", ADA, "POST /polls", {"token": "first"}, 200, {"number": 1}),
            Ask("the second", ADA, "POST /polls", {"token": "second"}, 200, {"number": 2}),
            Ask("the third", ADA, "POST /polls", {"token": "third"}, 413,
                no("There are 2 polls here, and no more fit.")),
        ])
        self.assertEqual(self.answer, self.server.chosen["third"])

    def test_server_away(self):
        """Where the server doesn't answer, the page has its notes, and a sentence in the place of each poll."""
        self.server.chosen["chosen"] = self.answer
        notebook = self.open_within()
        notebook.ask(ADA, "POST /polls", {"token": "chosen"})
        notebook.ask(ADA, "POST /notes", TEA)
        notebook = self.open_within("127.0.0.1:0")
        self.shows(notebook, {"number": 1, "sentence": FAR})
        away = no("The server gave no answer: [Errno 111] Connection refused.")
        self.play(notebook, [
            Ask("the notes", BEN, "GET /notes", None, 200, listed(1, TEA_THEN)),
            Ask("a poll", ADA, "POST /polls", {"token": "chosen"}, 424, away),
            Ask("it stays", ADA, "DELETE /polls/1", None, 424, away),
            Ask("it is there", BEN, "GET /polls", None, 200,
                {"polls": [{"number": 1, "sentence": FAR}], "query": QUERY}),
        ])

    def test_asleep(self):
        """A poll that can't be reached at the moment is taken all the same, and shown when it can."""
        self.behind = 409, b'{"error":"GrainStopped","of":[2]}'
        self.server.chosen["chosen"] = self.answer
        notebook = self.open_within()
        asleep = {"polls": [{"number": 1, "sentence": ASLEEP}], "query": QUERY}
        self.play(notebook, [
            Ask("one is put there", ADA, "POST /polls", {"token": "chosen"}, 200, {"number": 1}),
            Ask("it sleeps", BEN, "GET /polls", None, 200, asleep),
        ])
        self.behind = 200, json.dumps(SUMMARY).encode()
        self.shows(notebook, {"number": 1, **SUMMARY})

    def test_drop_refused(self):
        """What the server knows no more is forgotten, and what it couldn't drop is kept."""
        notebook = self.open_within()
        for number in (1, 2):
            self.server.chosen["chosen"] = self.answer
            self.assertEqual(200, notebook.ask(ADA, "POST /polls", {"token": "chosen"}).status)
        self.server.refusing = 503, {"error": "StoreFailed", "of": []}
        sentence = no("The server couldn't do that now. Try it again.")
        self.play(notebook, [Ask("it couldn't", ADA, "DELETE /polls/1", None, 424, sentence)])
        self.server.refusing = 403, {"error": "NotHolder", "of": [2]}
        self.play(notebook, [Ask("it knows it no more", ADA, "DELETE /polls/1", None, 200, {})])


class Looking(Tests):
    """What is shown of what answers in the place of a poll; in this process, so that nothing has to be waited for."""

    def setUp(self):
        super().setUp()
        self.server = Server()
        self.addCleanup(self.server.end)
        notes.APPLICATION.token, notes.APPLICATION.server = TOKEN, self.server.place

    def test_summaries(self):
        for status, data, expected in BEHIND:
            with self.subTest(data[:80], status=status):
                handle = self.server.handle_for(lambda method, path: (status, data))
                told = Answer(notes.summary_by(handle))
                self.assertEqual(expected, json.loads(told.body))

    def test_old(self):
        """What was seen long ago isn't shown, since it may be lost since."""
        book = notes.Embedded()
        with unittest.mock.patch.object(notes.time, "monotonic", side_effect=[100, 100 + 14.9, 100, 100 + 15]):
            for expected in (SUMMARY, {"sentence": "This poll is being fetched."}):
                book.show(1, SUMMARY)
                self.assertEqual(expected, book.latest(1))
        self.assertEqual({"sentence": "This poll is being fetched."}, book.latest(2))

    def test_restored(self):
        """A reference that isn't restored isn't forgotten: the next look asks again."""
        book = notes.Embedded()
        self.server.saved["saved-1"] = lambda method, path: BEHIND[0][:2]
        for refusing, expected in [
            ((403, {"error": "Unmet", "of": [4, 0]}), {"sentence": LOST}),
            ((401, {"error": "UnknownKey", "of": []}), {"sentence": LOST}),
            ((503, {"error": "StoreFailed", "of": []}), {"sentence": FAR}),
            (None, SUMMARY),
        ]:
            self.server.refusing = refusing
            self.assertEqual(expected, book.look(1, "saved-1"))
        # A run that has a handle uses that.
        self.server.asked.clear()
        self.assertEqual(SUMMARY, book.look(1, "saved-1"))
        self.assertEqual([("GET /use/1/summary", None)], self.server.asked)


if __name__ == "__main__":
    unittest.main()

"""The folder of files: bytes that come back as they were, names, who may what, limits, what outlasts the program."""
import json
import os
import unittest
import urllib.parse

from support import APPS, Ask, Now, Tests, Who

import files

ADA = Who("Ada Holm", "aaaa", "read,add,clear")
BEN = Who("Ben de Wit", "bbbb", "read,add")
ZOE = Who("Zoë K.", "cccc", "read")
GUEST = Who("Anonymous User", "", "read,add")
STRANGER = Who("Dan", "dddd", "")

MEBIBYTE = 1048576
BYTES = bytes(range(256)) * 4096
PAGE = b"<script>alert(1)</script>\r\n"


def no(sentence):
    return {"error": sentence}


def file(number, name, size, adder="Ben de Wit", removable=False):
    return {"number": number, "name": name, "size": size, "adder": adder, "moment": Now(), "removable": removable}


def listed(*found):
    return {"files": list(found), "used": sum(one["size"] for one in found), "room": 268435456, "largest": 1048576}


NOT_READ = no("You may not do that: it needs the permission “read”.")
NOT_ADD = no("You may not do that: it needs the permission “add”.")
NOT_OWN = no("You may remove only what you added yourself.")
GONE = no("That isn't there any more.")
LENGTH, CHARACTER = "The name has to have 1 to 200 characters.", "The name has a character in it that isn't allowed."
SLASH = "The name of a file has no slashes."

ADDING = [
    Ask("none", ZOE, "GET /files", None, 200, listed()),
    Ask("all bytes", BEN, "POST /files?name=all%20bytes.bin", BYTES, 200, {"number": 1}),
    Ask("a page", GUEST, "POST /files?name=page.html", PAGE, 200, {"number": 2}),
    Ask("nothing", ADA, "POST /files?name=nothing", b"", 200, {"number": 3}),
    Ask("the same name", BEN, "POST /files?name=nothing", b"a", 200, {"number": 4}),
    Ask("a reader's list", ZOE, "GET /files", None, 200, listed(
        file(4, "nothing", 1), file(3, "nothing", 0, "Ada Holm"), file(2, "page.html", 27, "Anonymous User"),
        file(1, "all bytes.bin", MEBIBYTE))),
    Ask("Ben's list", BEN, "GET /files", None, 200, listed(
        file(4, "nothing", 1, removable=True), file(3, "nothing", 0, "Ada Holm"),
        file(2, "page.html", 27, "Anonymous User"), file(1, "all bytes.bin", MEBIBYTE, removable=True))),
    Ask("a list by a link", GUEST, "GET /files", None, 200, listed(
        file(4, "nothing", 1), file(3, "nothing", 0, "Ada Holm"), file(2, "page.html", 27, "Anonymous User"),
        file(1, "all bytes.bin", MEBIBYTE))),
]
REMOVING = [
    Ask("another's", BEN, "DELETE /files/3", None, 403, NOT_OWN),
    Ask("what came by a link, by a link", GUEST, "DELETE /files/2", None, 403, NOT_OWN),
    Ask("one's own, of who may add no more", BEN.may("read,clear"), "DELETE /files/4", None, 403, NOT_ADD),
    Ask("one's own", BEN, "DELETE /files/4", None, 200, {}),
    Ask("one that is gone", BEN, "DELETE /files/4", None, 404, GONE),
    Ask("to fetch that", ZOE, "GET /files/4", None, 404, GONE),
    Ask("another's, by who clears", ADA, "DELETE /files/2", None, 200, {}),
    Ask("what is left", ADA, "GET /files", None, 200, listed(
        file(3, "nothing", 0, "Ada Holm", True), file(1, "all bytes.bin", MEBIBYTE, removable=True))),
]
MISSING = [
    Ask("to list", STRANGER, "GET /files", None, 403, NOT_READ),
    Ask("to list, of who may add", STRANGER.may("add,clear"), "GET /files", None, 403, NOT_READ),
    Ask("to fetch", STRANGER.may("add"), "GET /files/1", None, 403, NOT_READ),
    Ask("to add", ZOE, "POST /files?name=a", b"a", 403, NOT_ADD),
    Ask("to remove", ZOE, "DELETE /files/1", None, 403, NOT_ADD),
]
NAMES = [
    ("no name", "", LENGTH),
    ("an empty name", "?name=", LENGTH),
    ("blanks", "?name=%20+", LENGTH),
    ("201 characters", f"?name={201 * '%C3%A9'}", LENGTH),
    ("a slash", "?name=..%2Fa", SLASH),
    ("the other slash", "?name=a%5Cb", SLASH),
    ("a line", "?name=a%0D%0Ab", CHARACTER),
    ("a zero", "?name=a%00", CHARACTER),
    ("bytes that are no text", "?name=a%FF", CHARACTER),
]
# Names, and what is said of them where they are fetched.
KEPT_NAMES = [
    ("a.txt", "filename=\"a.txt\"; filename*=UTF-8''a.txt"),
    ("Protokoll für Mai.pdf", "filename=\"Protokoll f_r Mai.pdf\"; filename*=UTF-8''Protokoll%20f%C3%BCr%20Mai.pdf"),
    ("a\"; b='c';%0A.html", "filename=\"a__ b__c___0A.html\"; filename*=UTF-8''a%22%3B%20b%3D%27c%27%3B%250A.html"),
    ("議事録", "filename=\"___\"; filename*=UTF-8''%E8%AD%B0%E4%BA%8B%E9%8C%B2"),
    (200 * "é", f"filename=\"{200 * '_'}\"; filename*=UTF-8''{200 * '%C3%A9'}"),
]


class Files(Tests):
    script = os.path.join(APPS, "files", "files.py")

    def fetched(self, folder, number, body, named):
        """A file comes back to the byte, to be kept and not shown."""
        got = folder.ask(ZOE, f"GET /files/{number}")
        lines = {name: got.lines[name] for name in ("content-type", "content-length", "content-disposition")}
        expected = {"content-type": "application/octet-stream", "content-length": str(len(body)),
                    "content-disposition": f"attachment; {named}"}
        self.assertEqual((200, expected), (got.status, lines))
        self.assertTrue(body == got.body, "the bytes that came back")

    def test_from_new_to_kept(self):
        folder = self.start()
        self.play(folder, ADDING)
        self.fetched(folder, 1, BYTES, "filename=\"all bytes.bin\"; filename*=UTF-8''all%20bytes.bin")
        self.fetched(folder, 2, PAGE, "filename=\"page.html\"; filename*=UTF-8''page.html")
        self.play(folder, REMOVING + MISSING)
        self.ends(folder)
        folder = self.start()
        self.fetched(folder, 1, BYTES, "filename=\"all bytes.bin\"; filename*=UTF-8''all%20bytes.bin")
        self.fetched(folder, 3, b"", "filename=\"nothing\"; filename*=UTF-8''nothing")
        self.play(folder, [Ask("no number is used twice", ADA, "POST /files?name=a", b"a", 200, {"number": 5})])
        self.ends(folder)

    def test_names(self):
        folder = self.within(files)
        self.play(folder, [Ask(name, BEN, f"POST /files{query}", b"a", 400, no(expected))
                           for name, query, expected in NAMES])
        for number, (name, named) in enumerate(KEPT_NAMES, 1):
            with self.subTest(name):
                query = urllib.parse.urlencode({"name": name}, quote_via=urllib.parse.quote)
                self.play(folder, [Ask(name, BEN, f"POST /files?{query}", b"a", 200, {"number": number})])
                self.fetched(folder, number, b"a", named)
        found = json.loads(folder.ask(ZOE, "GET /files").body)["files"]
        self.assertEqual([name for name, _ in KEPT_NAMES], [one["name"] for one in reversed(found)])

    def test_limits(self):
        self.assertEqual((1 << 20, 256 << 20, 1000), (files.MOST_OF_ONE, files.MOST_OF_ALL, files.MOST_FILES))
        folder = self.within(files, MOST_OF_ALL=MEBIBYTE + 9, MOST_FILES=3)
        large = no("A file may have 1,048,576 bytes, and this one has 1,048,577.")
        self.play(folder, [
            Ask("a file of one byte more", BEN, "POST /files?name=a", BYTES + b"a", 413, large),
            Ask("the largest", BEN, "POST /files?name=a", BYTES, 200, {"number": 1}),
            Ask("all bytes and one", BEN, "POST /files?name=b", 10 * b"b", 413,
                no("There is no room for it: 9 bytes are left.")),
            Ask("all bytes", BEN, "POST /files?name=c", 9 * b"c", 200, {"number": 2}),
            Ask("no byte", BEN, "POST /files?name=d", b"", 200, {"number": 3}),
            Ask("all files and one", BEN, "POST /files?name=e", b"", 413,
                no("There are 3 files here, and no more fit.")),
            Ask("one less", BEN, "DELETE /files/1", None, 200, {}),
            Ask("and again", BEN, "POST /files?name=f", BYTES, 200, {"number": 4}),
        ])

    def test_list_fits(self):
        """A list of as many files as there may be, with the longest names, fits in what the server relays."""
        longest = file(999999999, 200 * "\U0001f600", MEBIBYTE, 200 * '"')
        longest["moment"] = 9999999999
        self.assertLess(len(files.Answer(listed(*(1000 * [longest]))).body), 4 << 20)

    def test_manifest(self):
        with open(os.path.join(APPS, "files", "manifest.json"), encoding="utf-8") as manifest:
            found = json.load(manifest)
        self.assertEqual(["read", "add", "clear"], [permission["name"] for permission in found["permissions"]])
        roles = [(role["title"], role["permissions"], role.get("default", False)) for role in found["roles"]]
        self.assertEqual([("Reader", [True, False, False], True), ("Contributor", [True, True, False], False),
                          ("Keeper", [True, True, True], False)], roles)


if __name__ == "__main__":
    unittest.main()

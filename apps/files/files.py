#!/usr/bin/env python3
"""The program of a folder of files: whoever holds `read` lists and fetches them; whoever holds `add` adds some, and
removes those that one added oneself, or any with `clear` beside it.

A file comes back to the byte, and always as an attachment of no particular kind, so that no page that somebody added
runs under the name of a reader's session. What is in a file is nothing to this program.
"""
import os
import re
import sys
import time
import urllib.parse

sys.dont_write_bytecode = True
FOLDER = os.path.dirname(os.path.realpath(__file__))
sys.path.insert(0, os.path.dirname(FOLDER))

from grain_app import Answer, Application, Refusal, Text, main, row, rows  # noqa: E402

MEBIBYTE = 1 << 20
NAME = Text(200)
# The most that a file and all files have, in bytes, and how many there are, so that the list fits in an answer.
MOST_OF_ONE, MOST_OF_ALL, MOST_FILES = MEBIBYTE, 256 * MEBIBYTE, 1000

TABLES = [
    """CREATE TABLE IF NOT EXISTS files (number INTEGER PRIMARY KEY AUTOINCREMENT, name TEXT NOT NULL,
       size INTEGER NOT NULL, user TEXT NOT NULL, adder TEXT NOT NULL, moment INTEGER NOT NULL)""",
    "CREATE TABLE IF NOT EXISTS contents (number INTEGER PRIMARY KEY REFERENCES files, content BLOB NOT NULL)",
]


def list_files(request, file):
    """All files, the newest first, with a mark on those that the caller may remove."""
    files = rows(file, "SELECT number, name, size, user, adder, moment FROM files ORDER BY number DESC")
    for one in files:
        one["removable"] = may_remove(request, one.pop("user"))
    return {"files": files, "used": sum(one["size"] for one in files), "room": MOST_OF_ALL, "largest": MOST_OF_ONE}


def may_remove(request, user):
    """Whether the caller may remove what a user added. (What came by a link is nobody's own.)"""
    is_own = user != "" and user == request.user
    return "add" in request.permissions and (is_own or "clear" in request.permissions)


def add_file(request, file):
    """Adds the body, under the name in the query."""
    name = NAME.taken("name", request.query.get("name", ""))
    if re.search(r"[/\\]", name):
        raise Refusal(400, "The name of a file has no slashes.")
    size = len(request.body)
    if size > MOST_OF_ONE:
        raise Refusal(413, f"A file may have {MOST_OF_ONE:,} bytes, and this one has {size:,}.")
    now = row(file, "SELECT count(*) AS files, coalesce(sum(size), 0) AS used FROM files")
    if now["files"] >= MOST_FILES:
        raise Refusal(413, f"There are {MOST_FILES:,} files here, and no more fit.")
    if now["used"] + size > MOST_OF_ALL:
        raise Refusal(413, f"There is no room for it: {MOST_OF_ALL - now['used']:,} bytes are left.")
    values = name, size, request.user, request.name, int(time.time())
    added = file.execute("INSERT INTO files (name, size, user, adder, moment) VALUES (?, ?, ?, ?, ?)", values)
    file.execute("INSERT INTO contents (number, content) VALUES (?, ?)", [added.lastrowid, request.body])
    return {"number": added.lastrowid}


def fetch_file(request, file):
    query = "SELECT name, content FROM files JOIN contents USING (number) WHERE number = ?"
    found = row(file, query, request.numbers[0])
    lines = [("Content-Disposition", disposition(found["name"]))]
    return Answer(found["content"], "application/octet-stream", lines=lines)


def disposition(name):
    """That a file is to be kept, not shown, and under which name; the first form is for those that know no other."""
    plain = re.sub(r"[^A-Za-z0-9._ -]", "_", name)
    return f"attachment; filename=\"{plain}\"; filename*=UTF-8''{urllib.parse.quote(name, safe='')}"


def remove_file(request, file):
    number = request.numbers[0]
    found = row(file, "SELECT user FROM files WHERE number = ?", number)
    if not may_remove(request, found["user"]):
        raise Refusal(403, "You may remove only what you added yourself.")
    file.execute("DELETE FROM contents WHERE number = ?", [number])
    file.execute("DELETE FROM files WHERE number = ?", [number])
    return {}


APPLICATION = Application(TABLES, os.path.join(FOLDER, "page.html"), {
    ("GET", "/files"): ("read", list_files),
    ("POST", "/files"): ("add", add_file),
    ("GET", "/files/N"): ("read", fetch_file),
    ("DELETE", "/files/N"): ("add", remove_file),
})

if __name__ == "__main__":
    main(APPLICATION)

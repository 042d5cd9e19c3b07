"""Files of rows: the one that a club's server made, and what is made of it."""
import contextlib
import hashlib
import os
import re
import shutil
import sqlite3

from served import Port

# The rows of the club at its first server's end, by kind (accounts, applications, grains, grants, saved references) and number. A body is digits,
# with texts and, by their names, secrets: a text stands in it behind its length in 2 bytes, and a secret as its digest.
NONE = "0000000000000000"
ROWS = [
    (1, 1, "01 'admin' 'Admin' $first 01 01"),
    (1, 2, "01 'ada' 'Ada Holm' $ada 00 01"),
    (1, 3, "01 'ben' 'Ben Ås' $ben 00 00"),
    (2, 1, "01 'Notes' 00000001 0002 'view' 'Look' '' 00 'edit' 'Edit' '' 00"
           " 0002 'Reader' '' 0000000000000001 00 00 'Writer' '' 0000000000000003 01 00 0001 00 0001 0000000000000007 00"),
    (3, 1, "01 00000001 00000002 'Minutes' 00"),
    (3, 2, "01 00000001 00000002 'Plans' 00"),
    (4, 1, f"01 00000001 01 00000002 02 00000003 02 0000 {NONE} {NONE} 0000 00 01"),
    (4, 2, f"01 00000001 01 00000002 01 01 01 {NONE} {NONE} 0000 01 $link 01"),
    (4, 3, f"01 00000001 02 00000002 02 00000003 01 {NONE} {NONE} 0000 00 00"),
    (4, 4, f"01 00000001 01 00000002 01 00 02 0000 {NONE} {NONE} 0000 01 $robot 00"),
    (4, 5, f"01 00000001 01 00000002 03 00000002 01 {NONE} {NONE} 0000 01 $chosen 00"),
    (4, 6, f"01 00000001 02 00000005 04 00000002 01 {NONE} {NONE} 0001 02 01 00000002 00000002 0000000000000001 00 00"),
    (4, 7, f"01 00000002 03 00000002 0000000000000009 00000001 03 00000002 00 {NONE} {NONE} 0000 01 $club 00"),
    (4, 8, f"01 00000002 02 00000007 04 00000002 01 {NONE} {NONE} 0001 02 01 00000002 00000002 {NONE} 00 00"),
    (5, 1, "01 00000002 00000006 'minutes' $saved 00"),
]
PART = re.compile(r"'([^']*)'|\$(\w+)|([0-9a-f]+)")
COUNTS = "status 0: rows 15 accounts 3 apps 1 grains 2 grants 8 saved 1\n"
# What is changed in a copy, and what is said of it then: the number of the first bad row counts those before it, or nothing is said.
CHANGES = [
    ("a copy by SQLite itself", "", COUNTS),
    ("another version in a body", "UPDATE rows SET body = CAST(x'02' || substr(body, 2) AS BLOB) WHERE num = 2", "status 10: bad row 1\n"),
    ("a body that is cut short", "UPDATE rows SET body = substr(body, 1, 10) WHERE kind = 3 AND num = 1", "status 10: bad row 4\n"),
    ("a body without a byte", "UPDATE rows SET body = x'' WHERE kind = 5", "status 10: bad row 14\n"),
    ("a grain that is gone", "DELETE FROM rows WHERE kind = 3 AND num = 1", "status 10: bad row 4\n"),
    ("a grant on no grain", "DELETE FROM rows WHERE kind = 3 AND num = 2", "status 10: bad row 9\n"),
    ("a kind that there isn't", "INSERT INTO rows VALUES(9, 1, x'01')", "status 10: bad row 15\n"),
    ("a kind that is no byte", "INSERT INTO rows VALUES(300, 1, x'01')", "status 9: "),
    ("a number below 0", "INSERT INTO rows VALUES(1, -1, x'01')", "status 9: "),
    ("another table in the rows' place", "DROP TABLE rows; CREATE TABLE rows(name TEXT)", "status 9: "),
    ("a number above 32 bits", "INSERT INTO rows VALUES(1, 4294967296, x'01')", "status 9: "),
    ("a table without the key", "DROP TABLE rows; CREATE TABLE rows(kind INTEGER, num INTEGER, body BLOB)", "status 9: "),
    ("a table that takes texts",
     "DROP TABLE rows; CREATE TABLE rows(kind INTEGER NOT NULL, num INTEGER NOT NULL, body NOT NULL, PRIMARY KEY(kind, num))", "status 9: "),
    ("another table beside", "CREATE TABLE notes(name TEXT)", "status 9: "),
    ("an index of one's own", "CREATE INDEX bodies ON rows(body)", "status 9: "),
]
# Files that nobody made as a database, and what is said of them.
NO_ROWS = "status 0: rows 0 accounts 0 apps 0 grains 0 grants 0 saved 0\n"
OTHERS = [
    ("a file of text", b"This is no database.\n", "status 9: "),
    ("half a head of a database", b"SQLite format 3\0" + 34 * b"\1", "status 9: "),
    ("a file without a byte", b"", NO_ROWS),
]


def files_of_a_club(bench, folder, secrets):
    """The file of a club whose server has ended, with its log, and copies of both; the files themselves are read by the program alone."""
    bench.same("what is said of it", COUNTS, bench.result(["check", "club.db"], folder))
    for log in ("", "-wal"):
        shutil.copy(os.path.join(folder, f"club.db{log}"), os.path.join(folder, f"copy.db{log}"))
    bench.same("a copy of the file and its log", COUNTS, bench.result(["check", "copy.db"], folder))
    kept = b"".join(read_file(os.path.join(folder, f"copy.db{log}")) for log in ("", "-wal"))
    bench.same("no secret stands in it", [], [name for name, secret in secrets.known.items() if secret.encode() in kept])
    rows = read_rows(os.path.join(folder, "copy.db"))
    bench.same("which rows there are", [(kind, number) for kind, number, _ in ROWS], list(rows))
    for kind, number, body in ROWS:
        bench.same(f"row {number} of kind {kind}", body_of(body, secrets.known).hex(), rows.get((kind, number), b"").hex())
    port = Port()
    for at, (name, statements, expected) in enumerate(CHANGES):
        changed = f"changed-{at}.db"
        change(os.path.join(folder, "copy.db"), os.path.join(folder, changed), statements)
        bench.same(f"{name}, judged", expected, bench.result(["check", changed], folder))
        if expected != COUNTS:
            status = expected.partition(":")[0]
            bench.same(f"{name}, served", f"{status}: ", bench.result(["serve", changed, str(port.number), "1"], folder))


def read_file(path):
    with open(path, "rb") as file:
        return file.read()


def read_rows(path):
    """The rows of a file, as SQLite itself has them."""
    with contextlib.closing(sqlite3.connect(path)) as database:
        return {(kind, number): bytes(body) for kind, number, body in database.execute("SELECT kind, num, body FROM rows ORDER BY kind, num")}


def body_of(text, secrets):
    """The bytes of a row, as ROWS has it."""
    body = b""
    for words, secret, digits in PART.findall(text):
        if secret:
            body += hashlib.sha256(secrets[secret].encode()).digest()
        elif digits:
            body += bytes.fromhex(digits)
        else:
            body += len(words.encode()).to_bytes(2, "big") + words.encode()
    return body


def change(path, to, statements):
    """Copies a database by SQLite itself, and runs statements on the copy."""
    with contextlib.closing(sqlite3.connect(path)) as one, contextlib.closing(sqlite3.connect(to)) as other:
        one.backup(other)
        other.executescript(statements)


def other_files(bench):
    """Files that no server made, judged and served."""
    folder, port = bench.place.make("files"), Port()
    for at, (name, content, expected) in enumerate(OTHERS):
        with open(os.path.join(folder, f"other-{at}.db"), "wb") as file:
            file.write(content)
        bench.same(name, expected, bench.result(["check", f"other-{at}.db"], folder))
    bench.same("no file", NO_ROWS, bench.result(["check", "new.db"], folder))
    bench.same("the file that was made", NO_ROWS, bench.result(["check", "new.db"], folder))
    for place in (".", "missing/new.db"):
        bench.same(f"{place}, judged", "status 9: ", bench.result(["check", place], folder))
        bench.same(f"{place}, served", "status 9: ", bench.result(["serve", place, str(port.number), "1"], folder))
    bench.same("no folder is made", False, os.path.exists(os.path.join(folder, "missing")))

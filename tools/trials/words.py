"""The program's words, and what it prints and answers without a server."""
import os

from served import Port, Started, exchange
from trials.talk import Account, asked, whole_answer

USAGE = (
    "status 2: usage: admin_cli play | serve FILE PORT COUNT [WSPORT WSCOUNT] | gen N SEED | check FILE | grain SOCKET COUNT"
    " | access FILE GRAIN | preview FILE GRANT | collect FILE GRAIN GRANT\n"
)
# Words that are none of the program's lines.
WRONG = [
    "", "--help", "PLAY", "pla", "play now", "serve", "serve a.db 8080", "serve a.db 0 1", "serve a.db 65536 1", "serve a.db 8080 0",
    "serve a.db 8080 1000001", "serve -a.db 8080 1", "serve a.db 8080 1 1", "serve a.db 8080 1 0 1", "serve a.db 8080 1 65536 1",
    "serve a.db 8080 1 8081 0", "serve a.db 8080 1 8081 1000001", "serve -a.db 8080 1 8081 1", "serve a.db 8080 0 8081 1", "serve a.db 8080 1 8081 1 1",
    "gen 1", "gen 0 1", "gen 100001 1", "gen 00000000001 1", "gen 1 x", "gen 1 -1", "check", "check a.db b.db", "check -a.db", "check \udcff.db",
    "grain a.sock", "grain a.sock 0", "grain a.sock 1000000001",
    "access", "access a.db", "access a.db x", "access a.db 4294967296", "access -a.db 1", "preview a.db 00000000001", "preview a.db 1 1",
]
ADA = Account(1, "ada", "Ada%20Holm")
ADA_LOGIN = "AQEB" * 10 + "AQE"


def get(host, target="/hello"):
    return f"GET {target} HTTP/1.1\r\nHost: {host}\r\n\r\n"


def post(target, body):
    lines = f"Host: desk\r\nAuthorization: Bearer {ADA_LOGIN}\r\nContent-Length: {len(body)}\r\n"
    return f"POST {target} HTTP/1.1\r\n{lines}\r\n{body}"


# Requests of a seed: how many were answered, how many texts were asked of grains, how long the history is, and the answers' length and digest.
MADE = [
    ("gen 1 0", 1, 0, 1, "125 1b61b0d43cef8af386c22548fd69a60fb6a4a83d89abdc8bf816310e0c05d437"),
    ("gen 1 1", 1, 0, 0, "111 f7f0265cbe5f894f6ee539a1614ae8b6ce7b425c9e88dfaefc5d11b8b1a4e2a0"),
    ("gen 0000000001 0000000001", 1, 0, 0, "111 f7f0265cbe5f894f6ee539a1614ae8b6ce7b425c9e88dfaefc5d11b8b1a4e2a0"),
    ("gen 2000 7", 2000, 255, 1061, "253722 4c8524c304950d9203f9346bde7ecb8254f56c1033476436215e1bc8e0dad707"),
]
A_GRAIN, NO_REQUEST, NO_ROUTE = '{"app":1,"title":"Plans"}', "hello\r\n\r\n", (404, '{"error":"NoRoute","of":[]}')
# What is played on standard input from the small book, the status, and what is answered.
PLAYED = [
    ("nothing", "", 0, []),
    ("a session that is let through", get("ui-" + 32 * "1"), 0, [(200, asked("GET /hello", ADA, "view,edit,manage", 1, lines=()))]),
    ("one that isn't", get("ui-" + 32 * "4"), 0, [(403, '{"error":"NoShare","of":[2,3]}')]),
    ("two commands", post("/grains", A_GRAIN) + post("/grains/1/trash", "{}"), 0, [(200, '{"grain":3}'), (200, "{}")]),
    ("no request", NO_REQUEST, 3, [(400, '{"error":"BadHead","of":[0]}')]),
    ("a path that isn't there", get("none"), 0, [NO_ROUTE]),
    ("no request behind one of 35 bytes", get("none") + NO_REQUEST, 3, [NO_ROUTE, (400, '{"error":"BadHead","of":[35]}')]),
    ("the input ends within a head", "GET /hel", 6, []),
    ("the input ends within a body", post("/grains", "{}")[:-1], 6, []),
]
# Lines that have something to print.
PRINTING = ["", "play", "gen 1 1", "check full.db", "grain full.sock 1", "serve full.db PORT 1"]


def words(bench):
    folder = bench.place.make("words")
    for line in WRONG:
        bench.same(f"no line: {ascii(line)}", USAGE, bench.result(line.split(), folder))
    bench.same("nothing was made", [], os.listdir(folder))
    for line, requests, forwarded, entries, output in MADE:
        summary = f"status 0: requests {requests}\nforwarded {forwarded}\nentries {entries}\noutput {output}\n"
        bench.same(line, summary, bench.result(line.split(), folder))
    for name, given, status, answers in PLAYED:
        printed = "".join(whole_answer(*answer) for answer in answers)
        bench.same(f"play: {name}", f"status {status}: {printed}", bench.result(["play"], folder, given.encode()))
    input_fails(bench, folder)
    output_fails(bench, folder)


def input_fails(bench, folder):
    """A folder can't be read."""
    given = os.open(folder, os.O_RDONLY)
    bench.same("play: an input that fails", "status 4: ", bench.end_of(Started(bench.program, ["play"], folder, given=given)))
    os.close(given)


def output_fails(bench, folder):
    """Nothing can be written to a full device."""
    port = Port()
    with open("/dev/full", "wb", buffering=0) as full:
        for line in PRINTING:
            words = line.replace("PORT", str(port.number)).split()
            bench.same(f"an output that fails: {line}", 5, bench.start(words, folder, get("none").encode(), out=full).status())
        server = bench.serve(folder, port, 1, file="full.db", out=full)
        exchange(port.number, b"")
        bench.same("an output that fails: serve, at its end", 5, server.status())

"""The programs of applications: which one is started for a grain, with what, in which folder, what it prints and keeps, and what bad ones can do."""
import json
import os
import signal

from served import Port, end_process, place_of, processes, until
from trials.rows import ADMIN, MANIFEST
from trials.talk import Ask, Relayed, Runs, asked, count_of

# A program that tells how it was started, and how often in its folder. What it does beside that stands in ACT, for each way that a row names.
PROGRAM = '''#!/usr/bin/env python3
import json, os, socketserver, subprocess, sys, threading
NAME = "{name}"
with open("starts", "a") as file:
    file.write("started\\n")
print(NAME, "begins", file=sys.stderr, flush=True)


def told():
    with open("starts") as file:
        starts = len(file.readlines())
    named = ("HOME", "LANG", "LUMBYTE_SERVER")
    return json.dumps(dict(name=NAME, words=sys.argv[1:], folder=os.getcwd(), starts=starts, variables=[os.environ[one] for one in named],
                           others=sorted(set(os.environ) - {{*named, "PATH"}}), token=len(token)))


class Answering(socketserver.StreamRequestHandler):
    def handle(self):
        while self.rfile.readline().strip():
            pass
        {act}
        self.wfile.write(b"HTTP/1.1 200 OK\\r\\nContent-Type: text/plain\\r\\nContent-Length: %d\\r\\n\\r\\n" % len(text) + text)


token = sys.stdin.readline().strip()
threading.Thread(target=lambda: (sys.stdin.read(), os._exit(0)), daemon=True).start()
if os.path.exists(sys.argv[2]):
    os.remove(sys.argv[2])
listener = socketserver.UnixStreamServer(sys.argv[2], Answering)
print("ready", flush=True)
while True:
    listener.handle_request()
'''
TELLS = "text = told().encode()"
GARBAGE = 'text = b""; self.wfile.write(bytes(range(256)) * 16); return'
FLOODS = 'sys.stderr.write("x" * 79 + "\\n") if not [sys.stderr.write(40000 * ("y" * 79 + "\\n"))] else 0; print(100000 * "z"); text = told().encode()'
FORKS = 'subprocess.Popen(["sleep", "600"]); text = told().encode()'
CLOSES = 'os.dup2(os.open("/dev/null", os.O_RDONLY), 0); text = told().encode()'
# What a log may have, with the one before it, in bytes.
MOST = 2 * 524288

STAND = [
    Ask("an application", "first", "POST desk/apps", MANIFEST, 200, '{"app":1}'),
    Ask("another", "first", "POST desk/apps", MANIFEST, 200, '{"app":2}'),
    Ask("a grain of the first", "first", "POST desk/grains", '{"app":1,"title":"Minutes"}', 200, '{"grain":1}'),
    Ask("one of the second", "first", "POST desk/grains", '{"app":2,"title":"Plans"}', 200, '{"grain":2}'),
    Ask("another of the first", "first", "POST desk/grains", '{"app":1,"title":"Songs"}', 200, '{"grain":3}'),
]
OPENED = [Ask(f"grain {n} is opened", "first", f"POST desk/grains/{n}/open", "{}", 200, f'{{"key":"$key_{n}","session":{n}}}') for n in (1, 2, 3)]
STOP, WAKE = (Ask(f"grain 2: {what}", "first", f"POST desk/grains/2/{what}", "{}", 200, "{}") for what in ("stop", "wake"))
FAILS = Ask("it doesn't start", "first", "POST desk/grains/2/wake", "{}", 502, '{"error":"StartFailed","of":[]}')
BAD = Ask("its answer is none", "", "GET ui-$key_2/", None, 502, '{"error":"BadAnswer","of":[0]}')


def install(server, number, name, act=TELLS, mode=0o755):
    """Puts a program in place as that of an application."""
    folder = os.path.join(server.folder, f"{server.file}.apps")
    os.makedirs(folder, exist_ok=True)
    write(os.path.join(folder, str(number)), PROGRAM.format(name=name, act=act), mode)


def write(path, text, mode):
    with open(path + ".new", "w") as file:
        file.write(text)
    os.chmod(path + ".new", mode)
    os.rename(path + ".new", path)


def told(server, name, grain, run, starts):
    """What a program of that name tells, of a grain's run, started so often in its folder."""
    folder = server.folder_of(grain)
    words = ["grain", os.path.join(server.runs(), f"run-{run}.sock"), "1000000000"]
    variables = [folder, "C.UTF-8", f"127.0.0.1:{server.port}"]
    return Relayed(json.dumps(dict(name=name, words=words, folder=folder, starts=starts, variables=variables, others=[], token=43)))


def visit(name, grain, text):
    return Ask(name, "", f"GET ui-$key_{grain}/", None, 200, text)


def log_of(server, grain):
    """What a grain's log has; nothing where there is none yet."""
    path = server.folder_of(grain) + ".log"
    if not os.path.exists(path):
        return ""
    with open(path) as file:
        return file.read()


def mode_of(path):
    return oct(os.stat(path).st_mode & 0o777)


def programs(bench):
    folder, port = bench.place.make("programs"), Port()
    talk = bench.talk(folder, port, 1000000)
    server = talk.server
    install(server, 1, "one")
    talk.play(STAND + OPENED)
    talk.play([
        visit("the program of its application", 1, told(server, "one", 1, 1, 1)),
        visit("where there is none, the built-in one", 2, asked("GET /", ADMIN, "view,edit", 2)),
        visit("another grain's folder is another", 3, told(server, "one", 3, 3, 1)),
    ])
    install(server, 2, "two")
    talk.play([visit("one that runs stays", 2, asked("GET /", ADMIN, "view,edit", 2)), STOP, WAKE, visit("the next start takes it", 2, told(server, "two", 2, 4, 1))])
    talk.play([STOP, WAKE, visit("what it kept is there", 2, told(server, "two", 2, 5, 2))])
    until("what it printed", lambda: log_of(server, 2).count("\n") == 2)
    bench.same("its log", "two begins\ntwo begins\n", log_of(server, 2))
    bench.same("who may look into its folder", "0o700", mode_of(server.folder_of(2)))
    bench.same("who may read its log", "0o600", mode_of(server.folder_of(2) + ".log"))
    bench.same("it is killed", -signal.SIGKILL, server.stop())
    until("the end of its grains' programs", lambda: not ours(bench))
    after_a_kill(bench, folder, port, talk)


def ours(bench):
    """The processes that are left, but for those of the trial's programs that never read their input to its end."""
    for process in bench.place.left():
        end_process(process)
    return bench.place.left()


def after_a_kill(bench, folder, port, talk):
    """A new server on the file finds what grains kept; and then a grain's program does what it shouldn't, beside one that is well."""
    talk.server = server = bench.serve(folder, port, 1000000)
    talk.secrets.known = {name: value for name, value in talk.secrets.known.items() if not name.startswith("key")}
    talk.play(OPENED)
    talk.play([visit("what it kept is there after a kill", 2, told(server, "two", 2, 2, 3))])
    well = visit("another grain is well", 1, told(server, "one", 1, 1, 2))
    starts = 3
    for name, act in (("floods", FLOODS), ("forks", FORKS), ("closes its input", CLOSES)):
        install(server, 2, name, act)
        starts += 1
        run = starts
        talk.play([STOP, WAKE, visit(name, 2, told(server, name, 2, run, starts)), visit(f"{name}, again", 2, told(server, name, 2, run, starts)), well])
    install(server, 2, "garbage", GARBAGE)
    talk.play([STOP, WAKE, BAD, well])
    bad_starts(bench, talk, well)
    logs = [server.folder_of(2) + end for end in (".log", ".log.1")]
    sizes = [os.path.getsize(path) for path in logs]
    bench.same("a log is bounded", True, 0 < sum(sizes) <= MOST)
    bench.same("forks are left to who runs the server", 2, len(sleepers(server)))
    for process in sleepers(server):
        end_process(process)
    bench.same("it is killed again", -signal.SIGKILL, server.stop())
    ours(bench)


def sleepers(server):
    """The processes that a program left behind in its grain's folder."""
    return [process for process in processes() if place_of(process) == server.folder_of(2) and process not in (server.number,)]


def bad_starts(bench, talk, well):
    """Programs that don't come up: each is told, and none of them is left."""
    server = talk.server
    path = os.path.join(server.folder, f"{server.file}.apps", "2")
    for name, text, mode in (
        ("not a program", "#!/bin/sh\nexit 3\n", 0o644),
        ("one that ends", "#!/bin/sh\necho sorry >&2\nexit 3\n", 0o755),
        ("another line", "#!/bin/sh\necho nearly\nexec sleep 600\n", 0o755),
    ):
        write(path, text, mode)
        bench.tally.title = f"programs: {name}"
        talk.play([STOP, FAILS, well])
    bench.tally.title = "programs"
    until("what it complained of", lambda: "sorry\n" in log_of(server, 2))
    talk.play([Runs("only the others run", ["run 1", "run 3"], ["run-1.sock", "run-3.sock"])])

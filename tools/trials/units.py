"""Units of systemd, by `tools/service`: what is printed runs a server, and systemd reads it, whatever stands in the paths."""
import os
import re
import shlex
import shutil
import signal
import subprocess
import sys

from served import Port, Started, listeners_on, until

TOOLS = os.path.dirname(os.path.dirname(os.path.abspath(__file__)))
# A name of a folder with what systemd reads in a way of its own.
ODD = "a b\"c' %z $d\\e;f"
USAGE = "usage: tools/service PROGRAM FILE PORT [WSPORT]"
# Words that are wrong: PROGRAM stands for the program.
WRONG = [
    [], ["PROGRAM"], ["PROGRAM", "club.db"], ["PROGRAM", "club.db", "0"], ["PROGRAM", "club.db", "65536"], ["PROGRAM", "club.db", "x"],
    ["PROGRAM", "club.db", "1", "1"], ["PROGRAM", "club.db", "1", "01"], ["PROGRAM", "club.db", "1", "2", "3"], ["PROGRAM", "nowhere/club.db", "1"],
    ["PROGRAM", ".", "1"], ["nothing", "club.db", "1"], ["PROGRAM", "a\nb.db", "1"], ["PROGRAM", 107 * "a", "1"],
]


def units(bench):
    folder = bench.place.make(ODD)
    for name in ("service", "supervise"):
        shutil.copy(os.path.join(TOOLS, name), folder)
    program = os.path.join(folder, "program")
    shutil.copy(bench.program, program)
    wrong_words(bench, folder, program)
    ports = (Port(), Port())
    unit = made(folder, program, "club.db", *(str(port.number) for port in ports))
    bench.same("the unit is made", 0, unit.returncode)
    serves(bench, folder, unit.stdout, ports)
    is_read(bench, folder, unit.stdout)


def made(folder, *words):
    """How the script ends with these words, in a folder."""
    return subprocess.run([sys.executable, os.path.join(folder, "service"), *words], cwd=folder, capture_output=True, text=True, check=False)


def wrong_words(bench, folder, program):
    for words in WRONG:
        ended = made(folder, *(program if word == "PROGRAM" else word for word in words))
        bench.same(f"wrong words: {words}", (2, "", True), (ended.returncode, ended.stdout, USAGE in ended.stderr))


def line_of(unit, name):
    """What a line of a unit has behind its name."""
    return re.search(rf"^{name}=(.*)$", unit, re.MULTILINE)[1]


def serves(bench, folder, unit, ports):
    """Its words, read as systemd does, start a server, which a signal ends in order."""
    words = [word.replace("%%", "%") for word in shlex.split(line_of(unit, "ExecStart").removeprefix(":"))]
    count = "1000000"
    paths = [os.path.join(folder, name) for name in ("supervise", "program", "club.db")]
    numbers = [str(port.number) for port in ports]
    bench.same("its words", ["/bin/bash", paths[0], "-t", "20", paths[1], "serve", paths[2], numbers[0], count, numbers[1], count], words)
    bench.same("what may be written", [folder], [word.replace("%%", "%") for word in shlex.split(line_of(unit, "ReadWritePaths"))])
    server = Started(words[0], words[1:], "/")
    until("a server", lambda: server.has_ended() or all(listeners_on(port.number) for port in ports) and server.printed())
    server.process.send_signal(signal.SIGTERM)
    bench.same("a signal ends it in order", True, re.fullmatch(r"status 0: login \S{43}\nserved 0\n", bench.end_of(server)) is not None)


def is_read(bench, folder, unit):
    """systemd, where it is here, finds nothing wrong with it, and something with one that isn't quoted so."""
    if not shutil.which("systemd-analyze"):
        print("left out: systemd-analyze isn't here (on Debian, apt-get install systemd)")
        return
    bench.same("systemd reads it", (0, ""), verified(folder, "lumbyte.service", unit))
    complaint = verified(folder, "other.service", unit.replace("%%", "%"))[1]
    bench.same("it complains of one in which a percent sign stands alone", True, "specifier" in complaint)


def verified(folder, name, unit):
    """What systemd says of a unit, and its status."""
    path = os.path.join(folder, name)
    with open(path, "w", encoding="utf-8") as file:
        file.write(unit)
    # (its user may not be here, which systemd doesn't look for)
    ended = subprocess.run(["systemd-analyze", "verify", path], capture_output=True, text=True, check=False)
    return ended.returncode, ended.stdout + ended.stderr

"""Starts the program, asks it and ends it: what tools/try-program and tools/try-serve share.

All that is started here works in one temporary folder. Whatever is left there at the end, the programs of grains too whose server was killed, is
found in /proc by the folder that it works in, and ended, each process by its number. Linux alone.
"""
import ctypes
import os
import re
import shutil
import signal
import socket
import stat
import struct
import subprocess
import sys
import tempfile
import time

# How many seconds anything is waited for before it counts as not coming.
PATIENCE = 20
# How many seconds lie between two looks at what is waited for.
PAUSE = 0.002
# The signals by which a run is ended from outside.
ENDING = (signal.SIGINT, signal.SIGTERM, signal.SIGHUP)
# The state of a listening socket in /proc/net/tcp, and the option of Linux by which orphans come to this process.
LISTENING, ADOPT = "0A", 36


def exit_by(number, _):
    """Exits with the status that a signal stands for; what has to be cleared is cleared on the way."""
    sys.exit(128 + number)


def pass_over(*_):
    """Does nothing at a signal that is ignored here, which what is started here doesn't ignore."""


def end_in_order():
    """Has signals end this process in order, and makes processes whose parent ended its children, so that it can wait for them."""
    for number in ENDING:
        signal.signal(number, pass_over if signal.getsignal(number) is signal.SIG_IGN else exit_by)
    ctypes.CDLL(None).prctl(ADOPT, 1, 0, 0, 0)


class Late(Exception):
    """Something didn't come in time."""


def until(what, look):
    """What `look` gives once that isn't false."""
    end = time.monotonic() + PATIENCE
    while True:
        found = look()
        if found:
            return found
        if time.monotonic() > end:
            raise Late(f"{what}: not within {PATIENCE} seconds")
        time.sleep(PAUSE)


# Processes.

def processes():
    return [int(name) for name in os.listdir("/proc") if name.isdigit()]


def state_of(process):
    """The state of a process, as a letter, and the number of its parent."""
    try:
        with open(f"/proc/{process}/stat") as file:
            state, parent = file.read().rsplit(")", 1)[1].split()[:2]
            return state, int(parent)
    except OSError:
        return "gone", None


def words_of(process):
    """The words of a process; none where it has ended."""
    try:
        with open(f"/proc/{process}/cmdline", "rb") as file:
            return [os.fsdecode(word) for word in file.read().split(b"\0")[:-1]]
    except OSError:
        return []


def place_of(process):
    """The folder that a process works in, or nothing where it has ended or is none of ours."""
    try:
        return os.readlink(f"/proc/{process}/cwd")
    except OSError:
        return ""


def open_files(process):
    """What a process has open, with the numbers of pipes and sockets left out."""
    folder = f"/proc/{process}/fd"
    return sorted(re.sub(r":\[\d+\]", "", os.readlink(f"{folder}/{name}")) for name in os.listdir(folder))


def left_to_read(path):
    """What nobody has read yet of a pipe whose other end is open; of one that is closed, with a word that says so."""
    found = b""
    end = os.open(path, os.O_RDONLY | os.O_NONBLOCK)
    try:
        while piece := os.read(end, 1 << 16):
            found += piece
        return found + b" (and no more may come)"
    except BlockingIOError:
        return found
    finally:
        os.close(end)


def children_of(process):
    return [child for child in processes() if state_of(child)[1] == process]


def end_process(process):
    """Ends a process, and waits for it where it is a child of this one."""
    try:
        os.kill(process, signal.SIGKILL)
    except ProcessLookupError:
        return
    until(f"the end of process {process}", lambda: is_gone(process))


def wait_for_ended():
    """Waits for all children of this process that have ended, those too that it was left by others."""
    try:
        while os.waitpid(-1, os.WNOHANG)[0]:
            pass
    except ChildProcessError:
        pass


def is_gone(process):
    """Whether a process has ended; a child of this one is waited for then."""
    try:
        return os.waitpid(process, os.WNOHANG)[0] == process
    except ChildProcessError:
        return state_of(process)[0] in ("gone", "Z", "X")


# Files and sockets.

def sockets_in(folder):
    """The names of the socket files in a folder; none where there is no folder."""
    names = sorted(os.listdir(folder)) if os.path.isdir(folder) else []
    return [name for name in names if stat.S_ISSOCK(os.lstat(os.path.join(folder, name)).st_mode)]


def listeners_on(port):
    """The addresses of this machine at which somebody listens on a port."""
    found = []
    for table, family in (("tcp", socket.AF_INET), ("tcp6", socket.AF_INET6)):
        try:
            with open(f"/proc/net/{table}") as file:
                rows = [line.split() for line in file.readlines()[1:]]
        except OSError:
            continue
        for row in rows:
            address, at = row[1].split(":")
            if int(at, 16) == port and row[3] == LISTENING:
                numbers = bytes.fromhex(address)
                words = struct.unpack(f">{len(numbers) // 4}I", numbers)
                found.append(socket.inet_ntop(family, struct.pack(f"={len(words)}I", *words)))
    return found


class Port:
    """A port of 127.0.0.1 that is free, and is kept from others for as long as this stands; the program can bind it all the same."""

    def __init__(self):
        self.held = socket.socket()
        self.held.setsockopt(socket.SOL_SOCKET, socket.SO_REUSEADDR, 1)
        self.held.bind(("127.0.0.1", 0))
        self.number = self.held.getsockname()[1]


# What is started.

class Started:
    """The program, started with words in a folder of a workplace."""

    def __init__(self, program, words, folder, given=subprocess.DEVNULL, out=None, apart=False):
        self.said = out or tempfile.TemporaryFile()
        self.complained = tempfile.TemporaryFile()
        self.process = subprocess.Popen(
            [program, *words], cwd=folder, stdin=given, stdout=self.said, stderr=self.complained, start_new_session=apart
        )

    @property
    def number(self):
        return self.process.pid

    def printed(self):
        """What it has printed so far. (Its place in the file is left where it is, since the program writes there.)"""
        return os.pread(self.said.fileno(), 1 << 24, 0)

    def complaints(self):
        return os.pread(self.complained.fileno(), 1 << 24, 0)

    def has_ended(self):
        return self.process.poll() is not None

    def status(self):
        """The status that it ends with, or the signal's number below 0."""
        try:
            return self.process.wait(PATIENCE)
        except subprocess.TimeoutExpired:
            raise Late(f"{' '.join(map(str, self.process.args[1:]))}: it had not ended after {PATIENCE} seconds") from None

    def stop(self, by=signal.SIGKILL):
        """Ends it by a signal."""
        self.process.send_signal(by)
        return self.status()


class Server(Started):
    """The program's line `serve`, on a file of a folder, with a port for tunnels and their number where both are given."""

    def __init__(self, program, folder, port, count, file="club.db", tunnels=None, **how):
        self.folder, self.file, self.port, self.held, self.tunnels = folder, file, port.number, (port, tunnels), None
        self.is_new = not os.path.exists(os.path.join(folder, file))
        words = ["serve", file, str(self.port), str(count)]
        if tunnels:
            self.tunnels = tunnels[0].number
            words += [str(self.tunnels), str(tunnels[1])]
        super().__init__(program, words, folder, **how)
        until(f"a server on port {self.port}", self.is_up)

    def is_up(self):
        """Whether it takes connections, and tunnels where it has them, and has said the first login where its file was new, or has ended."""
        if self.has_ended():
            return True
        ports = [self.port] if self.tunnels is None else [self.port, self.tunnels]
        return all("127.0.0.1" in listeners_on(port) for port in ports) and (not self.is_new or b"\n" in self.printed())

    def login(self):
        """The first login, where it printed one."""
        found = re.match(rb"login ([^\n]*)\n", self.printed())
        return found[1].decode() if found else None

    def runs(self):
        """The folder of its grains' sockets."""
        return os.path.join(self.folder, f"{self.file}.runs")

    def folder_of(self, grain):
        """The folder of a grain."""
        return os.path.join(self.folder, f"{self.file}.grains", str(grain))

    def program_of(self, run):
        """The process that is the program of a run, or None."""
        words = ["grain", os.path.join(self.runs(), f"run-{run}.sock")]
        return next((child for child in children_of(self.number) if words_of(child)[1:3] == words), None)

    def handed_to(self, run):
        """What a run's program was handed on its standard input. (The small program that stands for an application never reads it.)"""
        return left_to_read(f"/proc/{self.program_of(run)}/fd/0")


class Workplace:
    """A temporary folder in which programs are started. At its end what still runs there is ended, and the folder is removed."""

    def __init__(self, name):
        self.folder = os.path.realpath(tempfile.mkdtemp(prefix=f"{name}-"))

    def __enter__(self):
        return self

    def __exit__(self, *_):
        # (a second signal waits until all is cleared)
        signal.pthread_sigmask(signal.SIG_BLOCK, ENDING)
        self.clear()
        shutil.rmtree(self.folder, ignore_errors=True)
        signal.pthread_sigmask(signal.SIG_UNBLOCK, ENDING)

    def make(self, name):
        """A new folder in it."""
        folder = os.path.join(self.folder, name)
        os.mkdir(folder)
        return folder

    def left(self):
        """The processes that work in it."""
        return [one for one in processes() if (place_of(one) + "/").startswith(self.folder + "/")]

    def clear(self):
        """Ends all that runs in it; what a process starts meanwhile is found by the next look."""
        while self.left():
            for process in self.left():
                end_process(process)
        wait_for_ended()


# Clients.

def request_text(method, host, target, token="", body=None, lines=()):
    """A request, with the lines that clients usually send."""
    head = [f"{method} {target} HTTP/1.1", f"Host: {host}", "User-Agent: trial", "Accept: */*", *lines]
    if token:
        head.append(f"Authorization: Bearer {token}")
    content = body if isinstance(body, bytes) else (body or "").encode()
    if body is not None:
        head.append(f"Content-Length: {len(content)}")
    return "".join(line + "\r\n" for line in head).encode() + b"\r\n" + content


class Connection:
    """A client's connection, to a port of 127.0.0.1 or to a socket file."""

    def __init__(self, to):
        is_port = isinstance(to, int)
        self.socket = socket.socket(socket.AF_INET if is_port else socket.AF_UNIX)
        self.socket.settimeout(PATIENCE)
        self.socket.connect(("127.0.0.1", to) if is_port else to)
        if is_port:
            self.socket.setsockopt(socket.IPPROTO_TCP, socket.TCP_NODELAY, 1)
        self.held = b""

    def __enter__(self):
        return self

    def __exit__(self, *_):
        self.socket.close()

    def send(self, data):
        self.socket.sendall(data)

    def say_end(self):
        """Says that no more comes."""
        self.socket.shutdown(socket.SHUT_WR)

    def reset(self):
        """Ends the connection at once, whatever is under way."""
        self.socket.setsockopt(socket.SOL_SOCKET, socket.SO_LINGER, struct.pack("ii", 1, 0))
        self.socket.close()

    def take(self):
        piece = self.socket.recv(1 << 20)
        self.held += piece
        return piece

    def read_all(self):
        """All that comes, to the end or to where the connection was reset."""
        try:
            while self.take():
                pass
        except ConnectionResetError:
            pass
        return self.held

    def read_answer(self):
        """The next answer, or what there is of it at the end."""
        while b"\r\n\r\n" not in self.held and self.take():
            pass
        head, _, body = self.held.partition(b"\r\n\r\n")
        found = re.search(rb"(?i)\r\ncontent-length: (\d+)", head)
        size = len(head) + 4 + int(found[1] if found else 0)
        while len(self.held) < size and self.take():
            pass
        answer, self.held = self.held[:size], self.held[size:]
        return answer


def exchange(to, data):
    """What comes back of bytes on a connection of their own, on which no more is sent, to its end."""
    with Connection(to) as connection:
        try:
            connection.send(data)
            connection.say_end()
        except OSError:
            # (ended by the other side, which may have answered before)
            pass
        return connection.read_all()

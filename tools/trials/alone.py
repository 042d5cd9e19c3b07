"""A grain's program by itself: the line `grain`."""
import os
import stat

from served import Connection, exchange, until

HELLO = b"GET /hello HTTP/1.1\r\nHost: sandbox\r\n\r\n"
# The longest text, in bytes, and the head of one whose body makes it so long.
LONGEST = 2097152
POST = "POST /pages HTTP/1.1\r\nHost: sandbox\r\nContent-Length: {}\r\n\r\n"
# What states no text, and isn't answered.
NO_TEXTS = [
    b"", b"GET /hel", b"POST / HTTP/1.1\r\nContent-Length: x\r\n\r\n", b"POST / HTTP/1.1\r\nContent-Length: 1\r\nContent-Length: 1\r\n\r\na",
    b"POST / HTTP/1.1\r\nContent-Length: 5\r\n\r\nbody",
]
MANY = 200


def echo(text):
    return b"HTTP/1.1 200 OK\r\nContent-Type: text/plain\r\nContent-Length: %d\r\n\r\n" % len(text) + text


def post(size):
    """A text of so many bytes."""
    head = POST.format(size)
    head = POST.format(size - len(head))
    return head.encode() + (size - len(head)) * b"a"


def is_socket(path):
    return os.path.lexists(path) and stat.S_ISSOCK(os.lstat(path).st_mode)


def start(bench, folder, count, name="grain.sock"):
    """A grain that is ready at a socket of the folder, and the socket's path."""
    grain = bench.start(["grain", name, str(count)], folder)
    until("a grain that is ready", lambda: grain.printed() or grain.has_ended())
    return grain, os.path.join(folder, name)


def alone(bench):
    folder = bench.place.make("alone")
    answers(bench, folder)
    visitors(bench, folder)
    taken_places(bench, folder)
    bad_places(bench, folder)


def answers(bench, folder):
    """Short texts and long ones, and so many of them."""
    grain, path = start(bench, folder, MANY + 5)
    bench.same("its socket", True, is_socket(path))
    bench.same("a text", echo(HELLO), exchange(path, HELLO))
    bench.same("a text and more", echo(HELLO), exchange(path, HELLO + HELLO))
    for size in (1048640, LONGEST):
        bench.same(f"a text of {size} bytes", echo(post(size)), exchange(path, post(size)))
    bench.same("a text that is too long", b"", exchange(path, post(LONGEST + 1)))
    texts = [b"GET /%d HTTP/1.1\r\n\r\n" % number for number in range(MANY)]
    bench.same("texts that are echoed", MANY, sum(exchange(path, text) == echo(text) for text in texts))
    bench.same("it ends after so many connections", "status 0: ready\n", bench.end_of(grain))


def visitors(bench, folder):
    """Clients that leave, and such as state no text: each of them counts, and the next is answered."""
    left = [b"", b"GET /hel", HELLO, post(1048576)]
    grain, path = start(bench, folder, 2 * (len(left) + len(NO_TEXTS)))
    for data in left:
        with Connection(path) as connection:
            connection.send(data)
        bench.same("the next after one that left", echo(HELLO), exchange(path, HELLO))
    for data in NO_TEXTS:
        bench.same(f"no text: {data.decode()!r}", b"", exchange(path, data))
        bench.same("the next after it", echo(HELLO), exchange(path, HELLO))
    bench.same("each connection counts", "status 0: ready\n", bench.end_of(grain))


def taken_places(bench, folder):
    """A second grain takes the place of the first one's socket, and a third that of the second, which has ended."""
    first, path = start(bench, folder, 1, "taken.sock")
    second, _ = start(bench, folder, 1, "taken.sock")
    bench.same("the second is asked", echo(HELLO), exchange(path, HELLO))
    bench.same("the second ends", "status 0: ready\n", bench.end_of(second))
    bench.same("the first waits", False, first.has_ended())
    third, _ = start(bench, folder, 1, "taken.sock")
    bench.same("the third is asked", echo(HELLO), exchange(path, HELLO))
    bench.same("the third ends", "status 0: ready\n", bench.end_of(third))
    first.stop()


def bad_places(bench, folder):
    """Where no socket can be: in a folder that is missing, in the place of a file or a folder, and at a path that is too long."""
    with open(os.path.join(folder, "kept.sock"), "w") as file:
        file.write("kept")
    for place in ("missing/grain.sock", "kept.sock", ".", 108 * "a"):
        bench.same(f"no socket: {place[:20]}", "status 4: ready\n", bench.result(["grain", place, "1"], folder))
    with open(os.path.join(folder, "kept.sock")) as file:
        bench.same("the file is kept", "kept", file.read())
    grain, path = start(bench, folder, 1, 107 * "a")
    short = os.path.join(folder, "short.sock")
    os.symlink(path, short)
    bench.same("a path as long as may be", echo(HELLO), exchange(short, HELLO))
    bench.same("it ends", "status 0: ready\n", bench.end_of(grain))

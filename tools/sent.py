"""What the conversations of crates/test_player/data send, as bytes: what tools/try-noise and tools/try-memory share. Their notation is told there."""
import base64
import json
import os
import re

TOP = os.path.dirname(os.path.dirname(os.path.realpath(__file__)))
DATA = os.path.join(TOP, "crates", "test_player", "data")
ACCOUNTS = {"ada": 1, "zoe": 2, "ben": 3, "dan": 4}
WORD = re.compile(r"\\(key|token|seq|seqkey|hex|times)\(([^()]*)\)")
REQUEST = re.compile(r"(ada|zoe|ben|dan|nobody|bearer \S+|session \S+|api \S+|run \S+) ([A-Z]+) (\S+)(?: (.*))?$")


def secret_of(number):
    """The 32 bytes of the secret that is drawn so late where they come in sequence."""
    return number.to_bytes(4, "big") * 8


def token_of(secret):
    return base64.urlsafe_b64encode(secret).rstrip(b"=")


def value_of(found):
    """What a word behind a backslash stands for."""
    word, given = found[1].decode(), found[2]
    if word == "times":
        count, _, piece = given.partition(b",")
        return int(count) * piece
    if word == "hex":
        return bytes.fromhex(given.decode())
    number = int(given)
    if word == "key":
        return given * 32
    if word == "token":
        return token_of(bytes([number]) * 32)
    secret = secret_of(number)
    return token_of(secret) if word == "seq" else secret[:16].hex().encode()


def filled(text):
    """A text with its words filled in."""
    return re.sub(WORD.pattern.encode(), value_of, text.encode())


def request_of(found):
    """The bytes of a request in the short form."""
    who, method, target, body = found[1].split(), found[2], found[3], found[4]
    hosts = {"session": lambda: "ui-" + who[1] + ".example.org", "api": lambda: "api.example.org", "run": lambda: "grain.example.org"}
    host = hosts.get(who[0], lambda: "desk.example.org")()
    token = f"\\token({ACCOUNTS[who[0]]})" if who[0] in ACCOUNTS else who[1] if who[0] in ("bearer", "api", "run") and who[1] != "-" else None
    content = filled(body) if body is not None else b""
    head = [f"{method} {target} HTTP/1.1", f"Host: {host}"]
    head += [f"Authorization: Bearer {token}"] if token else []
    head += [f"Content-Length: {len(content)}"] if body is not None else []
    return filled("".join(line + "\r\n" for line in head) + "\r\n") + content


def sent_by(lines):
    """What the lines of a conversation send."""
    sent = b""
    for line in lines:
        found = REQUEST.match(line)
        if found:
            sent += request_of(found)
        elif line[:2] == "> " or line == ">":
            sent += filled(line[2:-1]) if line.endswith("\\") else filled(line[2:]) + b"\r\n"
    return sent


def conversations(name):
    """The conversations of a text: their titles, and their lines."""
    with open(os.path.join(DATA, name), encoding="utf-8") as file:
        parts = re.split(r"^== (.*)\n", file.read(), flags=re.MULTILINE)[1:]
    return [(title, lines.splitlines()) for title, lines in zip(parts[::2], parts[1::2])]


def names_by_status():
    """The names of the server's own refusals and faults, with their statuses, as docs/API.md lists them."""
    found = {}
    with open(os.path.join(TOP, "docs", "API.md"), encoding="utf-8") as file:
        for line in file:
            row = re.match(r"\| ((?:`[A-Z]\w+`(?:, )?)+) \| ([\d, ]+) \|", line)
            if row:
                names, statuses = re.findall(r"`(\w+)`", row[1]), [int(one) for one in row[2].split(",")]
                for number, name in enumerate(names):
                    found[name] = statuses[number] if len(statuses) == len(names) else statuses[0]
    return found


def fault_of(body):
    """The name in one of the server's own refusals or faults; nothing where it is none."""
    try:
        value = json.loads(body)
    except ValueError:
        return None
    if not isinstance(value, dict) or set(value) != {"error", "of"} or not isinstance(value["of"], list):
        return None
    return value["error"] if all(isinstance(one, int) for one in value["of"]) else None

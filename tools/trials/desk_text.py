"""The desk's page as a server answers it: the lines of its head, and a policy that lets a browser have its own script and style, and nothing else."""
import base64
import hashlib
import re

from served import Port, exchange, request_text

# What its policy allows beside them.
ALLOWED = "connect-src 'self'; img-src data:; base-uri 'none'; form-action 'none'; frame-ancestors 'none'"
# The lines of its head by their names, but for its length and its policy; a proxy has others beside them.
LINES = {
    "content-type": "text/html; charset=utf-8", "cache-control": "no-cache", "referrer-policy": "no-referrer", "x-content-type-options": "nosniff",
}
# What a browser would load, or do, in an element of another kind or by an attribute.
FOREIGN = r"""(?i)<(?:script|style|link|img|iframe|form)\b[^>]*\b(?:src|action|on[a-z]+)\s*=|<link(?! rel="icon" href="data:,")"""


def sum_in(text, tag):
    """The sum of what stands in an element of a page, as a policy has it."""
    (found,) = re.findall(f"<{tag}>(.*?)</{tag}>", text, re.DOTALL)
    return f"'sha256-{base64.b64encode(hashlib.sha256(found.encode()).digest()).decode()}'"


def parts_of(answer):
    """The status of an answer, the lines of its head by their names in small letters, and its body."""
    head, _, body = answer.decode().partition("\r\n\r\n")
    status, *lines = head.split("\r\n")
    return status, {name.lower(): value for name, _, value in (line.partition(": ") for line in lines)}, body


def is_page(same, answer):
    """Compares an answer with what the desk's page is answered with, and gives its text."""
    status, lines, text = parts_of(answer)
    names = [line.partition(":")[0].lower() for line in answer.decode().partition("\r\n\r\n")[0].split("\r\n")]
    same("what stands twice in its head", [], sorted({name for name in names if names.count(name) > 1}))
    same("the page's status", "HTTP/1.1 200 OK", status)
    same("the lines of its head", LINES, {name: lines.get(name) for name in LINES})
    policy = f"default-src 'none'; {ALLOWED}; script-src {sum_in(text, 'script')}; style-src {sum_in(text, 'style')}"
    same("its policy", policy, lines.get("content-security-policy"))
    same("its length", len(text.encode()), int(lines["content-length"]))
    same("what it loads from elsewhere", [], re.findall(FOREIGN, text))
    return text


def page(bench):
    """The page, for whoever asks: whole, its head alone, and where it isn't."""
    port = Port()
    talk = bench.talk(bench.place.make("page"), port, 7)

    def asked(method, host, target, body=None):
        return exchange(port.number, request_text(method, host, target, body=body))

    text = is_page(bench.same, asked("GET", "desk.club.example", "/"))
    bench.same("it is a page", True, text.startswith("<!DOCTYPE html>\n") and text.endswith("</html>\n"))
    bench.same("with anything behind a question mark", text, parts_of(asked("GET", "a", "/?b=c"))[2])
    status, lines, body = parts_of(asked("HEAD", "desk.club.example", "/"))
    bench.same("its head alone", ("HTTP/1.1 200 OK", str(len(text.encode())), ""), (status, lines["content-length"], body))
    bench.same("where it isn't: another path", "HTTP/1.1 404 Not Found", parts_of(asked("GET", "a", "/index.html"))[0])
    bench.same("another method", "HTTP/1.1 404 Not Found", parts_of(asked("POST", "a", "/", ""))[0])
    bench.same("the name for tokens", "HTTP/1.1 401 Unauthorized", parts_of(asked("GET", "api.a", "/"))[0])
    bench.ends(talk, 6)

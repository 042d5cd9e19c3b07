"""A collection over random steps: who is owed a share, and who reaches what is listed, are compared with a model of a few lines; and a tunnel."""
import random

from served import Port, request_text
from trials.reports import APP, Desk
from trials.tunnel_rows import closed, said, text
from trials.web_socket import WebSocket

# How many clubs are made, with how many accounts and steps each: 200 steps in all.
CLUBS, ACCOUNTS, STEPS = 5, 12, 40


class Collection:
    """A collection of a curator's, with one grain listed, and what the model knows of it."""

    def __init__(self, desk, seed):
        self.desk, self.chance, self.logins, self.last = desk, random.Random(seed), {}, None
        for place in range(ACCOUNTS):
            made = desk.done(desk.login, "/accounts", {"handle": f"m{seed}_{place}", "name": "M"})
            self.logins[made["account"]] = made["token"]
        self.curator, *self.others = self.logins
        self.listed, self.grain = (self.make("Listed"), self.make("Collection"))
        # The shares of the collection, by account; the members' shares, by account; and the keys of sessions on the listed grain.
        self.shares, self.passed, self.keys, self.link = {}, {}, {}, None
        self.list_anew()

    def done(self, target, body=None):
        answer = self.desk.done(self.logins[self.curator], target, body)
        self.last = answer.get("grant", self.last)
        return answer

    def make(self, title):
        return self.done("/grains", {"app": 1, "title": title})["grain"]

    def list_anew(self):
        """The curator's link is revoked, if there is one, and another takes its place: no member has a share from it."""
        if self.link:
            self.done(f"/grants/{self.link}/revoke")
        self.link, self.passed = self.done(f"/grains/{self.listed}/link", {"assignment": {"base": 0}})["grant"], {}

    def join(self):
        """An account gets one share more of the collection."""
        account = self.chance.choice(self.others)
        made = self.done(f"/grains/{self.grain}/share", {"to": account})["grant"]
        self.shares.setdefault(account, []).append(made)

    def leave(self):
        """A share of the collection is revoked."""
        if self.shares:
            account = self.chance.choice(list(self.shares))
            self.done(f"/grants/{self.shares[account].pop()}/revoke")
            if not self.shares[account]:
                del self.shares[account]

    def take_back(self):
        """A member's share is revoked."""
        if self.passed:
            self.done(f"/grants/{self.passed.pop(self.chance.choice(list(self.passed)))}/revoke")

    def collect(self, account):
        return self.done(f"/grains/{self.grain}/collect", {"account": account, "grant": self.link})

    def collect_all(self):
        """All who are owed a share get one, by account, and so by the numbers of the next grants; how many, as it is told."""
        for account in self.owed():
            self.last += 1
            self.passed[account] = self.last
        return self.done(f"/grains/{self.grain}/collect", {"grant": self.link})

    def owed(self):
        """Who is a member and has no share, by the model."""
        return sorted(account for account in self.shares if account not in self.passed)

    def missing(self):
        return self.done(f"/grains/{self.grain}/missing", {"grant": self.link})["missing"]

    def reaching(self):
        """Who reaches the listed grain, by the model."""
        return sorted([self.curator, *(account for account in self.passed if account in self.shares)])

    def entering(self):
        """Who has access to it, as the desk tells it."""
        lines = self.done(f"/grains/{self.listed}/access")["access"]
        return [line["account"] for line in lines if "account" in line]

    def open_sessions(self):
        """The statuses of a request in each open session; who reaches the grain for the first time opens one."""
        for account in self.reaching():
            if account not in self.keys:
                self.keys[account] = self.desk.done(self.logins[account], f"/grains/{self.listed}/open")["key"]
        return {account: self.status_of(key) for account, key in self.keys.items()}

    def status_of(self, key):
        self.desk.connection.send(request_text("GET", f"ui-{key}", "/"))
        return int(self.desk.connection.read_answer().split()[1])


def take_step(bench, club, title):
    """A step at random, and all members have their shares after some of them."""
    club.chance.choice([club.join, club.join, club.join, club.leave, club.leave, club.take_back, club.list_anew])()
    owed = club.owed()
    bench.same(f"{title}: who is owed a share", owed, club.missing())
    way = club.chance.choice(["none", "none", "each", "all"])
    if way == "each":
        for account in owed:
            club.passed[account] = club.collect(account)["grant"]
    if way == "all":
        bench.same(f"{title}: how many get one", {"shared": len(owed)}, club.collect_all())
        bench.same(f"{title}: how many at once behind that", {"shared": 0}, club.collect_all())
    if way != "none":
        bench.same(f"{title}: then nobody is", [], club.missing())
    account = club.chance.choice(club.others)
    if account not in club.owed():
        bench.same(f"{title}: who is owed none gets none", {}, club.collect(account))


def in_a_tunnel(bench, club, port):
    """A member's tunnel ends at the first message that comes once it is no member."""
    account = club.others[0]
    club.shares.setdefault(account, []).append(club.done(f"/grains/{club.grain}/share", {"to": account})["grant"])
    if account in club.owed():
        club.passed[account] = club.collect(account)["grant"]
    key = club.desk.done(club.logins[account], f"/grains/{club.listed}/open")["key"]
    with WebSocket(port) as tunnel:
        tunnel.open()
        tunnel.put(text(key.encode()), text(b"as a member"))
        bench.same("a member's message reaches the grain", b"as a member", tunnel.read().payload[-11:])
        for grant in club.shares.pop(account):
            club.done(f"/grants/{grant}/revoke")
        tunnel.put(text(b"as nobody"))
        refusal = f'{{"error":"NoShare","of":[{club.listed},{account}]}}'
        bench.same("the next one is refused, and the tunnel ends", [said(refusal), closed(1008)], tunnel.reads())


def collections(bench):
    folder, ports = bench.place.make("collections"), (Port(), Port())
    talk = bench.talk(folder, ports[0], 2, tunnels=(ports[1], 2))
    desk = Desk(ports[0].number, talk.secrets.known["first"])
    desk.done(desk.login, "/apps", APP)
    for seed in range(CLUBS):
        club = Collection(desk, seed)
        for step in range(STEPS):
            title = f"club {seed}, step {step}"
            take_step(bench, club, title)
            bench.same(f"{title}: who has access", club.reaching(), club.entering())
            statuses = club.open_sessions()
            expected = {account: 200 if account in club.reaching() else 403 for account in statuses}
            bench.same(f"{title}: whose session goes on", expected, statuses)
    in_a_tunnel(bench, club, ports[1].number)
    desk.connection.socket.close()
    talk.server.stop()

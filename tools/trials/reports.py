"""Who has access, why, and what a revocation would take, over random tables: what is foretold is compared with what the revocation does."""
import json
import random

from served import Connection, Port, request_text

# How many clubs are made, with how many accounts, grains, grants and revocations each: 200 revocations in all.
CLUBS, ACCOUNTS, GRAINS, GRANTS, REVOCATIONS = 20, 8, 3, 14, 10
# The permissions of the application, in its order.
NAMES = ["see", "add", "edit", "rule"]
APP = {
    "title": "Notes", "version": 1, "permissions": [{"name": name, "title": name} for name in NAMES],
    "roles": [{"title": "Member", "permissions": [True, True]}], "matchRequests": [],
}


class Desk:
    """A connection to the desk, on which one request after another is answered."""

    def __init__(self, port, login):
        self.port, self.login, self.connection = port, login, Connection(port)

    def order(self, token, target, body=None):
        """The status and the value of an answer."""
        self.connection.send(request_text("POST", "desk", target, token, json.dumps(body or {})))
        head, _, text = self.connection.read_answer().partition(b"\r\n\r\n")
        return int(head.split()[1]), json.loads(text)

    def done(self, token, target, body=None):
        """The value of an answer to what is done."""
        status, value = self.order(token, target, body)
        if status != 200:
            raise ValueError(f"{target} {body}: {status} {value}")
        return value


class Club:
    """Accounts, grains and grants that are made at random, over one desk."""

    def __init__(self, desk, seed):
        self.desk, self.chance, self.logins = desk, random.Random(seed), {}
        for place in range(ACCOUNTS):
            made = desk.done(desk.login, "/accounts", {"handle": f"c{seed}_{place}", "name": "A"})
            self.logins[made["account"]] = made["token"]
        self.owners = {}
        for _ in range(GRAINS):
            owner = self.account()
            self.owners[desk.done(self.logins[owner], "/grains", {"app": 1, "title": "T"})["grain"]] = owner
        self.grants, self.links = {}, []
        while len(self.grants) < GRANTS:
            self.give()

    def account(self):
        return self.chance.choice(list(self.logins))

    def grain(self):
        return self.chance.choice(list(self.owners))

    def assignment(self):
        add = [self.chance.random() < 0.3 for _ in NAMES]
        return {"base": self.chance.choice(["all", "all", "none", 0]), "add": add, "remove": [self.chance.random() < 0.2 for _ in NAMES]}

    def needs(self):
        if self.chance.random() < 0.7:
            return []
        permissions = [self.chance.random() < 0.3 for _ in NAMES]
        return [{"held": {"account": self.account(), "grain": self.grain(), "permissions": permissions}}]

    def give(self):
        """A share, a link or a redemption, at random, by an account that may or may not."""
        grain, giver = self.grain(), self.account()
        login, given = self.logins[giver], {"assignment": self.assignment(), "needs": self.needs()}
        kind = self.chance.choice(["share", "share", "share", "link", "redeem"])
        if kind == "redeem" and self.links:
            on, token = self.chance.choice(self.links)
            status, made = self.desk.order(login, "/redeem", {"token": token})
            grain = on
        elif kind == "link":
            status, made = self.desk.order(login, f"/grains/{grain}/link", given)
        else:
            status, made = self.desk.order(login, f"/grains/{grain}/share", {"to": self.account(), **given})
        if status == 200:
            self.grants[made["grant"]] = grain
            if "token" in made:
                self.links.append((grain, made["token"]))

    def owner_of(self, grain):
        return self.logins[self.owners[grain]]

    def access(self):
        """What each node of each grain holds: its line, by its place in the order of reports."""
        lines = [line for grain in self.owners for line in self.desk.done(self.owner_of(grain), f"/grains/{grain}/access")["access"]]
        return {place_of(line): line for line in lines}

    def preview(self, grant):
        return self.desk.done(self.owner_of(self.grants[grant]), f"/grants/{grant}/preview")["losses"]

    def revoke(self, grant):
        self.desk.done(self.owner_of(self.grants[grant]), f"/grants/{grant}/revoke")


def place_of(line):
    """Where a line stands: accounts by grain and number, and then grants by number."""
    return (0, line["grain"], line["account"]) if "account" in line else (1, line["grant"], 0)


def lost(before, after):
    """What a revocation took, as its preview has to say it."""
    lines = []
    for place in sorted(before):
        old, new = before[place], after.get(place)
        kept = new["permissions"] if new else []
        names = [name for name in old["permissions"] if name not in kept]
        if names or new is None:
            lines.append({**old, "entry": new is None, "permissions": names})
    return lines


def is_explained(line, reasons):
    """Whether these explain entry and each permission of a line, each step by earlier ones."""
    facts = [(True, []), *((False, [name]) for name in line["permissions"])]
    if len(reasons) != len(facts):
        return False
    for (entry, names), steps in zip(facts, reasons):
        if any(place >= number for number, step in enumerate(steps) for place in step["from"]):
            return False
        if any((step["grant"] is None) != (step["from"] == []) for step in steps):
            return False
        if steps[-1]["holds"] != {**line, "entry": entry, "permissions": names}:
            return False
    return True


def revocations(bench, club, seed):
    before = club.access()
    for grant in club.chance.sample(list(club.grants), REVOCATIONS):
        foretold = club.preview(grant)
        club.revoke(grant)
        after = club.access()
        bench.same(f"club {seed}: what revoking grant {grant} took is what was foretold", lost(before, after), foretold)
        before = after
    return before


def explanations(bench, club, seed, lines):
    for line in lines.values():
        if "account" in line:
            grain = line["grain"]
            reasons = club.desk.done(club.owner_of(grain), f"/grains/{grain}/why", {"account": line["account"]})["why"]
            bench.same(f"club {seed}: why {line['handle']} has grain {grain}", True, is_explained(line, reasons))


def printed(line):
    """A line of the report as the program prints it."""
    who = f"user {line['account']} {line['handle']}" if "account" in line else f"grant {line['grant']}"
    return f"{who} {','.join(line['permissions']) or '-'}\n"


def reports(bench):
    folder, port = bench.place.make("reports"), Port()
    talk = bench.talk(folder, port, 2)
    desk = Desk(port.number, talk.secrets.known["first"])
    desk.done(desk.login, "/apps", APP)
    grain, lines = None, {}
    for seed in range(CLUBS):
        club = Club(desk, seed)
        lines = revocations(bench, club, seed)
        explanations(bench, club, seed, lines)
        grain = club.grain()
    desk.connection.socket.close()
    talk.server.stop()
    expected = "".join(printed(line) for place, line in sorted(lines.items()) if line["grain"] == grain)
    bench.same("the program's line says the same of the file", f"status 0: {expected}", bench.result(["access", "club.db", str(grain)], folder))
    bench.same("of no grain", "status 11: unknown\n", bench.result(["access", "club.db", "9999"], folder))
    bench.same("of no grant", "status 11: unknown\n", bench.result(["preview", "club.db", "0"], folder))

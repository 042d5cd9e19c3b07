"""Rows of what is done with the desk's page in browsers, by Ada, by Ben, and by an admin, behind a proxy."""
from typing import NamedTuple

from trials.app_rows import SETTING_UP
from trials.page_rows import Clicks, Complains, Pictures, Sees, Shows, Types


class Comes(NamedTuple):
    """The desk's page is opened, and has this title soon."""
    name: str
    title: str


class Presses(NamedTuple):
    """Keys are pressed, one after another, wherever the focus is."""
    name: str
    keys: str


class Reads(NamedTuple):
    """The text of an element, which is known by this name from then on."""
    name: str
    where: str
    known: str


class Follows(NamedTuple):
    """The tab that was opened last is looked at, which has this title soon."""
    name: str
    title: str


class Returns(NamedTuple):
    """The first tab is looked at again."""
    name: str


class Reloads(NamedTuple):
    """The page is opened once more."""
    name: str


class Darkens(NamedTuple):
    """The page is shown in dark colours from now on, or in light ones."""
    name: str
    is_dark: bool


TAB, ENTER, ESCAPE = "\ue004", "\ue007", "\ue00c"
PHONE, WIDE = Shows("on a phone", 360, 740, True), Shows("on a desk", 1000, 800, False)


def told(path, status):
    """What a browser says of a path that is answered so."""
    return f"/{path} - Failed to load resource: the server responded with a status of {status}"


# The page asks for paths that a server of a later version has.
UNKNOWN = told("{}", "404 (Not Found)")
# Of the tab of the notes too, whose page asks who looks, the browser says that it was refused.
REFUSED = [told(path, "403 (Forbidden)") for path in ("", "favicon.ico", "grains/6/open", "me")]


def signing_in(who, told):
    return [Types("a login", "#login", f"${who}"), Clicks("it is shown", "#login-form button.first"), Sees("who is signed in", "#who", [told])]


ADA_MAKES = [
    Comes("the page", "Sign in - Lumbyte"),
    WIDE,
    Pictures("login", "#login"),
    Types("what is no login", "#login", "nothing"),
    Presses("it is shown by keys", ENTER),
    Sees("it is refused in words", "#login-answer", ["This login is worth nothing, or no more. Sign in with another one."]),
    *signing_in("ada", "Ada Holm (ada)"),
    Sees("her grains", "#mine h3", ["Minutes", "The next meeting", "Papers"]),
    Sees("what is no admin's isn't offered", "#to-admin", []),
    Clicks("a grain is to be made", "#making summary"),
    Types("its title", "#make-title", "Agenda"),
    Presses("it is made by keys", ENTER),
    Sees("that is said", "#make-answer", ["\u201cAgenda\u201d was made, and is above."]),
    Sees("it is there", "#mine h3", ["Minutes", "The next meeting", "Papers", "Agenda"]),
    Clicks("it is opened", "#open-6"),
    Follows("in a tab", "Notes"),
    Sees("who she is there", "#who", ["Ada Holm, who may read and write"]),
    Clicks("a note", "#new summary"),
    Types("its title", "#new input", "The roof"),
    Types("its text", "#new textarea", "It leaks."),
    Clicks("it is saved", "#new button.first"),
    Sees("it is there", "#notes h3", ["The roof"]),
    Returns("to the page"),
    Clicks("it is to be shared", "#share-6"),
    Types("with whom isn't there", "#give-to", "nobody"),
    Presses("by keys", ENTER),
    Sees("that is refused in words", "#give-answer", ["There is no account of that handle."]),
    Types("with Ben", "#give-to", "\ue003" * 6 + "ben"),
    Pictures("share", "#give-to"),
    Presses("by keys", ENTER),
    Sees("that is said", "#give-answer", ["Shared with Ben \u00c5s (ben)."]),
    Clicks("the dialog is closed", "#give-close"),
    Sees("it is gone", "#give", []),
]

BEN_LOOKS = [
    Comes("the page", "Sign in - Lumbyte"),
    WIDE,
    *signing_in("ben", "Ben \u00c5s (ben)"),
    Sees("his grains", "#mine h3", ["My own", "The cake"]),
    Sees("what is shared with him, by owner", "#shared h3", ["Of Ada Holm (ada)", "Agenda"]),
    Pictures("grains", "#shared-title"),
    Clicks("it is opened", "#open-6"),
    Follows("in a tab", "Notes"),
    Sees("who he is there", "#who", ["Ben \u00c5s, who may read"]),
    Sees("what he sees", "#notes h3", ["The roof"]),
    Returns("to the page"),
]

ADA_REVOKES = [
    Clicks("who has access", "#access-6"),
    Sees("that is told", "#access-list li", ["You: entry, view, edit", "Ben \u00c5s (ben): entry, view"]),
    Sees("what was given is told", "#grants h4", ["Ben \u00c5s (ben), as Reader"]),
    Clicks("what would go", "#preview-1"),
    Sees("that is told", ".loss li", ["Ben \u00c5s (ben): entry, view"]),
    Pictures("access", ".loss"),
    PHONE,
    Pictures("phone-access", ".loss"),
    WIDE,
    Clicks("it is revoked", ".loss button.bad"),
    Sees("that is said", "#access-answer", ["Grant 1 was revoked."]),
    Sees("who has access then", "#access-list li", ["You: entry, view, edit"]),
    Presses("the dialog is closed by a key", ESCAPE),
    Sees("it is gone", "#access", []),
]

BEN_IS_REFUSED = [
    Clicks("he opens it from a list of before", "#open-6"),
    Sees("that is refused in words", "#said", ["You have no access to this grain."]),
    Follows("his open tab", "Notes"),
    Reloads("its page"),
    Sees("that is refused", "pre", ['{"error":"NoShare","of":[6,3]}']),
    Returns("to the page"),
    Reloads("the page"),
    Sees("he is still signed in", "#who", ["Ben \u00c5s (ben)"]),
    Sees("nothing is shared with him", "#shared", ["Nothing yet."]),
]

ADA_LINKS = [
    Clicks("a link", "#link-6"),
    Clicks("it is made", "#give-do"),
    Reads("its token is shown once", "#secret-text", "link"),
    Clicks("it was taken", "#secret-done"),
    Sees("it isn't shown any more", "#secret-text", []),
    Darkens("in the dark", True),
    Pictures("dark", "#mine"),
    Darkens("in the light", False),
    Complains("what the browser has complained of", [told("me", "401 (Unauthorized)"), UNKNOWN.format("mine/trash")]),
]

BEN_REDEEMS = [
    Clicks("a link that he was given", "#redeeming summary"),
    Types("its token", "#redeem-token", "$link"),
    Presses("it is taken by keys", ENTER),
    Sees("that is said", "#redeem-answer", ["It is among the grains that are shared with you."]),
    Sees("it is there", "#shared h3", ["Of Ada Holm (ada)", "Agenda"]),
    PHONE,
    Pictures("phone", "#shared-title"),
    WIDE,
    Complains("what the browser has complained of", sorted([*REFUSED, UNKNOWN.format("mine/trash")])),
    Clicks("he signs out", "#leave"),
    Sees("that is said", "#login-answer", ["You are signed out. Grains that are open in tabs stay open."]),
    Sees("and nothing is shown", "#view-grains h2", []),
]

ADMIN = [
    *signing_in("first", "Admin (admin), an admin"),
    Clicks("what is an admin's", "#to-admin"),
    Sees("the accounts", "#accounts h3", ["Admin", "Ada Holm", "Ben \u00c5s"]),
    Sees("the applications", "#apps h3", ["Notes", "Poll", "Files"]),
    Clicks("a new account", "#adding summary"),
    Types("its handle", "#add-handle", "eva"),
    Types("its name", "#add-name", "Eva Lind"),
    Presses("it is added by keys", ENTER),
    Reads("its login is shown once", "#secret-text", "eva"),
    Clicks("it was taken", "#secret-done"),
    Sees("it is there", "#accounts h3", ["Admin", "Ada Holm", "Ben \u00c5s", "Eva Lind"]),
    Clicks("Ben is disabled", "#enabled-3"),
    Sees("that is said", "#said", ["The account of Ben \u00c5s was changed."]),
    Pictures("admin", "#accounts"),
    Clicks("Ada lost her login", "#login-2"),
    Clicks("she gets a new one", "#sure-yes"),
    Reads("it is shown once", "#secret-text", "ada_again"),
    Clicks("it was taken", "#secret-done"),
    Clicks("the admin signs out", "#leave"),
    *signing_in("eva", "Eva Lind (eva)"),
    Sees("the new account's login works", "#mine", ["You have no grains yet."]),
]

EVA_RENEWS = [
    Clicks("her account", "nav a[href='#account']"),
    Clicks("another login", "#new-login"),
    Pictures("renew", "#sure"),
    Clicks("it is wanted", "#sure-yes"),
    Reads("it is shown once", "#secret-text", "eva_again"),
    Clicks("it was taken", "#secret-done"),
    Sees("it isn't shown any more", "#secret-text", []),
    Clicks("she signs out", "#leave"),
    Types("the old login", "#login", "$eva"),
    Clicks("it is shown", "#login-form button.first"),
    Sees("it is refused in words", "#login-answer", ["This login is worth nothing, or no more. Sign in with another one."]),
    *signing_in("eva_again", "Eva Lind (eva)"),
    Clicks("she signs out", "#leave"),
    *signing_in("ada_again", "Ada Holm (ada)"),
    Clicks("her grains", "nav a[href='#grains']"),
    Sees("what is Ada's is there", "#mine h3", ["Minutes", "The next meeting", "Papers", "Agenda"]),
]

BEGINNING = SETTING_UP
# Who does what, one after another: each has a browser of their own.
PARTS = [
    ("ada", "ada makes a grain, and shares it", ADA_MAKES), ("ben", "ben looks at it", BEN_LOOKS), ("ada", "ada takes it back", ADA_REVOKES),
    ("ben", "ben is refused", BEN_IS_REFUSED), ("ada", "ada makes a link", ADA_LINKS), ("ben", "ben redeems it", BEN_REDEEMS), ("ben", "an admin", ADMIN),
    ("ben", "eva renews her login", EVA_RENEWS),
]

"""Rows of the walk over the applications of apps/: a notebook of Ada's, a poll of hers, and her files, which Ben comes to see.

An answer is compared as the JSON that it is, where a moment within the walk is told as "now". A name with a dollar sign stands for a secret, as in
trials/rows.py; $key_ada_notes is the key of Ada's session on her notes.
"""
import os

from trials.talk import Ask

APPS = os.path.join(os.path.dirname(os.path.dirname(os.path.dirname(os.path.realpath(__file__)))), "apps")
# What the notes' program asks for to find polls.
QUERY = '[{"tags":[{"id":1886350444,"value":{"summary":1}}]}]'
# A file of all byte values, as large as a body may be.
ALL_BYTES = bytes(range(256)) * 4096


class Soon(Ask):
    """A request that is asked again until it is answered so, since a notebook sees what a poll shows a little later."""


class Page(Ask):
    """A request for the page of an application, whose folder stands in the place of what is answered."""


class Fetched(Ask):
    """A request for a file, whose disposition and bytes stand in the place of what is answered."""


def manifest(name):
    with open(os.path.join(APPS, name, "manifest.json"), encoding="utf-8") as file:
        return file.read()


def refused(permission):
    return f'{{"error":"You may not do that: it needs the permission “{permission}”."}}'


def caller(name, permissions):
    return f'{{"name":"{name}","account":true,"permissions":[{permissions}]}}'


SETTING_UP = [
    Ask("an account", "first", "POST desk/accounts", '{"handle":"ada","name":"Ada Holm"}', 200, '{"account":2,"token":"$ada"}'),
    Ask("another", "first", "POST desk/accounts", '{"handle":"ben","name":"Ben Ås"}', 200, '{"account":3,"token":"$ben"}'),
    Ask("notes", "first", "POST desk/apps", manifest("notes"), 200, '{"app":1}'),
    Ask("polls", "first", "POST desk/apps", manifest("polls"), 200, '{"app":2}'),
    Ask("files", "first", "POST desk/apps", manifest("files"), 200, '{"app":3}'),
    Ask("Ada's notes", "ada", "POST desk/grains", '{"app":1,"title":"Minutes"}', 200, '{"grain":1}'),
    Ask("her poll", "ada", "POST desk/grains", '{"app":2,"title":"The next meeting"}', 200, '{"grain":2}'),
    Ask("her files", "ada", "POST desk/grains", '{"app":3,"title":"Papers"}', 200, '{"grain":3}'),
    Ask("Ben's notes", "ben", "POST desk/grains", '{"app":1,"title":"My own"}', 200, '{"grain":4}'),
    Ask("his poll", "ben", "POST desk/grains", '{"app":2,"title":"The cake"}', 200, '{"grain":5}'),
]

FIRST = '{"title":"Friday","text":"At eight, says Zoë.\\n\\tBring cake."}'
FIRST_AS_LISTED = (
    '{"number":1,"title":"Friday","text":"At eight, says Zoë.\\n\\tBring cake.","version":1,"writer":"Ada Holm","moment":"now"}'
)
SECOND, SECOND_BY_BEN = '{"title":"Friday","text":"At nine.","version":1}', '{"title":"Mine","text":"","version":1}'
SECOND_AS_LISTED = '{"number":1,"title":"Friday","text":"At nine.","version":2,"writer":"Ada Holm","moment":"now"}'
CHANGED = f'{{"error":"Ada Holm has changed this note meanwhile.","note":{SECOND_AS_LISTED}}}'

NOTES = [
    Ask("Ada opens her notes", "ada", "POST desk/grains/1/open", "{}", 200, '{"key":"$key_ada_notes","session":1}'),
    Page("their page", "", "GET ui-$key_ada_notes/", None, 200, "notes"),
    Ask("she may write", "", "GET ui-$key_ada_notes/me", None, 200, caller("Ada Holm", '"view","edit"')),
    Ask("Ben has no access", "ben", "POST desk/grains/1/open", "{}", 403, '{"error":"NoShare","of":[1,3]}'),
    Ask("she makes him a reader", "ada", "POST desk/grains/1/share", '{"to":3,"assignment":{"base":0}}', 200, '{"grant":1}'),
    Ask("he opens them", "ben", "POST desk/grains/1/open", "{}", 200, '{"key":"$key_ben_notes","session":2}'),
    Ask("he may read", "", "GET ui-$key_ben_notes/me", None, 200, caller("Ben Ås", '"view"')),
    Ask("there is no note", "", "GET ui-$key_ben_notes/notes", None, 200, '{"change":0,"notes":[]}'),
    Ask("she writes one", "", "POST ui-$key_ada_notes/notes", FIRST, 200, '{"number":1,"version":1}'),
    Ask("he reads it", "", "GET ui-$key_ben_notes/notes", None, 200, f'{{"change":1,"notes":[{FIRST_AS_LISTED}]}}'),
    Ask("he may write none", "", "POST ui-$key_ben_notes/notes", FIRST, 403, refused("edit")),
    Ask("nor change hers", "", "PUT ui-$key_ben_notes/notes/1", SECOND_BY_BEN, 403, refused("edit")),
    Ask("nor remove it", "", "DELETE ui-$key_ben_notes/notes/1", '{"version":1}', 403, refused("edit")),
    Ask("she changes it", "", "PUT ui-$key_ada_notes/notes/1", SECOND, 200, '{"number":1,"version":2}'),
    Ask("not what it was before", "", "PUT ui-$key_ada_notes/notes/1", SECOND, 409, CHANGED),
    Ask("he reads what it is now", "", "GET ui-$key_ben_notes/notes", None, 200, f'{{"change":2,"notes":[{SECOND_AS_LISTED}]}}'),
]


def poll(friday, saturday, closed="false", more=""):
    """Ada's poll with so many votes."""
    options = f'[{{"text":"Friday","votes":{friday}}},{{"text":"Saturday","votes":{saturday}}}]'
    return f'{{"question":"Which day?","options":{options},"closed":{closed}{more}}}'


def ballot(friday, saturday, mine, closed="false"):
    """The same as its voter sees it."""
    return poll(friday, saturday, closed, f',"version":1,"mine":{mine}')


QUESTION = '{"question":"Which day?","options":["Friday","Saturday"],"version":0}'
FOR_FRIDAY, FOR_SATURDAY = '{"option":0,"version":1}', '{"option":1,"version":1}'
VOTED = '{"error":"Somebody has voted already, so the question stays as it is."}'
LOOK_ONLY = '{"error":"You came by a link, without an account, and so may look but not vote."}'

POLL = [
    Ask("Ada opens her poll", "ada", "POST desk/grains/2/open", "{}", 200, '{"key":"$key_ada_poll","session":3}'),
    Page("its page", "", "GET ui-$key_ada_poll/", None, 200, "polls"),
    Ask("she makes Ben a voter", "ada", "POST desk/grains/2/share", '{"to":3,"assignment":{"base":0}}', 200, '{"grant":2}'),
    Ask("he opens it", "ben", "POST desk/grains/2/open", "{}", 200, '{"key":"$key_ben_poll","session":4}'),
    Ask("he may not set it", "", "PUT ui-$key_ben_poll/poll", QUESTION, 403, refused("close")),
    Ask("she sets it", "", "PUT ui-$key_ada_poll/poll", QUESTION, 200, ballot(0, 0, "null")),
    Ask("she votes", "", "PUT ui-$key_ada_poll/vote", FOR_FRIDAY, 200, ballot(1, 0, 0)),
    Ask("he votes", "", "PUT ui-$key_ben_poll/vote", FOR_SATURDAY, 200, ballot(1, 1, 1)),
    Ask("no other question now", "", "PUT ui-$key_ada_poll/poll", QUESTION.replace(":0}", ":1}"), 409, VOTED),
    Ask("he changes his vote", "", "PUT ui-$key_ben_poll/vote", FOR_FRIDAY, 200, ballot(2, 0, 0)),
    Ask("he may not close it", "", "PUT ui-$key_ben_poll/closed", '{"closed":true}', 403, refused("close")),
    Ask("she closes it", "", "PUT ui-$key_ada_poll/closed", '{"closed":true}', 200, ballot(2, 0, 0, "true")),
    Ask("a vote is refused", "", "PUT ui-$key_ben_poll/vote", FOR_SATURDAY, 409, '{"error":"The poll is closed."}'),
    Ask("it is as it was", "", "GET ui-$key_ben_poll/poll", None, 200, ballot(2, 0, 0, "true")),
    Ask("a link to it", "ada", "POST desk/grains/2/link", '{"assignment":{"base":0}}', 200, '{"grant":3,"token":"$poll_link"}'),
    Ask("its bearer sees it", "poll_link", "GET api/poll", None, 200, ballot(2, 0, "null", "true")),
    Ask("and has no vote", "poll_link", "PUT api/vote", FOR_FRIDAY, 403, LOOK_ONLY),
]


def polls(*shown):
    """What a notebook answers of the polls beneath it, each with a number and what it shows; the newest first."""
    listed = ",".join(f'{{"number":{number},{one[1:]}' for number, one in shown)
    return f'{{"polls":[{listed}],"query":{QUERY}}}'


def sentence(text):
    return f'{{"sentence":"{text}"}}'


FINDING = f'{{"query":{QUERY}}}'
ADA_POLL, BEN_POLL = (f'{{"offer":{{"grain":{grain}}},"query":{QUERY},"assignment":{{"base":0}}}}' for grain in (2, 5))
LOST = sentence("This poll can't be seen any more: it, or this notebook, was taken back from whoever put it here.")
ASLEEP = sentence("This poll's program isn't running. It starts when somebody opens the poll.")
USED = '{"error":"That token was used before. Choose the poll again, to get a new one."}'
OTHER = '{"error":"That token was made for another document."}'
ONE_OPTION = '[{"grain":2,"quality":"acceptable"}]'
TWO_OPTIONS = '[{"grain":2,"quality":"acceptable"},{"grain":5,"quality":"acceptable"}]'

EMBEDDING = [
    Ask("the notes name their query", "", "GET ui-$key_ada_notes/polls", None, 200, polls()),
    Ask("what fits", "ada", "POST desk/grains/1/query", FINDING, 200, f'{{"options":{ONE_OPTION}}}'),
    Ask("she chooses it", "ada", "POST desk/grains/1/choose", ADA_POLL, 200, '{"grant":4,"token":"$chosen"}'),
    Ask("a reader may not show it", "", "POST ui-$key_ben_notes/polls", '{"token":"$chosen"}', 403, refused("edit")),
    Ask("her notes show it", "", "POST ui-$key_ada_notes/polls", '{"token":"$chosen"}', 200, '{"number":1}'),
    Ask("once", "", "POST ui-$key_ada_notes/polls", '{"token":"$chosen"}', 409, USED),
    Ask("she sees its counts", "", "GET ui-$key_ada_notes/polls", None, 200, polls((1, poll(2, 0, "true")))),
    Ask("so does he", "", "GET ui-$key_ben_notes/polls", None, 200, polls((1, poll(2, 0, "true")))),
    Ask("the poll is opened again", "", "PUT ui-$key_ada_poll/closed", '{"closed":false}', 200, ballot(2, 0, 0)),
    Ask("he votes once more", "", "PUT ui-$key_ben_poll/vote", FOR_SATURDAY, 200, ballot(1, 1, 1)),
    Soon("he sees that beneath the notes", "", "GET ui-$key_ben_notes/polls", None, 200, polls((1, poll(1, 1)))),
    Ask("so does she", "", "GET ui-$key_ada_notes/polls", None, 200, polls((1, poll(1, 1)))),
]

CAKE = '{"question":"Which cake?","options":["Plum","Nut","None"],"version":0}'
CAKE_OPTIONS = '[{"text":"Plum","votes":0},{"text":"Nut","votes":0},{"text":"None","votes":0}]'
CAKE_POLL = f'{{"question":"Which cake?","options":{CAKE_OPTIONS},"closed":false}}'
CAKE_SET = f'{CAKE_POLL[:-1]},"version":1,"mine":null}}'

BEN_CHOOSES = [
    Ask("Ben opens his notes", "ben", "POST desk/grains/4/open", "{}", 200, '{"key":"$key_ben_own","session":5}'),
    Ask("what he may choose", "ben", "POST desk/grains/4/query", FINDING, 200, f'{{"options":{TWO_OPTIONS}}}'),
    Ask("he chooses Ada's", "ben", "POST desk/grains/4/choose", ADA_POLL, 200, '{"grant":6,"token":"$chosen_by_ben"}'),
    Ask("not for another's notes", "", "POST ui-$key_ada_notes/polls", '{"token":"$chosen_by_ben"}', 409, OTHER),
    Ask("his notes show it", "", "POST ui-$key_ben_own/polls", '{"token":"$chosen_by_ben"}', 200, '{"number":1}'),
    Ask("he sees its counts there", "", "GET ui-$key_ben_own/polls", None, 200, polls((1, poll(1, 1)))),
    Ask("he opens his poll", "ben", "POST desk/grains/5/open", "{}", 200, '{"key":"$key_ben_cake","session":6}'),
    Ask("he sets it", "", "PUT ui-$key_ben_cake/poll", CAKE, 200, CAKE_SET),
    Ask("Ada makes him a writer", "ada", "POST desk/grains/1/share", '{"to":3,"assignment":{"base":1}}', 200, '{"grant":8}'),
    Ask("his open session may write", "", "GET ui-$key_ben_notes/me", None, 200, caller("Ben Ås", '"view","edit"')),
    Ask("he chooses his own for hers", "ben", "POST desk/grains/1/choose", BEN_POLL, 200, '{"grant":9,"token":"$cake"}'),
    Ask("her notes show it", "", "POST ui-$key_ben_notes/polls", '{"token":"$cake"}', 200, '{"number":2}'),
    Ask("she sees both", "", "GET ui-$key_ada_notes/polls", None, 200, polls((2, CAKE_POLL), (1, poll(1, 1)))),
    Ask("he makes a link to her notes", "ben", "POST desk/grains/1/link", '{"assignment":{"base":0}}', 200, '{"grant":11,"token":"$link"}'),
    Ask("its bearer reads", "link", "GET api/notes", None, 200, f'{{"change":2,"notes":[{SECOND_AS_LISTED}]}}'),
    Ask("and writes nothing", "link", "POST api/notes", FIRST, 403, refused("edit")),
]

MOST = '"used":1048576,"room":268435456,"largest":1048576'
FILE = '{"number":1,"name":"all bytes, ÄÖ.bin","size":1048576,"adder":"Ada Holm","moment":"now"'
ADDING = "files?name=all%20bytes,%20%C3%84%C3%96.bin"
TAKEN_BACK = "attachment; filename=\"all bytes_ __.bin\"; filename*=UTF-8''all%20bytes%2C%20%C3%84%C3%96.bin", ALL_BYTES
SLASHES = '{"error":"The name of a file has no slashes."}'

FILES = [
    Ask("Ada opens her files", "ada", "POST desk/grains/3/open", "{}", 200, '{"key":"$key_ada_files","session":7}'),
    Page("their page", "", "GET ui-$key_ada_files/", None, 200, "files"),
    Ask("she makes Ben a reader", "ada", "POST desk/grains/3/share", '{"to":3,"assignment":{"base":0}}', 200, '{"grant":12}'),
    Ask("he opens them", "ben", "POST desk/grains/3/open", "{}", 200, '{"key":"$key_ben_files","session":8}'),
    Ask("she adds one", "", f"POST ui-$key_ada_files/{ADDING}", ALL_BYTES, 200, '{"number":1}'),
    Ask("one byte more", "", f"POST ui-$key_ada_files/{ADDING}", ALL_BYTES + b"a", 413, '{"error":"LongBody","of":[0]}'),
    Ask("a name that is a path", "", "POST ui-$key_ada_files/files?name=a/b", b"a", 400, SLASHES),
    Ask("he may add none", "", f"POST ui-$key_ben_files/{ADDING}", b"a", 403, refused("add")),
    Ask("he sees it", "", "GET ui-$key_ben_files/files", None, 200, f'{{"files":[{FILE},"removable":false}}],{MOST}}}'),
    Ask("she may remove it", "", "GET ui-$key_ada_files/files", None, 200, f'{{"files":[{FILE},"removable":true}}],{MOST}}}'),
    Ask("he may not", "", "DELETE ui-$key_ben_files/files/1", "{}", 403, refused("add")),
    Fetched("he takes it back to the byte", "", "GET ui-$key_ben_files/files/1", None, 200, TAKEN_BACK),
]

NO_NOTES, NO_POLL, NO_FILES = (f'{{"error":"NoShare","of":[{grain},3]}}' for grain in (1, 2, 3))

REVOKING = [
    Ask("Ben is a writer no more", "ada", "POST desk/grants/8/revoke", "{}", 200, "{}"),
    Ask("his open session reads", "", "GET ui-$key_ben_notes/me", None, 200, caller("Ben Ås", '"view"')),
    Ask("his poll is there still", "", "GET ui-$key_ada_notes/polls", None, 200, polls((2, CAKE_POLL), (1, poll(1, 1)))),
    Ask("nor a reader", "ada", "POST desk/grants/1/revoke", "{}", 200, "{}"),
    Ask("his open session is refused", "", "GET ui-$key_ben_notes/notes", None, 403, NO_NOTES),
    Ask("the page too", "", "GET ui-$key_ben_notes/", None, 403, NO_NOTES),
    Ask("he can't open them", "ben", "POST desk/grains/1/open", "{}", 403, NO_NOTES),
    Ask("his link is no good", "link", "GET api/notes", None, 403, '{"error":"SourceLost","of":[11]}'),
    Ask("nor a voter", "ada", "POST desk/grants/2/revoke", "{}", 200, "{}"),
    Ask("his session on the poll", "", "PUT ui-$key_ben_poll/vote", FOR_FRIDAY, 403, NO_POLL),
    Ask("nor a reader of files", "ada", "POST desk/grants/12/revoke", "{}", 200, "{}"),
    Ask("his session on the files", "", "GET ui-$key_ben_files/files/1", None, 403, NO_FILES),
    Soon("his poll is gone from her notes", "", "GET ui-$key_ada_notes/polls", None, 200, polls((2, LOST), (1, poll(1, 1)))),
    Soon("hers from his", "", "GET ui-$key_ben_own/polls", None, 200, polls((1, LOST))),
    Ask("what he may choose now", "ben", "POST desk/grains/4/query", FINDING, 200, '{"options":[{"grain":5,"quality":"acceptable"}]}'),
    Ask("his vote counts still", "", "GET ui-$key_ada_poll/poll", None, 200, ballot(1, 1, 0)),
]

AFTER_A_KILL = [
    Ask("a session of before", "", "GET ui-$key_ada_notes/notes", None, 401, '{"error":"UnknownKey","of":[]}'),
    Ask("Ada opens her notes", "ada", "POST desk/grains/1/open", "{}", 200, '{"key":"$key_notes","session":1}'),
    Ask("the note is there", "", "GET ui-$key_notes/notes", None, 200, f'{{"change":2,"notes":[{SECOND_AS_LISTED}]}}'),
    Soon("the polls are restored", "", "GET ui-$key_notes/polls", None, 200, polls((2, LOST), (1, ASLEEP))),
    Ask("she opens her poll", "ada", "POST desk/grains/2/open", "{}", 200, '{"key":"$key_poll","session":2}'),
    Ask("it has its votes", "", "GET ui-$key_poll/poll", None, 200, ballot(1, 1, 0)),
    Ask("she opens her files", "ada", "POST desk/grains/3/open", "{}", 200, '{"key":"$key_files","session":3}'),
    Ask("the file is there", "", "GET ui-$key_files/files", None, 200, f'{{"files":[{FILE},"removable":true}}],{MOST}}}'),
    Fetched("to the byte", "", "GET ui-$key_files/files/1", None, 200, TAKEN_BACK),
    Ask("Ben has no access", "ben", "POST desk/grains/1/open", "{}", 403, NO_NOTES),
    Soon("the counts beneath the notes", "", "GET ui-$key_notes/polls", None, 200, polls((2, LOST), (1, poll(1, 1)))),
]

STOPPING = Ask("the notes are stopped", "ada", "POST desk/grains/1/stop", "{}", 200, "{}")
THIRD_AS_LISTED = '{"number":2,"title":"Mine","text":"","version":3,"writer":"Ada Holm","moment":"now"}'
CONFINED = [
    Ask("they are woken", "ada", "POST desk/grains/1/wake", "{}", 200, "{}"),
    Page("their page", "", "GET ui-$key_notes/", None, 200, "notes"),
    Ask("a note is added", "", "POST ui-$key_notes/notes", SECOND_BY_BEN, 200, '{"number":2,"version":3}'),
    Ask("both are there", "", "GET ui-$key_notes/notes", None, 200, f'{{"change":3,"notes":[{THIRD_AS_LISTED},{SECOND_AS_LISTED}]}}'),
    Soon("and the counts beneath them", "", "GET ui-$key_notes/polls", None, 200, polls((2, LOST), (1, poll(1, 1)))),
    Ask("another is chosen", "ada", "POST desk/grains/1/choose", ADA_POLL, 200, '{"grant":13,"token":"$chosen_again"}'),
    Ask("and shown", "", "POST ui-$key_notes/polls", '{"token":"$chosen_again"}', 200, '{"number":3}'),
]

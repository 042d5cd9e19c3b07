"""Rows of requests: what several trials begin with, and a club's walk, from no file at all to its server's end and on from there.

A name with a dollar sign stands for a secret: in the first answer that has it, for one that was never seen before, and from then on for that one.
"""
from trials.talk import Account, Ask, Handed, Plain, Runs, asked

MANIFEST = (
    '{"title":"Notes","version":1,"permissions":[{"name":"view","title":"Look"},{"name":"edit","title":"Edit"}],'
    '"roles":[{"title":"Reader","permissions":[true]},{"title":"Writer","permissions":[true,true],"default":true}],'
    '"matchRequests":[{"tags":[{"id":7}]}]}'
)
ADMIN = Account(1, "admin", "Admin")
ADA = Account(2, "ada", "Ada%20Holm")
BEN = Account(3, "ben", "Ben%20%C3%85s")

A_GRAIN = [
    Ask("an application", "first", "POST desk/apps", MANIFEST, 200, '{"app":1}'),
    Ask("a grain", "first", "POST desk/grains", '{"app":1,"title":"Minutes"}', 200, '{"grain":1}'),
]

BEGINNING = [
    Ask("an account", "first", "POST desk/accounts", '{"handle":"ada","name":"Ada Holm"}', 200, '{"account":2,"token":"$ada"}'),
    Ask("another", "first", "POST desk/accounts", '{"handle":"ben","name":"Ben Ås"}', 200, '{"account":3,"token":"$ben"}'),
    Ask("a handle that is taken", "first", "POST desk/accounts", '{"handle":"ada","name":"A"}', 409, '{"error":"HandleTaken","of":[2]}'),
    Ask("by no admin", "ada", "POST desk/accounts", '{"handle":"eva","name":"Eva"}', 403, '{"error":"NotAdmin","of":[]}'),
    Ask("by nobody", "", "POST desk/accounts", '{"handle":"eva","name":"Eva"}', 401, '{"error":"UnknownKey","of":[]}'),
    Ask("an application", "first", "POST desk/apps", MANIFEST, 200, '{"app":1}'),
    Ask("a grain", "ada", "POST desk/grains", '{"app":1,"title":"Minutes"}', 200, '{"grain":1}'),
    Ask("another", "ada", "POST desk/grains", '{"app":1,"title":"Plans"}', 200, '{"grain":2}'),
    Runs("no program runs yet", [], []),
    Ask("its owner opens it", "ada", "POST desk/grains/1/open", "{}", 200, '{"key":"$key_ada","session":1}'),
    Runs("its program runs now", ["run 1"], ["run-1.sock"]),
    Handed("a run's token, a line feed and nothing else", 1, "$run_of_1\n"),
    Ask("what the grain is asked", "", "GET ui-$key_ada/hello?x=1", None, 200, asked("GET /hello?x=1", ADA, "view,edit", 1)),
    Ask("a body", "", "POST ui-$key_ada/pages", "a=b&c", 200, asked("POST /pages", ADA, "view,edit", 1, body="a=b&c")),
    Ask("a key that none has", "", "GET ui-" + 32 * "0" + "/", None, 401, '{"error":"UnknownKey","of":[]}'),
]

SHARING = [
    Ask("without a share", "ben", "POST desk/grains/1/open", "{}", 403, '{"error":"NoShare","of":[1,3]}'),
    Ask("a share as a reader", "ada", "POST desk/grains/1/share", '{"assignment":{"base":0},"to":3}', 200, '{"grant":1}'),
    Ask("it is opened", "ben", "POST desk/grains/1/open", "{}", 200, '{"key":"$key_ben","session":2}'),
    Ask("a reader holds view", "", "GET ui-$key_ben/", None, 200, asked("GET /", BEN, "view", 2)),
    Ask("a link", "ada", "POST desk/grains/1/link", '{"assignment":{"base":"all"}}', 200, '{"grant":2,"token":"$link"}'),
    Ask("its bearer, whom nobody knows", "link", "GET api/notes", None, 200, asked("GET /notes", None, "view,edit")),
    Ask("it is redeemed", "ben", "POST desk/redeem", '{"token":"$link"}', 200, '{"grant":3}'),
    Ask("the open session has more", "", "GET ui-$key_ben/", None, 200, asked("GET /", BEN, "view,edit", 2)),
    Ask("by whom it isn't", "ben", "POST desk/grants/2/revoke", "{}", 403, '{"error":"NotGiver","of":[2]}'),
    Ask("the share is revoked", "ada", "POST desk/grants/1/revoke", "{}", 200, "{}"),
    Ask("the link gives all of it", "", "GET ui-$key_ben/", None, 200, asked("GET /", BEN, "view,edit", 2)),
    Ask("the link is revoked", "ada", "POST desk/grants/2/revoke", "{}", 200, "{}"),
    Ask("the open session is refused", "", "GET ui-$key_ben/", None, 403, '{"error":"NoShare","of":[1,3]}'),
    Ask("the link is no good", "ben", "POST desk/redeem", '{"token":"$link"}', 403, '{"error":"Revoked","of":[2]}'),
    Ask("a token", "ada", "POST desk/grains/1/token", '{"assignment":{"base":0}}', 200, '{"grant":4,"token":"$robot"}'),
    Ask("its bearer", "robot", "GET api/notes", None, 200, asked("GET /notes", ADA, "view")),
]

ALL_OF_IT, THE_ITEM = ',"offer":{"grain":1},"assignment":{"base":"all"}', ',"offer":{"site":{"tag":9,"item":1}}'


def query(tag, more=""):
    """The body of a request that asks for what has a tag."""
    return f'{{"query":[{{"tags":[{{"id":{tag}}}]}}]{more}}}'


POWERBOX = [
    Ask("a grain is woken", "ada", "POST desk/grains/2/wake", "{}", 200, "{}"),
    Runs("both programs run", ["run 1", "run 2"], ["run-1.sock", "run-2.sock"]),
    Handed("the token of the second run", 2, "$run_of_2\n"),
    Ask("what fits", "ada", "POST desk/grains/2/query", query(7), 200, '{"options":[{"grain":1,"quality":"acceptable"}]}'),
    Ask("what none offers", "ada", "POST desk/grains/2/query", query(8), 200, '{"options":[]}'),
    Ask("it is chosen", "ada", "POST desk/grains/2/choose", query(7, ALL_OF_IT), 200, '{"grant":5,"token":"$chosen"}'),
    Ask("not by another run", "run_of_1", "POST grain/claim", '{"token":"$chosen","permissions":[true]}', 403, '{"error":"NotHolder","of":[2]}'),
    Ask("it is claimed", "run_of_2", "POST grain/claim", '{"token":"$chosen","permissions":[true]}', 200, '{"grant":6,"handle":1}'),
    Ask("once", "run_of_2", "POST grain/claim", '{"token":"$chosen","permissions":[true]}', 409, '{"error":"AlreadyClaimed","of":[5]}'),
    Ask("it is used", "run_of_2", "GET grain/use/1/x?y=1", None, 200, asked("GET /x?y=1", ADA, "view,edit")),
    Ask("it is saved", "run_of_2", "POST grain/save", '{"handle":1,"label":"minutes"}', 200, '{"saved":1,"token":"$saved"}'),
    Ask("what is for everybody", "ada", "POST desk/grains/2/query", query(9), 200, '{"options":[{"item":1,"quality":"acceptable","site":9}]}'),
    Ask("it is chosen", "ada", "POST desk/grains/2/choose", query(9, THE_ITEM), 200, '{"grant":7,"token":"$club"}'),
    Ask("it is claimed", "run_of_2", "POST grain/claim", '{"token":"$club","permissions":[]}', 200, '{"grant":8,"handle":2}'),
    Ask("the site's own text", "run_of_2", "GET grain/use/2/", None, 200, Plain("club")),
]

ENDING = [
    Ask("a run is stopped", "ada", "POST desk/grains/2/stop", "{}", 200, "{}"),
    Runs("its program is gone", ["run 1"], ["run-1.sock"]),
    Ask("its token is no good", "run_of_2", "GET grain/use/1/x", None, 409, '{"error":"GrainStopped","of":[2]}'),
    Ask("once more", "ada", "POST desk/grains/2/stop", "{}", 200, "{}"),
    Ask("an account is disabled", "first", "POST desk/accounts/3/enabled", '{"on":false}', 200, "{}"),
    Ask("it gives no command", "ben", "POST desk/grains/1/open", "{}", 403, '{"error":"AccountDisabled","of":[3]}'),
    Ask("into the trash", "ada", "POST desk/grains/1/trash", "{}", 200, "{}"),
    Ask("a session of what is in the trash", "", "GET ui-$key_ada/", None, 403, '{"error":"GrainTrashed","of":[1]}'),
    Ask("out of it", "ada", "POST desk/grains/1/untrash", "{}", 200, "{}"),
    Ask("the session goes on", "", "GET ui-$key_ada/", None, 200, asked("GET /", ADA, "view,edit", 1)),
    Ask("the other is woken", "ada", "POST desk/grains/2/wake", "{}", 200, "{}"),
    Runs("two programs run at the end", ["run 1", "run 3"], ["run-1.sock", "run-3.sock"]),
]

AGAIN = [
    Runs("no program runs", [], []),
    Ask("sessions are none", "", "GET ui-$key_ada/", None, 401, '{"error":"UnknownKey","of":[]}'),
    Ask("a disabled account", "ben", "POST desk/grains/1/open", "{}", 403, '{"error":"AccountDisabled","of":[3]}'),
    Ask("it is enabled", "first", "POST desk/accounts/3/enabled", '{"on":true}', 200, "{}"),
    Ask("what was revoked", "ben", "POST desk/redeem", '{"token":"$link"}', 403, '{"error":"Revoked","of":[2]}'),
    Ask("it is opened anew", "ada", "POST desk/grains/1/open", "{}", 200, '{"key":"$key_again","session":1}'),
    Ask("it is answered", "", "GET ui-$key_again/", None, 200, asked("GET /", ADA, "view,edit", 1)),
    Ask("the bearer of a token", "robot", "GET api/notes", None, 200, asked("GET /notes", ADA, "view")),
    Ask("the other is woken", "ada", "POST desk/grains/2/wake", "{}", 200, "{}"),
    Handed("its token is a new one", 2, "$run_again\n"),
    Ask("a former run's token", "run_of_2", "POST grain/restore", '{"token":"$saved"}', 401, '{"error":"UnknownKey","of":[]}'),
    Ask("what was saved", "run_again", "POST grain/restore", '{"token":"$saved"}', 200, '{"handle":1}'),
    Ask("it is used", "run_again", "GET grain/use/1/again", None, 200, asked("GET /again", ADA, "view,edit")),
    Runs("both programs run", ["run 1", "run 2"], ["run-1.sock", "run-2.sock"]),
]

AFTER_A_KILL = [
    Runs("the sockets are there still", [], ["run-1.sock", "run-2.sock"]),
    Ask("what was enabled is", "ben", "POST desk/grains/1/open", "{}", 403, '{"error":"NoShare","of":[1,3]}'),
    Ask("it is opened anew", "ada", "POST desk/grains/1/open", "{}", 200, '{"key":"$key_third","session":1}'),
    Runs("its program takes the socket's place", ["run 1"], ["run-1.sock", "run-2.sock"]),
    Ask("it is answered", "", "GET ui-$key_third/", None, 200, asked("GET /", ADA, "view,edit", 1)),
]

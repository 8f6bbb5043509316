"""Conversations over HTTP with `cedar_serve`, and the bytes that are due to them.

    python3 conversations.py write             writes `stdin` and `stdout` of crates/cedar_serve
    python3 conversations.py run PROGRAM       compares what a built program answers to this conversation, to the same in pieces, and
                                               to each request that ends a connection; and what it answers where the request wins

Decisions, reasons and which policies err come from `evaluator.py` over the policies and entities of crates/cedar_serve/data, which
`cedar_reader.py` and `json_texts.py` read; where an extension is called the reasons stand beside the request. Status, fields, bodies
and what is wrong with a request stand beside it, by docs/SERVING.md and RFC 9112. Nothing is taken from what the program answers.
"""
import hashlib
import json
import os
import random
import subprocess
import sys
import tempfile
import threading

import json_texts
from evaluator import decided, reads

CRATE = os.path.join(os.path.dirname(os.path.realpath(__file__)), "..", "..", "crates", "cedar_serve")
REASONS = {200: "OK", 400: "Bad Request", 404: "Not Found", 405: "Method Not Allowed", 413: "Payload Too Large", 414: "URI Too Long",
           431: "Request Header Fields Too Large", 501: "Not Implemented"}
EVALUATION, EVALUATIONS, AUTHORIZE, HEALTH = "/access/v1/evaluation", "/access/v1/evaluations", "/v1/authorize", "/healthz"
PARTLY, NEW_POLICIES, NEW_ENTITIES = "/v1/partially-authorize", "/v1/policies", "/v1/entities"
METADATA = "/.well-known/authzen-configuration"
SEARCH = {part: f"/access/v1/search/{part}" for part in ("subject", "action", "resource")}
URL = "https://pdp.example.com"
PAGE_SIZE = 2
# How much a request may bring and ask, and how many candidates a page looks at: `args` says so too.
MOST_ENTITIES, MOST_PARENTS, MOST_EVALUATIONS, MOST_CANDIDATES = 2, 3, 4, 8
NO_HOUR = "record does not have the attribute `hour`"


def read(name):
    with open(f"{CRATE}/data/{name}", "rb") as it:
        return it.read()


POLICIES = reads(read("documents.cedar").decode())
STORE = json_texts.Store(json_texts.document(read("documents.json")))


def compact(j):
    return json.dumps(j, separators=(",", ":"), ensure_ascii=False)


# ---- what is sent

def request(method, path, body=None, fields=(), version="1.1", host="pdp"):
    """A request, whose body is JSON, or bytes as they are."""
    if body is not None and not isinstance(body, bytes):
        body = compact(body).encode()
    lines = [f"{method} {path} HTTP/{version}"]
    lines += [f"Host: {host}"] if host is not None else []
    lines += fields
    lines += [] if body is None or any("chunked" in it for it in fields) else [f"Content-Length: {len(body)}"]
    return "\r\n".join(lines).encode() + b"\r\n\r\n" + (body or b"")


def chunks(body, *sizes):
    out, at = b"", 0
    for size in (*sizes, len(body) - sum(sizes)):
        out += b"%x\r\n%s\r\n" % (size, body[at:at + size])
        at += size
    return out


# ---- what is due

def version_of(policies, entities):
    return hashlib.sha256(policies + b"\0" + entities).hexdigest()


VERSION = version_of(read("documents.cedar"), read("documents.json"))


def due(status, body, allow=None, id=None, is_head=False, version="1.1", connection=None, of=VERSION):
    """`of` is the version of the policies and entities which there are then."""
    body = body if isinstance(body, bytes) else compact(body).encode()
    lines = [f"HTTP/{version} {status} {REASONS[status]}", "content-type: application/json", f"cedar-version: {of}"]
    lines += [f"allow: {allow}"] if allow else []
    lines += [f"x-request-id: {id}"] if id is not None else []
    lines += [f"content-length: {len(body)}"]
    lines += [f"connection: {connection}"] if connection else []
    return "\r\n".join(lines).encode() + b"\r\n\r\n" + (b"" if is_head else body)


def wrong(path, reason, status=400, **more):
    return due(status, {"error": {"path": path, "reason": reason}}, **more)


def unknown(**more):
    return wrong("$", "nothing is here", 404, **more)


def refused(status):
    """What `http_server` answers by itself, and closes."""
    return f"HTTP/1.1 {status} {REASONS[status]}\r\nconnection: close\r\ncontent-length: 0\r\n\r\n".encode()


def response(principal, action, resource, context, reasons=None):
    """Cedar's response to a request; `reasons` of a permit are given where an extension is called."""
    if reasons is None:
        three = [("entity", *it) for it in (principal, ("Action", action), resource)]
        said = json_texts.context(json_texts.document(compact(context).encode()))
        allowed, reasons, erring = decided(POLICIES, STORE, three + [said])
    else:
        allowed, erring = True, []
    return {"decision": "allow" if allowed else "deny", "reason": [f"policy{n}" for n in reasons],
            "errors": [{"policyId": f"policy{n}", "message": NO_HOUR} for n in erring]}


# ---- rows: what it is, what is sent, what is due

ANN, BOB, EVE = ("User", "ann"), ("User", "bob"), ("User", "eve")
PLAN, VAULT, MENU = ("Document", "plan"), ("Document", "vault"), ("Document", 'café "menu"')


def evaluation(subject, action, resource, context=None, **more):
    asked = {"subject": {"type": subject[0], "id": subject[1]}, "action": {"name": action},
             "resource": {"type": resource[0], "id": resource[1]}}
    return asked | ({} if context is None else {"context": context}) | more


def asks(what, subject, action, resource, context=None, reasons=None, fields=(), **more):
    """An evaluation that is answered."""
    r = response(subject, action, resource, context or {}, reasons)
    body = {"decision": r["decision"] == "allow", "context": r}
    return (what, request("POST", EVALUATION, evaluation(subject, action, resource, context), fields), due(200, body, **more))


def errs(what, path, reason, body):
    """An evaluation in which something is wrong."""
    return (what, request("POST", EVALUATION, body), wrong(path, reason))


def authorizes(what, principal, action, resource, context):
    text = {"principal": f'{principal[0]}::{compact(principal[1])}', "action": f'Action::"{action}"',
            "resource": {"type": resource[0], "id": resource[1]}, "context": context}
    return (what, request("POST", AUTHORIZE, text), due(200, response(principal, action, resource, context)))


def but(body, **parts):
    """An evaluation with other parts; None leaves one out."""
    return {k: v for k, v in (body | parts).items() if v is not None}


GOOD = evaluation(ANN, "read", PLAN)
GOOD_DUE = {"decision": True, "context": response(ANN, "read", PLAN, {})}
BAD_DUE = {"decision": False, "context": response(BOB, "read", PLAN, {})}
TEXT = compact(GOOD).encode()
DEEP = b'{"subject":' + b"[" * 129 + b"]" * 129 + b"}"
NO_POST = lambda **more: wrong("$", "there is POST alone", 405, allow="POST", **more)
NO_GET = lambda **more: wrong("$", "there are GET and HEAD alone", 405, allow="GET, HEAD", **more)
METADATA_DUE = {"policy_decision_point": URL, "access_evaluation_endpoint": URL + EVALUATION, "access_evaluations_endpoint": URL + EVALUATIONS}
METADATA_DUE |= {f"search_{part}_endpoint": URL + path for part, path in SEARCH.items()}

DECISIONS = [
    asks("an editor reads, and owns", ANN, "read", PLAN),
    asks("a guest reads", BOB, "read", PLAN),
    asks("the same once more", BOB, "read", PLAN),
    asks("an editor reads what nobody owns", ANN, "read", MENU),
    asks("an owner deletes", ANN, "delete", PLAN),
    asks("a guest deletes", BOB, "delete", PLAN),
    asks("what is sealed, with two permits", ANN, "read", VAULT),
    asks("what is sealed, by an auditor", ANN, "read", VAULT, {"role": "auditor"}),
    asks("what is sealed, by another role", ANN, "read", VAULT, {"role": "Auditor"}),
    asks("one of whom nothing is stored", EVE, "read", PLAN),
    asks("an action of another name", ANN, "READ", MENU),
    asks("a guest prints by day", BOB, "print", PLAN, {"hour": 8}),
    asks("a guest prints by night", BOB, "print", PLAN, {"hour": 18}),
    asks("a policy errs, and another permits", ANN, "print", PLAN),
    asks("a policy errs, and none permits", BOB, "print", PLAN),
    asks("a policy errs, and another forbids", ANN, "print", VAULT),
    asks("an hour of another type is not asked of", BOB, "read", PLAN, {"hour": "eight"}),
    asks("inside", BOB, "copy", MENU, {"address": {"__extn": {"fn": "ip", "arg": "10.1.2.3"}}}, reasons=[4]),
    asks("a context with sets, records and entities", ANN, "read", MENU,
         {"a": [1, "1", True], "b": {"c": {"__entity": {"type": "A::B", "id": ""}}}, "role": "\u2603 \t"}),
    asks("an id with blanks, quotes and letters", BOB, "print", MENU, {"hour": 17}),
    asks("an empty id", ("User", ""), "", ("Document", ""), {}),
]
IDS = [
    asks("an id of the request", ANN, "read", PLAN, fields=["X-Request-ID: 7f"], id="7f"),
    asks("the next has none", BOB, "read", PLAN),
    asks("an id with blanks within, in small letters", BOB, "read", PLAN, fields=["x-request-id:  a b  "], id="a b"),
    asks("of two ids the first", BOB, "read", PLAN, fields=["X-Request-ID: 1", "X-Request-ID: 2"], id="1"),
    ("an id where something is wrong", request("POST", EVALUATION, b"{", ["X-Request-ID: 8"]), wrong("$", "not JSON", id="8")),
    ("an id where nothing is", request("GET", "/", None, ["X-Request-ID: 9"]), unknown(id="9")),
]
WRONG = [
    errs("no JSON", "$", "not JSON", b"{"),
    errs("nothing", "$", "not JSON", b""),
    errs("no UTF-8", "$", "not UTF-8", b'{"subject":"\xff"}'),
    errs("a key twice", "$", "a key comes twice in an object", TEXT[:-1] + b',"action":{"name":"x"}}'),
    errs("a key twice within", "$", "a key comes twice in an object", TEXT.replace(b'"name":"read"', b'"name":"read","name":"print"')),
    errs("too deep", "$", "not JSON", DEEP),
    errs("no object", "$", "not an object", [GOOD]),
    errs("an unexpected member", "$", "an unexpected member", GOOD | {"decision": True}),
    errs("several evaluations where one is asked", "$", "an unexpected member", GOOD | {"evaluations": [GOOD]}),
    errs("no subject", "$.subject", "missing", but(GOOD, subject=None)),
    errs("no action", "$.action", "missing", but(GOOD, action=None)),
    errs("no resource", "$.resource", "missing", but(GOOD, resource=None)),
    errs("a subject that is a text", "$.subject", "not an object", but(GOOD, subject="ann")),
    errs("no type", "$.subject.type", "missing", but(GOOD, subject={"id": "ann"})),
    errs("no id", "$.resource.id", "missing", but(GOOD, resource={"type": "Document"})),
    errs("an id that is a number", "$.subject.id", "not a string", but(GOOD, subject={"type": "User", "id": 1})),
    errs("a type that is no name", "$.resource.type", "not a name", but(GOOD, resource={"type": "a b", "id": "plan"})),
    errs("an action without a name", "$.action.name", "missing", but(GOOD, action={})),
    ("empty properties", request("POST", EVALUATION, but(GOOD, action={"name": "read", "properties": {}})), due(200, GOOD_DUE)),
    errs("a context that is no object", "$.context", "not an object", but(GOOD, context=[])),
    errs("a fraction in the context", "$.context.hour", "not an integer of 64 bits", TEXT[:-1] + b',"context":{"hour":8.5}}'),
    errs("null in the context", "$.context.a[1]", "null is no value", GOOD | {"context": {"a": [1, None]}}),
    errs("an unknown in the context", "$.context", "an unknown stands in it",
         GOOD | {"context": {"a": {"__extn": {"fn": "unknown", "arg": "a"}}}}),
]


def item(subject, action, resource, context=None):
    """What is due to an item that is decided."""
    r = response(subject, action, resource, context or {})
    return {"decision": r["decision"] == "allow", "context": r}


def denied(path, reason):
    """What is due to an item in which something is wrong."""
    return {"decision": False, "context": {"error": {"path": path, "reason": reason}}}


def several(what, all, items, wanted, semantic=None):
    body = all | {"evaluations": items} | ({} if semantic is None else {"options": {"evaluations_semantic": semantic}})
    return (what, request("POST", EVALUATIONS, body), due(200, {"evaluations": wanted}))


def said(entity):
    return {"type": entity[0], "id": entity[1]}


def not_several(what, path, reason, body):
    return (what, request("POST", EVALUATIONS, body), wrong(path, reason))


def too_many(what, all, items):
    return (what, request("POST", EVALUATIONS, all | {"evaluations": items}), wrong("$.evaluations", "too many (--max-evaluations)", 413))


# Of these the first and the last are permitted.
MIXED = [{"resource": said(PLAN)}, {"resource": said(VAULT)}, {"subject": said(BOB), "resource": said(PLAN)}, {"resource": said(MENU)}]
MIXED_DUE = [item(ANN, "read", PLAN), item(ANN, "read", VAULT), item(BOB, "read", PLAN), item(ANN, "read", MENU)]
READS = {"subject": said(ANN), "action": {"name": "read"}}
SEVERAL = [
    several("several, with the subject and the action of all", READS, MIXED, MIXED_DUE),
    several("all of them, by name", READS, MIXED, MIXED_DUE, "execute_all"),
    several("up to the first that is denied", READS, MIXED, MIXED_DUE[:2], "deny_on_first_deny"),
    several("up to the first that is permitted", READS, MIXED, MIXED_DUE[:1], "permit_on_first_permit"),
    several("up to the first that is permitted, which is the last", READS, MIXED[1:], MIXED_DUE[1:], "permit_on_first_permit"),
    several("none is denied", READS, [MIXED[0], MIXED[3]], [MIXED_DUE[0], MIXED_DUE[3]], "deny_on_first_deny"),
    several("a wrong item is denied, and the others are decided", READS, [{}, MIXED[0], 1, {"resource": said(PLAN), "x": 1}],
            [denied("$.resource", "missing"), MIXED_DUE[0], denied("$", "not an object"), denied("$", "an unexpected member")]),
    several("a wrong item stops them", READS, [MIXED[0], {}, MIXED[3]], [MIXED_DUE[0], denied("$.resource", "missing")], "deny_on_first_deny"),
    several("a wrong item is no permit", READS, [{}, MIXED[0], MIXED[3]], [denied("$.resource", "missing"), MIXED_DUE[0]], "permit_on_first_permit"),
    several("a type that is no name", READS, [{"resource": {"type": "", "id": ""}}], [denied("$.resource.type", "not a name")]),
    several("the context of all, and one of its own, which is taken whole", READS | {"resource": said(VAULT), "context": {"role": "auditor"}},
            [{}, {"context": {"hour": 9}}], [item(ANN, "read", VAULT, {"role": "auditor"}), item(ANN, "read", VAULT, {"hour": 9})]),
    several("a resource of its own is taken whole", READS | {"resource": said(PLAN)}, [{"resource": {"id": "vault"}}], [denied("$.resource.type", "missing")]),
    several("so many as may be", READS, [MIXED[0]] * MOST_EVALUATIONS, [MIXED_DUE[0]] * MOST_EVALUATIONS),
    too_many("one more", READS, [MIXED[0]] * (MOST_EVALUATIONS + 1)),
    too_many("one more, where the first stops", READS | {"options": {"evaluations_semantic": "permit_on_first_permit"}}, [MIXED[0]] * (MOST_EVALUATIONS + 1)),
    too_many("one more, of which none says anything", {}, [0] * (MOST_EVALUATIONS + 1)),
    several("the same one twice", READS, [MIXED[0], MIXED[0]], [MIXED_DUE[0], MIXED_DUE[0]]),
    ("no list is one evaluation", request("POST", EVALUATIONS, GOOD), due(200, GOOD_DUE)),
    ("an empty list is one evaluation", request("POST", EVALUATIONS, GOOD | {"evaluations": []}), due(200, GOOD_DUE)),
    not_several("no list, and no evaluation", "$.resource", "missing", READS),
    not_several("a list that is none", "$.evaluations", "not an array", GOOD | {"evaluations": GOOD}),
    not_several("no such semantic", "$.options.evaluations_semantic", "not a semantic", READS | {"evaluations": MIXED, "options": {"evaluations_semantic": "all"}}),
    not_several("a semantic that is a number", "$.options.evaluations_semantic", "not a string", READS | {"evaluations": MIXED, "options": {"evaluations_semantic": 1}}),
    not_several("other options", "$.options", "an unexpected member", READS | {"evaluations": MIXED, "options": {"semantic": "execute_all"}}),
    not_several("options that are no object", "$.options", "not an object", READS | {"evaluations": MIXED, "options": None}),
    not_several("another member", "$", "an unexpected member", READS | {"evaluation": MIXED}),
    ("several with GET", request("GET", EVALUATIONS), NO_POST()),
]

# ---- searches

def named_action(node):
    """The action that a scope names by `==`, if it does."""
    if node.head == "true":
        return []
    assert node.head == "==", node
    kind, id = node.parts[1].head.removeprefix("(entity ").split(" ", 1)
    return [(kind, json.loads(id))]


def candidates_of(policies, entities):
    """The candidates of each search: the entities of the store and the actions that scopes name, by their types and then by their ids."""
    stored = [(it["uid"]["type"], it["uid"]["id"]) for it in json.loads(entities)]
    return sorted({*stored, *(name for policy in policies for name in named_action(policy.action))})


STORED = candidates_of(POLICIES, read("documents.json"))


def search(part, known, context=None, token=None, **more):
    """A search for the part, of which the others are known: a subject and a resource by type and id, an action by name."""
    body = {"subject": None, "action": None, "resource": None}
    for name, it in known.items():
        body[name] = {"name": it} if name == "action" else {"type": it} if isinstance(it, str) else said(it)
    body = {k: v for k, v in body.items() if v is not None}
    body |= {} if context is None else {"context": context}
    body |= {} if token is None else {"page": {"token": token}}
    return request("POST", SEARCH[part], body | more)


def permitted(part, known, context, candidate):
    """Whether the request with this candidate is allowed, if the candidate is of the type."""
    type_name = "Action" if part == "action" else known[part]
    if candidate[0] != type_name:
        return False
    full = known | {part: candidate[1] if part == "action" else candidate}
    return response(full["subject"], full["action"], full["resource"], context or {})["decision"] == "allow"


def page(part, known, context, after):
    """What is due to the page behind so many candidates: what is found, and where the next one begins."""
    found, place = [], after
    while place < len(STORED):
        if len(found) == PAGE_SIZE or place - after == MOST_CANDIDATES:
            return found, f"{VERSION}-{place}"
        if permitted(part, known, context, STORED[place]):
            found.append(STORED[place])
        place += 1
    return found, ""


def pages(what, part, known, context=None, **more):
    """Each page of a search, from the first to the last."""
    out, token, number = [], None, 1
    while token != "":
        found, after = page(part, known, context, int(token.split("-")[1]) if token else 0)
        results = [{"name": it[1]} if part == "action" else said(it) for it in found]
        out.append((f"{what}, page {number}", search(part, known, context, token, **more),
                    due(200, {"results": results, "page": {"next_token": after}})))
        token, number = after, number + 1
    return out


def not_searched(what, part, path, reason, known, **more):
    return (what, search(part, known, **more), wrong(path, reason))


BY_ANN = {"subject": ANN, "action": "read", "resource": "Document"}
OF_PLAN = {"subject": "User", "action": "read", "resource": PLAN}
WITH_PLAN = {"subject": ANN, "resource": PLAN}
NO_TOKEN = ("$.page.token", "not a token of this version")
SEARCHES = [
    *pages("what ann may read", "resource", BY_ANN),
    *pages("what an auditor may read", "resource", BY_ANN, {"role": "auditor"}),
    *pages("what bob may read", "resource", BY_ANN | {"subject": BOB}),
    *pages("what one may read of whom nothing is stored", "resource", BY_ANN | {"subject": EVE}),
    *pages("resources of a type of which there is none", "resource", BY_ANN | {"resource": "Folder"}),
    *pages("who may read the plan", "subject", OF_PLAN),
    *pages("who may print the menu by day", "subject", OF_PLAN | {"action": "print", "resource": MENU}, {"hour": 9}),
    *pages("who may read what is sealed", "subject", OF_PLAN | {"resource": VAULT}),
    *pages("what ann may do", "action", WITH_PLAN),
    *pages("what bob may do", "action", WITH_PLAN | {"subject": BOB}, {"hour": 9}),
    pages("an empty page asks for the first", "resource", BY_ANN | {"subject": BOB}, page={})[0],
    ("an id is not looked at", request("POST", SEARCH["resource"], evaluation(BOB, "read", PLAN)),
     due(200, {"results": [said(it) for it in page("resource", BY_ANN | {"subject": BOB}, None, 0)[0]],
               "page": {"next_token": page("resource", BY_ANN | {"subject": BOB}, None, 0)[1]}})),
    not_searched("a token of another version", "resource", *NO_TOKEN, BY_ANN, token=VERSION[:-1] + "x-1"),
    not_searched("a token behind the last", "resource", *NO_TOKEN, BY_ANN, token=f"{VERSION}-{len(STORED)}"),
    not_searched("a token with a zero before", "resource", *NO_TOKEN, BY_ANN, token=f"{VERSION}-01"),
    not_searched("a token with a sign", "resource", *NO_TOKEN, BY_ANN, token=f"{VERSION}-+1"),
    not_searched("a token without a number", "resource", *NO_TOKEN, BY_ANN, token=f"{VERSION}-"),
    not_searched("an empty token", "resource", *NO_TOKEN, BY_ANN, token=""),
    not_searched("a number alone", "resource", *NO_TOKEN, BY_ANN, token="1"),
    not_searched("a token that is a number", "resource", "$.page.token", "not a string", BY_ANN, token=1),
    not_searched("another member of the page", "resource", "$.page", "an unexpected member", BY_ANN, page={"limit": 1}),
    not_searched("a page that is no object", "resource", "$.page", "not an object", BY_ANN, page=1),
    not_searched("no type", "subject", "$.subject.type", "missing", OF_PLAN, subject={}),
    not_searched("a type that is no name", "resource", "$.resource.type", "not a name", BY_ANN | {"resource": "a b"}),
    not_searched("a type that is no name, of a subject", "subject", "$.subject.type", "not a name", OF_PLAN | {"subject": ""}),
    not_searched("no subject", "action", "$.subject", "missing", {"resource": PLAN}),
    not_searched("an action where actions are searched for", "action", "$", "an unexpected member", BY_ANN),
    not_searched("no action", "resource", "$.action", "missing", {"subject": ANN, "resource": "Document"}),
    not_searched("no id of the resource", "subject", "$.resource.id", "missing", OF_PLAN | {"resource": "Document"}),
    not_searched("null in the context", "subject", "$.context.a", "null is no value", OF_PLAN, context={"a": None}),
    not_searched("an unknown in the context", "action", "$.context", "an unknown stands in it", WITH_PLAN,
                 context={"a": {"__extn": {"fn": "unknown", "arg": "a"}}}),
    ("a search that is no JSON", request("POST", SEARCH["subject"], b"{"), wrong("$", "not JSON")),
    ("a search that is no object", request("POST", SEARCH["action"], []), wrong("$", "not an object")),
    ("a search with GET", request("GET", SEARCH["subject"]), NO_POST()),
    ("a search for what is none", request("POST", "/access/v1/search/context", BY_ANN), unknown()),
]
CEDAR = [
    authorizes("Cedar's request", ANN, "read", PLAN, {}),
    authorizes("the same of a guest", BOB, "print", MENU, {"hour": 20}),
    ("Cedar's request without a context", request("POST", AUTHORIZE, {"principal": 'User::"ann"', "action": 'Action::"read"', "resource": 'Document::"plan"'}),
     wrong("$.context", "missing")),
    ("Cedar's request with another member", request("POST", AUTHORIZE, {"principal": 'User::"ann"', "subject": 1}), wrong("$.subject", "unexpected")),
    ("Cedar's request that is no UTF-8", request("POST", AUTHORIZE, b"\xff"), wrong("$", "not UTF-8")),
]


def partly(what, request_said, decision, may, residuals, unknowns, must=()):
    """What is left of policies for a request of which parts are unknown, as docs/COMMANDS.md has it."""
    body = {"decision": decision, "mustBeDetermining": list(must), "mayBeDetermining": may, "residuals": residuals,
            "unknowns": unknowns, "missingEntities": [], "errors": []}
    return (what, request("POST", PARTLY, request_said), due(200, body))


def not_partly(what, path, reason, body):
    return (what, request("POST", PARTLY, body), wrong(path, reason))


DELETES = {"principal": {"type": "User"}, "action": 'Action::"delete"', "resource": {"type": "Document", "id": "plan"}, "context": {}}
PRINTS = {"principal": 'User::"bob"', "action": 'Action::"print"', "resource": {"__entity": said(MENU)}}
# The scope is one chain from the left: of who asks nothing is known, the action is another, and the resource is a document. An unknown on the
# left stays, since it may still err or be no member; what stands on the right is evaluated.
STAFF_LEFT = ('@id("staff reads")\npermit(principal, action, resource)\n'
              'when { unknown("principal") in Group::"staff" && false && true && true };')
OWNER_LEFT = '@id("owner")\npermit(principal, action, resource)\nwhen { true && (true && User::"ann" == unknown("principal")) };'
DAY_LEFT = ('@id("by day")\npermit(principal, action, resource)\n'
            'when { true && (8 <= unknown("context").hour && unknown("context").hour < 18) };')
PARTIAL = [
    partly("nothing is unknown", {"principal": 'User::"ann"', "action": {"type": "Action", "id": "read"}, "resource": said(PLAN), "context": {}},
           "allow", ["policy0", "policy1"], {}, [], ["policy0", "policy1"]),
    partly("of who asks the type is known", DELETES, None, ["policy0", "policy1"], {"policy0": STAFF_LEFT, "policy1": OWNER_LEFT},
           ["principal"]),
    partly("nothing is known of who asks", but(DELETES, principal=None), None, ["policy0", "policy1"],
           {"policy0": STAFF_LEFT, "policy1": OWNER_LEFT}, ["principal"]),
    partly("the context is unknown", PRINTS, None, ["policy3"], {"policy3": DAY_LEFT}, ["context"]),
    partly("an unknown in the context", PRINTS | {"context": {"hour": {"__extn": {"fn": "unknown", "arg": "hour"}}}}, None, ["policy3"],
           {"policy3": DAY_LEFT.replace('unknown("context").hour', 'unknown("hour")')}, ["hour"]),
    not_partly("what is left, of no JSON", "$", "not JSON", b""),
    not_partly("what is left, of no object", "$", "not an object", []),
    not_partly("what is left, of another member", "$", "an unexpected member", PRINTS | {"subject": 1}),
    not_partly("what is left, of a principal that is a number", "$.principal", "not an object", PRINTS | {"principal": 1}),
    not_partly("what is left, of an id that is a number", "$.action.id", "not a string", PRINTS | {"action": {"type": "Action", "id": 1}}),
    not_partly("what is left, without a type", "$.resource.__entity.type", "missing", PRINTS | {"resource": {"__entity": {"id": "plan"}}}),
    not_partly("what is left, with a member beside `__entity`", "$.resource", "an unexpected member",
               PRINTS | {"resource": {"__entity": said(MENU), "id": ""}}),
    not_partly("what is left, of a type that is no name", "$.principal", "not a name", PRINTS | {"principal": {"type": "a b"}}),
    not_partly("what is left, of an entity whose type is no name", "$.resource", "not a name", PRINTS | {"resource": {"type": "", "id": "plan"}}),
    not_partly("what is left, in a context that is no object", "$.context", "not an object", PRINTS | {"context": "hour"}),
    not_partly("what is left, with null in the context", "$.context.hour", "null is no value", PRINTS | {"context": {"hour": None}}),
    ("what is left, with GET", request("GET", PARTLY), NO_POST()),
]

# ---- what a request brings beside the entities that are stored

class World:
    """Policies and entities, of which a request may bring more."""

    def __init__(self, policies, entities, action_type="Action"):
        self.texts, self.policies, self.entities = (policies, entities), reads(policies.decode()), json.loads(entities)
        self.action_type = action_type
        self.version, self.candidates = version_of(policies, entities), candidates_of(self.policies, entities)

    def store(self, given=(), brought=(), wins=False):
        """The entities, with properties as attributes of entities, and with more entities."""
        out = [it | {"attrs": dict(it["attrs"])} for it in self.entities] + list(brought)
        for uid, properties in given:
            found = [it for it in out if it["uid"] == said(uid)] if properties else [None]
            if not found:
                out.append({"uid": said(uid), "attrs": dict(properties), "parents": []})
            elif found[0] is not None:
                assert wins or not set(properties) & set(found[0]["attrs"]), (uid, properties)
                found[0]["attrs"].update(properties)
        return json_texts.Store(json_texts.document(compact(out).encode()))

    def response(self, principal, action, resource, context, action_type=None, **more):
        three = [("entity", *it) for it in (principal, (action_type or self.action_type, action), resource)]
        about = json_texts.context(json_texts.document(compact(context).encode()))
        allowed, reasons, erring = decided(self.policies, self.store(**more), three + [about])
        return {"decision": "allow" if allowed else "deny", "reason": [f"policy{n}" for n in reasons],
                "errors": [{"policyId": f"policy{n}", "message": NO_HOUR} for n in erring]}

    def evaluated(self, body, wins=False):
        """What is due to an evaluation that is decided, with the properties of its parts."""
        subject, action, resource = ((body[k]["type"], body[k]["id"]) if k != "action" else body[k]["name"] for k in ("subject", "action", "resource"))
        given = [(uid, body[k].get("properties", {})) for uid, k in ((subject, "subject"), ((self.action_type, action), "action"), (resource, "resource"))]
        r = self.response(subject, action, resource, body.get("context", {}), given=given, wins=wins)
        return {"decision": r["decision"] == "allow", "context": r}

    def evaluates(self, what, body, wins=False):
        return (what, request("POST", EVALUATION, body), due(200, self.evaluated(body, wins), of=self.version))

    def page(self, part, body, after):
        """What is found of a search behind so many candidates, and where the next page begins."""
        type_name = self.action_type if part == "action" else body[part]["type"]
        found, place = [], after
        while place < len(self.candidates):
            if len(found) == PAGE_SIZE or place - after == MOST_CANDIDATES:
                return found, f"{self.version}-{place}"
            it = self.candidates[place]
            place += 1
            if it[0] == type_name and self.evaluated(body | {part: {"name": it[1]} if part == "action" else said(it)})["decision"]:
                found.append(it)
        return found, ""

    def pages(self, what, part, body):
        out, token, number = [], None, 1
        while token != "":
            found, after = self.page(part, body, int(token.split("-")[1]) if token else 0)
            results = [{"name": it[1]} if part == "action" else said(it) for it in found]
            sent = body | ({} if token is None else {"page": {"token": token}})
            out.append((f"{what}, page {number}", request("POST", SEARCH[part], sent),
                        due(200, {"results": results, "page": {"next_token": after}}, of=self.version)))
            token, number = after, number + 1
        return out

    def authorizes(self, what, body):
        """Cedar's request, with entities, of which each part is a type and an id."""
        parts = [(body[k]["type"], body[k]["id"]) for k in ("principal", "action", "resource")]
        r = self.response(parts[0], parts[1][1], parts[2], body["context"], parts[1][0], brought=body.get("entities", ()))
        return (what, request("POST", AUTHORIZE, body), due(200, r, of=self.version))


HERE = World(read("documents.cedar"), read("documents.json"))
USED = {"__entity": said(ANN)}
NEW, ZOE = ("Document", "new"), ("User", "zoe")


def by(subject, action, resource, of_subject=None, of_action=None, of_resource=None, context=None):
    """An evaluation with properties."""
    asked = evaluation(subject, action, resource, context)
    for part, properties in (("subject", of_subject), ("action", of_action), ("resource", of_resource)):
        if properties is not None:
            asked[part]["properties"] = properties
    return asked


def has_already(uid, name):
    return f"the entity `{uid[0]}::{compact(uid[1])}` has the attribute `{name}` already"


PROPERTIES = [
    HERE.evaluates("a property that permits", by(ANN, "delete", NEW, of_resource={"owner": USED})),
    HERE.evaluates("without it", by(ANN, "delete", NEW)),
    HERE.evaluates("a property that forbids", by(ANN, "read", PLAN, of_resource={"sealed": True})),
    HERE.evaluates("without it, once more", by(ANN, "read", PLAN)),
    HERE.evaluates("a property of another owner", by(BOB, "delete", NEW, of_resource={"owner": USED})),
    HERE.evaluates("the owner that is stored stays beside a property", by(ANN, "delete", PLAN, of_resource={"pages": 3, "sealed": False})),
    HERE.evaluates("the parents that are stored stay beside a property", by(ANN, "read", MENU, of_subject={"age": 41, "tags": ["a", 1, {"b": {}}]})),
    HERE.evaluates("properties of all three", by(ANN, "read", PLAN, {"age": 41}, {"method": "GET"}, {"pages": 3})),
    HERE.evaluates("of one of whom nothing is stored", by(EVE, "read", PLAN, {"role": "auditor"})),
    HERE.evaluates("of an action that is not stored", by(BOB, "copy", NEW, of_action={"a": 1}, of_resource={"owner": {"__entity": said(BOB)}})),
    HERE.evaluates("empty properties are none", by(EVE, "read", NEW, {}, {}, {})),
    HERE.evaluates("properties of an auditor, by the context", by(ANN, "read", PLAN, of_resource={"sealed": True}, context={"role": "auditor"})),
    errs("an attribute that is stored", "$.resource.properties.owner", has_already(PLAN, "owner"), by(BOB, "delete", PLAN, of_resource={"owner": {"__entity": said(BOB)}})),
    errs("the same value, too", "$.resource.properties.owner", has_already(PLAN, "owner"), by(ANN, "delete", PLAN, of_resource={"owner": USED})),
    errs("a seal that is stored is not broken", "$.resource.properties.sealed", has_already(VAULT, "sealed"), by(ANN, "read", VAULT, of_resource={"sealed": False})),
    errs("one entity in two parts, with one name", "$.resource.properties.a", has_already(ANN, "a"), by(ANN, "read", ANN, {"a": 1}, None, {"a": 2})),
    HERE.evaluates("one entity in two parts, with two names", by(ANN, "read", ANN, {"owner": USED}, None, {"b": 2})),
    errs("a fraction in properties", "$.subject.properties.age", "not an integer of 64 bits", compact(by(ANN, "read", PLAN, {"age": 41.5})).encode()),
    errs("a whole number with a point", "$.subject.properties.age", "not an integer of 64 bits", compact(by(ANN, "read", PLAN, {"age": 41.0})).encode()),
    errs("a number with an exponent", "$.resource.properties.age", "not an integer of 64 bits",
         compact(by(ANN, "read", PLAN, of_resource={"age": 1})).encode().replace(b'"age":1', b'"age":1e2')),
    errs("a number past 64 bits", "$.action.properties.n", "not an integer of 64 bits", by(ANN, "read", PLAN, of_action={"n": 2 ** 63})),
    HERE.evaluates("the least and the greatest number", by(ANN, "read", PLAN, of_action={"n": -2 ** 63, "m": 2 ** 63 - 1})),
    errs("null in properties", "$.resource.properties.status", "null is no value", by(ANN, "read", PLAN, of_resource={"status": None})),
    errs("null within", "$.resource.properties.a.b[1]", "null is no value", by(ANN, "read", PLAN, of_resource={"a": {"b": [1, None]}})),
    errs("an unknown in properties", "$.subject.properties", "an unknown stands in it", by(ANN, "read", PLAN, {"a": {"__extn": {"fn": "unknown", "arg": "a"}}})),
    errs("properties that are an entity", "$.subject.properties", "not an object", by(ANN, "read", PLAN, {"__entity": said(BOB)})),
    errs("properties that are a list", "$.subject.properties", "not an object", by(ANN, "read", PLAN, [1])),
    errs("properties that are null", "$.action.properties", "not an object", GOOD | {"action": {"name": "read", "properties": None}}),
    errs("a key twice in properties", "$", "a key comes twice in an object",
         compact(by(ANN, "read", PLAN, {"a": 1})).encode().replace(b'"a":1', b'"a":1,"a":1')),
    errs("a type that is no name, with properties", "$.subject.type", "not a name", by(("a b", "c"), "read", PLAN, {"a": 1})),
    HERE.evaluates("after all of these", by(BOB, "delete", PLAN)),
]


# With `--request-properties win`, which the conversation is not started with.
WINNING = [
    HERE.evaluates("the owner of a request", by(BOB, "delete", PLAN, of_resource={"owner": {"__entity": said(BOB)}}), True),
    HERE.evaluates("the owner that is stored, then", by(BOB, "delete", PLAN)),
    HERE.evaluates("a seal that is broken", by(ANN, "read", VAULT, of_resource={"sealed": False, "pages": 3}), True),
    HERE.evaluates("the parents stay", by(ANN, "read", MENU, of_subject={"age": 1}, of_resource={"sealed": False}), True),
    HERE.evaluates("of two that are one entity the later", by(ANN, "delete", ANN, {"owner": {"__entity": said(BOB)}}, None, {"owner": USED}), True),
]


def evaluates_all(what, world, all, items, wanted, semantic=None):
    body = all | {"evaluations": items} | ({} if semantic is None else {"options": {"evaluations_semantic": semantic}})
    return (what, request("POST", EVALUATIONS, body), due(200, {"evaluations": wanted}, of=world.version))


OWNED = said(NEW) | {"properties": {"owner": USED}}
SEALED = said(NEW) | {"properties": {"owner": USED, "sealed": True}}
DELETES_ALL = {"subject": said(ANN), "action": {"name": "delete"}, "resource": OWNED}


def item_of(world, all, item):
    return world.evaluated(all | item)


MANY = [
    evaluates_all("the properties of all", HERE, DELETES_ALL, [{}, {"subject": said(BOB)}], [item_of(HERE, DELETES_ALL, it) for it in ({}, {"subject": said(BOB)})]),
    evaluates_all("properties of its own", HERE, DELETES_ALL, [{"resource": SEALED}, {"resource": said(NEW)}, {}],
                  [item_of(HERE, DELETES_ALL, it) for it in ({"resource": SEALED}, {"resource": said(NEW)}, {})]),
    evaluates_all("wrong properties are denied, and the others are decided", HERE, DELETES_ALL,
                  [{"resource": said(PLAN) | {"properties": {"owner": USED}}}, {"resource": said(NEW) | {"properties": {"n": None}}}, {}],
                  [denied("$.resource.properties.owner", has_already(PLAN, "owner")), denied("$.resource.properties.n", "null is no value"),
                   item_of(HERE, DELETES_ALL, {})]),
    evaluates_all("wrong properties stop them", HERE, DELETES_ALL, [{}, {"subject": said(ANN) | {"properties": 1}}, {}],
                  [item_of(HERE, DELETES_ALL, {}), denied("$.subject.properties", "not an object")], "deny_on_first_deny"),
    *HERE.pages("who may delete what has this owner", "subject", {"subject": {"type": "User"}, "action": {"name": "delete"}, "resource": OWNED}),
    *HERE.pages("who may delete what is sealed, too", "subject", {"subject": {"type": "User"}, "action": {"name": "delete"}, "resource": SEALED}),
    *HERE.pages("what ann may do with it", "action", {"subject": said(ANN), "resource": OWNED}),
    *HERE.pages("what one may read of whom a property is known", "resource",
                {"subject": said(EVE) | {"properties": {"a": 1}}, "action": {"name": "read", "properties": {"b": 2}}, "resource": {"type": "Document"}}),
    ("properties of what is searched for", request("POST", SEARCH["subject"], {"subject": {"type": "User", "properties": {"a": 1}}, "action": {"name": "read"},
     "resource": said(PLAN)}), wrong("$.subject.properties", "properties of what is searched for")),
    ("empty ones are none", request("POST", SEARCH["resource"], {"subject": said(BOB), "action": {"name": "delete"}, "resource": {"type": "Document", "properties": {}}}),
     due(200, {"results": [said(("Document", "draft"))], "page": {"next_token": f"{VERSION}-{MOST_CANDIDATES}"}})),
    ("an attribute that is stored, of a search", request("POST", SEARCH["action"], {"subject": said(BOB), "resource": said(PLAN) | {"properties": {"owner": USED}}}),
     wrong("$.resource.properties.owner", has_already(PLAN, "owner"))),
    ("null in the properties of a search", request("POST", SEARCH["resource"], {"subject": said(BOB) | {"properties": {"a": [None]}}, "action": {"name": "read"},
     "resource": {"type": "Document"}}), wrong("$.subject.properties.a[0]", "null is no value")),
]

EDITORS, STAFF = ("Group", "editors"), ("Group", "staff")


def entity(uid, *parents, **attrs):
    return {"uid": said(uid), "attrs": attrs, "parents": [said(it) for it in parents]}


def with_entities(principal, resource, *entities, action="read", context=None):
    return {"principal": said(principal), "action": {"type": "Action", "id": action}, "resource": said(resource), "context": context or {},
            "entities": list(entities)}


def not_added(what, path, reason, *entities, text=None):
    body = compact(with_entities(ZOE, PLAN, *entities)).encode() if text is None else text
    return (what, request("POST", AUTHORIZE, body), wrong(path, reason))


def named(uid):
    return f"the entity `{uid[0]}::{compact(uid[1])}`"


# The ids that Cedar's own requests have: any JSON, which stands first in the answer.
LABELS = [7, "a \"b\"\n\u0007\u2603", None, True, {"id": {"id": []}}, [1, "1", -12345678901234567890], ""]


def labelled(id, row):
    """A row of which the request has an id, and so the answer."""
    what, sent, wanted = row
    method, path = sent.split(b" ", 2)[:2]
    body = json.loads(sent.split(b"\r\n\r\n", 1)[1])
    status = int(wanted.split(b" ", 2)[1])
    return (f"{what}, with an id", request(method.decode(), path.decode(), body | {"id": id}),
            due(status, {"id": id} | json.loads(wanted.split(b"\r\n\r\n", 1)[1])))


LOOP, OTHER = ("Group", "loop"), ("Group", "other")
TOO_MANY, TOO_MANY_PARENTS = "too many (--max-request-entities)", "too many parents (--max-request-ancestors)"


def too_large(what, path, reason, *entities):
    return (what, request("POST", path, with_entities(ZOE, PLAN, *entities)), wrong("$.entities", reason, 413))


BROUGHT = [
    HERE.authorizes("an entity that is brought", with_entities(ZOE, PLAN, entity(ZOE, EDITORS))),
    HERE.authorizes("the next has it no more", with_entities(ZOE, PLAN)),
    HERE.authorizes("no entities are none", with_entities(ANN, PLAN)),
    HERE.authorizes("its parent is brought, too", with_entities(ZOE, PLAN, entity(ZOE, OTHER), entity(OTHER, EDITORS))),
    HERE.authorizes("its own document", with_entities(ZOE, NEW, entity(ZOE), entity(NEW, owner={"__entity": said(ZOE)}), action="delete")),
    HERE.authorizes("a document of another", with_entities(BOB, NEW, entity(NEW, owner={"__entity": said(ZOE)}), action="delete")),
    HERE.authorizes("what is sealed", with_entities(ZOE, NEW, entity(ZOE, EDITORS), entity(NEW, sealed=True))),
    HERE.authorizes("one that is recorded as an ancestor", with_entities(ANN, PLAN, entity(STAFF, color="red"))),
    HERE.authorizes("its members are those that they were", with_entities(ZOE, PLAN, entity(STAFF), entity(ZOE, STAFF))),
    HERE.authorizes("none that is asked for", with_entities(BOB, PLAN, entity(ZOE, EDITORS))),
    not_added("a parent that is not there", "$.entities[0]", f"{named(ZOE)} has the parent `Group::\"none\"`, which is neither stored nor brought",
              entity(ZOE, ("Group", "none"))),
    not_added("one that is stored", "$.entities[1]", f"{named(ANN)} is stored already", entity(ZOE, EDITORS), entity(ANN)),
    not_added("one that is stored, with other parents", "$.entities[0]", f"{named(BOB)} is stored already", entity(BOB, EDITORS)),
    not_added("one that a stored one records, with parents", "$.entities[0]",
              f"{named(STAFF)} has parents, and the stored entity `Group::\"editors\"` records it as an ancestor", entity(STAFF, EDITORS)),
    not_added("parents that lead back", "$.entities[1]", f"the parents of the entity `Group::\"loop\"` lead back to it", entity(ZOE, LOOP), entity(LOOP, LOOP)),
    not_added("one twice", "$.entities[1].uid", "the entity comes again", entity(ZOE), entity(ZOE, EDITORS)),
    not_added("a fraction in an entity", "$.entities[0].attrs.age", "not an integer of 64 bits", entity(ZOE, age=1.5)),
    not_added("null in an entity", "$.entities[0].attrs.a", "null is no value", entity(ZOE, a=None)),
    not_added("an entity without parents", "$.entities[0].parents", "missing", {"uid": said(ZOE), "attrs": {}}),
    not_added("entities that are none", "$.entities", "not an array", text=compact(with_entities(ZOE, PLAN) | {"entities": {}}).encode()),
    not_added("entities that are null", "$.entities", "not an array", text=compact(with_entities(ZOE, PLAN) | {"entities": None}).encode()),
    not_added("entities twice", "$", "a key comes twice in an object", text=compact(with_entities(ZOE, PLAN)).encode()[:-1] + b',"entities":[]}'),
    ("another member beside entities", request("POST", AUTHORIZE, with_entities(ZOE, PLAN, entity(ZOE)) | {"subject": 1}), wrong("$.subject", "unexpected")),
    ("entities and no context", request("POST", AUTHORIZE, but(with_entities(ZOE, PLAN, entity(ZOE)), context=None)), wrong("$.context", "missing")),
    ("an unknown beside entities", request("POST", AUTHORIZE, with_entities(ZOE, PLAN, entity(ZOE), context={"a": {"__extn": {"fn": "unknown", "arg": "a"}}})),
     wrong("$.context", "an unknown stands in it")),
    HERE.authorizes("so many entities as may be, with so many parents", with_entities(ZOE, PLAN, entity(ZOE, EDITORS, OTHER), entity(OTHER, EDITORS))),
    too_large("one entity more", AUTHORIZE, TOO_MANY, entity(ZOE), entity(OTHER), entity(LOOP)),
    too_large("one parent more", AUTHORIZE, TOO_MANY_PARENTS, entity(ZOE, EDITORS, OTHER), entity(OTHER, EDITORS, EDITORS)),
    too_large("one parent more, the same each time", AUTHORIZE, TOO_MANY_PARENTS, entity(ZOE, EDITORS, EDITORS, EDITORS, EDITORS)),
    too_large("one entity more, of which none says anything", AUTHORIZE, TOO_MANY, 0, 0, 0),
    too_large("what is left, with one entity more", PARTLY, TOO_MANY, entity(ZOE), entity(OTHER), entity(LOOP)),
    too_large("what is left, with one parent more", PARTLY, TOO_MANY_PARENTS, entity(ZOE, EDITORS, EDITORS, EDITORS, EDITORS)),
    HERE.authorizes("after all of these it is not there", with_entities(ZOE, PLAN)),
    partly("what is left, with an entity", with_entities(ZOE, PLAN, entity(ZOE, EDITORS)), "allow", ["policy0"], {}, [], ["policy0"]),
    partly("what is left, without", with_entities(ZOE, PLAN), "deny", [], {}, []),
    not_partly("what is left, with one that is stored", "$.entities[0]", f"{named(ANN)} is stored already", with_entities(ZOE, PLAN, entity(ANN))),
    not_partly("what is left, with null in an entity", "$.entities[0].attrs.a", "null is no value", with_entities(ZOE, PLAN, entity(ZOE, a=None))),
    not_partly("what is left, with entities that are none", "$.entities", "not an array", with_entities(ZOE, PLAN) | {"entities": 1}),
]

LABELLED = [
    *(labelled(id, row) for id, row in zip(LABELS, [CEDAR[0], CEDAR[1], CEDAR[2], CEDAR[3], BROUGHT[0], BROUGHT[11], BROUGHT[5]])),
    CEDAR[0],
    *(labelled(id, row) for id, row in zip(LABELS, PARTIAL[:5])),
    *(labelled(id, row) for id, row in zip(LABELS, [it for it in PARTIAL if "a principal that is a number" in it[0] or "null in" in it[0]])),
    labelled(1, next(it for it in BROUGHT if it[0] == "what is left, with one that is stored")),
    labelled(2, next(it for it in BROUGHT if it[0] == "one entity more")),
    labelled(3, next(it for it in BROUGHT if it[0] == "what is left, with one parent more")),
    PARTIAL[0],
    ("an id twice", request("POST", AUTHORIZE, b'{"id":1,"id":1}'), wrong("$", "a key comes twice in an object")),
    ("an id twice, of what is left", request("POST", PARTLY, b'{"id":1,"id":1}'), wrong("$", "a key comes twice in an object")),
    ("an id alone", request("POST", AUTHORIZE, {"id": 1}), due(400, {"id": 1, "error": {"path": "$.principal", "reason": "missing"}})),
    ("an id within", request("POST", AUTHORIZE, [{"id": 1}]), wrong("$", "not an object")),
    ("an id of an evaluation", request("POST", EVALUATION, GOOD | {"id": 1}), wrong("$", "an unexpected member")),
]


# Without `--request-entities allowed`.
NOT_TAKEN = wrong("$.entities", "not taken (--request-entities)")
ALONE = [
    ("an entity is not taken", request("POST", AUTHORIZE, with_entities(ZOE, PLAN, entity(ZOE, EDITORS))), NOT_TAKEN),
    ("nor many", request("POST", AUTHORIZE, with_entities(ZOE, PLAN, *[entity(ZOE)] * 1000)), NOT_TAKEN),
    ("nor what is none", request("POST", AUTHORIZE, with_entities(ZOE, PLAN) | {"entities": {}}), NOT_TAKEN),
    ("nor null", request("POST", AUTHORIZE, with_entities(ZOE, PLAN) | {"entities": None}), NOT_TAKEN),
    labelled(7, ("nor one with an id", request("POST", AUTHORIZE, with_entities(ZOE, PLAN, entity(ZOE, EDITORS))), NOT_TAKEN)),
    ("nor where parts are unknown", request("POST", PARTLY, with_entities(ZOE, PLAN, entity(ZOE, EDITORS))), NOT_TAKEN),
    HERE.authorizes("an empty array is none", with_entities(ANN, PLAN)),
    partly("an empty array is none, of what is left", with_entities(ZOE, PLAN), "deny", [], {}, []),
    HERE.authorizes("what is stored decides", but(with_entities(ANN, PLAN), entities=None)),
]


# With `--action-type Api::Act`: over policies of which most name actions of this type, and two of the other.
TYPED = World(read("documents.cedar").replace(b'Action::"', b'Api::Act::"') + b'permit(principal, action == Action::"copy", resource);', read("documents.json"), "Api::Act")
TYPES = [
    *(TYPED.evaluates(f"{subject[1]} does {action} with {resource[1]}", evaluation(subject, action, resource, {"hour": 9}))
      for subject in (ANN, BOB) for action in ("read", "print", "delete", "copy") for resource in (PLAN, VAULT, MENU)),
    TYPED.evaluates("a property of an action", by(ANN, "read", PLAN, of_action={"a": 1})),
    *TYPED.pages("what ann may do, by their names", "action", {"subject": said(ANN), "resource": said(PLAN)}),
    *TYPED.pages("what bob may do", "action", {"subject": said(BOB), "resource": said(PLAN), "context": {"hour": 9}}),
    *TYPED.pages("what bob may print", "resource", {"subject": said(BOB), "action": {"name": "print"}, "resource": {"type": "Document"}, "context": {"hour": 9}}),
    TYPED.authorizes("Cedar's request names its own type", with_entities(ANN, PLAN) | {"action": {"type": "Api::Act", "id": "read"}}),
    TYPED.authorizes("and is asked of that", with_entities(ANN, PLAN)),
]


def takes(what, path, text, of):
    return (what, request("PUT", path, text), due(200, {"version": of}, of=of))


# ---- AuthZEN's own bodies, from memory, over policies and entities that make the answers which the specification shows

AUTHZEN = World(read("authzen.cedar"), read("authzen.json"))
ALICE = {"type": "user", "id": "alice@example.com"}
ACCOUNT = {"type": "account", "id": "123"}
SHOWN = {"subject": ALICE, "resource": ACCOUNT, "action": {"name": "can_read", "properties": {"method": "GET"}},
         "context": {"time": "1985-10-26T01:22-07:00"}}
BOXCARRING, SUBJECT_SEARCH, RESOURCE_SEARCH = ({"type": "document", "id": f"{it}.md"} for it in ("boxcarring", "subject-search", "resource-search"))
READS_ALL = {"subject": ALICE, "context": {"time": "2024-05-31T15:22-07:00"}, "action": {"name": "can_read"}}
THREE = [{"resource": BOXCARRING}, {"resource": SUBJECT_SEARCH}, {"resource": RESOURCE_SEARCH}]
EDITS = THREE[:2] + [{"action": {"name": "can_edit"}, "resource": RESOURCE_SEARCH}]


def shown(what, items, semantic=None, wanted=None):
    """Several evaluations; the decisions are those that the specification shows."""
    all = [item_of(AUTHZEN, READS_ALL, it) for it in items][:len(wanted)]
    assert [it["decision"] for it in all] == wanted, (what, all)
    return evaluates_all(what, AUTHZEN, READS_ALL, items, all, semantic)


assert AUTHZEN.evaluated(SHOWN)["decision"] and not AUTHZEN.evaluated(SHOWN | {"action": {"name": "can_read", "properties": {"method": "PUT"}}})["decision"]
SPECIFICATION = [
    takes("AuthZEN's policies", NEW_POLICIES, AUTHZEN.texts[0], version_of(AUTHZEN.texts[0], read("documents.json"))),
    takes("AuthZEN's entities", NEW_ENTITIES, AUTHZEN.texts[1], AUTHZEN.version),
    AUTHZEN.evaluates("AuthZEN's evaluation", SHOWN),
    AUTHZEN.evaluates("the same with another property", SHOWN | {"action": {"name": "can_read", "properties": {"method": "PUT"}}}),
    AUTHZEN.evaluates("a subject with properties", SHOWN | {"subject": {"type": "user", "id": "alice@acmecorp.com", "properties": {
        "department": "Sales", "ip_address": "172.217.22.14", "device_id": "8:65:ee:17:7e:0b"}}}),
    AUTHZEN.evaluates("a resource with properties", {"subject": {"type": "user", "id": "alice@acmecorp.com"}, "action": {"name": "extendLoan", "properties": {
        "period": "2W"}}, "resource": {"type": "book", "id": "123", "properties": {"library_record": {"title": "AuthZEN in Action", "isbn": "978-0593383322"}}}}),
    shown("several, with the defaults", EDITS, None, [True, False, False]),
    shown("execute_all", THREE, "execute_all", [True, False, True]),
    shown("deny_on_first_deny", THREE, "deny_on_first_deny", [True, False]),
    shown("permit_on_first_permit", [THREE[1], THREE[0], THREE[2]], "permit_on_first_permit", [False, True]),
    *AUTHZEN.pages("the subject search", "subject", {"subject": {"type": "user"}, "action": {"name": "can_read"}, "resource": ACCOUNT,
                                                   "context": {"time": "2024-10-26T01:22-07:00"}}),
    *AUTHZEN.pages("the resource search", "resource", {"subject": ALICE, "action": {"name": "can_read"}, "resource": {"type": "account"}}),
    *AUTHZEN.pages("the action search", "action", {"subject": ALICE, "resource": ACCOUNT, "context": {"time": "2024-10-26T01:22-07:00"}}),
    takes("the first policies, behind AuthZEN's", NEW_POLICIES, read("documents.cedar"), version_of(read("documents.cedar"), AUTHZEN.texts[1])),
    takes("the first entities, behind AuthZEN's", NEW_ENTITIES, read("documents.json"), VERSION),
]

# ---- other policies and entities, one after another

LESS = b'permit(principal == User::"bob", action, resource);'
FEWER = b'[{"uid": {"type": "Document", "id": "plan"}, "attrs": {}, "parents": []}]'
POLICIES_TEXT, ENTITIES_TEXT = read("documents.cedar"), read("documents.json")
SECOND, THIRD, FOURTH = version_of(LESS, ENTITIES_TEXT), version_of(LESS, FEWER), version_of(POLICIES_TEXT, FEWER)
NO_PUT = lambda **more: wrong("$", "there is PUT alone", 405, allow="PUT", **more)


def left_out(what, path, text, where, reason, of=VERSION):
    return (what, request("PUT", path, text), wrong(where, reason, of=of))


def by_then(what, subject, allowed, reasons, of):
    """An evaluation by other policies, with the reasons."""
    body = {"decision": allowed, "context": {"decision": "allow" if allowed else "deny", "reason": reasons, "errors": []}}
    return (what, request("POST", EVALUATION, evaluation(subject, "read", PLAN)), due(200, body, of=of))


# By these policies bob reads each document: the first page has two, and the next begins behind the second.
THEN = candidates_of(reads(LESS.decode()), ENTITIES_TEXT)
DOCUMENTS = [place for place, it in enumerate(THEN) if it[0] == "Document"]
FIRST_PAGE = page("resource", BY_ANN, None, 0)
RELOADS = [
    ("policies with GET", request("GET", NEW_POLICIES), NO_PUT()),
    ("entities with POST", request("POST", NEW_ENTITIES, []), NO_PUT()),
    left_out("policies that are none", NEW_POLICIES, b"permit(principal, action);", "$", "line 1, column 25: expected `,`, found `)`"),
    left_out("policies that are no UTF-8", NEW_POLICIES, b"\xff", "$", "not UTF-8"),
    left_out("entities that are no JSON", NEW_ENTITIES, b"[", "$", "not JSON"),
    left_out("entities of which one has no uid", NEW_ENTITIES, b"[{}]", "$[0].uid", "missing"),
    left_out("entities with a key twice", NEW_ENTITIES, b'[{"uid":1,"uid":1}]', "$", "a key comes twice in an object"),
    left_out("parents that lead back", NEW_ENTITIES, b'[{"uid": {"type": "G", "id": "a"}, "attrs": {}, "parents": [{"type": "G", "id": "a"}]}]', "$",
             'the parents of the entity `G::"a"` lead back to it'),
    by_then("it decides as before", ANN, True, ["policy0", "policy1"], VERSION),
    takes("other policies", NEW_POLICIES, LESS, SECOND),
    by_then("by these ann does not read", ANN, False, [], SECOND),
    by_then("by these bob reads", BOB, True, ["policy0"], SECOND),
    ("a token of the version before", search("resource", BY_ANN, token=FIRST_PAGE[1]), wrong(*NO_TOKEN, of=SECOND)),
    ("what bob reads by then", search("resource", BY_ANN | {"subject": BOB}),
     due(200, {"results": [said(THEN[it]) for it in DOCUMENTS[:PAGE_SIZE]],
               "page": {"next_token": f"{SECOND}-{DOCUMENTS[PAGE_SIZE - 1] + 1}"}}, of=SECOND)),
    takes("other entities", NEW_ENTITIES, FEWER, THIRD),
    ("what bob reads of these", search("resource", BY_ANN | {"subject": BOB}),
     due(200, {"results": [said(PLAN)], "page": {"next_token": ""}}, of=THIRD)),
    left_out("policies that are none, once more", NEW_POLICIES, b"x", "$",
             "line 1, column 1: expected a policy, found an identifier", of=THIRD),
    takes("the first policies again", NEW_POLICIES, POLICIES_TEXT, FOURTH),
    by_then("over these ann owns nothing", ANN, False, [], FOURTH),
    takes("the first entities again", NEW_ENTITIES, ENTITIES_TEXT, VERSION),
    by_then("it decides as at first", ANN, True, ["policy0", "policy1"], VERSION),
    ("the token is taken again", search("resource", BY_ANN, token=FIRST_PAGE[1]),
     due(200, {"results": [said(it) for it in page("resource", BY_ANN, None, int(FIRST_PAGE[1].split("-")[1]))[0]],
               "page": {"next_token": page("resource", BY_ANN, None, int(FIRST_PAGE[1].split("-")[1]))[1]}})),
]
ENDPOINTS = [
    ("it answers", request("GET", HEALTH), due(200, {"status": "ok"})),
    ("HEAD", request("HEAD", HEALTH), due(200, {"status": "ok"}, is_head=True)),
    ("a query", request("GET", HEALTH + "?deep=1"), due(200, {"status": "ok"})),
    ("a whole URI", request("GET", "http://pdp" + HEALTH), due(200, {"status": "ok"})),
    ("another method", request("POST", HEALTH, {}), NO_GET()),
    ("the metadata", request("GET", METADATA), due(200, METADATA_DUE)),
    ("the metadata, with DELETE", request("DELETE", METADATA), NO_GET()),
    ("an evaluation with GET", request("GET", EVALUATION), NO_POST()),
    ("an evaluation with HEAD", request("HEAD", EVALUATION), NO_POST(is_head=True)),
    ("an evaluation with PUT", request("PUT", EVALUATION, GOOD), NO_POST()),
    ("another path", request("POST", EVALUATION + "/", GOOD), unknown()),
    ("another case", request("POST", EVALUATION.upper(), GOOD), unknown()),
    ("the root", request("GET", "/"), unknown()),
]
FRAMING = [
    ("chunks, with an extension and a trailer", request("POST", EVALUATION, b"", ["Transfer-Encoding: chunked"])
     + chunks(TEXT, 5, 1, 30).replace(b"5\r\n", b"5;a=b\r\n", 1) + b"0\r\nX: y\r\n\r\n", due(200, GOOD_DUE)),
    ("it waits for 100", request("POST", EVALUATION, GOOD, ["Expect: 100-continue"]), b"HTTP/1.1 100 Continue\r\n\r\n" + due(200, GOOD_DUE)),
    ("blank lines before a request", b"\r\n" + request("GET", HEALTH), due(200, {"status": "ok"})),
    ("the older HTTP, kept alive", request("GET", HEALTH, None, ["Connection: keep-alive"], "1.0", None),
     due(200, {"status": "ok"}, version="1.0", connection="keep-alive")),
    ("as large a body as may be", request("POST", EVALUATION, TEXT + b" " * (4096 - len(TEXT))), due(200, GOOD_DUE)),
]
CUT = ("cut within", request("POST", EVALUATION, GOOD)[:-9], refused(400))

# Each alone behind a good request, since it ends its connection.
LAST = [
    CUT,
    ("cut within a head", request("POST", EVALUATION, GOOD)[:40], refused(400)),
    ("nothing more", b"", b""),
    ("too large a body", request("POST", EVALUATION, TEXT + b" " * (4097 - len(TEXT))), refused(413)),
    ("too large in chunks", request("POST", EVALUATION, b"", ["Transfer-Encoding: chunked"]) + chunks(b" " * 5000, 4000) + b"0\r\n\r\n", refused(413)),
    ("no HTTP", b"hello\r\n\r\n", refused(400)),
    ("no host", request("GET", HEALTH, host=None), refused(400)),
    ("no such host", request("GET", HEALTH, host="a b"), refused(400)),
    ("two lengths", request("POST", EVALUATION, GOOD, ["Content-Length: 1"]), refused(400)),
    ("another coding", request("POST", EVALUATION, b"", ["Transfer-Encoding: gzip, chunked"]) + b"0\r\n\r\n", refused(501)),
    ("a head that is too long", request("GET", HEALTH, None, ["A: " + "a" * 17000]), refused(431)),
    ("too many fields", request("GET", HEALTH, None, [f"A{n}: 1" for n in range(70)]), refused(431)),
    ("it asks to close", request("POST", EVALUATION, GOOD, ["Connection: close"]), due(200, GOOD_DUE, connection="close")),
    ("it asks to close, and is denied", request("POST", EVALUATION, evaluation(BOB, "read", PLAN), ["Connection: close"]), due(200, BAD_DUE, connection="close")),
    ("the older HTTP", request("GET", HEALTH, version="1.0", host=None), due(200, {"status": "ok"}, version="1.0", connection="close")),
]


def interleaved():
    """All but the last, in an order that sets good, bad and other ones beside each other."""
    groups = [list(it) for it in (DECISIONS, WRONG, ENDPOINTS, IDS, CEDAR, FRAMING, SEVERAL, SEARCHES, PARTIAL, PROPERTIES, MANY, BROUGHT, LABELLED)]
    out = []
    while any(groups):
        for group in groups:
            out += [group.pop(0)] if group else []
    return out


def conversation():
    rows = [*interleaved(), *RELOADS, *SPECIFICATION, CUT]
    return rows, b"".join(it[1] for it in rows), b"".join(it[2] for it in rows)


def lines():
    """Cedar's own requests, a line each, good and bad ones, and the line that is due to each."""
    rows = []
    for principal, action, resource, context in ((ANN, "read", PLAN, {}), (BOB, "print", MENU, {"hour": 9}), (BOB, "print", MENU, {"hour": 20}),
                                                 (ANN, "read", VAULT, {"role": "auditor"}), (EVE, "", PLAN, {"a": [1, "\n", True]})):
        text = {"principal": said(principal), "action": {"type": "Action", "id": action}, "resource": said(resource), "context": context}
        rows.append((compact(text).encode(), response(principal, action, resource, context)))
        rows.append((b"{", {"error": {"path": "$", "reason": "not JSON"}}))
        rows.append((compact(text | {"subject": 1}).encode(), {"error": {"path": "$.subject", "reason": "unexpected"}}))
        id = LABELS[len(rows) % len(LABELS)]
        rows.append((compact({"id": id} | text).encode(), {"id": id} | rows[-3][1]))
        rows.append((compact(text | {"subject": 1, "id": id}).encode(), {"id": id} | rows[-2][1]))
    rows += [(b"", {"error": {"path": "$", "reason": "not JSON"}}), (b"\xff", {"error": {"path": "$", "reason": "not UTF-8"}}),
             (rows[0][0] + b"\r", rows[0][1])]
    return b"".join(line + b"\n" for line, _ in rows), b"".join(compact(wanted).encode() + b"\n" for _, wanted in rows)


# ---- what a log is told

def unchunked(body):
    out = b""
    while True:
        size, body = body.split(b"\r\n", 1)
        size = int(size.split(b";")[0], 16)
        if size == 0:
            return out
        out, body = out + body[:size], body[size + 2:]


def exchange(sent, wanted):
    """The path, the id, the body and the answer of a row, where it is answered with 200."""
    head, body = sent.lstrip(b"\r\n").split(b"\r\n\r\n", 1)
    fields = [it.split(": ", 1) for it in head.decode().split("\r\n")[1:]]
    answer = wanted.removeprefix(b"HTTP/1.1 100 Continue\r\n\r\n")
    if not answer.startswith(b"HTTP/1.1 200 ") or not head.startswith(b"POST "):
        return None
    if any(it[0] == "Transfer-Encoding" for it in fields):
        body = unchunked(body)
    ids = [it[1].strip() for it in fields if it[0].lower() == "x-request-id"]
    return head.decode().split(" ")[1].split("?")[0], ids[:1], json.loads(body), json.loads(answer.split(b"\r\n\r\n", 1)[1])


def cedar_request(whole):
    """What an evaluation asks, as Cedar's own request; what is missing is null."""
    def of(part, names):
        it = whole.get(part)
        it = it if isinstance(it, dict) else {}
        more = {"properties": it["properties"]} if it.get("properties", {}) != {} else {}
        return {name: it.get(key) for name, key in names.items()} | more
    entity = {"type": "type", "id": "id"}
    asked = {"principal": of("subject", entity), "action": {"type": "Action"} | of("action", {"id": "name"}),
             "resource": of("resource", entity), "context": whole.get("context", {})}
    return asked | ({"entities": whole["entities"]} if "entities" in whole else {})


def log_lines(sent, wanted, of):
    """The lines of what an answer hands out: each request and its answer, the version and the id."""
    found = exchange(sent, wanted)
    if found is None:
        return []
    path, ids, body, answer = found
    told = []
    if path == AUTHORIZE:
        told = [{"request": body, "answer": answer}]
    elif path in (EVALUATION, EVALUATIONS):
        items, answers = [{}], [answer]
        if "evaluations" in answer:
            items, answers = body["evaluations"], answer["evaluations"]
        told = [{"request": cedar_request(body | (it if isinstance(it, dict) else {})), "answer": one}
                for it, one in zip(items, answers)]
    else:
        told = [{"path": path, "asked": body, "answer": answer}]
    return [compact(it | {"version": of} | ({"requestId": ids[0]} if ids else {})) for it in told]


def version_in(wanted):
    return next((it[len(b"cedar-version: "):].decode() for it in wanted.split(b"\r\n") if it.startswith(b"cedar-version: ")), None)


def log_of(rows):
    return "".join(line + "\n" for _, sent, wanted in rows for line in log_lines(sent, wanted, version_in(wanted))).encode()


def withheld(rows):
    """The same answers where nothing can be written to the log."""
    none = b"HTTP/1.1 500 Internal Server Error\r\ncontent-length: 0\r\n\r\n"
    out = b""
    for _, sent, wanted in rows:
        interim = b"HTTP/1.1 100 Continue\r\n\r\n" if wanted.startswith(b"HTTP/1.1 100 ") else b""
        out += interim + none if log_lines(sent, wanted, version_in(wanted)) else wanted
    return out


# ---- against a program

def options():
    with open(f"{CRATE}/args", encoding="utf-8") as it:
        return it.read().split("\n")[:-1]


def answer(program, pieces, words=None):
    """What the program answers to these bytes, each piece written by itself."""
    with subprocess.Popen([program, *(options() if words is None else words)], cwd=f"{CRATE}/data", stdin=subprocess.PIPE, stdout=subprocess.PIPE) as it:
        reader = threading.Thread(target=lambda: out.append(it.stdout.read()))
        out = []
        reader.start()
        try:
            for piece in pieces:
                it.stdin.write(piece)
                it.stdin.flush()
            it.stdin.close()
        except BrokenPipeError:
            pass
        reader.join()
    return out[0], it.returncode


def run(program):
    rows, sent, wanted = conversation()
    faults = []

    def check(what, pieces, wanted, words=None):
        got, status = answer(program, pieces, words)
        if (got, status) != (wanted, 0):
            at = next((n for n, (a, b) in enumerate(zip(got, wanted)) if a != b), min(len(got), len(wanted)))
            faults.append(f"{what}: status {status}, at byte {at}: {got[at - 60:at + 60]!r} instead of {wanted[at - 60:at + 60]!r}")

    for name, data in (("stdin", sent), ("stdout", wanted)):
        with open(f"{CRATE}/{name}", "rb") as it:
            if it.read() != data:
                faults.append(f"crates/cedar_serve/{name} is not what `write` writes")
    check("the conversation", [sent], wanted)
    random.seed(71)
    for _ in range(3):
        cuts = sorted(random.sample(range(len(sent)), 200))
        check("the same in pieces", [sent[a:b] for a, b in zip([0, *cuts], [*cuts, len(sent)])], wanted)
    for what, last, ends in LAST:
        check(what, [request("POST", EVALUATION, GOOD) + last], due(200, GOOD_DUE) + ends)
    words = options()
    at = words.index("--request-entities")
    check("no entities are taken", [it[1] for it in ALONE], b"".join(it[2] for it in ALONE), words[:at] + words[at + 2:])
    check("none are taken, by name", [it[1] for it in ALONE], b"".join(it[2] for it in ALONE), [*words[:at + 1], "none", *words[at + 2:]])
    check("the request wins", [it[1] for it in WINNING], b"".join(it[2] for it in WINNING), ["win" if it == "beside" else it for it in options()])
    with tempfile.TemporaryDirectory() as folder:
        typed = os.path.join(folder, "typed.cedar")
        with open(typed, "wb") as it:
            it.write(TYPED.texts[0])
        words = ["--policies", typed, *options()[2:]]
        for name in ("Api::Act", " Api :: Act // the same"):
            check(f"actions of the type {name!r}", [it[1] for it in TYPES], b"".join(it[2] for it in TYPES), [*words, "--action-type", name])
    for name in ("", "a b", "a::", 'A::"b"', "if", "a\u202eb"):
        ended = subprocess.run([program, *options(), "--action-type", name], cwd=f"{CRATE}/data", stdin=subprocess.DEVNULL, capture_output=True)
        if (ended.returncode, ended.stdout) != (2, b"") or not ended.stderr.startswith(b"--action-type: ") or b"\u202e".decode("unicode_escape").encode() in ended.stderr:
            faults.append(f"the type {name!r}: {ended}")
    with tempfile.TemporaryDirectory() as folder:
        log = os.path.join(folder, "log")
        for number in (1, 2):
            check("the conversation, with a log", [sent], wanted, [*options(), "--log", log])
            with open(log, "rb") as it:
                held = it.read()
            due_lines = log_of(rows) * number
            if held != due_lines:
                at = next((n for n, (a, b) in enumerate(zip(held, due_lines)) if a != b), min(len(held), len(due_lines)))
                faults.append(f"the log, run {number}: at byte {at}: {held[at - 60:at + 60]!r} instead of {due_lines[at - 60:at + 60]!r}")
        check("a log that is full", [sent], withheld(rows), [*options(), "--log", "/dev/full"])
    sent, wanted = lines()
    words = [*options()[:4], "--lines"]
    check("lines", [sent], wanted, words)
    check("no line", [b""], b"", words)
    check("lines in pieces", [sent[at:at + 7] for at in range(0, len(sent), 7)], wanted, words)
    check("the last without an end", [sent[:-1]], wanted, words)
    with tempfile.TemporaryDirectory() as folder:
        log = os.path.join(folder, "log")
        check("lines, with a log", [sent], wanted, [*words, "--log", log])
        told = [compact({"request": json.loads(line), "answer": json.loads(due), "version": VERSION})
                for line, due in zip(sent.split(b"\n"), wanted.split(b"\n")) if due and "decision" in json.loads(due)]
        with open(log) as it:
            if it.read() != "".join(line + "\n" for line in told):
                faults.append("lines, with a log: the log")
    for fault in faults:
        print("FAILED:", fault)
    print(f"conversations: {len(rows)} requests in one, {len(LAST)} that end one, {len(faults)} failed")
    return 1 if faults else 0


def main():
    if sys.argv[1:] == ["write"]:
        for name, data in zip(("stdin", "stdout"), conversation()[1:]):
            with open(f"{CRATE}/{name}", "wb") as it:
                it.write(data)
        return 0
    if len(sys.argv) == 3 and sys.argv[1] == "run":
        return run(os.path.realpath(sys.argv[2]))
    print(__doc__)
    return 2


if __name__ == "__main__":
    sys.exit(main())

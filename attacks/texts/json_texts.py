"""A strict reader of JSON (RFC 8259), and what Cedar's JSON says by it: values, contexts, entities and requests, after docs/COMMANDS.md and docs/CALLING.md.

Values of Cedar are ("bool", b), ("long", n), ("text", s), ("entity", type, id), ("set", frozenset) and ("record", sorted pairs).
"""
import re
import sys

from cedar_reader import RESERVED, Reader, Refused, Tok, pieces

DEPTH = 128
ESCAPES = {'"': '"', "\\": "\\", "/": "/", "b": "\b", "f": "\f", "n": "\n", "r": "\r", "t": "\t"}
NUMBER = re.compile(r"-?(?:0|[1-9][0-9]*)(?:\.[0-9]+)?(?:[eE][+-]?[0-9]+)?")


class NotRead(Exception):
    """The text is no JSON, or says no such thing."""


class Unjudged(Exception):
    """This reader does not know the answer: an extension is called."""


class Number(str):
    pass


class Json:
    def __init__(self, text):
        self.text, self.at = text, 0

    def refuse(self, why):
        raise NotRead(f"{why} at {self.at}")

    def blanks(self):
        while self.at < len(self.text) and self.text[self.at] in " \t\n\r":
            self.at += 1

    def whole(self):
        self.blanks()
        value = self.value(0)
        self.blanks()
        if self.at < len(self.text):
            self.refuse("more text")
        return value

    def accept(self, sign):
        self.blanks()
        if self.text.startswith(sign, self.at):
            self.at += len(sign)
            return True
        return False

    def want(self, sign):
        if not self.accept(sign):
            self.refuse(f"no {sign}")

    def value(self, depth):
        c = self.text[self.at : self.at + 1]
        if c in ("[", "{") and depth >= DEPTH:
            self.refuse("too deep")
        if c == "[":
            return self.array(depth + 1)
        if c == "{":
            return self.object(depth + 1)
        if c == '"':
            return self.string()
        for word, value in (("null", None), ("true", True), ("false", False)):
            if self.text.startswith(word, self.at):
                self.at += len(word)
                return value
        number = NUMBER.match(self.text, self.at)
        if not number:
            self.refuse("no value")
        self.at = number.end()
        return Number(number.group())

    def array(self, depth):
        self.at += 1
        items = []
        if self.accept("]"):
            return items
        while True:
            self.blanks()
            items.append(self.value(depth))
            if self.accept("]"):
                return items
            self.want(",")

    def object(self, depth):
        self.at += 1
        members = {}
        if self.accept("}"):
            return members
        while True:
            self.blanks()
            if self.text[self.at : self.at + 1] != '"':
                self.refuse("no key")
            key = self.string()
            self.want(":")
            self.blanks()
            value = self.value(depth)
            if key in members:
                self.refuse("a duplicate key")
            members[key] = value
            if self.accept("}"):
                return members
            self.want(",")

    def unit(self):
        digits = self.text[self.at : self.at + 4]
        if not re.fullmatch("[0-9a-fA-F]{4}", digits):
            self.refuse("no escape")
        self.at += 4
        return int(digits, 16)

    def string(self):
        self.at += 1
        out = []
        while True:
            c = self.text[self.at : self.at + 1]
            if c == "" or ord(c) < 32:
                self.refuse("a control character, or the end")
            self.at += 1
            if c == '"':
                return "".join(out)
            if c != "\\":
                out.append(c)
                continue
            c = self.text[self.at : self.at + 1]
            self.at += 1
            if c in ESCAPES and c:
                out.append(ESCAPES[c])
                continue
            if c != "u":
                self.refuse("no escape")
            code = self.unit()
            if 0xD800 <= code < 0xDC00:
                if not self.text.startswith("\\u", self.at):
                    self.refuse("half of a pair")
                self.at += 2
                low = self.unit()
                if not 0xDC00 <= low < 0xE000:
                    self.refuse("half of a pair")
                code = 0x10000 + (code - 0xD800) * 0x400 + low - 0xDC00
            elif 0xDC00 <= code < 0xE000:
                self.refuse("half of a pair")
            out.append(chr(code))


def document(data):
    try:
        text = data.decode("utf-8")
    except UnicodeDecodeError:
        raise NotRead("not UTF-8")
    return Json(text).whole()


# ---- what it says

def is_name(text):
    words = text.split("::")
    return all(re.fullmatch("[A-Za-z_][A-Za-z0-9_]*", w) and w not in RESERVED and w != "__cedar" for w in words)


def uid(j):
    if not isinstance(j, dict) or set(j) != {"type", "id"} or type(j["type"]) is not str or type(j["id"]) is not str:
        raise NotRead("no entity")
    if not is_name(j["type"]):
        raise NotRead("no type")
    return ("entity", j["type"], j["id"])


def plain_uid(j):
    return uid(j["__entity"]) if isinstance(j, dict) and set(j) == {"__entity"} else uid(j)


def record(members):
    for key in members:
        if key in ("__entity", "__extn", "__expr"):
            raise NotRead("a reserved key")
    return ("record", tuple(sorted((k, value(v)) for k, v in members.items())))


def call(j):
    if not isinstance(j, dict) or len(j) != 2 or "fn" not in j or type(j["fn"]) is not str or not ({"arg", "args"} & set(j)):
        raise NotRead("no call")
    args = [j["arg"]] if "arg" in j else j["args"]
    if type(args) is not list:
        raise NotRead("no array")
    for a in args:
        value(a)
    if not is_name(j["fn"]):
        raise NotRead("no name")
    raise Unjudged("a call")


def value(j):
    if j is None:
        raise NotRead("null")
    if isinstance(j, bool):
        return ("bool", j)
    if isinstance(j, Number):
        if not re.fullmatch("-?[0-9]+", j) or j == "-0" or not -(2**63) <= int(j) < 2**63:
            raise NotRead("no long")
        return ("long", int(j))
    if isinstance(j, str):
        return ("text", j)
    if isinstance(j, list):
        return ("set", frozenset([value(x) for x in j]))
    if set(j) == {"__entity"}:
        return uid(j["__entity"])
    if set(j) == {"__extn"}:
        return call(j["__extn"])
    return record(j)


def context(j):
    if not isinstance(j, dict):
        raise NotRead("no object")
    return record(j)


class Store:
    """Entities by name, each with attributes, tags and all its ancestors."""

    def __init__(self, j):
        self.entities = {}
        if not isinstance(j, list):
            raise NotRead("no array")
        unjudged = None
        for e in j:
            try:
                self.entity(e)
            except Unjudged as it:
                unjudged = it
        self.close()
        if unjudged:
            raise unjudged

    def entity(self, e):
        if not isinstance(e, dict) or not {"uid", "attrs", "parents"} <= set(e) <= {"uid", "attrs", "parents", "tags"}:
            raise NotRead("no entity")
        name, tags = plain_uid(e["uid"]), e.get("tags", {})
        if type(e["parents"]) is not list or not isinstance(e["attrs"], dict) or not isinstance(tags, dict):
            raise NotRead("no attributes or parents")
        parents = [plain_uid(p) for p in e["parents"]]
        if name in self.entities:
            raise NotRead("a duplicate entity")
        self.entities[name] = None
        self.entities[name] = [{}, {}, set(parents)]
        self.entities[name][:2] = [dict(record(e["attrs"])[1]), dict(record(tags)[1])]

    def close(self):
        done, under_way = {}, set()

        def ancestors(name):
            if name in done:
                return done[name]
            if name in under_way:
                raise NotRead("a circle of parents")
            under_way.add(name)
            out = set()
            for p in self.entities[name][2] if name in self.entities else ():
                out |= {p} | ancestors(p)
            under_way.discard(name)
            done[name] = out
            return out

        for name in list(self.entities):
            self.entities[name][2] = ancestors(name)

    def reaches(self, a, b):
        return a == b or (a in self.entities and b in self.entities[a][2])


def named(text):
    """The entity of Cedar's text."""
    try:
        node = Reader(text).whole_entity()
    except Refused:
        raise NotRead("no entity")
    return entity_of(node.head)


def entity_of(head):
    """The entity of a leaf `(entity TYPE "ID"`, as the reader of texts shows it."""
    _, name, quoted = head.split(" ", 2)
    return ("entity", name, text_of(quoted))


def text_of(quoted):
    return "".join(pieces(Tok("str", 0, len(quoted), quoted), False))


def request(j):
    if not isinstance(j, dict) or set(j) != {"principal", "action", "resource", "context"}:
        raise NotRead("no request")
    three = [named(j[k]) if type(j[k]) is str else plain_uid(j[k]) for k in ("principal", "action", "resource")]
    return three + [context(j["context"])]


if __name__ == "__main__":
    print(document(sys.stdin.buffer.read()))

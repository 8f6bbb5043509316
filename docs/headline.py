#!/usr/bin/env python3
"""docs/headline.py: writes docs/HEADLINE.md, the definitions that the clause `headline` needs, from the files of `specs/`.

It begins with the names in that clause of `Authorizer::authorize_in_steps` and follows each name, by the imports of the file in which
it stands, to its definition, and so on. Rust types, and what the kit has, are not followed. With `--stdout` it prints the page.
`docs/check.py` compares the page with what this script makes."""
import os
import re
import sys

sys.path.insert(0, os.path.dirname(os.path.realpath(__file__)))
from rules.base import ROOT, by_text, is_file, read  # noqa: E402

CODE = "crates/cedar_authorizer/src/authorizer.rt"
HEAD = """# What the headline needs

Made by `docs/headline.py`: change it there. To believe the clause `headline` of `Authorizer::authorize_in_steps` one reads these
definitions, and trusts the checker: each name in the clause, each name in its definition, and so on. (A name that a definition binds may lead
to one more than it needs.) It is {count} definitions, {lines} lines with their comments. [MODEL](MODEL.md) reads those of
`cedar_model` aloud, in an order.

The rules by which an evaluator comes to an answer (`Rules` and `Operators`) are not among them{but}:
the headline speaks of what expressions mean in a world, and of what policies decide there.

First those of `cedar_model`, {model} lines, and of `cedar_authorizer`, by name; then, by their number, how Rust's types are seen as that
data, and what the standard functions answer.
"""


class File:
    """The definitions of a file of `specs/`, and what it imports."""

    def __init__(self, text):
        lines = text.split("\n")
        self.imports, self.blocks, self.parts = imports_of("\n".join(lines)), {}, {}
        self.modules = {short: f"crates/{crate}/specs/{way.replace('.', '/')}.antt" for crate, way, short in
                        re.findall(r"use Rattle\.(cedar_\w+)\.specs\.([\w.]+) as (\w+)", "\n".join(lines))}
        headers, block, indent, note = [], None, 0, 0
        for line in lines:
            bare = line.strip()
            depth = len(line) - len(line.lstrip())
            if not bare or bare.startswith(("use ", "--")):
                note += bare.startswith("--")
                if block and depth > indent and bare:
                    self.blocks[block][1] += 1
                continue
            while headers and depth <= headers[-1][0]:
                headers.pop()
            if re.match(r"(?:(?:abbrev|unfoldable|pub) )*mutual$", bare):
                block, note = None, 0
                continue
            opens = re.match(r"module _(.*)$", bare)
            if opens:
                headers.append((depth, opens.group(1)))
                block, note = None, 0
                continue
            found = re.match(r"(?:(?:abbrev|unfoldable|pub|private) )*(record|data)?\s*([\w-]+)\b.*", bare)
            is_new = re.match(r"(?:(?:abbrev|unfoldable|pub) )*(?:(?:record|data) )?[\w-]+(?: [({].*)? ?:(?: |$)", bare)
            is_new = is_new or re.match(r"(?:pub )?(record|data) ", bare)
            inside = block and depth > indent
            if is_new and not inside and found.group(2) not in ("mutual", "where"):
                block, indent = found.group(2), depth
                text = " ".join(it[1] for it in headers) + " " + bare
                self.blocks[block] = [text, 1 + note]
            elif block:
                self.blocks[block][0] += "\n" + line
                self.blocks[block][1] += 1
                named = re.match(r"(?:pub )?([\w-]+) :", bare)
                if named and inside and re.search(r"(^| )data ", self.blocks[block][0].split("\n")[0]):
                    self.parts.setdefault(named.group(1), block)
            note = 0


@by_text
def file_of(_, text):
    return File(text)


def imports_of(text):
    """Which file each imported name is from."""
    found = {}
    for crate, way, names in re.findall(r"use Rattle\.(cedar_\w+)\.specs\.([\w.]+)\.\{([^}]*)\}", text):
        if not way.startswith("declared"):
            for name in re.split(r",\s*", names.strip()):
                found[name] = f"crates/{crate}/specs/{way.replace('.', '/')}.antt"
    return found


def closure():
    """The definitions: a set of files with their names."""
    code = read(CODE)
    clause = re.search(r"ensures headline \{(.*?)\n\s*(?:ensures|\{)", code, re.S).group(1)
    known, files = imports_of(code), {}
    waiting = [(known[it], it) for it in re.findall(r"[\w-]+", clause) if it in known]
    found = set()
    while waiting:
        path, name = waiting.pop()
        if not is_file(path):
            continue
        if path not in files:
            files[path] = file_of(path)
        here = files[path]
        name = name if name in here.blocks else here.parts.get(name, name)
        if name not in here.blocks:
            if name in here.imports:
                waiting.append((here.imports[name], name))
            continue
        if (path, name) in found:
            continue
        found.add((path, name))
        for short, word in re.findall(r"\b(\w+)\.(\w+)", here.blocks[name][0]):
            if short in here.modules:
                waiting.append((here.modules[short], word))
        for word in set(re.findall(r"[\w-]+", re.sub(r"--.*|\.\w+", "", here.blocks[name][0]))):
            if word in here.blocks or word in here.parts:
                waiting.append((path, word))
            elif word in here.imports:
                waiting.append((here.imports[word], word))
    return files, found


def page():
    files, found = closure()
    lines = sum(files[path].blocks[name][1] for path, name in found)
    model = sum(files[path].blocks[name][1] for path, name in found if "/cedar_model/" in path)
    rules = sorted(name for path, name in found if path.endswith(("cedar_model/specs/Rules.antt", "cedar_model/specs/Operators.antt")))
    but = f", but for {' and '.join(f'`{it}`' for it in rules)}" if rules else ""
    out = [HEAD.format(count=len(found), lines=f"{lines:,}", model=f"{model:,}", but=but)]
    out += ["| File | Lines | Definitions |", "|---|---|---|"]
    paths = sorted({it[0] for it in found}, key=lambda it: ("cedar_model/" not in it, "cedar_authorizer/" not in it, it))
    for path in paths:
        names = sorted((name for where, name in found if where == path), key=list(files[path].blocks).index)
        count = sum(files[path].blocks[name][1] for name in names)
        where = path[len("crates/"):-len(".antt")]
        if "/cedar_model/" not in path and "/cedar_authorizer/" not in path:
            out.append(f"| `{where}` | {count} | {len(names)} |")
            continue
        part = ""
        first = True
        for name in names + [None]:
            if name is None or len(part) + len(name) + 4 > 290:
                out.append(f"| {f'`{where}`' if first else ''} | {count if first else ''} | {part} |")
                part, first = "", False
            if name is not None:
                part += (", " if part else "") + f"`{name}`"
    return "\n".join(out) + "\n"


if __name__ == "__main__":
    if "--stdout" in sys.argv[1:]:
        print(page(), end="")
    else:
        with open(f"{ROOT}/docs/HEADLINE.md", "w", encoding="utf-8") as it:
            it.write(page())
        print("docs/HEADLINE.md is made")

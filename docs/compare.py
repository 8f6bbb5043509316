#!/usr/bin/env python3
"""docs/compare.py REVISION: which public clauses, and which definitions that they rest on, differ from those of an earlier revision.

It takes each public function of that revision, finds the one of today under the tables of renames in CHANGELOG.md, and compares their clauses word by word;
a word counts as equal where the tables rename it. Then it follows the names in each clause through the files of specs/, and compares each definition so.
It prints a line for each that is gone, differs, or is new where a caller owes it (`requires`), each with its reason from docs/compare.txt, where that has
one. The last line counts. The status is 0 only where each line has a reason. It proves nothing, and takes some seconds."""
import glob
import os
import re
import subprocess
import sys
import tempfile

sys.dont_write_bytecode = True
HERE = os.path.dirname(os.path.realpath(__file__))
ROOT = os.path.dirname(HERE)
WORDS = re.compile(r"[\w◌]+|[^\w\s]")


def tables():
    """The renames of CHANGELOG: rows with names before and now in two cells, and pairs with an arrow."""
    with open(f"{ROOT}/CHANGELOG.md", encoding="utf-8") as it:
        text = it.read()
    found = {}
    for line in text.split("\n"):
        for old, new in re.findall(r"(\w+) → (\w+)", line):
            found.setdefault(old, set()).add(new)
        cells = [it.strip() for it in line.strip().strip("|").split("|")] if line.startswith("|") else []
        if len(cells) >= 2:
            old, new = re.findall(r"`([\w:/]+)`", cells[-2]), re.findall(r"`([\w:/]+)`", cells[-1])
            if len(new) == 1:
                for it in old:
                    found.setdefault(it, set()).add(new[0])
            elif len(old) == len(new):
                for a, b in zip(old, new):
                    found.setdefault(a, set()).add(b)
    return found


RENAMED = tables()


def names_of(word):
    return {word} | RENAMED.get(word, set())


def is_same(old, new):
    """Whether two texts are the same, comments and blanks aside, but for words that the tables rename."""
    strip = [WORDS.findall(re.sub(r"(^|\s)--.*|//.*", "", it)) for it in (old, new)]
    # (a comma before a bracket is how lines are folded)
    a, b = [[w for i, w in enumerate(it) if not (w == "," and i + 1 < len(it) and it[i + 1] in "})]")] for it in strip]
    return len(a) == len(b) and all(x == y or y in RENAMED.get(x, ()) for x, y in zip(a, b))


def plain(name):
    return re.sub(r"[&\s]|'\w+|<.*", "", name)


class Tree:
    def __init__(self, root):
        self.root, self.functions, self.files = root, {}, {}
        for path in sorted(glob.glob(f"{root}/crates/*/src/**/*.rt", recursive=True)):
            self.read(os.path.relpath(path, root))

    def read(self, path):
        with open(f"{self.root}/{path}", encoding="utf-8") as it:
            lines = it.read().split("\n")
        imports = imports_of("\n".join(lines))
        inside, at = [], 0
        while at < len(lines):
            line = lines[at]
            bare, depth = line.strip(), len(line) - len(line.lstrip())
            if bare and not bare.startswith(("where", "{")):
                while inside and depth <= inside[-1][0]:
                    inside.pop()
            head = re.match(r"(?:unsafe )?impl(?:<.*?>(?= ))?\s+(?:(.*?)\s+for\s+)?(.*?)\s*(?:where .*)?\{?$", bare)
            if head:
                inside.append((depth, f"{plain(head.group(1) or '')} {plain(head.group(2))}".strip(), False))
            elif re.match(r"pub trait (\w+)", bare):
                inside.append((depth, re.match(r"pub trait (\w+)", bare).group(1), True))
            found = re.match(r"(pub )?(?:const )?fn (\w+)", bare)
            if found and (found.group(1) or inside and (inside[-1][2] or " " in inside[-1][1])):
                clauses, clause = [], None
                at += 1
                while at < len(lines):
                    here, deep = lines[at], len(lines[at]) - len(lines[at].lstrip())
                    begins = re.match(r"\s*(ensures|requires)\s+(\w+)?\s*\{(.*)$", here)
                    if begins and deep == depth + 4:
                        clause = [begins.group(1), begins.group(2) or "", begins.group(3)]
                        clauses.append(clause)
                    elif here.strip() in ("{", "{}") and deep == depth or deep == depth and here.strip().startswith(("fn ", "pub fn", "///", "}", "#[")):
                        break
                    elif clause is not None and deep > depth:
                        clause[2] += " " + here.strip()
                    elif re.search(r"(\{|;|\{\})$", here) and not clauses:
                        break
                    at += 1
                key = (path.split("/")[1], inside[-1][1] if inside else "", found.group(2))
                self.functions.setdefault(key, []).append((path, imports, [(k, n, re.sub(r"\s*\};?$", "", t)) for k, n, t in clauses]))
                continue
            at += 1

    def file(self, path):
        if path not in self.files:
            there = f"{self.root}/{path}"
            self.files[path] = None
            if os.path.isfile(there):
                with open(there, encoding="utf-8") as it:
                    self.files[path] = headline.File(it.read())
        return self.files[path]

    def definition(self, path, name):
        """The file and the text in which a name of a file of specs/ is defined."""
        for _ in range(20):
            here = self.file(path)
            if here is None:
                return None
            block = name if name in here.blocks else here.parts.get(name)
            if block:
                return path, block, here.blocks[block][0]
            if name not in here.imports:
                return None
            path = here.imports[name]
        return None

    def below(self, path, text):
        """The names of a definition that are defined in specs/, with their files."""
        here = self.file(path)
        for short, word in re.findall(r"\b(\w+)\.(\w+)", text):
            if short in here.modules:
                yield here.modules[short], word
        for word in sorted(set(re.findall(r"[\w-]+", re.sub(r"--.*|\.\w+", "", text)))):
            if word in here.blocks or word in here.parts:
                yield path, word
            elif word in here.imports:
                yield here.imports[word], word


def imports_of(text):
    found = headline.imports_of(text)
    for crate, way, short in re.findall(r"use Rattle\.(cedar_\w+)\.specs\.([\w.]+) as (\w+)", text):
        found.setdefault(f"{short}.", f"crates/{crate}/specs/{way.replace('.', '/')}.antt")
    return found


def names_in(clause, imports):
    for short, word in re.findall(r"\b(\w+)\.(\w+)", clause):
        if f"{short}." in imports:
            yield imports[f"{short}."], word
    for word in re.findall(r"[\w-]+", re.sub(r"\b\w+\.\w+", "", clause)):
        if word in imports:
            yield imports[word], word


def compare(old, new):
    """Yields a line a difference, and last how many were compared."""
    counted, wanted, reached = [0, 0, 0], [], {}
    crates = {}
    for key in new.functions:
        crates.setdefault(key[0], []).append(key)
    for (crate, kind, name), variants in sorted(old.functions.items()):
        keys = [(c, k, n) for c in names_of(crate) for n in names_of(name) for k in {kind} | {" ".join(w) for w in [
            [next(iter(RENAMED.get(p, {p}))) for p in kind.split(" ")]]} if (c, k, n) in new.functions]
        mine = [it for k in keys for it in new.functions[k]]
        for path, imports, clauses in variants:
            label = f"{crate} {kind + '::' if kind else ''}{name}"
            counted[0] += 1
            if not mine:
                yield f"{label}: no such public function", path
                continue
            stem = os.path.basename(path)
            # of several of one name that with the same clauses is meant, else that of the same file
            def fits(it):
                return (all(any(k == k2 and n2 in names_of(n) and is_same(t, t2) for k2, n2, t2 in it[2]) for k, n, t in clauses), os.path.basename(it[0]) == stem)
            best = max(mine, key=fits)
            for number, (k, n, t) in enumerate(clauses):
                counted[1] += 1
                same = [it for it in best[2] if it[0] == k and (it[1] in names_of(n) if n else not it[1])]
                if not n:
                    same = [it for it in same if is_same(t, it[2])] or same
                if not same:
                    # (a clause that got or lost its name)
                    same = [it for it in best[2] if it[0] == k and is_same(t, it[2])]
                if not same:
                    yield f"{label}: {k} {n or number} is gone", path
                elif not is_same(t, same[0][2]):
                    yield f"{label}: {k} {n or number} differs", path
                else:
                    mine_names = list(names_in(same[0][2], best[1]))
                    for where, word in names_in(t, imports):
                        wanted.append((where, word, [it for it in mine_names if it[1] in names_of(word)], label))
            for k, n, t in best[2]:
                if k == "requires" and not any(k2 == k and is_same(t2, t) for k2, n2, t2 in clauses):
                    yield f"{label}: requires {n} is new", path
    seen = set()
    while wanted:
        where, word, fitting, label = wanted.pop()
        before = old.definition(where, word)
        if before is None or before[:2] in seen:
            continue
        seen.add(before[:2])
        counted[2] += 1
        after = next((it for it in (new.definition(w, n) for w, n in fitting) if it), None)
        what = f"{before[0][len('crates/'):-len('.antt')]} {before[1]}"
        if after is None:
            yield f"definition {what}: not found (of {label})", before[0]
            continue
        if not is_same(before[2], after[2]):
            yield f"definition {what} differs (of {label})", before[0]
        mine = list(new.below(after[0], after[2]))
        for w, n in old.below(before[0], before[2]):
            wanted.append((w, n, [it for it in mine if it[1] in names_of(n)], label))
    yield counted, None


def main():
    revision = sys.argv[1]
    reasons = []
    if os.path.isfile(f"{HERE}/compare.txt"):
        with open(f"{HERE}/compare.txt", encoding="utf-8") as it:
            reasons = [line.rstrip("\n").split(" -- ", 1) for line in it if " -- " in line and not line.startswith("#")]
    with tempfile.TemporaryDirectory(prefix="compare-") as room:
        made = subprocess.run(["git", "archive", revision, "crates"], cwd=ROOT, check=True, stdout=subprocess.PIPE).stdout
        subprocess.run(["tar", "-x", "-C", room], input=made, check=True)
        bare = 0
        for line, path in compare(Tree(room), Tree(ROOT)):
            if path is None:
                print(f"docs/compare: {line[0]} functions, {line[1]} clauses, {line[2]} definitions; without a reason: {bare}")
                continue
            why = next((why for part, why in reasons if part in line), None)
            bare += why is None
            print(f"{line} ({why or 'no reason is given'})")
    return 1 if bare else 0


sys.path.insert(0, HERE)
import headline  # noqa: E402

if __name__ == "__main__":
    sys.exit(main())

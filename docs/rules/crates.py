"""Rules on crates: rooms, heads, crates that one other crate could hold, and functions that stand in two crates."""
import re

from rules.base import by_text, counts, crates, exists, files, is_file, listed, over, read, rooms, wants

# How many functions a crate has at most, if it is to hold what it alone uses.
MOST = 160
# Rooms whose crates call the others as callers do.
CALLING = ("Examples", "Tests")
NAMES = re.compile(r"\b([a-z]\w*)(?=::|!)|\bRattle\.(\w+)|\buse ([a-z]\w*)")
FN = re.compile(r"^(\s*)(?:pub(?:\([^)]*\))? )?(?:const )?(?:unsafe )?fn (\w+)")
CLAUSE = re.compile(r"(ensures|requires|invariant|decreases|ghost|also_)\b")


def order(_):
    """Each crate has a room and a line that says what it is, and stands behind those that it uses."""
    found, all_rooms, before = crates(), list(rooms()), set()
    folders = {it.split("/")[1] for it in listed()[0] + list(over) if it.startswith("crates/")}
    wants(set(found) == folders, f"crates.txt: not the folders of crates/: {', '.join(sorted(set(found) ^ folders))}")
    for crate, (room, notes, uses) in found.items():
        wants(room, f"crates.txt: {crate} is in no room")
        plain = [it for it in notes if not it.startswith("apart: ")]
        wants(len(plain) == 1, f"crates.txt: {crate} has {len(plain)} lines of what it is, and not one")
        for used in uses:
            wants(used not in found or used in before, f"crates.txt: {crate} stands before {used}, which it uses")
            is_below = used not in found or all_rooms.index(found[used][0]) <= all_rooms.index(room)
            wants(is_below, f"crates.txt: {crate} is in a room before that of {used}, which it uses")
        before.add(crate)
    wants([it for it, (room, _, _) in found.items() if room] == [it for name in all_rooms for it in found if found[it][0] == name],
          "crates.txt: the crates of a room do not stand together")
    for name in all_rooms:
        wants(any(it[0] == name for it in found.values()), f"crates.txt: the room {name} has no crate")


def heads(_):
    """Each crate says at its head what it has."""
    for crate in crates():
        root = next((it for it in ("lib", "main") if is_file(f"crates/{crate}/src/{it}.rt")), None)
        path = f"crates/{crate}/src/{root}.rt"
        lines = [it[3:].strip() for it in re.match(r"(?://!.*\n)*", read(path)).group().splitlines()]
        counts("heads", len(lines))
        wants(len(lines) >= 10, f"{path}: begins with {len(lines)} lines of what the crate is, and at least 10")
        head = " ".join(lines)
        for file in files(f"crates/{crate}/src/*.rt"):
            name = file.split("/")[-1][: -len(".rt")]
            wants(name == root or re.search(rf"`(?:\w+/)?{name}(?:`|/)", head), f"{path}: does not name the file {name}")
        for name in re.findall(r"`((?:specs|src)/[\w./]+)`", head):
            there = [f"crates/{crate}/{name}{end}".rstrip("/") for end in ("", ".rt", ".antt")]
            wants(any(exists(it) for it in there), f"{path}: no file {name}")


def alone(house):
    """No crate could be held by its only user, unless crates.txt says why it is apart."""
    sizes, found = {}, crates()
    for it in house.items:
        sizes[it.crate] = sizes.get(it.crate, 0) + (it.kind == "fn")
    for crate, (_, notes, _) in found.items():
        users = [it for it, (_, _, uses) in found.items() if crate in uses]
        together = sum(sizes.get(it, 0) for it in (crate, *users))
        could = len(users) == 1 and together < MOST and found[users[0]][0] not in CALLING
        says = any(it.startswith("apart: ") for it in notes)
        if could:
            wants(says, f"crates.txt: {users[0]} could hold {crate}, with {together} functions: merge them, or say why not by a line `# apart: ..`")
        wants(could or not says, f"crates.txt: {crate} has a line `# apart:`, and no crate could hold it")


@by_text
def named(_, text):
    """The crates that a file may name, outside of its comments."""
    code = re.sub(r"^\s*(?://|--).*$", "", text, flags=re.M)
    return frozenset(it for names in NAMES.findall(code) for it in names if it)


def edges(_):
    """crates.txt lists for each crate those that its files name."""
    found = crates()
    for crate, (_, _, uses) in found.items():
        counts("edges", len(uses))
        paths = list(files(*(f"crates/{crate}/{part}/**/*" for part in ("src", "specs", "proofs"))))
        for path in paths:
            for other in sorted((named(path) & found.keys()) - {crate, *uses}):
                wants(False, f"crates.txt: {path} names {other}, which {crate} does not list")


def bare(line):
    """The line without its literals and its comment."""
    line = re.sub(r'"(?:\\.|[^"\\])*"', '""', line)
    line = re.sub(r"'(?:\\.[^']*|[^'\\])'", "' '", line)
    return re.sub(r"//.*", "", line)


def opening(lines, at, indent):
    """The line on which the body of the function at this line begins; None where it has none."""
    for k in range(at, len(lines)):
        text = bare(lines[k])
        is_clause = CLAUSE.match(text.strip())
        if lines[k].startswith(indent + "{") or (text.rstrip().endswith("{") and not is_clause):
            return k
        if text.strip().endswith(";") and not is_clause:
            return None
    return None


def closing(lines, at):
    """The line on which the block that is opened at this line ends."""
    depth = 0
    for k in range(at, len(lines)):
        text = bare(lines[k])
        depth += text.count("{") - text.count("}")
        if depth <= 0:
            return k
    return len(lines)


@by_text
def bodies(_, text):
    """The functions of three lines or more: the name, the line, and the body without comments and names of crates."""
    lines, at, found = text.split("\n"), 0, []
    while at < len(lines):
        head = FN.match(lines[at])
        opened = opening(lines, at, head.group(1)) if head else None
        if opened is None:
            at += 1
            continue
        end = closing(lines, opened)
        body = [it.strip() for it in lines[opened + 1:end] if it.strip() and not it.strip().startswith("//")]
        if len(body) >= 3:
            found.append((head.group(2), at + 1, re.sub(r"cedar_\w+", "C", "\n".join(body))))
        at = end + 1
    return found


def copies():
    """The functions whose body stands in another crate too: for each body `crate::name` of each place, and one place."""
    same = {}
    for path in files("crates/*/src/**/*.rt"):
        for name, line, body in bodies(path):
            same.setdefault(body, []).append((f"{path.split('/')[1]}::{name}", f"{path}:{line}"))
    found = [it for it in same.values() if len({place[0].split("::")[0] for place in it}) > 1]
    return {" ".join(sorted(name for name, _ in it)): it for it in found}


def listed_copies(text):
    """What docs/copies.txt lists: each group with its reason, and how many functions it says there are."""
    reason, groups, said = "", {}, None
    for line in text.split("\n"):
        if line.startswith("functions: "):
            said = int(line[len("functions: "):])
        elif line.startswith("reason: "):
            reason = line[len("reason: "):]
        elif line and not line.startswith("#"):
            groups[line] = reason
    return groups, said


def repeated(_):
    """The functions that stand in two crates are those that docs/copies.txt lists, each with a reason."""
    found = copies()
    groups, said = listed_copies(read("docs/copies.txt"))
    counts("copies", sum(len(it) - 1 for it in found.values()))
    for names, places in found.items():
        where = ", ".join(place for _, place in places)
        wants(names in groups, f"{where}: one body in several crates: have one function, or list `{names}` in docs/copies.txt under its reason")
    for names, reason in groups.items():
        wants(names in found, f"docs/copies.txt: these stand no longer so in several crates: {names}")
        wants(reason, f"docs/copies.txt: no reason: {names}")
    number = sum(len(it.split()) - 1 for it in groups)
    wants(said == number, f"docs/copies.txt: says {said} functions, and lists {number}")


RULES = [order, edges, heads, alone, repeated]

"""What the rules of docs/check.py share: the files of the repository, each read once, and the faults that are found."""
import bisect
import functools
import os
import re

ROOT = os.path.dirname(os.path.dirname(os.path.dirname(os.path.realpath(__file__))))
# What docs/check_untruths.py puts in the place of files, by path; None where a file is taken away.
over = {}
faults = []
seen = {}


def wants(holds, what):
    if not holds:
        faults.append(what)


def counts(what, number=1):
    """Counts what was looked at, for the last line."""
    seen[what] = seen.get(what, 0) + number


@functools.cache
def listed():
    """All files, in order, but those of git and of builds; and all folders; and the files as a set."""
    found, folders = [], set()
    for at, inside, names in os.walk(ROOT):
        inside[:] = [it for it in inside if it not in (".git", "out", "__pycache__")]
        folders.add(os.path.relpath(at, ROOT))
        found += [os.path.relpath(f"{at}/{name}", ROOT) for name in names]
    return sorted(found), folders, set(found)


@functools.cache
def stored(path):
    with open(f"{ROOT}/{path}", encoding="utf-8", errors="replace") as it:
        return it.read()


def is_file(path):
    if path in over:
        return over[path] is not None
    return path in listed()[2]


def exists(path):
    return is_file(path) or path in listed()[1]


def read(path):
    """The text of a file; of one that is not there the empty one."""
    if path in over:
        return over[path] or ""
    return stored(path) if path in listed()[2] else ""


@functools.cache
def form(pattern):
    """What fits a pattern of paths, in which `**/` is any folders."""
    parts = [".*" if it == "**/" else "[^/]*" if it == "*" else re.escape(it) for it in re.findall(r"\*\*/|\*|[^*]+", pattern)]
    return re.compile("".join(parts))


@functools.cache
def matching(pattern):
    head = pattern.partition("*")[0]
    paths = listed()[0]
    first, last = bisect.bisect_left(paths, head), bisect.bisect_right(paths, head + "\U0010ffff")
    return [it for it in paths[first:last] if form(pattern).fullmatch(it)]


def files(*patterns):
    """The files that fit the patterns, in order."""
    for pattern in patterns:
        found = matching(pattern)
        if over:
            put = [it for it, text in over.items() if form(pattern).fullmatch(it) and text is not None]
            found = sorted({it for it in found if over.get(it, "") is not None} | set(put))
        yield from found


def is_named(pattern):
    """Whether some file or folder fits the pattern."""
    return any(files(pattern)) or any(form(pattern.rstrip("/")).fullmatch(it) for it in listed()[1])


def by_text(parse):
    """The same function of a path and its text, which is asked once for each."""
    kept = functools.cache(parse)
    return lambda path: kept(path, read(path))


@functools.cache
def parsed_crates(text):
    """What crates.txt says: each crate with its room, the lines above it that are its own, and what it uses, in order."""
    found, room, rooms, notes = {}, "", {}, []
    for line in text.split("\n"):
        heading = re.match(r"# ---- (\w[\w ]*): (.*)", line)
        entry = re.match(r"(\w+)[^#\n]*:(.*)$", line)
        if heading:
            room = heading.group(1)
            rooms[room], notes = heading.group(2), []
        elif line.startswith("# "):
            notes.append(line[2:])
        elif entry and not line.startswith("#"):
            found[entry.group(1)] = (room, notes, entry.group(2).split())
            notes = []
        elif notes and found:
            notes = []
    return found, rooms


def crates():
    return parsed_crates(read("crates.txt"))[0]


def rooms():
    return parsed_crates(read("crates.txt"))[1]

"""Rules on pages: lengths, links and anchors, names of the code, clauses, counts, quotes, what is made by a script."""
import functools
import os
import re

import contracts
import flow
import headline

from rules.base import by_text, counts, crates, exists, files, is_file, is_named, over, read, wants

PAGES = ["README.md", "CONTRIBUTING.md", "CHANGELOG.md", "attacks/README.md"]
NAMED = re.compile(r"((?:`\w+`(?:, | and )?)+) of `([\w:]+)`, `([^`]+)`")
# Words in backquotes that stand in no file of the repository: of the Rust crate, of the kit, of the machine, of what is left out.
FOREIGN = set("""cedar-policy-core SmolStr NonEmpty EntityJsonParser ContextJsonParser CedarValueJson TCComputation ComputeNow
AssumeAlreadyComputed from_entities RepresentableExtensionValue expr_builder ext_name branch from_residual BTreeMap start_io
allocator as_this AsThis""".split())
EXAMPLES = ("examples", "chain_examples", "tables")
PARTS = ("src/**/*", "specs/**/*", "proofs/**/*", "data/*", "args")


def pages():
    return PAGES + list(files("docs/*.md"))


@by_text
def words_of(path, text):
    return frozenset(re.findall(r"[\w-]+", text)) | frozenset(re.findall(r"\w+", text)) | {os.path.basename(path).split(".")[0]}


@functools.cache
def words_under(crate, changed):
    """The words of a crate's files; `changed` is what stands in the place of some of them."""
    found = set()
    for path in files(*(f"crates/{crate}/{part}" for part in PARTS)):
        found |= words_of(path) | set(path.split("/")[3:-1])
    return found


def words_by_crate():
    """The words of each crate's files."""
    changed = {crate: tuple(sorted((it, text or "") for it, text in over.items() if it.startswith(f"crates/{crate}/"))) for crate in crates()}
    return {crate: words_under(crate, changed[crate]) for crate in crates()}


def words_beside():
    """The words of what stands beside the crates, but for the untruths of the check's own test."""
    paths = [it for it in files("attacks/**/*", "docs/*.py", "docs/rules/*.py", ".ci/run", "check", "crates.txt", "HANDLES")]
    return [words_of(it) for it in paths if it != "docs/check_untruths.py"]


@by_text
def paragraphs(_, text):
    """The paragraphs of a page without its blocks of code: the number of the first line, and the text. An item of a list is one."""
    inside, begin, lines, found = False, 0, [], []
    for number, line in enumerate(text.split("\n") + [""], 1):
        if line.startswith("```"):
            inside = not inside
        bare = line.strip()
        is_code = inside or line.startswith("```") or (line.startswith("    ") and not lines)
        breaks = not bare or is_code or line.startswith(("|", "#")) or re.match(r"\s*([-*]|\d+\.) ", line)
        if breaks and lines:
            found.append((begin, " ".join(lines)))
            lines = []
        if bare and not is_code and not line.startswith(("|", "#")):
            if not lines:
                begin = number
            lines.append(bare)
    return found


def lengths(page):
    for number, line in enumerate(read(page).split("\n"), 1):
        if line.startswith("|"):
            for cell in re.split(r"(?<!\\)\|", line)[1:-1]:
                wants(len(cell.strip()) <= 300, f"{page}:{number}: a cell of {len(cell.strip())} characters, and at most 300")
        else:
            wants(len(line) <= 160, f"{page}:{number}: {len(line)} characters, and at most 160")
    for number, paragraph in paragraphs(page):
        wants(len(paragraph) <= 600, f"{page}:{number}: a paragraph of {len(paragraph)} characters, and at most 600")


@by_text
def anchors(_, text):
    return {re.sub(r"[^\w\- ]", "", it.lower()).strip().replace(" ", "-") for it in re.findall(r"^#+ (.*)$", text, re.M)}


def links(page):
    """Links, and files that are named."""
    text = read(page)
    for path, anchor in re.findall(r"\]\(([\w./-]*)(?:#([\w-]+))?\)", text):
        counts("links")
        target = os.path.normpath(os.path.join(os.path.dirname(page), path)) if path else page
        wants(exists(target), f"{page}: no file {path}")
        if anchor and is_file(target):
            wants(anchor in anchors(target), f"{page}: no heading {path}#{anchor}")
    for path in re.findall(r"`((?:crates|docs|attacks|\.ci|must-fail)/[\w./*-]*)`", text):
        counts("links")
        wants("NAME" in path or "CRATE" in path or is_named(path) or path.startswith("must-fail"), f"{page}: no file {path}")
    for path in re.findall(r"`(cedar\w*/(?:src|specs|proofs|data)/[\w./]+)`", text):
        counts("links")
        wants(any(exists(f"crates/{path}{end}".rstrip("/")) for end in ("", ".rt", ".antt")), f"{page}: no file crates/{path}")
    for path in re.findall(r"`((?:src|specs|proofs|data)/[\w./]+)`", text):
        counts("links")
        there = (exists(f"crates/{crate}/{path}{end}".rstrip("/")) for crate in crates() for end in ("", ".rt", ".antt"))
        wants("NAME" in path or any(there), f"{page}: no file {path}")


def functions_of(house):
    """What stands in the contract of each function, by its name, and which functions stand in each file."""
    found = {}
    for it in house.items:
        if it.kind == "fn":
            said = found.setdefault(it.name, set())
            said.update(it.says, it.asks, it.takes)
            said |= {at[1] for at in it.inside}
            found.setdefault(os.path.basename(it.path)[: -len(".rt")], set()).add(it.name)
    return found


def names(page, by_crate, beside, functions):
    """Names of the code, and what is said to stand in a function or a crate."""
    bare = re.sub(r"```.*?```", "", read(page), flags=re.S)
    if page == "CHANGELOG.md":
        # (tables of renames: what had another name before)
        bare = re.sub(r"^\|.*\|$", "", bare, flags=re.M)
    for name in set(re.findall(r"`(?:[\w]+::)*([a-z]\w*_\w+|[A-Z][a-z]\w*[A-Z]\w*)(?:\([^`]*\))?`", bare)):
        counts("names")
        is_there = name in FOREIGN or name in by_crate or any(name in it for it in by_crate.values()) or any(name in it for it in beside)
        wants(is_there, f"{page}: `{name}` stands in no file")
    for clauses, name in re.findall(r"((?:`\w+`(?:, | and )?)+) of `(?:[\w]+::)*(\w+)`", bare):
        for clause in re.findall(r"`(\w+)`", clauses):
            if clause in FOREIGN or clause[0].isupper():
                continue
            if name in by_crate:
                counts("clauses")
                wants(clause in by_crate[name] or clause in by_crate, f"{page}: `{clause}` of `{name}`: not in that crate")
            elif name in functions:
                counts("clauses")
                wants(clause in functions[name], f"{page}: `{clause}` of `{name}`: no such clause")


def sentences(_):
    """PROVED's numbered sentences name clauses that are there."""
    part = read("docs/PROVED.md").partition("## In seven sentences")[2].partition("\n## ")[0]
    told = [" ".join(it.split()) for it in re.findall(r"^\d+\. (.*?)(?=^\d+\. |^\S|\Z)", part, re.S | re.M)]
    wants(len(told) == 7, f"docs/PROVED.md: seven sentences, and not {len(told)}")
    for number, sentence in enumerate(told, 1):
        named = NAMED.findall(sentence)
        wants(named or "No clause" in sentence or "The clauses in" in sentence, f"docs/PROVED.md: sentence {number} names no clause")
        for clauses, function, path in named:
            found = re.search(rf"\bfn {function.split('::')[-1]}\b.*?\n\s*\{{\}}?\n", read(path), re.S)
            for clause in re.findall(r"`(\w+)`", clauses):
                counts("clauses")
                wants(found and f"ensures {clause} {{" in found.group(), f"docs/PROVED.md: sentence {number}: {clause} of {function} in {path}")


def laws(house):
    """LAWS has each law of the model: its public functions, but for examples."""
    for it in house.of_crate.get("cedar_model", []):
        module = it.path.split("/")[-1][: -len(".rt")]
        if it.kind == "fn" and it.is_public and module not in EXAMPLES:
            counts("laws")
            is_there = any(f"`{module}::{name}`" in read("docs/LAWS.md") for name in (it.name, "*"))
            wants(is_there, f"docs/LAWS.md: no law `{module}::{it.name}`")


def gate(_):
    """CONTRIBUTING names each step of the gate."""
    row = re.search(r"^\| `\.ci/run`.*$", read("CONTRIBUTING.md"), re.M)
    for step in re.findall(r"docs/\w+\.py|rt ci|attacks/\w+", read(".ci/run")):
        wants(row and f"`{step}`" in row.group(), f"CONTRIBUTING.md: the row of `.ci/run` does not name `{step}`")


def quotes(page):
    """Blocks of Rust are those of the files that they are said to be from."""
    for path, block in re.findall(r"From `([^`]+)`:\s+```rust\n(.*?)```", read(page), re.S):
        counts("quotes")
        wants(block.rstrip() in read(path), f"{page}: what is quoted does not stand in {path}")


def is_made(page, script, text):
    wants(read(page) == text, f"{page}: not what {script} makes: run it")


def contracts_page(house):
    try:
        text, calls = contracts.page(house)
    except SystemExit as why:
        text, calls = "", 0
        wants(False, str(why))
    counts("calls", calls)
    is_made("docs/CONTRACTS.md", "docs/contracts.py", text)


def headline_page(_):
    is_made("docs/HEADLINE.md", "docs/headline.py", headline.page())


def pictures(_):
    is_made("docs/flow.svg", "docs/flow.py", flow.picture())
    is_made("docs/rooms.svg", "docs/flow.py", flow.rooms_picture())


def each_page(house):
    by_crate, beside, functions = words_by_crate(), words_beside(), functions_of(house)
    for page in pages():
        wants(is_file(page), f"no file {page}")
        counts("pages")
        lengths(page)
        links(page)
        names(page, by_crate, beside, functions)
        quotes(page)


def front_page(_):
    number = len(read("README.md").split())
    wants(number <= 900, f"README.md: {number} words, and at most 900")


RULES = [each_page, sentences, laws, gate, front_page, contracts_page, headline_page, pictures]

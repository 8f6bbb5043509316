"""Rules on numbers: counts in documents are those of the files, and limits, defaults and statuses those of the code."""
import re

from rules.base import counts, crates, files, read, wants
from rules.pages import pages

TABLES = (("cedar_test_tables", "rows"), ("cedar_test_texts", "rows"), ("cedar_test_explained", "rows"), ("cedar_test_cli", "runs"))
WORDS = "no one two three four five six seven eight nine ten eleven twelve thirteen fourteen fifteen".split()
CLI, SERVE = "crates/cedar_cli/src", "crates/cedar_serve/src"
# What a page says with a number of the code in the place of {}: the page, the words, the file, and what stands about the number there.
SAID = [
    ("docs/COMMANDS.md", "A text has at most {} levels", f"{CLI}/limits.rt", r"const LEVELS: usize = ([\d_]+);"),
    ("docs/COMMANDS.md", "A text has at most {} levels", "crates/cedar_commands/src/policies.rt", r"const LEVELS: usize = ([\d_]+);"),
    ("docs/COMMANDS.md", "A text has at most {} levels", "crates/cedar_cli_relays/src/lines.rt", r"const LEVELS: usize = ([\d_]+);"),
    ("docs/COMMANDS.md", "so {} levels", "crates/cedar_policy_json_reader/src/texts.rt", r"const MOST_LEVELS: usize = ([\d_]+);"),
    ("docs/CALLING.md", "of at most {} levels", "crates/cedar_policy_json_reader/src/texts.rt", r"const MOST_LEVELS: usize = ([\d_]+);"),
    ("docs/COMMANDS.md", "At most {} steps are taken", f"{CLI}/limits.rt", r"const STEPS: usize = ([\d_]+);"),
    ("docs/COMMANDS.md", "for more than {} steps", f"{CLI}/limits.rt", r"const STEPS: usize = ([\d_]+);"),
    ("docs/COMMANDS.md", "Entities have at most {} ancestors in all", f"{CLI}/ancestors.rt", r"const ANCESTORS: usize = ([\d_]+);"),
    ("crates/cedar_commands/src/commands.rt", "at most; left out, {}", f"{CLI}/ancestors.rt", r"const ANCESTORS: usize = ([\d_]+);"),
    ("docs/COMMANDS.md", "the first {} errors of the file", f"{CLI}/warnings.rt", r"const MOST: usize = ([\d_]+);"),
    ("docs/COMMANDS.md", "| {} allowed, 2 denied", f"{CLI}/decisions.rt", r"Decision::Allow => (\d+),"),
    ("docs/COMMANDS.md", "| 0 allowed, {} denied", f"{CLI}/decisions.rt", r"Decision::Deny => (\d+),"),
    ("docs/COMMANDS.md", "2 denied, {} unknown", f"{CLI}/decisions.rt", r"None => (\d+),\n    \}\n\}\n\n/// The decision in capitals"),
    ("docs/COMMANDS.md", "takes {}, 2 and 4 for decisions", f"{CLI}/decisions.rt", r"Decision::Allow => (\d+),"),
    ("docs/COMMANDS.md", "takes 0, {} and 4 for decisions", f"{CLI}/decisions.rt", r"Decision::Deny => (\d+),"),
    ("crates/cedar_commands/src/commands.rt", "ALLOW (status 0) or DENY (status {})", f"{CLI}/decisions.rt", r"Decision::Deny => (\d+),"),
    ("docs/COMMANDS.md", "{} where one fails", "crates/cedar_cli_tests/src/results.rt", r"if failed == 0 \{ 0 \} else \{ (\d+) \}"),
    ("docs/COMMANDS.md", "{} where a line is refused", "crates/cedar_expectations/src/comparisons.rt", r"is_any_refused \{\n\s+(\d)\n"),
    ("docs/COMMANDS.md", "{} where anything does", "crates/cedar_expectations/src/comparisons.rt", r"is_any_different \{\n\s+(\d)\n"),
    ("docs/COMMANDS.md", "0; with `--deny-warnings` {} if one is", f"{CLI}/strictness.rt", r"is_denied && !warnings.is_empty\(\) \{\n\s+(\d)\n"),
    ("docs/COMMANDS.md", "and {} where a line is refused. Look at", f"{CLI}/batch.rt", r"printed.status = (\d);"),
    ("docs/COMMANDS.md", "Status {} is out of memory", "crates/cedar/src/main.rt", r"const OUT_OF_MEMORY: u8 = (\d+);"),
    ("docs/COMMANDS.md", "What can't be answered ends with status {}", "crates/cedar/src/main.rt", r"const REFUSED: u8 = (\d+);"),
    ("docs/SERVING.md", "and the status is {}. It is 1 too", f"{SERVE}/main.rt", r"const REFUSED: u8 = (\d+);"),
    ("docs/SERVING.md", "{} where that of `--action-type` is no name", f"{SERVE}/main.rt", r"const NO_TYPE: u8 = (\d+);"),
    ("docs/SERVING.md", "is no name, {} if out of memory, and else 0", f"{SERVE}/main.rt", r"const OUT_OF_MEMORY: u8 = (\d+);"),
    ("docs/SERVING.md", "if out of memory, and else {}", f"{SERVE}/main.rt", r"const DONE: u8 = (\d+);"),
    ("docs/MODEL.md", "with at most {} names that are there", "crates/cedar_operators/src/missing.rt", r"const TOO_MANY_ATTRS: usize = (\d+);"),
]


def flat(path):
    return " ".join(read(path).split())


def total(crate):
    """How many rows or runs hold; those of cedar_test_texts that are written and read back are not counted again."""
    return sum(int(it) for it in re.findall(r"^[\w.]+: (\d+) of \d+ (?:rows|runs) hold", read(f"crates/{crate}/stdout"), re.M))


def above(crate):
    """The crates that use this one, or one that does."""
    found = set()
    for it, (_, _, uses) in crates().items():
        if crate in uses or found & set(uses):
            found.add(it)
    return found


def spelled(number):
    return WORDS[number] if number < len(WORDS) else f"{number:,}"


def rows(page):
    """Numbers of rows and of runs."""
    text, totals = flat(page), {crate: total(crate) for crate, _ in TABLES}
    for crate, what in TABLES:
        for number in re.findall(rf"`{crate}`[^`.;|]*?\b([\d,]+) {what}", text):
            counts("counts")
            wants(int(number.replace(",", "")) == totals[crate], f"{page}: `{crate}` has {totals[crate]} {what}, and not {number}")
    for number in re.findall(r"(?<![\d,.])(\d+,\d{3}) rows(?! of SQL)", text) if page in ("docs/PROVED.md", "docs/MODEL.md", "README.md") else []:
        counts("counts")
        wants(int(number.replace(",", "")) in (*totals.values(), sum(totals.values())), f"{page}: no tables have {number} rows")


def houses(page):
    """Numbers of crates, of kinds of expressions, and of blocks with `unsafe`."""
    text, kinds = flat(page), re.search(r"pub enum ExprKind.*?^\}", read("crates/cedar_expressions/src/expr.rt"), re.S | re.M)
    kinds = len(re.findall(r"^    [A-Z]\w+(?: \{|\(|,)", kinds.group(), re.M)) if kinds else 0
    for number in re.findall(r"\b(\d+) crates\b(?! stand above)", text):
        if int(number) > 40 and page != "docs/MEASURED.md":
            counts("counts")
            wants(int(number) == len(crates()), f"{page}: {len(crates())} crates, and not {number}")
    for number in re.findall(r"\b(\d+) kinds\b", text):
        counts("counts")
        wants(int(number) == kinds, f"{page}: {kinds} kinds of expressions, and not {number}")


def kit(_):
    """MODEL names each crate of the kit that crates.txt lists, and no other."""
    said = re.search(r"The kit's crates are (.*?)\. The kit proved them", flat("docs/MODEL.md"))
    said = set(re.findall(r"`(\w+)`", said.group(1))) if said else set()
    listed = {used for _, _, uses in crates().values() for used in uses if used not in crates()} | {"std"}
    for it in sorted(said ^ listed):
        wants(False, f"docs/MODEL.md: the kit's crate {it} is {'named, and' if it in said else 'not named, and'} crates.txt {'lists' if it in listed else 'does not list'} it")


def unsafe(_):
    """MODEL names each file with an `unsafe`, and counts the blocks."""
    found = 0
    for path in files("crates/*/src/**/*.rt"):
        number = len(re.findall(r"^(?!\s*//).*\bunsafe\b", read(path), re.M)) if "unsafe" in read(path) else 0
        found += number
        wants(not number or f"`{path[len('crates/'):]}`" in read("docs/MODEL.md"), f"docs/MODEL.md: the `unsafe` in {path} is not named")
    said = f"has {spelled(found)} `unsafe` blocks"
    wants(said in flat("docs/MODEL.md"), f"docs/MODEL.md: does not say: {said}")


def said(_):
    """Limits, defaults and statuses."""
    for page, words, path, pattern in SAID:
        counts("constants")
        number = re.search(pattern, read(path))
        wants(number, f"{path}: no {pattern}")
        if number:
            texts = [words.format(it) for it in (f"{int(number.group(1)):,}", spelled(int(number.group(1))))]
            wants(any(it in flat(page) for it in texts), f"{page}: does not say what {path} has: {texts[0]}")


def programs(_):
    """How many programs `./check` builds, and which."""
    found = [it.split("/")[1] for it in files("crates/*/src/main.rt")]
    wants(f"builds {spelled(len(found))} programs" in flat("README.md"), f"README.md: does not say: builds {spelled(len(found))} programs")
    wants(f"`./check` is {spelled(len(found))} such builds" in flat("docs/MEASURED.md"), f"docs/MEASURED.md: `./check` builds {spelled(len(found))} programs")
    built = re.search(r"^PARTS = \{(.*?)^\}", read("check"), re.S | re.M)
    built = set(re.findall(r'^    "(\w+)":', built.group(1), re.M)) - {"documents"} if built else set()
    for it in sorted(built ^ set(found)):
        wants(False, f"check: {it} is {'no program' if it in built else 'not in PARTS'}")


def counted_headings(_):
    """A heading with a number, as `The four places that evaluate`, stands over a table of so many rows."""
    for page in pages():
        for number, words, part in re.findall(r"^##+ The (\w+) (.*)\n((?:(?!#).*\n)*)", read(page), re.M):
            rows_there = len(re.findall(r"^\|", part, re.M)) - 2
            if number in WORDS and rows_there > 0:
                counts("counts")
                wants(rows_there == WORDS.index(number), f"{page}: {rows_there} rows of the {number} {words}")


def above_errors(_):
    number = len(above("cedar_errors"))
    wants(f"{number} crates stand above it" in flat("CONTRIBUTING.md"), f"CONTRIBUTING.md: {number} crates stand above cedar_errors")


def each_page(_):
    for page in pages():
        rows(page)
        houses(page)


RULES = [each_page, programs, counted_headings, above_errors, kit, unsafe, said]

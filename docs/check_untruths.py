#!/usr/bin/env python3
"""docs/check_untruths.py [WORD..]: whether docs/check.py finds what is untrue. It puts untruths into the documents and the code, one by one, in memory
alone, and wants the check to find each, with the fault that it is. With words, those alone whose name has one of them.

UNCAUGHT are untruths that the check can't find, each with why: it wants them not to be found, so that the list stays true. It prints a line for
each that is found or not found against this, and last how many there are; the status is 0 where all is as it should be. It takes a minute."""
import gc
import re
import sys

sys.dont_write_bytecode = True
import check  # noqa: E402
from rules import base  # noqa: E402

COMMANDS, SERVING, PROVED, MODEL = "docs/COMMANDS.md", "docs/SERVING.md", "docs/PROVED.md", "docs/MODEL.md"
COMMAND_CODE, SERVE_CODE = "crates/cedar_commands/src/commands.rt", "crates/cedar_serve/src/arguments.rt"
AUTHORIZER, LISTED = "crates/cedar_authorizer/src/authorizer.rt", "crates.txt"
LONG = "word " * 140
END = r"\Z"

# Each untruth: what it is, a part of the fault that the check tells, and edits: a file, what stands there (a pattern), what is put in its place. Without
# the last two the file is taken away.
UNTRUTHS = [
    # pages
    ("a link to no file", "README.md: no file docs/SERVINGS.md", ("README.md", r"\]\(docs/SERVING\.md", "](docs/SERVINGS.md")),
    ("a broken anchor", "no heading docs/MEASURED.md#the-gates", ("CONTRIBUTING.md", r"MEASURED\.md#the-gate", "MEASURED.md#the-gates")),
    ("a heading renamed", "no heading", ("docs/MEASURED.md", r"\n## The gate\n", "\n## The door\n")),
    ("a file that is not there", "no file crates/cedar_log/src/textes.rt", (MODEL, r"`cedar_log/src/texts\.rt`", "`cedar_log/src/textes.rt`")),
    ("a page taken away", "no file", ("docs/GLOSSARY.md",)),
    ("a name that is none", "stands in no file", ("docs/CALLING.md", r"`levels_for_step`", "`levels_for_stride`")),
    ("a name renamed in the code", "stands in no file", ("docs/CALLING.md", r"`levels_for_step`", "`levels_of_steps`")),
    ("a clause that is none", "no such clause", (PROVED, END, "\nClause `is_everything` of `is_authorized`.\n")),
    ("a clause renamed in the code", "sentence", (AUTHORIZER, r"ensures headline \{", "ensures head_line {")),
    ("six sentences instead of seven", "seven sentences, and not 6", (PROVED, r"\n7\. ", "\n   ")),
    ("a sentence that names no clause", "names no clause", (PROVED, r"Clauses `known`, `limit` of `Authorizer::is_authorized`, `[^`]*`\.", "")),
    ("a stale page of contracts", "CONTRACTS.md: not what", (AUTHORIZER, r"    /// (.*\n(?:    ///.*\n)*    pub fn is_authorized)", r"    /// Surely \1")),
    ("a page of contracts changed by hand", "CONTRACTS.md: not what", ("docs/CONTRACTS.md", r"\n\| `", "\n| `a")),
    ("a stale headline", "HEADLINE.md: not what", ("docs/HEADLINE.md", r"It is \d+ definitions", "It is 9 definitions")),
    ("a picture changed by hand", "flow.svg: not what", ("docs/flow.svg", "residual", "residuals")),
    ("a picture of other rooms", "rooms.svg: not what", (LISTED, "# ---- Rows: ", "# ---- Lines: ")),
    ("a stale quote", "what is quoted does not stand", ("README.md", r"(```rust\n)", r"\1// not there\n")),
    ("a quoted file changed", "what is quoted does not stand", ("crates/cedar_example_caller/src/main.rt", r"fn decided\(", "fn decides(")),
    ("a long line", "at most 160", ("docs/GLOSSARY.md", END, LONG.rstrip() + "\n")),
    ("a long paragraph", "a paragraph of", ("docs/GLOSSARY.md", END, "\n" + (LONG[:100].rstrip() + "\n") * 7)),
    ("a long cell", "a cell of", ("docs/GLOSSARY.md", END, f"\n| {LONG} |\n")),
    ("a long front page", "README.md: ", ("README.md", END, "\n" + (LONG[:100].rstrip() + "\n\n") * 40)),
    ("a law left out", "no law", ("docs/LAWS.md", "`depth::need_is_bounded`", "`depth::need_is_bound`")),
    ("a step of the gate left out", "does not name `docs/samples.py`", ("CONTRIBUTING.md", r"`docs/samples\.py`, `docs/served", "`docs/served")),
    ("a step more in the gate", "does not name `docs/counted.py`", (".ci/run", "&& rt ci", "&& python3 docs/counted.py && rt ci")),
    # numbers
    ("a wrong number of rows", "`cedar_test_tables` has", (PROVED, r"(`cedar_test_tables` has )[\d,]+", r"\g<1>10,001")),
    ("a wrong number of runs", "`cedar_test_cli` has", (PROVED, r"(`cedar_test_cli` has )\d+", r"\g<1>41")),
    ("rows that hold no more", "rows, and not", ("crates/cedar_test_texts/stdout", r": \d+ of (\d+) rows hold", r": 0 of \1 rows hold")),
    ("a wrong sum of rows", "no tables have", (MODEL, r"\d+,\d{3}( rows)", r"77,777\1")),
    ("a wrong number of crates", "crates, and not 77", ("docs/DECISIONS.md", END, "\nThere are 77 crates.\n")),
    ("a wrong number of kinds", "kinds of expressions, and not 16", (MODEL, r"all \d+ kinds", "all 16 kinds")),
    ("a kind more in the code", "kinds of expressions", ("crates/cedar_expressions/src/expr.rt", r"(pub enum ExprKind \{\n)", r"\1    Other(Var),\n")),
    ("an `unsafe` that is not named", "is not named", ("crates/cedar_values/src/lib.rt", END, "\nfn text() {\n    unsafe { other() }\n}\n")),
    ("a wrong number of `unsafe`", "does not say: has", (MODEL, r"has \w+ `unsafe` blocks", "has two `unsafe` blocks")),
    ("a crate of the kit that is not named", "regex is not named", (LISTED, r"\ncedar_places:", "\ncedar_places: regex")),
    ("a crate of the kit that is not used", "is named, and", (MODEL, r"The kit's crates are `std`", "The kit's crates are `std`, `regex`")),
    ("a wrong number of programs", "does not say: builds", ("README.md", r"builds\s+\w+\s+programs", "builds nine programs")),
    ("a program more", "check: cedar_values is not in PARTS", ("crates/cedar_values/src/main.rt", END, "//! A program.\n")),
    ("a wrong number of rows under a heading", "rows of the three places", ("docs/ARCHITECTURE.md", "The four places", "The three places")),
    ("a row left out", "3 rows of the four places", ("docs/ARCHITECTURE.md", r"\| restricted expressions: .*\n", "")),
    ("how many crates stand above one", "crates stand above", ("CONTRIBUTING.md", r"\d+ crates stand above it", "7 crates stand above it")),
    ("another limit of levels", "at most 4,000 levels", (COMMANDS, "at most 4,000 levels", "at most 5,000 levels")),
    ("another limit in the code", "At most 999 steps", ("crates/cedar_cli/src/limits.rt", r"STEPS: usize = \w+", "STEPS: usize = 999")),
    ("another limit in the help", "left out, 5,000,000", (COMMAND_CODE, "left out, 5,000,000", "left out, 500")),
    ("a wrong exit status", "4 unknown", (COMMANDS, r"4 unknown", "3 unknown")),
    ("another exit status in the code", "7 denied", ("crates/cedar_cli/src/decisions.rt", r"Decision::Deny => 2,", "Decision::Deny => 7,")),
    ("another exit status of `diff`", "5 where anything does", ("crates/cedar_expectations/src/comparisons.rt", r"(is_any_different \{\n\s+)2", r"\g<1>5")),
    ("a wrong status of memory", "Status 3 is out of memory", (COMMANDS, r"Status 3 is out of memory", "Status 4 is out of memory")),
    ("a wrong status of the server", "and else 0", (SERVING, r"if out of\s+memory, and else 0", "if out of memory, and else 5")),
    # programs
    ("an option left out", "the table of options has not", (SERVING, r"\| `--page-size` \|.*\n", "")),
    ("an option left out of the usage", "the usage has not", (SERVING, r" \[--url URL\]", "")),
    ("a wrong default", "left out, --max-evaluations is 1,000", (SERVING, r"(`--max-evaluations`.*left out, )1,000", r"\g<1>2,000")),
    ("a default of the code", "left out, --page-size is 60", (SERVE_CODE, r"PAGE_SIZE: usize = 100", "PAGE_SIZE: usize = 60")),
    ("a default of the help", "the help of --max-candidates", (SERVE_CODE, r"looks at; left out, 100,000", "looks at; left out, 9")),
    ("a default of words", "left out, --request-properties is none", (SERVING, r"(`--request-properties` \|.*left out, )`none`", r"\1`win`")),
    ("a value more in the code", "takes none|unstored|beside|win|all", (SERVE_CODE, r'\[&str; 4\] = (\[.*?)\]', r'[&str; 5] = \1, "all"]')),
    ("other bounds", "--page-size is from 1 to", (SERVING, "from 1 to 1,000,000; left out, 100", "from 1 to 2,000; left out, 100")),
    ("a command left out", "the table of commands has not", (COMMANDS, r"\| `format` \|.*\n", "")),
    ("a command renamed in the code", "the table of commands has not", (COMMAND_CODE, r'Command::new\(alloc, "link"\)', 'Command::new(alloc, "links")')),
    ("an option more in the code", "of `format` it does not name width", (COMMAND_CODE, r'\.arg\(flag\(alloc, "check", help\)\)', '.arg(flag(alloc, "width", help))')),
    ("an option of another command", "`format` has no option", (COMMANDS, r"(\| `format` \| `--policies FILE`)", r"\1; `--limit N`")),
    ("a required option left out", "requires with", (COMMANDS, r"(\| `diff` \| `--policies FILE`), `--with FILE`", r"\1")),
    ("other words of an option", "--error-handling", (COMMANDS, r"--error-handling skip\\\|forbid", r"--error-handling skip\\|permit")),
    ("other words in the code", "--direction", (COMMAND_CODE, r'"json-to-cedar"\]', '"json-to-text"]')),
    ("a default of a command", "is `forbid`", (COMMAND_CODE, r'default_value\("skip"\)', 'default_value("forbid")')),
    ("bounds of a command", "`--limit` is from 2", (COMMAND_CODE, r"Unsigned\(1, 1_000_000\)", "Unsigned(2, 1_000_000)")),
    ("an option of no program", "no program has an option --forever", ("docs/CALLING.md", END, "\nBy `cedar authorize --forever`.\n")),
    ("which commands take an option", "--policy-format is taken by", (COMMANDS, r"(`--policy-format json` of )`authorize`, ", r"\1")),
    ("an endpoint renamed", "/healthz has no heading", (SERVING, r"### `GET /healthz`", "### `GET /health`")),
    ("another method", "POST /v1/authorize has no heading", (SERVING, r"### `POST /v1/authorize`", "### `PUT /v1/authorize`")),
    ("an endpoint more in the code", "GET /v1/more has no heading",
     ("crates/cedar_endpoints/src/routes.rt", r'path == "/healthz" \{', 'path == "/v1/more" {\n        shown(Route::Health, method)\n    } else if path == "/healthz" {')),
    ("a status left out", "the table of statuses has not", (SERVING, r"\| 405 \|.*\n", "")),
    ("a status that is never answered", "the table of statuses has not", (SERVING, r"\| 405 \|", "| 409 |")),
    # crates
    ("a crate in a room too low", "in a room before that of", (LISTED, r"# ([^\n]*\ncedar_search:[^\n]*)\n", ""),
     (LISTED, r"\n(# ---- Functions: )", "\n# what is permitted\ncedar_search: cedar_authorizer\n\n\\1")),
    ("a crate before what it uses", "stands before cedar_names", (LISTED, r"((?:#[^\n]*\n)cedar_names:[^\n]*\n)((?:#[^\n]*\n)cedar_expressions:[^\n]*\n)", r"\2\1")),
    ("an edge that lacks", "names cedar_model, which cedar_decisions does not list", (LISTED, r"(\ncedar_decisions:) cedar_model", r"\1")),
    ("a crate in no room", "is in no room", (LISTED, r"# ---- Apart: [^\n]*\n", "")),
    ("a crate without a comment", "lines of what it is", (LISTED, r"#[^\n]*\n(cedar_frames:)", r"\1")),
    ("a crate that is not listed", "not the folders of crates/", (LISTED, r"#[^\n]*\ncedar_progress:[^\n]*\n", "")),
    ("a file that the head does not name", "does not name the file newer", ("crates/cedar_values/src/newer.rt", END, "//! New.\n")),
    ("a head that names no file", "no file specs/Nothing", ("crates/cedar_values/src/lib.rt", r"//! ", "//! `specs/Nothing` has it. ")),
    ("a short head", "begins with 1 lines", ("crates/cedar_values/src/lib.rt", r"\A(//![^\n]*\n)(?://![^\n]*\n)+", r"\1")),
    ("a crate that one other could hold", "could hold cedar_places", (LISTED, r"# apart: [^\n]*\n(cedar_places:)", r"\1")),
    ("a reason to stand apart that none needs", "no crate could hold it", (LISTED, r"(cedar_names:)", r"# apart: it is large\n\1")),
    ("a function copied to another crate", "one body in several crates", ("crates/cedar_writes/src/lib.rt", END, "@crates/cedar_layers/src/policies/kinds.rt")),
    ("a copy that is gone", "stand no longer so", ("docs/copies.txt", END, "cedar_names::nothing cedar_values::nothing\n")),
    ("a number of copies", "docs/copies.txt: says 1 functions", ("docs/copies.txt", r"functions: \d+", "functions: 1")),
    ("a copy without a reason", "no reason", ("docs/copies.txt", r"reason: [^\n]*\n", "")),
    # attacks
    ("an edit that fits no more", "stands 0 times", ("attacks/cedar_decisions/*.edit", r"old: ", "old: no such text ")),
    ("an edit of a file that is gone", "no file crates/cedar_decisions/src/gone.rt", ("attacks/cedar_decisions/*.edit", r"file: \S+", "file: src/gone.rt")),
    ("a body changed under an edit", "stands 0 times", ("crates/cedar_fallible/src/pairs.rt", r"Ok\(\(", "Ok(( ")),
    ("a number of attacks", "attacks/README.md: not what", ("attacks/README.md", r"There are [\d,]+ attacks", "There are 3 attacks")),
    ("a number of attacks on the front page", "README.md: not what", ("README.md", r"Of [\d,]+ (\[wrong bodies)", r"Of 1,000 \1")),
    ("an attack written anew after it was tried", "attacks/README.md: not what", ("attacks/cedar_decisions/*.edit", r"\n(new: .*)", r"\n\1 ")),
    ("what came of an attack", "attacks/README.md: not what", ("attacks/tried.txt", r" refused", " not refused")),
    ("an attack that is gone", "no attack cedar_decisions/gone", ("attacks/tried.txt", END, "cedar_decisions/gone 2026-11-28 1b1e14fe 1b1e14fe refused\n")),
    ("a line that attacks/try never writes", "no line of attacks/try", ("attacks/tried.txt", r"(\n\S+) 2026-", r"\1 some day 2026-")),
    # versions
    ("a version of one program", "another VERSION", (SERVE_CODE, r'"0\.1\.0 \(Cedar', '"0.2.0 (Cedar')),
    ("a version of another kit", "VERSION does not name", (SERVE_CODE, r"logic [0-9a-f]{16}", "logic 0123456789abcdef")),
]

# Untruths that the check does not find: what each is, why, and its edits.
UNCAUGHT = [
    ("a sentence that says the opposite", "what a sentence means is read by people; clauses, rows and samples hold what is promised",
     ("docs/CALLING.md", END, "\nA request is allowed where no policy permits it.\n")),
    ("a clause that says less under its name", "the check knows clauses by name; docs/compare.py compares them with those of an earlier revision",
     (AUTHORIZER, r"(ensures headline \{ )", r"\1⊤ → ")),
    ("a figure that was never measured", "times and depths are of one machine on one day; MEASURED says which state",
     ("docs/MEASURED.md", END, "\nA request takes 1 second.\n")),
    ("what a sample prints", "docs/samples.py runs the samples, after `rt ci`, on the built program", ("README.md", r"\nALLOW\n", "\nDENY\n")),
    ("a default of the kit", "what `--max-body` is left out stands in the kit's `http_server`, of which only the help and SERVING speak",
     (SERVING, r"left out, 1,048,576", "left out, 2,048"), (SERVE_CODE, r"left out, 1,048,576", "left out, 2,048")),
    ("a name put for another that is there too", "the check knows whether a name stands somewhere, not what it means there",
     ("docs/CALLING.md", r"`levels_for_step`", "`levels_for`")),
    ("a copy with other names in it", "bodies are compared to the letter, so that short ones which look alike are not refused",
     ("crates/cedar_writes/src/lib.rt", END, "\nfn first(it: u8) -> u8 {\n    let mut found = it;\n    found += 1;\n    found\n}\n"),
     ("crates/cedar_frames/src/stack.rt", END, "\nfn first(of: u8) -> u8 {\n    let mut known = of;\n    known += 1;\n    known\n}\n")),
    ("a reason that is none", "whether a reason holds is for whoever reads the change that brings it", ("docs/copies.txt", r"reason: [^\n]*", "reason: So it is.")),
    ("what a crate is", "the line above a crate in crates.txt is no more than a sentence", (LISTED, r"#[^\n]*\n(cedar_names:)", r"# the network\n\1")),
]


def put_in(edits):
    """Puts the edits in the place of what stands in the files. Answers what they don't fit, if any."""
    for edit in edits:
        path = next(base.files(edit[0]), edit[0])
        if len(edit) == 1:
            base.over[path] = None
            continue
        text, new = base.read(path), edit[2]
        put = base.read(new[1:]) if new.startswith("@") else None
        changed = text + put if put else text + new if edit[1] == END else re.sub(edit[1], new, text, count=1)
        if changed == text:
            return f"{path} has nothing that fits {edit[1]}"
        base.over[path] = changed
    return None


def found_with(edits):
    """The faults that the check finds with these edits, or why they can't be made."""
    base.over.clear()
    try:
        lacking = put_in(edits)
        return lacking, [] if lacking else check.faults()
    finally:
        base.over.clear()


def main():
    asked = sys.argv[1:]
    failures = list(check.faults())
    # (what was read stays: looking through it for garbage takes a third of the time)
    gc.freeze()
    for it in failures:
        print(f"docs/check_untruths: with nothing put in: {it}")
    tried = 0
    for name, part, *edits in UNTRUTHS:
        if asked and not any(it in name for it in asked):
            continue
        tried += 1
        lacking, faults = found_with(edits)
        if lacking or not any(part in it for it in faults):
            failures.append(name)
            print(f"docs/check_untruths: not found: {name}: {lacking or '; '.join(faults[:3]) or 'the check says well'}")
    for name, why, *edits in UNCAUGHT:
        if asked and not any(it in name for it in asked):
            continue
        lacking, faults = found_with(edits)
        if lacking or faults:
            failures.append(name)
            print(f"docs/check_untruths: {name}: {lacking or f'found after all, so it belongs to UNTRUTHS: {faults[0]}'}")
    print(f"docs/check_untruths: {tried} untruths, {len(failures)} not as they should be; {len(UNCAUGHT)} can't be found")
    sys.exit(1 if failures or not tried else 0)


if __name__ == "__main__":
    main()

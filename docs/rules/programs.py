"""Rules on what the programs take and answer: COMMANDS and SERVING say the options, their values and defaults, the statuses and the endpoints
that stand in the code."""
import re

from rules.base import by_text, counts, read, wants
from rules.pages import pages

COMMANDS, SERVING = "docs/COMMANDS.md", "docs/SERVING.md"
COMMAND_CODE, SERVE_CODE = "crates/cedar_commands/src/commands.rt", "crates/cedar_serve/src/arguments.rt"
ROUTES, ANSWERS = "crates/cedar_endpoints/src/routes.rt", "crates/cedar_endpoints/src/answers.rt"
# Options of other programs that documents name: of Cedar's own and of OPA, of rt, of this repository's scripts, of the programs of tables, of the kit's clap.
OTHERS = set("schema server count only data proofs side-by-side written tests status now fail-alloc help version".split())
CODES = {"OK": 200, "BAD_REQUEST": 400, "NOT_FOUND": 404, "METHOD_NOT_ALLOWED": 405, "PAYLOAD_TOO_LARGE": 413, "INTERNAL_SERVER_ERROR": 500}
METHODS = {"posted": "POST", "put": "PUT", "shown": "GET"}
MADE_BY = re.compile(r'(?:let (\w+) = )?(?:\b(option|flag|file|count)\(\s*alloc,\s*"([\w-]+)"(?:,\s*"(\w+)")?|Arg::new\(alloc, "([\w-]+)"\)\s*\.long\()')
# Where COMMANDS lists the commands that take an option: the option, and what stands before and after the list.
TAKEN_BY = {"policy-format": (r"`--policy-format json` of ", r"takes `--policies`"), "template-linked": (r"```\n\n", r"\(there of both files\) take it")}
# The value that each maker of options gives them where none is written.
VALUES = {"file": "FILE", "count": "COUNT"}
# The bounds that one gives them.
BOUNDS = {"count": (1, 1_000_000_000)}


class Option:
    """An option: the name of its value, the words that it may have, its bounds, its default, and whether it must be given."""

    def __init__(self, chunk, help_text, is_required, maker, value, consts):
        named = re.search(r"Names\(&(\w+)\)", chunk)
        bounds = re.search(r"Unsigned\(\s*([\d_]+),\s*([\d_]+)", chunk)
        default = re.search(r'\.default_value\("(\w+)"\)', chunk)
        self.value = value or VALUES.get(maker)
        self.words = consts[named.group(1)] if named else None
        self.bounds = tuple(int(it) for it in bounds.groups()) if bounds else BOUNDS.get(maker)
        self.default = default.group(1) if default else None
        self.said = re.search(r"left out, ([\w,]+)", help_text)
        self.is_required = maker == "file" or is_required


def functions(text):
    return {it[0]: it[1] for it in re.findall(r"^(?:pub(?:\(crate\))? )?fn (\w+)(.*?)^\}", text, re.S | re.M)}


def options_in(body, consts):
    """The options that a function makes by itself."""
    found, places = {}, list(MADE_BY.finditer(body))
    helps = dict(re.findall(r'let (\w+) =\s*"(.*?)";', body, re.S))
    for at, place in enumerate(places):
        variable, maker, name, value, long = place.groups()
        chunk = body[place.start(): places[at + 1].start() if at + 1 < len(places) else len(body)]
        its_help = re.match(r"[^;]*?, (\w+)\)", chunk)
        is_required = ".required(true)" in re.split(r"\)\?|;", chunk)[0] or bool(variable and f"{variable}.required(true)" in body)
        found[name or long] = Option(chunk, helps.get(its_help.group(1), "") if its_help else "", is_required, maker, value, consts)
    return found


@by_text
def commands(_, text):
    """The options of each command, by its name."""
    consts = {name: re.findall(r'"([\w-]+)"', words) for name, words in re.findall(r"const (\w+): \[&str; \d+\] =\s*\[(.*?)\];", text)}
    bodies = functions(text)
    own = {name: options_in(body, consts) for name, body in bodies.items()}

    def all_of(name, seen):
        found, required = dict(own[name]), set()
        for called in re.findall(r"\b(\w+)\(alloc\b", bodies[name]):
            if called in bodies and called not in seen:
                inner, inner_required = all_of(called, seen | {name})
                found.update(inner)
                required |= inner_required | (set(inner) if f"{called}(alloc).required(true)" in bodies[name] else set())
        required |= {it for it, option in own[name].items() if option.is_required}
        return found, required

    named = {re.search(r'Command::new\(alloc, "([\w-]+)"\)', body): name for name, body in bodies.items()}
    return {it.group(1): all_of(name, frozenset()) for it, name in named.items() if it}


def table(page, heading):
    """The rows of the table with this first cell: their cells."""
    part = read(page).partition(f"\n| {heading} |")[2].split("\n\n")[0]
    return [[it.strip() for it in re.split(r"(?<!\\)\|", line)[1:-1]] for line in part.split("\n")[2:] if line.startswith("|")]


def named_options(text):
    return set(re.findall(r"(?<![\w-])--([a-z][a-z-]+)", text))


def command_line(_):
    """COMMANDS has each command and each option, with the words that it may have."""
    known = commands(COMMAND_CODE)
    known.pop("cedar", None)
    rows = {re.search(r"`([\w-]+)", it[0]).group(1): " ".join(it[1:]) for it in table(COMMANDS, "Command")}
    takes = {re.search(r"`([\w-]+)", it[0]).group(1): named_options(it[1]) for it in table(COMMANDS, "Command")}
    wants(set(rows) == set(known), f"{COMMANDS}: the table of commands has not those of {COMMAND_CODE}: {', '.join(sorted(set(rows) ^ set(known)))}")
    everywhere = named_options(read(COMMANDS))
    for name, (options, required) in known.items():
        counts("options", len(options))
        row = rows.get(name, "")
        wants(named_options(row) <= set(options), f"{COMMANDS}: `{name}` has no option {', '.join(sorted(named_options(row) - set(options)))}")
        lacking = ", ".join(sorted(required - takes.get(name, set())))
        wants(not lacking, f"{COMMANDS}: `{name}` requires {lacking}, and its row does not say so")
        wants(set(options) <= everywhere, f"{COMMANDS}: of `{name}` it does not name {', '.join(sorted(set(options) - everywhere))}")
        for option, it in options.items():
            for said in re.findall(rf"--{option} (\w[\w-]*(?:\\?\|[\w-]+)+)", row):
                wants(said.replace("\\", "").split("|") == it.words, f"{COMMANDS}: --{option} of `{name}` takes {it.words}, and not {said}")
            if it.words and f"--{option}" in row:
                wants("|".join(it.words) in row.replace("\\", ""), f"{COMMANDS}: `{name}` does not say that --{option} takes {'|'.join(it.words)}")


def defaults(_):
    """COMMANDS has what stands for an option that is left out, the bounds of each number, and which commands take what many do."""
    known = commands(COMMAND_CODE)
    known.pop("cedar", None)
    text = " ".join(read(COMMANDS).split())
    for name, it in {name: it for options, _ in known.values() for name, it in options.items()}.items():
        is_said = re.search(rf"Left out, [^.]*`--{name}` is `{it.default}`", text)
        wants(not it.default or is_said, f"{COMMANDS}: does not say: Left out, `--{name}` is `{it.default}`")
        if it.bounds:
            said = f"`--{name}` is from {it.bounds[0]:,} to {it.bounds[1]:,}"
            wants(said in text, f"{COMMANDS}: does not say: {said}")
    for option, (before, after) in TAKEN_BY.items():
        found = re.search(rf"{before}((?:(?:,\s|\sand\s)?`[\w-]+`)+)\s{after}", read(COMMANDS))
        said = set(re.findall(r"`([\w-]+)`", found.group(1))) if found else set()
        having = {name for name, (options, _) in known.items() if option in options}
        # (`link` takes the file of links to write it anew)
        having -= {"link"} if option == "template-linked" else set()
        wants(said == having, f"{COMMANDS}: --{option} is taken by {', '.join(sorted(having))}, and not by {', '.join(sorted(said))}")


def serving(_):
    """SERVING has each option, with its words, its bounds and what stands for it."""
    options, required = commands(SERVE_CODE).get("cedar_serve", ({}, set()))
    rows = {it[0].strip("`-"): it[1] for it in table(SERVING, "Option")}
    wants(set(rows) == set(options), f"{SERVING}: the table of options has not those of {SERVE_CODE}: {', '.join(sorted(set(rows) ^ set(options)))}")
    usage = "\n".join(re.findall(r"^    (?:cedar_serve|    \[).*$", read(SERVING).partition("\n| Option |")[0], re.M))
    wants(named_options(usage) == set(options), f"{SERVING}: the usage has not the options of the code: {', '.join(sorted(named_options(usage) ^ set(options)))}")
    text = read(SERVE_CODE)
    of_code = dict(re.findall(r'number_or\(matches, "([\w-]+)", (\w+)\)', text))
    numbers = {name: int(value) for name, value in re.findall(r"const (\w+): usize = ([\d_]+);", text)}
    last = re.search(r"The last four are from ([\d,]+) to ([\d,]+)", read(SERVING))
    for name, it in options.items():
        counts("options")
        row = rows.get(name, "")
        takes = "|".join(it.words) if it.words else it.value
        is_shown = all(said == takes for said in re.findall(rf"--{name} ([\w|]+)", usage))
        wants(not takes or is_shown, f"{SERVING}: the usage of --{name} does not show that it takes {takes}")
        wants(not it.words or all(f"`{word}`" in row for word in it.words), f"{SERVING}: --{name} takes {takes}")
        wants((f"[--{name}" not in usage) or name not in required, f"{SERVING}: --{name} must be given")
        said = re.search(r"left out, `?([\w,]+)`?", row)
        if it.said:
            wants(said and said.group(1) == it.said.group(1).rstrip(","), f"{SERVING}: left out, --{name} is {it.said.group(1)}")
        if name in of_code:
            number = f"{numbers[of_code[name]]:,}"
            wants(said and said.group(1) == number, f"{SERVING}: left out, --{name} is {number}")
            wants(it.said and it.said.group(1) == number, f"{SERVE_CODE}: the help of --{name} does not say {number}")
        bounds = re.search(r"from ([\d,]+) to ([\d,]+)", row) or (last if name in list(rows)[-4:] else None)
        if it.bounds and it.bounds[0]:
            told = bounds and tuple(int(number.replace(",", "")) for number in bounds.groups())
            wants(told == it.bounds, f"{SERVING}: --{name} is from {it.bounds[0]:,} to {it.bounds[1]:,}")
        elif it.bounds:
            wants(f"up to {it.bounds[1]:,}" in row, f"{SERVING}: --{name} is at most {it.bounds[1]:,}")


def known_options(_):
    """No document names an option that no program has."""
    known = {option for code in (COMMAND_CODE, SERVE_CODE) for options, _ in commands(code).values() for option in options}
    for page in pages():
        if page != "CHANGELOG.md":
            for option in sorted(named_options(read(page)) - known - OTHERS):
                wants(False, f"{page}: no program has an option --{option}")


def endpoints(_):
    """SERVING has a heading for each path, with its method, and each status that is answered."""
    routes = {(METHODS[how], path) for path, how in re.findall(r'path == "([^"]+)" \{\s*(\w+)\(', read(ROUTES))}
    said = set()
    for method, paths in re.findall(r"^### `(GET|POST|PUT) (/[^`]*)`(?:.*)$", read(SERVING), re.M):
        said.add((method, paths))
    for method, first, more in re.findall(r"^### `(GET|POST|PUT) (/[^`]*)`((?:, `/[^`]*`)+)$", read(SERVING), re.M):
        for path in re.findall(r"`(/[^`]*)`", more):
            # (a path of one part stands beside the last one of the first)
            said.add((method, path if path.count("/") > 1 else first.rpartition("/")[0] + path))
    counts("endpoints", len(routes))
    for method, path in sorted(said ^ routes):
        wants(False, f"{SERVING}: {method} {path} {'has no heading' if (method, path) in routes else 'is no endpoint'}")
    codes = {CODES[it] for path in (ANSWERS, "crates/cedar_log/src/logged.rt") for it in re.findall(r"StatusCode::([A-Z_]+)", read(path))} - {200}
    told = {int(it[0]) for it in table(SERVING, "Status")}
    wants(codes == told, f"{SERVING}: the table of statuses has not those that are answered: {sorted(codes ^ told)}")


RULES = [command_line, defaults, serving, known_options, endpoints]

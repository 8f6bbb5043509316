"""Rules on edits that must be refused: each fits, and attacks/README counts what stands in attacks/tried.txt, which attacks/try writes."""
import hashlib
import re
import textwrap

from rules.base import counts, files, is_file, read, wants

TRIED, README = "attacks/tried.txt", "attacks/README.md"
HEAD = """# Which attacks were tried, a line each: the attack, the day, the revision, a sum of the attack's text, and what came of it. attacks/try writes it,
# and sorts it; what it found before is replaced. `by hand` is from before that: the revision is the one that notes it, and no clause was noted.
"""
SECTION = "## Which were tried"
REFUSED, NOT_SHOWN, NOT_REFUSED = "refused", "not shown", "not refused"


def attacks():
    """Each attack as `CRATE/NAME`, and its file."""
    return {path[len("attacks/"):-len(".edit")]: path for path in files("attacks/*/*.edit")}


def sum_of(path):
    return hashlib.sha256(read(path).encode()).hexdigest()[:8]


def tried(text):
    """What a file of attacks that were tried has: by attack the day, the revision, the sum and what came of it."""
    found = {}
    for line in text.split("\n"):
        if line and not line.startswith("#"):
            attack, day, revision, its_sum, verdict = line.split(" ", 4)
            found[attack] = (day, revision, its_sum, verdict)
    return found


def written(found):
    """That file, of what was found; what is no attack any more is left out."""
    there = attacks()
    return HEAD + "".join(f"{it} {' '.join(found[it])}\n" for it in sorted(found) if it in there)


def standing():
    """What came of each attack as it is written today; those that were not tried so are not there."""
    there = attacks()
    found = tried(read(TRIED))
    return {it: verdict for it, (_, _, its_sum, verdict) in found.items() if it in there and sum_of(there[it]) == its_sum}


def section():
    """The section of attacks/README that counts."""
    all_of, stand = attacks(), standing()
    kinds = {kind: [it for it, verdict in stand.items() if verdict.startswith(kind)] for kind in (REFUSED, NOT_SHOWN, NOT_REFUSED)}
    must_fail = len(list(files("crates/*/must-fail/*.edit")))
    text = (f"There are {len(all_of):,} attacks here, and {must_fail} in `must-fail/`, which the gate tries each time. As they are written, {len(stand):,} of "
            f"those here were tried: {len(kinds[REFUSED]):,} are refused, {len(kinds[NOT_SHOWN])} are not shown, and {len(kinds[NOT_REFUSED])} not refused. "
            f"{len(all_of) - len(stand):,} were not tried, or were written anew since.")
    out = [SECTION, "", "Made by `attacks/try --count`, of `attacks/tried.txt`: a line an attack, with the day, the revision and what refused it.", ""]
    out += textwrap.wrap(text, 150) + [""]
    for kind, what in ((NOT_SHOWN, "Not shown are those that are refused only where a proof names what is gone. They are to be written anew:"),
                       (NOT_REFUSED, "Not refused, so that a contract says too little, or the edit means the same:")):
        if kinds[kind]:
            out += [what, ""]
            for crate, its in by_crate(kinds[kind]).items():
                out += textwrap.wrap(f"- of `{crate}` {', '.join(f'`{it}`' for it in its)}", 150, subsequent_indent="  ")
            out.append("")
    out += ["| Crate | Attacks | Refused | Not shown | Not tried |", "|---|---|---|---|---|"]
    refused, not_shown = by_crate(kinds[REFUSED]), by_crate(kinds[NOT_SHOWN])
    for crate, its in by_crate(all_of).items():
        lacking = len([it for it in its if f"{crate}/{it}" not in stand])
        out.append(f"| `{crate}` | {len(its)} | {len(refused.get(crate, []))} | {len(not_shown.get(crate, [])) or ''} | {lacking or ''} |")
    return "\n".join(out) + "\n\n"


def by_crate(names):
    found = {}
    for it in sorted(names):
        found.setdefault(it.partition("/")[0], []).append(it.partition("/")[2])
    return found


def counted_pages():
    """The pages that count attacks, with the counts of today: attacks/README, and a sentence of README."""
    before, _, rest = read(README).partition(SECTION)
    must_fail = len(list(files("crates/*/must-fail/*.edit")))
    sentence = f"Of {len(attacks()) + must_fail:,} [wrong bodies](attacks/README.md) the gate tries {must_fail}"
    front = re.sub(r"Of [\d,]+ \[wrong bodies\]\(attacks/README\.md\) the gate tries \w+", sentence, read("README.md"))
    return {README: before + section() + "## " + rest.partition("\n## ")[2], "README.md": front}


def edits(_):
    """Each edit fits: the text of each `old:` stands once in its file, the edits before it made."""
    for path in files("attacks/*/*.edit", "crates/*/must-fail/*.edit"):
        crate = path.split("/")[1]
        counts("edits")
        text = old = None
        for line in read(path).split("\n"):
            if line.startswith("file: "):
                where = f"crates/{crate}/{line[6:]}"
                wants(is_file(where), f"{path}: no file {where}")
                text = read(where)
            elif line.startswith("old: "):
                old = line[5:]
                wants(text is not None and text.count(old) == 1, f"{path}: stands {(text or '').count(old)} times: {old[:100]}")
            elif line.startswith("new: ") and text is not None:
                text = text.replace(old, line[5:], 1)


def lines(_):
    """Each line of attacks/tried.txt is one that attacks/try writes, of an attack that is there."""
    there = attacks()
    for line in read(TRIED).split("\n"):
        if line and not line.startswith("#"):
            fits = re.fullmatch(r"(\S+) \d{4}-\d\d-\d\d [0-9a-f]{8,} [0-9a-f]{8} (refused|not shown|not refused)\b.*", line)
            wants(fits, f"{TRIED}: no line of attacks/try: {line[:80]}")
            wants(not fits or fits.group(1) in there, f"{TRIED}: no attack {line.split(' ')[0]}")


def counted(_):
    for page, text in counted_pages().items():
        wants(text == read(page), f"{page}: not what attacks/try --count makes: run it")
    wants("[wrong bodies](attacks/README.md) the gate tries " in read("README.md"), "README.md: does not say how many wrong bodies there are")


RULES = [edits, lines, counted]

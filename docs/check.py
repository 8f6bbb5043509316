#!/usr/bin/env python3
"""docs/check.py: whether the documents say what the files have, and the crates keep the rules of the house. `.ci/run` runs it first; it takes a few
seconds and proves nothing. CONTRIBUTING lists the rules; they stand in docs/rules:

- `pages`: lengths, links, anchors, files, names of the code and clauses that pages name; what is quoted; pages and pictures that scripts make;
- `numbers`: counts of rows, runs, crates, kinds, `unsafe`; limits, defaults and statuses of the code;
- `programs`: commands, options, their values and defaults, endpoints, statuses of HTTP;
- `crates`: rooms and order of crates.txt, heads, crates that one other could hold, functions that stand in two crates;
- `attacks`: each edit fits, and which were tried.

It prints a line for each fault and ends with status 1, or prints one line of what it looked at. docs/check_untruths.py tests it."""
import os
import re
import subprocess
import sys

sys.dont_write_bytecode = True
sys.path.insert(0, os.path.dirname(os.path.realpath(__file__)))
import contracts  # noqa: E402
from rules import attacks, base, crates, numbers, pages, programs  # noqa: E402

KIT = subprocess.run(["rt", "version"], stdout=subprocess.PIPE, encoding="utf-8", check=False).stdout.strip()


def versions(_):
    """Each program prints the same version, with the kit's."""
    found = {path: re.findall(r'const VERSION: &str =\s*"([^"]*)"', base.read(path)) for path in base.files("crates/*/src/*.rt")}
    found = {path: it[0] for path, it in found.items() if it}
    for path, version in found.items():
        base.wants(version == next(iter(found.values())), f"{path}: another VERSION than {next(iter(found))}")
        base.wants(KIT and version.endswith(f"; {KIT})"), f"{path}: VERSION does not name {KIT or 'rt version'}")


RULES = [*pages.RULES, *numbers.RULES, *programs.RULES, *crates.RULES, *attacks.RULES, versions]


def faults():
    """All that is at fault, of the files as they are, and what stands in their place."""
    base.faults.clear()
    base.seen.clear()
    house = contracts.House()
    for rule in RULES:
        try:
            rule(house)
        except Exception as why:  # (what a rule reads is not there, say)
            base.wants(False, f"the rule `{rule.__name__}` could not be asked: {why!r}")
    return list(base.faults)


def main():
    found = faults()
    for it in found:
        print(f"docs/check: {it}")
    if found:
        print(f"docs/check: {len(found)} faults")
        sys.exit(1)
    print(f"docs/check: well: {len(base.crates())} crates, {', '.join(f'{number} {what}' for what, number in base.seen.items())}")


if __name__ == "__main__":
    main()

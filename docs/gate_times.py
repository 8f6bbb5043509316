#!/usr/bin/env python3
"""docs/gate_times.py: how long each crate's proof takes, and which crates wait for one another longest.

  docs/gate_times.py watch FILE     beside `rt ci`, in whatever folder: notes in FILE, every two seconds, the processor time of each proof,
                                    of tests and of tried edits; it goes on until it is stopped
  docs/gate_times.py table FILE ..  prints a table of what was noted: a row a crate, the longest way first

Processor time is that of `rattle` and of the copies that it makes of itself. What ends within two seconds is not seen."""
import json
import os
import re
import sys
import time

ROOT = os.path.dirname(os.path.dirname(os.path.realpath(__file__)))
TICKS = os.sysconf("SC_CLK_TCK")


def processes():
    """Of each process its parent, its words, its ticks, and its ticks with those of the children that it waited for."""
    found = {}
    for pid in filter(str.isdigit, os.listdir("/proc")):
        try:
            with open(f"/proc/{pid}/stat", "rb") as it:
                fields = it.read().rpartition(b")")[2].split()
            with open(f"/proc/{pid}/cmdline", "rb") as it:
                words = it.read().decode(errors="replace").split("\0")
        except OSError:
            continue
        own = int(fields[11]) + int(fields[12])
        found[pid] = fields[1].decode(), words, own, own + int(fields[13]) + int(fields[14])
    return found


def proof_of(words):
    """The crate that these words prove, and how; None where they prove none."""
    if not words[0].endswith("rattle") or "--crate-name" not in words:
        return None
    kind = "tests" if "--test" in words else "edits" if words[1] == "check" else "proof"
    return words[words.index("--crate-name") + 1], kind


def watch(path):
    noted = {}
    while True:
        all_now = processes()
        of = {pid: proof_of(it[1]) for pid, it in all_now.items()}
        for pid, proof in of.items():
            if not proof or of.get(all_now[pid][0]) == proof:
                continue
            copies = sum(it[2] for it in all_now.values() if it[0] == pid)
            ticks = all_now[pid][3] + copies
            begun = noted.get(pid, [proof, 0, time.time()])[2]
            noted[pid] = [proof, max(ticks, noted.get(pid, [proof, 0])[1]), begun, time.time()]
        with open(f"{path}.new", "w", encoding="utf-8") as it:
            json.dump([[*proof, ticks / TICKS, begun, now] for proof, ticks, begun, now in noted.values()], it)
        os.replace(f"{path}.new", path)
        time.sleep(2)


def table(paths):
    seconds = {}
    for path in paths:
        with open(path, encoding="utf-8") as it:
            for crate, kind, cost, _, _ in json.load(it):
                seconds.setdefault(crate, dict.fromkeys(("proof", "tests", "edits"), 0.0))[kind] += cost
    with open(f"{ROOT}/crates.txt", encoding="utf-8") as it:
        uses = {name: below.split() for name, below in re.findall(r"^(\w+)[^#\n:]*:([^#\n]*)", it.read(), re.M)}
    ways = {}

    def way(crate):
        if crate not in ways:
            below = max((way(it) for it in uses[crate] if it in uses), default=0.0)
            ways[crate] = below + seconds.get(crate, {}).get("proof", 0.0)
        return ways[crate]

    print("| Crate | Proof | Tests | Edits | Longest way to its end |\n|---|---|---|---|---|")
    for crate in sorted(uses, key=way, reverse=True):
        it = seconds.get(crate, {})
        print(f"| `{crate}` | " + " | ".join(f"{it.get(kind, 0):,.0f}" for kind in ("proof", "tests", "edits")) + f" | {way(crate):,.0f} |")
    whole = {kind: sum(it[kind] for it in seconds.values()) for kind in ("proof", "tests", "edits")}
    print(f"| all | " + " | ".join(f"{it:,.0f}" for it in whole.values()) + f" | {max(map(way, uses)):,.0f} |")


if __name__ == "__main__":
    if len(sys.argv) == 3 and sys.argv[1] == "watch":
        watch(sys.argv[2])
    elif len(sys.argv) > 2 and sys.argv[1] == "table":
        table(sys.argv[2:])
    else:
        sys.exit(__doc__)

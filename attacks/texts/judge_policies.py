"""What `.. FILE` printed of policies: which rows differ, and how."""
import re
import sys
from cedar_reader import *
from fuzz import BACK

lines = open(sys.argv[1], "rb").read().decode("utf-8").split("\n")
out = open(sys.argv[2], "rb").read().decode("utf-8").split("\n")
behind_colons = order = 0
others = []
for i, line in enumerate(out):
    m = re.match(r"[\w.]+:(\d+): ", line)
    if not m or i + 1 >= len(out) or not out[i + 1].startswith("    is read as "):
        continue
    row = lines[int(m.group(1)) - 1]
    text = "".join(BACK.get(c, c) for c in row.split(" => ", 1)[0])
    want = row.split(" => ", 1)[1].split("; ")
    got = out[i + 1][len("    is read as "):].split("; ")
    reader = Reader(text)
    possible = set()
    while reader.kind != "end":
        reader.problems = []
        try:
            reader.policy(0)
            possible |= {p.shown(text) for p in reader.problems}
        except Refused:
            while reader.kind not in (";", "end"):
                reader.next()
            if reader.kind == ";":
                reader.next()
    for w, g in zip(want, got):
        if w == g:
            continue
        if g.endswith("found `::`") and re.search(r"expected (a type|a token|the closing quote|`\?principal` or)", w):
            behind_colons += 1
        elif g in possible:
            order += 1
        else:
            others.append((text, w, g))
    if len(want) != len(got):
        others.append((text, want, got))
print("behind `::` of a type:", behind_colons, "; another of the policy's problems was told:", order, "; others:", len(others))
for o in others[:20]:
    print(o)

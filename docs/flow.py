#!/usr/bin/env python3
"""docs/flow.py: draws the pictures in docs/ARCHITECTURE.md: docs/rooms.svg, the rooms and crates that crates.txt lists, and docs/flow.svg, how
data goes. Plain Python; run it after a change here or of crates.txt. `docs/check.py` compares both with what it draws."""
import os
import sys
import textwrap
from xml.sax.saxutils import escape

sys.path.insert(0, os.path.dirname(os.path.realpath(__file__)))
from rules.base import ROOT, crates, rooms  # noqa: E402

WIDTH, HEIGHT = 1280, 460

# Each box: left, top, width, height, colour, title, lines; the last lines name crates.
BOXES = {
    "text": (20, 130, 190, 120, "#f1f3f4", "Cedar's text", ["cedar_text_lexer", "cedar_text_syntax", "cedar_text_parser"]),
    "json": (20, 290, 190, 70, "#f1f3f4", "Cedar's JSON", ["cedar_json_reader", "cedar_hierarchy: the store"]),
    "request": (270, 20, 250, 90, "#e8f0fe", "request", ["principal, action, resource,", "context: each may be unknown", "cedar_requests"]),
    "policies": (270, 140, 250, 90, "#e8f0fe", "policies", ["permits and forbids, also made", "in code (cedar_builder)", "cedar_layers"]),
    "store": (270, 270, 250, 90, "#e8f0fe", "store", ["entities with their ancestors;", "what is not there may be unknown", "cedar_layers"]),
    "evaluator": (590, 100, 210, 160, "#fff4d6", "evaluator", [
        "each condition: its scope at", "once, the rest in a loop,", "within the limit of levels",
        "cedar_evaluator", "cedar_interpreter", "cedar_operators", "cedar_frames",
    ]),
    "value": (870, 20, 130, 50, "#e6f4ea", "value", ["true or false"]),
    "error": (870, 155, 130, 50, "#fce8e6", "error", ["which, and where"]),
    "residual": (870, 290, 130, 50, "#f3e8fd", "residual", ["what is left"]),
    "response": (1060, 120, 200, 120, "#fff4d6", "response", ["decision, reasons, errors;", "what is left, two bounds", "cedar_authorizer", "cedar_unknowns"]),
    "out": (1060, 20, 200, 70, "#f1f3f4", "JSON, text", ["cedar_json_writer", "cedar_text_printer"]),
    "step": (560, 370, 400, 80, "#fff4d6", "step", [
        "values for unknowns, and a store: the residuals", "are policies of a request that knows more", "cedar_authorizer",
    ]),
}

# Each arrow: its corners.
ARROWS = [
    [(210, 185), (270, 185)],
    [(210, 325), (270, 325)],
    [(210, 305), (240, 305), (240, 65), (270, 65)],
    [(520, 65), (555, 65), (555, 140), (590, 140)],
    [(520, 185), (590, 185)],
    [(520, 315), (555, 315), (555, 220), (590, 220)],
    [(800, 140), (835, 140), (835, 45), (870, 45)],
    [(800, 180), (870, 180)],
    [(800, 220), (835, 220), (835, 315), (870, 315)],
    [(1000, 45), (1030, 45), (1030, 150), (1060, 150)],
    [(1000, 180), (1060, 180)],
    [(1000, 315), (1030, 315), (1030, 210), (1060, 210)],
    [(1160, 120), (1160, 90)],
    [(1160, 240), (1160, 410), (960, 410)],
    [(695, 370), (695, 260)],
]


def text(x, y, words, weight, size, anchor="middle"):
    return (
        f'<text x="{x}" y="{y}" text-anchor="{anchor}" font-family="sans-serif" font-size="{size}" '
        f'font-weight="{weight}" fill="#202124">{escape(words)}</text>'
    )


def box(left, top, width, height, colour, title, lines):
    parts = [f'<rect x="{left}" y="{top}" width="{width}" height="{height}" rx="8" fill="{colour}" stroke="#5f6368"/>']
    middle = left + width / 2
    first = top + (height - 17 * len(lines)) / 2 + 4
    parts.append(text(middle, first, title, "bold", 15))
    for number, line in enumerate(lines):
        parts.append(text(middle, first + 17 * (number + 1), line, "normal", 13))
    return parts


def arrow(corners):
    points = " ".join(f"{x},{y}" for x, y in corners)
    return f'<polyline points="{points}" fill="none" stroke="#5f6368" stroke-width="1.5" marker-end="url(#head)"/>'


def picture():
    parts = [
        f'<svg xmlns="http://www.w3.org/2000/svg" viewBox="0 0 {WIDTH} {HEIGHT}" width="{WIDTH}" height="{HEIGHT}" role="img">',
        "<title>How data goes: text, JSON, request, policies, store, evaluator, residual, response, step</title>",
        '<defs><marker id="head" viewBox="0 0 8 8" refX="8" refY="4" markerWidth="8" markerHeight="8" orient="auto">'
        '<path d="M0,0 L8,4 L0,8 z" fill="#5f6368"/></marker></defs>',
        f'<rect width="{WIDTH}" height="{HEIGHT}" fill="#ffffff"/>',
    ]
    for corners in ARROWS:
        parts.append(arrow(corners))
    for it in BOXES.values():
        parts += box(*it)
    return "\n".join([*parts, "</svg>", ""])


def rooms_picture():
    """The rooms of crates.txt, each over those before it, with what it is and its crates."""
    parts, top = [], 10
    for number, (room, what) in reversed(list(enumerate(rooms().items()))):
        here = [it.removeprefix("cedar_") for it, (its_room, _, _) in crates().items() if its_room == room]
        said, lines = textwrap.wrap(what, 44), textwrap.wrap(", ".join(here), 118)
        height = 17 * max(len(said) + 1, len(lines)) + 16
        colour = ("#e8f0fe", "#e6f4ea", "#fff4d6")[number % 3]
        parts.append(f'<rect x="10" y="{top}" width="{WIDTH - 20}" height="{height}" rx="8" fill="{colour}" stroke="#5f6368"/>')
        parts.append(text(24, top + 21, room, "bold", 15, "start"))
        parts += [text(24, top + 38 + 17 * at, line.replace("`", ""), "normal", 12, "start") for at, line in enumerate(said)]
        parts += [text(350, top + 21 + 17 * at, line, "normal", 13, "start") for at, line in enumerate(lines)]
        top += height + 6
    title = f"The rooms of crates.txt, each over those that its crates use: {', '.join(reversed(rooms()))}"
    return "\n".join([
        f'<svg xmlns="http://www.w3.org/2000/svg" viewBox="0 0 {WIDTH} {top + 4}" width="{WIDTH}" height="{top + 4}" role="img">',
        f"<title>{escape(title)}</title>", f'<rect width="{WIDTH}" height="{top + 4}" fill="#ffffff"/>', *parts, "</svg>", "",
    ])


if __name__ == "__main__":
    for name, drawn in (("flow", picture()), ("rooms", rooms_picture())):
        with open(f"{ROOT}/docs/{name}.svg", "w", encoding="utf-8") as it:
            it.write(drawn)

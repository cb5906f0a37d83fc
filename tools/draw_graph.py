#!/usr/bin/env python3
"""Draws docs/graph.svg, the cells of README's `count.imp` and what an edit empties: draw_graph.py [--check].

The cells, their inputs and the range of `i` in each stand below; what is emptied is all that depends on the edited
statement's cell. `--check` compares the drawing with what stands in the document, and writes nothing.
"""
from __future__ import annotations

import sys
from html import escape
from typing import Iterable, NamedTuple

sys.dont_write_bytecode = True

from kit import ROOT
from tally import Tally

DOCUMENT = "docs/graph.svg"
PROGRAM = ("1  i = 0;", "2  n = 10;", "3  while (i < n) {", "4    i = i + 1; }")
EDITED = "after 2"
STEP, WIDTH, HEIGHT = 140, 114, 46
LEFT, SPINE, BODY, DONE = 66, 268, 180, 92


class Cell(NamedTuple):
    """A cell: its name, what is known of `i`, its middle, and its inputs."""

    name: str
    known: str
    x: float
    y: float
    inputs: tuple[str, ...]


def spine(place: int) -> int:
    return LEFT + place * STEP


def cells() -> list[Cell]:
    """All cells, each after its inputs."""
    found = [
        Cell("start", "i = 0", spine(0), SPINE, ()),
        Cell("after 1", "i = 0", spine(1), SPINE, ("start",)),
        Cell("after 2", "i = 0", spine(2), SPINE, ("after 1",)),
    ]
    before = "after 2"
    rounds = (("0", "1", "[0,1]"), ("[0,1]", "[1,2]", "[0,10]"), ("[0,9]", "[1,10]", "[0,10]"))
    for number, (entered, done, iterate) in enumerate(rounds):
        body, last, head = f"in round {number}", f"after 4, round {number}", f"iterate {number + 1}"
        x = spine(2 + number) + STEP / 2
        found += [
            Cell(body, f"i in {entered}" if "[" in entered else f"i = {entered}", x, BODY, (before,)),
            Cell(last, f"i in {done}" if "[" in done else f"i = {done}", x, DONE, (body,)),
            Cell(head, f"i in {iterate}", spine(3 + number), SPINE, (before, last)),
        ]
        before = head
    fixed = ("after 2", "iterate 1", "iterate 2", "iterate 3")
    found += [
        Cell("fixed point", "i in [0,10]", spine(6), SPINE, fixed),
        Cell("after 3", "i = 10", spine(7), SPINE, ("fixed point",)),
    ]
    return found


def emptied(all_cells: Iterable[Cell]) -> set[str]:
    """The names of the cells that the edit empties."""
    found = {EDITED}
    for cell in all_cells:
        if found & set(cell.inputs):
            found.add(cell.name)
    return found


def way(*points: tuple[float, float]) -> str:
    """A line between two points, or a bow by way of a third one."""
    first, *others = (f"{x:.0f},{y:.0f}" for x, y in points)
    return f"M{first} {'L' if len(others) == 1 else 'Q'}{' '.join(others)}"


def path_between(start: Cell, end: Cell) -> str:
    """The way of an arrow: straight to a neighbour, and in a bow below the spine to one further on."""
    half, right = HEIGHT / 2, start.x + WIDTH / 2
    if start.y == end.y and end.x - start.x > STEP:
        depth = start.y + half + 36 + (end.x - start.x) / 6
        return way((start.x, start.y + half), ((start.x + end.x) / 2, depth), (end.x, end.y + half + 3))
    if start.y == end.y:
        return way((right, start.y), (end.x - WIDTH / 2 - 3, end.y))
    if start.y < end.y:
        return way((right, start.y), (end.x, start.y), (end.x, end.y - half - 3))
    aside = (30, -20) if start.y == SPINE else (0, 0)
    return way((start.x + aside[0], start.y - half), (end.x + aside[1], end.y + half + 3))


def text(x: float, y: float, words: str, kind: str, anchor: str = "middle") -> str:
    place = f'x="{x:.0f}" y="{y:.0f}" class="{kind}" text-anchor="{anchor}" xml:space="preserve"'
    return f"<text {place}>{escape(words)}</text>"


def drawing() -> str:
    """The whole picture."""
    all_cells = cells()
    gone, by_name = emptied(all_cells), {it.name: it for it in all_cells}
    width, height = spine(7) + LEFT, 384
    parts = [
        f'<svg xmlns="http://www.w3.org/2000/svg" viewBox="0 0 {width} {height}" role="img">',
        f"<title>The {len(all_cells)} cells of count.imp; replacing statement 2 empties {len(gone)}</title>",
        "<style>text{font-family:sans-serif;font-size:13px;fill:#1f2328}.known{fill:#57606a;font-size:12px}"
        ".code{font-family:monospace;font-size:13px}"
        ".arrow{fill:none;stroke:#57606a;stroke-width:1.2;marker-end:url(#tip)}"
        ".kept{fill:#dafbe1;stroke:#1a7f37}.gone{fill:#ffebe9;stroke:#cf222e;stroke-dasharray:5 3}</style>",
        '<defs><marker id="tip" viewBox="0 0 8 8" refX="7" refY="4" markerWidth="7" markerHeight="7" orient="auto">'
        '<path d="M0,0 L8,4 L0,8 z" fill="#57606a"/></marker></defs>',
        f'<rect width="{width}" height="{height}" fill="#ffffff"/>',
    ]
    for place, line in enumerate(PROGRAM):
        y = 44 + 22 * place
        if line.startswith(EDITED[-1]):
            parts.append(f'<rect x="12" y="{y - 16}" width="200" height="22" class="gone"/>')
        parts.append(text(20, y, line, "code", "start"))
    parts.append(text(20, 44 + 22 * len(PROGRAM) + 6, "edit: statement 2 becomes n = 20;", "known", "start"))
    for cell in all_cells:
        parts += [f'<path class="arrow" d="{path_between(by_name[it], cell)}"/>' for it in cell.inputs]
    for cell in all_cells:
        kind = "gone" if cell.name in gone else "kept"
        left, top = cell.x - WIDTH / 2, cell.y - HEIGHT / 2
        parts += [
            f'<rect x="{left:.0f}" y="{top:.0f}" width="{WIDTH}" height="{HEIGHT}" rx="5" class="{kind}"/>',
            text(cell.x, cell.y - 4, cell.name, "name"),
            text(cell.x, cell.y + 14, cell.known, "known"),
        ]
    kept = len(all_cells) - len(gone)
    emptying = f"{len(gone)} cells are emptied, and filled when they are asked for"
    for x, kind, words in ((16, "kept", f"{kept} cells stay"), (180, "gone", emptying)):
        parts += [
            f'<rect x="{x}" y="{height - 26}" width="26" height="16" rx="3" class="{kind}"/>',
            text(x + 34, height - 13, words, "name", "start"),
        ]
    return "\n".join([*parts, "</svg>", ""])


def main(words: list[str]) -> int:
    if words not in ([], ["--check"]):
        print("usage: draw_graph.py [--check]", file=sys.stderr)
        return 2
    if not words:
        with open(f"{ROOT}/{DOCUMENT}", "w") as out:
            out.write(drawing())
    tally = Tally()
    with open(f"{ROOT}/{DOCUMENT}") as found:
        tally.note(f"{DOCUMENT} is drawn by the script", "" if found.read() == drawing() else "run tools/draw_graph.py")
    return tally.end()


if __name__ == "__main__":
    sys.exit(main(sys.argv[1:]))

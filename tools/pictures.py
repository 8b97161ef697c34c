#!/usr/bin/env python3
"""Draws the pictures of docs/: tools/pictures.py [--check]

docs/layers.svg comes from crates.txt, and docs/request.svg from the table in docs/house.md. --check says whether they are as the
script draws them, and writes nothing.
"""
import sys
from html import escape
from pathlib import Path

TOP = Path(__file__).resolve().parent.parent

DOCS = TOP / "docs"
# Where each crate stands from left to right, in halves of a box, so that no box is on another and no line goes
# behind the box of another crate.
SLOTS = {name: int(slot) for name, slot in (word.split(":") for word in """
    ring_words:10 byte_streams:19 ring_model:8 ring_share:6 ring_room:1 ring_tables:7 ring_deal:3
    ring_place:1 ring_text:9 swift_ring:3 ring_founding:21 path_lookup:4 ring_metrics:2 ring_reads:10
    csv_import:10 request_book:19 ring_messages:12 builder:6 ring_log:13 ring_book:12 store_model:16
    store_tables:6 store_rows:16 builder_store:16 line_stream:15 line_api:2 ring_page:21 http_messages:14
    http_stream:17 http_routes:14 http_api:17 timed_streams:22 http_sockets:22 command_line:19 programs:20
    program_stores:3 file_stores:15 ringd:16
    """.split())}
COLOURS = ("#4e79a7", "#f28e2b", "#59a14f", "#e15759", "#b07aa1", "#76b7b2", "#9c755f", "#edc948", "#bab0ac")
FONT = 'font-family="DejaVu Sans, Verdana, sans-serif"'


class Picture:
    """The parts of an SVG picture."""

    def __init__(self, width, height):
        self.parts = [f'<svg xmlns="http://www.w3.org/2000/svg" viewBox="0 0 {width} {height}" width="{width}" {FONT}>',
                      f'<rect width="{width}" height="{height}" fill="white"/>']

    def text(self, x, y, what, size=13, fill="#222", anchor="start", more=""):
        self.parts.append(f'<text x="{x}" y="{y}" font-size="{size}" fill="{fill}" text-anchor="{anchor}"{more}>{escape(what)}</text>')

    def box(self, x, y, width, height, fill, stroke="none", wide=1):
        self.parts.append(f'<rect x="{x}" y="{y}" width="{width}" height="{height}" rx="4" fill="{fill}" '
                          f'stroke="{stroke}" stroke-width="{wide}"/>')

    def line(self, x, y, to_x, to_y):
        self.parts.append(f'<line x1="{x}" y1="{y}" x2="{to_x}" y2="{to_y}" stroke="#888" stroke-width="1.5"/>')

    def whole(self):
        return "\n".join([*self.parts, "</svg>"]) + "\n"


def crates():
    """The crates of crates.txt that are no tests, each with its heading and the crates that it names."""
    heading, there = "", {}
    for line in (TOP / "crates.txt").read_text().splitlines():
        name, colon, named = line.partition("#")[0].partition(":")
        if line.startswith("# "):
            heading = line[2:].strip()
        elif colon and heading != "Tests":
            there[name.strip()] = heading, named.split()
    return there


def depths(there):
    """How many crates stand below one another below each crate: a crate's row, counted from the lowest."""
    found = {}

    def depth(name):
        if name not in found:
            found[name] = 1 + max((depth(other) for other in there[name][1] if other in there), default=-1)
        return found[name]

    for name in there:
        depth(name)
    return found


def arrows(there):
    """Which crate stands on which, without what follows from others."""
    below = {}

    def all_below(name):
        if name not in below:
            named = [other for other in there[name][1] if other in there]
            below[name] = set(named).union(*map(all_below, named))
        return below[name]

    for name, (_, named) in there.items():
        for other in named:
            if other in there and not any(other in all_below(between) for between in named if between in there):
                yield name, other


def is_behind(place, line):
    """Whether a line goes behind the box at a place."""
    (x, y), (from_x, from_y, to_x, to_y) = place, line
    if y + 28 <= from_y or y >= to_y:
        return False
    ends = [from_x + (to_x - from_x) * min(1, max(0, (at - from_y) / (to_y - from_y))) for at in (y, y + 28)]
    return max(ends) > x and min(ends) < x + 112


def layers():
    """Which crates stand on which: each is one row above the highest of those that it names."""
    there = crates()
    if there.keys() != SLOTS.keys():
        sys.exit(f"SLOTS has other crates than crates.txt: {', '.join(sorted(there.keys() ^ SLOTS.keys()))}")
    rows = depths(there)
    top = max(rows.values())
    places = {name: (20 + 62 * slot, 20 + 56 * (top - rows[name])) for name, slot in SLOTS.items()}
    drawn = Picture(140 + 62 * max(SLOTS.values()), 80 + 56 * (top + 1))
    for row in range(top + 1):
        drawn.box(8, 9 + 56 * row, 124 + 62 * max(SLOTS.values()), 50, "#f3f5f8" if row % 2 else "#e8ecf2")
    for name, other in arrows(there):
        line = places[name][0] + 56, places[name][1] + 28, places[other][0] + 56, places[other][1]
        drawn.line(*line)
        hidden = [lost for lost, place in places.items() if lost not in (name, other) and is_behind(place, line)]
        if hidden:
            sys.exit(f"SLOTS: the line from {name} to {other} goes behind {', '.join(hidden)}")
    kinds = list(dict.fromkeys(heading for heading, _ in there.values()))
    for name, (x, y) in places.items():
        covered = [other for other, place in places.items() if other != name and place[1] == y and abs(place[0] - x) < 112]
        if covered:
            sys.exit(f"SLOTS: {name} is on {', '.join(covered)}")
        drawn.box(x, y, 112, 28, "white", COLOURS[kinds.index(there[name][0])], 1.5)
        drawn.text(x + 56, y + 19, name, 12, anchor="middle")
    y = 42 + 56 * (top + 1)
    for at, kind in enumerate(kinds):
        drawn.box(18 + 190 * at, y - 11, 14, 14, "white", COLOURS[at], 2)
        drawn.text(38 + 190 * at, y, kind, 12, "#555")
    drawn.text(18, y + 24, "Each line goes down: a crate uses those below it, and nothing of them but their contracts.", 11, "#777")
    return drawn.whole()


def request():
    """The way of a line through the functions, as docs/house.md has it."""
    table = (DOCS / "house.md").read_text().partition("## The way of a line")[2].partition("\n## ")[0]
    rows = [[cell.strip().replace("`", "") for cell in line.strip("|").split("|")] for line in table.splitlines()
            if line.startswith("| ")][1:]
    drawn = Picture(860, 30 + 54 * len(rows))
    for at, (what, functions, file) in enumerate(rows):
        y = 14 + 54 * at
        drawn.box(8, y, 844, 40, "#eef3f9" if at % 2 else "#f7f7f2", "#c5cedb")
        drawn.text(20, y + 25, str(at + 1), 14, "#4e79a7")
        drawn.text(46, y + 25, what, 12)
        drawn.text(840, y + 17, functions, 11, "#333", "end")
        drawn.text(840, y + 33, file, 10, "#888", "end")
        if at:
            drawn.line(28, y - 14, 28, y)
    return drawn.whole()


def main():
    drawn = {"layers": layers, "request": request}
    if "--check" in sys.argv:
        stale = [name for name, draw in drawn.items() if (DOCS / f"{name}.svg").read_text() != draw()]
        if stale:
            sys.exit(f"docs: {', '.join(stale)} not as tools/pictures.py draws them")
        return
    for name, draw in drawn.items():
        (DOCS / f"{name}.svg").write_text(draw())


if __name__ == "__main__":
    main()

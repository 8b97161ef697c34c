#!/usr/bin/env python3
"""Draws docs/placement.svg: tools/placement_picture.py [FIGURES]

One cluster before and after a zone comes, by zones: how many partitions have 1, 2 and 3 of their replicas in a zone,
and how many seats moved from which zone to which. FIGURES is a file with what `bench/quality.py --picture` prints;
without it that is run, which takes a second or two (RINGD names the program, as for checks/).
"""
import json
import subprocess
import sys
from html import escape
from pathlib import Path

TOP = Path(__file__).resolve().parent.parent
WIDTH, LEFT = 770, 40
BARS, GROUP, HIGH = 34, 160, 150
COLOURS = ("#4e79a7", "#f28e2b", "#e15759")
ZONES = ("#59a14f", "#b07aa1", "#76b7b2", "#edc948", "#9c755f", "#bab0ac")
STYLE = """<style>
.paper { fill: #ffffff } .ink { fill: #222222 } .pale { fill: #666666 } .rule { stroke: #999999 }
@media (prefers-color-scheme: dark) {
.paper { fill: #16191d } .ink { fill: #e6e6e6 } .pale { fill: #a4a9b0 } .rule { stroke: #6b7078 }
}
</style>"""


class Picture:
    """The parts of an SVG picture, light or dark as the reader's screen is."""

    def __init__(self):
        self.parts = []

    def text(self, x, y, what, size=12, style="ink", anchor="start"):
        self.parts.append(f'<text class="{style}" x="{x:.0f}" y="{y:.0f}" font-size="{size}" text-anchor="{anchor}">'
                          f'{escape(what)}</text>')

    def box(self, x, y, width, height, fill):
        self.parts.append(f'<rect x="{x:.1f}" y="{y:.1f}" width="{width:.1f}" height="{height:.1f}" fill="{fill}"/>')

    def rule(self, x, y, to_x):
        self.parts.append(f'<line class="rule" x1="{x}" y1="{y}" x2="{to_x}" y2="{y}"/>')

    def band(self, x, y, to_x, to_y, wide, colour):
        """A band from left to right, as wide as it is told."""
        middle = (x + to_x) / 2
        self.parts.append(f'<path d="M{x} {y:.1f}C{middle} {y:.1f} {middle} {to_y:.1f} {to_x} {to_y:.1f}" fill="none" '
                          f'stroke="{colour}" stroke-width="{wide:.1f}" stroke-opacity="0.55"/>')

    def whole(self, height):
        head = (f'<svg xmlns="http://www.w3.org/2000/svg" viewBox="0 0 {WIDTH} {height}" width="{WIDTH}" '
                'font-family="DejaVu Sans, Verdana, sans-serif">')
        paper = f'<rect class="paper" width="{WIDTH}" height="{height}"/>'
        return "\n".join([head, STYLE, paper, *self.parts, "</svg>"]) + "\n"


def bars(drawn, y, figures, when, title):
    """How many partitions have 1, 2 and 3 replicas in each zone."""
    drawn.text(12, y, title, 14)
    base, partitions = y + 30 + HIGH, figures["partitions"]
    for place, (zone, counts) in enumerate(figures[when].items()):
        x = LEFT + (GROUP + 20) * place
        if sum(counts[1:]):
            for bar, (count, colour) in enumerate(zip(counts[1:], COLOURS)):
                high = HIGH * count / partitions
                drawn.box(x + (BARS + 10) * bar, base - high, BARS, high, colour)
                drawn.text(x + (BARS + 10) * bar + BARS / 2, base - high - 4, str(count), 11, "pale", "middle")
        else:
            drawn.text(x + 61, base - 8, "not there yet", 11, "pale", "middle")
        drawn.rule(x - 6, base, x + 128)
        drawn.text(x + 61, base + 17, f"zone {zone}, weight {figures['weights'][zone]}", 11, "ink", "middle")
    return base + 34


def moves(drawn, y, figures):
    """How many seats moved from which zone to which."""
    ways, zones = figures["moved"], list(figures["weights"])
    total = sum(count for _, _, count in ways)
    least, rounds = figures["least"], figures["rounds"]
    drawn.text(12, y, f"What moved: {total} seats in {rounds} rebalance{'s' * (rounds > 1)}; {least} is the least", 14)
    scale, gap, top = 150 / total, 26, y + 34
    begins, ends, left, right = {}, {}, top, top
    for zone in zones:
        given = sum(count for one, _, count in ways if str(one) == zone)
        taken = sum(count for _, other, count in ways if str(other) == zone)
        begins[zone], ends[zone] = left, right
        drawn.text(180, left + given * scale / 2 + 4, f"zone {zone} gave {given}", 12, "ink", "end")
        drawn.text(590, right + taken * scale / 2 + 4, f"zone {zone} took {taken}", 12)
        left, right = left + given * scale + gap, right + taken * scale + gap
    for one, other, count in ways:
        wide = count * scale
        colour = ZONES[zones.index(str(one)) % len(ZONES)]
        drawn.band(190, begins[str(one)] + wide / 2, 580, ends[str(other)] + wide / 2, wide, colour)
        begins[str(one)], ends[str(other)] = begins[str(one)] + wide, ends[str(other)] + wide
    return max(left, right)


def legend(drawn, y, figures):
    """Which colour is which."""
    for place, colour in enumerate(COLOURS):
        what = f"partitions with {place + 1} of {figures['replicas']} replicas there"
        drawn.box(LEFT + 235 * place, y - 11, 13, 13, colour)
        drawn.text(LEFT + 20 + 235 * place, y, what, 11, "pale")


def draw(figures):
    """The whole picture."""
    drawn = Picture()
    before, after = figures["forced"]
    partitions = f"{figures['partitions']} partitions of {figures['replicas']} replicas"
    came = f"After zone {list(figures['weights'])[-1]} came"
    y = bars(drawn, 28, figures, "before", f"Before: {partitions}; {before:.1f} % must have two in one zone")
    y = bars(drawn, y + 14, figures, "after", f"{came}: {after:.1f} % must")
    legend(drawn, y + 4, figures)
    y = moves(drawn, y + 44, figures)
    if "note" in figures:
        drawn.text(12, y + 8, figures["note"], 12)
    return drawn.whole(round(y + 20))


def main():
    asked = [sys.executable, TOP / "bench" / "quality.py", "--picture"]
    text = Path(sys.argv[1]).read_text() if sys.argv[1:] else subprocess.check_output(asked, text=True)
    (TOP / "docs" / "placement.svg").write_text(draw(json.loads(text)))


if __name__ == "__main__":
    main()

#!/usr/bin/env python3
"""Draws docs/settings.svg: up to which delay two printers link, for each first period and Sync limit, and how long a silent peer is waited
for, from the table that the program of conformance prints.

    cd conformance && cargo run --release --offline -- delay settings | ../docs/tools/settings.py > ../docs/settings.svg
"""

import sys
from html import escape
from math import log

# What is drawn of each row: colour, and what it says.
BOTH, ONE, SILENCE = "#7cc296", "#bfe3cc", "#b23b2e"
LEGEND = [
    (BOTH, "both start at once: both linked with clear marks, and it stays so, at every delay up to the bar's end"),
    (ONE, "one starts: the same"),
    (SILENCE, "a start that nobody answers is given up after so long (the mark)"),
]

# The columns of numbers, by their right ends, then the bars.
COLUMNS = [(110, "Sync limit"), (205, "both start"), (300, "one starts"), (420, "given up after")]
LEFT, RIGHT, FIRST, LAST = 450, 1250, 5, 6_000_000
BAR, ROW = 16, 26
TICKS = [(10, "10 ms"), (100, "100 ms"), (1000, "1 s"), (10_000, "10 s"), (100_000, "100 s"), (1_000_000, "1,000 s")]

STYLE = """
text { font-family: Helvetica, Arial, 'DejaVu Sans', sans-serif; fill: #1c2430; font-size: 13px; }
.head { font-size: 14px; font-weight: bold; }
.factory { font-weight: bold; }
.tick { font-size: 12px; fill: #44546a; }
.axis { stroke: #9aa7b5; stroke-width: 1; }
.grid { stroke: #e3e8ee; stroke-width: 1; }
"""


def read(lines):
    """The table's rows by period: Sync limit, the delay with one starting and with both, and the silence, as numbers."""
    periods = {}
    for line in lines:
        cells = [cell.strip() for cell in line.strip().strip("|").split("|")]
        if len(cells) == 5 and all(cell.isdigit() for cell in cells):
            period, *row = map(int, cells)
            periods.setdefault(period, []).append(row)
    return periods


def text(x, y, words, kind="", anchor="start"):
    return f'<text class="{kind}" x="{x:.0f}" y="{y:.0f}" text-anchor="{anchor}">{escape(words)}</text>'


def place(ms):
    """Where a number of milliseconds stands: by its logarithm."""
    return LEFT + (RIGHT - LEFT) * log(ms / FIRST) / log(LAST / FIRST)


def rectangle(ms, y, height, colour):
    return f'<rect x="{LEFT}" y="{y}" width="{place(ms) - LEFT:.1f}" height="{height}" fill="{colour}"/>'


def draw(row, y, kind):
    """One row: its numbers, the two bars and the mark."""
    limit, one, both, silence = row
    out = [text(x, y + 13, f"{number:,}", kind, "end") for (x, _), number in zip(COLUMNS, (limit, both, one, silence))]
    out += [rectangle(one, y, BAR, ONE), rectangle(both, y + 4, BAR - 8, BOTH)]
    out.append(f'<rect x="{place(silence) - 2:.1f}" y="{y - 2}" width="4" height="{BAR + 4}" fill="{SILENCE}"/>')
    return out


def main():
    out, y = [], 40
    for x, words in COLUMNS:
        out.append(text(x, y, words, "tick", "end"))
    out.append(text(LEFT, y, "delay each way, and time until giving up; the columns in ms", "tick"))
    top, y = y + 12, y + 34
    for period, rows in read(sys.stdin).items():
        out.append(text(24, y, f"First period {period:,} ms", "head"))
        y += 12
        for row in rows:
            out += draw(row, y, "factory" if (period, row[0]) == (40, 5) else "")
            y += ROW
        y += 22
    y -= 20
    grid = []
    for ms, words in TICKS:
        grid.append(f'<line class="grid" x1="{place(ms):.1f}" y1="{top}" x2="{place(ms):.1f}" y2="{y}"/>')
        out.append(f'<line class="axis" x1="{place(ms):.1f}" y1="{y}" x2="{place(ms):.1f}" y2="{y + 6}"/>')
        out.append(text(place(ms), y + 21, words, "tick", "middle"))
    out.append(f'<line class="axis" x1="{LEFT}" y1="{y}" x2="{RIGHT}" y2="{y}"/>')
    y += 52
    for colour, words in LEGEND:
        out.append(f'<rect x="{LEFT}" y="{y - 12}" width="26" height="15" fill="{colour}"/>')
        out.append(text(LEFT + 38, y, words))
        y += 24
    out.append(text(LEFT, y + 4, "No frame is lost, both ends are set the same. In bold: the factory's settings.", "tick"))
    size = (1290, y + 26)
    print(f'<svg xmlns="http://www.w3.org/2000/svg" viewBox="0 0 {size[0]} {size[1]}" width="{size[0]}" height="{size[1]}">')
    print("<title>Up to which delay two printers link, for each first period and Sync limit</title>")
    print(f"<style>{STYLE}</style>")
    print(f'<rect width="{size[0]}" height="{size[1]}" fill="#ffffff"/>')
    print("\n".join(grid + out))
    print("</svg>")


main()

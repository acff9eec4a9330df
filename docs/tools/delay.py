#!/usr/bin/env python3
"""Draws docs/delay.svg: what becomes of a handshake against delay, from the table that the program of conformance prints.

    cd conformance && cargo run --release --offline -- delay sweep | ../docs/tools/delay.py > ../docs/delay.svg
"""

import sys
from html import escape
from math import log

# The rows: heading, then the name of each series and the words beside its bar.
BLOCKS = [
    ("Every frame takes so long, each way (delay)", "delay", [
        ("one starts", "one starts"),
        ("both start", "both start at once"),
        ("one starts, the other asks for a token", "one starts, a token is asked for"),
        ("one starts, the other asks for a token, hosts filter 76s", "the same, the hosts filter 76s"),
        ("one starts, other password", "one starts, passwords differ"),
    ]),
    ("The chip takes so long for a frame, the air nothing (chip time)", "chip time", [
        ("one starts", "one starts"),
        ("both start", "both start at once"),
    ]),
    ("A mesh peer (a model: a fresh commit at each Commit, period 1,000 ms) takes so long for a frame (answer time)", "answer time", [
        ("ours starts, a mesh peer answers", "ours starts"),
        ("a mesh peer starts, ours answers", "the mesh peer starts"),
    ]),
]

# The outcomes: colour, and what each says.
OUTCOMES = {
    "both linked": ("#bfe3cc", "event 1 at both ends, the same pair, and it stays"),
    "one end linked": ("#f7df9c", "one end holds a link, the other has none: event 3 there, or a run given up"),
    "linked, then not": ("#f3b8aa", "event 1 at an end or both, then event 3; neither holds a link"),
    "given up": ("#d3dae2", "event 2 and no link at any time"),
    "never at rest": ("#d8c6ea", "runs are given up and begun anew from late frames; not at rest after 120 s"),
}

LEFT, RIGHT, FIRST = 250, 1150, 10
BAR, ROW = 30, 56
TICKS = [10, 20, 40, 100, 200, 400, 1000, 2000, 3000]

STYLE = """
text { font-family: Helvetica, Arial, 'DejaVu Sans', sans-serif; fill: #1c2430; font-size: 13px; }
.head { font-size: 14px; font-weight: bold; }
.bar { stroke: #ffffff; stroke-width: 1; }
.limit { font-weight: bold; }
.tick { font-size: 12px; fill: #44546a; }
.axis { stroke: #9aa7b5; stroke-width: 1; }
"""


def read(lines):
    """The table's rows by series: from, to and outcome, neighbours with one outcome joined."""
    series = {}
    for line in lines:
        cells = [cell.strip() for cell in line.strip().strip("|").split("|")]
        if len(cells) < 5 or not cells[2].isdigit():
            continue
        name, over, begin, end, outcome = cells[:5]
        rows = series.setdefault((name, over), [])
        if rows and rows[-1][2] == outcome:
            rows[-1] = (rows[-1][0], int(end), outcome)
        else:
            rows.append((int(begin), int(end), outcome))
    return series


def text(x, y, words, kind="", anchor="start"):
    return f'<text class="{kind}" x="{x:.0f}" y="{y:.0f}" text-anchor="{anchor}">{escape(words)}</text>'


def place(ms, most):
    """Where a number of milliseconds stands: by its logarithm, from 10 on."""
    return LEFT + (RIGHT - LEFT) * log(max(ms, FIRST) / FIRST) / log(most / FIRST)


def bar(rows, y, most):
    out, free = [], 0
    for at, (begin, end, outcome) in enumerate(rows):
        x, right = place(begin - 0.5 if begin else 0, most), place(end + 0.5 if end < most else most, most)
        out.append(f'<rect class="bar" x="{x:.1f}" y="{y}" width="{right - x:.1f}" height="{BAR}" fill="{OUTCOMES[outcome][0]}"/>')
        if right - x > 7 * len(outcome):
            out.append(text((x + right) / 2, y + 20, outcome, "", "middle"))
        if end < most and right > free:
            out.append(text(right, y - 4, f"{end:,}", "limit" if outcome == "both linked" else "tick", "middle"))
            free = right + 40
    return out


def main():
    series = read(sys.stdin)
    most = max(end for rows in series.values() for _, end, _ in rows)
    out, y = [], 44
    for heading, over, rows in BLOCKS:
        out.append(text(24, y, heading, "head"))
        y += 26
        for name, words in rows:
            out.append(text(LEFT - 14, y + 20, words, "", "end"))
            out += bar(series[name, over], y, most)
            y += ROW
        y += 14
    y -= 22
    out.append(f'<line class="axis" x1="{LEFT}" y1="{y}" x2="{RIGHT}" y2="{y}"/>')
    for tick in TICKS:
        if tick <= most:
            x = place(tick, most)
            out.append(f'<line class="axis" x1="{x:.1f}" y1="{y}" x2="{x:.1f}" y2="{y + 6}"/>')
            out.append(text(x, y + 21, f"{tick:,}", "tick", "middle"))
    out.append(text(LEFT - 22, y + 21, "milliseconds", "tick", "end"))
    y += 56
    for outcome, (colour, words) in OUTCOMES.items():
        out.append(f'<rect x="{LEFT}" y="{y - 13}" width="26" height="17" fill="{colour}"/>')
        out.append(text(LEFT + 38, y, f"{outcome}: {words}", ""))
        y += 24
    out.append(text(LEFT, y + 6, "No frame is lost. A number is the last millisecond of the part before it; below 10 ms all is as at 10.", "tick"))
    size = (1190, y + 28)
    print(f'<svg xmlns="http://www.w3.org/2000/svg" viewBox="0 0 {size[0]} {size[1]}" width="{size[0]}" height="{size[1]}">')
    print("<title>What becomes of a handshake against delay</title>")
    print(f"<style>{STYLE}</style>")
    print(f'<rect width="{size[0]}" height="{size[1]}" fill="#ffffff"/>')
    print("\n".join(out))
    print("</svg>")


main()

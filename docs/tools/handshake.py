#!/usr/bin/env python3
"""Draws docs/handshake.svg: a handshake in which one Confirm is lost.

    docs/tools/handshake.py > docs/handshake.svg
"""

from html import escape

A, B = 340, 860

# Where a time in milliseconds stands: evenly enough to be read, not to scale.
ROWS = {0: 110, 8: 170, 15: 232, 18: 310, 48: 410, 56: 472, 64: 534}
BOTTOM = 585

# Frames: sender, height at which it leaves and arrives, words, place of the words between A (0) and B (1) and above or below.
FRAMES = [
    ("A", 110, 170, "Commit, group 19", 0.5, -10),
    ("B", 170, 232, "Commit, group 19", 0.5, -10),
    ("B", 194, 310, "Confirm, counter 1", 0.66, -16),
    ("B", 410, 472, "Confirm, counter 2", 0.5, -10),
    ("A", 472, 534, "Confirm, counter 65,535", 0.5, -13),
]
LOST = ("A", 232, 286, 0.42, "Confirm, counter 1, is lost")

NOTES = [
    ("A", 0, ["sae_initiate", "Committed, t0 at 40 ms"]),
    ("B", 8, ["sae_receive: a pair is formed", "Confirmed, Sc 1, t0 at 48 ms"]),
    ("A", 15, ["sae_receive: the pair is formed", "Confirmed, Sc 1, t0 at 55 ms"]),
    ("A", 18, ["sae_receive: event 1, accepted", "finished link, Rc 1, Sync 0"]),
    ("B", 48, ["sae_expire: t0 is due", "Sync 1, Sc 2, t0 at 128 ms"]),
    ("A", 56, ["sae_receive: counter above Rc", "Rc 2, Sync 1"]),
    ("B", 64, ["sae_receive: event 1, accepted", "finished link, Rc 65,535, Sync 1"]),
]
LINKS = [(A, 18), (B, 64)]

STYLE = """
text { font-family: Helvetica, Arial, 'DejaVu Sans', sans-serif; fill: #1c2430; font-size: 13px; }
.name { font-size: 17px; font-weight: bold; }
.box { fill: #e9f0f7; stroke: #2f5d8a; stroke-width: 1.6; }
.life { stroke: #9aa7b5; stroke-width: 1.4; }
.frame { stroke: #2f5d8a; stroke-width: 1.7; marker-end: url(#head); }
.lost { stroke: #b03a2e; stroke-width: 1.7; }
.lostword { fill: #b03a2e; font-weight: bold; }
.call { font-weight: bold; }
.time { fill: #44546a; font-size: 12px; }
.link { stroke: #2e7d4f; stroke-width: 7; stroke-linecap: round; }
.end { font-size: 14px; }
"""


def text(x, y, words, kind="", anchor="start"):
    return f'<text class="{kind}" x="{x:.0f}" y="{y:.0f}" text-anchor="{anchor}">{escape(words)}</text>'


def frame(sender, leaves, arrives, words, place, above):
    left, right = (leaves, arrives) if sender == "A" else (arrives, leaves)
    start, end = (A, B) if sender == "A" else (B, A)
    x, y = A + (B - A) * place, left + (right - left) * place
    return [f'<path class="frame" d="M {start} {leaves} L {end} {arrives}"/>', text(x, y + above, words, "", "middle")]


def lost(_, leaves, ends, place, words):
    x = A + (B - A) * place
    return [f'<path class="lost" stroke-dasharray="6 4" d="M {A} {leaves} L {x:.0f} {ends}"/>',
            f'<path class="lost" d="M {x - 7:.0f} {ends - 7} l 14 14 m 0 -14 l -14 14"/>',
            text(x + 16, ends + 18, words, "lostword")]


def note(printer, ms, lines):
    x, anchor, at = (A - 18, "end", A) if printer == "A" else (B + 18, "start", B)
    words = [text(x, ROWS[ms] + 17 * row + 2, line, "" if row else "call", anchor) for row, line in enumerate(lines)]
    return [f'<circle cx="{at}" cy="{ROWS[ms]}" r="4" fill="#2f5d8a"/>'] + words


def main():
    out = []
    for x, name in ((A, "Printer A"), (B, "Printer B")):
        out.append(f'<line class="life" x1="{x}" y1="70" x2="{x}" y2="{BOTTOM}"/>')
        out.append(f'<rect class="box" x="{x - 75}" y="24" width="150" height="44" rx="8"/>')
        out.append(text(x, 52, name, "name", "middle"))
    out += [f'<line class="link" x1="{x}" y1="{ROWS[ms]}" x2="{x}" y2="{BOTTOM}"/>' for x, ms in LINKS]
    out += lost(*LOST)
    for each in FRAMES:
        out += frame(*each)
    for each in NOTES:
        out += note(*each)
    out += [text(20, y + 4, f"{ms} ms", "time") for ms, y in ROWS.items()]
    middle = (A + B) / 2
    out.append(text(middle, BOTTOM + 36, "Both hold the same pair. A finished link (thick line) answers a late Confirm with counter 65,535:", "end", "middle"))
    out.append(text(middle, BOTTOM + 57, "the loss of A's Confirm does not leave B without the link.", "end", "middle"))
    size = (1190, BOTTOM + 80)
    print(f'<svg xmlns="http://www.w3.org/2000/svg" viewBox="0 0 {size[0]} {size[1]}" width="{size[0]}" height="{size[1]}">')
    print("<title>A handshake in which one Confirm is lost</title>")
    print(f"<style>{STYLE}</style>")
    print('<defs><marker id="head" viewBox="0 0 10 10" refX="9" refY="5" markerWidth="8" markerHeight="8" orient="auto">'
          '<path d="M 0 1 L 10 5 L 0 9 z" fill="#2f5d8a"/></marker></defs>')
    print(f'<rect width="{size[0]}" height="{size[1]}" fill="#ffffff"/>')
    print("\n".join(out))
    print("</svg>")


main()

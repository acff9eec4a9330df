#!/usr/bin/env python3
"""Draws docs/state-machine.svg from the text below.

    docs/tools/state_machine.py > docs/state-machine.svg

It is a drawing, made by hand after the rules. The rules themselves stand in crates/rules/specs/Book.antt, and nothing holds this text to them:
who changes a rung or an act there looks here too.
"""

from html import escape
from textwrap import wrap

# What the picture says of itself.
NOTE = "A drawing. The rules stand in crates/rules/specs/Book.antt; where the two differ, the book holds."

# The rules in short, by what a record holds, in the book's order. An arrow names the state that follows.
RULES = {
    "No run: a Commit": [
        "status nonzero: drop",
        "group not listed: send 77 with it",
        "a finished link with that group and scalar: drop",
        "Open at or above the threshold: no token, send 76; wrong token, drop",
        "equal to our fresh commit, or verdict 0: drop",
        "no record and no free slot: refusal 9",
        "else fresh commit, form, send Commit and Confirm 1 → Confirmed",
    ],
    "Committed": [
        "76 for our group: store the token, repeat the Commit",
        "77 for our group: next group not rejected, fresh commit, send Commit, set t0; none left, give up",
        "Commit, group not listed: repeat, sending 77",
        "Commit, another listed group: own address higher, repeat the Commit; lower: verdict 0 or our fresh commit, drop; "
        "else fresh commit, form, send Commit and Confirm 1 → Confirmed",
        "Commit, our group: our own commit or verdict 0, drop; else form, send Confirm 1 → Confirmed",
        "Confirm of status 0, or t0: repeat the Commit",
        "anything else: drop",
    ],
    "Confirmed": [
        "Commit of status 0: Sync above the limit, give up; another group, drop; else Sync + 1, Sc + 1, send Commit and Confirm, set t0",
        "Confirm of status 0: verdict 0, drop; else event 1 → finished link, Sync carried over, Rc its counter, mark 0",
        "t0: repeat, with Sc + 1 and a new Confirm",
        "anything else: drop",
    ],
    "Link, no run: a Confirm": [
        "status nonzero: drop",
        "its Sync above the limit: the link ends, event 3",
        "counter not above Rc, or verdict 0: drop",
        "else Rc is the counter, and unless that is 65,535: Sync + 1, send Confirm 65,535",
        "t1 (24 hours after event 1), beside a run too: the link ends, event 3",
        "a Confirm with neither run nor link: drop",
    ],
    "Acts": [
        "repeat: Sync above the limit, give up; else Sync + 1, send, set t0",
        "give up: the run ends, event 2",
        "drop: send nothing, change nothing",
        "form: the frame's group, its commit stored, Sync 0, Sc 1, set t0; a link beside it gets its mark",
        "set t0: now + period × 2^Sync (from the factory: period 40 ms, limit 5)",
        "kill, set up: run and link end",
    ],
}

# The states: centre of the box, name, a line below it.
STATES = {
    "none": (150, 250, "No run", ""),
    "committed": (560, 105, "Committed", "own commit"),
    "confirmed": (560, 395, "Confirmed", "pair, Sync, Sc"),
    "link": (1000, 395, "Finished link", "pair, Sync, Rc, mark"),
}
WIDTH, HEIGHT = 170, 62

# The transitions: path, then the label's lines with their place and anchor.
EDGES = [
    ("M 222 219 L 474 118", (352, 182, "start", ["start:", "send Commit"])),
    ("M 222 281 L 474 382", (352, 311, "start", ["a valid Commit: form,", "send Commit, Confirm 1"])),
    ("M 500 74 C 440 20, 150 20, 140 217", (150, 45, "end", ["Sync above", "the limit, or", "no group left:", "event 2"])),
    ("M 500 426 C 440 480, 150 480, 140 283", (150, 440, "end", ["Sync above", "the limit:", "event 2"])),
    ("M 560 136 L 560 362", (572, 238, "start", ["a valid Commit: form,", "send Confirm 1; after a change", "of group Commit, Confirm 1"])),
    ("M 646 92 C 710 62, 710 148, 646 118", (698, 86, "start", ["t0, a Confirm: Commit again", "76: Commit with the token", "77: Commit in the next group"])),
    ("M 534 427 C 504 487, 616 487, 586 427", (628, 458, "start", ["t0: Confirm, Sc + 1", "a Commit: Commit and Confirm, Sc + 1"])),
    ("M 646 395 L 912 395", (656, 384, "start", ["the right Confirm: event 1,"])),
    ("M 974 363 C 944 303, 1056 303, 1026 363", (922, 284, "start", ["the right Confirm, counter above Rc:", "Confirm 65,535"])),
    ("M 1086 395 L 1186 395", (1094, 380, "start", ["t1, or a Confirm"])),
]

STYLE = """
text { font-family: Helvetica, Arial, 'DejaVu Sans', sans-serif; fill: #1c2430; }
.state { fill: #e9f0f7; stroke: #2f5d8a; stroke-width: 1.6; }
.name { font-size: 17px; font-weight: bold; text-anchor: middle; }
.small { font-size: 12px; text-anchor: middle; fill: #44546a; }
.label { font-size: 13px; }
.edge { fill: none; stroke: #2f5d8a; stroke-width: 1.6; marker-end: url(#head); }
.area { fill: none; stroke: #9aa7b5; stroke-dasharray: 5 4; }
.head { font-size: 14px; font-weight: bold; }
.rule { font-size: 12px; }
.note { font-size: 13px; fill: #44546a; }
"""


def text(x, y, line, kind, anchor=None):
    place = f' text-anchor="{anchor}"' if anchor else ""
    return f'<text class="{kind}" x="{x}" y="{y}"{place}>{escape(line)}</text>'


def diagram():
    out = ['<rect class="area" x="20" y="14" width="880" height="494" rx="8"/>',
           '<rect class="area" x="908" y="250" width="332" height="258" rx="8"/>',
           text(30, 500, "the run with a peer", "label"),
           text(918, 500, "the link with it, alone or beside a run", "label")]
    for path, (x, y, anchor, lines) in EDGES:
        out.append(f'<path class="edge" d="{path}"/>')
        out += [text(x, y + 17 * at, line, "label", anchor) for at, line in enumerate(lines) if line]
    out.append(text(656, 412, "the run is over", "label", "start"))
    out.append(text(1094, 414, "at Sync above", "label", "start"))
    out.append(text(1094, 431, "the limit: event 3", "label", "start"))
    out.append('<circle cx="1196" cy="395" r="6" fill="#2f5d8a"/>')
    for x, y, name, below in STATES.values():
        out.append(f'<rect class="state" x="{x - WIDTH / 2}" y="{y - HEIGHT / 2}" width="{WIDTH}" height="{HEIGHT}" rx="9"/>')
        out.append(text(x, y + (6 if not below else 0), name, "name"))
        out.append(text(x, y + 19, below, "small"))
    return out


def column(titles, x, y, chars):
    """The rules under their titles, from y on; answers where the column ends."""
    out = []
    for title in titles:
        out.append(text(x, y, title, "head"))
        y += 20
        for rule in RULES[title]:
            for at, line in enumerate(wrap(rule, chars)):
                out.append(text(x + (0 if at == 0 else 12), y, ("· " if at == 0 else "") + line, "rule"))
                y += 16
            y += 2
        y += 14
    return out, y


def main():
    out, bottom = diagram(), 0
    for titles, x, chars in [(["No run: a Commit", "Acts"], 30, 58), (["Committed"], 440, 58), (["Confirmed", "Link, no run: a Confirm"], 850, 58)]:
        lines, end = column(titles, x, 540, chars)
        out += lines
        bottom = max(bottom, end)
    out.append(text(30, bottom + 4, NOTE, "note"))
    bottom += 20
    print(f'<svg xmlns="http://www.w3.org/2000/svg" viewBox="0 0 1260 {bottom}" width="1260" height="{bottom}">')
    print("<title>The states of a run and of a link, and what moves them</title>")
    print(f"<desc>{escape(NOTE)}</desc>")
    print(f"<style>{STYLE}</style>")
    print('<defs><marker id="head" viewBox="0 0 10 10" refX="9" refY="5" markerWidth="8" markerHeight="8" orient="auto-start-reverse">'
          '<path d="M 0 1 L 10 5 L 0 9 z" fill="#2f5d8a"/></marker></defs>')
    print(f'<rect width="1260" height="{bottom}" fill="#ffffff"/>')
    print("\n".join(out))
    print("</svg>")


main()

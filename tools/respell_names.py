#!/usr/bin/env python3
"""Respells the repository's own names: definitions, fields and lemmas from camel case to snake case (encodeTable becomes encode_table), and the
constructors of a `data` and the fields of a `record` from dashes to underscores (give-up becomes give_up).

usage: python3 tools/respell_names.py [FOLDER]     (the top of a checkout in which port.py has run; the current folder if none is given)

Which words: each word of crates/*/specs and crates/*/proofs that begins with a small letter and has a capital after a small letter or a digit.
Where: in every .antt, .rt and .edit file below crates/, and in README.md, docs/, conformance/ and examples/ pages (*.md). Paths, types, modules,
functions of src/, strings and the names of exported functions have no such words.

A dash that joins names in a lemma's name stays, as in the library (length-drop). Five lemmas and fields would fall together with a definition;
port.py had given them an underscore, and they get the dash back that they had. Six constructors and fields keep their dash for the same reason.
"""

import os
import re
import sys

WORD = re.compile(r"(?<![\w'.-])([a-z][a-z0-9]*(?:[A-Z][A-Za-z0-9]*)+'?)(?![\w-])|(?<=\.)([a-z][a-z0-9]*(?:[A-Z][A-Za-z0-9]*)+'?)(?![\w-])")
# fall together with same_address, in_use, laid_out, own_in and run_ok
DASHED = {"sameAddress": "same-address", "inUse": "in-use", "laidOut": "laid-out", "ownIn": "own-in", "runOk": "run-ok"}
# would fall together with no_slot, no_link, no_run, in_use, newer_accepts and older_accepts
STAY = {"no-slot", "no-link", "no-run", "in-use", "newer-accepts", "older-accepts"}
FIELD = re.compile(r"  (?:pub )?([^\s:({]+) :")


def parts(paths):
    """Returns the constructors and fields with a dash in their name."""
    found = set()
    for path in paths:
        inside = False
        for line in read(path).split("\n"):
            if line.startswith("--") or not line.strip():
                continue
            if not line.startswith(" "):
                inside = re.match(r"(?:pub )?(?:data|record) ", line) is not None
            elif inside:
                m = FIELD.match(line)
                if m and "-" in m.group(1):
                    found.add(m.group(1))
    return found - STAY


def snake(word):
    return re.sub(r"(?<=[a-z0-9])([A-Z])", lambda m: "_" + m.group(1).lower(), word)


def files(root, endings, folders):
    for top in folders:
        start = os.path.join(root, top)
        if os.path.isfile(start):
            yield start
        for folder, dirs, names in os.walk(start):
            dirs[:] = sorted(d for d in dirs if d not in ("out", "target", ".git"))
            for name in sorted(names):
                if name.endswith(endings):
                    yield os.path.join(folder, name)


def read(path):
    with open(path, encoding="utf-8") as f:
        return f.read()


def main(root):
    antt = list(files(root, (".antt",), ("crates",)))
    words = set()
    for path in antt:
        for line in read(path).split("\n"):
            for m in WORD.finditer(line.split("--")[0]):
                words.add(m.group(1) or m.group(2))
    dashed = parts(p for p in antt if os.path.basename(os.path.dirname(p)) in ("specs", "proofs"))
    dash = re.compile(r"(?<![\w'-])(" + "|".join(sorted(map(re.escape, dashed), key=len, reverse=True)) + r")(?![\w'-])") if dashed else None
    count = 0
    for path in antt + list(files(root, (".rt", ".edit"), ("crates",))) + list(files(root, (".md",), ("README.md", "docs", "conformance", "examples"))):
        text = read(path)
        new = text
        if path.endswith(".antt"):
            for word, dashed_name in DASHED.items():
                # not a module's path (proofs.same_address.Tie), which is named after a function; and once, before the definition takes that name
                if word in words:
                    new = re.sub(r"(?<![\w'-])(?<!proofs\.)" + snake(word) + r"(?![\w'-])", dashed_name, new)
        new = WORD.sub(lambda m: snake(m.group(0)) if m.group(0) in words else m.group(0), new)
        if dash and path.endswith((".antt", ".edit")):
            new = dash.sub(lambda m: m.group(0).replace("-", "_"), new)
        if new != text:
            with open(path, "w", encoding="utf-8") as f:
                f.write(new)
            count += 1
    print(f"{len(words)} words, {len(dashed)} names with a dash, {count} files")


if __name__ == "__main__":
    main(sys.argv[1] if len(sys.argv) > 1 else ".")

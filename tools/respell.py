#!/usr/bin/env python3
"""Respells the names that specs/ and proofs/ define: words in snake case, types in camel case.

usage: python3 tools/respell.py            at the top of the repository, once, after the kit's own script

A name is one that a signature in specs/ or proofs/ declares: a definition, a lemma, a field, a constructor, or a part of a proof. Names
from src/, names that the kit makes for goals, and names of the library stay. Pages get the new names where they quote the old ones.
"""

import os
import re

# A name that would be one of the library's or of another definition, or whose words are one word already.
CHOSEN = {
    "bit-and": "bit_and_lem",
    "bit-or": "bit_or_lem",
    "held-at": "held_at_lem",
    "M-degree": "M_degree",
    "M-is": "M_is",
    "M-polynomial": "M_polynomial",
    "Y-polynomial": "Y_polynomial",
    "depthGround": "depth_ground",
    "letterOf": "letter_of",
    "bitTop": "bit_top",
    "byteBits": "byte_bits",
    "byteTop": "byte_top",
    "heldLen": "held_len",
    "heldTakes": "held_takes",
    "maxCells": "max_cells",
    "maxTop": "max_top",
    "spreadRow": "spread_row",
    "spreadRow-bounded": "spread_row_bounded",
    "spreadRow-length": "spread_row_length",
    "cellAt-inside": "cell_at_inside",
    "cellAt-past": "cell_at_past",
}

MARKS = r"(?:(?:pub|abbrev|unfoldable|opaque|data|record)\s+)"
SIGNATURE = re.compile(rf"^\s*{MARKS}*([^\s(){{}}.,;:=@]+)(?:\s+[({{][^=]*)?\s*:(?:\s|$)(.*)$")
MARKED = re.compile(rf"^\s*{MARKS}+([^\s(){{}}.,;:=@]+)")
TOKEN = re.compile(r"[^\s(){}\[\].,;:=@|\"`∥⌜⌝]+")
NO_NAMES = {"use", "let", "where", "λ", "in", "|", "→", "mod"}


def texts(*endings):
    for folder, dirs, files in os.walk("crates"):
        dirs[:] = sorted(d for d in dirs if d not in ("out", "must-fail", "data"))
        for name in sorted(files):
            if name.endswith(endings):
                yield os.path.join(folder, name)


def declared():
    """The names that signatures declare, but for the answers to goals, whose names are the kit's."""
    names = set()
    for path in texts(".antt"):
        with open(path, encoding="utf-8") as text:
            for line in text:
                if line.lstrip().startswith("--"):
                    continue
                found = SIGNATURE.match(line)
                if found and found[1] not in NO_NAMES:
                    if not re.match(r"\s*(goal|need)\b", found[2]):
                        names.add(found[1])
                elif (found := MARKED.match(line)) and found[1] not in NO_NAMES:
                    names.add(found[1])
    return names


def camel(name):
    return "".join(word[:1].upper() + word[1:] for word in name.split("-"))


def new_name(name):
    if name in CHOSEN:
        return CHOSEN[name]
    if "-" not in name.strip("-"):
        return name
    if name[0].isupper():
        return camel(name)
    # an operator's name, as ++, keeps its own dash
    return re.sub(r"(?<=\w)-(?=\w)|-(?=\+)", "_", name)


def main():
    table = {name: new_name(name) for name in declared()}
    table = {old: new for old, new in table.items() if old != new}
    if len(set(table.values())) != len(table):
        raise SystemExit("two names fall together")

    def turn(text):
        return TOKEN.sub(lambda found: table.get(found[0], found[0]), text)

    for path in texts(".antt", ".rt"):
        with open(path, encoding="utf-8") as file:
            old = file.read()
        new = turn(old)
        if new != old:
            with open(path, "w", encoding="utf-8") as file:
                file.write(new)
    pages = [os.path.join("docs", name) for name in os.listdir("docs") if name.endswith(".md")] + ["README.md"]
    for path in pages:
        with open(path, encoding="utf-8") as file:
            old = file.read()
        new = re.sub(r"`[^`\n]+`", lambda found: turn(found[0]), old)
        if new != old:
            with open(path, "w", encoding="utf-8") as file:
                file.write(new)
    print(f"{len(table)} names respelled")


if __name__ == "__main__":
    main()

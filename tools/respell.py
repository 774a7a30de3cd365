#!/usr/bin/env python3
"""Brings the repository's own definitions and lemmas to the spelling of today's Rattle: words in snake case.

usage: python3 tools/respell.py      once, at the top of the repository, after port.py

A name that begins with a small letter and has a capital inside (stateDigit, choose-thenElse) gets underscores
(state_digit, choose-then_else), in every file of crates/, in README.md and in docs/. A lemma that had the name a
definition gets so (is_one, of isOne) gets `_lem` behind it, as the kit's guide on names has it.
Functions of src/, C names, strings, inputs and outputs are in snake case already and keep their names.
"""

import os
import re

CAMEL = re.compile(r"(?<![A-Za-z0-9_'·#-])[a-z][a-z0-9_'-]*[a-z0-9][A-Z][A-Za-z0-9_'-]*")
HUMP = re.compile(r"([a-z0-9])([A-Z])(?=[a-z0-9_'-]|$)")

# Names of the kit, of C, of JavaScript and of programs that are no definitions of this repository.
KEPT = {"libFuzzer", "libgate"}

# Lemmas whose name a definition takes: the name, and the files (below crates/) that have or cite the lemma.
LEMMAS = {
    "is_one": ["*"],
    "is_subset": ["*"],
    "is_tied": ["*"],
    "all_placed": ["*"],
    "found_number": ["*"],
    "head_bytes": ["laws/specs/Decoded.antt"],
    "head_ok": ["laws/specs/Table.antt"],
    "in_place": ["laws/specs/SmallFiles.antt"],
    "in_window": ["dominance/specs/Windows.antt"],
    "one_more": ["jobfile/specs/Holding.antt"],
    "sized_rows": ["*"],
    "slots_at": ["seats/specs/Filled.antt", "lengths/specs/Steps.antt"],
    "two_at": ["laws/specs/States.antt"],
}


def snake(name):
    return HUMP.sub(lambda m: m.group(1) + "_" + m.group(2).lower(), name)


def lemmas(text, path):
    """The lemmas of LEMMAS under their new names: not a segment of a path, a field of a step or a method."""
    for name, files in LEMMAS.items():
        if "*" in files or path in files:
            text = re.sub(rf"(?<![A-Za-z0-9_'.:·#-]){name}(?![A-Za-z0-9_'-]|\.[a-z])", name + "_lem", text)
            if name in ("is_tied", "slots_at"):
                text = re.sub(rf"(?<=[a-z]\.){name}(?![A-Za-z0-9_'-]|\.)|(?<=F\.){name}(?![A-Za-z0-9_'-])", name + "_lem", text)
    return text


def main():
    for top in ("crates", "docs", "README.md"):
        walk = [(".", [], [top])] if os.path.isfile(top) else os.walk(top)
        for folder, dirs, files in walk:
            dirs[:] = [d for d in dirs if d != "out"]
            for f in files:
                if not f.endswith((".rt", ".antt", ".edit", ".md")):
                    continue
                path = os.path.join(folder, f)
                with open(path, encoding="utf-8") as it:
                    old = it.read()
                new = old
                if f.endswith(".antt"):
                    new = lemmas(new, os.path.relpath(path, "crates"))
                new = CAMEL.sub(lambda m: m.group(0) if m.group(0) in KEPT else snake(m.group(0)), new)
                if new != old:
                    with open(path, "w", encoding="utf-8") as it:
                        it.write(new)


if __name__ == "__main__":
    main()

#!/usr/bin/env python3
"""Gives the definitions' own choice a name of its own: `if◌then◌else◌` of crates/paper becomes `when◌then◌else◌`.

usage: tools/when.py [FOLDER]

The library has an operator of the old name, for which a reader would take it, and the gate refuses another one. The two agree in
what they say; ours stays a definition that proofs unfold by its name. Run after tools/spell.py; a second run changes nothing.
"""

import os
import re
import sys

OLD, NEW = "if◌then◌else◌", "when◌then◌else◌"
# The word where a term begins; `if-x-b` and `c.if-x` are names of steps.
WORD = re.compile(r"(?<![^\s(\[,;{=→])if(?=\s)")


def turned(text):
    lines = []
    for line in text.split("\n"):
        code, dash, comment = re.match(r"((?:(?!--\s).)*?)((?<![^\s])--\s)?(.*)$", line).groups() if "-- " in line else (line, None, "")
        if dash is None and "-- " in line:
            code, comment = line, ""
        lines.append(WORD.sub("when", code.replace(OLD, NEW)) + (dash or "") + comment)
    return "\n".join(lines)


def main(top):
    n = 0
    for at, _, names in sorted(os.walk(os.path.join(top, "crates"))):
        if "/out" in at:
            continue
        for name in sorted(names):
            path = os.path.join(at, name)
            if not name.endswith((".antt", ".rt")):
                continue
            old = open(path, encoding="utf-8").read()
            if name.endswith(".antt"):
                new = turned(old)
            else:
                # Of the code's `if` only one stands in a clause.
                new = old.replace("(if given? (option sup) then", "(when given? (option sup) then").replace(OLD, NEW)
            if new != old:
                open(path, "w", encoding="utf-8").write(new)
                n += 1
    print(f"when: {n} files")


main(os.path.abspath(sys.argv[1] if len(sys.argv) > 1 else "."))

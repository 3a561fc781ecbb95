#!/usr/bin/env python3
"""Spells the repository's own names as today's Rattle spells names: words in snake case, types in camel case.

usage: tools/spell.py [FOLDER] [--list]

Goes through the definitions, the lemmas, the contracts and the must-fail edits below FOLDER (the current one, if none is
given). A word of a proof file or of a definition with a hump, as `fieldNames`, becomes `field_names`, part by part where it
has hyphens or holes, as `byteIs-says` and `◌orNo◌`. A definition that gives a type becomes `CamelCase`. Functions of src/ are
in snake case already, and strings keep what they say. --list prints the names and changes nothing.
"""

import os
import re
import sys

# Definitions that give a type, by the old name.
TYPES = """countedBy entriesSay fieldsSay fileBy foundBelow frontedBy isLink isV64 judgedHead kindsStand leftEnd leftEnds leftTop
openAfter openBefore saysString soundAfter steadyAfter stepTo strungBy toldAbove toldFile toldHead toldKind
toldName toldNew toldPlace toldStart toldSuper toldTop toldUp wentTo""".split()
# The same of names without a hump, which mean something else elsewhere: the modules that the name comes from.
SCOPED = {
    "maybeGathered": ("GatheredBy", "lookups", "Gather"),
    "same": ("SameLine", "laws", "Lines"),
    "stands": ("StandsBy", "listing", "Prints"),
    "types_at": ("TypesAt", "listing", "Maps"),
}
# Lemmas that a definition would meet, as `endsOf` the lemma `ends_of`: they get their hyphen back.
LEMMAS = "after_check ends_of put_front range_cells too_long".split()
MET = re.compile(rf"(?<![^\s(){{}},])(?:{'|'.join(LEMMAS)})(?![^\s(){{}},;])")
# A word that stands in a comment of the code is turned only if a definition is called so.
WORD = re.compile(r"[^\s(){}\[\].,;:@\"«»◌`]+")
HUMP = re.compile(r"(?<=[a-z0-9?])[A-Z]")


def camel(name):
    return name[0].upper() + name[1:]


def snake(name):
    return HUMP.sub(lambda m: "_" + m[0].lower(), name)


def turned(word):
    if word in SCOPED:
        return word
    if not (word[0].islower() and HUMP.search(word)):
        return word
    if word in TYPES:
        return camel(word)
    return "-".join(snake(part) if part[:1].islower() else part for part in word.split("-"))


def files(top):
    for folder in ("crates", "edits"):
        for at, _, names in sorted(os.walk(os.path.join(top, folder))):
            if "/out" in at:
                continue
            for name in sorted(names):
                if name.endswith((".antt", ".rt", ".edit")):
                    yield os.path.join(at, name)


# Strings of the code stay; so does what stands in a string of an edit.
STRING = re.compile(r'"(?:[^"\\\n]|\\.)*"')


def turn_text(text, path):
    # A text in the new spelling keeps its lemmas: a second run changes nothing.
    if path.endswith(".antt") and any(turned(w) != w for w in WORD.findall(STRING.sub(" ", text))):
        text = MET.sub(lambda m: m[0].replace("_", "-"), text)
    parts, last = [], 0
    for m in STRING.finditer(text):
        parts += [WORD.sub(lambda w: turned(w[0]), text[last : m.start()]), m[0]]
        last = m.end()
    text = "".join(parts) + WORD.sub(lambda w: turned(w[0]), text[last:])
    crate, module = (path.split("/crates/")[-1].split("/") + [""])[0], os.path.basename(path)[:-5]
    for old, (new, c, m) in SCOPED.items():
        here = crate == c and module == m and "/specs/" in path
        imported = re.search(rf"Rattle\.{c}\.specs\.{m}\.(?:{re.escape(old)}\b|\{{[^}}]*(?<![\w-]){re.escape(old)}(?![\w-])[^}}]*\}})", text)
        if here or imported:
            text = re.sub(rf"(?<![^\s(){{}}\[\].,;:]){re.escape(old)}(?![^\s(){{}}\[\].,;:])", new, text)
    return text


def main(args):
    listing = "--list" in args
    tops = [a for a in args if not a.startswith("--")] or ["."]
    for top in tops:
        seen, clashes, n = {}, set(), 0
        for path in files(os.path.abspath(top)):
            text = open(path, encoding="utf-8").read()
            words = set(WORD.findall(STRING.sub(" ", text)))
            for w in words:
                t = turned(w)
                if t != w:
                    seen.setdefault(t, set()).add(w)
                    if t in words:
                        clashes.add((w, t, path))
            new = turn_text(text, path)
            if new != text and not listing:
                open(path, "w", encoding="utf-8").write(new)
                n += 1
        for t, olds in sorted(seen.items()):
            if listing:
                print(" ".join(sorted(olds)), "->", t)
            if len(olds) > 1:
                print("fall together:", sorted(olds), t)
        for c in sorted(clashes):
            print("meets another:", *c)
        print(f"spell: {len(seen)} names, {n} files")


main(sys.argv[1:])

#!/usr/bin/env python3
"""Counts the places where the code has one of seven older forms, and prints each.

    tools/forms.py [POINT]      in the work tree
    git worktree add DIR COMMIT; (cd DIR && TREE/tools/forms.py)      at a commit

It goes by text: what it prints is where to look, and a reader says what each place is.
"""
import glob, re, sys
from collections import defaultdict

files = sorted(glob.glob("crates/*/src/**/*.rt", recursive=True))
text = {f: open(f).read() for f in files}


def line(f, at):
    return f"{f[7:]}:{text[f].count(chr(10), 0, at) + 1}"


def bare(s):
    return re.sub(r"//[^\n]*", "", s)


def close(s, at):
    """Where the bracket that stands at `at` is closed."""
    depth = 0
    for i in range(at, len(s)):
        if s[i] in "([{":
            depth += 1
        elif s[i] in ")]}":
            depth -= 1
            if depth == 0:
                return i
    return len(s)


def functions():
    """Each function: its file, place, name, what stands in its brackets, its clauses and its body."""
    for f in files:
        s = text[f]
        for m in re.finditer(r"^( *)(?:pub(?:\(crate\))? )?(?:const )?(?:extern \"C\" )?fn (\w+)(?:<[^(]*>)?\(", s, re.M):
            shut = close(s, m.end() - 1)
            body = re.compile(r"^" + m.group(1) + r"\{$", re.M).search(s, shut)
            if not body:
                body = re.compile(r"\{").search(s, shut)
            end = close(s, body.end() - 1)
            yield f, m.start(), m.group(2), s[m.end() : shut], s[shut + 1 : body.start()], s[body.start() : end + 1]


def point1():
    """Enums of the shape of Option or Result; numbers that stand for refusals."""
    for f in files:
        for m in re.finditer(r"enum (\w+) \{(.*?)\n\}", text[f], re.S):
            variants = [v.strip() for v in re.findall(r"^    (\w+(?:\([^)]*\))?),", bare(m.group(2)), re.M)]
            if len(variants) == 2 and any("(" in v for v in variants):
                yield line(f, m.start()), "enum " + m.group(1) + " { " + ", ".join(variants) + " }"
        for m in re.finditer(r"(?:number: |refuse\(|Refused\()[1-9]\d*\b[^\n]*", text[f]):
            yield line(f, m.start()), m.group(0)


def shape(s):
    """A body with what a constant or a type may change left out."""
    s = bare(s)
    s = re.sub(r"\b(u8|u16|u32|u64|usize|i8|i16|i32|i64)\b", "T", s)
    s = re.sub(r"\b\d[\d_A-Fa-fx]*\b", "N", s)
    s = re.sub(r"(?<=[a-z_])\d+\b", "N", s)
    return re.sub(r"\s+", " ", s)


def point2():
    """Functions whose signature and body differ only in a type or a number."""
    groups = defaultdict(list)
    for f, at, name, params, clauses, body in functions():
        crate = f.split("/")[1]
        kinds = re.sub(r"\w+: ", "", shape(params))
        result = shape(re.split(r"requires|ensures", clauses)[0])
        groups[(crate, kinds, result, shape(body))].append((line(f, at), name))
    for (crate, kinds, result, body), g in sorted(groups.items()):
        if len(g) > 1:
            for where, name in g:
                yield where, name + "  (" + ", ".join(n for _, n in g) + ")"


def point3():
    """Loops that count an index by hand: a variable that the loop asks for goes up or down by a fixed step."""
    for f in files:
        for m in re.finditer(r"^( *)(while [^\n]*|loop )\{\n(.*?)^\1\}", text[f], re.S | re.M):
            head, body = m.group(2), bare(m.group(3))
            for v in re.findall(r"\b([a-z_]\w*)\b", head):
                if re.search(r"\b" + v + r" (?:\+|-)= (?:\d+|step|size);", body):
                    yield line(f, m.start()), head.strip()
                    break


def point4():
    """Equality, order, copying, conversion and printing by hand: small functions that only make one value of another."""
    words = r"(?:^is_same|^same|^equal|_eq$|^compare|^copy|^store$|^clear|^to_|^from_|_from$|_bits$|^bits_of|^as_|^wide$|^narrow|^byte_for|^put_refused|^up_to_top|^low_|^glyph)"
    for f, at, name, params, clauses, body in functions():
        if re.search(words, name) and body.count("\n") <= 14:
            yield line(f, at), name
    for f in files:
        for m in re.finditer(r"impl (PartialEq|Eq|PartialOrd|Ord|Clone|Copy|Debug)\b[^\n]*", text[f]):
            yield line(f, m.start()), m.group(0)


def point5():
    """Facts in the contracts of three functions or more, and parameters that three functions or more take together."""
    facts = defaultdict(list)
    for f, at, name, params, clauses, body in functions():
        for m in re.finditer(r"requires(?: \w+)? \{ (.*?) \}\n", clauses):
            for fact in re.split(r" × ", m.group(1).strip("()")):
                facts[re.sub(r"\.(now|old)\b", "", fact)].append((line(f, at), name))
    for fact, places in sorted(facts.items(), key=lambda x: -len(x[1])):
        if len(places) >= 3:
            yield f"{len(places)} functions", "requires " + fact
    together = defaultdict(list)
    for f, at, name, params, clauses, body in functions():
        ps = [re.sub(r"\s+", " ", p).strip() for p in re.split(r",(?![^\[<(]*[\]>)])", params)]
        ps = [p for p in ps if p and p not in ("self", "&self", "&mut self")]
        for i in range(len(ps) - 2):
            together[tuple(ps[i : i + 3])].append(name)
    for ps, names in sorted(together.items(), key=lambda x: -len(x[1])):
        if len(names) >= 3:
            yield f"{len(names)} functions", "take " + ", ".join(ps)


def point6():
    """Arrays of one type side by side in a signature, and a length beside a buffer."""
    for f, at, name, params, clauses, body in functions():
        slices = re.findall(r"(\w+): &(?:mut )?\[(\w+)\]", params)
        kinds = defaultdict(list)
        for v, k in slices:
            kinds[k].append(v)
        for k, vs in kinds.items():
            if k != "u8" and len(vs) > 1:
                yield line(f, at), f"{name}: {', '.join(vs)} of {k}"


def point7():
    """A match, of three arms or more, each of which only calls a function: which step to run."""
    for f, at, name, params, clauses, body in functions():
        for m in re.finditer(r"match [^\n]*\{\n", body):
            end = close(body, m.end() - 2)
            arms = re.findall(r"=> (\w[\w:.]*)\(", body[m.end() : end])
            arms = [a for a in arms if not re.search(r"(?:^|::)(?:Ok|Err|Some|Got|No|At|Done|Refused|Whole|Flag|Float|Object)$", a)]
            if len(arms) >= 3:
                yield line(f, at), name + ": " + ", ".join(arms)


points = [point1, point2, point3, point4, point5, point6, point7]
asked = sys.argv[1:]
for i, p in enumerate(points, 1):
    if asked and str(i) not in asked:
        continue
    found = list(p())
    print(f"{i}. {p.__doc__.splitlines()[0]} {len(found)}")
    if asked:
        for where, what in found:
            print(f"   {where}  {what}")

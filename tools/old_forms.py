#!/usr/bin/env python3
"""Lists the places in src/ that have an older form, point by point.

    tools/old_forms.py [FOLDER]      FOLDER/crates, or crates/ here
    tools/old_forms.py --count       the numbers alone

A place is a line of a .rt file. What a pattern finds is a place to look at: the line
`// Stays:` or `// A rule of the project:` beside it says why one is left as it is.
"""
import collections
import pathlib
import re
import sys

args = [a for a in sys.argv[1:] if not a.startswith("--")]
ROOT = pathlib.Path(args[0] if args else ".") / "crates"
FILES = sorted(ROOT.glob("*/src/**/*.rt"))
TEXT = {f: f.read_text() for f in FILES}
found = collections.defaultdict(list)


def note(point, kind, f, at, what):
    line = TEXT[f].count("\n", 0, at) + 1
    found[point, kind].append(f"{f.relative_to(ROOT)}:{line}  {' '.join(what.split())[:110]}")


def each(point, kind, pattern, flags=re.M):
    for f, text in TEXT.items():
        for m in re.finditer(pattern, text, flags):
            note(point, kind, f, m.start(), m.group(0))


def functions():
    """Each function: file, place, name, its parameters, its clauses, its body."""
    head = re.compile(r"\bfn (\w+)(?:<[^{}]*?>)?\(")
    for f, text in TEXT.items():
        for m in head.finditer(text):
            depth, i = 1, m.end()
            while depth:
                depth += {"(": 1, ")": -1}.get(text[i], 0)
                i += 1
            end = re.compile(r"\n\s*\{\n|\{\n|;\n").search(text, i - 1)
            if not end or end.group(0).startswith(";"):
                continue
            params = text[m.end() : i - 1]
            open_at = text.rindex("{", 0, end.end())
            depth, j = 1, open_at + 1
            while depth:
                depth += {"{": 1, "}": -1}.get(text[j], 0)
                j += 1
            yield f, m.start(), m.group(1), params, text[i:open_at], text[open_at:j]


# 1: flags, enums of the shape of Option or Result, what is passed on by hand, numbers for kinds
each(1, "a flag beside a value", r"^    (?:pub(?:\(crate\))? )?\w+: bool,$")
each(1, "an enum with its own none or failure", r"^pub enum \w+ \{[^}]*?\b(?:None|Nothing|NoMemory|Refused)\b[^}]*\}", re.M)
each(1, "a none passed on by hand", r"let (?:Some|Ok)\(.*\) = [^;{]* else \{\s*return None;|None => None,|Err\(_\) => None,")
each(1, "an error passed on by hand", r"Err\((refusal|error)\) => (?:Err\(\1\)|Ok\(Reply::Refused\(\1\)\))|if let Err\(refusal\) = |Err\(\w+\) => Err\(AllocError\)|Err\((?:_|\(refusal, _\))\) => (?:Err|None)")
each(1, "a number in place of nothing", r"^\{\n    0\n\}")
each(1, "0 for none", r"//.*\b(?:0 for (?:none|an answer)|0 where there is none|0 and 0 where).*|due == 0")

# 2: functions of one shape: types, numbers and names apart
shapes = collections.defaultdict(list)
KEEP = {"fn", "for", "in", "if", "else", "let", "mut", "match", "return", "self", "as", "Ok", "Err", "Some", "None", "iter", "rev"}
for f, at, name, params, clauses, body in functions():
    if "_trials" in str(f) or len(body.split()) < 5:
        continue
    tokens = re.findall(r"\w+|[^\w\s]", re.sub(r"//.*", "", body))
    names = {}
    shape = [t if t in KEEP or not re.match(r"\w", t) else "N" if t[0].isdigit() else names.setdefault(t, f"v{len(names)}") for t in tokens]
    shapes[" ".join(shape)].append((f, at, name, body))
for group in shapes.values():
    if len(group) > 1:
        for f, at, name, body in group:
            note(2, "of one shape", f, at, f"{name}, of {len(group)}: {body}")
each(2, "the greater of two by hand", r"^    a\.max\(b\)$")
each(2, "one enum twice", r"^pub enum No\w+ \{")

# 3: loops over numbers
each(3, "a loop over numbers", r"\bfor \w+ in [^{\n]*\.\.[^{\n]*\{|\bwhile\b.*\{")

# 4: conversion and printing by hand, derives that are missing
each(4, "a cast", r"\bas (?:u8|u16|u32|u64|usize)\b")
each(4, "a number for each variant", r"^\s+\w+::\w+ => \d+,")
each(4, "printing by hand", r"^(?:pub )?fn \w+\(out: &mut String.*")
each(4, "a type without Debug", r"#\[derive\((?!.*Debug)[^)]*\)\]\n(?:pub )?(?:struct|enum) \w+")

# 5: parameters that travel together through three functions or more, and facts that three require
def split(params):
    """The parameters, parted at the commas outside brackets; the receiver left out."""
    depth, part, parts = 0, "", []
    for c in params:
        depth += {"(": 1, "[": 1, "<": 1, ")": -1, "]": -1, ">": -1}.get(c, 0)
        if c == "," and depth == 0:
            parts.append(part)
            part = ""
        else:
            part += c
    return sorted(" ".join(p.split()) for p in parts + [part] if ":" in p)


pairs = collections.defaultdict(list)
for f, at, name, params, clauses, body in functions():
    ps = split(params)
    for i, a in enumerate(ps):
        for b in ps[i + 1 :]:
            pairs[a, b].append((f, at, name))
for (a, b), here in pairs.items():
    if len(here) >= 3:
        f, at, _ = here[0]
        note(5, "parameters together", f, at, f"{a}, {b}: {', '.join(n for _, _, n in here)}")
facts = collections.defaultdict(list)
for f, at, name, params, clauses, body in functions():
    for fact in re.findall(r"requires (?:\w+ )?\{ (.*) \}", clauses):
        facts[fact].append((f, at, name))
for fact, at_all in facts.items():
    if len(at_all) >= 3:
        f, at, _ = at_all[0]
        note(5, "a fact required thrice", f, at, f"{fact}: {', '.join(n for _, _, n in at_all)}")

# 6: buffers with a length beside, lists walked by one index
each(6, "a buffer with its length beside", r"\w+: \[[^\]]*; \w+\],\n\s+(?:pub )?count: usize,")
each(6, "lists walked by one index", r"(?:roll_at|of_roll)\(i\)")

# 7: a step that is told by a type of its own
each(7, "a step as a type", r"impl.* Visit for \w+")

totals = collections.Counter()
for (point, kind), lines in sorted(found.items()):
    totals[point] += len(lines)
    print(f"{point}  {kind}: {len(lines)}")
    if "--count" not in sys.argv:
        for line in lines:
            print("     ", line)
# 8: proofs
for crate in sorted(p for p in ROOT.iterdir() if (p / "proofs").is_dir()):
    answers = list(crate.glob("proofs/**/Answers.antt"))
    lines = sum(len(f.read_text().splitlines()) for f in crate.glob("proofs/**/*.antt"))
    totals[8] += len(answers)
    print(f"8  {crate.name}: {len(answers)} files of answers, {lines} lines in proofs/")
for word in ("Stays", "A rule of the project"):
    here = [f"{f.relative_to(ROOT)}:{i + 1}  {line.strip()}" for f, text in TEXT.items() for i, line in enumerate(text.splitlines()) if f"// {word}: " in line]
    print(f"lines `// {word}: `: {len(here)}")
    if "--count" not in sys.argv:
        for line in here:
            print("     ", line)
print("in all:", ", ".join(f"point {p}: {n}" for p, n in sorted(totals.items())))

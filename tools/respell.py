#!/usr/bin/env python3
"""Respells the repository's own definitions and lemmas as today's Rattle spells names (CONTRACT_STYLE.md, "Names").

usage: tools/respell.py [--dry]      (from the repository's top, after port.py; --dry only prints the map)

- definitions in camel case get snake case: withOff -> with_off
- a type or a fact with a dash gets upper camel case: Closed-list -> ClosedList
- a dash in a lemma's name stays where each part is a function that is cited (map-cond: map of cond), else it is an underscore,
  as in every definition of specs/
Names that Rattle makes (in Answers.antt and Invariants.antt) and names of src/ are left alone. A new name that another
definition, function or word already has is printed and left: choose one by hand in BY_HAND.
"""
import glob
import os
import re
import sys

BY_HAND = {
    "lossOf": "ends_of_loss", "valueAt": "value_in", "afterPlace": "value_after", "ledTo": "places_led_to", "best-over": "best_over_all",
    "bestOf": "best_from_first", "byDie": "rows_by_die",
    "withOff": "counts_with_off", "dueDie": "die_due", "atMove": "refusal_at_move", "afterLength": "length_after",
    "side-of": "side_of_fits", "one-move": "one_move_text", "So-far": "WeighedSoFar",
    # facts, so spelled as types
    "exact-held": "ExactHeld", "fixed_held": "FixedHeld",
}
STD = set("""length take drop append map filter fold sum sum_by count_by cond replicate reverse slice_index slice_set slice_get
list_any list_all zip flat_map concat max min not and or suc insert remove swap find position""".split())
DEFINED = re.compile(r"^(?:(?:abbrev|unfoldable|opaque|infix[lr]? \d+)\s+)?(?:pub\s+)?(record\s+|data\s+)?([^\s(){}:;,.]+)\s*(?::|\(|\{)")
FIELD = re.compile(r"^\s+(?:pub\s+)?([a-zA-Z][^\s(){}:;,.]*)\s*:")
# in a module with parameters
INDENTED = re.compile(r"^\s+(?:abbrev|unfoldable|opaque|pub)(?: pub)? (record\s+|data\s+)?([^\s(){}:;,.]+)\s*(?::|\(|\{)")
LEMMA = re.compile(r"^  ([a-z][^\s(){}:;,.]*)\s*:")
MADE = ("Answers.antt", "Invariants.antt", "Proof.antt", "Lib.antt")


def own_names():
    names, functions = {}, set()
    for path in sorted(glob.glob("crates/*/specs/**/*.antt", recursive=True) + glob.glob("crates/*/proofs/**/*.antt", recursive=True)):
        if os.path.basename(path) in MADE:
            continue
        in_record = False
        for line in open(path, encoding="utf-8"):
            if line.startswith(("--", "use ", "mod ", "pub mod")):
                continue
            m = INDENTED.match(line) if line[:1].isspace() else DEFINED.match(line)
            if m and (m.group(1) or not (in_record and line[:1].isspace() and m.group(0).lstrip().startswith("pub "))):
                names.setdefault(m.group(2), path)
                functions.add(m.group(2))
                in_record = bool(m.group(1))
            elif line[:1].isspace():
                f = FIELD.match(line) if in_record else LEMMA.match(line)
                if f:
                    names.setdefault(f.group(1), path)
            elif line.strip():
                in_record = False
    return names, functions


def respelled(name, functions, path):
    if name in BY_HAND:
        return BY_HAND[name]
    if not re.fullmatch(r"[A-Za-z][A-Za-z0-9_'\-]*", name):
        return name
    parts = name.split("-")
    if name[0].isupper():
        return parts[0] + "".join(p[:1].upper() + p[1:] for p in parts[1:])
    snake = [re.sub(r"(?<=[a-z0-9])([A-Z])", lambda m: "_" + m.group(1).lower(), p) for p in parts]
    if len(parts) > 1 and "/proofs/" in path and all(p in functions or p in STD for p in parts):
        return "-".join(snake)
    return "_".join(snake)


def main():
    names, functions = own_names()
    taken = set(names)
    for path in glob.glob("crates/*/src/**/*.rt", recursive=True):
        taken |= set(re.findall(r"\bfn ([a-z_0-9]+)", open(path, encoding="utf-8").read()))
    chosen = {}
    for name in names:
        new = respelled(name, functions, names[name])
        if new == name:
            continue
        if new in taken or new in chosen.values():
            print(f"left: {name} -> {new} is taken", file=sys.stderr)
            continue
        chosen[name] = new
    for name, new in chosen.items():
        print(name, "->", new)
    if "--dry" in sys.argv:
        return
    edge = r"(?<![\w'\-]){}(?![\w'\-])"
    word = re.compile(r"(?<![\w'\-])(" + "|".join(sorted(map(re.escape, chosen), key=len, reverse=True)) + r")(?![\w'\-])")
    files = glob.glob("crates/*/specs/**/*.antt", recursive=True) + glob.glob("crates/*/proofs/**/*.antt", recursive=True)
    files += glob.glob("crates/*/src/**/*.rt", recursive=True) + glob.glob("crates/*/must-fail/*.edit") + glob.glob("docs/*.md")
    for path in files:
        text = open(path, encoding="utf-8").read()
        if path.endswith((".rt", ".edit")):
            # in code only ghost uses, clauses and ghost items speak of definitions
            new = "\n".join(word.sub(lambda m: chosen[m.group(1)], l) if clause(l) else l for l in text.split("\n"))
        else:
            new = word.sub(lambda m: chosen[m.group(1)], text)
        if new != text:
            open(path, "w", encoding="utf-8").write(new)


def clause(line):
    return bool(re.search(r"ghost|requires|ensures|≡|→|λ|×|tactic|^\s{8,}[({]|Rattle", line))


main()

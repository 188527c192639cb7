#!/usr/bin/env python3
"""Chances of small endings, reckoned from docs/RULES.md and docs/ENDINGS.md alone and sharing no code with the crates.

usage: tools/reference_endings.py OWN OTHER     (each side six digits, its checkers on points 1 to 6)
prints the exact chance, the length, and the fixed range with its age.
"""
import sys
from fractions import Fraction
from functools import lru_cache

SCALE = 1_000_000_000


def after_move(side, s, d):
    """The side after its checker on s moves by d, or None where that is not legal."""
    if side[s - 1] == 0:
        return None
    if s < d and any(side[s:]):
        return None
    moved = list(side)
    moved[s - 1] -= 1
    if s > d:
        moved[s - d - 1] += 1
    return tuple(moved)


def runs(side, dice):
    yield 0, side
    for d in sorted(set(dice), reverse=True):
        rest = list(dice)
        rest.remove(d)
        for s in range(6, 0, -1):
            moved = after_move(side, s, d)
            if moved is not None:
                for n, end in runs(moved, rest):
                    yield n + 1, end


@lru_cache(maxsize=None)
def ends(side, x, y):
    """The sides to which allowed turns lead. At home some die can always be played, and both unless the side is off."""
    every = list(runs(side, [x] * 4 if x == y else [x, y]))
    most = max(n for n, _ in every)
    return [end for n, end in every if n == most or (n > 0 and not any(end))]


def rolls():
    return [(x, y) for x in range(1, 7) for y in range(1, x + 1)]


@lru_cache(maxsize=None)
def chance(own, other):
    total = Fraction(0)
    for x, y in rolls():
        best = max(Fraction(1) if not any(end) else 1 - chance(other, end) for end in ends(own, x, y))
        total += best * (1 if x == y else 2)
    return total / 36


@lru_cache(maxsize=None)
def length(own, other):
    return 1 + max(0 if not any(end) else length(other, end) for x, y in rolls() for end in ends(own, x, y))


@lru_cache(maxsize=None)
def fixed(own, other):
    lower = upper = age = 0
    for x, y in rolls():
        weight = 1 if x == y else 2
        best = None
        for end in ends(own, x, y):
            if any(end):
                low, up, old = fixed(other, end)
                value = (SCALE - up, SCALE - low, old)
            else:
                value = (SCALE, SCALE, 0)
            best = value if best is None else tuple(map(max, best, value))
        lower += weight * best[0]
        upper += weight * best[1]
        age = max(age, best[2])
    return lower // 36, -(-upper // 36), age + 1


def side_of(text):
    if len(text) != 6 or any(c not in "0123456789" for c in text) or not any(c != "0" for c in text):
        sys.exit(f"reference_endings: {text!r} is no side: expected six digits, not all 0")
    return tuple(int(c) for c in text)


def main():
    if len(sys.argv) != 3:
        sys.exit(__doc__)
    own, other = side_of(sys.argv[1]), side_of(sys.argv[2])
    n = length(own, other)
    exact = chance(own, other) * 36**n
    low, up, age = fixed(own, other)
    print(f"{exact}/36^{n} length {n} fixed {low} {up} {age}")


if __name__ == "__main__":
    main()

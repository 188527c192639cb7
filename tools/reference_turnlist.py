#!/usr/bin/env python3
"""A second turnlist, written from docs/RULES.md alone and sharing no code with the crates.

Reads the same lines and prints the same answers, by trying every sequence of moves.
tools/compare_turnlist holds the proved program to it on boards made at random.
"""
import sys

START = {24: 2, 13: 5, 8: 3, 6: 5}


def legal(me, him, s, d):
    """me and him are dicts from own points to counts; 25 is the bar."""
    if me.get(s, 0) == 0 or not 1 <= s <= 25:
        return False
    if me.get(25, 0) > 0 and s != 25:
        return False
    t = s - d
    if t >= 1:
        return him.get(25 - t, 0) <= 1
    if any(n > 0 and p > 6 for p, n in me.items()):
        return False
    return t == 0 or not any(n > 0 and p > s for p, n in me.items())


def make(me, him, s, d):
    me, him = dict(me), dict(him)
    me[s] -= 1
    t = s - d
    if t >= 1:
        me[t] = me.get(t, 0) + 1
        if him.get(25 - t, 0) == 1:
            him[25 - t] = 0
            him[25] = him.get(25, 0) + 1
    return me, him


def empty(side):
    return not any(side.values())


def runs(me, him, dice):
    """Every run, the one without moves too, with the board after it; larger die first, then higher start."""
    yield [], me, him
    for d in sorted(set(dice), reverse=True):
        rest = list(dice)
        rest.remove(d)
        for s in range(25, 0, -1):
            if legal(me, him, s, d):
                me2, him2 = make(me, him, s, d)
                for moves, a, b in runs(me2, him2, rest):
                    yield [(s, d)] + moves, a, b


def dice_of(x, y):
    return [x] * 4 if x == y else [x, y]


def allowed(me, him, x, y):
    every = list(runs(me, him, dice_of(x, y)))
    most = max(len(moves) for moves, _, _ in every)
    singles = {moves[0][1] for moves, _, _ in every if len(moves) == 1}
    kept = []
    for moves, a, b in every:
        if moves and empty(a):
            kept.append((moves, a, b))
        elif len(moves) == most:
            if most == 1 and x != y and {x, y} <= singles and moves[0][1] != max(x, y):
                continue
            kept.append((moves, a, b))
    kept.sort(key=lambda k: [(-d, -s) for s, d in k[0]])
    return kept, most, every


def check(me, him, x, y, turn):
    """The board after the turn, or layer, number and move of the refusal."""
    if not (1 <= x <= 6 and 1 <= y <= 6):
        return (2, 4, 0)
    left = dice_of(x, y)
    if len(turn) > len(left):
        return (1, 13, 0)
    a, b = me, him
    for n, (s, d) in enumerate(turn, 1):
        if not 1 <= s <= 25 or d not in left:
            return (1, 14, n)
        if not legal(a, b, s, d):
            return (1, 15, n)
        left.remove(d)
        a, b = make(a, b, s, d)
    kept, most, _ = allowed(me, him, x, y)
    if any(moves == turn for moves, _, _ in kept):
        return a, b
    return (1, 16, 0) if len(turn) < most else (1, 17, 0)


def digits(side):
    return "".join("0123456789abcdef"[side.get(p, 0)] for p in range(1, 26))


def side_of(text):
    if len(text) != 25 or any(c not in "0123456789abcdef" for c in text):
        return None
    return {p: int(c, 16) for p, c in enumerate(text, 1)}


def fits(white, black):
    if sum(white.values()) > 15 or sum(black.values()) > 15:
        return False
    return not any(white[p] and black[25 - p] for p in range(1, 25))


class Table:
    def __init__(self):
        self.sides = {"W": dict(START), "B": dict(START)}
        self.due = "W"

    def other(self):
        return "B" if self.due == "W" else "W"

    def answer(self, line, number, out):
        """Whether the line has a known form."""
        if line == "" or line.startswith("#"):
            return True
        words = line.split(" ")
        if words[0] == "S" and len(words) == 4 and words[1] in ("W", "B"):
            white, black = side_of(words[2]), side_of(words[3])
            if white is None or black is None:
                return False
            if fits(white, black):
                self.sides, self.due = {"W": white, "B": black}, words[1]
            else:
                out.append("F 2 24 0 0 0 0")
            return True
        if words[0] not in ("L", "P") or len(words) < 2 or len(words[1]) != 2 or not ascii_digits(words[1]):
            return False
        x, y = int(words[1][0]), int(words[1][1])
        if words[0] == "L":
            return len(words) == 2 and self.listing(x, y, words[1], out)
        if len(words) > 10 or any(len(w) != 3 or not ascii_digits(w) for w in words[2:]):
            return False
        self.play(x, y, [(int(w[:2]), int(w[2])) for w in words[2:]], words[1], out)
        return True

    def listing(self, x, y, roll, out):
        if not (1 <= x <= 6 and 1 <= y <= 6):
            out.append("F 2 4 0 0 0 0")
            return True
        kept, _, _ = allowed(self.sides[self.due], self.sides[self.other()], x, y)
        out.append(f"L {roll} {len(kept)}")
        for moves, _, _ in kept:
            out.append(" ".join(f"{s:02d}{d}" for s, d in moves) or "-")
        return True

    def play(self, x, y, turn, roll, out):
        got = check(self.sides[self.due], self.sides[self.other()], x, y, turn)
        if len(got) == 3:
            layer, number, move = got
            out.append(f"F {layer} {number} 0 0 {move} 0")
            return
        out.append(f"P {roll}")
        for s, d in turn:
            out.append(f" {s:02d} {d} " + (f"{s - d:02d}" if s > d else "off"))
        self.sides[self.due], self.sides[self.other()] = got
        self.due = self.other()
        out.append(f"S {self.due} {digits(self.sides['W'])} {digits(self.sides['B'])}")


def ascii_digits(text):
    return all(c in "0123456789" for c in text)


def main():
    text = open(sys.argv[1], "rb").read() if len(sys.argv) > 1 else sys.stdin.buffer.read()
    lines = text.decode("latin-1").split("\n")
    if lines[-1] == "":
        lines.pop()
    table, out, bad = Table(), [], False
    for number, line in enumerate(lines, 1):
        if not table.answer(line, number, out):
            out.append(f"E {number}")
            bad = True
    print("\n".join(out))
    sys.exit(1 if bad else 0)


if __name__ == "__main__":
    main()

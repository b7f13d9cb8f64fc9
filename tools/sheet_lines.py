#!/usr/bin/env python3
"""What `rackrun` should print of each sheet under sheets/, found by other ways than the library's.

A sheet is read by the exhaustive search of sheet_cases.py. Common factors are looked for among all polynomials that could be one, up to
scale, by plain long division where they are few, and else by Euclid's gcd. A slot's message is looked for among all messages there are, so the
sheets here have short ones. A slot is a table of what was put at each position.

Run in the repository's root:  python3 tools/sheet_lines.py
It writes sheets/NAME.lines beside each sheets/NAME.sheet.
"""

import itertools
import pathlib
import sys

from sheet_cases import LONGEST, ORDERS, Search, expected, plus, times, value

SLOTS = 4


def negative(field, a):
    return next(b for b in range(ORDERS[field]) if plus(field, a, b) == 0)


def inverse(field, a):
    return next(b for b in range(ORDERS[field]) if times(field, a, b) == 1)


def degree(codes):
    return max((i for i, c in enumerate(codes) if c), default=-1)


def rest(field, dividend, divisor):
    """What long division leaves."""
    left, d = list(dividend), degree(divisor)
    scale = inverse(field, divisor[d])
    for at in range(degree(left), d - 1, -1):
        factor = times(field, left[at], scale)
        for i in range(d + 1):
            left[at - d + i] = plus(field, left[at - d + i], negative(field, times(field, factor, divisor[i])))
    return left[:d]


def share(field, a, b):
    if ORDERS[field] == 2:
        # Every divisor of degree 1 or more of both, one by one.
        divisors = [d for d in itertools.product((0, 1), repeat=9) if degree(d) >= 1]
        return any(not any(rest(field, a, d)) and not any(rest(field, b, d)) for d in divisors)
    while degree(b) >= 0:
        a, b = b, rest(field, a, b)
    return degree(a) >= 1


def plan_fault(field, k, moduli):
    n, q = len(moduli), ORDERS[field]
    if not (2 <= n <= 24 and 1 <= k <= n - 1):
        return "no 4 P 0 0"
    for i, m in enumerate(moduli):
        if any(c >= q for c in m) or degree(m) < 1 or m[degree(m)] != 1:
            return f"no 5 P {i} 0"
    if sum(degree(m) for m in moduli) > 64:
        return "no 6 P 0 0"
    for i, j in itertools.combinations(range(n), 2):
        if share(field, moduli[i], moduli[j]):
            return f"no 7 P {i} {j}"
    return None


class Bench:
    """The slots of a plan, each closed (None) or [channel, {position: residue}]."""

    def __init__(self, field, k, moduli):
        self.field, self.moduli = field, moduli
        self.degrees = [degree(m) for m in moduli]
        self.length, self.spare = sum(self.degrees[:k]), sum(self.degrees[k:])
        self.slots = [None] * SLOTS

    def word(self, message):
        wide = list(message) + [0] * max(self.degrees)
        return [tuple((rest(self.field, wide, m) + [0] * d)[:d]) for m, d in zip(self.moduli, self.degrees)]

    def wrong(self, present, message):
        word = self.word(message)
        return sum(self.degrees[i] for i, residue in present.items() if word[i] != residue)

    def missing(self, present):
        return sum(d for i, d in enumerate(self.degrees) if i not in present)

    def reading(self, slot, present):
        if self.missing(present) > self.spare:
            return f"no 18 D {slot} {self.missing(present) - self.spare}"
        for message in itertools.product(range(ORDERS[self.field]), repeat=self.length):
            e = self.wrong(present, message)
            margin = self.spare - self.missing(present) - 2 * e
            if margin >= 0:
                return " ".join(map(str, ["ok", margin, e, *message]))
        return f"no 19 D {slot} 0"

    def refusal(self, name, channel, slot, more):
        if channel > 1:
            return "no 10 R 0 0"
        if slot >= SLOTS:
            return f"no 11 R {slot} 0"
        held = self.slots[slot]
        if name == "open":
            return f"no 13 R {slot} 0" if held else None
        if not held:
            return f"no 12 R {slot} 0"
        if held[0] != channel:
            return f"no 14 R {slot} 0"
        if name in ("put", "strike") and more[0] >= len(self.moduli):
            return f"no 15 R {slot} {more[0]}"
        codes, right = {"put": (more[1:], self.degrees[more[0]] if name == "put" else 0), "measure": (more, self.length)}.get(name, ((), 0))
        if len(codes) != right:
            return f"no 16 R {slot} {right}"
        for index, code in enumerate(codes):
            if code >= ORDERS[self.field]:
                return f"no 17 R {slot} {index}"
        return None

    def call(self, name, channel, slot, *more):
        refused = self.refusal(name, channel, slot, more)
        if refused:
            return refused
        if name == "open":
            self.slots[slot] = [channel, {}]
        elif name == "put":
            self.slots[slot][1][more[0]] = more[1:]
        elif name == "strike":
            self.slots[slot][1].pop(more[0], None)
        elif name == "read":
            return self.reading(slot, self.slots[slot][1])
        elif name == "measure":
            present = self.slots[slot][1]
            return f"ok {self.spare - self.missing(present) - 2 * self.wrong(present, more)}"
        else:
            self.slots[slot] = None
        return "ok"


def lines(text):
    told = expected(text)
    if told.startswith("no"):
        return [told]
    (field,), carrying, spare, calls = Search(text).sheet()[0]
    moduli = [value(field, tree) for tree in carrying + spare]
    fault = plan_fault(field, len(carrying), moduli)
    if fault:
        return [fault]
    bench = Bench(field, len(carrying), moduli)
    return [bench.call(*call) for call in calls]


def main():
    sys.setrecursionlimit(10 * LONGEST)
    for sheet in sorted(pathlib.Path("sheets").glob("*.sheet")):
        told = "".join(line + "\n" for line in lines(sheet.read_bytes()))
        sheet.with_suffix(".lines").write_text(told)
        print(sheet.name, len(told.splitlines()), "lines")


if __name__ == "__main__":
    main()

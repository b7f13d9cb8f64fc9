#!/usr/bin/env python3
"""Reed-Solomon words, damaged copies of them, and what a reader should make of each, as input of the program `reed_solomon`.

A remainder by z - a is the value at a, so a word under the moduli z - a for distinct points a is a Reed-Solomon word. Written apart
from the Rattle code and by another way: a word is the message evaluated at each point by Horner's rule, and a byte is multiplied by
shifts and exclusive or. Nothing is decoded. Of one or two codes, every message is tried against each copy; of longer messages the
one that lies within is the one whose word was damaged, and none does where that is just past the allowance. The draws are fixed.

Run in the repository's root:

    python3 tools/reed_solomon.py > crates/reed_solomon/stdin 2> crates/reed_solomon/stdout

On standard output there is a case a line: the field, k, the points, their negatives, the message, its word, and the damaged copies. A
copy is its residues, with - for a missing one; the margin n - k - r - 2e of the message that was sent, for r missing and e wrong
positions; and the answer: "reads" with margin, e and message, or "no" with the number of the ground, and for 18 by how much r passes
n - k. On standard error there is what the program should print: how often each answer comes.
"""

import itertools
import random
import sys

ORDERS = {"bytes": 256, "clock": 257}
MOST_POSITIONS = 24
MOST_NUMBER = 65535
DRAWN_CASES = 56  # for each field, beside the fixed ones
MOST_SEARCHED = 2  # messages of up to so many codes are all tried


class Draws:
    """Numbers that follow from the seed alone: of Python's draws only random() is promised to stay as it is."""

    def __init__(self, seed):
        self.source = random.Random(seed)

    def below(self, bound):
        return int(self.source.random() * bound)

    def between(self, low, high):
        return low + self.below(high - low + 1)

    def choose(self, count, bound):
        """So many distinct numbers below the bound, in any order."""
        left = list(range(bound))
        return [left.pop(self.below(len(left))) for _ in range(count)]

    def codes(self, field, count):
        return [self.below(ORDERS[field]) for _ in range(count)]


def times_bytes(a, b):
    product = 0
    while b:
        if b & 1:
            product ^= a
        a <<= 1
        if a & 0x100:
            a ^= 0x11D
        b >>= 1
    return product


def times(field, a, b):
    return times_bytes(a, b) if field == "bytes" else a * b % 257


def plus(field, a, b):
    return a ^ b if field == "bytes" else (a + b) % 257


def negative(field, a):
    return a if field == "bytes" else (257 - a) % 257


def value(field, message, point):
    """The message, lowest power first, at a point."""
    out = 0
    for code in reversed(message):
        out = plus(field, times(field, out, point), code)
    return out


def wrong_positions(word, residues):
    return sum(residue is not None and residue != code for code, residue in zip(word, residues))


class Case:
    """A message and its word over a field, by k codes and n points."""

    def __init__(self, field, points, message):
        self.field, self.points, self.message = field, points, message
        self.n, self.k = len(points), len(message)
        self.spare = self.n - self.k
        self.word = self.word_of(message)

    def word_of(self, message):
        return [value(self.field, message, point) for point in self.points]

    def margin(self, word, residues):
        return self.spare - residues.count(None) - 2 * wrong_positions(word, residues)

    def within(self, residues):
        """The messages within the allowance of the residues, by trying all. What the upper codes give at the points is taken over from
        one message to the next that differs in its lowest code alone; a message is left as soon as it is too far."""
        budget = (self.spare - residues.count(None)) // 2
        present = [(point, residue) for point, residue in zip(self.points, residues) if residue is not None]
        found = []
        for upper in itertools.product(range(ORDERS[self.field]), repeat=self.k - 1):
            bases = [(times(self.field, value(self.field, upper, point), point), residue) for point, residue in present]
            for lowest in range(ORDERS[self.field]):
                left = budget
                for base, residue in bases:
                    if plus(self.field, base, lowest) != residue:
                        left -= 1
                        if left < 0:
                            break
                else:
                    found.append([lowest, *upper])
        return found

    def read(self, message, residues):
        word = self.word_of(message)
        margin = self.margin(word, residues)
        assert margin >= 0
        return ("reads", margin, wrong_positions(word, residues), *message)

    def answer(self, residues, other=None):
        """What a reader should make of the residues; `other` is a message, not the one sent, that is known to lie within."""
        missing = residues.count(None)
        if missing > self.spare:
            return ("no", 18, missing - self.spare)
        margin = self.margin(self.word, residues)
        if self.k <= MOST_SEARCHED:
            found = self.within(residues)
            # Half the distance: the sent message alone within its allowance, and otherwise one at most.
            assert found == [self.message] if margin >= 0 else len(found) <= 1 and self.message not in found
            assert other is None or found == [other]
            return self.read(found[0], residues) if found else ("no", 19)
        if margin >= 0:
            return self.read(self.message, residues)
        if other is not None:
            return self.read(other, residues)
        # Two words agree in k - 1 positions at most, so the margins of two messages sum to -2 or less.
        assert margin == -1, "too long to be searched"
        return ("no", 19)


def struck(draws, field, word, missing, wrong):
    """The word with so many positions missing and so many wrong; now and then a wrong one holds no code."""
    residues = list(word)
    places = draws.choose(missing + wrong, len(word))
    for place in places[:missing]:
        residues[place] = None
    for place in places[missing:]:
        if draws.below(8) == 0:
            residues[place] = ORDERS[field] if draws.below(2) == 0 else MOST_NUMBER
        else:
            residues[place] = (word[place] + draws.between(1, ORDERS[field] - 1)) % ORDERS[field]
    return residues


def amounts(draws, case):
    """How many positions are missing and wrong, in one pair for each kind of damage that the case has room for."""
    n, spare = case.n, case.spare
    yield 0, 0
    yield draws.between(1, spare), 0
    yield spare, 0
    if spare >= 2:
        yield 0, draws.between(1, spare // 2)
        wrong = draws.between(1, spare // 2)
        yield spare - 2 * wrong, wrong  # at the allowance
    if spare >= 3:
        wrong = draws.between(1, (spare - 1) // 2)
        yield draws.between(1, spare - 2 * wrong), wrong
    wrong = draws.between(1, (spare + 1) // 2)
    yield spare - 2 * wrong + 1, wrong  # just past it
    missing = draws.between(spare + 1, n)
    yield missing, draws.between(0, n - missing)
    if case.k <= MOST_SEARCHED:
        missing = draws.between(0, spare)
        yield missing, draws.between((spare - missing) // 2 + 1, n - missing)
        yield spare, draws.between(1, case.k)  # through any k positions left a message goes


def copies(draws, case):
    """Pairs of residues and answer."""
    for missing, wrong in amounts(draws, case):
        residues = struck(draws, case.field, case.word, missing, wrong)
        assert case.margin(case.word, residues) == case.spare - missing - 2 * wrong
        yield residues, case.answer(residues)
    # Damaged into the reach of another message.
    other = draws.codes(case.field, case.k)
    if other != case.message:
        wrong = draws.between(0, case.spare // 2)
        residues = struck(draws, case.field, case.word_of(other), draws.between(0, case.spare - 2 * wrong), wrong)
        yield residues, case.answer(residues, other)


def drawn_case(draws, field, n, k):
    points = draws.choose(n, ORDERS[field])
    return Case(field, points, draws.codes(field, k))


def cases(draws, field):
    """Each with its copies: the smallest and the largest shapes, and drawn ones, short messages among them."""
    last = ORDERS[field] - 1
    fixed = [
        Case(field, [0, last], [last]),
        Case(field, [last, 0, 1], [0, 0]),
        Case(field, list(range(last, last - MOST_POSITIONS, -1)), [last] * (MOST_POSITIONS // 2)),
    ]
    shapes = [(2, 1), (3, 1), (3, 2), (MOST_POSITIONS, 1), (MOST_POSITIONS, 2), (MOST_POSITIONS, MOST_POSITIONS - 1)]
    for at in range(DRAWN_CASES - len(shapes)):
        n = draws.between(2, MOST_POSITIONS)
        shapes.append((n, draws.between(1, min(MOST_SEARCHED, n - 1) if at % 3 == 0 else n - 1)))
    for case in itertools.chain(fixed, (drawn_case(draws, field, n, k) for n, k in shapes)):
        yield case, list(copies(draws, case))
    if field == "bytes":
        # Two residues on one line and two on another: as many for either message as against it.
        case = Case(field, [0, 1, 2, 3], [1, 2])
        residues = [1, 3, 0, 0]
        assert case.answer(residues) == ("no", 19)
        yield case, [(residues, case.answer(residues))]


def shown(items):
    return " ".join("-" if item is None else str(item) for item in items)


def line(case, damaged):
    negatives = [negative(case.field, point) for point in case.points]
    assert all(plus(case.field, a, b) == 0 for a, b in zip(case.points, negatives))
    parts = [case.field, str(case.k), shown(case.points), shown(negatives), shown(case.message), shown(case.word)]
    for residues, answer in damaged:
        parts.append(f"{shown(residues)} : {case.margin(case.word, residues)} : {shown(answer)}")
    return " | ".join(parts)


def kind(case, answer):
    if answer[0] == "no":
        return answer[1]
    return "back" if list(answer[3:]) == case.message else "other"


def main():
    draws = Draws(2026)
    for field in ORDERS:
        made = list(cases(draws, field))
        for case, damaged in made:
            print(line(case, damaged))
        kinds = [kind(case, answer) for case, damaged in made for _, answer in damaged]
        print(
            f"{field}: {len(made)} words equal, {kinds.count('back')} copies read back, {kinds.count('other')} read as another message, "
            f"{kinds.count(18)} refused on 18, {kinds.count(19)} refused on 19, 0 disagreements",
            file=sys.stderr,
        )


if __name__ == "__main__":
    main()

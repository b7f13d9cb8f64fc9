#!/usr/bin/env python3
"""Sheets and what should come of each, for the program `sheet_cases`.

The expectations are made by exhaustive search, not by a reader: each rule of the grammar is tried at a place in every way it could go
on, and answers the set of places where it can end. Every rule that has begun can be completed, so the furthest byte that any try has
matched is the length of the longest beginning that begins some sheet. Values are computed with plain lists of integers.

Run in the repository's root:  python3 tools/sheet_cases.py
It writes crates/sheet_cases/stdin (a sheet a line, in base sixteen) and crates/sheet_cases/stdout (what should come of each).
"""

import itertools
import pathlib
import sys

LONGEST = 4096
ORDERS = {"bits": 2, "bytes": 256, "clock": 257}


def times_bytes(a, b):
    product = 0
    for bit in range(8):
        if b >> bit & 1:
            product ^= a << bit
    for bit in range(15, 7, -1):
        if product >> bit & 1:
            product ^= 0x11D << (bit - 8)
    return product


def plus(field, a, b):
    return a ^ b if field == "bytes" else (a + b) % ORDERS[field]


def times(field, a, b):
    return times_bytes(a, b) if field == "bytes" else a * b % ORDERS[field]


class Search:
    """All ways in which a text can be of the grammar, with the furthest byte that any of them reaches."""

    def __init__(self, text):
        self.text = text
        self.far = 0
        self.memo = {}

    def byte(self, at, allowed):
        if at < len(self.text) and self.text[at] in allowed:
            self.far = max(self.far, at + 1)
            return {at + 1}
        return set()

    def word(self, at, word):
        ends = {at}
        for b in word:
            ends = set().union(*[self.byte(e, bytes([b])) for e in ends])
        return ends

    def digits(self, at, most):
        """(end, number) of one to `most` digits."""
        found, ends = [], {at}
        for _ in range(most):
            ends = set().union(*[self.byte(e, b"0123456789") for e in ends])
            found += [(e, int(self.text[at:e])) for e in ends]
        return found

    def factor(self, at, left):
        key = ("factor", at, left)
        if key not in self.memo:
            out = [(e, ("number", n)) for e, n in self.digits(at, 3)]
            for e in self.byte(at, b"z"):
                out.append((e, ("power", 1)))
                for f in self.byte(e, b"^"):
                    out += [(g, ("power", n)) for g, n in self.digits(f, 3)]
            if left > 0:
                for e in self.byte(at, b"("):
                    for f, tree in self.joined(e, left - 1, b"+"):
                        out += [(g, tree) for g in self.byte(f, b")")]
            self.memo[key] = out
        return self.memo[key]

    def joined(self, at, left, sign):
        """Terms joined by +, or factors joined by *, left to right."""
        key = (sign, at, left)
        if key not in self.memo:
            part = self.factor if sign == b"*" else lambda a, n: self.joined(a, n, b"*")
            out, front = [], list(part(at, left))
            while front:
                out += front
                front = [
                    (g, (sign.decode(), tree, more))
                    for e, tree in front
                    for f in self.byte(e, sign)
                    for g, more in part(f, left)
                ]
            self.memo[key] = out
        return self.memo[key]

    def modulus(self, at):
        return [(f, tree) for e, tree in self.joined(at, 8, b"+") for f in self.byte(e, b"\n")]

    def call(self, at):
        out = []
        shapes = {"open": (2, 0), "put": (3, 8), "strike": (3, 0), "read": (2, 0), "measure": (2, 64), "close": (2, 0)}
        for name, (fixed, more) in shapes.items():
            ends = [(e, ()) for e in self.word(at, name.encode())]
            for count in range(fixed + more + 1):
                if count >= fixed:
                    out += [(f, (name,) + ns) for e, ns in ends for f in self.byte(e, b"\n")]
                if count < fixed + more:
                    ends = [(g, ns + (n,)) for e, ns in ends for f in self.byte(e, b" ") for g, n in self.digits(f, 4)]
        return out

    def section(self, at, least, most, line):
        out = []
        for count in range(least, most + 1):
            found = [(e, ()) for e in self.word(at, b"%d\n" % count)]
            for _ in range(count):
                found = [(f, items + (item,)) for e, items in found for f, item in line(e)]
            out += found
        return out

    def field(self, at):
        return [(e, name) for name in ORDERS for e in self.word(at, name.encode() + b"\n")]

    def sheet(self):
        found = [(0, ())]
        for least, most, line in [(1, 1, self.field), (1, 23, self.modulus), (1, 23, self.modulus), (0, 99, self.call)]:
            found = [(f, parts + (items,)) for e, parts in found for f, items in self.section(e, least, most, line)]
        return [parts for e, parts in found if e == len(self.text)]


def value(field, tree):
    """Nine codes, or None once a limit is passed."""
    if tree[0] == "number":
        return [tree[1]] + [0] * 8 if tree[1] < ORDERS[field] else None
    if tree[0] == "power":
        return [int(i == tree[1]) for i in range(9)] if tree[1] <= 8 else None
    a, b = value(field, tree[1]), value(field, tree[2])
    if a is None or b is None:
        return None
    if tree[0] == "+":
        return [plus(field, x, y) for x, y in zip(a, b)]
    out = [0] * 17
    for (i, x), (j, y) in itertools.product(enumerate(a), enumerate(b)):
        out[i + j] = plus(field, out[i + j], times(field, x, y))
    return out[:9] if not any(out[9:]) else None


def expected(text):
    if len(text) > LONGEST:
        return "no 1 S 0 0"
    search = Search(text)
    contents = search.sheet()
    if not contents:
        return f"no 2 S {search.far} 0"
    assert len(contents) == 1, text
    (field,), carrying, spare, calls = contents[0]
    lines = [3 + i for i in range(len(carrying))] + [4 + len(carrying) + i for i in range(len(spare))]
    values = [value(field, tree) for tree in carrying + spare]
    for line, codes in zip(lines, values):
        if codes is None:
            return f"no 3 S {line} 0"
    moduli = " ".join(str(code) for codes in values for code in codes)
    told = "".join(" | " + " ".join(str(word) for word in call) for call in calls)
    return f"ok {field} {len(carrying)} {moduli}{told}"


LESSON = (
    b"1\nbits\n2\nz\nz+1\n2\nz^2+z+1\nz^3+z+1\n8\nopen 0 1\nput 0 1 0 1\nput 0 1 1 0\nread 0 1\nput 0 1 2 0 1\nread 0 1\n"
    b"put 1 1 2 1 1\nclose 0 1\n"
)
SHORT = b"1\nclock\n1\n(z+1)*(z+256)\n1\n2*z^03+7\n3\nmeasure 0 3 5\nstrike 1 0 7\nput 0 1 2\n"


def with_modulus(text, field=b"clock"):
    return b"1\n" + field + b"\n1\n" + text + b"\n1\nz+1\n0\n"


def with_calls(*lines):
    return b"1\nbits\n1\nz\n1\nz+1\n%d\n" % len(lines) + b"".join(line + b"\n" for line in lines)


def cases():
    moduli = [
        b"z", b"0", b"7", b"007", b"256", b"257", b"999", b"1000", b"z^8", b"z^9", b"z^08", b"z^008", b"z^0008", b"z^", b"z^^2", b"zz",
        b"z^8*0*z", b"z^9*0", b"0*z^9", b"z^4*z^4", b"z^4*z^5", b"(z+1)*(z+1)", b"((z))", b"()", b"(z", b"z)", b"z+", b"+z", b"z*", b"*z",
        b"z + 1", b"-z", b"2z", b"z2", b"(((((((((z", b"((((((((z))))))))", b"(((((((((z)))))))))", b"(z+1)*((z+2)*(z+3))",
        b"((z^8)+1)*0", b"(z^7+1)*(z+1)", b"(z^8+1)*(z+1)", b"257*0", b"z^300", b"", b"z+1*2", b"z*z+1", b"(z+1)^2", b"Z", b"x",
    ]
    for text in moduli:
        yield with_modulus(text)
    yield with_modulus(b"(z+1)*(z+1)", b"bits")
    yield with_modulus(b"2*z", b"bits")
    yield with_modulus(b"2*128*z", b"bytes")
    yield with_modulus(b"256", b"bytes")
    calls = [
        b"open 0 1", b"open 0", b"open 0 1 2", b"open  0 1", b"open 0  1", b"open 0 1 ", b"open 00000 1", b"open 9999 9999", b"open 10000 1",
        b"opens 0 1", b"Open 0 1", b"put 0 1 2", b"put 0 1 2 1 2 3 4 5 6 7 8", b"put 0 1 2 1 2 3 4 5 6 7 8 9", b"put 0 1", b"strike 0 1 2",
        b"strike 0 1 2 3", b"read 0 1", b"read 0 1 0", b"measure 0 1", b"measure 0 1" + b" 1" * 64, b"measure 0 1" + b" 1" * 65, b"close 0 1",
        b"close 0 1 1", b"", b" open 0 1", b"open\t0 1", b"open 0 -1", b"p 0 1 2", b"re", b"measured 0 1", b"open 0 x",
    ]
    for line in calls:
        yield with_calls(line)
    yield with_calls()
    yield with_calls(*[b"close 0 0"] * 99)
    for counts in [(b"0", b"1"), (b"01", b"1"), (b"24", b"1"), (b"1", b"0"), (b"1", b"24"), (b"1", b"3x"), (b"", b"1"), (b"1 ", b"1"), (b"230", b"1")]:
        yield b"1\nbits\n" + counts[0] + b"\nz\n" + counts[1] + b"\nz+1\n0\n"
    yield b"1\nbits\n23\n" + b"z\n" * 23 + b"23\n" + b"z+1\n" * 23 + b"0\n"
    for tail in [b"00\n", b"01\n", b"100\n", b"99\n", b"0", b"", b"0\n\n", b"0\nx", b"1\n", b"x\n", b"1\nopen 0 0\nopen 0 0\n"]:
        yield b"1\nbits\n1\nz\n1\nz+1\n" + tail
    for head in [b"", b"2\n", b"0\n", b"1", b"1\n", b"1\nbit\n", b"1\nbites\n", b"1\nbyte\n", b"1\nclocks\n", b"1\nBits\n", b"1\r\n", b"\n", b"1\ncl", b"11\n"]:
        yield head
    # Two lines without a value: the first counts, and a fault of the grammar comes before both.
    yield b"1\nbits\n2\nz\n2\n2\nz^9\nz\n0\n"
    yield b"1\nbits\n1\nz\n2\nz\nz^9\n0\n"
    yield b"1\nbits\n1\nz^9\n1\nz\n0\nx"
    # As long as a sheet may be, and longer.
    room = LONGEST - len(with_modulus(b"z"))
    yield with_modulus(b"z" + b"+z" * (room // 2))
    yield with_modulus(b"z" + b"+z" * (room // 2) + b"*1")
    yield b"x" * LONGEST
    yield b"x" * (LONGEST + 1)
    for sheet in (LESSON, SHORT):
        yield sheet
        for cut in range(len(sheet)):
            yield sheet[:cut]
        for at, other in itertools.product(range(len(sheet)), b"0z\n"):
            if sheet[at] != other:
                yield sheet[:at] + bytes([other]) + sheet[at + 1 :]


def main():
    sys.setrecursionlimit(10 * LONGEST)
    crate = pathlib.Path("crates/sheet_cases")
    sheets = list(cases())
    (crate / "stdin").write_text("".join(sheet.hex() + "\n" for sheet in sheets))
    (crate / "stdout").write_text("".join(expected(sheet) + "\n" for sheet in sheets))
    print(len(sheets), "sheets")


if __name__ == "__main__":
    main()

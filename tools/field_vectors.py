"""Products and inverses in the two larger fields, as input of the program `vectors`.

Written apart from the Rattle code and by another way: a byte is a list of coefficients over {0, 1}, multiplied by the
schoolbook rule and reduced by long division; an inverse is found by the extended Euclidean algorithm.

    python3 tools/field_vectors.py > crates/vectors/stdin
"""

MODULUS = [1, 0, 1, 1, 1, 0, 0, 0, 1]  # 1 + x^2 + x^3 + x^4 + x^8, lowest first


def bits(n):
    return [(n >> i) & 1 for i in range(8)]


def number(coefficients):
    return sum(c << i for i, c in enumerate(coefficients))


def byte_product(a, b):
    out = [0] * 15
    for i, x in enumerate(bits(a)):
        for j, y in enumerate(bits(b)):
            out[i + j] = (out[i + j] + x * y) % 2
    for top in range(14, 7, -1):
        if out[top]:
            for i, m in enumerate(MODULUS):
                out[top - 8 + i] = (out[top - 8 + i] + m) % 2
    return number(out[:8])


def byte_inverse(a):
    def degree(p):
        return p.bit_length() - 1

    r0, r1, t0, t1 = number(MODULUS), a, 0, 1
    while r1:
        while r0 and degree(r0) >= degree(r1):
            shift = degree(r0) - degree(r1)
            r0 ^= r1 << shift
            t0 ^= t1 << shift
        r0, r1, t0, t1 = r1, r0, t1, t0
    return t0


def clock_inverse(a):
    r0, r1, t0, t1 = 257, a, 0, 1
    while r1:
        k = r0 // r1
        r0, r1, t0, t1 = r1, r0 - k * r1, t1, t0 - k * t1
    return t0 % 257


def pairs(order, count):
    # a fixed walk over the pairs, with the corners first
    found = [(0, 0), (0, order - 1), (order - 1, 0), (1, order - 1), (order - 1, order - 1)]
    a, b = 3, 5
    while len(found) < count:
        found.append((a, b))
        a, b = (a * 37 + b) % order, (b * 101 + 7 * a + 1) % order
    return found


for a, b in pairs(256, 150):
    print("bytes product", a, b, byte_product(a, b))
for a, b in pairs(257, 150):
    print("clock product", a, b, a * b % 257)
for a in range(1, 256, 3):
    print("bytes inverse", a, byte_inverse(a))
for a in range(1, 257, 3):
    print("clock inverse", a, clock_inverse(a))

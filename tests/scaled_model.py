"""A model of scaled numbers in exact whole numbers, independent of the proved code, and what crates/scaled_run prints.

Only the operands follow the program; sum, product, quotient and rates follow the sentences of document 01 and request R-4.
Scaled numbers have an m of 32 binary digits. The checks of the model try shorter words too: `bits` is the number of digits.
"""
from fractions import Fraction

ZERO = (0, 0)


def is_scaled(x, bits=32):
    m, e = x
    return x == ZERO or (2**(bits - 1) <= m < 2**bits and -16384 <= e <= 16383)


def value(x):
    m, e = x
    return m * Fraction(2) ** e


def nearest(num, den, e, bits=32):
    """The scaled number nearest to num / den * 2^e, of two equally near the one with even m; None where its own exponent is outside
    the range."""
    if num == 0:
        return ZERO
    shift = num.bit_length() - den.bit_length() - bits
    num, den = (num << -shift, den) if shift < 0 else (num, den << shift)
    if num >= den << bits:
        den, shift = 2 * den, shift + 1
    m, rest = divmod(num, den)
    if 2 * rest > den or 2 * rest == den and m % 2 == 1:
        m += 1
    if m == 2**bits:
        m, shift = m // 2, shift + 1
    e += shift
    return (m, e) if -16384 <= e <= 16383 else None


def sum_of(a, b, bits=32):
    if not is_scaled(a, bits) or not is_scaled(b, bits):
        return None
    e = min(a[1], b[1])
    return nearest((a[0] << (a[1] - e)) + (b[0] << (b[1] - e)), 1, e, bits)


def product_of(a, b, bits=32):
    if not is_scaled(a, bits) or not is_scaled(b, bits):
        return None
    return nearest(a[0] * b[0], 1, a[1] + b[1], bits)


def quotient_of(a, b, bits=32):
    if not is_scaled(a, bits) or not is_scaled(b, bits) or b == ZERO:
        return None
    return nearest(a[0], b[0], a[1] - b[1], bits)


def rate_of(x):
    return nearest(x, 1, 0)


# The pairs that the program prints first, at ties, carries to the next binade, a quotient above the half, and the ends of the range: an
# operation, its operands, and what it gives, worked out by hand. 599479 * 14329 is 2^33 - 1.
EDGES = (
    ("sum", (2**31, 0), (2**31, -32), (2**31, 0)),  # a tie, m even
    ("sum", (2**31 + 1, 0), (2**31, -32), (2**31 + 2, 0)),  # a tie, m odd
    ("sum", (2**32 - 1, 0), (2**31, -32), (2**31, 1)),  # a tie between two binades
    ("sum", (2**32 - 2, -31), (3 * 2**30 + 1, -62), (2**31, -30)),  # above the half, into the next binade
    ("product", (2**31 + 2**15, 0), (2**31 + 2**15, 0), (2**31 + 2**16, 31)),  # a tie, m even
    ("product", (2**31 + 2**15, 0), (2**31 + 3 * 2**15, 0), (2**31 + 2**17 + 2, 31)),  # a tie, m odd
    ("quotient", (2**31, 0), (3 * 2**30, 0), (2863311531, -32)),  # 2 / 3, above the half, m even
    ("sum", (2**32 - 1, 16383), (2**31, 16351), None),  # half a unit above the last number
    ("sum", (2**32 - 1, 16383), (2**32 - 1, 16350), (2**32 - 1, 16383)),  # less than half a unit above it
    ("product", (2**31 + 1, 8176), (2**32 - 2, 8176), None),  # 2^63 - 2, into the binade above the range
    ("product", (599479 * 2**12, -8208), (14329 * 2**18, -8208), (2**31, -16384)),  # half a unit below the first number
    ("product", (599479 * 2**12, -8208), (14329 * 2**18 - 1, -8208), None),  # more than half a unit below it
)


def following(s):
    return (s * 1664525 + 1013904223) % 2**32


def mantissa(s):
    kind = (s >> 16) % 16
    if kind == 0:
        return 0
    if kind == 1:
        return 2**31
    if kind < 4:
        return 2**32 - 1
    return s // 2 if kind == 4 else s // 2 + 2**31


def exponent(s):
    kind, v = (s >> 12) % 8, (s >> 16) % 32768
    if kind < 3:
        return v % 80 - 40
    if kind < 5:
        return v - 16384
    if kind == 5:
        return v % 4 - 16385
    if kind == 6:
        return v % 4 + 16381
    return 0


def shown(r):
    return "none" if r is None else f"{r[0]} {r[1]}"


def line(a, b):
    return " ".join(map(shown, (a, b, sum_of(a, b), product_of(a, b), quotient_of(a, b))))


def lines():
    for _, a, b, _ in EDGES:
        yield line(a, b)
    s = 20240131
    for i in range(400):
        s1 = following(s)
        s2 = following(s1)
        s3 = following(s2)
        s = following(s3)
        yield line((mantissa(s1), exponent(s2)), (mantissa(s3), exponent(s)))
        if i % 4 == 0:
            x = s >> (s % 32)
            yield f"{x} {shown(rate_of(x))}"


def stored():
    """The standard input and output of crates/scaled_run."""
    return b"", "".join(line + "\n" for line in lines()).encode()

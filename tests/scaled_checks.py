"""Checks of the model of scaled numbers, and of its roundings: request R-4's sentence as a test, short words against a search over all
numbers, the ends of the range, and slips of rounding, each found by these checks and by what the programs print.

A check takes the model to be checked, so that it can be given a wrong one.
"""
from bisect import bisect
from fractions import Fraction

import scaled_model
from scaled_model import EDGES, ZERO, is_scaled, lines, value

# there is no number from the first on, nor above 0 and below the second
TOP, BOTTOM = (2**32 - Fraction(1, 2)) * 2**16383, (2**32 - Fraction(1, 2)) / 2**16385


def is_nearest(x, exact):
    """Request R-4's sentence: x is the scaled number nearest to exact, with e of any size, of two equally near the one with even m."""
    if exact == 0:
        return x == ZERO
    if x is None:
        return not BOTTOM <= exact < TOP
    if x == ZERO or not is_scaled(x):
        return False
    m, e = x
    below = (m - 1, e) if m > 2**31 else (2**32 - 1, e - 1)
    away, next_to = abs(exact - value(x)), min(abs(exact - value(y)) for y in (below, (m + 1, e)))
    return away < next_to or away == next_to and m % 2 == 0


def operand(rng):
    """A scaled number, often with an m of 17 binary digits or an e 32 away from another's, so that ties and carries are met."""
    m = rng.choice((2**31, 2**32 - 1, rng.randrange(2**31, 2**32), rng.randrange(2**16, 2**17) * 2**15))
    e = rng.choice((-16384, 0, 32, 16351, 16383, rng.randint(-40, 40), rng.randint(-16384, 16383)))
    return ZERO if rng.random() < 0.1 else (m, e)


def operations(rng, model=scaled_model, many=3000):
    for _ in range(many):
        a, b = operand(rng), operand(rng)
        assert is_nearest(model.sum_of(a, b), value(a) + value(b)), (a, b)
        assert is_nearest(model.product_of(a, b), value(a) * value(b)), (a, b)
        if b != ZERO:
            assert is_nearest(model.quotient_of(a, b), value(a) / value(b)), (a, b)
        rate = rng.randrange(2**rng.randint(0, 32))
        assert value(model.rate_of(rate)) == rate
    assert model.quotient_of((2**31, 0), ZERO) is None
    for wrong in ((0, 5), (2**31 - 1, 0), (2**32, 0), (2**31, 16384), (2**31, -16385)):
        assert model.sum_of(wrong, ZERO) is model.product_of(ZERO, wrong) is model.quotient_of(ZERO, wrong) is None
    return f"{many} sums, products and quotients, each the nearest"


def searched(bits, reach):
    """A function that finds the nearest of all numbers of so many binary digits, e from -reach to reach, by looking at them."""
    numbers = sorted((value((m, e)), m, e) for m in range(2**(bits - 1), 2**bits) for e in range(-reach, reach + 1))
    values = [number[0] for number in numbers]

    def search(exact):
        at = bisect(values, exact)
        return min(numbers[at - 1:at + 1], key=lambda number: (abs(number[0] - exact), number[1] % 2))[1:]

    return search


def short_words(model=scaled_model, lengths=range(3, 7)):
    """Every m of 3 to 6 binary digits with every other, their exponents up to so far apart that the smaller number counts for nothing."""
    tried = 0
    for bits in lengths:
        search, apart = searched(bits, 2 * bits + 4), bits + 2
        words = range(2**(bits - 1), 2**bits)
        for a, b in (((m, 0), (k, e)) for m in words for k in words for e in range(-apart, apart + 1)):
            assert model.sum_of(a, b, bits) == search(value(a) + value(b)), (bits, a, b)
            assert model.product_of(a, b, bits) == search(value(a) * value(b)), (bits, a, b)
            assert model.quotient_of(a, b, bits) == search(value(a) / value(b)), (bits, a, b)
            tried += 1
    return f"{tried} pairs of numbers of {lengths[0]} to {lengths[-1]} binary digits, against a search over all numbers"


def ends(model=scaled_model):
    """The ends of the range, (2^33 - 1) * 2^16382 and (2^33 - 1) * 2^-16386, and what lies just below and above them."""
    last, first = (2**32 - 1, 16383), (2**31, -16384)
    for end, e, below, there in ((TOP, 16342, last, None), (BOTTOM, -16426, None, first)):
        for step, expected in ((-1, below), (0, there), (1, there)):
            num = (2**33 - 1) * 2**40 + step
            exact = num * Fraction(2) ** e
            assert (exact > end) - (exact < end) == step, (end, step)
            assert model.nearest(num, 1, e) == expected and is_nearest(expected, exact), (num, e)
    for name, a, b, expected in EDGES:
        assert getattr(model, f"{name}_of")(a, b) == expected, (name, a, b)
    return f"both ends of the range with what lies beside them, {len(EDGES)} edges by hand"


def program(model):
    """The lines of crates/scaled_run are those of the right model."""
    assert list(model.lines()) == list(lines())


# Slips of rounding, as edits of the model's text.
UP = "2 * rest > den or 2 * rest == den and m % 2 == 1"
SLIPS = (
    (UP, "False", "cut"),
    (UP, "2 * rest >= den", "ties always up"),
    (UP, "2 * rest > den", "ties always down"),
    (UP, "2 * rest > den or 2 * rest == den and m % 2 == 0", "ties to odd"),
    (UP, "2 * rest >= den and m % 2 == 1", "no flag for what lies below the judged bit"),
    ("m, shift = m // 2, shift + 1", "m //= 2", "a carry that keeps e"),
    ("if m == 2**bits:", "if False:", "no carry"),
)
RANGE_SLIPS = (
    ("(m, e) if -16384 <= e <= 16383", "(m, e) if -16384 <= e <= 16384", "what is rounded up beyond the top taken"),
    ("if m == 2**bits:", "if m == 2**bits and e + shift < -16384:\n        return None\n    if m == 2**bits:", "the low end tested before the carry"),
)

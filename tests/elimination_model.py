"""A model of document 01's elimination on scaled numbers, and of the text that the printing program writes for any bytes.

It follows the sentences of document 01 one by one: the order of every sum, one quotient t(j) for each j of a step,
entry + entry * t(j), the sum of the way back divided once, and shares by the total taken from state 0 up. Every rate and
every result of an operation passes `within_range`. By request R-3 the states of the one closed set are solved as a chain of
their own, in state order; the others get Zero. Until request R-5 a chain could hold entries of rate 0, which are no moves; `solve`
still takes them, for `printed_with_zeros`, what the program wrote by the rules of that time.
"""
from chain_model import closed_sets, reached, rows_of
from scaled_model import ZERO, product_of, quotient_of, rate_of, sum_of
from stored_chain import Refused, read

ONE = (2**31, -31)


def bound_count(n):
    return (2 * n**3 + 6 * n**2 - 8 * n) // 3


def closed_set(rows):
    """The states of the one closed set, rising; Refused by 6, with the lowest states of the two lowest sets, if there are more."""
    n = len(rows)
    sets = reached(n, *rows_of(n, {(i, j): rate for i, row in enumerate(rows) for j, rate in row}))
    closed = closed_sets(sets)
    if len(closed) > 1:
        raise Refused(6, closed[0][0], closed[1][0])
    return closed[0]


def alone(rows, states):
    """The chain of these states, numbered in their order. At most entries of rate 0 lead out of a closed set; they are left out."""
    place = {state: at for at, state in enumerate(states)}
    return [[(place[j], rate) for j, rate in rows[i] if j in place] for i in states]


def spread(n, states, numbers):
    """Each number at its state, Zero at all others."""
    given = dict(zip(states, numbers))
    return [given.get(i, ZERO) for i in range(n)]


def within_range(x):
    """Request R-7: with at most 64 states and 32-bit rates every sum, product and quotient of the elimination is a number."""
    if x is None:
        raise AssertionError("an operation of the elimination has no number")
    return x


def plus(a, b):
    return within_range(sum_of(a, b))


def times(a, b):
    return within_range(product_of(a, b))


def over(a, b):
    return within_range(quotient_of(a, b))


def total_of(terms):
    total = ZERO
    for x in terms:
        total = plus(total, x)
    return total


def entries(rows):
    n = len(rows)
    a = [[ZERO] * n for _ in range(n)]
    for i, row in enumerate(rows):
        for j, rate in row:
            a[i][j] = within_range(rate_of(rate))
    return a


def eliminate(a):
    """Eliminates the states in order; column k below row k stays as it stood at step k. Gives the pivots."""
    n = len(a)
    pivots = []
    for k in range(n - 1):
        later = range(k + 1, n)
        s = total_of(a[k][j] for j in later)
        t = {j: over(a[k][j], s) for j in later}
        for i in later:
            for j in later:
                if i != j:
                    a[i][j] = plus(a[i][j], times(a[i][k], t[j]))
        pivots.append(s)
    return pivots


def back(a, pivots):
    n = len(a)
    weights = [ONE] * n
    for k in reversed(range(n - 1)):
        weights[k] = over(total_of(times(weights[j], a[j][k]) for j in range(k + 1, n)), pivots[k])
    return weights


def solve(rows):
    """The bound count, the weights and the shares of a chain that keeps the rules 1 to 4; Refused by 6."""
    n, states = len(rows), closed_set(rows)
    a = entries(alone(rows, states))
    weights = back(a, eliminate(a))
    total = total_of(weights)
    shares = [over(w, total) for w in weights]
    return bound_count(len(states)), spread(n, states, weights), spread(n, states, shares)


def printed(data, zeros=False):
    """What the printing program writes for these bytes on standard input."""
    try:
        rows = read(data, zeros)
        count, weights, shares = solve(rows)
    except Refused as refusal:
        return f"{refusal}\n"
    lines = [f"states {len(rows)} bound {count}"]
    lines += [f"{i} {w[0]} {w[1]} {s[0]} {s[1]}" for i, (w, s) in enumerate(zip(weights, shares))]
    return "\n".join(lines) + "\n"


def printed_with_zeros(data):
    """What it wrote by the rules before request R-5, without 14: these shares are those of the cleaned file, bit for bit."""
    return printed(data, zeros=True)

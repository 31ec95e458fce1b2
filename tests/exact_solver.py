"""Exact weights of a chain in whole numbers, by methods that share nothing, its closed sets, and document 01's "within c factors".

The closed sets are found as strongly connected components that no positive rate leaves, and not from what each state reaches, as
the model of the elimination finds them: each checks the other.
"""
from itertools import product

MOST_FOR_TREES = 5


def rate_table(rows):
    n = len(rows)
    r = [[0] * n for _ in range(n)]
    for i, row in enumerate(rows):
        for j, rate in row:
            r[i][j] = rate
    return r


def weights_by_trees(rows):
    """Document 01's definition word for word: all ways to give each other state one move so that every state is led to i."""
    r, n = rate_table(rows), len(rows)
    weights = []
    for root in range(n):
        others = [i for i in range(n) if i != root]
        weight = 0
        for moves in product(*([j for j in range(n) if j != i] for i in others)):
            way = dict(zip(others, moves))
            if all(leads_to(way, i, root) for i in others):
                rates = 1
                for i, j in way.items():
                    rates *= r[i][j]
                weight += rates
        weights.append(weight)
    return weights


def leads_to(way, state, root):
    for _ in range(len(way)):
        if state == root:
            break
        state = way[state]
    return state == root


def weights_by_minors(rows):
    """The same for a chain in which every state reaches every other: principal minors of (row sums - rates), fraction-free.

    Bareiss elimination without row exchange, every division exact; the pivots are minors and positive for such a chain.
    Column k gives the sum of weight i * entry (i, k) = 0, so the weights follow from the last one down.
    """
    a, n = rate_table(rows), len(rows)
    for i in range(n):
        a[i] = [-x for x in a[i]]
        a[i][i] = -sum(a[i])
    before = 1
    for k in range(n - 1):
        top, pivot = a[k], a[k][k]
        for i in range(k + 1, n):
            row, lead = a[i], a[i][k]
            for j in range(k + 1, n):
                row[j] = (row[j] * pivot - lead * top[j]) // before
        before = pivot
    weights = [before] * n
    for k in reversed(range(n - 1)):
        weights[k], left = divmod(-sum(weights[j] * a[j][k] for j in range(k + 1, n)), a[k][k])
        assert left == 0
    return weights


def components(rows):
    """The strongly connected components over the positive rates, by one walk in depth (Tarjan)."""
    met, low, path, found = {}, {}, [], []

    def walk(i):
        met[i] = low[i] = len(met)
        path.append(i)
        for j, rate in rows[i]:
            if rate > 0 and j not in met:
                walk(j)
            if rate > 0 and j in path:
                low[i] = min(low[i], low[j])
        if low[i] == met[i]:
            at = path.index(i)
            found.append(sorted(path[at:]))
            del path[at:]

    for i in range(len(rows)):
        if i not in met:
            walk(i)
    return found


def closed_components(rows):
    """The closed sets of request R-3, by their lowest states: the components that no positive rate leaves."""
    return sorted(states for states in components(rows) if not any(rate > 0 and j not in states for i in states for j, rate in rows[i]))


def taken_alone(rows, states):
    return [[(states.index(j), rate) for j, rate in rows[i] if j in states] for i in states]


def exact_weights(rows):
    """The exact weights of request R-3, of a chain with one closed set: those of the set taken alone, and 0 elsewhere."""
    (states,) = closed_components(rows)
    weights = [0] * len(rows)
    for state, weight in zip(states, weights_by_minors(taken_alone(rows, states))):
        weights[state] = weight
    return weights


def balances(rows, weights):
    r, n = rate_table(rows), len(rows)
    return any(weights) and all(
        sum(weights[i] * r[i][j] for i in range(n)) == weights[j] * sum(r[j]) for j in range(n)
    )


def solved_equations(a):
    """Gauss and Jordan on rows of whole numbers, fraction-free: the columns solved for, and what now stands before each of them."""
    before, solved = 1, []
    for column in range(len(a)):
        here = len(solved)
        at = next((i for i in range(here, len(a)) if a[i][column]), None)
        if at is None:
            continue
        a[here], a[at] = a[at], a[here]
        top, pivot = a[here], a[here][column]
        for i, row in enumerate(a):
            if i != here:
                lead = row[column]
                a[i] = [(x * pivot - lead * y) // before for x, y in zip(row, top)]
        before = pivot
        solved.append(column)
    return solved, before


def balanced_lists(rows):
    """A basis of all lists that keep the balance of the whole chain, from its n equations. It has a list for each closed set.

    Equation j: the sum of weight i * rate (i, j), less weight j * the sum of row j, is 0.
    """
    r, n = rate_table(rows), len(rows)
    a = [[-sum(r[i]) if i == j else r[i][j] for i in range(n)] for j in range(n)]
    solved, factor = solved_equations(a)
    basis = []
    for free in (column for column in range(n) if column not in solved):
        weights = [0] * n
        weights[free] = factor
        for row, state in zip(a, solved):
            weights[state] = -row[free]
        basis.append(weights)
    return basis


def in_proportion(a, b):
    """Document 01's words, for two lists of which neither is all 0."""
    at = next(i for i, x in enumerate(a) if x)
    return any(b) and all(a[at] * y == x * b[at] for x, y in zip(a, b))


def exact_problem(rows, weights):
    """What speaks against these exact weights of the whole chain, as a sentence; None if nothing does.

    They balance it; whatever keeps its balance is in proportion to them; and so are, for a few states, the sums over its own trees.
    """
    if not balances(rows, weights):
        return "the exact weights do not balance the whole chain"
    basis = balanced_lists(rows)
    if len(basis) != 1 or not in_proportion(weights, basis[0]):
        return "the equations of the whole chain have other solutions"
    if len(rows) <= MOST_FOR_TREES and not in_proportion(weights, weights_by_trees(rows)):
        return "the trees of the whole chain give other weights"
    return None


FACTOR = (2**32, 2**32 - 1)


def at_most_times(x, y, c):
    """Is x at most y * F^c, for whole x and y? By Bernoulli F^c is at least 1 + c / (2^32 - 1), a test in short numbers that
    is enough where it holds; only where it fails are the powers themselves multiplied out."""
    num, den = FACTOR
    return x * den <= y * (den + c) or x * den**c <= y * num**c


def within(m, e, num, den, c):
    """Does the scaled number (m, e) lie within c factors of num / den? Both sides are multiplied out to whole numbers."""
    x, y = m * den, num
    x, y = (x << e, y) if e >= 0 else (x, y << -e)
    return at_most_times(x, y, c) and at_most_times(y, x, c)

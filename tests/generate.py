"""A seeded generator of stored chains, sound, old and damaged, in both forms. File number i of seed s is the same on every machine.

A sound chain has one closed set, of all states or of some, or several. An old file is that of a sound chain with entries of rate 0
(request R-5). A damaged file comes from either (damages.py).
"""
import math
import random

from damages import DAMAGES, OLD_DAMAGES, SIMPLE, zero_places
from stored_chain import write

TOP = 2**32 - 1


def any_rate(rng):
    """Log-uniform in 1 to 4294967295."""
    return min(TOP, int(math.exp(rng.uniform(0, 32 * math.log(2)))))


def chain_of(n, rate):
    """The chain with an entry wherever rate(i, j) is not None."""
    table = [[(j, rate(i, j)) for j in range(n) if j != i] for i in range(n)]
    return [[(j, x) for j, x in row if x is not None] for row in table]


def dense(rng, n):
    return chain_of(n, lambda i, j: any_rate(rng))


def small_rates(rng, n):
    return chain_of(n, lambda i, j: rng.randint(1, 9))


def extreme_rates(rng, n):
    return chain_of(n, lambda i, j: rng.choice((1, 2, 2**31, TOP)))


def rates_of_one_byte(rng, n):
    """Of the four bytes of a rate one is not 0: 256, 65536, 16777216 and the like."""
    return chain_of(n, lambda i, j: rng.choice((1, 1, rng.randint(1, 255))) << 8 * rng.randrange(4))


def ring(rng, n):
    step = rng.choice((1, n - 1)) if n > 1 else 1
    return chain_of(n, lambda i, j: any_rate(rng) if j == (i + step) % n else None)


def sparse(rng, n):
    """A ring in a shuffled order, so that every state reaches every other, with a few more moves."""
    order = rng.sample(range(n), n)
    follows = {order[p]: order[(p + 1) % n] for p in range(n)}
    chance = rng.uniform(0, 3) / n
    return chain_of(n, lambda i, j: any_rate(rng) if j == follows[i] or rng.random() < chance else None)


def nearly_decomposable(rng, n):
    """Blocks with large rates inside and small ones between."""
    block = [rng.randrange(max(1, n // 4)) for _ in range(n)]
    small = rng.choice((1, 3, 100))
    return chain_of(n, lambda i, j: rng.randint(TOP // 2, TOP) if block[i] == block[j] else rng.randint(1, small))


def birth_death(rng, n):
    """Moves between neighbours only; with far more moves down than up a share falls to about 1e-607 at 64 states."""
    up, down = rng.choice(((1, TOP), (TOP, 1), (1, any_rate(rng)), (None, None)))
    return chain_of(n, lambda i, j: {1: up, -1: down}[j - i] or any_rate(rng) if abs(i - j) == 1 else None)


# every state reaches every other
CONNECTED = (dense, small_rates, extreme_rates, rates_of_one_byte, ring, sparse, nearly_decomposable, birth_death)


def loose(rng, n):
    """Entries by chance: many such chains have several closed sets."""
    chance = rng.uniform(0.5, 3) / n
    return chain_of(n, lambda i, j: any_rate(rng) if rng.random() < chance else None)


def one_way(rng, n):
    """No move from the second part back to the first, in a shuffled order of the states."""
    part = [rng.random() < 0.5 for _ in range(n)]
    return chain_of(n, lambda i, j: None if part[i] and not part[j] else any_rate(rng))


# ---- request R-3: closed sets, and power-on states, from which every way leads into one

def place_of_set(rng, n, size):
    """So many states: the last, the first, some in the middle, both ends and others, or any."""
    kind = rng.choice(("last", "first", "middle", "ends", "any", "any"))
    if kind == "ends" and size > 1:
        return [0, *sorted(rng.sample(range(1, n - 1), size - 2)), n - 1]
    if kind in ("ends", "any"):
        return sorted(rng.sample(range(n), size))
    first = {"last": n - size, "first": 0, "middle": (n - size) // 2}[kind]
    return list(range(first, first + size))


def on_the_way(rng, moves, inside, outside):
    """Moves of the states outside the closed sets, so that each leads into one: alone, in a ring or back and forth among themselves."""
    kind = rng.choice(("on", "ring", "any"))
    for at, i in enumerate(outside):
        before = [outside[at - 1]] if kind == "ring" and at else inside + outside[:at]
        moves[i, rng.choice(before)] = any_rate(rng)
    if kind == "ring" and len(outside) > 1:
        moves[outside[0], outside[-1]] = any_rate(rng)
    if kind == "any":
        chance = rng.uniform(0.5, 4) / (len(inside) + len(outside))
        for i in outside:
            for j in inside + outside:
                if i != j and rng.random() < chance:
                    moves[i, j] = any_rate(rng)


def with_sets(rng, n, sets):
    """A chain with these closed sets."""
    moves = {}
    for states in sets:
        for i, row in zip(states, rng.choice(CONNECTED)(rng, len(states))):
            moves.update({(i, states[j]): rate for j, rate in row})
    inside = [i for states in sets for i in states]
    outside = rng.sample([i for i in range(n) if i not in inside], n - len(inside))
    on_the_way(rng, moves, inside, outside)
    return chain_of(n, lambda i, j: moves.get((i, j)))


def power_on(rng, n):
    """One closed set and, unless n is 1, states outside."""
    size = rng.choice((n - 1, rng.randint(1, n), rng.randint(n // 2, n)))
    return with_sets(rng, n, [place_of_set(rng, n, max(1, min(size, n - 1)))])


def settles_in_one(rng, n):
    """A closed set of one state: the first, the last, the middle one or any."""
    return with_sets(rng, n, [[rng.choice((0, n - 1, n // 2, rng.randrange(n)))]])


def several_sets(rng, n):
    """Two or three closed sets, where there are so many states; a state outside leads into some of them."""
    many = min(n, rng.choice((2, 2, 3)))
    inside = rng.sample(range(n), rng.randint(many, n))
    cuts = [0, *sorted(rng.sample(range(1, len(inside)), many - 1)), len(inside)]
    return with_sets(rng, n, [sorted(inside[a:b]) for a, b in zip(cuts, cuts[1:])])


def no_moves(rng, n):
    """No entries: each state is a closed set."""
    return chain_of(n, lambda i, j: None)


# three of four have power-on states, so that of all files, with the old and the damaged ones, a third are taken and have them
SHAPES = (*CONNECTED, loose, one_way, *[power_on] * 40, *[settles_in_one] * 2, several_sets, several_sets, no_moves)


def order(rng):
    """1 to 64, mostly small, so that a run of thousands stays short."""
    top = rng.choices((6, 12, 24, 40, 64), (40, 30, 20, 7, 3))[0]
    return rng.randint(1, top)


def sound(rng, least=1):
    return rng.choice(SHAPES)(rng, max(least, order(rng)))


# ---- request R-5: entries of rate 0

def zeros_added(rng, rows):
    """Unused moves stored with rate 0, as the recorder did: no closed set changes."""
    chance = rng.choice((0.05, 0.3, 0.3, 1))
    return [sorted({**{j: 0 for j in range(len(rows)) if j != i and rng.random() < chance}, **dict(row)}.items())
            for i, row in enumerate(rows)]


def zeros_for_rates(rng, rows):
    """Some rates become 0, or all."""
    chance = rng.choice((0.05, 0.3, 0.3, 1))
    return [[(j, 0 if rng.random() < chance else rate) for j, rate in row] for row in rows]


def one_zero(rng, rows):
    """At one place, with or without an entry before: the first or the last of all, or any."""
    places = [(i, j) for i in range(len(rows)) for j in range(len(rows)) if i != j]
    i, j = rng.choice((places[0], places[-1], rng.choice(places)))
    return [sorted({**dict(row), j: 0}.items()) if i == at else row for at, row in enumerate(rows)]


def with_zeros(rng, rows):
    """The same chain of two states or more with entries of rate 0, one at least."""
    made = rng.choice((zeros_added, zeros_added, zeros_added, zeros_for_rates, one_zero))(rng, rows)
    return made if zero_places(made) else one_zero(rng, rows)


# ---- request R-8: both forms

def at_the_limit(rng, rows):
    """Some rates become the largest short one or the smallest long one, or one beside them."""
    chance = rng.choice((0.1, 0.5, 1))
    return [[(j, rng.choice((65535, 65535, 65536, 65536, 65534, 65537)) if rate and rng.random() < chance else rate) for j, rate in row]
            for row in rows]


# how many of a hundred files are sound, old, damaged, and damaged old ones; form 2 can have more faults
SHARES = {1: (51, 31, 9, 9), 2: (46, 30, 16, 8)}


def stored(seed, index):
    """The bytes of file number index, in either form: of ten about five sound, three old, two damaged, many of these from old ones."""
    rng = random.Random(f"{seed}/{index}")
    form = rng.choice((1, 2))
    kind = rng.choices(("sound", "old", "damaged", "damaged old"), SHARES[form])[0]
    rows = with_zeros(rng, sound(rng, least=2)) if "old" in kind else sound(rng)
    rows = at_the_limit(rng, rows) if rng.random() < 0.1 else rows
    data = write(rows, form)
    if kind == "damaged old":
        return rng.choice((*OLD_DAMAGES[form], *SIMPLE))(rng, rows, data)
    return rng.choice(DAMAGES[form])(rng, rows, data) if kind == "damaged" else data

"""Fixed chains for requests R-3 and R-5, each with the text that the printing program writes for it, worked out by hand.

Where a number is not a power of two it is one of document 01's own, from case 2 or case 3.
"""
from stored_chain import write

ONE, HALF = "2147483648 -31", "2147483648 -32"
THIRD, TWO_THIRDS = "2863311531 -33", "2863311531 -32"
RING = (  # case 3, state by state
    ("2147483648 -29", "2454267026 -32"), ("2147483648 -30", "2454267026 -33"), (ONE, "2454267026 -34"),
)
EVEN = (ONE, HALF)  # one of two states between which all rates are equal
SURE = (ONE, ONE)  # the only state of its set
PAIR = {(0, 1): 1, (1, 0): 1}


def answer(n, bound, given):
    """The lines of an accepted chain; a state that is not given stands outside the set."""
    lines = [" ".join((str(i), *given.get(i, ("0 0", "0 0")))) for i in range(n)]
    return "\n".join([f"states {n} bound {bound}", *lines]) + "\n"


def refused(first, second):
    return f"refused 6 {first} {second}\n"


def moved(moves, states):
    """The same moves between other states."""
    return {(states[i], states[j]): rate for (i, j), rate in moves.items()}


def line(n, step):
    """Each state leads to the next, or to the one before."""
    return {(i, i + step): i + 1 for i in range(n) if 0 <= i + step < n}


RING_OF_3 = {(0, 1): 2, (1, 2): 4, (2, 0): 8}

# name, order, moves, text
CHAINS = (
    ("case 2 with a state that is left for good", 3, {(0, 1): 3, (1, 0): 1, (2, 0): 5},
     answer(3, 8, {0: (THIRD, "2147483648 -33"), 1: (ONE, "3221225472 -32")})),
    ("one state outside, before the set", 3, {(0, 1): 7, **moved(PAIR, (1, 2))}, answer(3, 8, {1: EVEN, 2: EVEN})),
    ("one state outside, within the set", 3, {(1, 0): 7, **moved(PAIR, (0, 2))}, answer(3, 8, {0: EVEN, 2: EVEN})),
    ("one state outside, after the set", 3, {(2, 1): 7, **PAIR}, answer(3, 8, {0: EVEN, 1: EVEN})),
    ("first and last state outside", 4, {(0, 3): 5, (3, 1): 9, (1, 2): 2, (2, 1): 1},
     answer(4, 8, {1: (HALF, THIRD), 2: (ONE, TWO_THIRDS)})),
    ("the ring of case 3, after two states", 5, {(0, 1): 1, (1, 2): 1, (1, 4): 3, **moved(RING_OF_3, (2, 3, 4))},
     answer(5, 28, dict(zip((2, 3, 4), RING)))),
    ("the ring of case 3, before two states", 5, {(4, 3): 1, (3, 2): 1, (3, 0): 3, **RING_OF_3}, answer(5, 28, dict(enumerate(RING)))),
    ("the ring of case 3, states between", 7, {(0, 3): 1, (2, 6): 1, (4, 2): 3, (6, 5): 1, **moved(RING_OF_3, (1, 3, 5))},
     answer(7, 28, dict(zip((1, 3, 5), RING)))),
    ("a ring outside, one way into the set", 6, {(0, 2): 1, (2, 5): 1, (5, 0): 1, (2, 1): 1, (4, 3): 6, **moved(PAIR, (1, 3))},
     answer(6, 8, {1: EVEN, 3: EVEN})),
    ("two states that lead to two others", 4, {**PAIR, (1, 2): 1, **moved(PAIR, (2, 3))}, answer(4, 8, {2: EVEN, 3: EVEN})),
    ("two states to which two others lead", 4, {**PAIR, (2, 1): 1, **moved(PAIR, (2, 3))}, answer(4, 8, {0: EVEN, 1: EVEN})),
    ("the set is the middle state", 3, {(0, 1): 3, (2, 0): 3}, answer(3, 0, {1: SURE})),
    ("the set is the last state", 3, {(0, 1): 3, (0, 2): 3, (1, 0): 3}, answer(3, 0, {2: SURE})),
    ("64 states, the set is the last", 64, line(64, 1), answer(64, 0, {63: SURE})),
    ("64 states, the set is the first", 64, line(64, -1), answer(64, 0, {0: SURE})),
    ("two sets, two states each", 4, {**PAIR, **moved(PAIR, (2, 3))}, refused(0, 2)),
    ("two sets, one within the other's numbers", 4, {**moved(PAIR, (0, 3)), **moved(PAIR, (1, 2))}, refused(0, 1)),
    ("two sets, one state before that leads into both", 4, {(0, 1): 1, (0, 3): 1, **moved(PAIR, (1, 2))}, refused(1, 3)),
    ("two sets, states outside lead into the second alone", 5, {(0, 4): 1, (1, 0): 1, (3, 1): 1}, refused(2, 4)),
    ("three sets", 6, {(0, 5): 1, (4, 0): 1, **moved(PAIR, (1, 2))}, refused(1, 3)),
    ("three sets, the lowest has the highest state", 6, {(5, 0): 2, (0, 5): 3, (1, 2): 1, **moved(PAIR, (2, 4))}, refused(0, 2)),
    ("64 states, two sets of 32", 64, {(i, (i + 2) % 64): 1 for i in range(64)}, refused(0, 1)),
    ("64 states, the last two are sets", 64, {**line(63, 1), (61, 63): 1}, refused(62, 63)),
    ("64 states without entries", 64, {}, refused(0, 1)),
)


# name, order, moves, the first entry of rate 0 in row order, the text by the rules before request R-5, which is that of the cleaned file
OLD_CHAINS = (
    ("rates of 0 lead out of the set", 4, {**moved(PAIR, (1, 2)), (0, 1): 4, (1, 0): 0, (2, 0): 0, (2, 3): 0, (3, 0): 4}, (1, 0),
     answer(4, 8, {1: EVEN, 2: EVEN})),
    ("a rate of 0 between two states of the set", 3, {(0, 1): 2, (1, 2): 4, (2, 0): 8, (0, 2): 0}, (0, 2),
     answer(3, 28, dict(enumerate(RING)))),
    ("the set is the first state", 3, {(1, 0): 3, (2, 1): 3, (0, 2): 0}, (0, 2), answer(3, 0, {0: SURE})),
    ("64 states, the set is the ring of case 3", 64,
     {**line(64, 1), (9, 10): 0, (33, 34): 0, (62, 61): 0, (62, 63): 0, (63, 8): 1, **moved(RING_OF_3, (9, 33, 62))}, (9, 10),
     answer(64, 28, dict(zip((9, 33, 62), RING)))),
    ("a rate of 0 between two sets", 2, {(0, 1): 0, (1, 0): 0}, (0, 1), refused(0, 1)),
)


def stored(n, moves, form=1):
    return write([[(j, moves[i, j]) for j in range(n) if (i, j) in moves] for i in range(n)], form)


def old_files(form=1):
    """In a form: the name, the bytes, the cleaned bytes, and the text of these."""
    for name, n, moves, _, text in OLD_CHAINS:
        yield name, stored(n, moves, form), stored(n, {move: rate for move, rate in moves.items() if rate}, form), text


def files(form=1):
    """In a form: the name, the bytes and the text of each; old chains as they are, which is 14, and cleaned."""
    for name, n, moves, text in CHAINS:
        yield name, stored(n, moves, form), text
    for (name, data, clean, text), (_, _, _, (row, column), _) in zip(old_files(form), OLD_CHAINS):
        yield name, data, f"refused 14 {row} {column}\n"
        yield f"{name}, cleaned", clean, text


def in_both_forms():
    """The same in form 1, then in form 2."""
    for form in (1, 2):
        for name, data, text in files(form):
            yield f"{name}, form {form}", data, text

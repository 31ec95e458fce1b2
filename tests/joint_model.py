"""A model of two stations side by side (request R-6): the joint chain of two parts, what joining answers, and what every lent place holds
afterwards.

It is written from document 01 and the request alone. The joint chain is built as a table of moves between pairs of states, one part moving
at a time; the rows follow from the table. It gives the lines that crates/joint_run prints for the bytes of two stored chains, of either
form; it writes the joint chain in form 1.
"""
from collections import namedtuple

from chain_model import check, rows_of
from stored_chain import MOST_STATES, Refused, read, write

HELD = 5000  # what every lent place holds before: no start and no column
ROOM, LESS = (65, 4032, 4032), (9, 24, 20)  # lent starts, columns and rates: for every joint chain, and for few

Chain = namedtuple("Chain", "n starts columns rates")


class PartRefused(Exception):
    """A refusal of a part: which one, "first" or "second", and its number and places."""

    def __init__(self, part, refusal):
        super().__init__(f"{part} {refusal}")
        self.part, self.refusal = part, refusal


# ---- chains in rows

def in_rows(rows):
    """The chain of a list of rows of (column, rate)."""
    return Chain(len(rows), *rows_of(len(rows), {(i, j): rate for i, row in enumerate(rows) for j, rate in row}))


def moves_of(chain):
    """The moves of a chain that keeps the rules: from, to, rate."""
    return [(i, chain.columns[p], chain.rates[p]) for i in range(chain.n) for p in range(chain.starts[i], chain.starts[i + 1])]


def listed_rows(chain):
    """Its rows as lists of (column, rate)."""
    entries = list(zip(chain.columns, chain.rates))
    return [entries[begin:end] for begin, end in zip(chain.starts, chain.starts[1:])]


# ---- the joint chain

def pair_moves(first, second):
    """The rates between pairs of states: one part moves with its own rate, and the other stays in its state, whichever that is."""
    table = {}
    for i, k, rate in moves_of(first):
        for j in range(second.n):
            table[(i, j), (k, j)] = rate
    for j, k, rate in moves_of(second):
        for i in range(first.n):
            table[(i, j), (i, k)] = rate
    return table


def joint_chain(first, second):
    """The joint chain of two chains that keep the rules; the pair (i, j) is its state i × b + j."""
    numbers = {(i, j): i * second.n + j for i in range(first.n) for j in range(second.n)}
    n = first.n * second.n
    return Chain(n, *rows_of(n, {(numbers[here], numbers[there]): rate for (here, there), rate in pair_moves(first, second).items()}))


# ---- joining

def check_part(part, chain):
    refusal = check(*chain)
    if refusal:
        raise PartRefused(part, Refused(*refusal))


def joined(first, second, lent):
    """The joint chain; refused by 1 to 4 and 14 of the first part, then of the second, then by 15, then by 5, so many places being lent."""
    check_part("first", first)
    check_part("second", second)
    if first.n * second.n > MOST_STATES:
        raise Refused(15)
    joint = joint_chain(first, second)
    needed = (joint.n + 1, len(joint.columns), len(joint.rates))
    if any(there < need for there, need in zip(lent, needed)):
        raise Refused(5)
    return joint


def outcome(first, second, lent):
    """The joint chain or the refusal, and every lent place of the three slices afterwards."""
    before = [[HELD] * many for many in lent]
    try:
        joint = joined(first, second, lent)
    except (Refused, PartRefused) as refusal:
        return refusal, before
    return joint, [new + old[len(new):] for new, old in zip(joint[1:], before)]


def joining(call):
    """The same for a call, the parts and how many places are lent, with the joint chain in a word."""
    result, slices = outcome(*call)
    return "joined" if isinstance(result, Chain) else str(result), slices


# ---- the program's lines

def part_of(part, data, zeros):
    """The chain that the bytes of a part describe; with zeros by the rules from before request R-5, without 14."""
    try:
        return in_rows(read(data, zeros))
    except Refused as refusal:
        raise PartRefused(part, refusal) from refusal


def kept(places):
    """How many places at the end hold what they held before."""
    return next((many for many, place in enumerate(reversed(places)) if place != HELD), len(places))


def told(first, second, zeros, lent):
    """A line of the program on the bytes of two parts, with so many places lent."""
    try:
        parts = part_of("first", first, zeros), part_of("second", second, zeros)
    except PartRefused as refusal:
        return f"{refusal}\n"
    joint, slices = outcome(*parts, lent)
    result = write(listed_rows(joint)).hex() if isinstance(joint, Chain) else str(joint)
    return " ".join([result, "kept", *(str(kept(places)) for places in slices)]) + "\n"


def lines(pair):
    """Its two lines on a pair: with room for every joint chain, and with less, where joining itself meets rates of 0."""
    first, second = pair
    return told(first, second, False, ROOM) + told(first, second, True, LESS)

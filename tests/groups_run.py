"""The seeded calls for crates/groups_run, sound and broken, each after its length in two bytes, low byte first, and the lines that the
program has to print for them, from groups_model.py. Call number i of seed s is the same on every machine.

The first calls are the edges of requests R-1, R-3 and R-5, each with its verdict worked out by hand (`EDGES`), and bytes that are just no
call; the rest are drawn by chance.
"""
import random

from chain_model import damaged
from generate import CONNECTED, SHAPES, TOP, chain_of, dense, nearly_decomposable, no_moves, order, ring, small_rates, sparse, with_sets, with_zeros
from groups_model import Call, packed, places_needed, told
from worked import all_ones

SEED, COUNT = 1, 400  # of the stored input
ORDER = (1, 2, 3, 4, 14, 13, 12, 11, 5, 6)  # in which the refusals are tried
RING = [[(1, 2)], [(2, 4)], [(0, 8)]]  # case 3 of document 01


# ---- chains, tables and lent places

def call_of(rows, table, lent=None):
    """The call for a chain, with as many places as it needs unless others are given."""
    n = len(rows)
    starts = [sum(map(len, rows[:i])) for i in range(n + 1)]
    columns, rates = ([entry[part] for row in rows for entry in row] for part in (0, 1))
    return Call(n, starts, columns, rates, list(table), tuple(lent or places_needed(n)))


def flat(rows):
    return [number for row in rows for number in row]


def connected(rng, n):
    return rng.choice(CONNECTED)(rng, n)


def groups(rng):
    """A few groups to choose from, or all."""
    return rng.sample(range(16), rng.choice((1, 2, 3, 5, 16)))


def blocks(rng, n):
    """Rows over neighbouring states that hold each state once, from state 0 up."""
    among, firsts = groups(rng), [0, *sorted(rng.sample(range(1, n), rng.randint(0, min(n - 1, 9))))]
    return [[first, after - 1, rng.choice(among)] for first, after in zip(firsts, [*firsts[1:], n])]


def singles(rng, n):
    """A row for each state, the states in any order."""
    among = groups(rng)
    return [[state, state, rng.choice(among)] for state in rng.sample(range(n), n)]


def shuffled(rng, n):
    rows = blocks(rng, n)
    return rng.sample(rows, len(rows))


def falling(rng, n):
    return blocks(rng, n)[::-1]


def whole(rng, n):
    return [[0, n - 1, rng.choice((0, 15, rng.randrange(16)))]]


TABLES = (blocks, singles, singles, shuffled, falling, whole)


def sound_rows(rng, n):
    return rng.choice(TABLES)(rng, n)


# ---- broken tables: each gives the numbers of the table

def cut_short(rng, n, rows):
    return flat(rows)[:-rng.choice((1, 2))]


def cut_row_added(rng, n, rows):
    return flat(rows) + rng.choice(rows)[:rng.choice((1, 2))]


def first_above_last(rng, n, rows):
    row = rng.choice(rows)
    row[0], row[1] = min(TOP, row[1] + 1), row[0]
    return flat(rows)


def state_too_high(rng, n, rows):
    row = rng.choice(rows)
    row[1] = rng.choice((n, n, n + 1, 64, TOP))
    row[0] = rng.choice((row[0], row[1]))
    return flat(rows)


def group_too_high(rng, n, rows):
    rng.choice(rows)[2] = rng.choice((15, 16, 16, 17, 255, TOP))
    return flat(rows)


def row_again(rng, n, rows):
    rows.insert(rng.randint(0, len(rows)), list(rng.choice(rows)))
    return flat(rows)


def rows_that_meet(rng, n, rows):
    """A row that reaches one state or more too far, down or up."""
    row = rng.choice(rows)
    row[0] = max(0, row[0] - rng.choice((0, 1, 1, n)))
    row[1] = min(n - 1, row[1] + rng.choice((0, 1, 1, n)))
    return flat(rows)


def row_left_out(rng, n, rows):
    return flat(rng.sample(rows, rng.randrange(len(rows))))


def row_too_short(rng, n, rows):
    row = rng.choice(rows)
    row[rng.randrange(2)] = rng.randint(*sorted(row[:2]))
    return flat(rows)


def any_rows(rng, n, rows):
    return [rng.randrange(n + 1) for _ in range(rng.randrange(13))]


BROKEN = (cut_short, cut_row_added, first_above_last, state_too_high, group_too_high, row_again, rows_that_meet, row_left_out,
          row_too_short, any_rows)


def some_table(rng, n):
    """The numbers of a table: about half are sound, some have more than one fault."""
    table = flat(sound_rows(rng, n))
    for _ in range(rng.choice((0, 0, 0, 0, 1, 1, 1, 2))):
        whole_rows = [table[at:at + 3] for at in range(0, len(table) - 2, 3)]
        table = rng.choice(BROKEN)(rng, n, whole_rows) if whole_rows else table
    return table


# ---- calls by chance

def some_lent(rng, n):
    """As many places as are needed, or more, or one less of one slice, or any number."""
    exact = places_needed(n)
    kind = rng.choices(("exact", "more", "less", "any"), (50, 30, 15, 5))[0]
    if kind == "more":
        return tuple(need + rng.choice((0, 1, 2, 3, 9, 5000)) for need in exact)
    if kind == "less":
        return one_less(exact, rng.randrange(8))
    return tuple(rng.choice((0, 1, need, need + 1)) for need in exact) if kind == "any" else exact


def one_less(lent, at):
    return tuple(many - (place == at) for place, many in enumerate(lent))


def some_call(rng):
    n = order(rng)
    rows = rng.choice(SHAPES)(rng, n) if rng.random() < 0.7 else connected(rng, n)
    rows = with_zeros(rng, rows) if n > 1 and rng.random() < 0.15 else rows
    call = call_of(rows, some_table(rng, n), some_lent(rng, n))
    if rng.random() < 0.1:
        return call._replace(**dict(zip(("n", "starts", "columns", "rates"), damaged(rng, *call[:4]))))
    return call


def no_call(rng, data):
    """Bytes that are no call: cut off or longer, or with a length that does not fit."""
    kind = rng.randrange(4)
    if kind == 0:
        return data[:rng.randrange(len(data))]
    if kind == 1:
        return data + bytes(rng.randint(1, 8))
    if kind == 2:
        at = 4 * rng.randint(1, 4)
        return data[:at] + rng.choice((0, 1, TOP)).to_bytes(4, "little") + data[at + 4:]
    return rng.randbytes(rng.randrange(80))


# ---- the edges: their verdicts are worked out by hand

def with_table(n, table, lent=None):
    return lambda rng: call_of(connected(rng, n), table, lent)


def each_alone(n, group=0):
    return [[state, state, group] for state in range(n)]


def accepted(n):
    return f"accepted {(2 * n**3 + 6 * n**2 - 8 * n) // 3}"


def table_edges():
    alone = each_alone(9)
    yield "accepted 28", lambda rng: call_of(RING, [0, 1, 3, 2, 2, 15])
    # the rows: none, one, the last one cut short by one number and by two
    yield "refused 11 0 0", with_table(1, [])
    yield "refused 11 0 0", with_table(5, [])
    yield "accepted 0", with_table(1, [0, 0, 0])
    yield "accepted 8", with_table(2, [0, 1, 9])
    yield "refused 13 0 0", with_table(2, [0])
    yield "refused 13 0 0", with_table(2, [0, 1])
    yield "refused 13 1 0", with_table(2, [0, 0, 0, 1])
    yield "refused 13 1 0", with_table(2, [0, 0, 0, 1, 1])
    yield "refused 13 1 0", with_table(2, [0, 1, 0, 0])
    yield "refused 13 9 0", with_table(9, flat(alone) + [0, 0])
    # the states of a row
    yield "refused 13 1 0", with_table(4, [0, 1, 0, 3, 2, 0])
    yield "refused 13 0 0", with_table(4, [3, 0, 0])
    yield accepted(4), with_table(4, [3, 3, 2, 0, 2, 1])
    yield "refused 13 0 0", with_table(4, [0, 4, 0])
    yield "refused 13 1 0", with_table(4, [0, 3, 0, 4, 4, 0])
    yield "refused 13 1 0", with_table(4, [0, 3, 0, 4, 3, 0])
    yield "refused 13 1 0", with_table(4, [0, 2, 0, 3, TOP, 0])
    yield "refused 13 0 0", with_table(4, [0, TOP, 0])
    yield "refused 13 0 0", with_table(4, [TOP, TOP, TOP])
    yield "refused 13 0 0", with_table(64, [0, 64, 0])
    yield accepted(64), lambda rng: call_of(sparse(rng, 64), [63, 63, 15, 0, 62, 0])
    # the group
    yield accepted(5), with_table(5, [0, 2, 15, 3, 4, 0])
    yield "refused 13 1 0", with_table(5, [0, 2, 15, 3, 4, 16])
    yield "refused 13 0 0", with_table(5, [0, 2, 16, 3, 4, 15])
    yield "refused 13 1 0", with_table(5, [0, 2, 15, 3, 4, TOP])
    # a row with several faults, and more than one bad row
    yield "refused 13 2 0", with_table(9, flat(alone[:2]) + [12, 9, 99] + flat(alone[3:]))
    yield "refused 13 2 0", with_table(9, flat(alone[:2]) + [2, 1, 0] + flat(alone[3:5]) + [5, 5, 16] + flat(alone[6:]) + [8])
    # a state in two rows: the lowest, whichever comes first in the table
    yield "refused 12 3 0", with_table(9, flat(alone + [alone[3]]))
    yield "refused 12 0 0", with_table(9, flat([alone[0]] * 3 + alone))
    yield "refused 12 8 0", with_table(9, flat(alone) + [8, 8, 5])
    yield "refused 12 1 0", with_table(9, flat(alone + [alone[3], alone[1]]))
    yield "refused 12 4 0", with_table(9, [4, 8, 1, 0, 4, 2])
    yield "refused 12 2 0", with_table(9, [0, 8, 1, 2, 6, 2])
    # a state in none: the lowest
    yield "refused 11 0 0", with_table(9, flat(alone[1:]))
    yield "refused 11 8 0", with_table(9, flat(alone[:8]))
    yield "refused 11 2 0", with_table(9, [6, 8, 1, 0, 1, 2, 3, 4, 0])
    # one number is tried over the whole table before the next
    yield "refused 13 7 0", with_table(9, flat([alone[0], alone[0]] + alone[1:6]) + [6, 5, 0, 7, 8, 0])
    yield "refused 13 0 0", with_table(9, flat([[9, 9, 0], alone[0], alone[0]]))
    yield "refused 12 5 0", with_table(9, flat(alone[1:] + [alone[5]]))
    yield "refused 13 1 0", with_table(9, flat([alone[1], [0, 0, 16]]))
    # many rows
    yield "refused 12 0 0", with_table(2, [0, 0, 4] * 700)
    yield "refused 13 5454 0", with_table(2, [0, 0, 4] * 5454 + [0])  # the longest call, 65,532 bytes
    yield "refused 13 300 0", with_table(2, [0, 0, 4] * 300 + [1, 0, 0] * 200)


def with_closed(n, sets, table, lent=None):
    """A call for a chain with these closed sets."""
    return lambda rng: call_of(with_sets(rng, n, sets), table, lent)


def set_edges():
    """Request R-3: states outside the closed set, in groups of their own and with others; as many places are needed as for all states."""
    seven = places_needed(7)
    yield "accepted 0", lambda rng: call_of([[], [(0, 5)]], [0, 0, 1, 1, 1, 2])  # case 6, cleaned
    yield "accepted 8", lambda rng: call_of([[(1, 1)], [(0, 1)], [(0, 1)]], [0, 0, 1, 1, 2, 2])  # case 7
    yield accepted(3), with_closed(7, [[0, 1, 2]], [0, 2, 5, 3, 6, 6])  # the last four in a group of their own
    yield accepted(3), with_closed(7, [[4, 5, 6]], [0, 3, 6, 4, 6, 5])  # the first four
    yield accepted(3), with_closed(7, [[1, 3, 5]], flat(each_alone(7, 9)))  # all in one group
    yield accepted(1), with_closed(7, [[3]], [0, 2, 1, 3, 3, 2, 4, 6, 3])
    yield accepted(6), with_closed(7, [[0, 1, 2, 3, 4, 6]], [6, 6, 0, 5, 5, 15, 0, 4, 7], tuple(need + 2 for need in seven))
    yield accepted(8), lambda rng: call_of(with_sets(rng, 64, [list(range(3, 64, 8))]), flat(singles(rng, 64)))
    yield accepted(63), lambda rng: call_of(with_sets(rng, 64, [list(range(63))]), [0, 62, 2, 63, 63, 3])
    # room for the set alone is not enough: each slice one short, then with the set's places
    for at in range(8):
        yield "refused 5 0 0", with_closed(7, [[2, 3, 4]], [0, 6, 2], one_less(seven, at))
    yield "refused 5 0 0", with_closed(7, [[2, 3, 4]], [0, 6, 2], places_needed(3))
    # several closed sets
    yield "refused 6 0 1", lambda rng: call_of([[], []], [0, 1, 0])
    yield "refused 6 1 4", with_closed(7, [[1, 2, 3], [4, 5]], [0, 6, 2])
    yield "refused 6 2 3", with_closed(7, [[2, 6], [3, 5], [4]], [0, 6, 2])
    yield "refused 6 0 1", lambda rng: call_of(no_moves(rng, 64), [0, 63, 2])
    yield "refused 5 0 0", with_closed(7, [[1], [2]], [0, 6, 2], one_less(seven, 0))
    yield "refused 11 6 0", with_closed(7, [[1], [2]], [0, 5, 2])


def sum_edges():
    """Chains and tables in which the order of a sum shows, rare states and the largest orders."""
    for n in (6, 10, 17, 24, 33):
        yield accepted(n), lambda rng, n=n: call_of(dense(rng, n), flat(rng.sample(each_alone(n, 4), n)))
        yield accepted(n), lambda rng, n=n: call_of(nearly_decomposable(rng, n), flat(singles(rng, n)))
        yield accepted(n), lambda rng, n=n: call_of(small_rates(rng, n), flat(falling(rng, n)))
    for up, down in ((1, TOP), (TOP, 1)):
        rows = chain_of(64, lambda i, j, steps={1: up, -1: down}: steps.get(j - i))
        yield accepted(64), lambda rng, rows=rows: call_of(rows, flat(rng.sample(each_alone(64, 8), 64)))
        yield accepted(64), lambda rng, rows=rows: call_of(rows, [1, 62, 7, 63, 63, 0, 0, 0, 15])
    yield accepted(64), lambda rng: call_of(all_ones(), flat(singles(rng, 64)))
    yield accepted(64), lambda rng: call_of(dense(rng, 64), flat(singles(rng, 64)))
    yield accepted(63), lambda rng: call_of(sparse(rng, 63), flat(shuffled(rng, 63)))


def lent_edges():
    """Each of the eight slices one place short, empty and longer; the others as needed."""
    for n in (1, 3):
        exact = places_needed(n)
        for at in range(8):
            yield "refused 5 0 0", with_table(n, [0, n - 1, 2], one_less(exact, at))
    exact = places_needed(7)
    for at in range(8):
        longer = tuple(need + 3 * (place == at) for place, need in enumerate(exact))
        yield "refused 5 0 0", with_table(7, [0, 6, 2], tuple(need * (place != at) for place, need in enumerate(exact)))
        yield accepted(7), with_table(7, [0, 6, 2], longer)
    yield accepted(7), with_table(7, [3, 6, 2, 0, 2, 1], tuple(need + 4 for need in exact))
    yield accepted(7), with_table(7, [3, 6, 2, 0, 2, 1], (TOP,) * 8)
    yield accepted(64), lambda rng: call_of(ring(rng, 64), [0, 63, 2], (4100, 4100, 70, 70, 70, 70, 20, 20))
    yield "refused 5 0 0", lambda rng: call_of(ring(rng, 64), [0, 63, 2], (4095, 4100, 70, 70, 70, 70, 20, 20))
    yield "refused 5 0 0", with_table(7, [0, 6, 2], (0,) * 8)


def zero_edges():
    """Request R-5: a rate of 0 is 14, with row and column, after 4 over the whole chain and before the table, the lent places and 6."""
    yield "refused 14 0 1", lambda rng: call_of([[(1, 0)], [(0, 5)]], [0, 0, 1, 1, 1, 2])  # case 6
    yield "refused 14 0 1", lambda rng: call_of([[(1, 0)], [(0, 0)]], [0, 1, 0])  # two closed sets too
    yield "refused 14 2 0", lambda rng: call_of([[(1, 2)], [(2, 4)], [(0, 0)]], [0, 2, 16])
    yield "refused 14 1 3", lambda rng: call_of([[(1, 2)], [(2, 1), (3, 0), (4, 0)], [(3, 1)], [(4, 0)], [(0, 8)]], [0, 4, 1], (0,) * 8)
    yield "refused 14 63 62", lambda rng: call_of([*all_ones()[:63], [(62, 0)]], [0, 63, 2])
    yield "refused 14 0 1", lambda rng: call_of([[(j, 0) for j in range(64) if j != i] for i in range(64)], [])
    yield "refused 4 9 9", lambda rng: call_of([[(1, 0)], *([(i + 1, 1)] for i in range(1, 10))], [])  # a zero rate in row 0
    yield "refused 4 0 1", lambda rng: call_of([[(1, 0), (1, 1)], []], [0, 1, 0])
    for rate in (256, 2**16, 2**24):
        yield accepted(2), lambda rng, rate=rate: call_of([[(1, rate)], [(0, rate)]], [0, 1, 0])


# for each refusal a change of a sound call of five states that brings it about; for 6 no move leads from the last two states
FAULTS = {
    1: lambda call: call._replace(n=65),
    2: lambda call: call._replace(rates=call.rates[:-1]),
    3: lambda call: call._replace(starts=[1, *call.starts[1:]]),
    4: lambda call: call._replace(columns=[0, *call.columns[1:]]),
    14: lambda call: call._replace(rates=[*call.rates[:5], 0, *call.rates[6:]]),
    13: lambda call: call._replace(table=[4, 4, 16] + call.table),
    12: lambda call: call._replace(table=call.table + [1, 1, 3]),
    11: lambda call: call._replace(table=call.table[3:]),
    5: lambda call: call._replace(lent=one_less(call.lent, 6)),
    6: lambda call: call._replace(starts=[*call.starts[:4], 12, 12], columns=call.columns[:12], rates=call.rates[:12]),
}
PLACES = {6: (3, 4), 12: (1, 0), 14: (1, 2)}


def sound_five(rng):
    return call_of(dense(rng, 5), [0, 0, 4, 1, 4, 3])


def with_faults(*numbers):
    def made(rng):
        call = sound_five(rng)
        for number in numbers:
            call = FAULTS[number](call)
        return call
    return made


def fault_edges():
    """Each refusal alone, and each two at once: the earlier one in the order is given."""
    for at, first in enumerate(ORDER):
        place, other = PLACES.get(first, (0, 0))
        yield f"refused {first} {place} {other}", with_faults(first)
        for second in ORDER[at + 1:]:
            yield f"refused {first} {place} {other}", with_faults(second, first)


def frame_edges():
    """Bytes that are just no call: none, too few, a length or a number more or less; and a call without any list."""
    data = packed(call_of(RING, [0, 2, 1]))
    one_more_table, huge = (data[:16] + many.to_bytes(4, "little") + data[20:] for many in (4, TOP))
    for wrong in (b"", data[:48], data[:-1], data[:-4], data + b"\0", data + bytes(4), one_more_table, huge):
        yield "unreadable", lambda rng, wrong=wrong: wrong
    yield "refused 1 0 0", lambda rng: bytes(52)


EDGES = (*table_edges(), *set_edges(), *zero_edges(), *sum_edges(), *lent_edges(), *fault_edges(), *frame_edges())


# ---- the input

def call_bytes(seed, index):
    """The bytes of call number index; some are no call."""
    rng = random.Random(f"groups {seed}/{index}")
    if index < len(EDGES):
        made = EDGES[index][1](rng)
        return made if isinstance(made, bytes) else packed(made)
    data = packed(some_call(rng))
    return no_call(rng, data) if rng.random() < 0.04 else data


def framed(data):
    assert len(data) < 2**16
    return len(data).to_bytes(2, "little") + data


def stored():
    """The standard input and output of crates/groups_run."""
    calls = [call_bytes(SEED, index) for index in range(COUNT)]
    return b"".join(map(framed, calls)), "".join(map(told, calls)).encode()

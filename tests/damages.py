"""Damages of stored files, of either form, for the generator. Each takes a chain and its file, and gives the damaged file.

`pieces` writes a file in its own way, with faults in it if so asked; tests/form_checks.py holds it to the model.
"""
from collections import namedtuple
from itertools import accumulate

from stored_chain import LEAD, LONGEST, MOST_STATES, form_and_order, map_bytes, other, write

# a part of a file: its kind (order, map, marks, short or long), its row, its place in the file and its bytes
Piece = namedtuple("Piece", "kind row at data")


def form_of(data):
    return form_and_order(data[0])[0]


def bit_map(n, bits):
    return sum(1 << bit for bit in set(bits)).to_bytes(map_bytes(n), "little")


def pieces(rows, form, bad=(), loose=(), unmarked=()):
    """The file of a chain, piece by piece. Faults, each a row and a bit: bits more in the maps, bits more in the second maps, and short
    rates that are not marked and have four bytes."""
    n, made = len(rows), [("order", 0, bytes([LEAD[form] + len(rows)]))]
    for i, row in enumerate(rows):
        marks = [j for j, rate in row if form == 2 and rate < 2**16 and (i, j) not in unmarked]
        made.append(("map", i, bit_map(n, [j for j, _ in row] + [bit for at, bit in bad if at == i])))
        if form == 2:
            made.append(("marks", i, bit_map(n, marks + [bit for at, bit in loose if at == i])))
        made += [("short", i, rate.to_bytes(2, "little")) if j in marks else ("long", i, rate.to_bytes(4, "little")) for j, rate in row]
    places = [0, *accumulate(len(data) for _, _, data in made)]
    return [Piece(kind, row, at, data) for at, (kind, row, data) in zip(places, made)]


def joined(made):
    return b"".join(piece.data for piece in made)


def high_bits(n):
    """The bits of a map that no state has."""
    return range(n, 8 * map_bytes(n))


def with_bits(data, rows, row, bits, kind="map"):
    """The file with these bits more in the map of a row, or in its second one."""
    (at,) = (piece.at for piece in pieces(rows, form_of(data)) if (piece.kind, piece.row) == (kind, row))
    data = bytearray(data)
    for bit in bits:
        data[at + bit // 8] |= 1 << bit % 8
    return bytes(data)


# ---- of either form

def cut(rng, rows, data):
    return data[:rng.randrange(len(data))]


def cut_within(rng, data, among):
    """Cut in one of these pieces, its kind drawn first: some of its bytes are left or none."""
    kind = rng.choice(sorted({piece.kind for piece in among}))
    piece = rng.choice([piece for piece in among if piece.kind == kind])
    return data[:piece.at + rng.randrange(len(piece.data))]


def cut_in_piece(rng, rows, data):
    return cut_within(rng, data, pieces(rows, form_of(data)))


def longer(rng, rows, data):
    return data + rng.randbytes(rng.choice((1, 2, 3, 4, 5, 9, 700)))


def own_bit(rng, rows, data):
    row = rng.randrange(len(rows))
    return with_bits(data, rows, row, [row])


def high_bit(rng, rows, data):
    n = len(rows)
    if n % 8 == 0:
        return own_bit(rng, rows, data)
    row = rng.randrange(n)
    bits = rng.sample(high_bits(n), rng.randint(1, len(high_bits(n))))
    return with_bits(data, rows, row, bits + rng.choice(([], [row])))


def bad_bit_then_cut(rng, rows, data):
    """Which comes first, the bit or the end, depends on where the cut falls."""
    data = rng.choice((own_bit, high_bit))(rng, rows, data)
    return data[:rng.randrange(1, len(data))]


def order_byte(rng, rows, data):
    """The first byte of no form."""
    first = rng.choice((0, 65, 65, 128, 128, 193, 193, 255, rng.randint(65, 128), rng.randint(193, 255)))
    return bytes([first]) + rng.choice((b"", data[1:]))


def other_order(rng, rows, data):
    return bytes([rng.choice(tuple(LEAD.values())) + rng.randint(1, MOST_STATES)]) + data[1:]


def other_form(rng, rows, data):
    """The first byte of the other form."""
    return bytes([LEAD[other(form_of(data))] + len(rows)]) + data[1:]


def flipped(rng, rows, data):
    data = bytearray(data)
    for _ in range(rng.choice((1, 1, 3))):
        data[rng.randrange(len(data))] ^= 1 << rng.randrange(8)
    return bytes(data)


def random_bytes(rng, rows, data):
    return rng.randbytes(rng.randrange(40))


def longest(form):
    """The longest file of a form: 64 states, with every entry there can be, and each rate 65,536."""
    data = write([[(j, 2**16) for j in range(MOST_STATES) if j != i] for i in range(MOST_STATES)], form)
    assert len(data) == LONGEST[form]
    return data


def overlong(rng, rows, data):
    """The longest file of the form with one byte too many, and longer than the program need read."""
    return longest(form_of(data)) + bytes(rng.choice((1, 2, 20000)))


def empty(rng, rows, data):
    return b""


SIMPLE = (cut, cut, cut, longer, own_bit, high_bit, high_bit, bad_bit_then_cut)
DAMAGES = {1: (*SIMPLE, order_byte, order_byte, order_byte, other_order, other_form, flipped, flipped, random_bytes, overlong, empty)}


# ---- of form 2 (request R-8)

def mark_flipped(rng, rows, data):
    """A bit of a second map turned round, and nothing else: what follows is read otherwise."""
    piece, data = rng.choice([piece for piece in pieces(rows, 2) if piece.kind == "marks"]), bytearray(data)
    data[piece.at + rng.randrange(len(piece.data))] ^= 1 << rng.randrange(8)
    return bytes(data)


def second_map_cut(rng, rows, data):
    """Of a second map some bytes are left, or none; half of them with a bad bit in the map before."""
    piece = rng.choice([piece for piece in pieces(rows, 2) if piece.kind == "marks"])
    data = with_bits(data, rows, piece.row, [rng.choice((piece.row, *high_bits(len(rows))))]) if rng.random() < 0.5 else data
    return cut_within(rng, data, [piece])


def marks_left_out(rng, rows, data):
    """Short rates with four bytes and no mark: one of them, or all."""
    short = [(i, j) for i, row in enumerate(rows) for j, rate in row if rate < 2**16]
    return joined(pieces(rows, 2, unmarked=rng.choice(([rng.choice(short)], short)))) if short else mark_flipped(rng, rows, data)


def mark_left_out_first(rng, rows, data):
    """A short rate with four bytes and no mark; the next rate of its row is 0 or cut short."""
    places = [(i, k) for i, row in enumerate(rows) for k, (_, rate) in enumerate(row[:-1]) if rate < 2**16]
    if not places:
        return marks_left_out(rng, rows, data)
    i, k = rng.choice(places)
    (j, _), (after, _) = rows[i][k:k + 2]
    if rng.random() < 0.5:
        rows = [[(column, 0 if (row, column) == (i, after) else rate) for column, rate in entries] for row, entries in enumerate(rows)]
        return joined(pieces(rows, 2, unmarked=[(i, j)]))
    made = pieces(rows, 2, unmarked=[(i, j)])
    piece = [piece for piece in made if piece.row == i and piece.kind in ("short", "long")][k + 1]
    return joined(made)[:piece.at + rng.randrange(len(piece.data))]


def long_rate_marked(rng, rows, data):
    """Of a long rate the two low bytes, with a mark: a file of another chain, or a zero rate."""
    long = [(i, j) for i, row in enumerate(rows) for j, rate in row if rate >= 2**16]
    if not long:
        return mark_flipped(rng, rows, data)
    place = rng.choice(long)
    return write([[(j, rate % 2**16 if (i, j) == place else rate) for j, rate in row] for i, row in enumerate(rows)], 2)


def loose_bit(rng, rows, data):
    """A bit in a second map that has no rate, or two."""
    row = rng.randrange(len(rows))
    return with_bits(data, rows, row, [rng.choice(rng.choice(loose_bits(rows, row))) for _ in range(rng.choice((1, 1, 2)))], "marks")


def loose_bits(rows, row):
    """Where they can stand, below n, at the row itself, at n or above: those of these kinds that there are."""
    n, columns = len(rows), [j for j, _ in rows[row]]
    return [bits for bits in ([j for j in range(n) if j != row and j not in columns], [row], high_bits(n)) if bits]


def some_fault(rng, rows, i):
    """A fault of row i and its bit, or two: bad bits of its map, loose ones of its second map, marks left out, or rates that become 0."""
    short = [j for j, rate in rows[i] if rate < 2**16]
    kinds = [("bad", [i, *high_bits(len(rows))]), *(("loose", bits) for bits in loose_bits(rows, i))]
    kinds += [("unmarked", short)] * 2 if short else []
    kinds += [("zero", [j for j, _ in rows[i]])] if rows[i] else []
    kind, bits = rng.choice(kinds)
    return kind, [(i, bit) for bit in rng.sample(bits, min(len(bits), rng.choice((1, 1, 2))))]


def with_faults(rng, rows, places):
    """The file in pieces, with a fault in each of these rows."""
    faults = {"bad": [], "loose": [], "unmarked": [], "zero": []}
    for row in places:
        kind, found = some_fault(rng, rows, row)
        faults[kind] += found
    zeros = faults.pop("zero")
    return pieces([[(j, 0 if (i, j) in zeros else rate) for j, rate in row] for i, row in enumerate(rows)], 2, **faults)


def several(rng, rows, data):
    """One to three faults, in one row or two that follow each other, so that their order shows; many are cut there, or longer."""
    here, last = rng.randrange(len(rows)), len(rows) - 1
    made = with_faults(rng, rows, [min(here + rng.choice((0, 0, 1)), last) for _ in range(rng.choice((1, 2, 2, 3)))])
    end = rng.choice(("whole", "cut", "cut", "longer"))
    if end == "cut":
        return cut_within(rng, joined(made), [piece for piece in made if piece.kind != "order" and 0 <= piece.row - here <= 1])
    return longer(rng, rows, joined(made)) if end == "longer" else joined(made)


def fault_cut_short(rng, rows, data):
    """A fault in a piece of which some bytes are left, so that the end comes before what those say."""
    row = rng.randrange(len(rows))
    made = with_faults(rng, rows, [row])
    changed = [new for new, old in zip(made, pieces(rows, 2)) if new.data != old.data and new.row == row and len(new.data) > 1]
    if not changed:
        return cut_in_piece(rng, rows, data)
    piece = rng.choice(changed)
    return joined(made)[:piece.at + rng.randint(1, len(piece.data) - 1)]


MARK_DAMAGES = (mark_flipped, *[second_map_cut] * 3, marks_left_out, *[mark_left_out_first] * 3, long_rate_marked, *[loose_bit] * 3, cut_in_piece,
                *[fault_cut_short] * 2, *[several] * 5)
DAMAGES[2] = (*DAMAGES[1], *2 * MARK_DAMAGES)


# ---- of an old file, near an entry of rate 0 (request R-5)

def zero_places(rows):
    """The entries of rate 0: the row and the column."""
    return [(i, j) for i, row in enumerate(rows) for j, rate in row if rate == 0]


def zero_bytes(rng, rows, data):
    """Of some rate of 0 where it begins in the file and where it ends, and where its row ends."""
    made = pieces(rows, form_of(data))
    zero = rng.choice([piece for piece in made if piece.kind in ("short", "long") and not any(piece.data)])
    return zero.at, zero.at + len(zero.data), max(piece.at + len(piece.data) for piece in made if piece.row == zero.row)


def cut_after_zero(rng, rows, data):
    """The zero rate is read before the end, in the same row or right behind it."""
    _, at, end = zero_bytes(rng, rows, data)
    return data[:rng.randint(at, max(at, end - 1))]


def cut_within_zero(rng, rows, data):
    """Of the zero rate all bytes but one are left, or fewer, or none."""
    begin, end, _ = zero_bytes(rng, rows, data)
    return data[:rng.choice((*range(begin, end), end - 1, end - 1))]


def bit_in_its_row(rng, rows, data):
    """A bad bit in the map before the zero rate."""
    i, _ = rng.choice(zero_places(rows))
    return with_bits(data, rows, i, [rng.choice((i, *high_bits(len(rows))))])


def later_row(rng, rows):
    """A row behind that of a zero rate, or its own if that is the last."""
    return rng.randint(min(rng.choice(zero_places(rows))[0] + 1, len(rows) - 1), len(rows) - 1)


def bit_in_a_later_row(rng, rows, data):
    row = later_row(rng, rows)
    return with_bits(data, rows, row, [row])


def zero_unmarked(rng, rows, data):
    """Form 2, some zero rate with four bytes and no mark."""
    return joined(pieces(rows, 2, unmarked=[rng.choice(zero_places(rows))]))


def loose_bit_in_its_row(rng, rows, data):
    """Form 2, a bit without its rate in the second map before the zero rate."""
    i, _ = rng.choice(zero_places(rows))
    return with_bits(data, rows, i, [rng.choice(rng.choice(loose_bits(rows, i)))], "marks")


def loose_bit_in_a_later_row(rng, rows, data):
    row = later_row(rng, rows)
    return with_bits(data, rows, row, [rng.choice(rng.choice(loose_bits(rows, row)))], "marks")


OLD_DAMAGES = {1: (cut_after_zero, cut_after_zero, cut_within_zero, cut_within_zero, bit_in_its_row, bit_in_its_row, bit_in_a_later_row,
                   bit_in_a_later_row, longer, longer)}
OLD_DAMAGES[2] = (*OLD_DAMAGES[1], *[zero_unmarked] * 3, loose_bit_in_its_row, loose_bit_in_a_later_row, several, several)

"""The input and the expected output of crates/storage_run: a few hundred generated files of both forms, each after its length in two bytes,
low byte first, and the lines on each, from stored chains in Python (python/stored_chain.py)."""
import random

from damages import MARK_DAMAGES, longest, with_bits
from stored_chain import LONGEST_FILE, Refused, map_bytes, read_form, write

SEED = 20261115
ORDERS = [1, 2, 3, 4, 5, 7, 8, 9, 10, 15, 16, 17]
RATES = [1, 3, 255, 256, 65535, 65536, 2**24, 2**31, 2**32 - 1]
# request R-5: a zero rate before and behind every other fault, and rates with zero bytes
ZERO_RATES = ["0202000000000105000000", "02020000000001050000", "0202000000", "020200000000", "0202000000000205000000", "02030000000000000000",
              "02060000000005000000", "0201050000000100000000", "020205000000010000000000", "030607000000000000000500000000",
              "0306000000000700", "0306070000000000", "0306070000000000000000", "0202000100000100000100", "0202000000010100000080"]
# request R-8: the same, and marks, in form 2
FORM_2 = ["820202030001010100", "81", "80", "c0", "c1", "8100", "810000", "81000000", "820101", "8202", "8203", "820002", "820203", "820206", "820006",
          "82020003000000", "82020200", "8202020000", "8202000000000000", "82020000000000", "820200000000", "8202000300", "820202030001", "82020203000101",
          "8302020200040404000101ffff", "8302020200040004000000", "830206030004000000", "8306060500000000", "83060405000000", "8306040500000007",
          "8302020000000400", "890201020100000000", "8902010201010002", "89020102", "890201"]
LESS = (9, 20, 12, 40)  # lent starts, columns, rates and bytes


def line(data, starts, columns, rates, out):
    """What the program writes of a file where so many places are lent: its chain and form and whether it is written back the same, or a refusal."""
    try:
        form, rows = read_form(data)
        order, entries = len(rows), sum(map(len, rows))
        if starts < order + 1 or min(columns, rates) < entries:
            raise Refused(5)
    except Refused as refusal:
        return f"{refusal}\n"
    written = write(rows, form)
    end = Refused(5) if out < len(written) else "same" if written == data else "other"
    return f"chain {order} {entries} {form} {end}\n"


def lines(data):
    """With room for every chain, and with less."""
    return line(data, 65, 4032, 4032, LONGEST_FILE) + line(data, *LESS)


def some_chain(rng, n):
    """About a third have rates of 0."""
    density, zeros = rng.choice([0, 0.1, 0.3, 0.7, 1]), rng.choice([0, 0, 0.1])

    def rate():
        return 0 if rng.random() < zeros else rng.choice(RATES + [rng.randrange(1, 2**16), rng.randrange(1, 2**32)])

    return [[(j, rate()) for j in range(n) if j != i and rng.random() < density] for i in range(n)]


def with_bit(rng, rows, form):
    """The file of a chain with one bit more in a map of some row, the second one too: its own, or one at n or above."""
    n = len(rows)
    i = rng.randrange(n)
    bit = rng.choice([i] + list(range(n, 8 * map_bytes(n))))
    return with_bits(write(rows, form), rows, i, [bit], rng.choice(["map", "marks"][:form]))


def longest_files():
    """The longest of each form, one byte more and one less; and every entry with a short rate."""
    for form in (1, 2):
        yield from (longest(form), longest(form) + b"\0", longest(form)[:-1])
    yield write([[(j, 2**16 - 1) for j in range(64) if j != i] for i in range(64)], 2)


# states, short rates and long ones of chains that in form 1 or in form 2 just fit into 40 bytes, or just do not; no file of form 2 has 40
EDGES = ((7, 0, 8), (8, 0, 8), (4, 0, 9), (8, 0, 7), (7, 12, 0), (7, 11, 1), (7, 10, 1), (5, 10, 2), (5, 9, 3), (8, 11, 0), (8, 12, 0), (8, 13, 0),
         (8, 0, 0), (9, 0, 0), (6, 3, 3), (3, 6, 0))


def edge_files():
    """Each in both forms: where both fit, one of them or neither."""
    fitting = set()
    for n, short, long in EDGES:
        places = [(i, j) for i in range(n) for j in range(n) if i != j]
        moves = dict(zip(places, [65535] * short + [65536] * long))
        both = [write([[(j, moves[i, j]) for j in range(n) if (i, j) in moves] for i in range(n)], form) for form in (1, 2)]
        fitting.add(tuple(len(data) <= LESS[-1] for data in both))
        yield from both
    assert len(fitting) == 4


def files(rng):
    for text in ["0202030000000101000000", "", "00", "41", "ff", "40", "0101", "010000", "0100", "020203", "02", "0202", *ZERO_RATES, *FORM_2]:
        yield bytes.fromhex(text)
    yield from longest_files()
    yield from edge_files()
    for turn in range(126):
        form, n = 1 + turn % 2, ORDERS[turn // 2 % len(ORDERS)] if turn < 120 else rng.choice([24, 25, 33, 63, 64])
        rows = some_chain(rng, n)
        data = write(rows, form)
        assert read_form(data, zeros=True) == (form, rows)
        yield data
        yield data[: rng.randrange(len(data))]
        yield data + bytes([rng.randrange(256)])
        yield with_bit(rng, rows, form)
        if form == 2:
            yield from (rng.choice(MARK_DAMAGES)(rng, rows, data) for _ in range(2))
    for _ in range(80):
        yield bytes([rng.choice([0, 128]) + rng.randrange(1, 12)]) + rng.randbytes(rng.randrange(30))


def stored():
    """Its standard input and output."""
    made = list(files(random.Random(SEED)))
    texts = list(map(lines, made))
    numbers = {text.split()[1] for text in texts if text.startswith("refused")}
    assert numbers == {"1", "8", "9", "10", "14", "16"}, numbers
    return b"".join(len(data).to_bytes(2, "little") + data for data in made), "".join(texts).encode()

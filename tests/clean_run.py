"""The input and the expected output of crates/clean and crates/clean_run, from stored chains in Python (python/stored_chain.py).

clean reads the longest file, of form 2 with all of its rates in four bytes, and one byte more: that it is refused by 10 shows that the
program reads one byte beyond the longest file. clean_run reads files, each after its length in two bytes, low byte first: those worked out
by hand, the fixed files of requests R-3 and R-5 and their cleaned twins in both forms, the examples, the longest files with and without
zero rates, zero rates at the edges of the orders, and generated files. It writes for each what clean writes, with nothing in between.
"""
import random
from pathlib import Path

import closed_files
from damages import joined, longest, pieces, with_bits, zero_places
from generate import SHAPES, at_the_limit, chain_of, stored as generated, with_zeros
from stored_chain import LONGEST, LONGEST_FILE, cleaned, write
from worked import CLEANED, PRINTED, cleaned_bytes

ROOT = Path(__file__).resolve().parent.parent
ORDERS = (2, 7, 8, 9, 16, 17, 63, 64)  # a map has one byte up to 8 states, two up to 16
SEED, COUNT = 1, 80  # of the generated files


def full(rate, form=1):
    """64 states, with every entry there can be."""
    return write(chain_of(64, rate), form)


def without_zeros(rate, form):
    """The same without the entries of rate 0."""
    return write(chain_of(64, lambda i, j: rate(i, j) or None), form)


def odd_columns(i, j):
    return j % 2


def ring(i, j):
    return int(j == (i + 1) % 64)


def worked_files():
    """Bytes, and what the program writes for them, worked out by hand."""
    for _, text, expected in CLEANED:
        yield bytes.fromhex(text), cleaned_bytes(expected)
    for form in (1, 2):
        for _, data, clean, _ in closed_files.old_files(form):
            yield data, clean
            yield clean, clean
    no_rates = full(lambda i, j: 0)
    assert len(no_rates) == LONGEST[1]
    yield no_rates, bytes([64]) + bytes(64 * 8)
    yield no_rates + b"\0", b"refused 10 0 0\n"  # no rate of 0 stops the reading
    yield full(lambda i, j: 0, 2), bytes([192]) + bytes(64 * 16)
    for form in (1, 2):
        yield longest(form), longest(form)
        for rate in (odd_columns, ring):
            yield full(rate, form), without_zeros(rate, form)
    # in form 2 the last rate of all, which is 0, is not marked
    yield joined(pieces(chain_of(64, lambda i, j: int((i, j) != (63, 62))), 2, unmarked=[(63, 62)])), b"refused 16 63 62\n"


def edges(rng):
    """Of each order a chain with zero rates in both forms, of 63 in form 1 and of 64 in form 2: its file, with its last byte cut off, with one
    more, and with a bad bit in its last map; in form 2 also with a bit of the last second map that has no rate, and with a zero rate unmarked."""
    for n in ORDERS:
        for form in (1, 2) if n < 63 else (n - 62,):
            rows = with_zeros(rng, at_the_limit(rng, rng.choice(SHAPES)(rng, n)))
            data = write(rows, form)
            yield from (data, data[:-1], data + b"\0", with_bits(data, rows, n - 1, [n - 1]))
            if form == 2:
                yield with_bits(data, rows, n - 1, [n - 1], "marks")
                yield joined(pieces(rows, 2, unmarked=[rng.choice(zero_places(rows))]))


def files():
    for data, expected in worked_files():
        assert cleaned(data) == expected, data.hex()
        yield data
    yield from (bytes.fromhex(text) for _, text, _ in PRINTED)
    yield from (data for _, data, _ in closed_files.in_both_forms())
    yield from (path.read_bytes() for path in sorted(ROOT.joinpath("examples").glob("*.chain")))
    yield from edges(random.Random(SEED))
    yield from (data for data in (generated(SEED, index) for index in range(COUNT)) if len(data) <= LONGEST_FILE + 1)


def stored_case():
    """The standard input and output of crates/clean."""
    data = longest(2) + b"\0"
    assert len(data) == LONGEST_FILE + 1
    return data, cleaned(data)


def stored():
    """The standard input and output of crates/clean_run."""
    made = list(files())
    results = [cleaned(data) for data in made]
    numbers = {int(text.split()[1]) for text in results if text.startswith(b"refused")}
    assert numbers == {1, 8, 9, 10, 16}
    return b"".join(len(data).to_bytes(2, "little") + data for data in made), b"".join(results)

"""The input and the expected output of crates/convert and crates/convert_run, from stored chains in Python (python/stored_chain.py).

convert reads the longest file, of form 2 with all of its rates in four bytes, and writes it in form 1. convert_run reads files, each after
its length in two bytes, low byte first: those worked out by hand in both forms, the longest of each form with a byte more and a byte less,
the fixed files of requests R-3 and R-5 in both forms, the examples, short and long rates at the edges of the orders, and generated files.
It writes for each what convert writes, with nothing in between.
"""
import random
from pathlib import Path

import closed_files
from clean_run import ORDERS, full
from damages import MARK_DAMAGES, longest
from generate import SHAPES, at_the_limit, stored as generated
from stored_chain import LONGEST, LONGEST_FILE, converted, write
from worked import BOTH_FORMS, CLEANED, PRINTED

ROOT = Path(__file__).resolve().parent.parent
SEED, COUNT = 1, 200  # of the generated files


def worked_files():
    """Bytes, and what the program writes for them, worked out by hand."""
    for _, *both in BOTH_FORMS:
        one, two = map(bytes.fromhex, both)
        yield one, two
        yield two, one
    for _, digits, text in PRINTED:
        if text.startswith("refused") and text.split()[1] != "6":
            yield bytes.fromhex(digits), text.encode("ascii")
    for form in (1, 2):
        data = longest(form)
        yield data, longest(3 - form)
        yield data + b"\0", b"refused 10 0 0\n"
        yield data[:-1], b"refused 8 0 0\n"
    # short rates: the longest file of form 1 is not that of form 2
    short = full(lambda i, j: 65535), full(lambda i, j: 65535, 2)
    assert [len(data) for data in short] == [LONGEST[1], 1 + 64 * 16 + 2 * 4032]
    yield short
    yield short[::-1]


def edges(rng):
    """Of each order a chain in both forms, its file of form 2 with its last byte cut off, with one more, and with a damage of its own kind."""
    for n in ORDERS:
        rows = at_the_limit(rng, rng.choice(SHAPES)(rng, n))
        data = write(rows, 2)
        yield from (write(rows), data, data[:-1], data + b"\0", rng.choice(MARK_DAMAGES)(rng, rows, data))


def files():
    for data, expected in worked_files():
        assert converted(data) == expected, data.hex()
        yield data
    yield from (bytes.fromhex(digits) for _, digits, _ in CLEANED)
    yield from (data for _, data, _ in closed_files.in_both_forms())
    yield from (path.read_bytes() for path in sorted(ROOT.joinpath("examples").glob("*.chain")))
    yield from edges(random.Random(SEED))
    yield from (data for data in (generated(SEED, index) for index in range(COUNT)) if len(data) <= LONGEST_FILE + 1)


def stored_case():
    """The standard input and output of crates/convert."""
    data, result = longest(2), longest(1)
    assert (len(data), len(result)) == (LONGEST_FILE, LONGEST[1]) and converted(data) == result
    return data, result


def stored():
    """The standard input and output of crates/convert_run."""
    made = list(files())
    results = [converted(data) for data in made]
    numbers = {int(text.split()[1]) for text in results if text.startswith(b"refused")}
    assert numbers == {1, 8, 9, 10, 14, 16}
    return b"".join(len(data).to_bytes(2, "little") + data for data in made), b"".join(results)

"""The input and the expected output of crates/shares and crates/shares_run, from the models.

shares reads the longest file, of form 2 with all of its rates in four bytes, and one byte more: that it is refused by 10 shows that the
program reads one byte beyond the longest file. shares_run reads the chains worked on paper that have a file, a file for each refusal that
a file can cause, case 10 in both forms and the longest file, the fixed files of requests R-3 and R-5 in both forms and the examples, each
after its length in two bytes, low byte first.
"""
from pathlib import Path

import closed_files
from damages import longest
from elimination_model import printed
from stored_chain import LONGEST_FILE, write
from worked import PRINTED, all_ones

ROOT = Path(__file__).resolve().parent.parent
# more of each refusal but 6 and 14: 1 (order byte above 64), 8 (rates cut short), 9 (a bit at n), 10 (after case 2)
REFUSED = ("ff", "02 02 03000000 01 010000", "02 06 03000000 05000000 00", "02 02 03000000 01 01000000 07")
# 64 states between which all rates are equal: each has the weight 1 and the share 1/64
EVEN = "states 64 bound 182784\n" + "".join(f"{i} 2147483648 -31 2147483648 -37\n" for i in range(64))


def files():
    for _, text, expected in PRINTED:
        data = bytes.fromhex(text)
        assert printed(data) == expected
        yield data
    for data in (write(all_ones()), write(all_ones(), 2), longest(2)):
        assert printed(data) == EVEN
        yield data
    for text in REFUSED:
        yield bytes.fromhex(text)
    for name, data, expected in closed_files.in_both_forms():
        assert printed(data) == expected, name
        yield data
    for path in sorted(ROOT.joinpath("examples").glob("*.chain")):
        yield path.read_bytes()


def stored_case():
    """The standard input and output of crates/shares."""
    data = longest(2) + b"\0"
    assert len(data) == LONGEST_FILE + 1
    return data, printed(data).encode()


def stored():
    """The standard input and output of crates/shares_run."""
    made = list(files())
    texts = [printed(data) for data in made]
    numbers = {int(text.split()[1]) for text in texts if text.startswith("refused")}
    assert numbers == {1, 6, 8, 9, 10, 14, 16}
    return b"".join(len(data).to_bytes(2, "little") + data for data in made), "".join(texts).encode()

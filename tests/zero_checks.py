"""Checks of request R-5 on the models: what was worked out by hand, what cleaning promises, how many generated files hold zero rates,
and slips of reading, of checking and of cleaning, as edits of the models' text."""
from collections import Counter

import closed_files
import worked
from chain_model import ZERO_RATES, check
from elimination_model import printed, printed_with_zeros
from form_checks import AFTER_ROW, BACK, BIT_TEST, CLEAN_FILE, LOOP, LOOSE_TEST, MARK_TEST, MARKS, RATE, TAKEN, ZERO_TEST, refusal_of
from generate import stored
from stored_chain import cleaned


def verdict(data, zeros=False):
    """The number by which a reading refuses these bytes; 0 if it takes them."""
    return (refusal_of(data, zeros) or (0,))[0]


def single_zeros():
    """Chains in which every move stands, with unequal rates and one of 0, at each place in turn: the name, the bytes and the text. In form 2
    the first rates are short and the others long."""
    for form, factor in ((1, 0x01020408), (2, 0x1234)):
        for n in (2, 8, 9):  # a map has one byte up to 8 states
            moves = {(i, j): (n * i + j + 1) * factor for i in range(n) for j in range(n) if i != j}
            for row, column in moves:
                name, text = f"form {form}, {n} states, every move, a zero rate at {row} {column}", f"refused 14 {row} {column}\n"
                data = closed_files.stored(n, {**moves, (row, column): 0}, form)
                clean = closed_files.stored(n, {move: rate for move, rate in moves.items() if move != (row, column)}, form)
                assert printed(data) == text and cleaned(data) == clean, name
                yield name, data, text


def worked_cases():
    for expected, (n, _, starts, columns, rates) in ZERO_RATES:
        assert check(n, starts, columns, rates) == expected, expected
    for name, digits, expected in worked.CLEANED:
        assert cleaned(bytes.fromhex(digits)) == worked.cleaned_bytes(expected), name
    for form in (1, 2):
        for name, data, clean, text in closed_files.old_files(form):
            assert cleaned(data) == clean and printed_with_zeros(data) == text, name
    return (f"{len(ZERO_RATES)} chains and {len(worked.CLEANED)} files with zero rates by hand, {len(closed_files.OLD_CHAINS)} old files of R-3 cleaned "
            f"in both forms, {len(list(single_zeros()))} files with one zero rate")


def promises(seed=1, most=600):
    """The sentences of request R-5 on the cleaning program, by the models of both rules."""
    taken = 0
    for data in (stored(seed, i) for i in range(most)):
        clean, number = cleaned(data), verdict(data, zeros=True)
        assert clean.startswith(b"refused") == (number > 0) and number not in (6, 14), data.hex()
        if number == 0:
            assert printed(clean) == printed_with_zeros(data), data.hex()
            assert verdict(clean) == 0 and cleaned(clean) == clean and len(clean) <= len(data), data.hex()
            assert (clean == data) == (verdict(data) == 0), data.hex()
            taken += 1
    return f"cleaning keeps the shares of {taken} files, changes a clean file in no byte, and makes no file longer"


def zero_files(seed=1, most=2000):
    """Of the files of a run at least a third are refused by 14, and the zero rate stands before each other fault, and behind it."""
    kinds = Counter((verdict(data), verdict(data, zeros=True)) for data in (stored(seed, i) for i in range(most)))
    many = sum(count for (number, _), count in kinds.items() if number == 14)
    assert 3 * many >= most, f"only {many} of {most} files are refused by 14"
    assert 3 * kinds[0, 0] >= most, f"only {kinds[0, 0]} of {most} files are taken"
    assert set(kinds) == {(0, 0), (1, 1), (8, 8), (9, 9), (10, 10), (16, 16), (14, 0), (14, 8), (14, 9), (14, 10), (14, 16)}, kinds
    assert min(kinds.values()) >= most // 200, kinds
    before = ", ".join(f"{kinds[14, number]} before {number}" for number in (8, 9, 10, 16))
    return f"{many} of the first {most} files of seed {seed} are refused by 14, a third at least; of these {before}; {kinds[0, 0]} are taken"


# The reading of all rows, and the test of all rates behind it.
ROWS = "    rows = [read_row(source, form, n, i, zeros) for i in range(n)]\n"
LEFT_OVER = "    if source.at < len(data):\n        raise Refused(10)\n"
ALL_TAKEN = ROWS.replace("zeros", "True")
AFTER_ALL = ("    for i, row in enumerate(rows):\n        for j, rate in row:\n            if rate == 0 and not zeros:\n"
             "                raise Refused(14, i, j)\n")

# Slips of reading, found by what the printing program writes.
READ_SLIPS = (
    (ZERO_TEST, "", "zero rates let through"),
    ("if rate == 0 and not zeros:", "if rate % 2**8 == 0 and not zeros:", "of a rate only the low byte tested"),
    ("if rate == 0 and not zeros:", "if rate % 2**16 == 0 and not zeros:", "of a rate only the two low bytes tested"),
    ("if rate == 0 and not zeros:", "if rate % 2**24 == 0 and not zeros:", "of a rate only the three low bytes tested"),
    ("Refused(14, i, j)", "Refused(14, i, len(row))", "14 names the place in the row"),
    (ZERO_TEST, "        source.met = getattr(source, 'met', -1) + 1\n" + ZERO_TEST.replace("i, j", "i, source.met"), "14 names the entry's place"),
    ("Refused(14, i, j)", "Refused(14, j, i)", "the places of 14 exchanged"),
    (ZERO_TEST + MARK_TEST + TAKEN + BACK, MARK_TEST + TAKEN + AFTER_ROW + ZERO_TEST + BACK, "14 tried after the whole row"),
    (ROWS, ALL_TAKEN + AFTER_ALL, "14 tried after the last row"),
    (ROWS + LEFT_OVER, ALL_TAKEN + LEFT_OVER + AFTER_ALL, "14 tried after 10"),
    (RATE, "        left = source.data[source.at:source.at + (2 if j in marks else 4)]\n"
     "        rate = 0 if left and not any(left) else source.number(2 if j in marks else 4)\n", "zero bytes and the end taken as a zero rate"),
    (BIT_TEST + MARKS + LOOSE_TEST + LOOP, MARKS + LOOSE_TEST + LOOP + BIT_TEST.replace("    for j in columns:\n", ""),
     "a bit tried when its rate's turn comes"),
)
# Slips of checking a chain in memory, found by what crates/chain_run prints.
CHECK_SLIPS = (
    ("            if rates[place] == 0:\n                return 14", "            if False:\n                return 14", "zero rates let through"),
    ("return 14, row, columns[place]", "return 14, row, place", "14 names the entry's place"),
    ("if rates[place] == 0:", "if rates[place] % 256 == 0:", "of a rate only the low byte tested"),
    ("if column >= n or column == row or column <= seen:",
     "if rates[place] == 0:\n                return 14, row, column\n            if column >= n or column == row or column <= seen:",
     "14 tried before 4, entry by entry"),
    ("            seen = column\n", "            seen = column\n            if rates[place] == 0:\n                return 14, row, column\n",
     "14 tried after 4, entry by entry"),
    ("    if len(starts) != n + 1 or starts[0] != 0", "    if 0 in rates and len(columns) > rates.index(0):\n        return 14, 0, columns[rates.index(0)]\n"
     "    if len(starts) != n + 1 or starts[0] != 0", "14 tried before 3"),
)

# Slips of cleaning, found by what the cleaning program writes.
READ_OLD = "form, rows = read_form(data, zeros=True)\n"
CLEAN_SLIPS = (
    (READ_OLD, READ_OLD.replace(", zeros=True", ""), "cleaning says 14"),
    (READ_OLD, READ_OLD + "        solve(rows)\n", "cleaning solves, and says 6"),
    (CLEAN_FILE, "write(rows, form)", "the entry kept"),
    (CLEAN_FILE, CLEAN_FILE.replace("rate > 0", "rate > 1"), "a rate of 1 left out too"),
    (CLEAN_FILE, CLEAN_FILE.replace("rate > 0", "rate % 256 > 0"), "rates whose low byte is 0 left out too"),
    (CLEAN_FILE, "b''.join([data[:1], *(part for row in rows for part in (sum(1 << j for j, _ in row).to_bytes(map_bytes(len(rows)), 'little'), "
     f"*(rate.to_bytes(4, 'little') for _, rate in row if rate)))]) if form == 1 else {CLEAN_FILE}", "the rate dropped and the map's bit kept"),
    (CLEAN_FILE, "write([[(j, rate or 1) for j, rate in row if rate > 0 or row[0][0] == j] for row in rows], form)",
     "a row's first entry kept, with rate 1"),
    (CLEAN_FILE, f"data if any(row and row[-1][1] for row in rows) else {CLEAN_FILE}", "only files cleaned whose rows all end in a zero"),
)

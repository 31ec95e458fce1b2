"""Checks of request R-8 on the models: what was worked out by hand, the sizes and the round trips of both forms, the order of the refusals by a
second reading, which faults the generated files have, and slips of reading, writing, converting and cleaning, as edits of the models' text."""
from collections import Counter, namedtuple
from itertools import islice

import worked
from damages import joined, pieces, zero_places
from elimination_model import printed
from generate import at_the_limit, sound, stored, with_zeros
from stored_chain import LONGEST, LONGEST_FILE, Refused, cleaned, converted, line, read, read_form, write

# a fault of a file: its refusal, and its kind in words
Fault = namedtuple("Fault", "number row bit kind")


# ---- all faults of a file

class End(Exception):
    """The bytes are at their end."""


def bits_of(value):
    return [bit for bit in range(64) if value >> bit & 1]


def place_of(n, row, bit):
    return "at its row" if bit == row else "at n or above" if bit >= n else "below n"


class Reading:
    """A reading that goes on behind each fault: it passes over bits that have no rate, and takes a rate as it stands. Where the bytes end it
    stops; at a piece that is cut short it still looks, as if zero bytes followed."""

    def __init__(self, data):
        self.source, self.whole, self.found = iter(data), True, []
        try:
            self.file()
        except End:
            pass

    def take(self, count, what):
        if not self.whole:
            raise End
        part = list(islice(self.source, count))
        self.whole = len(part) == count
        if not self.whole:
            self.found.append(Fault(8, 0, 0, f"{'within' if part else 'before'} {what}"))
        if not part:
            raise End
        return sum(byte << 8 * place for place, byte in enumerate(part))

    def file(self):
        form, n = divmod(self.take(1, "the first byte"), 128)
        if not 1 <= n <= 64:
            self.found.append(Fault(1, 0, 0, "first byte"))
            return
        for i in range(n):
            self.row(form + 1, n, i)
        if self.whole and next(self.source, None) is not None:
            self.found.append(Fault(10, 0, 0, "bytes left over"))

    def row(self, form, n, i):
        bits = bits_of(self.take((n + 7) // 8, "a map"))
        columns = [bit for bit in bits if bit < n and bit != i]
        self.found += [Fault(9, i, bit, place_of(n, i, bit)) for bit in bits if bit not in columns]
        marks = bits_of(self.take((n + 7) // 8, "a second map")) if form == 2 else []
        self.found += [Fault(16, i, bit, place_of(n, i, bit)) for bit in marks if bit not in columns]
        for j in columns:
            rate = self.take(2, "a short rate") if j in marks else self.take(4, "a long rate")
            if rate == 0:
                self.found.append(Fault(14, i, j, "marked" if j in marks else "not marked"))
            if form == 2 and j not in marks and rate <= 65535:
                self.found.append(Fault(16, i, j, "not marked"))


def faults(data):
    """All faults of a file, in the order in which they are met."""
    return Reading(data).found


# ---- the checks

def refusal_of(data, zeros=False):
    """The refusal of a reading, as a number and two places; None if it takes the bytes."""
    try:
        read(data, zeros)
    except Refused as refusal:
        return (refusal.number, *refusal.places)
    return None


def size(rows, form):
    """The number of bytes by request R-8's words: the first byte, one map or two for each row, and two bytes for a short rate of form 2."""
    maps, rates = len(rows) * ((len(rows) + 7) // 8), [rate for row in rows for _, rate in row]
    short = sum(rate < 65536 for rate in rates) if form == 2 else 0
    return 1 + form * maps + 2 * short + 4 * (len(rates) - short)


def full(rate):
    """64 states, with every entry there can be, all of this rate."""
    return [[(j, rate) for j in range(64) if j != i] for i in range(64)]


def worked_cases():
    for name, *both in worked.BOTH_FORMS:
        one, two = map(bytes.fromhex, both)
        rows = read(one)
        assert read_form(one) == (1, rows) and read_form(two) == (2, rows), name
        assert [write(rows), write(rows, 2)] == [one, two] == [converted(two), converted(one)] == [cleaned(one), cleaned(two)], name
        assert printed(one) == printed(two), name
    refused = [(name, bytes.fromhex(digits), text) for name, digits, text in worked.PRINTED if text.startswith("refused") and text.split()[1] != "6"]
    for name, data, text in refused:
        assert converted(data) == text.encode("ascii"), name
    for rate, sizes in ((1, (16641, 9089)), (65535, (16641, 9089)), (65536, (16641, 17153))):
        assert tuple(len(write(full(rate), form)) for form in (1, 2)) == sizes, rate
    assert (LONGEST[1], LONGEST[2], LONGEST_FILE) == (16641, 17153, 17153)
    return f"{len(worked.BOTH_FORMS)} chains in both forms by hand, the {len(refused)} refused files of the worked cases not converted, the longest files"


def both_forms(rng, many=250):
    """Chains in both forms: the sizes, read again, converted there and back, and written by the generator's own writer."""
    shorter = 0
    for turn in range(many):
        rows = sound(rng, least=2)
        rows = at_the_limit(rng, rows) if turn % 4 == 0 else rows
        files = [write(rows, form) for form in (1, 2)]
        for form, data in zip((1, 2), files):
            assert len(data) == size(rows, form) <= LONGEST[form], rows
            assert read_form(data) == (form, rows) and converted(data) == files[2 - form] and converted(converted(data)) == data, rows
            assert cleaned(data) == data == joined(pieces(rows, form)), rows
        old = with_zeros(rng, rows)
        for form in (1, 2):
            data = write(old, form)
            assert read_form(data, zeros=True) == (form, old) and len(data) == size(old, form) and data == joined(pieces(old, form)), old
            assert read_form(cleaned(data)) == (form, [[(j, rate) for j, rate in row if rate] for row in old]), old
            assert converted(data) == line(Refused(14, *zero_places(old)[0])), old
        shorter += len(files[1]) < len(files[0])
    assert 0 < shorter < many
    return f"{many} chains in both forms, with zero rates and without: sizes, read again, converted there and back; {shorter} are shorter in form 2"


def refusals(seed=1, most=1000):
    """The refusals are the first faults of a second reading, with 14 and without."""
    files = [stored(seed, index) for index in range(most)]
    by_hand = [bytes.fromhex(digits) for _, digits, _ in worked.PRINTED + worked.CLEANED]
    for data in files + by_hand:
        found = [fault[:3] for fault in faults(data)]
        assert refusal_of(data) == next(iter(found), None), data.hex()
        assert refusal_of(data, zeros=True) == next((fault for fault in found if fault[0] != 14), None), data.hex()
    return f"the refusals of {most} generated files and {len(by_hand)} worked out by hand are their first faults, with 14 and without"


# the first fault of a file of form 2 by its kind, and pairs of a first fault and one behind it
KINDS = {*((8, f"{where} {what}") for where in ("before", "within") for what in ("a map", "a second map", "a short rate", "a long rate")),
         (9, "at its row"), (9, "at n or above"), (10, "bytes left over"), (14, "marked"), (14, "not marked"),
         *((16, where) for where in ("below n", "at its row", "at n or above", "not marked"))}
PAIRS = {(8, 14), (8, 16), *((first, behind) for first in (9, 14, 16) for behind in (8, 9, 10, 14, 16) if first != behind)}


# the first bytes of form 1 and form 2, and those between and beside them
FIRST_BYTES = {0: (0, 0), 1: (1, 64), "65 to 128": (65, 128), 2: (129, 192), "193 to 255": (193, 255)}


def first_byte(data):
    """The form that the first byte tells, or another of the names of FIRST_BYTES; of no bytes that there are none."""
    return next(name for name, (low, high) in FIRST_BYTES.items() if low <= data[0] <= high) if data else "none"


def form_files(seed=1, most=2000):
    """Of the files of a run two fifths at least are of each form, and a fifth of form 2 and taken. Each kind of fault is met in form 2, 16 before
    each other fault of bytes and behind each that can come before it."""
    firsts, taken, kinds, pairs, limits = Counter(), 0, Counter(), Counter(), Counter()
    for data in (stored(seed, index) for index in range(most)):
        firsts[first_byte(data)] += 1
        found = faults(data)
        if first_byte(data) == 2 and found:
            (number, _, _, kind), *behind = found
            kinds[number, kind] += 1
            pairs.update((number, later) for later in {fault.number for fault in behind} - {number})
        elif first_byte(data) == 2:
            taken += 1
            limits.update({rate for row in read(data) for _, rate in row} & {65535, 65536})
    assert 5 * min(firsts[1], firsts[2]) >= 2 * most and min(firsts[name] for name in FIRST_BYTES) >= most // 1000, firsts
    assert 5 * taken >= most, f"only {taken} of {most} files are of form 2 and taken"
    assert set(kinds) == KINDS and min(kinds.values()) >= most // 1000, kinds
    assert min(pairs[pair] for pair in PAIRS) >= most // 400, pairs
    assert min(limits[65535], limits[65536]) >= most // 200, limits
    many = sum(count for (number, _), count in kinds.items() if number == 16)
    return (f"{firsts[2]} of the first {most} files of seed {seed} are of form 2, two fifths at least; of these {taken} are taken, {many} refused by 16; "
            f"{len(KINDS)} kinds of faults are met, and {len(PAIRS)} pairs of faults, the one before the other")


# ---- slips

# Pieces of the reading of a row, in their order.
BIT_TEST = "    for j in columns:\n        if j == i or j >= n:\n            raise Refused(9, i, j)\n"
MARKS = "    marks = source.bits(map_bytes(n)) if form == 2 else []\n"
LOOSE_TEST = "    for j in marks:\n        if j not in columns:\n            raise Refused(16, i, j)\n"
LOOP = "    row = []\n    for j in columns:\n"
RATE = "        rate = source.number(2 if j in marks else 4)\n"
ZERO_TEST = "        if rate == 0 and not zeros:\n            raise Refused(14, i, j)\n"
MARK_TEST = "        if form == 2 and (j in marks) != is_short(rate):\n            raise Refused(16, i, j)\n"
TAKEN = "        row.append((j, rate))\n"
BACK = "    return row\n"
AFTER_ROW = "    for j, rate in row:\n"
# Pieces of the others.
FIRST_BYTE = "if lead < first <= lead + MOST_STATES:"
SHORT_MAP = "parts.append(bit_map(j for j, rate in row if is_short(rate)))"
RATE_BYTES = 'rate.to_bytes(2 if form == 2 and is_short(rate) else 4, "little")'
READ_ALL = "form, rows = read_form(data)\n"

# Slips of reading and of writing, found by what the converting program writes.
SLIPS = (
    # the first byte
    ("LEAD = {1: 0, 2: 128}", "LEAD = {1: 0, 2: 64}", "form 2 from byte 65 on"),
    ("in LEAD.items():", "in [(1, 0)]:", "form 2 not read"),
    ("return form, first - lead", "return 1, first - lead", "form 2 read as form 1"),
    (FIRST_BYTE, "if (lead < first or first == lead == 128) and first <= lead + MOST_STATES:", "first byte 128 let through"),
    (FIRST_BYTE, "if lead < first <= lead + MOST_STATES + lead // 128:", "first byte 193 let through"),
    # the marks
    ("return rate < 65536", "return rate <= 65536", "marked at 65,536 too"),
    ("return rate < 65536", "return rate < 65535", "not marked at 65,535"),
    (MARKS, MARKS.replace("source.bits(map_bytes(n))", "columns"), "form 2 without its second maps"),
    (MARKS, MARKS.replace("source.bits(map_bytes(n))", "[source.bits(map_bytes(n)), columns][1]"), "marks from the first map"),
    (MARKS, MARKS.replace("source.bits(map_bytes(n))", "[dict(enumerate(columns)).get(k, 64) for k in source.bits(map_bytes(n))]"),
     "marks by the number of the entry"),
    (MARKS, MARKS.replace("source.bits(map_bytes(n))", "[8 * map_bytes(n) - 1 - j for j in source.bits(map_bytes(n))][::-1]"),
     "marks from the highest bit down"),
    (RATE, RATE.replace("2 if j in marks else 4", "4"), "every rate four bytes long"),
    (RATE, "        rate = 256 * source.number(1) + source.number(1) if j in marks else source.number(4)\n", "short rates high byte first"),
    (RATE, RATE.replace("2 if", "4 if").replace("else 4", "else 2 if form == 2 else 4"), "the marked rates taken for the long ones"),
    # loose bits
    (LOOSE_TEST, "", "loose bits let through"),
    (LOOSE_TEST, LOOSE_TEST.replace("if j", "if j < n and j"), "16 sought below n only"),
    (LOOSE_TEST, LOOSE_TEST.replace("if j", "if j != i and j"), "16 not sought at the row itself"),
    (LOOSE_TEST, LOOSE_TEST.replace("if j not in columns", "if j == i or j >= n"), "16 sought where 9 is sought"),
    (LOOSE_TEST, LOOSE_TEST.replace("16", "9"), "a loose bit called 9"),
    (LOOSE_TEST, LOOSE_TEST.replace("16", "16 if j < n else 9"), "a loose bit at n or above called 9"),
    (LOOSE_TEST, LOOSE_TEST.replace("16", "16 if j != i else 9"), "a loose bit at the row itself called 9"),
    (LOOSE_TEST, LOOSE_TEST.replace("in marks", "in reversed(marks)"), "16 names the highest loose bit"),
    (LOOSE_TEST, LOOSE_TEST.replace("16, i, j", "16, j, i"), "the places of 16 exchanged, of a loose bit"),
    (LOOSE_TEST, LOOSE_TEST.replace("16, i, j", "16"), "16 names no place"),
    # the mark and the rate's size
    (MARK_TEST, "", "a mark that never disagrees"),
    (MARK_TEST, MARK_TEST.replace("16, i, j", "16, j, i"), "the places of 16 exchanged, of a rate"),
    (MARK_TEST, MARK_TEST.replace("i, j)", "i, len(row))"), "16 names the place in the row"),
    (MARK_TEST, MARK_TEST.replace("16", "9"), "a mark that disagrees called 9"),
    # the order of the refusals
    (BIT_TEST + MARKS, MARKS + BIT_TEST, "the second map tried before 9"),
    (BIT_TEST + MARKS + LOOSE_TEST, MARKS + LOOSE_TEST + BIT_TEST, "loose bits tried before 9"),
    (ZERO_TEST + MARK_TEST, MARK_TEST + ZERO_TEST, "16 tried before 14"),
    (LOOSE_TEST + LOOP + RATE + ZERO_TEST + MARK_TEST + TAKEN, LOOP + RATE + ZERO_TEST + MARK_TEST + TAKEN + LOOSE_TEST,
     "loose bits tried after the rates"),
    (MARK_TEST + TAKEN + BACK, TAKEN + AFTER_ROW + MARK_TEST + BACK, "marks tried after the rates of the row"),
    (RATE, "        if form == 2 and j not in marks and 0 < int.from_bytes(source.data[source.at:source.at + 4], 'little') < 65536:\n"
     "            raise Refused(16, i, j)\n" + RATE, "16 tried before a cut in its rate"),
    (MARKS, "    if form == 2 and len(source.data) < source.at + map_bytes(n):\n        raise Refused(16, i, 0)\n" + MARKS, "a second map cut short is 16"),
    # writing
    ("bytes([LEAD[form] + n])", "bytes([n])", "the first byte written without its lead"),
    ("        if form == 2:\n            parts", "        if False:\n            parts", "second maps not written"),
    (SHORT_MAP, SHORT_MAP.replace("if is_short", "if not is_short"), "long rates marked"),
    (SHORT_MAP, SHORT_MAP.replace("j for j, rate in row", "k for k, (_, rate) in enumerate(row)"), "marks written by the number of the entry"),
    (RATE_BYTES, RATE_BYTES.replace("2 if form == 2 and is_short(rate) else 4", "4"), "every rate written in four bytes"),
    (RATE_BYTES, RATE_BYTES.replace('"little"', '"big" if form == 2 and is_short(rate) else "little"'), "short rates written high byte first"),
    # converting
    ("write(rows, other(form))", "write(rows, form)", "converting answers the same form"),
    ("write(rows, other(form))", "write(rows, 2)", "converting answers form 2"),
    ("write(rows, other(form))", "write(rows)", "converting answers form 1"),
    (READ_ALL, READ_ALL.replace("data", "data, zeros=True"), "converting takes zero rates"),
    (READ_ALL, READ_ALL.replace("data", "cleaned(data)"), "converting cleans"),
    (READ_ALL, READ_ALL + "        solve(rows)\n", "converting solves, and says 6"),
    (READ_ALL, READ_ALL.replace("data", "data[:16642]"), "no more bytes read than before"),
)

CLEAN_FILE = "write([[(j, rate) for j, rate in row if rate > 0] for row in rows], form)"


def cleaned_with(in_map, marked, stored_rate):
    """A cleaned file of form 2 in which the map, the second map and the rates leave out what they should or, by True, do not."""
    return ("b''.join([data[:1], *(part for row in rows for part in ("
            f"sum(1 << j for j, rate in row if {in_map}).to_bytes(map_bytes(len(rows)), 'little'), "
            f"sum(1 << j for j, rate in row if is_short(rate) and {marked}).to_bytes(map_bytes(len(rows)), 'little'), "
            f"*(rate.to_bytes(2 if is_short(rate) else 4, 'little') for _, rate in row if {stored_rate})))]) if form == 2 else {CLEAN_FILE}")


# Slips of cleaning files of form 2, found by what the cleaning program writes.
CLEAN_SLIPS = (
    (CLEAN_FILE, CLEAN_FILE.replace(", form)", ")"), "cleaning answers form 1"),
    (CLEAN_FILE, CLEAN_FILE.replace(", form)", ", 2)"), "cleaning answers form 2"),
    (CLEAN_FILE, CLEAN_FILE.replace(", form)", ", other(form))"), "cleaning converts"),
    (CLEAN_FILE, cleaned_with("rate", "True", "rate"), "the mark of a dropped rate kept"),
    (CLEAN_FILE, cleaned_with("True", "rate", "rate"), "the bit of a dropped rate kept in the first map"),
    (CLEAN_FILE, cleaned_with("rate", "rate", "True"), "the bytes of a dropped rate kept"),
    (MARK_TEST, MARK_TEST.replace("form == 2", "form == 2 and rate"), "an unmarked zero rate cleaned as if it were marked"),
    (MARK_TEST, MARK_TEST.replace("form == 2", "form == 2 and not zeros"), "cleaning tries no marks"),
    (ZERO_TEST, ZERO_TEST.replace("not zeros", "(not zeros or form == 2 and j not in marks)"), "cleaning says 14 of an unmarked zero rate"),
    (LOOSE_TEST, LOOSE_TEST.replace("if j not in columns", "if j not in columns and not zeros"), "cleaning takes loose bits"),
)

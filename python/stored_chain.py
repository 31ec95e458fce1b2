"""Stored chains in Python: the chain and the form of given bytes, the bytes of a chain in a form, files cleaned and converted (docs/FORMAT.md).

A chain is a list of rows, each a list of (column, rate) with columns rising. The order is the number of rows. A form is 1 or 2.
"""

MOST_STATES = 64
MOST_RATE = 2**32 - 1
MOST_ENTRIES = MOST_STATES * (MOST_STATES - 1)
LEAD = {1: 0, 2: 128}  # what the first byte has above the order
LONGEST = {1: 16641, 2: 17153}
LONGEST_FILE = 17153
ENOUGH_BYTES = 17154  # so many the programs read


class Refused(Exception):
    """A refusal: its number and its two places."""

    def __init__(self, number, first=0, second=0):
        super().__init__(f"refused {number} {first} {second}")
        self.number, self.places = number, (first, second)


def map_bytes(n):
    return (n + 7) // 8


def is_short(rate):
    """In form 2 such a rate is marked, and takes two bytes."""
    return rate < 65536


def other(form):
    return 3 - form


def form_and_order(first):
    """What the first byte of a file says; Refused by 1 if it is that of no form."""
    for form, lead in LEAD.items():
        if lead < first <= lead + MOST_STATES:
            return form, first - lead
    raise Refused(1)


class Bytes:
    """Bytes taken from the front; Refused by 8 where they end early."""

    def __init__(self, data):
        self.data, self.at = data, 0

    def number(self, count):
        """The next bytes as one number, low byte first."""
        if len(self.data) < self.at + count:
            raise Refused(8)
        self.at += count
        return int.from_bytes(self.data[self.at - count:self.at], "little")

    def bits(self, count):
        """The next bytes as a map: its standing bits, rising."""
        value = self.number(count)
        return [j for j in range(8 * count) if value >> j & 1]


def read_row(source, form, n, i, zeros):
    columns = source.bits(map_bytes(n))
    for j in columns:
        if j == i or j >= n:
            raise Refused(9, i, j)
    marks = source.bits(map_bytes(n)) if form == 2 else []
    for j in marks:
        if j not in columns:
            raise Refused(16, i, j)
    row = []
    for j in columns:
        rate = source.number(2 if j in marks else 4)
        if rate == 0 and not zeros:
            raise Refused(14, i, j)
        if form == 2 and (j in marks) != is_short(rate):
            raise Refused(16, i, j)
        row.append((j, rate))
    return row


def read_form(data, zeros=False):
    """The form of the bytes and their chain; Refused by the first of 8, 1, 9, 14, 16 and 10 that applies, as they are met.

    With zeros these are the rules from before request R-5, without 14: an entry of rate 0 is taken and means no move.
    """
    source = Bytes(data)
    form, n = form_and_order(source.number(1))
    rows = [read_row(source, form, n, i, zeros) for i in range(n)]
    if source.at < len(data):
        raise Refused(10)
    return form, rows


def read(data, zeros=False):
    """The chain alone."""
    return read_form(data, zeros)[1]


def write(rows, form=1):
    """The bytes of a chain that keeps the rules 1 to 4, in a form; rates of 0, which 14 refuses, are written as old files have them."""
    n = len(rows)

    def bit_map(columns):
        return sum(1 << j for j in columns).to_bytes(map_bytes(n), "little")

    parts = [bytes([LEAD[form] + n])]
    for row in rows:
        parts.append(bit_map(j for j, _ in row))
        if form == 2:
            parts.append(bit_map(j for j, rate in row if is_short(rate)))
        parts.extend(rate.to_bytes(2 if form == 2 and is_short(rate) else 4, "little") for _, rate in row)
    return b"".join(parts)


def line(refusal):
    """The one line that a program writes for a refusal. No file begins with its first letter: 114 is the first byte of no form."""
    return f"{refusal}\n".encode("ascii")


def cleaned(data):
    """What the cleaning program writes for these bytes (request R-5), as bytes.

    They are read by the rules without 14. If those refuse, the refusal is all it writes; otherwise it is the file of the chain without
    its entries of rate 0, in the same form (request R-8).
    """
    try:
        form, rows = read_form(data, zeros=True)
    except Refused as refusal:
        return line(refusal)
    return write([[(j, rate) for j, rate in row if rate > 0] for row in rows], form)


def converted(data):
    """What the converting program writes for these bytes (request R-8): the file of their chain in the other form, or their refusal."""
    try:
        form, rows = read_form(data)
    except Refused as refusal:
        return line(refusal)
    return write(rows, other(form))

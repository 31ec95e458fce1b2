"""A model of shares by group (request R-1): the check of a group table, the groups' shares, and what every lent place holds afterwards.

It is written from document 01 and the request alone; chains and shares come from the other models. It gives the text that
crates/groups_run prints for the bytes of any call.
"""
import struct
from collections import Counter, namedtuple
from itertools import groupby

from chain_model import check
from elimination_model import solve, total_of
from stored_chain import Refused

GROUPS = 16
SLICES = ("m", "e", "wm", "we", "sm", "se", "gm", "ge")
ROOM = (4100, 4100, 70, 70, 70, 70, 20, 20)  # the most places of each that the program lends
HELD = 7  # what every lent place holds before the call
HEAD = 13  # the numbers of a call before its lists

# the order, the four lists, and how many places of each of the eight slices are lent
Call = namedtuple("Call", "n starts columns rates table lent")


# ---- the table

def table_rows(table):
    """Three numbers a row; the last row may be cut short."""
    return [table[at:at + 3] for at in range(0, len(table), 3)]


def is_bad(n, row):
    """A row cut short or with first above last, a state of n or more or a group above 15."""
    if len(row) < 3:
        return True
    first, last, group = row
    return first > last or first >= n or last >= n or group > 15


def check_table(n, table):
    """Refused by 13, then 12, then 11, each with the lowest row or state, over the whole table before the next is tried."""
    rows = table_rows(table)
    bad = [number for number, row in enumerate(rows) if is_bad(n, row)]
    if bad:
        raise Refused(13, min(bad))
    held = Counter(state for first, last, _ in rows for state in range(first, last + 1))
    tests = ((12, lambda many: many > 1), (11, lambda many: many == 0))
    for number, wrong in tests:
        states = [state for state in range(n) if wrong(held[state])]
        if states:
            raise Refused(number, min(states))


def states_of(table, group):
    """The states of a group, from the lowest up."""
    return sorted(state for first, last, its in table_rows(table) if its == group for state in range(first, last + 1))


def group_shares(table, shares):
    return [total_of(shares[state] for state in states_of(table, group)) for group in range(GROUPS)]


# ---- the call

def places_needed(n):
    return (n * n, n * n, n, n, n, n, GROUPS, GROUPS)


def chain_rows(call):
    """The chain as a list of rows of (column, rate)."""
    entries = list(zip(call.columns, call.rates))
    return [entries[a:b] for a, b in zip(call.starts, call.starts[1:])]


def solved(call):
    """The bound count and what the needed places of the eight slices hold; Refused by the first of 1, 2, 3, 4, 14, 13, 12, 11, 5, 6."""
    n = call.n
    refusal = check(n, call.starts, call.columns, call.rates)
    if refusal:
        raise Refused(*refusal)
    check_table(n, call.table)
    if any(lent < need for lent, need in zip(call.lent, places_needed(n))):
        raise Refused(5)
    count, weights, shares = solve(chain_rows(call))
    numbers = ([(0, 0)] * (n * n), weights, shares, group_shares(call.table, shares))
    return count, [list(part) for pairs in numbers for part in zip(*pairs)]


def outcome(call):
    """The verdict's line, and every lent place of the eight slices afterwards."""
    before = [[HELD] * lent for lent in call.lent]
    try:
        count, filled = solved(call)
    except Refused as refusal:
        return str(refusal), before
    return f"accepted {count}", [new + old[len(new):] for new, old in zip(filled, before)]


# ---- the program's input and text

def packed(call):
    """The bytes of a call: numbers of four bytes, low byte first."""
    lists = (call.starts, call.columns, call.rates, call.table)
    words = [call.n, *map(len, lists), *call.lent, *(word for part in lists for word in part)]
    return struct.pack(f"<{len(words)}I", *words)


def unpacked(data):
    """The call that these bytes are, with no more places lent than there are, or None if they are none."""
    if len(data) % 4:
        return None
    words = [word for word, in struct.iter_unpack("<I", data)]
    head, rest = words[:HEAD], words[HEAD:]
    if len(head) < HEAD or sum(head[1:5]) != len(rest):
        return None
    lists = []
    for length in head[1:5]:
        lists.append(rest[:length])
        rest = rest[length:]
    return Call(head[0], *lists, tuple(map(min, head[5:], ROOM)))


def runs(places):
    """The places in order, a run of equal ones as its length, x and the place."""
    for place, run in groupby(places):
        many = len(list(run))
        yield f" {many}x{place}" if many > 1 else f" {place}"


def told(data):
    """What crates/groups_run prints for the bytes of a call."""
    call = unpacked(data)
    if call is None:
        return "unreadable\n"
    verdict, slices = outcome(call)
    return "".join([verdict + "\n", *(name + "".join(runs(places)) + "\n" for name, places in zip(SLICES, slices))])

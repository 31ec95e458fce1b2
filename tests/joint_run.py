"""The seeded pairs of stored chains for crates/joint_run, sound and refused, each file after its length in two bytes, low byte first, and
the lines that the program has to print for them, from joint_model.py. Pair number i of seed s is the same on every machine. A part may be
of either form (request R-8); the joint chain is written in form 1.

The first pairs are edges, with both lines worked out by hand (`EDGES`); the rest are drawn by chance.
"""
import random

from closed_files import RING_OF_3, line as line_of, stored as file_of
from damages import DAMAGES, OLD_DAMAGES, longer, order_byte
from generate import CONNECTED, TOP, at_the_limit, loose, no_moves, one_way, order, power_on, settles_in_one, several_sets, with_zeros
from joint_model import LESS, ROOM, lines
from stored_chain import LONGEST_FILE, write

SEED, COUNT = 6, 400  # of the stored input


# ---- edges, worked out by hand

def kept(lent, used):
    return " ".join(["kept", *(str(there - gone) for there, gone in zip(lent, used))])


def joint(n, moves, fits=True):
    """The lines on a pair whose joint chain has n states and these moves; with less room it fits or is refused by 5."""
    used = (n + 1, len(moves), len(moves))
    told = file_of(n, moves).hex()
    return f"{told} {kept(ROOM, used)}", f"{told} {kept(LESS, used)}" if fits else f"refused 5 0 0 {kept(LESS, (0, 0, 0))}"


def refused(told, *by_joining):
    """The lines on a pair that is refused; by joining, in one line or in the other, all lent places are kept."""
    return tuple(f"{told} {kept(lent, (0, 0, 0))}" if lent in by_joining else told for lent in (ROOM, LESS))


def few(entries):
    """So many of the entries that 8 states can have."""
    return dict(list({(i, j): 9 * i + j + 1 for i in range(8) for j in range(8) if i != j}.items())[:entries])


CASE_1, CASE_2, CASE_3 = file_of(1, {}), file_of(2, {(0, 1): 3, (1, 0): 1}), file_of(3, RING_OF_3)
CASE_6, CLEANED_6, CASE_7 = file_of(2, {(0, 1): 0, (1, 0): 5}), file_of(2, {(1, 0): 5}), file_of(3, {(0, 1): 1, (1, 0): 1, (2, 0): 1})
APART, LAST_ZERO = file_of(2, {}), file_of(3, {(0, 1): 2, (1, 2): 4, (2, 0): 0})
CASE_1_SHORT, CASE_2_SHORT, CASE_6_SHORT = file_of(1, {}, 2), file_of(2, {(0, 1): 3, (1, 0): 1}, 2), file_of(2, {(0, 1): 0, (1, 0): 5}, 2)
UNMARKED_6 = bytes.fromhex("82 02 00 00000000 01 01 0500")  # its zero rate in four bytes
TWICE_2 = {(0, 1): 3, (0, 2): 3, (1, 0): 1, (1, 3): 3, (2, 0): 1, (2, 3): 3, (3, 1): 1, (3, 2): 1}
TOO_LARGE = ((5, 13), (13, 5), (2, 33), (33, 2), (2, 64), (64, 2), (64, 64), (8, 9), (9, 8))  # orders whose product is above 64
LARGEST = ((1, 64), (64, 1), (2, 32), (32, 2), (3, 21), (4, 16), (16, 4), (8, 8), (7, 9), (9, 7))

# the files of the parts, and the two lines
JOINED = (
    (CASE_2, CASE_2, joint(4, TWICE_2)),
    (CASE_2_SHORT, CASE_2, joint(4, TWICE_2)),
    (CASE_2, CASE_2_SHORT, joint(4, TWICE_2)),
    (CASE_2_SHORT, CASE_2_SHORT, joint(4, TWICE_2)),
    (CASE_2, CASE_3, joint(6, {(0, 1): 2, (0, 3): 3, (1, 2): 4, (1, 4): 3, (2, 0): 8, (2, 5): 3,
                               (3, 0): 1, (3, 4): 2, (4, 1): 1, (4, 5): 4, (5, 2): 1, (5, 3): 8})),
    (CASE_3, CASE_2, joint(6, {(0, 1): 3, (0, 2): 2, (1, 0): 1, (1, 3): 2, (2, 3): 3, (2, 4): 4,
                               (3, 2): 1, (3, 5): 4, (4, 0): 8, (4, 5): 3, (5, 1): 8, (5, 4): 1})),
    (CASE_1, CASE_1, joint(1, {})),
    (CASE_1, CASE_3, joint(3, RING_OF_3)),
    (CASE_3, CASE_1, joint(3, RING_OF_3)),
    (CLEANED_6, CASE_7, joint(6, {(3, 0): 5, (4, 1): 5, (5, 2): 5, (0, 1): 1, (1, 0): 1, (2, 0): 1, (3, 4): 1, (4, 3): 1, (5, 3): 1})),
    (APART, APART, joint(4, {})),  # four closed sets: 6 is not tried
    (APART, CASE_2, joint(4, {(0, 1): 3, (1, 0): 1, (2, 3): 3, (3, 2): 1})),
    (CASE_2, APART, joint(4, {(0, 2): 3, (1, 3): 3, (2, 0): 1, (3, 1): 1})),
    (file_of(2, {(0, 1): TOP}), file_of(2, {(1, 0): TOP}), joint(4, {(0, 2): TOP, (1, 3): TOP, (1, 0): TOP, (3, 2): TOP})),
    (file_of(8, {(0, 7): TOP}), file_of(8, {(7, 0): 256}),
     joint(64, {**{(j, 56 + j): TOP for j in range(8)}, **{(8 * i + 7, 8 * i): 256 for i in range(8)}}, fits=False)),
    (file_of(2, {(0, 1): 5}), file_of(32, {(31, 0): 6}),
     joint(64, {**{(j, 32 + j): 5 for j in range(32)}, (31, 0): 6, (63, 32): 6}, fits=False)),
    (file_of(32, {(31, 0): 6}), file_of(2, {(0, 1): 5}),
     joint(64, {(62, 0): 6, (63, 1): 6, **{(2 * i, 2 * i + 1): 5 for i in range(32)}}, fits=False)),
    (CASE_1, file_of(64, line_of(64, 1)), joint(64, line_of(64, 1), fits=False)),
    (CASE_1_SHORT, CASE_3, joint(3, RING_OF_3)),
    (file_of(64, line_of(64, 1), 2), CASE_1_SHORT, joint(64, line_of(64, 1), fits=False)),
    (file_of(2, {(0, 1): 65535}, 2), file_of(2, {(1, 0): 65536}, 2), joint(4, {(0, 2): 65535, (1, 3): 65535, (1, 0): 65536, (3, 2): 65536})),
    # just enough room, one entry more than rates, as many as columns, one more; as many states as starts allow, one more
    *((CASE_1, file_of(8, few(many)), joint(8, few(many), fits=many <= 20)) for many in (20, 21, 24, 25)),
    (file_of(8, few(20)), CASE_1, joint(8, few(20))),
    (file_of(2, {}), file_of(4, {}), joint(8, {})),
    (file_of(3, {}), file_of(3, {}), joint(9, {}, fits=False)),
    *((file_of(a, {}), file_of(b, {}), joint(a * b, {}, fits=False)) for a, b in LARGEST),
)
REFUSED = (
    *((file_of(a, {}), file_of(b, {}), refused("refused 15 0 0", ROOM, LESS)) for a, b in TOO_LARGE),
    # each reason of a file, in the first part, in the second, in both; of these 14 alone is met by joining too
    *((*parts, refused(f"{whose} refused {told}"))
      for digits, told in (("", "8 0 0"), ("40", "8 0 0"), ("00", "1 0 0"), ("41", "1 0 0"), ("0101", "9 0 0"), ("010000", "10 0 0"), ("80", "1 0 0"),
                           ("c1", "1 0 0"), ("8202", "8 0 0"), ("8203", "9 0 0"), ("820206", "16 0 2"), ("82020003000000", "16 0 1"), ("81000000", "10 0 0"))
      for bad in [bytes.fromhex(digits)] for whose, parts in (("first", (bad, CASE_2)), ("second", (CASE_2, bad)), ("first", (bad, bad)))),
    (CASE_6, CASE_2, refused("first refused 14 0 1", LESS)),
    (CASE_2, CASE_6, refused("second refused 14 0 1", LESS)),
    (CASE_6_SHORT, CASE_2, refused("first refused 14 0 1", LESS)),
    (CASE_2, CASE_6_SHORT, refused("second refused 14 0 1", LESS)),
    # an unmarked rate of 0 is refused by the reading of old files too
    (UNMARKED_6, CASE_2, ("first refused 14 0 1", "first refused 16 0 1")),
    (CASE_2, UNMARKED_6, ("second refused 14 0 1", "second refused 16 0 1")),
    (CASE_6, UNMARKED_6, ("first refused 14 0 1", "second refused 16 0 1")),
    (LAST_ZERO, CASE_6, refused("first refused 14 2 0", LESS)),
    (CASE_6, LAST_ZERO, refused("first refused 14 0 1", LESS)),
    (file_of(64, {}), LAST_ZERO, refused("second refused 14 2 0", LESS)),  # before 15
    (LAST_ZERO, file_of(64, {}), refused("first refused 14 2 0", LESS)),
    (file_of(64, {}), CASE_6 + b"\0", ("second refused 14 0 1", "second refused 10 0 0")),
    (CASE_6[:-1], CASE_2, ("first refused 14 0 1", "first refused 8 0 0")),
    (CASE_6, b"\0", ("first refused 14 0 1", "second refused 1 0 0")),  # the second part's reading comes before joining
    (file_of(64, {}), b"\0", refused("second refused 1 0 0")),
)
EDGES = JOINED + REFUSED


# ---- pairs by chance

def small_orders(rng):
    return rng.randint(1, 4), rng.randint(1, 4)


def one_state_beside(rng):
    return tuple(rng.sample((1, order(rng)), 2))


def some_orders(rng):
    """Orders whose product is at most 64, as near to it as chance has it."""
    a = rng.choice((2, 3, 4, 5, 6, 7, 8, 9, 10, 12, 16, 21, 32))
    return tuple(rng.sample((a, rng.randint(1, 64 // a)), 2))


def largest_orders(rng):
    return rng.choice(LARGEST[2:])


ORDERS = (small_orders, small_orders, small_orders, one_state_beside, some_orders, some_orders, largest_orders)
SHAPES = (*CONNECTED, *[power_on] * 7, settles_in_one, several_sets, several_sets, loose, one_way, no_moves)


def some_part(rng, n):
    """A chain of n states; of many states mostly one with few moves, so that files stay short."""
    shapes = SHAPES if n <= 16 or rng.random() < 0.2 else CONNECTED[4:6] + CONNECTED[7:]
    return rng.choice(shapes)(rng, n)


def some_form(rng):
    return rng.choice((1, 2))


def some_file(rng, n):
    rows = some_part(rng, n)
    return write(at_the_limit(rng, rows) if rng.random() < 0.1 else rows, some_form(rng))


def some_old(rng, n):
    """With entries of rate 0, unless there is one state."""
    return write(with_zeros(rng, some_part(rng, n)), some_form(rng)) if n > 1 else some_file(rng, n)


def some_damaged(rng, n):
    """Damaged, an old file or another; some damages leave a file that is taken all the same."""
    rows, form = some_part(rng, n), some_form(rng)
    if n > 1 and rng.random() < 0.3:
        rows = with_zeros(rng, rows)
        return rng.choice(OLD_DAMAGES[form])(rng, rows, write(rows, form))
    return rng.choice((*DAMAGES[form], longer, longer, order_byte))(rng, rows, write(rows, form))


def too_large(rng):
    """Orders whose product is above 64: by little, or by much."""
    return rng.choice((*TOO_LARGE[:6], (6, 11), (11, 6), (rng.randint(9, 64), rng.randint(8, 64))))


FAULTS = (some_old, some_damaged, some_damaged)


def some_pair(rng):
    """Two sound files, small enough together or not; or a fault in the first, in the second or in both."""
    kind = rng.choices(("sound", "large", "first", "second", "both"), (56, 9, 11, 13, 11))[0]
    orders = too_large(rng) if kind == "large" or kind != "sound" and rng.random() < 0.2 else rng.choice(ORDERS)(rng)
    makers = [rng.choice(FAULTS) if kind in (part, "both") else some_file for part in ("first", "second")]
    return tuple(make(rng, n)[:LONGEST_FILE + 1] for make, n in zip(makers, orders))


# ---- the input

def pair_of(seed, index):
    """The two files of pair number index."""
    rng = random.Random(f"joint {seed}/{index}")
    return EDGES[index][:2] if index < len(EDGES) else some_pair(rng)


def framed(pair):
    return b"".join(len(data).to_bytes(2, "little") + data for data in pair)


def stored():
    """The standard input and output of crates/joint_run."""
    pairs = [pair_of(SEED, index) for index in range(COUNT)]
    for (first, second, told), pair in zip(EDGES, pairs):
        assert pair == (first, second) and lines(pair) == "".join(f"{line}\n" for line in told), told
    return b"".join(map(framed, pairs)), "".join(map(lines, pairs)).encode()

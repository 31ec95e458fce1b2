"""Checks of request R-6 on the models: what was worked out by hand, the request's sentences by the exact solver, what the seeded pairs meet,
and slips of joining, as edits of the model's text."""
from collections import Counter

from chain_model import FULL_3, damaged, reached, some_chain
from exact_solver import MOST_FOR_TREES, closed_components, exact_weights, in_proportion, weights_by_minors, weights_by_trees
from joint_model import HELD, ROOM, Chain, in_rows, joined, joining, joint_chain, lines, listed_rows
from joint_run import EDGES, ORDERS, pair_of, some_part
from stored_chain import read_form

CASE_1, CASE_2 = Chain(1, [0, 0], [], []), Chain(2, [0, 1, 2], [1, 0], [3, 1])
CASE_3 = Chain(3, [0, 1, 2, 3], [1, 2, 0], [2, 4, 8])

# joint chains worked out by hand
WORKED = (
    (CASE_2, CASE_2, Chain(4, [0, 2, 4, 6, 8], [1, 2, 0, 3, 0, 3, 1, 2], [3, 3, 1, 3, 1, 3, 1, 1])),
    (CASE_2, CASE_3, Chain(6, [0, 2, 4, 6, 8, 10, 12], [1, 3, 2, 4, 0, 5, 0, 4, 1, 5, 2, 3], [2, 3, 4, 3, 8, 3, 1, 2, 1, 4, 1, 8])),
    (CASE_1, CASE_3, CASE_3),
    (CASE_3, CASE_1, CASE_3),
)
CASE_2_TWICE = [8, 24, 24, 72]  # exact weights

# chains in memory, each with its own refusal
BROKEN = (
    ("1 0 0", Chain(0, [0], [], [])),
    ("1 0 0", Chain(65, [1], [1, 0], [0])),
    ("2 0 0", Chain(2, [1], [0, 1], [0])),
    ("3 0 0", Chain(2, [0, 1, 1], [0, 1], [0, 1])),
    ("3 0 0", Chain(2, [0, 1, 2, 2], [1, 0], [0, 1])),
    ("4 1 1", Chain(2, [0, 1, 2], [1, 1], [0, 1])),
    ("4 2 5", Chain(3, FULL_3[0], [1, 2, 0, 2, 0, 2], [0, 1, 1, 1, 1, 1])),
    ("14 0 1", Chain(2, [0, 1, 2], [1, 0], [0, 5])),
    ("14 1 2", Chain(3, *FULL_3, [1, 1, 1, 0, 1, 0])),
)
LARGE = Chain(64, [0] * 65, [], [])  # with any part of two states or more it is too large


def calls_by_hand():
    """The verdict, by hand, the parts, and how many places are lent: each refusal of a part comes before all that is tried after it."""
    for told, broken in BROKEN:
        for other in (CASE_2, LARGE, *(chain for _, chain in BROKEN)):
            yield f"first refused {told}", broken, other, (0, 0, 0)
        for whole in (CASE_2, LARGE):
            yield f"second refused {told}", whole, broken, (0, 0, 0)
    for whole in (CASE_2, LARGE):
        yield "refused 15 0 0", whole, LARGE, (0, 0, 0)
    for lent in ((6, 12, 12), (7, 11, 12), (7, 12, 11), (0, 0, 0)):
        yield "refused 5 0 0", CASE_2, CASE_3, lent
    yield "joined", CASE_2, CASE_3, (7, 12, 12)
    yield "joined", CASE_2, CASE_3, (9, 13, 15)


def worked_cases():
    for first, second, joint in WORKED:
        assert joined(first, second, ROOM) == joint, (first, second)
    twice = listed_rows(joint_chain(CASE_2, CASE_2))
    assert weights_by_trees(twice) == weights_by_minors(twice) == CASE_2_TWICE
    calls = list(calls_by_hand())
    for told, *call in calls:
        verdict, slices = joining(call)
        assert verdict == told, (told, verdict, call)
        assert told == "joined" or slices == [[HELD] * many for many in call[2]], call
    for first, second, told in EDGES:
        assert lines((first, second)) == "".join(f"{line}\n" for line in told), told
    return f"{len(WORKED)} joint chains, {len(EDGES)} pairs of files and {len(calls)} calls by hand, exact weights of case 2 beside itself"


def products(rng, many=400, most=16):
    """The request's sentences: what a joint state reaches, the closed sets, and, up to so many joint states, the exact shares."""
    solved = 0
    for _ in range(many):
        parts = [some_part(rng, n) for n in rng.choice(ORDERS)(rng)]
        joint, b = joint_chain(*map(in_rows, parts)), len(parts[1])
        sets = [reached(*in_rows(part)) for part in parts]
        assert reached(*joint) == [{i * b + j for i in one for j in other} for one in sets[0] for other in sets[1]], parts
        rows, closed = listed_rows(joint), [closed_components(part) for part in parts]
        assert closed_components(rows) == sorted([i * b + j for i in one for j in other] for one in closed[0] for other in closed[1]), parts
        if joint.n <= most and all(len(own) == 1 for own in closed):
            first, second = map(exact_weights, parts)
            assert in_proportion([x * y for x in first for y in second], exact_weights(rows)), parts
            assert joint.n > MOST_FOR_TREES or in_proportion(weights_by_trees(rows), exact_weights(rows)), parts
            solved += 1
    return f"what is reached and the closed sets of {many} joint chains are the products of the parts', and so are the exact shares of {solved}"


def traits(pair):
    """What a pair has to show, in words."""
    full, less = lines(pair).splitlines()
    for text, lent in ((full, "all"), (less, "less")):
        words = text.split()
        if "refused" in words:
            at = words.index("refused")
            yield " ".join((lent, *words[:at + 2], *words[at + 4:at + 5]))
    if "refused" in full:
        return
    forms, parts = zip(*map(read_form, pair))
    orders, closed = [len(part) for part in parts], [closed_components(part) for part in parts]
    yield f"joined, {'one state in a part' if 1 in orders else 'two states or more in each'}"
    yield f"joined, forms {forms[0]} and {forms[1]}"
    if orders[0] * orders[1] == 64:
        yield "joined, 64 states"
    if max(map(len, closed)) > 1:
        yield "joined, a part with several closed sets"
    else:
        outside = [len(part) > len(own[0]) for part, own in zip(parts, closed)]
        yield f"joined, states outside the closed set in {('neither', 'the first', 'the second', 'both')[outside[0] + 2 * outside[1]]}"


def pairs_met(seed=1, most=400):
    """The pairs of a run meet every refusal that files can lead to, of both parts, and every kind of joint chain."""
    met = Counter(trait for index in range(most) for trait in traits(pair_of(seed, index)))
    due = {f"{lent} {part} refused {number}" for lent in ("all", "less") for part in ("first", "second") for number in (1, 8, 9, 10, 16)}
    due |= {f"{lent} {part} refused 14{kept}" for lent, kept in (("all", ""), ("less", " kept")) for part in ("first", "second")}
    due |= {"all refused 15 kept", "less refused 15 kept", "less refused 5 kept", "joined, 64 states", "joined, a part with several closed sets"}
    due |= {f"joined, {what}" for what in ("one state in a part", "two states or more in each")}
    due |= {f"joined, forms {first} and {second}" for first in (1, 2) for second in (1, 2)}
    due |= {f"joined, states outside the closed set in {which}" for which in ("neither", "the first", "the second", "both")}
    assert set(met) == due, set(met) ^ due
    assert min(met.values()) >= 4, met
    joint = met["joined, one state in a part"] + met["joined, two states or more in each"]
    return f"the first {most} pairs of seed {seed} meet {len(due)} kinds of answers and parts, each four times at least; {joint} are joined"


def calls_by_chance(rng, many=400):
    """Calls with chains in memory, of which one or both are damaged, or none; where they can be joined, with about the room that they need."""
    for _ in range(many):
        parts = [in_rows(some_part(rng, n)) for n in rng.choice(ORDERS)(rng)]
        entries = len(joint_chain(*parts).columns)
        lent = [max(0, need + rng.choice((0, 0, 0, 1, -1))) for need in (parts[0].n * parts[1].n + 1, entries, entries)]
        for at in rng.choice(((0,), (1,), (0, 1), (), ())):
            parts[at] = Chain(*(damaged(rng, *some_chain(rng))))
        yield *parts, lent


# Pieces of the joining.
FIRST, SECOND = '    check_part("first", first)\n', '    check_part("second", second)\n'
LARGE_TEST = "    if first.n * second.n > MOST_STATES:\n        raise Refused(15)\n"
BUILT = "    joint = joint_chain(first, second)\n"
ROOM_TEST = ("    needed = (joint.n + 1, len(joint.columns), len(joint.rates))\n    if any(there < need for there, need in zip(lent, needed)):\n"
             "        raise Refused(5)\n")
OTHER_RATES = "rates=(second.rates * len(first.rates) or first.rates)[:len(first.rates)]"

# Slips of joining, found by the lines of the program.
SLIPS = (
    ("i * second.n + j for i", "j * first.n + i for i", "joint state j × a + i"),
    ("i * second.n + j for i", "i * first.n + j for i", "joint state i × a + j"),
    (BUILT, f"    joint = joint_chain(first._replace({OTHER_RATES}), second)\n", "the first part moves with the second's rates"),
    (BUILT, "    joint = joint_chain(second, first)\n", "the parts exchanged"),
    ("    return table\n", "    table.update({((i, j), (k, x)): rate for i, k, rate in moves_of(first) for j, x, _ in moves_of(second)})\n    return table\n",
     "both parts move at once too"),
    ("    return table\n", "    return {((i, j), (k, x)): rate for i, k, rate in moves_of(first) for j, x, _ in moves_of(second)}\n",
     "both parts move at once only"),
    ("        for j in range(second.n):\n", "        for j in range(1):\n", "the first part moves only while the second is in state 0"),
    ("        for i in range(first.n):\n", "        for i in range(first.n - 1):\n", "the second part stands still while the first is in its last state"),
    ("table[(i, j), (k, j)] = rate", "table[(i, j), (k, 0)] = rate", "a move of the first part takes the second to state 0"),
    ("table[(i, j), (i, k)] = rate", "table[(i, k), (i, j)] = rate", "the second part moves backwards"),
    (BUILT, BUILT + "    pairs = zip(joint.starts, joint.starts[1:])\n"
     "    joint = joint._replace(rates=[rate for begin, end in pairs for rate in joint.rates[begin:end][::-1]])\n", "the rates of a row falling"),
    ("first.n * second.n > MOST_STATES", "first.n * second.n >= MOST_STATES", "15 from 64 on"),
    ("first.n * second.n > MOST_STATES", "first.n + second.n > MOST_STATES", "15 by the sum of the orders"),
    ("first.n * second.n > MOST_STATES", "len(first.columns) + len(second.columns) > 64", "15 by the number of entries"),
    (SECOND + LARGE_TEST, LARGE_TEST + SECOND, "15 tried before the second part"),
    (FIRST + SECOND + LARGE_TEST, LARGE_TEST + FIRST + SECOND, "15 tried before the first part"),
    (LARGE_TEST + BUILT + ROOM_TEST, BUILT + ROOM_TEST + LARGE_TEST, "5 tried before 15"),
    (SECOND + LARGE_TEST + BUILT + ROOM_TEST, LARGE_TEST + BUILT + ROOM_TEST + SECOND, "5 tried before the second part"),
    (FIRST + SECOND, SECOND + FIRST, "the second part checked first"),
    (SECOND, SECOND.replace('"second",', '"first",'), "the second part's fault called the first's"),
    (SECOND, "", "the second part not checked"),
    ('part_of("first", first, zeros), part_of("second", second, zeros)', 'part_of("second", second, zeros), part_of("first", first, zeros)',
     "the parts read in the other order"),
    (ROOM_TEST, "", "5 not tried"),
    ("write(listed_rows(joint))", "write(listed_rows(joint), 2)", "the joint chain written in form 2"),
    ("in LEAD.items():", "in [(1, 0)]:", "parts of form 2 not read"),
    (BUILT, BUILT + "    if len(closed_sets(reached(*joint))) > 1:\n        raise Refused(6)\n", "6 tried when joining"),
    ("new + old[len(new):] for", "new + [0] * len(old[len(new):]) for", "places beyond overwritten"),
    ("new + old[len(new):] for", "(new + [0] + old[len(new) + 1:])[:len(old)] for", "one place beyond overwritten"),
    ("        return refusal, before\n", "        return refusal, [[0] * many for many in lent]\n", "a refusal changes lent places"),
)
# Slips of the room asked for, found by the pairs worked out by hand and by calls with chains in memory.
NEEDED = "(joint.n + 1, len(joint.columns), len(joint.rates))"
ROOM_SLIPS = (
    (NEEDED, "(joint.n, len(joint.columns), len(joint.rates))", "room for one start less suffices"),
    (NEEDED, "(joint.n + 2, len(joint.columns), len(joint.rates))", "one start more asked for"),
    (NEEDED, "(joint.n + 1, len(joint.columns), len(joint.rates) + 1)", "one rate more asked for"),
    (NEEDED, "(joint.n + 1, len(joint.columns), 0)", "5 without the rates"),
    (NEEDED, "(0, len(joint.columns), len(joint.rates))", "5 without the starts"),
)
# Slips found by calls with chains in memory, in which a part may have any fault and each slice any length.
CALL_SLIPS = (
    *ROOM_SLIPS,
    *(slip for slip in SLIPS if "tried before" in slip[2] or "lent places" in slip[2] or slip[0] in (SECOND, FIRST + SECOND)),
    (NEEDED, "(joint.n + 1, 0, len(joint.rates))", "5 without the columns"),
    (NEEDED, "(joint.n + 1, len(joint.columns) + 1, len(joint.rates))", "one column more asked for"),
    ("    if refusal:\n        raise PartRefused", "    if refusal and refusal[0] != 14:\n        raise PartRefused", "14 let through"),
    ("    refusal = check(*chain)\n", "    refusal = check(*chain) if chain.n < 65 else None\n", "orders above 64 let through"),
    ("    refusal = check(*chain)\n", "    refusal = check(*chain)\n    if refusal and refusal[0] == 2 and 0 in chain.rates:\n        refusal = 14, 0, 1\n",
     "14 tried before 2"),
)

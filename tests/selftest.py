"""Checks of the models themselves: document 01's worked cases, definitions against definitions, and known slips found."""
import random
import subprocess
import sys
import tempfile
from fractions import Fraction
from itertools import combinations
from pathlib import Path
from types import SimpleNamespace

import closed_files
import form_checks
import joint_checks
import scaled_checks
import worked
import zero_checks
from chain_model import chains, closed_sets, line, reached, rows_of
from damages import longest
from elimination_model import bound_count, eliminate, printed, printed_with_zeros
from exact_solver import FACTOR, at_most_times, balanced_lists, closed_components, exact_problem, exact_weights, taken_alone
from exact_solver import weights_by_minors, weights_by_trees
from generate import sound, stored, with_zeros
from groups_model import GROUPS, HELD, outcome, packed, places_needed, told
from groups_run import EDGES, ORDER, call_bytes, call_of
from joint_model import joining, lines
from joint_run import EDGES as JOINT_EDGES, pair_of
from scaled_model import ZERO, rate_of, value
from shares_view import guaranteed, relative, rounded
from stored_chain import Refused, cleaned, converted, read, write

ROOT = Path(__file__).resolve().parent.parent


def worked_cases():
    for name, digits, text in worked.PRINTED:
        assert printed(bytes.fromhex(digits)) == text, name
    for name, rows, weights in worked.EXACT_WEIGHTS:
        assert exact_weights(rows) == weights and same_by_trees(rows), name
    fixed = list(closed_files.in_both_forms())
    for name, data, text in fixed:
        assert printed(data) == text, name
    assert rate_of(3) == (3221225472, -30)
    for n, count in worked.BOUND_COUNTS:
        assert bound_count(n) == count
    lines = printed(write(worked.all_ones())).splitlines()
    assert lines[0] == "states 64 bound 182784" and len(lines) == 65
    return (f"{len(worked.PRINTED)} printed cases, exact weights of {len(worked.EXACT_WEIGHTS)}, rate 3, K, case 10, "
            f"{len(fixed)} fixed files of R-3 and R-5, half of them in form 2")


def same_by_trees(rows):
    """Both exact methods agree on the closed set taken alone, and nothing speaks against the weights of the whole chain."""
    (states,) = closed_components(rows)
    alone = taken_alone(rows, states)
    return weights_by_trees(alone) == weights_by_minors(alone) and exact_problem(rows, exact_weights(rows)) is None


def no_number():
    """Entries that no chain leads to: the model stops at a sum above the range, and at a quotient by Zero."""
    for entry in ((2**31, 16383), ZERO):
        try:
            eliminate([[ZERO if i == j else entry for j in range(3)] for i in range(3)])
        except AssertionError:
            continue
        raise AssertionError(f"the elimination goes on without a number, entries {entry}")
    return "an operation without a number stops the model"


def exact_solvers(rng, many=300):
    done = 0
    while done < many:
        rows = sound(rng)
        if len(rows) <= 5 and len(closed_components(rows)) == 1:
            assert same_by_trees(rows), rows
            done += 1
    return f"{many} chains of up to 5 states by both exact methods, and the balance of the whole chain"


def by_definition(n, sets):
    """Request R-3 word for word, over all sets of states: non-empty, each reaches all the others of the set and nothing outside it."""
    chosen = (states for size in range(1, n + 1) for states in combinations(range(n), size))
    return sorted(list(states) for states in chosen if all((j in sets[i]) == (j in states) for i in states for j in range(n)))


def closed_by_all_means(rng, many=2000, most=12):
    """The closed sets from what is reached, as components, and by their number in the balance; up to 7 states over all sets of states.
    Some chains have entries of rate 0, which are no moves by the rules before request R-5."""
    numbers, searched = set(), 0
    for _ in range(many):
        rows = sound(rng)
        n = len(rows)
        rows = with_zeros(rng, rows) if n > 1 and rng.random() < 0.25 else rows
        sets = reached(n, *rows_of(n, {(i, j): rate for i, row in enumerate(rows) for j, rate in row}))
        closed = closed_sets(sets)
        assert closed == closed_components(rows), rows
        if n <= most:
            assert len(balanced_lists(rows)) == len(closed), rows
        if n <= 7:
            assert closed == by_definition(n, sets), rows
            searched += 1
        numbers.add(len(closed))
    assert {1, 2, 3} <= numbers
    return f"the closed sets of {many} chains by two ways, up to {most} states by their balance, of {searched} by the definition"


def factors():
    num, den = FACTOR
    for c in (0, 1, 2, 8, 200):
        assert at_most_times(num**c, den**c, c) and not at_most_times(num**c + 1, den**c, c)
    assert Fraction(den + 8, den) < Fraction(num, den) ** 8
    for c in (1, 18, 406, 2000):
        error = Fraction(num, den) ** c - 1
        assert error < Fraction(relative(c)) < error * Fraction(11, 10), c
    return "the edge of c factors, and the relative error that the tools name for it"


def examples():
    """Every text among the examples is the source of the stored chain beside it, of an old one once cleaned, and unpacking gives the same
    chain again."""
    many = 0
    for text in sorted((ROOT / "examples").glob("*.txt")):
        chain = text.with_suffix(".chain")
        with tempfile.TemporaryDirectory() as folder:
            again, packed = Path(folder, "again.txt"), Path(folder, "packed.chain")
            for source in (text, again):
                subprocess.run([ROOT / "tools" / "chain", "pack", source, packed], check=True, stdout=subprocess.DEVNULL)
                assert packed.read_bytes() == write(read(cleaned(chain.read_bytes()))), text.name
                subprocess.run([ROOT / "tools" / "chain", "unpack", packed, again, "--names", text], check=True)
        many += 1
    old, clean = (ROOT.joinpath("examples", f"{name}.chain").read_bytes() for name in ("no-way-back", "no-way-back-cleaned"))
    assert cleaned(old) == clean != old
    station, short = (ROOT.joinpath("examples", f"{name}.chain").read_bytes() for name in ("station", "station-short"))
    assert converted(station) == short and converted(short) == station and len(short) < len(station)
    return f"{many} example texts packed and unpacked, the old example cleaned, and the station converted"


def has_states_outside(data):
    """Whether these bytes are a chain, without zero rates, with one closed set and states outside it."""
    try:
        rows = read(data)
    except Refused:
        return False
    closed = closed_components(rows)
    return len(closed) == 1 and len(closed[0]) < len(rows)


def power_on_files(seed=1, most=2000):
    """Of the files of a run at least a third have states outside their closed set."""
    many = sum(has_states_outside(stored(seed, i)) for i in range(most))
    assert 3 * many >= most, f"only {many} of {most} files have one closed set and states outside it"
    return f"{many} of the first {most} files of seed {seed} have one closed set and states outside it, a third at least"


def digits(seed=1, most=300):
    """The digits that tools/chain shows for a computed share are the exact share's own, correctly rounded."""
    states = 0
    for data in (stored(seed, i) for i in range(most)):
        lines = printed(data).splitlines()
        if lines[0].startswith("states"):
            exact = exact_weights(read(data))
            count = 2 * int(lines[0].split()[3]) + sum(weight > 0 for weight in exact)
            for line, weight in zip(lines[1:], exact):
                share = value(tuple(map(int, line.split()[3:])))
                assert (share > 0) == (weight > 0), line
                if share:
                    whole, power = guaranteed(share, count)
                    assert rounded(Fraction(weight, sum(exact)), len(str(whole))) == (whole, power), line
                    states += 1
    return f"the digits that tools/chain shows for {states} shares"


# Slips that the worked cases do not all catch: an edit of a model's text, and what it says.
SLIPS = (
    ("total_of(a[k][j] for j in later)", "total_of(a[k][j] for j in reversed(later))", "pivot summed falling"),
    ("for j in range(k + 1, n)), pivots", "for j in reversed(range(k + 1, n))), pivots", "way back summed falling"),
    ("total = total_of(weights)", "total = total_of(reversed(weights))", "total taken from the last state"),
    ("times(a[i][k], t[j])", "over(times(a[i][k], a[k][j]), s)", "entry times entry, then divided"),
    ("over(total_of(times(weights[j], a[j][k]) for j in range(k + 1, n)), pivots[k])",
     "total_of(over(times(weights[j], a[j][k]), pivots[k]) for j in range(k + 1, n))", "each term divided on the way back"),
    ("over(w, total) for w in weights", "w for w in weights", "shares not divided by the total"),
    ("for j in columns:\n        if j == i", "for j in reversed(columns):\n        if j == i", "9 names the highest bit"),
    ("if j == i or j >= n:", "if j == i:", "bits at n and above let through"),
    ("if source.at < len(data):", "if False:", "bytes left over let through"),
    ("if lead < first <= lead + MOST_STATES:", "if lead < first <= lead + 65:", "order 65 let through"),
    ("rate = source.number(2 if j in marks else 4)", "rate = int.from_bytes(source.number(2 if j in marks else 4).to_bytes(4, 'little'), 'big')",
     "rates high byte first"),
    ("nearest((a[0] << (a[1] - e)) + (b[0] << (b[1] - e)), 1, e, bits)",
     "nearest((a[0] >> (max(a[1], b[1]) - a[1])) + (b[0] >> (max(a[1], b[1]) - b[1])), 1, max(a[1], b[1]), bits)",
     "operands shortened before adding"),
    ("nearest(a[0] * b[0], 1,", "nearest(a[0] * b[0] >> 31 << 31, 1,", "products shortened before they are rounded"),
    ("nearest(a[0], b[0],", "nearest(a[0] + 1, b[0],", "quotients too large"),
    ("a[i][j] = plus(a[i][j], times(a[i][k], t[j]))",
     "x, y, e = a[i][j], a[i][k], min(a[i][j][1], a[i][k][1] + t[j][1]); "
     "a[i][j] = nearest((x[0] << x[1] - e) + (y[0] * t[j][0] << y[1] + t[j][1] - e), 1, e)", "product and sum rounded at once"),
)


# Slips of request R-3, as edits of the models' text.
CLOSED_SLIPS = (
    ("all(sets[j] == own for j in own)", "all(sets[j] <= own for j in own)", "moves followed one way only: no way back asked"),
    ("all(sets[j] == own for j in own)", "all(min(sets[j]) == min(own) for j in own)", "the way back asked of the lowest state alone"),
    ("closed_sets(sets)\n    if", "closed_sets([{i for i in range(n) if j in sets[i]} for j in range(n)])\n    if", "moves followed backwards"),
    ("Refused(6, closed[0][0], closed[1][0])", "Refused(6, *sorted(i for states in closed for i in states)[:2])",
     "the lowest state of a set not asked for: 6 names one set twice"),
    ("Refused(6, closed[0][0], closed[1][0])", "Refused(6, closed[1][0], closed[0][0])", "the places of 6 exchanged"),
    ("Refused(6, closed[0][0], closed[1][0])", "Refused(6, closed[0][0], closed[-1][0])", "6 names the lowest and the highest set"),
    ("Refused(6, closed[0][0], closed[1][0])", "Refused(6, closed[0][-1], closed[1][-1])", "6 names the highest states of the sets"),
    ("if len(closed) > 1:", "if False:", "the lowest of several sets solved"),
    ("if len(closed) > 1:\n        raise Refused(6, closed[0][0], closed[1][0])",
     "if len(closed[0]) < n:\n        raise Refused(6, closed[0][0], closed[-1][0])", "a chain with states outside turned away"),
    ("return bound_count(len(states))", "return bound_count(n)", "K of all n states"),
    ("given.get(i, ZERO)", "given.get(i, ONE)", "states outside keep a number"),
    ("return closed[0]\n", "return closed[0][::-1]\n", "the set solved in falling order"),
    ("len(rows), closed_set(rows)", "len(rows), [*closed_set(rows)[:-1], len(rows) - 1]", "the chain's last state taken for the set's"),
    ("alone(rows, states))", "alone(rows, range(len(states))))", "the first r states solved in place of the set"),
    ("spread(n, states, weights)", "spread(n, range(n), weights)", "the set's weights put at the first places"),
    ("spread(n, states, shares)", "spread(n, states[::-1], shares)", "the set's shares put falling"),
)

# A slip that document 01 names, and that only the rules before request R-5 can show.
ZERO_SLIP = ("if rates[p] > 0]", "]", "a stored zero rate taken as a move")

# Slips of request R-1, as edits of its model's text; the last three are of requests.
GROUP_SLIPS = (
    ("total_of(shares[state] for state in states_of(table, group))",
     "total_of(shares[state] for state in reversed(states_of(table, group)))", "a group summed falling"),
    ("return sorted(state for first", "return list(state for first", "a group summed in the order of the rows"),
    ("for number, wrong in tests:", "for number, wrong in reversed(tests):", "11 tried before 12"),
    ("group > 15", "group > 16", "group 16 let through"),
    ("range(0, len(table), 3)", "range(0, len(table) - 2, 3)", "a row cut short let through"),
    ("Refused(13, min(bad))", "Refused(13, max(bad))", "13 names the last bad row"),
    ("[(0, 0)] * (n * n)", "[(0, 0)] * sum(w != ZERO for w in weights) ** 2", "the work places of the set alone cleared"),
    ("zip(call.lent, places_needed(n))", "zip(call.lent, places_needed(len(closed_set(chain_rows(call)))))", "room for the set alone suffices"),
    ("    if refusal:\n        raise Refused(*refusal)\n    check_table(n, call.table)\n",
     "    if refusal and refusal[0] != 14:\n        raise Refused(*refusal)\n    check_table(n, call.table)\n"
     "    if refusal:\n        raise Refused(*refusal)\n", "14 tried after the table"),
)
PRINTING = ("tests/scaled_model", "tests/chain_model", "python/stored_chain", "tests/elimination_model")


def models_with(old, new, parts):
    """The models with one edit of their text."""
    text = "\n".join((ROOT / f"{part}.py").read_text(encoding="utf-8") for part in parts)
    assert text.count(old) == 1, old
    lines = text.replace(old, new).split("\n")
    edited = {"__name__": "edited"}
    exec("\n".join(line for line in lines if not line.startswith(tuple(f"from {Path(part).name}" for part in parts))), edited)
    return SimpleNamespace(**edited)


def answer(model, data):
    try:
        return model(data)
    except (IndexError, ValueError, OverflowError, TypeError, AssertionError) as error:
        return f"{error!r}"


def all_told_apart(slips, parts, model, inputs):
    right = [model(data) for data in inputs]
    for old, new, what in slips:
        edited = getattr(models_with(old, new, parts), model.__name__)
        assert any(answer(edited, data) != text for data, text in zip(inputs, right)), f"not told apart: {what}"


def slips(seed=1, most=400):
    files, all_slips = [stored(seed, i) for i in range(most)], SLIPS + CLOSED_SLIPS + scaled_checks.SLIPS
    all_told_apart(all_slips, PRINTING, printed, files)
    all_told_apart(CLOSED_SLIPS, PRINTING, printed, [data for _, data, _ in closed_files.files()])
    return f"{len(all_slips)} slips, each told apart by the first {most} files of seed {seed}, those of R-3 by its fixed files too"


def zero_slips(seed=1, most=400):
    """Slips of request R-5, each told apart by generated files, by the cases worked out by hand, and in memory by crates/chain_run's input."""
    files, by_hand = [stored(seed, i) for i in range(most)], [bytes.fromhex(digits) for _, digits, _ in worked.PRINTED]
    for inputs in (files, by_hand):
        all_told_apart(zero_checks.READ_SLIPS, PRINTING, printed, inputs)
    for inputs in (files, [bytes.fromhex(digits) for _, digits, _ in worked.CLEANED]):
        all_told_apart(zero_checks.CLEAN_SLIPS, PRINTING, cleaned, inputs)
    for inputs in (files, [data for _, data, _, _ in closed_files.old_files()]):
        all_told_apart([ZERO_SLIP], PRINTING, printed_with_zeros, inputs)
    all_told_apart(zero_checks.CHECK_SLIPS, ("tests/chain_model",), line, list(chains(random.Random(1))))
    many = sum(map(len, (zero_checks.READ_SLIPS, zero_checks.CLEAN_SLIPS, zero_checks.CHECK_SLIPS))) + 1
    return f"{many} slips of zero rates and cleaning, each told apart by generated files and by those worked out by hand"


def form_slips(seed=1, most=1200):
    """Slips of request R-8, each told apart by generated files, and by those worked out by hand with the longest file."""
    files = [stored(seed, i) for i in range(most)]
    by_hand = [bytes.fromhex(digits) for _, digits, _ in worked.PRINTED] + [bytes.fromhex(digits) for _, *both in worked.BOTH_FORMS for digits in both]
    for inputs in (files, [*by_hand, longest(2)]):
        all_told_apart(form_checks.SLIPS, PRINTING, converted, inputs)
    for inputs in (files, [bytes.fromhex(digits) for _, digits, _ in worked.CLEANED]):
        all_told_apart(form_checks.CLEAN_SLIPS, PRINTING, cleaned, inputs)
    many = len(form_checks.SLIPS) + len(form_checks.CLEAN_SLIPS)
    return f"{many} slips of the two forms, each told apart by the first {most} files of seed {seed} and by those worked out by hand"


def finds(check, model):
    try:
        check(model)
    except AssertionError:
        return True
    return False


def rounding_slips():
    """Each slip of rounding is found by each check of scaled numbers, those at the ends of the range by the checks of the ends."""
    everywhere = (lambda model: scaled_checks.operations(random.Random(1), model), scaled_checks.short_words)
    for slip in (*scaled_checks.SLIPS, *scaled_checks.RANGE_SLIPS):
        old, new, what = slip
        model = models_with(old, new, ("tests/scaled_model",))
        checks = (scaled_checks.ends, scaled_checks.program, *(everywhere if slip in scaled_checks.SLIPS else ()))
        for check in checks:
            assert finds(check, model), f"not found by {check}: {what}"
    many = len(scaled_checks.SLIPS) + len(scaled_checks.RANGE_SLIPS)
    return f"{many} slips of rounding, found by the checks of scaled numbers and in what crates/scaled_run prints"


def group_cases():
    """The shares of groups worked on paper, and the verdicts of the edges."""
    for name, rows, count, table, expected in worked.GROUP_SHARES:
        lent = [need + 1 for need in places_needed(len(rows))]
        verdict, slices = outcome(call_of(rows, table, lent))
        assert verdict == f"accepted {count}", name
        assert list(zip(*slices[6:])) == [*(expected.get(group, ZERO) for group in range(GROUPS)), (HELD, HELD)], name
    for index, (verdict, _) in enumerate(EDGES):
        assert told(call_bytes(1, index)).split("\n")[0] == verdict, f"edge {index}, {verdict}"
    return f"{len(worked.GROUP_SHARES)} group tables worked on paper, the verdicts of {len(EDGES)} edges"


def group_slips(seed=1, most=400):
    calls = [call_bytes(seed, i) for i in range(most)]
    words = [told(data).split() for data in calls]
    kinds = {word[1] if word[0] == "refused" else word[0] for word in words}
    assert kinds == {"accepted", "unreadable", *map(str, ORDER)}, kinds
    all_told_apart(GROUP_SLIPS, (*PRINTING, "tests/groups_model"), told, calls)
    return f"{len(GROUP_SLIPS)} slips of groups, each told apart by the first {most} calls of seed {seed}, which meet every refusal"


def joint_slips(seed=1, most=400):
    """Slips of request R-6, each told apart by the pairs of a run, by those worked out by hand, or by calls with chains in memory."""
    parts, pairs = ("tests/chain_model", "python/stored_chain", "tests/joint_model"), [pair_of(seed, i) for i in range(most)]
    all_told_apart(joint_checks.SLIPS + joint_checks.ROOM_SLIPS, parts, lines, pairs[:len(JOINT_EDGES)])
    all_told_apart(joint_checks.SLIPS, parts, lines, pairs[len(JOINT_EDGES):])
    for calls in ([call for _, *call in joint_checks.calls_by_hand()], list(joint_checks.calls_by_chance(random.Random(seed)))):
        all_told_apart(joint_checks.CALL_SLIPS, parts, joining, calls)
    return (f"{len(joint_checks.SLIPS)} slips of joining, each told apart by the pairs drawn by chance of the first {most} of seed {seed} and by those "
            f"worked out by hand, {len(joint_checks.CALL_SLIPS)} by calls with chains in memory")


def main():
    rng = random.Random(1)
    parts = (worked_cases, lambda: scaled_checks.operations(rng), scaled_checks.short_words, scaled_checks.ends,
             rounding_slips, no_number, lambda: exact_solvers(rng), lambda: closed_by_all_means(rng), factors,
             examples, power_on_files, digits, slips, zero_checks.worked_cases, zero_checks.promises, zero_checks.zero_files, zero_slips,
             form_checks.worked_cases, lambda: form_checks.both_forms(rng), form_checks.refusals, form_checks.form_files, form_slips,
             group_cases, group_slips, joint_checks.worked_cases, lambda: joint_checks.products(rng), joint_checks.pairs_met, joint_slips)
    for part in parts:
        try:
            print("ok:", part())
        except AssertionError as error:
            print("wrong:", error, file=sys.stderr)
            return 1
    return 0

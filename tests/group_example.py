"""The table of groups in examples/README.md: the states, and the digits that the bound of 2K + 2n factors guarantees.

    python3 tests/group_example.py      exits with 0 if it holds, 1 if not
"""
import re
import sys
from fractions import Fraction
from pathlib import Path

ROOT = Path(__file__).resolve().parent.parent
sys.path[:0] = [str(ROOT / "tests"), str(ROOT / "python")]

from chain_text import parse  # noqa: E402
from elimination_model import solve  # noqa: E402
from exact_solver import exact_weights, within  # noqa: E402
from groups_model import check_table, group_shares, states_of  # noqa: E402
from scaled_model import value  # noqa: E402
from shares_view import decimal, guaranteed, rounded  # noqa: E402
from stored_chain import Refused  # noqa: E402

EXAMPLES = ROOT / "examples"
LINE = re.compile(r"\| (\d+) \| [a-z]+ \| ([a-z, -]+) \| ([0-9.e-]+) \|")


def table_of(path):
    """The numbers of a group table, one row a line; from "#" on a line is a comment."""
    lines = (line.split("#")[0].split() for line in path.read_text(encoding="utf-8").splitlines())
    rows = [list(map(int, words)) for words in lines if words]
    assert all(len(row) == 3 for row in rows), f"{path.name}: a row without three numbers"
    return sum(rows, [])


def group_example():
    """Each line of the README's table, against the group table, the model and the exact solver."""
    names, rows = parse(EXAMPLES / "station.txt")
    table = table_of(EXAMPLES / "station.groups")
    check_table(len(rows), table)
    bound, _, shares = solve(rows)
    shares = group_shares(table, shares)
    exact, count = exact_weights(rows), 2 * bound + 2 * len(rows)
    readme = (EXAMPLES / "README.md").read_text(encoding="utf-8")
    assert f"2K + 2n = {count} factors" in readme, count
    told = {int(group): (called, digits) for group, called, digits in LINE.findall(readme)}
    assert sorted(told) == sorted(set(table[2::3])), f"groups {sorted(told)} in the README"
    for group, (called, digits) in told.items():
        states, share = states_of(table, group), shares[group]
        weight = sum(exact[s] for s in states)
        assert called == ", ".join(names[s] for s in states), called
        assert within(*share, weight, sum(exact), count), f"group {group} is not within {count} factors"
        whole, power = guaranteed(value(share), count)
        assert decimal(whole, power) == digits, f"group {group}: {decimal(whole, power)}, in the README {digits}"
        assert rounded(Fraction(weight, sum(exact)), len(str(whole))) == (whole, power), f"group {group}: not the exact share's digits"
    return f"{len(told)} groups of examples/station.groups as examples/README.md has them"


if __name__ == "__main__":
    try:
        print("ok:", group_example())
    except (AssertionError, Refused) as error:
        sys.exit(f"wrong: {error}")

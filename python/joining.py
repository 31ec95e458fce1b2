"""Two stations side by side, for tools/chain: the joining program's answer for two stored chains, in words, and the names of joint states."""
import re

from command import LOST, REFUSED, Stop, output, tell
from shares_view import announced, refusal
from stored_chain import Refused, read_form

LINE = re.compile(r"(?P<file>([0-9a-f]{2})+) kept( \d+){3}|(?P<part>first |second |)(?P<refusal>refused( \d+){3})( kept( \d+){3})?")


def framed(data):
    """A file as the joining program reads it: after its length in two bytes, low byte first."""
    return len(data).to_bytes(2, "little") + data


def first_line(program, parts):
    """What the joining program writes of a pair, with room for every joint chain; its second line is for tests."""
    text = output(program, b"".join(map(framed, parts)), "tools/chain join").decode("ascii", "replace")
    found = [LINE.fullmatch(line) for line in text.splitlines()]
    if len(found) != 2 or not all(found):
        raise Stop(f"{program} wrote something else than its documented lines: {text[:80]!r}", LOST)
    return found[0]


def joint_rows(program, paths, parts, names):
    """The stored joint chain of two stored chains, and its rows; the paths and the names of the parts' states are for the words of a refusal."""
    line = first_line(program, parts)
    if line["refusal"]:
        raise refused(line, paths, parts, names)
    data = bytes.fromhex(line["file"])
    try:
        form, rows = read_form(data)
    except Refused as wrong:
        raise Stop(f"{program} wrote no stored chain: {wrong}", LOST) from wrong
    a, b = orders(parts)
    if len(rows) != a * b:
        raise Stop(f"{program} wrote {len(rows)} states for {a} × {b}", LOST)
    if form != 1:
        raise Stop(f"{program} wrote form {form}; a joint chain is written in form 1", LOST)
    return data, rows


def orders(parts):
    """How many states each of two stored chains has."""
    return [announced(data)[1] for data in parts]


def refused(line, paths, parts, names):
    """The Stop for a refusal: it says which part is at fault, or that their joint chain would have too many states."""
    part, text = line["part"].strip(), line["refusal"]
    if part:
        at = ("first", "second").index(part)
        return Stop(f"{paths[at]}, the {part} part: {refusal(text, parts[at], names[at])}", REFUSED)
    if text != "refused 15 0 0":
        return Stop(f"the joining program refused what it has room for: {text}", LOST)
    a, b = orders(parts)
    return Stop(f"{paths[0]} and {paths[1]}: {text}: {a} × {b} = {a * b} joint states, and a chain has at most 64", REFUSED)


def joint_names(names, parts):
    """The names of the joint states, such as idle+asleep; s3 where a part has no names. Should two be the same, numbers."""
    first, second = (own or [f"s{i}" for i in range(order)] for own, order in zip(names, orders(parts)))
    joint = [f"{one}+{other}" for one in first for other in second]
    if len(set(joint)) == len(joint):
        return joint
    tell("the names of the joint states would not all differ; the states are called s0, s1 and so on")
    return [f"s{i}" for i in range(len(joint))]

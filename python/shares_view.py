"""The printing program's answer for a chain, and its shares in decimal digits with a bar for each state."""
import math
import os
import re
from fractions import Fraction

from chain_text import is_text, parse, stored_bytes
from command import LOST, REFUSED, Stop, output, tell
from doubts import warn
from stored_chain import LEAD, Refused, cleaned, form_and_order, map_bytes, read, write

REASONS = {
    1: "the number of states is 0 or above 64",
    6: "the chain has two or more closed sets of states and never leaves one that it has entered: {0} is in one, {1} in another",
    8: "the bytes end early",
    9: "row {0} has an entry at column {1}, which is its own row or no state",
    10: "bytes are left over after the last row",
    14: "row {0}, column {1}: the entry from {2} to {3} has rate 0, as old files store an unused move; {advice}",
    16: "row {0}: bit {1} of its second map stands where there is no rate, or is missing at a rate below 65536",
}
# Numbers as the program writes them: no zeros in front, of 32 bits; an exponent may be below 0.
WHOLE, EXPONENT = "(?:0|[1-9][0-9]{0,9})", "(?:0|-?[1-9][0-9]{0,4})"
WORD = 2**32  # a factor is 2^32 / (2^32 - 1)
ONE = WORD // 2, -31
BAR = 40
LEFT = "left for good"  # in the place of a bar, for a state outside the closed set


# ---- the chain and the names of its states

def load(path, names_from=None):
    """The stored bytes of a chain and the names of its states. Without a text that packs to these very bytes in their form, once cleaned,
    there are no names. Of a text it tells which names may be misspelt."""
    if is_text(path):
        if names_from is not None:
            raise Stop(f"{path}: this is a text, with names of its own; --names goes with a stored chain")
        names, rows = parse(path)
        warn(path, names, rows)
        return write(rows), names
    data = stored_bytes(path)
    if names_from is not None:
        return data, names_for(data, path, names_from)
    beside = os.path.splitext(path)[0] + ".txt"
    if os.path.exists(beside):
        try:
            return data, names_for(data, path, beside)
        except Stop as stop:
            tell(f"{stop}; states are shown by number")
    return data, None


def names_for(data, path, text):
    names, rows = parse(text)
    if cleaned(data) not in [write(rows, form) for form in LEAD]:  # cleaning keeps the form
        raise Stop(f"{text} is not the text of {path}: packed, it gives other bytes")
    return names


def announced(data):
    """The form and the order that the first byte of a file announces; 0 and 0 where it is that of no form."""
    try:
        return form_and_order(data[0]) if data else (0, 0)
    except Refused:
        return 0, 0


def called(names, i):
    return f"state {i}" if names is None else names[i]


def reason(number, places, data, names=None):
    states = [f"state {i}" + (f" ({names[i]})" if names else "") for i in places] if number in (6, 14) else []
    places = states if number == 6 else [*places, *states]
    return REASONS[number].format(*places, advice=cleaning(data))


def cleaning(data):
    """What cleaning would make of a file with a zero rate: the rest of it may break another rule, as an unmarked zero in form 2 does."""
    try:
        read(data, zeros=True)
    except Refused as refused:
        return f"tools/chain clean does not take this file either: {refused}"
    return "tools/chain clean OLD NEW leaves such entries out"


# ---- the program

def answer(program, data):
    """What the printing program writes on these bytes, if it is what docs/FORMAT.md says of them as far as that is soon seen."""
    text = output(program, data, "tools/solve").decode("ascii", "replace")
    _, order = announced(data)
    lines = rf"states {order} bound {WHOLE}\n({WHOLE}( {WHOLE} {EXPONENT}){{2}}\n){{{order}}}"
    if not re.fullmatch(rf"refused( {WHOLE}){{3}}\n|{lines}", text):
        raise Stop(f"{program} wrote something else than its documented lines: {text[:80]!r}", LOST)
    wrong = not text.startswith("refused") and next(untrue(text), None)
    if wrong:
        raise Stop(f"{program} wrote what cannot be: {wrong}", LOST)
    return text


def untrue(text):
    """What is plainly wrong in the printed form: each of these would show a share of another state, with other digits, or none."""
    (*_, bound), *lines = [line.split() for line in text.splitlines()]
    lines = [list(map(int, line)) for line in lines]
    weights, shares = [(wm, we) for _, wm, we, _, _ in lines], [(sm, se) for _, _, _, sm, se in lines]
    inside = [i for i, share in enumerate(shares) if share != (0, 0)]
    r = len(inside)
    if [line[0] for line in lines] != list(range(len(lines))):
        yield f"the states are not numbered from 0 to {len(lines) - 1}"
    if not all(pair == (0, 0) or WORD // 2 <= pair[0] < WORD and -16384 <= pair[1] <= 16383 for pair in weights + shares):
        yield "a pair that is no scaled number"
    if [i for i, weight in enumerate(weights) if weight != (0, 0)] != inside:
        yield "a state has a weight and no share, or a share and no weight"
    if int(bound) != (2 * r**3 + 6 * r**2 - 8 * r) // 3:
        yield f"{bound} is not the bound count of {r} states"
    if inside and weights[inside[-1]] != ONE:
        yield "the weight of the closed set's last state is not 1"
    if inside and not 1 / widest(2 * int(bound) + r) <= sum(value(*share) for share in shares) <= widest(2 * int(bound) + r):
        yield "the shares do not add up to 1"


def value(m, e):
    return Fraction(m) * Fraction(2) ** e


def refusal(text, data, names):
    """The Stop for a refusal, None for an answer."""
    if not text.startswith("refused"):
        return None
    number, *places = map(int, text.split()[1:])
    form, order = announced(data)
    bits = 8 * map_bytes(order)
    limits = {6: (order, order), 9: (order, bits), 14: (order, order), 16: (order, bits) if form == 2 else (0, 0)}.get(number, (1, 1))
    if number not in REASONS or any(place >= limit for place, limit in zip(places, limits)):
        raise Stop(f"the program wrote a refusal that cannot be: {text.strip()}", LOST)
    return Stop(f"{text.strip()}: {reason(number, places, data, names)}", REFUSED)


# ---- decimal digits

def magnitude(x):
    """The whole number d with 10^d <= x < 10^(d + 1), for x above 0."""
    assert x > 0
    d = math.floor((x.numerator.bit_length() - x.denominator.bit_length()) * math.log10(2))
    while Fraction(10) ** d > x:
        d -= 1
    while Fraction(10) ** (d + 1) <= x:
        d += 1
    return d


def rounded(x, digits, to_whole=lambda y: math.floor(y + Fraction(1, 2))):
    """x with so many significant digits, as (whole number, power of ten)."""
    power = magnitude(x) - digits + 1
    whole = to_whole(x / Fraction(10) ** power)
    return (whole // 10, power + 1) if whole == 10**digits else (whole, power)


def decimal(whole, power):
    """A short decimal form: 0.2258 or 1.52e-607."""
    text = str(whole)
    d = power + len(text) - 1
    if -5 <= d < 0:
        return "0." + "0" * (-d - 1) + text
    return (text[0] + ("." + text[1:] if len(text) > 1 else "")) + (f"e{d}" if d else "")


def widest(count):
    """At least F^count: by Bernoulli's inequality (1 / F)^count is at least 1 - count / 2^32."""
    return Fraction(WORD, WORD - count)


def guaranteed(x, count):
    """The most digits (up to 12) to which every number within count factors of x is rounded alike, as (whole, power of ten)."""
    wide = widest(count)
    for digits in range(12, 0, -1):
        low, high = rounded(x / wide, digits), rounded(x * wide, digits)
        if low == high:
            return low
    raise Stop("the bound guarantees no digit", LOST)


def relative(count):
    """A number of two digits that F^count - 1 lies below."""
    return decimal(*rounded(widest(count) - 1, 2, math.ceil))


def log10(x):
    """Good enough for a bar, also where x is too small for a float."""
    d = magnitude(x)
    return d + math.log10(x / Fraction(10) ** d)


# ---- the display

def headline(path, states, inside, count):
    """How many states there are and keep a share, and what the bound says of it."""
    held = "each share" if inside == states else f"{inside} of them in the closed set, each share there"
    factors = "1 factor" if count == 1 else f"{count} factors"
    return f"{path}: {states} states, {held} within {factors} of the exact one: relative error below {relative(count)}"


def display(path, text, names):
    """The lines for the user: each state, its share in the digits that the bound guarantees, and a bar.

    A state has the share Zero if and only if it is outside the closed set; K and the bound count the states inside.
    """
    (*_, bound), *lines = [line.split() for line in text.splitlines()]
    shares = [value(int(m), int(e)) for *_, m, e in lines]
    inside = sum(share > 0 for share in shares)
    if not inside:
        raise Stop("the printing program gave no state a share", LOST)
    count = 2 * int(bound) + inside
    names = [called(names, i) for i in range(len(shares))]
    texts = [decimal(*guaranteed(share, count)) if share else "0" for share in shares]
    logs = [log10(share) if share else None for share in shares]
    lowest = math.floor(min(log for log in logs if log is not None)) - 1
    bars = [LEFT if log is None else "#" * max(1, round(BAR * (log - lowest) / -lowest)) for log in logs]
    wide, long = max(map(len, names)), max(map(len, texts))
    head = [
        headline(path, len(shares), inside, count),
        f"bars on a log scale: empty at 1e{lowest}, full ({BAR} marks) at 1; digits as far as the bound guarantees them",
        "",
    ]
    rows = [f"{name:{wide}}  {share:{long}}  {bar}".rstrip() for name, share, bar in zip(names, texts, bars)]
    return "\n".join([*head, *rows, "", "This display proves nothing; it shows what the printing program wrote."]) + "\n"

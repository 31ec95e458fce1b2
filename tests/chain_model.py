"""An independent model of chains in rows: refusals 1 to 4, 14 and 6, the row look-up, the masks of the reached states, the closed sets.

It is written from document 01 and requests R-3 and R-5 alone, with a plain graph search, and shares no code with the crates. It generates
the input of the program crates/chain_run, sound and broken chains, and the lines that the program has to print.
"""
import random
import struct

LARGEST = 2**32 - 1


def check(n, starts, columns, rates):
    """None if the rules 1 to 4 and 14 hold, or the refusal's number and places."""
    if not 1 <= n <= 64:
        return 1, 0, 0
    if len(columns) != len(rates):
        return 2, 0, 0
    if len(starts) != n + 1 or starts[0] != 0 or starts[-1] != len(columns):
        return 3, 0, 0
    if any(a > b for a, b in zip(starts, starts[1:])):
        return 3, 0, 0
    for row in range(n):
        seen = -1
        for place in range(starts[row], starts[row + 1]):
            column = columns[place]
            if column >= n or column == row or column <= seen:
                return 4, row, place
            seen = column
    for row in range(n):
        for place in range(starts[row], starts[row + 1]):
            if rates[place] == 0:
                return 14, row, columns[place]
    return None


def reached(n, starts, columns, rates):
    """For each state the set of states that it reaches, by a search along the positive rates."""
    to = [
        [columns[p] for p in range(starts[i], starts[i + 1]) if rates[p] > 0]
        for i in range(n)
    ]
    sets = []
    for i in range(n):
        seen, waiting = {i}, [i]
        while waiting:
            for j in to[waiting.pop()]:
                if j not in seen:
                    seen.add(j)
                    waiting.append(j)
        sets.append(seen)
    return sets


def closed_sets(sets):
    """The closed sets, by their lowest states, from what each state reaches.

    Request R-3: each state of a closed set reaches all the others of the set and nothing outside it. So what a state of it
    reaches is the set, and this is so for every state of it.
    """
    found = {min(own): sorted(own) for own in sets if all(sets[j] == own for j in own)}
    return [found[lowest] for lowest in sorted(found)]


def line(call):
    """What the program prints for a chain and the row that is looked up in it."""
    n, row, starts, columns, rates = call
    refusal = check(n, starts, columns, rates)
    accepts = ["accepts", len(columns)]
    if refusal:
        words = ["check", "refuses", *refusal, "answer", "refuses", *refusal, "row", "masks"]
        return " ".join(map(str, words))
    sets = reached(n, starts, columns, rates)
    lowest = [states[0] for states in closed_sets(sets)]
    answer = ["refuses", 6, *lowest[:2]] if len(lowest) > 1 else accepts
    part = rates[starts[row] : starts[row + 1]] if row < n else []
    masks = [x for i in range(n) for x in (i, sum(1 << j for j in sets[i]))]
    words = ["check", *accepts, "answer", *answer, "row", *part, "masks", *masks]
    return " ".join(map(str, words))


def rows_of(n, entries):
    """The three lists of a chain given as {(row, column): rate}."""
    starts, columns, rates = [0], [], []
    for i in range(n):
        for j in range(n):
            if (i, j) in entries:
                columns.append(j)
                rates.append(entries[i, j])
        starts.append(len(columns))
    return starts, columns, rates


def some_rate(rng):
    return rng.choice([1, 1, 1, 2, 256, 2**16, 2**24, rng.randrange(1, 1000), LARGEST])


def ring_through(rng, entries, states):
    """Adds a ring through these states, in any order."""
    order = rng.sample(states, len(states))
    for a, b in zip(order, order[1:] + order[:1]):
        if a != b:
            entries[a, b] = rng.randrange(1, 9)


def settled(rng, n, entries):
    """Makes some states a closed set, to which the others lead."""
    order = rng.sample(range(n), n)
    inside = order[:rng.randint(1, n)]
    for i, j in list(entries):
        if i in inside and j not in inside:
            del entries[i, j]
    ring_through(rng, entries, inside)
    for place in range(len(inside), n):
        entries[order[place], rng.choice(order[:place])] = rng.randrange(1, 9)


def some_chain(rng):
    n = rng.choice([1, 1, 2, 2, 3, 3, 4, 5, 6, 8, 12, 31, 32, 33, 63, 64])
    density = rng.choice([0.5, 1.0, 1.5, 3.0]) / n
    entries = {
        (i, j): some_rate(rng) for i in range(n) for j in range(n) if i != j and rng.random() < density
    }
    kind = rng.random()  # by chance alone many chains have two closed sets or more
    if kind < 0.3:
        ring_through(rng, entries, range(n))
    elif kind < 0.7:
        settled(rng, n, entries)
    if entries and rng.random() < 0.25:
        for entry in rng.sample(sorted(entries), min(len(entries), rng.choice((1, 1, 2, 9)))):
            entries[entry] = 0
    return n, *rows_of(n, entries)


def damaged(rng, n, starts, columns, rates):
    """One fault at a random place, or a fault of the order."""
    starts, columns, rates = starts[:], columns[:], rates[:]
    kind = rng.randrange(9)
    if kind == 0:
        n = rng.choice([0, 65, 66, 1000, LARGEST])
    elif kind == 1:
        rng.choice([columns, rates]).append(0)
    elif kind == 2:
        starts = starts[:-1] if rng.random() < 0.5 else starts + [starts[-1]]
    elif kind == 3:
        starts[rng.randrange(len(starts))] += 1
    elif kind == 4:
        at = rng.randrange(len(starts))
        starts[at] = max(0, starts[at] - 1)
    elif kind == 5 and columns:
        columns[rng.randrange(len(columns))] = rng.choice([0, n - 1, n, n + 1, LARGEST])
    elif kind == 6 and len(columns) > 1:
        at = rng.randrange(1, len(columns))
        columns[at] = columns[at - 1]
    elif kind == 7 and len(columns) > 1:
        at = rng.randrange(1, len(columns))
        columns[at - 1], columns[at] = columns[at], columns[at - 1]
    else:
        starts, columns, rates = [], columns[:1], rates[:1]
    return n, starts, columns, rates


# request R-5: what checking says, worked out by hand, and the chain with the row that is looked up in it
FULL_3 = [0, 2, 4, 6], [1, 2, 0, 2, 0, 1]
ZERO_RATES = (
    ((14, 0, 1), (2, 0, [0, 1, 2], [1, 0], [0, 5])),  # case 6
    ((14, 2, 0), (3, 2, [0, 1, 2, 3], [1, 2, 0], [2, 4, 0])),
    ((14, 1, 2), (3, 0, *FULL_3, [1, 1, 1, 0, 1, 1])),  # at place 3
    ((14, 0, 2), (3, 1, *FULL_3, [1, 0, 0, 1, 1, 0])),  # the first of three
    ((14, 0, 1), (2, 1, [0, 1, 2], [1, 0], [0, 0])),  # before 6
    ((14, 63, 62), (64, 62, *rows_of(64, {(i, j): int(i < 63) for i in range(64) for j in range(64) if abs(i - j) == 1}))),
    # 4 is tried over the whole chain before: in the last row, in the row of the zero, in row 9 with a zero in row 0
    ((4, 2, 5), (3, 0, [0, 2, 4, 6], [1, 2, 0, 2, 0, 2], [0, 1, 1, 1, 1, 1])),
    ((4, 0, 1), (3, 0, [0, 2, 2, 2], [1, 1], [0, 1])),
    ((4, 0, 0), (3, 0, [0, 2, 2, 2], [0, 1], [1, 0])),
    ((4, 9, 9), (10, 0, list(range(11)), [*range(1, 10), 10], [0, *[1] * 9])),
    # so are 1, 2 and 3
    ((1, 0, 0), (65, 0, [0, 1, 2], [1, 0], [0, 5])),
    ((2, 0, 0), (2, 0, [0, 1, 2], [1, 0], [0])),
    ((3, 0, 0), (2, 0, [0, 1, 1], [1, 0], [0, 5])),
    (None, (2, 0, [0, 1, 2], [1, 0], [256, 2**16])),
    (None, (2, 1, [0, 1, 2], [1, 0], [1, 2**24])),
)


def chains(rng):
    # document 01's own: case 1, 2, 3, 4, 7, its example of 6, which R-3 accepts, and its examples of 1 to 4
    yield 1, 0, [0, 0], [], []
    yield 2, 0, [0, 1, 2], [1, 0], [3, 1]
    yield 3, 1, [0, 1, 2, 3], [1, 2, 0], [2, 4, 8]
    yield 2, 1, [0, 1, 2], [1, 0], [1, LARGEST]
    yield 3, 2, [0, 1, 2, 3], [1, 0, 0], [1, 1, 1]
    yield 2, 0, [0, 1, 1], [1], [3]
    yield 65, 0, [0] * 66, [], []
    yield 0, 0, [0], [], []
    yield LARGEST, 0, [0, 0], [], []
    yield 2, 0, [0, 1, 1], [1], []
    yield 2, 0, [0, 1], [1], [1]
    yield 2, 0, [0, 1, 1], [0], [1]
    # case 10: 64 states, every rate 1
    yield 64, 63, *rows_of(64, {(i, j): 1 for i in range(64) for j in range(64) if i != j})
    # request R-3: its example of 6; three closed sets, 1, then 2 and 4, then 3; 64 of them; one, the last of 64 states in a line
    yield 2, 1, [0, 0, 0], [], []
    yield 5, 4, *rows_of(5, {(0, 2): 1, (0, 3): 2, (2, 4): 3, (4, 2): 4})
    yield 64, 0, [0] * 65, [], []
    yield 64, 62, *rows_of(64, {(i, i + 1): 1 for i in range(63)})
    for _, call in ZERO_RATES:
        yield call
    for _ in range(200):
        chain = some_chain(rng)
        yield chain[0], rng.randrange(chain[0] + 2), *chain[1:]
    for _ in range(200):
        chain = damaged(rng, *some_chain(rng))
        yield chain[0], rng.randrange(70), *chain[1:]


def stored():
    """The standard input and output of crates/chain_run."""
    words, lines = [], []
    for n, row, starts, columns, rates in chains(random.Random(1)):
        assert len(starts) <= 80 and len(columns) <= 4100 and len(rates) <= 4100
        words += [n, row, len(starts), *starts, len(columns), *columns, len(rates), *rates]
        lines.append(line((n, row, starts, columns, rates)))
    words = [len(lines), *words]
    return struct.pack(f"<{len(words)}I", *words), "".join(text + "\n" for text in lines).encode()

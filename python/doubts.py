"""Names in a text that may be misspelt: a name that only one line has makes a state of its own, and the chain is another.

The doubts go to standard error, and change neither what is printed nor the exit status. A state that nothing reaches is often one met
only after power-on, and one that nothing leaves may be meant so; hence neutral words, and one line for each kind.
"""
import unicodedata
from itertools import combinations

from command import tell

SHOWN = 3  # so many of a kind are named
SHORTEST = 4  # shorter words are not compared letter by letter: rx and tx, on and in


def warn(path, names, rows):
    """Tells of every doubt about the names of the states that a text describes."""
    for words in (*doubtful_states(names, rows), *doubtful_pairs(names)):
        tell(f"{path}: {words}")


def doubtful_states(names, rows):
    reached = {j for row in rows for j, _ in row}
    kinds = {}
    for i, name in enumerate(names if len(names) > 1 else ()):
        kinds.setdefault((bool(rows[i]), i in reached), []).append(name)
    for kind, words in (((False, False), "nothing leaves and nothing reaches {}: a misspelt name?"),
                        ((False, True), "nothing leaves {}: meant so, or a misspelt name?"),
                        ((True, False), "nothing reaches {}: a power-on state, or a misspelt name?")):
        if kind in kinds:
            yield words.format(listed(kinds[kind], ", "))


def doubtful_pairs(names):
    pairs = {}
    for one, other in combinations(names, 2):
        pairs.setdefault(likeness(one, other), []).append((one, other))
    for kind, words, show in (("same", "two states whose names look the same, in different characters: {}", ascii),
                              ("case", "two states whose names are equal but for case: {}", str),
                              ("letter", "two states whose names are equal but for one letter: {}; is one misspelt?", str)):
        if kind in pairs:
            yield words.format(listed([f"{show(one)} and {show(other)}" for one, other in pairs[kind]], "; "))


def listed(items, between):
    more = len(items) - SHOWN
    return between.join(items[:SHOWN]) + (f" and {more} more" if more > 0 else "")


def likeness(one, other):
    """How two names are alike: to the eye ("same"), but for "case", but for one "letter", or not (None)."""
    one, other = (unicodedata.normalize("NFC", name) for name in (one, other))
    if one == other:
        return "same"
    if one.casefold() == other.casefold():
        return "case"
    return "letter" if one_letter(one, other) else None


def one_letter(one, other):
    """Whether two names differ in one letter, changed, added or left out, in two neighbours exchanged, or in a mark within a word (key-held
    and key_held). Not where that counts things: a digit (q1 and q2), or a letter that stands alone (a1 and b1, mode-a and mode-b, modeA
    and modeB)."""
    least = min(len(one), len(other))
    start = next((i for i in range(least) if not same(one[i], other[i])), least)
    end = next((i for i in range(least - start) if not same(one[-1 - i], other[-1 - i])), least - start)
    parts = [name[start:len(name) - end] for name in (one, other)]
    exchanged = len(parts[0]) == 2 and same(parts[0], parts[1][::-1])
    if max(map(len, parts)) > 1 and not exchanged:
        return False
    letters = all(part.isalpha() for part in parts if part)
    mark = all(part in ("", "-", "_", ".") for part in parts) and one[:start][-1:].isalpha() and one[len(one) - end:][:1].isalpha()
    return (letters or mark) and max(len(word_around(name, start, len(name) - end)) for name in (one, other)) >= SHORTEST


def same(one, other):
    return one.casefold() == other.casefold()


def word_around(name, start, end):
    """The piece of a name and the letters beside it, up to where a capital begins a word."""
    def begins(k):
        return name[k - 1:k].islower() and name[k:k + 1].isupper()

    while start > 0 and name[start - 1].isalpha() and not begins(start):
        start -= 1
    while end < len(name) and name[end].isalpha() and not begins(end):
        end += 1
    return name[start:end]

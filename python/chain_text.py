"""Chains as readable text (docs/FORMAT.md): one move a line, "awake -> asleep 120", or a line "state NAME"."""
import codecs
import re

from command import Stop, content
from stored_chain import LONGEST_FILE, MOST_RATE, MOST_STATES, Refused, read

NAME = r"(?:(?!->)[^\s#])+"  # no blank, no "#", no arrow
MOVE = re.compile(rf"({NAME})\s*->\s*({NAME})(?:\s+((?:(?!->).)+))?", re.S)
STATE = re.compile(rf"state\s+({NAME})")
LINE_END = re.compile(r"\r\n|\n|\r")
RATE = f"a rate is a whole number from 1 to {MOST_RATE}"


# ---- texts and stored chains told apart

def is_text(path):
    """A file is taken for a text by its name: the bytes of a text could be those of a stored chain."""
    return str(path).endswith(".txt")


def is_stored(data):
    """Whether the bytes are those of a stored chain, of an old one too."""
    try:
        return bool(read(data, zeros=True))
    except Refused:
        return False


def looks_like_text(data):
    """Whether bytes that are no stored chain are a text: a letter, then an arrow or, in UTF-8, a line end, and nothing that does not print.
    A last character may be cut off."""
    for coding, sign in (("utf-8", "->|\n|\r"), ("utf-16-le", "->"), ("utf-16-be", "->"), ("cp1252", "->")):
        try:
            text = codecs.getincrementaldecoder(coding)().decode(data).lstrip("\ufeff")
        except UnicodeDecodeError:
            continue
        if all(char.isprintable() or char.isspace() for char in text) and re.search(rf"[^\W\d_].*({sign})", text, re.S):
            return True
    return False


def stored_bytes(path):
    """The bytes of a file where a stored chain is asked for. They may be refused later; a text ends the tool here."""
    data = content(path, LONGEST_FILE + 1)
    if not is_stored(data) and looks_like_text(data):
        way = "a stored chain is asked for here" if is_text(path) else "give it a name that ends in .txt, or pack it by tools/chain pack"
        raise Stop(f"{path}: this is a text: {way}")
    return data


def decoded(path):
    """The characters of a text, without the byte order mark that some editors put first."""
    data = content(path)
    try:
        text, place = data.decode("utf-8-sig"), 0
    except UnicodeDecodeError as error:
        text, place = None, error.start
    wide = data[:2] in (codecs.BOM_UTF16_LE, codecs.BOM_UTF16_BE) or 3 * data.count(0) >= len(data) > 1
    if text is not None and not wide:
        return text
    if is_stored(data):
        raise Stop(f"{path}: this is a stored chain, not a text")
    if wide:
        raise Stop(f"{path}: not a text in UTF-8 but, it seems, in UTF-16: save it as UTF-8")
    line = len(re.findall(rb"\r\n|\n|\r", data[:place])) + 1
    raise Stop(f"{path}:{line}: not a text in UTF-8 but perhaps in Windows-1252: save it as UTF-8")


# ---- a text and its chain

def parse(path):
    """The names of the states and the rows of the chain that a text describes."""
    numbers, moves = {}, {}
    for at, line in enumerate(LINE_END.split(decoded(path)), 1):
        line = line.split("#")[0].strip()
        move, state = MOVE.fullmatch(line), STATE.fullmatch(line)
        odd = next((char for char in line if not char.isprintable() and not char.isspace()), None)
        if odd:
            raise Stop(f"{path}:{at}: a character that does not print, U+{ord(odd):04X}")
        if move:
            add_move(numbers, moves, *move.groups(), path, at)
        elif state:
            numbers.setdefault(state[1], len(numbers))
        elif line:
            raise Stop(f"{path}:{at}: neither FROM -> TO RATE nor state NAME: {shortened(line)}")
    if not 1 <= len(numbers) <= MOST_STATES:
        raise Stop(f"{path}: {len(numbers)} states; a chain has 1 to {MOST_STATES}")
    return list(numbers), [[(j, moves[i, j][0]) for j in range(len(numbers)) if (i, j) in moves] for i in range(len(numbers))]


def add_move(numbers, moves, start, end, rate, path, at):
    i, j = (numbers.setdefault(name, len(numbers)) for name in (start, end))
    if i == j:
        raise Stop(f"{path}:{at}: a move from {start} to itself")
    if (i, j) in moves:
        raise Stop(f"{path}:{at}: the move {start} -> {end} stands twice, in line {moves[i, j][1]} and in line {at}")
    moves[i, j] = number(rate, f"{path}:{at}"), at


def number(rate, place):
    """The rate that stands behind a move."""
    if rate is None:
        raise Stop(f"{place}: no rate stands here: {RATE}")
    digits = re.fullmatch(r"0*([0-9]+)", rate)
    if not digits or len(digits[1]) > len(str(MOST_RATE)) or int(digits[1]) > MOST_RATE:
        raise Stop(f"{place}: {RATE}, not {shortened(digits[1] if digits else rate)}")
    if int(digits[1]) == 0:
        raise Stop(f"{place}: {RATE}, not 0: where there is no move, leave the line out (a line \"state NAME\" names a state without one)")
    return int(digits[1])


def shortened(text, most=60):
    """The start of a piece of text, with what does not print written out."""
    shown = "".join(char if char.isprintable() else char.encode("unicode_escape").decode("ascii") for char in text[:most])
    return shown if len(text) <= most else f"{shown}.. ({len(text)} characters)"


def text_of(names, rows):
    lines = [f"state {name}" for name in names]
    lines += [f"{names[i]} -> {names[j]} {rate}" for i, row in enumerate(rows) for j, rate in row]
    return "\n".join(lines) + "\n"

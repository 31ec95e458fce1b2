"""Checks of texts: what pack takes and refuses in words, where a line ends, names that may be misspelt, and texts given as stored chains."""
import os
import shutil
import sys
from pathlib import Path

from tool_checks import CHAIN, EXAMPLES, PRINTER, SHORT, SOLVE, STATION, check, program, ran

RATE = "a rate is a whole number from 1 to 4294967295"
TWO = bytes.fromhex("02 02 03000000 01 01000000")  # a -> b 3, b -> a 1


class Packing:
    """A text that is packed again and again."""

    def __init__(self, folder):
        self.text, self.chain = Path(folder, "a.txt"), Path(folder, "a.chain")

    def __call__(self, content):
        self.text.write_bytes(content)
        return ran(CHAIN, "pack", str(self.text), str(self.chain))

    def stored(self, content):
        """The status, the bytes that came out and what was told."""
        self.chain.unlink(missing_ok=True)
        status, _, told = self(content)
        return status, self.chain.read_bytes() if self.chain.exists() else None, told


def texts(folder):
    """What pack takes, and what it refuses in words."""
    packed = Packing(folder)
    text, chain = packed.text, packed.chain
    check("a byte order mark names no state", packed.stored(b"\xef\xbb\xbfa -> b 3\nb -> a 1\n") == (0, TWO, ""))
    status, _, told = packed(b"a -> b 3\n\xef\xbb\xbfb -> a 1\n")
    check("a byte order mark within", status == 2 and ":2: a character that does not print, U+FEFF" in told)
    check("zeros before a rate", packed(b"a -> b " + b"0" * 5000 + b"3\nb -> a 1\n")[0] == 0 and len(chain.read_bytes()) == 11)
    check("a move to itself", packed(b"a -> a 1\n")[0] == 2)
    check("no move", packed(b"a b 1\n")[0] == 2)
    check("no state", packed(b"# nothing\n")[0] == 2)
    check("one state", packed(b"state a\n") == (0, f"{chain}: 1 state, 0 moves, 2 bytes\n", ""))
    check("one move", packed(b"a -> b 3\n")[:2] == (0, f"{chain}: 2 states, 1 move, 7 bytes\n"))
    check("65 states", packed("".join(f"state s{i}\n" for i in range(65)).encode())[0] == 2)
    check("onto itself", ran(CHAIN, "pack", str(text), str(text))[0] == 2)
    plain = {"PATH": os.environ["PATH"], "LC_ALL": "C", "PYTHONUTF8": "0", "PYTHONCOERCECLOCALE": "0", "PYTHONIOENCODING": "ascii"}
    text.write_text("müde -> 眠い 3\n眠い -> müde 1\n", encoding="utf-8")
    status, out, _ = ran(CHAIN, "show", str(text), *PRINTER, env=plain)
    check("names outside ASCII", status == 0 and "\nmüde  0.25000000 " in out and "\n眠い" in out)


def line_ends(folder):
    """A line ends at LF, CRLF and CR alone: nothing else ends a comment."""
    packed = Packing(folder)
    for end in ("\n", "\r\n", "\r"):
        content = end.join(("# two", "a -> b 3 # on", "", "b -> a 1"))
        check(f"lines that end by {end!r}", packed.stored(content.encode()) == (0, TWO, "") == packed.stored((content + end).encode()))
        status, _, told = packed(f"a -> b 3{end}b - a 1{end}".encode())
        check(f"the number of a line after {end!r}", status == 2 and "a.txt:2: neither" in told)
    for odd in "\v\f\x1c\x1d\x1e\x85\u2028\u2029":
        content = f"a -> b 3 # on{odd}b -> a 9\nb -> a 1\n"
        check(f"a comment goes on after {odd!a}", packed.stored(content.encode()) == (0, TWO, ""))
        status, _, told = packed(f"a -> b 3{odd}b -> a 1\n".encode())
        check(f"no line ends at {odd!a}", status == 2 and "a.txt:1: " in told and ascii(odd).strip("'") in told)


def rates(folder):
    """A bad rate and a move that stands twice, in words."""
    packed = Packing(folder)
    check("the file before", packed.stored(b"a -> b 3\nb -> a 1\n") == (0, TWO, ""))
    for rate, shown in (("0", "not 0: where there is no move, leave the line out"), ("000", "not 0: "), ("4294967296", "not 4294967296\n"),
                        ("9" * 5000, "9.. (5000 characters)\n"), ("-1", "not -1\n"), ("2.5", "not 2.5\n"), ("1e3", "not 1e3\n"), ("1,000", "not 1,000\n"),
                        ("1 000", "not 1 000\n"), ("fast", "not fast\n"), ("٣", "not ٣\n")):
        status, _, told = packed(f"a -> b 3\nb -> a {rate}\n".encode())
        check(f"the rate {rate[:12]}: {told[:200]}", status == 2 and f"a.txt:2: {RATE}, not " in told and shown in told)
    check("to solve", ran(SOLVE, str(packed.text)) == (2, "", told.replace("chain: ", "solve: ", 1)))
    check("the file stays", packed.chain.read_bytes() == TWO)
    status, _, told = packed(b"a -> b 3\nb -> a\n")
    check(f"no rate: {told}", status == 2 and f"a.txt:2: no rate stands here: {RATE}\n" in told)
    check("the highest rate", packed.stored(b"a -> b 4294967295\nb -> a 1\n")[:2] == (0, bytes.fromhex("02 02 ffffffff 01 01000000")))
    status, _, told = packed(b"# twice\nidle -> busy 3\nbusy -> idle 1\n\nidle -> busy 3\n")
    check(f"a move twice: {told}", status == 2 and "a.txt:5: the move idle -> busy stands twice, in line 2 and in line 5\n" in told)


def codings(folder):
    """A text in another coding than UTF-8, and a stored chain in the place of a text."""
    packed = Packing(folder)
    content = "# for tired people\nmüde -> wach 3\nwach -> müde 1\n"
    for coding, place in (("cp1252", ":2:"), ("utf-16", ":"), ("utf-16-le", ":"), ("utf-16-be", ":"), ("utf-32", ":")):
        status, data, told = packed.stored(content.encode(coding))
        check(f"{coding}: {told}", (status, data) == (2, None) and f"a.txt{place} not a text in UTF-8" in told and told.endswith("save it as UTF-8\n"))
    check("plain letters in UTF-16", packed("a -> b 3\nb -> a 1\n".encode("utf-16-le"))[2].endswith("save it as UTF-8\n"))
    check("in UTF-8", packed.stored(content.encode())[1:] == (TWO, ""))
    check("an odd byte", "not a text in UTF-8" in packed(b"a -> b 1\xff\n")[2])
    for stored in (STATION, SHORT):
        shutil.copy(stored, packed.text)
        for verb, more in (("pack", (str(packed.chain),)), ("info", ())):
            told = ran(CHAIN, verb, str(packed.text), *more)
            check(f"{verb}, a stored chain as text: {told}", told == (2, "", f"chain: {packed.text}: this is a stored chain, not a text\n"))


def doubts(folder):
    """Names that may be misspelt are told by solve, show, pack and join, and change neither the answer nor the status."""
    text, chain = Path(folder, "a.txt"), Path(folder, "a.chain")

    def told(content, *words):
        text.write_text(content, encoding="utf-8")
        status, out, said = ran(*(words or (CHAIN, "pack", str(text), str(chain))))
        lines = said.splitlines()
        check(f"status 0, and nothing else told: {said}", status == 0 and all(f"{text}: " in line for line in lines))
        return out, [line.partition(f"{text}: ")[2] for line in lines]

    misspelt = "idle -> bussy 3\nbusy -> idle 1\n"
    said = ["nothing leaves bussy: meant so, or a misspelt name?", "nothing reaches busy: a power-on state, or a misspelt name?",
            "two states whose names are equal but for one letter: bussy and busy; is one misspelt?"]
    check("pack", told(misspelt) == (f"{chain}: 3 states, 2 moves, 12 bytes\n", said))
    out, words = told(misspelt, SOLVE, str(text))
    check("solve", words == said and out.startswith("states 3 bound 0\n0 0 0 0 0\n1 2147483648 -31 2147483648 -31\n2 0 0 0 0\n"))
    shown, words = told(misspelt, CHAIN, "show", str(text), *PRINTER)
    check("show", words == said and out.endswith(shown) and "\nbussy  1.00000000 " in shown)
    joiner = "--program", program(folder, "join", "for i in 1 2; do echo 03020100000000010100000000 kept 1 1 1; done")
    one = Path(folder, "one.chain")
    one.write_bytes(b"\1\0")
    check("join", ran(sys.executable, CHAIN, "join", str(text), str(one), f"{folder}/out.chain", *joiner)[2].count("?\n") == 3)
    check("a stored chain has no names to doubt", ran(CHAIN, "show", f"{EXAMPLES}/power-on.chain", *PRINTER)[2] == "")
    check("no doubt", told("idle -> busy 3\nbusy -> idle 1\n")[1] == [])
    check("one state", told("state idle\n")[1] == [])
    check("a state apart", told("idle -> busy 3\nbusy -> idle 1\nstate lost\n")[1] == ["nothing leaves and nothing reaches lost: a misspelt name?"])
    check("some of many", told("".join(f"state {name}\n" for name in ("ape", "boa", "cat", "dog", "eel")))[1] == [
        "nothing leaves and nothing reaches ape, boa, cat and 2 more: a misspelt name?"])

    def pair(one, other):
        """What is told of two names in a ring with a third."""
        return told(f"{one} -> {other} 1\n{other} -> third 1\nthird -> {one} 1\n")[1]

    check("case", pair("Idle", "idle") == ["two states whose names are equal but for case: Idle and idle"])
    check("NFC", pair("e\u0301tat", "\xe9tat") == ["two states whose names look the same, in different characters: 'e\\u0301tat' and '\\xe9tat'"])
    for one, other in (("idle", "idel"), ("stall", "stal"), ("asleep", "asleap"), ("Busy", "bussy"), ("key-held", "key_held"), ("keyheld", "key-held"),
                       ("stall+idle", "stal+idle")):
        check(f"one letter: {one}, {other}", pair(one, other) == [
            f"two states whose names are equal but for one letter: {one} and {other}; is one misspelt?"])
    for one, other in (("q1", "q2"), ("level1", "level11"), ("stalled+1", "stalled+2"), ("a", "b"), ("a1", "b1"), ("mode-a", "mode-b"), ("modeA", "modeB"),
                       ("rx-idle", "tx-idle"), ("dozing", "dozing-held"), ("charge+", "charge-"), ("open", "shut")):
        check(f"no doubt: {one}, {other}", pair(one, other) == [])
    for name in ("station", "rare", "subtraction", "two-stations"):
        status, _, said = ran(CHAIN, "pack", f"{EXAMPLES}/{name}.txt", str(chain))
        check(f"no doubt about {name}.txt: {said}", (status, said) == (0, "") and chain.read_bytes() == Path(EXAMPLES, f"{name}.chain").read_bytes())


def text_as_chain(folder):
    """A text where a stored chain is asked for is status 2, and no file is made; what is no text stays a matter of the program."""
    other, out = Path(folder, "moves"), Path(folder, "out.chain")
    verbs = {"solve": (SOLVE, str(other)), "show": (CHAIN, "show", str(other)), "unpack": (CHAIN, "unpack", str(other), f"{folder}/out.txt"),
             "info": (CHAIN, "info", str(other)), "clean": (CHAIN, "clean", str(other), str(out)),
             "convert": (CHAIN, "convert", str(other), str(out)), "join": (CHAIN, "join", str(other), STATION, str(out))}
    content = "# two states\na -> b 3\nb -> a 1\n"
    many = "# many\n" + "".join(f"müde{i} -> müde{i + 1} 1\n" for i in range(900))  # the tool reads a part, up to within a character
    for data in (content.encode(), b"a -> b 3", b"Some words.\n", content.encode("utf-16"), content.encode("utf-16-be"), many.encode(),
                 "müde -> b 3\n".encode("cp1252"), "“a” -> b 3\n".encode("cp1252")):  # the last begins with 0x93, as form 2 with 19 states does
        other.write_bytes(data)
        for verb, words in verbs.items() if data == content.encode() else (("unpack", verbs["unpack"]),):
            told = ran(*words)
            check(f"{verb}, {data[:16]}: {told}", told == (2, "", f"{Path(words[0]).name}: {other}: this is a text: give it a name that ends in .txt, or "
                                                                  "pack it by tools/chain pack\n"))
    text = Path(folder, "moves.txt")
    text.write_text(content)
    check("unpack a .txt", ran(CHAIN, "unpack", str(text)) == (2, "", f"chain: {text}: this is a text: a stored chain is asked for here\n"))
    told = ran(CHAIN, "show", str(text), "--names", str(text), *PRINTER)
    check("names for a text", told == (2, "", f"chain: {text}: this is a text, with names of its own; --names goes with a stored chain\n"))
    for data, expected in ((b"@", "refused 8 0 0"), (b"A", "refused 1 0 0"), (b"", "refused 8 0 0"), (b"\nA", "refused 8 0 0"),
                           ("€".encode("cp1252"), "refused 1 0 0"), ("“a".encode("cp1252"), "refused 8 0 0")):
        other.write_bytes(data)
        status, _, said = ran(CHAIN, "show", str(other), *PRINTER)
        check(f"{data} is no text: {said}", status == 1 and f"moves: {expected}: " in said)
    check("no file beside", sorted(os.listdir(folder)) == ["moves", "moves.txt"])


PARTS = (texts, line_ends, rates, codings, doubts, text_as_chain)

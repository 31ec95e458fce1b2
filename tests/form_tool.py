"""Checks of the two stored forms (request R-8): pack --form, info, convert and clean of tools/chain, names and shares of a chain in form 2."""
import os
import re
import shutil
import subprocess
import sys
from pathlib import Path
from textwrap import dedent

from tool_checks import CHAIN, CLEANER, CONVERTER, EXAMPLES, HOW, PRINTER, ROOT, SHORT, SOLVE, STATION, check, failing_rt, program, ran, section

sys.path.insert(0, str(ROOT / "python"))

from stored_chain import write  # noqa: E402

# chains in form 1 and in form 2, by hand, and their numbers of states and moves
PAIRS = (
    ("02 02 03000000 01 01000000", "82 02 02 0300 01 01 0100", "2 states, 2 moves"),  # the printed example
    ("02 02 ffff0000 01 00000100", "82 02 02 ffff 01 00 00000100", "2 states, 2 moves"),  # 65535 and 65536
    ("02 02 ffffffff 00", "82 02 00 ffffffff 00 00", "2 states, 1 move"),
    ("01 00", "81 00 00", "1 state, 0 moves"), ("02 00 00", "82 00 00 00 00", "2 states, 0 moves"),  # the second has no answer
    ("06 06 60ea0000 e02e0000 09 00dd6d00 28000000 11 58020000 80ee3600 24 e0673500 80ee3600 01 a00f0000 01 14000000",
     "86 06 06 60ea e02e 09 08 00dd6d00 2800 11 01 5802 80ee3600 24 00 e0673500 80ee3600 01 01 a00f 01 01 1400", "6 states, 10 moves"),  # the station
)
TWO, TWO_SHORT = map(bytes.fromhex, PAIRS[0][:2])
EARLY, SOME, OVER = "the bytes end early", "the number of states is 0 or above 64", "bytes are left over after the last row"
UNUSED = "row 0, column 1: the entry from state 0 to state 1 has rate 0, as old files store an unused move; "
ZERO = UNUSED + "tools/chain clean OLD NEW leaves such entries out"
EITHER = UNUSED + "tools/chain clean does not take this file either: refused "  # and by what, which `cleaning` below checks
OWN = "row 0 has an entry at column {}, which is its own row or no state"
MARK = "row {}: bit {} of its second map stands where there is no rate, or is missing at a rate below 65536"
REFUSED = (  # by hand, in form 2
    ("80", "1 0 0", SOME), ("c1", "1 0 0", SOME), ("82", "8 0 0", EARLY), ("82 02", "8 0 0", EARLY), ("82 02 02 03", "8 0 0", EARLY),
    ("82 02 00 030000", "8 0 0", EARLY), ("82 03", "9 0 0", OWN.format(0)), ("82 06 06", "9 0 2", OWN.format(2)),
    ("82 02 02 0000 00 00", "14 0 1", ZERO), ("82 02 00 00000000 00 00", "14 0 1", EITHER + "16 0 1"), ("82 02 02 0000 01 03", "14 0 1", EITHER + "16 1 1"),
    ("82 02 02 0000 01 01 01", "14 0 1", EITHER + "8 0 0"), ("82 02 02 0000 00 00 00", "14 0 1", EITHER + "10 0 0"), ("82 00 02", "16 0 1", MARK.format(0, 1)),
    ("82 02 06", "16 0 2", MARK.format(0, 2)), ("82 00 80", "16 0 7", MARK.format(0, 7)), ("82 02 00 03000000 00 00", "16 0 1", MARK.format(0, 1)),
    ("82 02 02 0300 01 00 01000000", "16 1 0", MARK.format(1, 0)), ("82 02 02 0300 01 01 0100 00", "10 0 0", OVER))


def counted(counts, data, form):
    return f"{counts}, {len(data)} bytes in form {form}"


def packing(folder):
    """A text packed in either form, and unpacked again."""
    text, chain, again = (Path(folder, name) for name in ("a.txt", "a.chain", "again.txt"))
    for one, two, counts in PAIRS:
        one, two = bytes.fromhex(one), bytes.fromhex(two)
        chain.write_bytes(two)
        check(f"{counts}: unpacked", ran(CHAIN, "unpack", str(chain), str(text)) == (0, "", ""))
        for words, data, said in ((("--form", "2"), two, counted(counts, two, 2)), ((), one, f"{counts}, {len(one)} bytes")):
            chain.unlink(missing_ok=True)
            status, out, _ = ran(CHAIN, "pack", *words, str(text), str(chain))
            check(f"pack {words}: {out}", (status, out) == (0, f"{chain}: {said}\n") and chain.read_bytes() == data)
        check("form 1, unpacked", ran(CHAIN, "unpack", str(chain), str(again)) == (0, "", "") and again.read_bytes() == text.read_bytes())
    check("form 1 by its number", ran(CHAIN, "pack", "--form", "1", str(text), str(chain)) == (0, out, "") and chain.read_bytes() == one)
    chain.write_bytes(two)
    check("unpacked to standard output", ran(CHAIN, "unpack", str(chain)) == (0, text.read_text(), ""))
    chain.write_bytes(b"as it was")
    for form in ("0", "3", "two", "1.5", "-2", ""):
        status, out, told = ran(CHAIN, "pack", f"--form={form}", str(text), str(chain))
        check(f"form {form}: {told}", (status, out) == (2, "") and "usage: " in told and "argument --form: invalid " in told)
    check("without a number", ran(CHAIN, "pack", str(text), str(chain), "--form")[0] == 2)
    check("no other verb takes it", ran(CHAIN, "convert", STATION, str(chain), "--form", "2")[0] == 2)
    check("the file stays", chain.read_bytes() == b"as it was")
    text.write_text("a -> b 3\nb -> a 1\n")
    done = subprocess.run((CHAIN, "pack", str(text), "/dev/stdout", "--form", "2"), capture_output=True, check=False)
    check(f"into a pipe: {done}", (done.returncode, done.stdout, done.stderr) == (
        0, TWO_SHORT, b"chain: /dev/stdout: 2 states, 2 moves, 9 bytes in form 2\n"))


def information(folder):
    """info: what a file has and what the other form would take. It runs no program."""
    chain, text = Path(folder, "a.chain"), Path(folder, "a.txt")

    def told(path):
        return ran(sys.executable, CHAIN, "info", str(path), env={"PATH": folder})

    rates = ("2 short rates (below 65536), 0 others", "1 short rate (below 65536), 1 other", "0 short rates (below 65536), 1 other",
             "0 short rates (below 65536), 0 others", "0 short rates (below 65536), 0 others", "6 short rates (below 65536), 4 others")
    for (*pair, counts), short in zip(PAIRS, rates):
        one, two = map(bytes.fromhex, pair)
        for form, data, less in ((1, one, f"form 2 would take {len(two)} bytes"), (2, two, f"form 1 would take {len(one)} bytes")):
            chain.write_bytes(data)
            result = told(chain)
            check(f"{data.hex()}: {result}", result == (0, f"{chain}: {counted(counts, data, form)}\n{short}; {less}\n", ""))
        ran(CHAIN, "unpack", str(chain), str(text))
        status, out, _ = told(text)
        both = f"form 1 would take {len(one)} bytes; form 2 would take {len(two)} bytes"
        check(f"as a text: {out}", (status, out) == (0, f"{text}: {counts}, a text\n{short}; {both}\n"))
    text.write_text("a -> b 3\n")
    check("names that may be misspelt", told(text)[2] == f"chain: {text}: nothing leaves b: meant so, or a misspelt name?\n"
          f"chain: {text}: nothing reaches a: a power-on state, or a misspelt name?\n")
    check("no answer is sought", told(f"{EXAMPLES}/two-traps.chain")[0] == 0)
    for path, words in ((folder, f"{folder}: Is a directory\n"), (f"{folder}/none", f"{folder}/none: No such file or directory\n")):
        check(f"info {path}", told(path) == (2, "", f"chain: {words}"))
    check("one name", "usage:" in ran(CHAIN, "info")[2] and ran(CHAIN, "info")[0] == 2 == ran(CHAIN, "info", STATION, STATION)[0])
    text.write_text("a -> b\n")
    check("a text that describes no chain", told(text)[0] == 2 and "a.txt:1: no rate stands here" in told(text)[2])
    with open("/dev/full", "wb") as full:
        done = subprocess.run((CHAIN, "info", STATION), stdout=full, stderr=subprocess.PIPE, check=False)
    check("on a full disk", done.returncode == 3 and b"No space left on device\n" in done.stderr)


def refusals(folder):
    """Each refusal of form 2 in words, by the verbs that read for themselves and by those that run a program."""
    chain, out = Path(folder, "a.chain"), Path(folder, "out")
    for digits, line, words in REFUSED:
        chain.write_bytes(bytes.fromhex(digits))
        told = f"chain: {chain}: refused {line}: {words}\n"
        for verb, more in (("info", ()), ("unpack", (str(out),)), ("show", PRINTER), ("convert", (str(out), *CONVERTER))):
            result = ran(CHAIN, verb, str(chain), *more)
            check(f"{verb} {digits}: {result}", result == (1, "", told) and not out.exists())
    for name, line, words in (("damaged", "8 0 0", EARLY), ("damaged-short", "16 0 3", MARK.format(0, 3))):
        path = f"{EXAMPLES}/{name}.chain"
        check(name, ran(CHAIN, "info", path) == (1, "", f"chain: {path}: refused {line}: {words}\n"))
        check(f"{name}, solved", ran(SOLVE, path) == (1, f"refused {line}\n", f"solve: refused {line}: {words}\n"))


def converting(folder):
    """There and back through files, onto itself, and into a pipe."""
    old, new, back = (Path(folder, name) for name in ("old.chain", "new.chain", "back.chain"))
    full = [[(j, 65536 + i) for j in range(64) if j != i] for i in range(64)]
    files = [(*map(bytes.fromhex, pair), counts) for *pair, counts in PAIRS] + [(write(full), write(full, 2), "64 states, 4032 moves")]
    check("the longest files", [len(data) for data in files[-1][:2]] == [16641, 17153])
    for one, two, counts in files:
        there, again = (f"{counted(counts, two, 2)}, from {len(one)} bytes in form 1\n", f"{counted(counts, one, 1)}, from {len(two)} bytes in form 2\n")
        old.write_bytes(one)
        check(f"{counts}: converted", ran(CHAIN, "convert", str(old), str(new)) == (0, f"{new}: {there}", "") and new.read_bytes() == two)
        check(f"{counts}: OLD stays", old.read_bytes() == one)
        check(f"{counts}: and back", ran(CHAIN, "convert", str(new), str(back), *CONVERTER) == (0, f"{back}: {again}", "") and back.read_bytes() == one)
        check(f"{counts}: onto itself", ran(CHAIN, "convert", str(old), str(old), *CONVERTER) == (0, f"{old}: {there}", "") and old.read_bytes() == two)
    old.write_bytes(TWO)
    old.chmod(0o600)
    check("its mode is kept", ran(CHAIN, "convert", str(old), str(old), *CONVERTER)[0] == 0 and old.stat().st_mode & 0o7777 == 0o600)
    done = subprocess.run((CHAIN, "convert", str(old), "/dev/stdout", *CONVERTER), capture_output=True, check=False)
    check(f"into a pipe: {done}", (done.returncode, done.stdout, done.stderr) == (
        0, TWO, b"chain: /dev/stdout: 2 states, 2 moves, 11 bytes in form 1, from 9 bytes in form 2\n"))
    check("no file beside", sorted(os.listdir(folder)) == ["back.chain", "new.chain", "old.chain"])


class Stays:
    """A verb that gives no file: NEW stays as it was."""

    def __init__(self, folder, verb):
        self.folder, self.verb = folder, verb
        self.old, self.new, self.lie = (Path(folder, name) for name in ("old.chain", "new.chain", "lie"))

    def __call__(self, what, *words, status, told, **options):
        self.new.write_bytes(b"as it was")
        result = ran(sys.executable, CHAIN, self.verb, *map(str, words), **options)
        check(f"{self.verb}, {what}: {result}", result[:2] == (status, "") and told in result[2])
        check(f"{self.verb}, {what}: NEW stays", self.new.read_bytes() == b"as it was")

    def lied(self, what, old, lie, told):
        """With a program that writes these bytes whatever it reads."""
        self.old.write_bytes(old)
        self.lie.write_bytes(lie)
        fake = program(self.folder, "fake", f"cat '{self.lie}'")
        self(what, self.old, self.new, "--program", fake, status=3, told=f"chain: {fake} wrote {told}\n")


def no_file_converted(folder):
    """Where converting gives no file, NEW stays as it was or is not made."""
    stays, text = Stays(folder, "convert"), Path(folder, "a.txt")
    old, new = stays.old, stays.new
    stays("a mark without a rate", f"{EXAMPLES}/damaged-short.chain", new, *CONVERTER, status=1, told=f"short.chain: refused 16 0 3: {MARK.format(0, 3)}\n")
    stays("rates cut short", f"{EXAMPLES}/damaged.chain", new, *CONVERTER, status=1, told=f"damaged.chain: refused 8 0 0: {EARLY}\n")
    old.write_bytes(bytes.fromhex("02 02 00000000 01 05000000"))
    stays("an old file", old, new, *CONVERTER, status=1, told=f"refused 14 0 1: {ZERO}\n")
    stays("onto itself", old, old, *CONVERTER, status=1, told="refused 14 0 1")
    check("a refused file stays", old.read_bytes() == bytes.fromhex("02 02 00000000 01 05000000"))
    check("not made", ran(CHAIN, "convert", str(old), f"{folder}/none.chain", *CONVERTER)[0] == 1 and not Path(folder, "none.chain").exists())
    old.write_bytes(TWO)
    stays("no OLD", f"{folder}/none", new, status=2, told="No such file")
    stays("no folder for NEW", old, f"{folder}/none/new.chain", *CONVERTER, status=2, told="No such file")
    stays("a full disk", old, "/dev/full", *CONVERTER, status=2, told="No space left on device")
    stays("OLD is a folder", folder, new, status=2, told=f"{folder}: Is a directory\n")
    stays("NEW is a folder", old, folder, *CONVERTER, status=2, told=f"{folder}: Is a directory\n")
    stays("one name", old, status=2, told="usage:")
    text.write_text("a -> b 1\n")
    for what, words in (("from a text", (text, new)), ("onto a text", (old, text))):
        stays(what, *words, status=2, told=f"{text}: convert takes stored chains, and a name that ends in .txt is that of a text\n")
    check("the text and OLD stay", text.read_bytes() == b"a -> b 1\n" and old.read_bytes() == TWO)
    stays("no rt", old, new, status=3, told="rt: No such file", env={"PATH": folder})
    stays("a proof that fails", old, new, status=3, told="the converting program was not built", env={"PATH": failing_rt(folder)})
    stays("no program", old, new, "--program", f"{folder}/none", status=3, told="tools/chain convert builds it")
    for what, script, told in (("a message", "echo 'convert: could not read standard input' >&2", "fake: convert: could not read standard input\n"),
                               ("a signal", "kill -9 $$", "ended with status -9")):
        stays(what, old, new, "--program", program(folder, "fake", script), status=3, told=told)
    zero, stored = bytes.fromhex("82 02 02 0000 00 00"), "no stored chain: refused"
    for what, data, lie, told in (
            ("the same file", TWO, TWO, "form 1 again"), ("the same form", TWO_SHORT, TWO_SHORT, "form 2 again"),
            ("another chain in that form", TWO, bytes.fromhex("02 00 00"), "form 1 again"),
            ("another rate", TWO, bytes.fromhex("82 02 02 0400 01 01 0100"), "another chain"),
            ("a move less", TWO_SHORT, bytes.fromhex("02 02 03000000 00"), "another chain"),
            ("another order", TWO, bytes.fromhex("81 00 00"), "another chain"), ("no output", TWO, b"", f"{stored} 8 0 0"),
            ("half a file", TWO, TWO_SHORT[:5], f"{stored} 8 0 0"), ("a byte more", TWO, TWO_SHORT + b"\0", f"{stored} 10 0 0"),
            ("a mark left out", TWO, bytes.fromhex("82 02 02 0300 01 00 01000000"), f"{stored} 16 1 0"), ("a zero rate", TWO, zero, f"{stored} 14 0 1"),
            ("some words", TWO, b"hello\n", f"{stored} 1 0 0"), ("half a line", TWO, b"refused 8 0\n", f"{stored} 1 0 0"),
            ("a refusal for none", TWO, b"refused 8 0 0\n", "a refusal that cannot be: refused 8 0 0"),
            ("another refusal", zero, b"refused 8 0 0\n", "refused 8 0 0 where refused 14 0 1 is due"),
            ("a file where a refusal is due", zero, TWO, "11 bytes where refused 14 0 1 is due")):
        stays.lied(what, data, lie, told)
    left = sorted(os.listdir(folder))
    check(f"no file beside: {left}", left == ["a.txt", "failing", "fake", "lie", "new.chain", "old.chain"])


def cleaning(folder):
    """Old files of form 2: each entry left out takes two bytes with it, and the form stays. A zero rate that is not marked is no old file's."""
    stays = Stays(folder, "clean")
    old, new = stays.old, stays.new
    for before, after, said in (
            ("82 02 02 0000 01 01 0500", "82 00 00 01 01 0500", "1 entry of rate 0 left out; 2 states, 1 move, 7 bytes in form 2"),
            ("83 06 02 0000 00000100 05 05 0000 0700 00 00", "83 04 00 00000100 04 04 0700 00 00",
             "2 entries of rate 0 left out; 3 states, 2 moves, 13 bytes in form 2"),
            ("82 02 02 0300 01 01 0100", "82 02 02 0300 01 01 0100", "0 entries of rate 0 left out; 2 states, 2 moves, 9 bytes in form 2")):
        old.write_bytes(bytes.fromhex(before))
        told = ran(CHAIN, "clean", str(old), str(new), *CLEANER)
        check(f"{before}: {told}", told == (0, f"{new}: {said}\n", "") and new.read_bytes() == bytes.fromhex(after))
    for digits, line, words in (("82 02 00 00000000 00 00", "16 0 1", MARK.format(0, 1)), ("82 02 02 0000 01 03", "16 1 1", MARK.format(1, 1)),
                                ("82 02 02 0000 01 01 01", "8 0 0", EARLY), ("82 02 02 0000 00 00 00", "10 0 0", OVER), ("c1", "1 0 0", SOME)):
        old.write_bytes(bytes.fromhex(digits))
        stays(digits, old, new, *CLEANER, status=1, told=f"chain: {old}: refused {line}: {words}\n")
    data, which = bytes.fromhex("82 02 02 0000 01 01 0500"), "which are not that chain without its entries of rate 0, in its form"
    for what, lie, told in (
            ("form 1", "02 00 01 05000000", f"7 bytes for 9, {which}"), ("another rate", "82 00 00 01 01 0600", f"7 bytes for 9, {which}"),
            ("another move left out", "82 00 00 00 00", f"5 bytes for 9, {which}"),
            ("a longer file", "82 02 02 0300 01 00 00000100", f"11 bytes for 9, {which}"),
            ("a zero rate kept", data.hex(), "no stored chain: refused 14 0 1"), ("four bytes less", "82 00 00 01 01", "no stored chain: refused 8 0 0"),
            ("its mark kept", "82 00 02 01 01 0500", "no stored chain: refused 16 0 1")):
        stays.lied(what, data, bytes.fromhex(lie), told)
    stays.lied("form 2", bytes.fromhex("02 02 00000000 01 05000000"), bytes.fromhex("82 00 00 01 01 0500"), f"7 bytes for 11, {which}")
    stays.lied("a refusal for none", data, b"refused 14 0 1\n", "a refusal that cannot be: refused 14 0 1")
    stays.lied("another refusal", bytes.fromhex("82 00 02"), b"refused 8 0 0\n", "refused 8 0 0 where refused 16 0 1 is due")


def names(folder):
    """Names for a chain in form 2: of a text that packs to its bytes in its form, of an old one to those of the cleaned."""
    chain, text = Path(folder, "a.chain"), Path(folder, "a.txt")
    shutil.copy(SHORT, chain)
    status, out, told = ran(CHAIN, "show", str(chain), *PRINTER)
    check("no text: numbers", (status, told) == (0, "") and "\nstate 5  0.00210233 " in out)
    shutil.copy(f"{EXAMPLES}/station.txt", text)
    status, out, told = ran(CHAIN, "show", str(chain), *PRINTER)
    check("its text: names", (status, told) == (0, "") and "\nstalled      0.00210233 " in out)
    check("the shares of form 1", out == ran(CHAIN, "show", STATION, *PRINTER)[1].replace(STATION, str(chain)))
    lines = ran(CHAIN, "unpack", str(chain), "--names", str(text))
    check("unpacked with names", lines == ran(CHAIN, "unpack", STATION, "--names", str(text)) and "\nstalled -> idle 20\n" in lines[1])
    text.write_text(text.read_text().replace(" 20 ", " 21 "))
    status, out, told = ran(CHAIN, "show", str(chain), *PRINTER)
    check("another text: numbers", status == 0 and "\nstate 5 " in out and told == (
        f"chain: {text} is not the text of {chain}: packed, it gives other bytes; states are shown by number\n"))
    check("another text by --names", ran(CHAIN, "show", str(chain), "--names", str(text), *PRINTER)[0] == 2)
    chain.write_bytes(bytes.fromhex("82 02 02 0000 01 01 0500"))
    text.write_text("state low\nstate high\nhigh -> low 5\n")
    told = f"chain: {chain}: refused 14 0 1: row 0, column 1: the entry from state 0 (low) to state 1 (high) has rate 0, as old files store an unused move"
    check("an old one: names", ran(CHAIN, "show", str(chain), *PRINTER) == (1, "", told + HOW))
    chain.write_bytes(bytes.fromhex("82 00 02"))
    check("bytes that are no chain have none", ran(CHAIN, "show", str(chain), *PRINTER)[2].startswith(f"chain: {text} is not the text of {chain}: "))


def examples(folder):
    """The station in form 2 and the damaged one, as the examples and their README have them: each command is run, and says what stands there."""
    check("the station in form 2", Path(SHORT).read_bytes() == bytes.fromhex(PAIRS[-1][1]) and Path(STATION).read_bytes() == bytes.fromhex(PAIRS[-1][0]))
    lines = ran(SOLVE, STATION)[1].splitlines()[:7]
    status, out, told = ran(SOLVE, SHORT)
    check("solved, bit for bit", (status, told) == (0, "") and out.splitlines()[:7] == lines and lines[0] == "states 6 bound 200")
    for name in ("examples", "tools"):
        Path(folder, name).symlink_to(ROOT / name)
    made, written = Path(folder, "my.chain"), []
    for command, said in re.findall(r"^    \$ (.*)\n((?:    (?!\$ ).*\n)*)", "\n".join(section("Short rates")) + "\n", re.M):
        status, out, _ = ran("sh", "-c", command, cwd=folder)
        check(f"{command}: {out}", (status, out) == (int("solve" in command), dedent(said)))
        written.append(made.read_bytes() if made.exists() else None)
    short, damaged = (Path(EXAMPLES, f"{name}-short.chain").read_bytes() for name in ("station", "damaged"))
    check("what its four commands write", written == [None, short, damaged, damaged])
    text = " ".join(Path(EXAMPLES, "README.md").read_text(encoding="utf-8").split())
    pack, show = "tools/chain pack --form 2 examples/station.txt my.chain", "tools/chain show examples/station-short.chain --names examples/station.txt"
    check("the others stand there", f"`{pack}` writes" in text and f" {show} " in text)
    check("pack", ran(*pack.split(), cwd=folder)[0] == 0 and made.read_bytes() == short)
    status, out, told = ran(*show.split(), cwd=folder)
    check("show", (status, told) == (0, "") and "\nstalled      0.00210233 " in out)
    check("the sizes in its table", "stored form 2: 41 bytes, where `station.chain`, in form 1, has 47" in text
          and [len(Path(path).read_bytes()) for path in (SHORT, STATION)] == [41, 47])
    out = ran(CHAIN, "info", f"{EXAMPLES}/rare.chain")[1]
    check("the sizes of rare.chain", "1017 bytes in form 1\n" in out and out.endswith("form 2 would take 1403 bytes\n")
          and "`rare.chain` has 1,017 bytes and would take 1,403" in text)


PARTS = (packing, information, refusals, converting, no_file_converted, cleaning, names, examples)

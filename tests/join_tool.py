"""Checks of tools/chain join (request R-6): what it writes, the names of joint states, refusals in words, and the exit statuses."""
import os
import sys
from pathlib import Path

from tool_checks import CHAIN, EXAMPLES, HOW, NAMED, OLD, PRINTER, ROOT, SHORT, SOLVE, STATION, check, failing_rt, program, ran, section

JOINER = "--program", str(ROOT / "target" / "bin" / "joint_run")
# case 2 of document 01 beside itself, and beside case 3, worked out by hand
TWICE = "04 06 03000000 03000000 09 01000000 03000000 09 01000000 03000000 06 01000000 01000000"
BESIDE_3 = ("06 0a 02000000 03000000 14 04000000 03000000 21 08000000 03000000 11 01000000 02000000 22 01000000 04000000 0c 01000000 08000000")
RARE = f"{EXAMPLES}/rare.chain"


def joined(folder):
    """Case 2 beside itself and beside case 3, as text and stored, and the station beside itself as it stands among the examples."""
    two, ring, out, text = (Path(folder, name) for name in ("two.txt", "ring.txt", "out.chain", "out.txt"))
    two.write_text("low -> high 3\nhigh -> low 1\n")
    ring.write_text("a -> b 2\nb -> c 4\nc -> a 8\n")
    check("beside itself", ran(CHAIN, "join", str(two), str(two), str(out)) == (0, f"{out}: 4 states, 8 moves, 37 bytes\n", "")
          and out.read_bytes() == bytes.fromhex(TWICE))
    status, told, _ = ran(SOLVE, str(out))
    shares = [line.split()[3:] for line in told.splitlines()[1:5]]
    # the products 1/16, 3/16, 3/16 and 9/16, the first two rounded on the way, as the model in tests/ has them
    check("its shares are products", status == 0 and told.startswith("states 4 bound 64\n")
          and shares == [["4294967295", "-36"], ["3221225471", "-34"], ["3221225472", "-34"], ["2415919104", "-32"]])
    check("beside case 3", ran(CHAIN, "join", str(two), str(ring), str(out), *JOINER) == (0, f"{out}: 6 states, 12 moves, 55 bytes\n", "")
          and out.read_bytes() == bytes.fromhex(BESIDE_3))
    ran(CHAIN, "pack", str(ring), f"{folder}/ring.chain")
    status, told, _ = ran(CHAIN, "join", str(two), f"{folder}/ring.chain", str(text), *JOINER)
    check("as text", status == 0 and told == f"{text}: 6 states, 12 moves, {len(text.read_bytes())} bytes\n")
    lines = text.read_text().splitlines()
    check("the joint names in order", lines[:6] == [f"state {one}+{other}" for one in ("low", "high") for other in "abc"])
    check("the first move", lines[6:8] == ["low+a -> low+b 2", "low+a -> high+a 3"])
    again = ran(CHAIN, "pack", str(text), f"{folder}/again.chain")
    check("the text packs to the joint chain", again[0] == 0 and Path(folder, "again.chain").read_bytes() == bytes.fromhex(BESIDE_3))
    done = ran(CHAIN, "join", str(two), str(two), "/dev/stdout", *JOINER)
    check(f"into a pipe: {done}", done == (0, bytes.fromhex(TWICE).decode("ascii"), "chain: /dev/stdout: 4 states, 8 moves, 37 bytes\n"))


def examples(folder):
    """The station beside itself, as the examples and their README have it."""
    for ending in ("chain", "txt"):
        made = Path(folder, f"two-stations.{ending}")
        check(f"two-stations.{ending}", ran(CHAIN, "join", STATION, STATION, str(made), *JOINER)[0] == 0
              and made.read_bytes() == Path(EXAMPLES, made.name).read_bytes())
    status, shown, _ = ran(CHAIN, "show", f"{EXAMPLES}/two-stations.chain", *PRINTER)
    readme, quoted = Path(EXAMPLES, "README.md").read_text(encoding="utf-8"), section("Two stations side by side")
    bars = [line[4:] for line in quoted if "##" in line]
    check("the README's lines with bars", status == 0 and len(bars) == 3 and all(f"\n{bar}\n" in shown for bar in bars))
    share = bars[-1].split()[1]
    check(f"its table has {share}", f"| both stalled at once {share} |" in readme and bars[-1].startswith("stalled+stalled "))
    check("its bound", "within 67236 factors of" in shown and "2K + r = 67,236 factors" in readme)
    commands = [words.removeprefix("    $ ").split() for words in quoted if words.startswith("    $ ")]
    check("its two commands", len(commands) == 2 and all(words[:2] == ["tools/chain", "join"] and len(words) == 5 for words in commands))
    for words in commands:
        out = str(Path(folder, words[4]))
        _, *told = ran(*words[:4], out, *JOINER, cwd=ROOT)
        check(f"what it says: {told}", f"    {''.join(told).replace(out, words[4]).strip()}" in quoted)


def names(folder):
    """Names where a part has none, and where joined ones would be the same."""
    two, bare, out = Path(folder, "two.txt"), Path(folder, "bare.chain"), Path(folder, "out.txt")
    two.write_text("low -> high 3\nhigh -> low 1\n")
    bare.write_bytes(bytes.fromhex("02 00 00"))
    for parts, expected in (((two, bare), "low+s0 low+s1 high+s0 high+s1"), ((bare, two), "s0+low s0+high s1+low s1+high")):
        status, _, told = ran(CHAIN, "join", *map(str, parts), str(out), *JOINER)
        states = [line.split()[1] for line in out.read_text().splitlines() if line.startswith("state ")]
        check(f"a part without names: {states}", (status, told) == (0, "") and states == expected.split())
    first, second = Path(folder, "first.txt"), Path(folder, "second.txt")
    first.write_text("state a\nstate a+b\n")
    second.write_text("state b+c\nstate c\n")
    status, _, told = ran(CHAIN, "join", str(first), str(second), str(out), *JOINER)
    check("names that are the same", status == 0 and "would not all differ" in told and out.read_text() == "state s0\nstate s1\nstate s2\nstate s3\n")


def forms(folder):
    """Parts in either stored form give the same joint chain, in form 1; orders and refusals in words are those of the form."""
    out, many, one, bare = (Path(folder, name) for name in ("out.chain", "many.chain", "one.chain", "bare.chain"))
    for parts in ((SHORT, SHORT), (SHORT, STATION), (STATION, SHORT)):
        told = ran(CHAIN, "join", *parts, str(out), *JOINER)
        check(f"stations: {told}", told == (0, f"{out}: 36 states, 120 moves, 661 bytes\n", "")
              and out.read_bytes() == Path(EXAMPLES, "two-stations.chain").read_bytes())
    two, text = Path(folder, "two.txt"), Path(folder, "out.txt")
    two.write_text("low -> high 3\nhigh -> low 1\n")
    bare.write_bytes(bytes.fromhex("83 00 00 00 00 00 00"))
    status, _, told = ran(CHAIN, "join", str(two), str(bare), str(text), *JOINER)
    check("names of a part in form 2", (status, told) == (0, "") and text.read_text().splitlines()[:6] == [
        f"state {first}+s{j}" for first in ("low", "high") for j in range(3)])
    ran(CHAIN, "pack", "--form", "2", str(two), f"{folder}/two.chain")
    told = ran(CHAIN, "join", f"{folder}/two.chain", f"{folder}/two.chain", str(text), *JOINER)
    check(f"names of the text beside it: {told}", told[::2] == (0, "") and text.read_text().startswith("state low+low\n"))
    many.write_bytes(b"\xc0" + bytes(64 * 16))  # 64 states without a move
    one.write_bytes(bytes.fromhex("81 00 00"))
    told = ran(CHAIN, "join", str(many), str(one), str(out), *JOINER)
    check(f"64 states beside one: {told}", told == (0, f"{out}: 64 states, 0 moves, 513 bytes\n", "") and out.read_bytes() == b"\x40" + bytes(64 * 8))
    told = ran(CHAIN, "join", str(many), SHORT, str(out), *JOINER)
    check(f"15: {told}", told == (1, "", f"chain: {many} and {SHORT}: refused 15 0 0: 64 × 6 = 384 joint states, and a chain has at most 64\n"))
    words = "refused 16 0 3: row 0: bit 3 of its second map stands where there is no rate, or is missing at a rate below 65536\n"
    for at, which in enumerate(("first", "second")):
        parts = [SHORT, SHORT]
        parts[at] = f"{EXAMPLES}/damaged-short.chain"
        check(f"16 in the {which}", ran(CHAIN, "join", *parts, str(out), *JOINER) == (1, "", f"chain: {parts[at]}, the {which} part: {words}"))
    first = Path(folder, "first.chain")
    first.write_bytes(b"\1\0")
    out.write_bytes(b"as it was")
    for what, script, told in (("a byte too many", "echo 81000000 kept 1 1 1", "wrote no stored chain: refused 10 0 0\n"),
                               ("a joint chain in form 2", "echo 810000 kept 1 1 1", "wrote form 2; a joint chain is written in form 1\n"),
                               ("a mark in form 1", "echo first refused 16 0 1", "wrote a refusal that cannot be: refused 16 0 1\n")):
        fake = program(folder, "fake", f"for i in 1 2; do {script}; done")
        result = ran(CHAIN, "join", str(first), str(one), str(out), "--program", fake)
        check(f"{what}: {result}", result[:2] == (3, "") and told in result[2] and out.read_bytes() == b"as it was")


def no_joint_chain(folder):
    """Where joining gives no chain, OUT stays as it was or is not made, and the words say which part is at fault."""
    out, two, moves = Path(folder, "out.chain"), Path(folder, "two.txt"), Path(folder, "moves")
    two.write_text("low -> high 3\nhigh -> low 1\n")
    moves.write_text("a -> b 1\n")

    def stays(what, *words, status, told, **options):
        out.write_bytes(b"as it was")
        result = ran(sys.executable, CHAIN, "join", *map(str, words), **options)
        check(f"{what}: {result}", result[:2] == (status, "") and told in result[2])
        check(f"{what}: OUT stays", out.read_bytes() == b"as it was")

    def refused(what, *parts, told):
        stays(what, *parts, out, *JOINER, status=1, told=told)

    refused("14 in the first", OLD, STATION, told=f"{OLD}, the first part: refused 14 5 0: {NAMED}as old files store an unused move{HOW}")
    refused("14 in the second", STATION, OLD, told=f"{OLD}, the second part: refused 14 5 0: {NAMED}")
    refused("14 in both", OLD, OLD, told=f"{OLD}, the first part: refused 14 5 0: {NAMED}")
    refused("8 in the second", two, f"{EXAMPLES}/damaged.chain", told="damaged.chain, the second part: refused 8 0 0: the bytes end early\n")
    refused("8, then 14", f"{EXAMPLES}/damaged.chain", OLD, told="damaged.chain, the first part: refused 8 0 0: the bytes end early\n")
    refused("14 before 15", RARE, OLD, told=f"{OLD}, the second part: refused 14 5 0: {NAMED}")
    refused("15", RARE, two, told=f"{RARE} and {two}: refused 15 0 0: 64 × 2 = 128 joint states, and a chain has at most 64\n")
    stays("a text under another name", two, moves, out, *JOINER, status=2, told=f"{moves}: this is a text: give it a name that ends in .txt")
    out.unlink()
    check("not made", ran(CHAIN, "join", RARE, str(two), str(out), *JOINER)[0] == 1 and not out.exists())
    stays("no FIRST", f"{folder}/none", two, out, status=2, told="No such file")
    stays("no SECOND", two, f"{folder}/none", out, status=2, told="No such file")
    stays("OUT is a folder", two, two, folder, *JOINER, status=2, told=f"{folder}: Is a directory\n")
    stays("two names", two, two, status=2, told="usage:")
    stays("no folder for OUT", two, two, f"{folder}/none/out.chain", *JOINER, status=2, told="No such file")
    for part in (0, 1):
        parts = [two, two]
        parts[part] = out
        out.write_bytes(bytes.fromhex("02 00 00"))
        before = out.read_bytes()
        status, _, told = ran(CHAIN, "join", *map(str, parts), str(out), *JOINER)
        check("onto a part", status == 2 and "would overwrite one of its parts" in told and out.read_bytes() == before)
    stored, before = two.with_suffix(".chain"), two.read_bytes()
    stored.write_bytes(bytes.fromhex("02 02 03000000 01 01000000"))
    status, _, told = ran(CHAIN, "join", str(stored), str(stored), str(two), *JOINER)
    check("onto the names of a part", status == 2 and "or its names" in told and two.read_bytes() == before)
    stored.unlink()
    stays("no rt", two, two, out, status=3, told="rt: No such file", env={"PATH": folder})
    stays("a proof that fails", two, two, out, status=3, told="the joining program was not built", env={"PATH": failing_rt(folder)})
    odd = "something else than its documented lines"
    for what, script, told in (
            ("a message", "echo oh >&2", "fake: oh\n"), ("no output", ":", odd), ("a signal", "kill -9 $$", "ended with status -9"),
            ("one line", "echo 0100 kept 1 1 1", odd), ("other words", "echo accepted; echo accepted", odd),
            ("half a byte", "for i in 1 2; do echo 010 kept 1 1 1; done", odd),
            ("no chain", "for i in 1 2; do echo 0101 kept 1 1 1; done", "wrote no stored chain: refused 9 0 0\n"),
            ("other states", "for i in 1 2; do echo 0100 kept 1 1 1; done", "wrote 1 states for 2 × 2\n"),
            ("no room", "for i in 1 2; do echo refused 5 0 0 kept 1 1 1; done", "refused what it has room for: refused 5 0 0\n")):
        stays(what, two, two, out, "--program", program(folder, "fake", script), status=3, told=told)
    stays("no program", two, two, out, "--program", f"{folder}/none", status=3, told="tools/chain join builds it")
    left = sorted(os.listdir(folder))
    check(f"no file beside: {left}", left == ["failing", "fake", "moves", "out.chain", "two.txt"])


PARTS = (joined, examples, names, forms, no_joint_chain)

"""Checks of the programs alone: input that comes in parts, reads and writes that fail; and of what the tools make of programs that lie."""
import os
import socket
import subprocess
import sys
import time
from pathlib import Path

from tool_checks import CHAIN, CONVERTER, EXAMPLES, PRINTER, ROOT, STATION, check, program, ran

sys.path.insert(0, str(ROOT / "python"))

from elimination_model import printed  # noqa: E402
from stored_chain import cleaned, converted  # noqa: E402

ONE = "2147483648 -31 2147483648 -31"  # a state's weight and share, both 1
HALF = "2147483648 -31 2147483648 -32"
SOLVED = f"states 2 bound 8\n0 {HALF}\n1 {HALF}\n"


def alone(folder):
    """The printing, the cleaning and the converting program say where a read or a write fails; after a failed read they print nothing."""
    for name in ("shares", "clean", "convert"):
        path = str(ROOT / "target" / "bin" / name)
        reading, writing = ("", f"{name}: could not read standard input\n"), f"{name}: could not write the result\n"
        there = os.open(folder, os.O_RDONLY)
        check(f"{name}: standard input is a folder", ran(path, stdin=there) == (0, *reading))
        os.close(there)
        check(f"{name}: standard input is closed", ran("sh", "-c", f"'{path}' <&-") == (0, *reading))
        check(f"{name}: an empty input", ran(path, stdin=subprocess.DEVNULL) == (0, "refused 8 0 0\n", ""))
        check(f"{name}: a full disk", ran("sh", "-c", f"'{path}' <'{STATION}' >/dev/full")[::2] == (0, writing))
        check(f"{name}: standard output is closed", ran("sh", "-c", f"'{path}' <'{STATION}' >&-")[::2] == (0, writing))
        reader, writer = os.pipe()
        os.close(reader)
        with open(STATION, "rb") as file:
            unread = ran(path, stdin=file, stdout=writer, stderr=subprocess.PIPE)
        os.close(writer)
        check(f"{name}: a pipe that nobody reads: {unread}", unread[::2] == (0, writing))


def paused(path, pieces):
    """What a program writes for input that comes through a pipe in pieces, with a pause before each but the first."""
    with subprocess.Popen([path], stdin=subprocess.PIPE, stdout=subprocess.PIPE) as child:
        try:
            for i, piece in enumerate(pieces):
                time.sleep(0.2 if i else 0)
                child.stdin.write(piece)
                child.stdin.flush()
        except BrokenPipeError:
            pass  # it has ended before
        return child.communicate()[0]


def one_by_one(path, data, size):
    """What a program writes where each read gives so many bytes and no more: one packet of a socket."""
    ours, theirs = socket.socketpair(socket.AF_UNIX, socket.SOCK_SEQPACKET)
    with subprocess.Popen([path], stdin=theirs, stdout=subprocess.PIPE) as child:
        theirs.close()
        try:
            for at in range(0, len(data), size):
                ours.send(data[at:at + size])
        except (BrokenPipeError, ConnectionResetError):
            pass  # it has ended before
        ours.close()
        return child.communicate()[0]


def in_parts(folder):
    """The programs read their input to its end, in however many parts it comes. What they should write is the models'."""
    once = program(folder, "once", "")
    Path(once).write_text(f"#!{sys.executable}\nimport os, subprocess\nsubprocess.run(['{ROOT}/target/bin/shares'], input=os.read(0, 17154))\n")
    for name in ("station", "station-short", "power-on", "no-way-back", "rare", "two-traps", "damaged-short"):
        data = Path(EXAMPLES, f"{name}.chain").read_bytes()
        for called, expected in (("shares", printed(data).encode("ascii")), ("clean", cleaned(data)), ("convert", converted(data))):
            path = str(ROOT / "target" / "bin" / called)
            check(f"{called}, {name}: three bytes, a pause, the rest", paused(path, (data[:3], data[3:])) == expected)
            for size in (1, 5):
                check(f"{called}, {name}: {size} at a time", one_by_one(path, data, size) == expected)
    data = Path(STATION).read_bytes()
    check("five parts", paused(PRINTER[1], (data[:1], data[1:2], data[2:20], data[20:-1], data[-1:])) == printed(data).encode("ascii"))
    longest = b"\x40" + b"".join((2**64 - 1 - 2**i).to_bytes(8, "little") + b"\1\0\0\0" * 63 for i in range(64))
    check("the longest file, one byte at a time", len(longest) == 16641 and one_by_one(PRINTER[1], longest, 1) == printed(longest).encode("ascii"))
    check("a byte more", one_by_one(PRINTER[1], longest + b"\0", 1) == b"refused 10 0 0\n")
    # of form 2: a full map, no marks, and rates of 65,536
    maps = [(2**64 - 1 - 2**i).to_bytes(8, "little") for i in range(64)]
    one, two = (first + b"".join(row + marks + b"\0\0\1\0" * 63 for row in maps) for first, marks in ((b"\x40", b""), (b"\xc0", bytes(8))))
    check("the longest file of form 2, one byte at a time", len(two) == 17153 and one_by_one(CONVERTER[1], two, 1) == one)
    check("and back", one_by_one(CONVERTER[1], one, 7) == two)
    for name in ("shares", "clean", "convert"):
        check(f"{name}: a byte more than the longest", one_by_one(str(ROOT / "target" / "bin" / name), two + b"\0", 1) == b"refused 10 0 0\n")
    # a program that takes the first read alone is told by each of these ways
    check("one read alone: a pause", paused(once, (data[:3], data[3:])) == b"refused 8 0 0\n")
    check("one read alone: a byte", one_by_one(once, data, 1) == b"refused 8 0 0\n")


def programs(folder):
    """What show makes of programs that fail."""
    text = Path(folder, "two.txt")
    text.write_text("a -> b 3\nb -> a 1\n")

    def shown(script):
        return ran(CHAIN, "show", str(text), "--program", program(folder, "fake", script))

    status, out, _ = shown(f"printf 'states 2 bound 0\\n0 0 0 0 0\\n1 {ONE}\\n'")
    check("a Zero share", status == 0 and "\na  0           left for good\nb  1.00000000  ####" in out)
    check("the bound counts the closed set", ": 2 states, 1 of them in the closed set, each share there within 1 factor of " in out)
    check("Zero shares alone", shown("printf 'states 2 bound 0\\n0 0 0 0 0\\n1 0 0 0 0\\n'")[::2] == (
        3, "chain: the printing program gave no state a share\n"))
    check("a message of the program", shown("echo 'shares: could not read standard input' >&2")[::2] == (
        3, f"chain: {folder}/fake: shares: could not read standard input\n"))
    check("no output", shown(":")[0] == 3)
    check("a signal", shown("kill -9 $$")[0] == 3)
    check("lines that are missing", shown("printf 'states 2 bound 8\\n'")[0] == 3)
    check("other states", shown(f"printf 'states 1 bound 0\\n0 {ONE}\\n'")[0] == 3)
    check("no program", ran(CHAIN, "show", STATION, "--program", f"{folder}/none")[0] == 3)


def lying(folder):
    """What show makes of a program whose lines look well and cannot be true: status 3, and no share is shown."""
    text, fake = Path(folder, "two.txt"), program(folder, "fake", f"cat '{folder}/lines'")
    text.write_text("a -> b 1\nb -> a 1\n")

    def shown(lines):
        Path(folder, "lines").write_text(lines)
        return ran(CHAIN, "show", str(text), "--program", fake, timeout=20)

    check("these lines are well", shown(SOLVED)[::2] == (0, ""))
    cannot, other = "wrote what cannot be: ", "wrote something else than its documented lines: "
    for what, lines, told in (
            ("two states exchanged", f"states 2 bound 8\n1 {HALF}\n0 {HALF}\n", cannot + "the states are not numbered from 0 to 1\n"),
            ("states from 1", SOLVED.replace("\n1 ", "\n2 ").replace("\n0 ", "\n1 "), cannot + "the states are not numbered from 0 to 1\n"),
            ("a state twice", SOLVED.replace("\n1 ", "\n0 "), cannot + "the states are not numbered from 0 to 1\n"),
            ("another bound", SOLVED.replace("bound 8", "bound 0"), cannot + "0 is not the bound count of 2 states\n"),
            ("a bound of all states", f"states 2 bound 8\n0 0 0 0 0\n1 {ONE}\n", cannot + "8 is not the bound count of 1 states\n"),
            ("a short m", SOLVED.replace(" 2147483648 -32\n", " 2147483647 -32\n"), cannot + "a pair that is no scaled number\n"),
            ("a long m", SOLVED.replace(" 2147483648 -32\n", " 4294967296 -33\n"), cannot + "a pair that is no scaled number\n"),
            ("a far e", SOLVED.replace(" -32\n", " -16385\n"), cannot + "a pair that is no scaled number\n"),
            ("0 with an e", f"states 2 bound 0\n0 0 0 0 5\n1 {ONE}\n", cannot + "a pair that is no scaled number\n"),
            ("a share without a weight", SOLVED.replace(f"0 {HALF}", "0 0 0 2147483648 -32", 1), cannot + "a state has a weight and no share, "),
            ("a weight without a share", f"states 2 bound 0\n0 2147483648 -31 0 0\n1 {ONE}\n", cannot + "a state has a weight and no share, "),
            ("another last weight", SOLVED.replace(f"1 {HALF}", "1 2147483648 -30 2147483648 -32"), cannot + "the weight of the closed set's last "),
            ("shares above 1", SOLVED.replace(" -32\n", " -31\n"), cannot + "the shares do not add up to 1\n"),
            ("shares below 1", SOLVED.replace(" -32\n", " -33\n"), cannot + "the shares do not add up to 1\n"),
            ("a line more", SOLVED + f"2 {HALF}\n", other), ("a field more", SOLVED.replace("-32\n", "-32 0\n"), other),
            ("a field less", SOLVED.replace(" -32\n", "\n"), other), ("zeros in front", SOLVED.replace("bound 8", "bound 08"), other),
            ("a minus", SOLVED.replace("\n1 ", "\n-1 "), other), ("no line end", SOLVED[:-1], other), ("two answers", SOLVED * 2, other),
            ("5000 digits", SOLVED.replace("bound 8", "bound " + "8" * 5000), other), ("an e of 9 digits", SOLVED.replace("-32", "-999999999"), other),
            ("an unknown refusal", "refused 7 0 0\n", "wrote a refusal that cannot be: refused 7 0 0\n"),
            ("a refusal of memory", "refused 5 0 0\n", "wrote a refusal that cannot be: refused 5 0 0\n"),
            ("no such state", "refused 6 0 2\n", "wrote a refusal that cannot be: refused 6 0 2\n"),
            ("no such row", "refused 14 2 0\n", "wrote a refusal that cannot be: refused 14 2 0\n"),
            ("no such bit", "refused 9 0 8\n", "wrote a refusal that cannot be: refused 9 0 8\n"),
            ("a mark in form 1", "refused 16 0 1\n", "wrote a refusal that cannot be: refused 16 0 1\n"),
            ("places of none", "refused 8 1 0\n", "wrote a refusal that cannot be: refused 8 1 0\n")):
        status, out, said = shown(lines)
        check(f"{what}: {said}", (status, out) == (3, "") and told in said)
    check("a refusal that can be", shown("refused 6 0 1\n")[:2] == (1, "") and shown("refused 14 1 0\n")[:2] == (1, ""))
    check("a bit that can be", shown("refused 9 0 7\n")[:2] == (1, ""))
    text = Path(folder, "two.chain")
    text.write_bytes(bytes.fromhex("82 02 02 0100 01 01 0100"))
    check("these lines are well in form 2", shown(SOLVED)[::2] == (0, ""))
    check("of other states", shown(SOLVED.replace("states 2", "states 130"))[0] == 3)
    for line, status in (("16 0 1", 1), ("16 1 7", 1), ("9 0 7", 1), ("16 2 0", 3), ("16 0 8", 3), ("9 0 8", 3), ("9 2 0", 3), ("14 0 2", 3), ("6 0 2", 3)):
        result = shown(f"refused {line}\n")
        check(f"in form 2: {result}", result[:2] == (status, "") and f"refused {line}" in result[2])


PARTS = (alone, in_parts, programs, lying)

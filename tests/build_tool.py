"""Checks of how the tools have programs proved and built: never an old program's answer, words before proving, and an end to what they
started. A stand-in for rt and for the program is used, in a folder with copies of the tools."""
import os
import shutil
import signal
import subprocess
import sys
import time
from functools import partial
from pathlib import Path

from tool_checks import CHAIN, ROOT, check, program, ran

OLD_LINES = "states 2 bound 0\n0 2147483648 -31 2147483648 -31\n1 0 0 0 0\n"
NEW_LINES = "states 2 bound 0\n0 0 0 0 0\n1 2147483648 -31 2147483648 -31\n"
PROVING = "proving and building the printing program"
OLDER = f"{PROVING}, which is older than its sources; this can take some minutes\n"
TOLD_LINES = "proving shares\n"


class Copy:
    """The tools in a folder of their own, with a crate, a program that was built once, and an rt that does what a script says."""

    def __init__(self, folder, rt):
        self.root = Path(folder, "copy")
        for name in ("tools", "python"):
            shutil.copytree(ROOT / name, self.root / name)
        for name in ("shares", "report", "other"):
            (self.root / "crates" / name / "src").mkdir(parents=True)
            (self.root / "crates" / name / "src" / "lib.rt").write_text("")
        (self.root / "crates.txt").write_text("# NAME: the crates that it uses itself\nreport:\nother:\nshares: report\n")
        self.program, self.text = self.root / "target" / "bin" / "shares", self.root / "two.txt"
        self.program.parent.mkdir(parents=True)
        self.text.write_text("a -> b 1\nb -> a 1\n")
        (self.root / "new").write_text(NEW_LINES)
        (self.root / "old").write_text(OLD_LINES)
        program(self.program.parent, "shares", f"cat '{self.root}/old'")
        self.path = {"PATH": f"{self.root}/bin:{os.environ['PATH']}"}
        self.rt = self.root / "bin" / "rt"
        self.rt.parent.mkdir()
        self.rt.write_text(f"#!/bin/sh\n[ \"$*\" = run ] && [ $PWD -ef '{self.root}/crates/shares' ] || exit 2\n{rt}\n")
        self.rt.chmod(0o755)

    def command(self, *words):
        return sys.executable, str(self.root / "tools" / words[0]), *words[1:], str(self.text)

    def age(self, path, seconds):
        at = time.time() - seconds
        os.utime(self.root / path, (at, at))

    def ran(self, *words):
        return ran(*self.command(*words), env={**os.environ, **self.path})


BUILDS = """mkdir -p out; sed 's/old/new/' ../../target/bin/shares >made && chmod 755 made && mv -f made out/shares
exec >&2
echo 'rt: chose --jobs 2 for shares'
echo 'fn shares::main: proved'
echo 'rt: running out/shares; to give it other input, run that file yourself'"""
FAILS = "exec >&2; echo 'fn shares::main: NOT PROVED'; exit 1"
WAITS = f"for i in 1 2 3 4 5 6 7 8 9; do [ -f ../../heard ] || sleep 1; done; [ -f ../../heard ] || echo 'rt: nobody heard of it' >&2; {FAILS}"
STANDS = """mkdir -p out; cp ../../target/bin/shares out/shares; exec >&2
echo 'rt: nothing has changed since the last proved build, by out/shares.stamp, so nothing is checked now'"""


def builds(folder):
    """show builds as solve does, and no tool shows what an old program says."""
    for words in (("chain", "show"), ("solve",)):
        status, out, told = Copy(f"{folder}/{words[0]}", BUILDS).ran(*words)
        check(f"{words}: the new program's answer: {told}", status == 0 and "\na  0           left for good\nb  1.00000000 " in out)
        check(f"{words}: what was proved is told", told.endswith("proving shares\n"))
        status, out, told = Copy(f"{folder}/{words[0]}-failing", FAILS).ran(*words)
        check(f"{words}: a proof that fails shows nothing", (status, out) == (3, "") and "the printing program was not built" in told)
    copy = Copy(f"{folder}/named", FAILS)
    status, out, told = copy.ran("chain", "show", "--program", str(copy.program))
    check("a program that is named is not built", (status, told) == (0, "") and "\na  1.00000000 " in out)
    told = " ".join(ran(CHAIN, "--help")[1].split())
    check("what the help says", "show, convert, clean and join show and store what the programs write; pack, unpack and info run none" in told)


def words_before(folder):
    """Before something is proved a tool says so, also where an old program stands; where all stands it says nothing."""
    copy = Copy(folder, BUILDS)

    def told(which):
        status, _, said = copy.ran(*which)
        check(f"it ends well: {said}", status == 0)
        return said.replace(f"{which[0]}: ", "")

    for which in (("solve",), ("chain", "show")):
        copy.program.write_text(copy.program.read_text().replace("new", "old"))
        for path in ("crates/shares/src/lib.rt", "crates/report/src/lib.rt", "target/bin/shares"):
            copy.age(path, 100)
        copy.age("crates/report/src/lib.rt", 50)
        check(f"{which}: a crate below is newer", told(which) == f"{OLDER}{TOLD_LINES}")
        copy.program.unlink()
        program(copy.program.parent, "shares", f"cat '{copy.root}/old'")
        copy.age("target/bin/shares", 10)
        said = told(which)
        check(f"{which}: rt proves what is not newer: {said}", said == f"{PROVING}; this can take some minutes\n{TOLD_LINES}")
    copy.rt.write_text(f"#!/bin/sh\n{STANDS}\n")
    check("all stands", told(("solve",)) == "" == told(("chain", "show")))
    copy.age("target/bin/shares", 40)
    Path(copy.root, "crates", "other", "src", "lib.rt").write_text("// new\n")
    check("a crate that is not below", told(("solve",)) == "")
    copy.age("crates/shares/src/lib.rt", 20)
    check("written again and the same: once", told(("solve",)) == OLDER and told(("solve",)) == "")
    for name in ("old", "missing"):
        copy = Copy(f"{folder}/{name}", WAITS)
        copy.age("target/bin/shares", 10)
        if name == "missing":
            copy.program.unlink()
        with subprocess.Popen(copy.command("solve"), env={**os.environ, **copy.path}, stderr=subprocess.PIPE, text=True) as tool:
            line = tool.stderr.readline()
            (copy.root / "heard").write_text("")
            rest = tool.communicate()[1]
        check(f"{name}: before it is proved, not after: {line}", line.startswith(f"solve: {PROVING}") and "nobody heard" not in rest and "NOT PROVED" in rest)


def gone(number):
    """Whether a process has ended; one that nobody has asked after counts as ended."""
    try:
        return Path(f"/proc/{number}/stat").read_text().rpartition(")")[2].split()[0] in "ZX"
    except FileNotFoundError:
        return True


def waited(holds, seconds=10):
    late = time.monotonic() + seconds
    while not holds() and time.monotonic() < late:
        time.sleep(0.02)
    return holds()


def ended(folder):
    """Whoever ends a tool ends the prover that it started, with all that this one started, and no part of a file is left."""
    for name, number, which in (("TERM", signal.SIGTERM, ("solve",)), ("INT", signal.SIGINT, ("solve",)), ("HUP", signal.SIGHUP, ("chain", "show"))):
        there = Path(folder, f"{name}-{which[0]}")
        # as rt does: children in the background, which a shell has ignore SIGINT; here one that ignores SIGTERM too
        stubborn = 'trap "" TERM;' if number == signal.SIGHUP else ""
        copy = Copy(there, f"(sh -c '{stubborn} echo $$ >>{there}/numbers; while :; do sleep 1; done'; :) &\n"
                           f"sleep 300 & echo $! >>'{there}/numbers'\necho $$ >>'{there}/numbers'\nwait")
        # these checks may themselves run where the signal is ignored, in the background of a shell or under nohup
        with subprocess.Popen(copy.command(*which), env={**os.environ, **copy.path}, stdout=subprocess.PIPE, stderr=subprocess.PIPE, text=True,
                              start_new_session=True, preexec_fn=partial(signal.signal, number, signal.SIG_DFL)) as tool:
            numbers = there / "numbers"
            started = waited(lambda: numbers.exists() and len(numbers.read_text().split()) == 3)
            os.kill(tool.pid, number)
            if not waited(lambda: tool.poll() is not None, 60):
                tool.kill()
            out, told = tool.communicate()
        check(f"{name} {which}: status {tool.returncode}", started and tool.returncode == 128 + number and out == "" and "Traceback" not in told)
        left = [int(word) for word in numbers.read_text().split()] if started else []
        check(f"{name} {which}: nothing is left of {left}", started and waited(lambda: all(map(gone, left)), 5))
        for process in left:
            if not gone(process):
                os.kill(process, signal.SIGKILL)
    copy = Copy(f"{folder}/ignored", STANDS + "; sleep 1")
    with subprocess.Popen(("nohup", *copy.command("solve")), env={**os.environ, **copy.path}, stdout=subprocess.PIPE, stderr=subprocess.DEVNULL,
                          stdin=subprocess.DEVNULL) as tool:
        time.sleep(0.5)
        tool.send_signal(signal.SIGHUP)
        tool.communicate()
    check("a signal that was ignored stays so", tool.returncode == 0)


PARTS = (builds, words_before, ended)

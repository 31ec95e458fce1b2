"""Programs, and the library of the calls for C, proved and built for the tools. Whoever ends a tool ends the prover that it started."""
import os
import re
import shutil
import signal
import subprocess
import threading
import time
from contextlib import contextmanager
from pathlib import Path

from command import LOST, SIGNALS, Stop, tell

ROOT = Path(__file__).resolve().parent.parent
SOON = 10  # seconds after which a prover that says nothing is taken to be proving
PATIENCE = 2  # seconds that a prover has to end
BEGINS = re.compile(r"rt: chose --jobs \d+ for (\w+)")  # rt begins with a crate that is not as it was proved


class Notice:
    """Words that are told once: when proving is due, when a crate has been proved, or after some seconds."""

    def __init__(self, words):
        self.words, self.timer = words, threading.Timer(SOON, self.give)
        self.timer.daemon = True

    def give(self):
        words, self.words = self.words, None
        if words:
            tell(words)


def build(crate, called):
    """Has a program or library proved and built, and gives its path below target/. It tells that something is proved before that begins,
    then of each crate as its proof begins, and says nothing where all stands."""
    library = is_library(crate)
    built = ROOT / "target" / ("staticlib" if library else "bin") / (f"lib{crate}.a" if library else crate)
    old = outdated(built, crate)
    notice = Notice(f"proving and building {called}{', which is older than its sources' if old else ''}; this can take some minutes")
    if old or not built.exists():
        notice.give()
    try:
        lines, status = proved(crate, library, notice)
    except OSError as error:
        raise Stop(f"rt: {error.strerror}; the Rattle kit is needed to prove and build {called}", LOST) from error
    if status:
        raise Stop("".join([f"{called} was not built\n", *lines[-20:]]).rstrip(), LOST)
    try:
        place(ROOT / "crates" / crate / "out" / built.name, built)
    except OSError as error:
        raise Stop(f"{built}: {error.strerror}", LOST) from error
    if old:
        mark(built)
    return str(built)


def is_library(crate):
    """Whether crates.txt calls the crate a static library."""
    try:
        return re.search(rf"^{crate} staticlib:", (ROOT / "crates.txt").read_text(encoding="utf-8"), re.MULTILINE) is not None
    except OSError:
        return False


def place(made, built):
    """Puts what rt made where the tools look for it, unless it stands there."""
    built.parent.mkdir(parents=True, exist_ok=True)
    if not built.exists() or built.read_bytes() != made.read_bytes():
        part = built.with_name(f"{built.name}.{os.getpid()}")
        try:
            shutil.copy(made, part)
            part.replace(built)
        finally:
            part.unlink(missing_ok=True)


def outdated(program, crate):
    """Whether it stands and is older than a file of its crate or of one below it. rt looks at what the files hold."""
    try:
        built = program.stat().st_mtime
        lines = (ROOT / "crates.txt").read_text(encoding="utf-8").splitlines()
    except OSError:
        return False
    below = {name.removesuffix(" staticlib").strip(): names.split() for name, _, names in (line.partition("#")[0].partition(":") for line in lines)}
    waiting, met = [crate], set()
    while waiting:
        name = waiting.pop()
        if name not in met:
            met.add(name)
            waiting += below.get(name, ())
    crates = ROOT / "crates"
    return any(path.is_file() and path.stat().st_mtime > built for name in met for path in (crates / name).glob("**/*")
               if path.relative_to(crates).parts[1] not in ("must-fail", "out"))


def mark(built):
    """Notes, by its time, that this is what its sources give: files that were only written again are no news the next time."""
    try:
        os.utime(built)
    except OSError:
        pass  # another user's; the tool will say so again


def proved(crate, library, notice):
    """What rt writes while it proves a crate, and its status. A program runs once, on empty input, and what it prints is let go."""
    prover, lines = None, []
    try:
        with put_off():
            prover = subprocess.Popen(["rt", "lib" if library else "run"], cwd=ROOT / "crates" / crate, stdin=subprocess.DEVNULL,
                                      stdout=subprocess.PIPE if library else subprocess.DEVNULL,
                                      stderr=subprocess.STDOUT if library else subprocess.PIPE, text=True, errors="replace", start_new_session=True)
        notice.timer.start()
        for line in prover.stdout or prover.stderr:
            lines.append(line)
            begins = BEGINS.match(line)
            if begins:
                notice.give()
                tell(f"proving {begins[1]}")
        return lines, prover.wait()
    except BaseException:
        if prover is not None:
            end_group(prover)
        raise
    finally:
        notice.timer.cancel()
        if prover is not None:
            (prover.stdout or prover.stderr).close()


@contextmanager
def put_off():
    """Signals that come within are met at its end: what was started is then known."""
    met, before = [], {number: signal.getsignal(number) for number in SIGNALS}
    for number in SIGNALS:
        if before[number] != signal.SIG_IGN:
            signal.signal(number, lambda number, _: met.append(number))
    try:
        yield
    finally:
        for number in SIGNALS:
            signal.signal(number, before[number])
    if met:
        os.kill(os.getpid(), met[0])


def end_group(prover):
    """Ends a prover with all that it started: it has a process group of its own, and its shell's children take no SIGINT."""
    for number in SIGNALS:
        signal.signal(number, signal.SIG_IGN)  # nothing may come between
    late = time.monotonic() + PATIENCE
    try:
        os.killpg(prover.pid, signal.SIGTERM)
        while time.monotonic() < late:
            prover.poll()
            os.killpg(prover.pid, 0)
            time.sleep(0.02)
        os.killpg(prover.pid, signal.SIGKILL)
    except ProcessLookupError:
        pass  # none is left
    prover.wait()

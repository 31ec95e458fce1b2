"""What tests/tools and its parts share: the paths, a command that is run, a check that is counted, and stand-ins for programs."""
import subprocess
from pathlib import Path

ROOT = Path(__file__).resolve().parent.parent
CHAIN, SOLVE, EXAMPLES = (str(ROOT / path) for path in ("tools/chain", "tools/solve", "examples"))
STATION, SHORT, OLD, CLEAN = (f"{EXAMPLES}/{name}.chain" for name in ("station", "station-short", "no-way-back", "no-way-back-cleaned"))
PRINTER, CLEANER, CONVERTER = (("--program", str(ROOT / "target" / "bin" / name)) for name in ("shares", "clean", "convert"))
NAMED = "row 5, column 0: the entry from state 5 (stalled) to state 0 (idle) has rate 0, "
HOW = "; tools/chain clean OLD NEW leaves such entries out\n"
checked = []  # what was checked, and whether it holds


def ran(*words, **options):
    """The status, standard output and standard error of a command; anything like a traceback is wrong, and so is no end."""
    try:
        done = subprocess.run(words, capture_output="stdout" not in options, check=False, **{"timeout": 900, **options})
    except subprocess.TimeoutExpired as late:
        check(f"{late}"[-90:], False)
        return None, "", ""
    out, told = (done.stdout or b"").decode(), (done.stderr or b"").decode()
    check(" ".join(words)[-60:] + ": no traceback", "Traceback" not in told and "Exception" not in told)
    return done.returncode, out, told


def check(what, holds):
    checked.append((what, bool(holds)))


def section(title):
    """The lines of a section of the examples' README."""
    text = Path(EXAMPLES, "README.md").read_text(encoding="utf-8")
    return text.split(f"\n## {title}\n")[1].split("\n## ")[0].splitlines()


def program(folder, name, script):
    path = Path(folder, name)
    path.write_text(f"#!/bin/sh\ncat >/dev/null\n{script}\n")
    path.chmod(0o755)
    return str(path)


def failing_rt(folder):
    path = Path(folder, "failing", "rt")
    path.parent.mkdir()
    path.write_text("#!/bin/sh\necho 'rt: shares NOT PROVED'\nexit 1\n")
    path.chmod(0o755)
    return str(path.parent)

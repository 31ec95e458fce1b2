"""What the tools share: files read and written with a message where that fails, programs run, exit statuses, and signals."""
import argparse
import os
import signal
import stat
import subprocess
import sys
import tempfile

STATUSES = """exit status:
  0  the answer was printed, or the file written
  1  the chain was refused
  2  wrong usage, a file that cannot be read or written, a text that describes no chain, or one where a stored chain is asked for
  3  a program could not be built or run, or its result was lost on the way out"""
REFUSED, WRONG_INPUT, LOST = 1, 2, 3
SIGNALS = signal.SIGINT, signal.SIGTERM, signal.SIGHUP  # each ends a tool, and what it started


class Stop(Exception):
    """Why the tool ends here: a message for the user, and the exit status."""

    def __init__(self, message, status=WRONG_INPUT):
        super().__init__(message)
        self.status = status


class Ended(BaseException):
    """A signal ends the tool."""

    def __init__(self, number):
        super().__init__(number)
        self.status = 128 + number


class Options(argparse.ArgumentParser):
    """Options whose help is the tool's own text with the exit statuses."""

    def __init__(self, text, **words):
        super().__init__(description=f"{text}\n{STATUSES}", formatter_class=argparse.RawDescriptionHelpFormatter, **words)

    def print_help(self, file=None):
        put(self.format_help())


def tell(message):
    if sys.stderr:  # without one, print would write to standard output
        print(f"{os.path.basename(sys.argv[0])}: {message}", file=sys.stderr)


def put(text):
    """Writes to standard output, in UTF-8, all or with a message."""
    data = text.encode("utf-8", "backslashreplace")
    try:
        while data:
            data = data[os.write(1, data):]
    except BrokenPipeError as error:
        raise Stop("", LOST) from error  # the reader has seen enough
    except OSError as error:
        raise Stop(f"could not write to standard output: {error.strerror}", LOST) from error


def content(path, most=-1):
    """The bytes of a file, or its first ones."""
    try:
        with open(path, "rb") as file:
            return file.read(most)
    except OSError as error:
        raise Stop(f"{path}: {error.strerror}") from error


def replace(path, data):
    """Writes a file. A failure leaves an older file as it was. An older one keeps its mode and, from root, its owner."""
    part = None
    try:
        real = os.path.realpath(path)
        if os.path.exists(path) and not os.path.isfile(real):
            with open(path, "wb") as file:  # a device or a pipe; a pipe's real path names nothing
                file.write(data)
            return
        path = real
        with tempfile.NamedTemporaryFile(dir=os.path.dirname(path), delete=False) as part:
            part.write(data)
        dress(part.name, path)
        os.replace(part.name, path)
    except OSError as error:
        raise Stop(f"{path}: {error.strerror}") from error
    finally:
        if part is not None and os.path.exists(part.name):
            os.unlink(part.name)


def dress(part, path):
    """Gives a file the mode of an older one and, from root, its owner; without an older one the mode 0666 less the umask."""
    try:
        older = os.stat(path)
    except FileNotFoundError:
        umask = os.umask(0o077)
        os.umask(umask)
        os.chmod(part, 0o666 & ~umask)
        return
    if os.geteuid() == 0:
        os.chown(part, older.st_uid, older.st_gid)
    os.chmod(part, stat.S_IMODE(older.st_mode))


def store(path, data, words):
    """Writes a file, then words about it to standard output; to standard error if the file is standard output, to keep its bytes whole."""
    try:
        same = os.path.samestat(os.stat(path), os.fstat(1))
    except OSError:
        same = False
    replace(path, data)
    if same:
        tell(f"{path}: {words}")
    else:
        put(f"{path}: {words}\n")


def output(program, data, builder):
    """What a program writes on these bytes; any word on standard error or a status other than 0 is a failure."""
    try:
        done = subprocess.run([program], input=data, capture_output=True, check=False)
    except OSError as error:
        raise Stop(f"{program}: {error.strerror}; {builder} builds it", LOST) from error
    if done.stderr or done.returncode:
        said = done.stderr.decode("utf-8", "replace").strip()
        raise Stop(f"{program}: {said or f'ended with status {done.returncode}'}", LOST)
    return done.stdout


def end(number, _frame):
    raise Ended(number)


def run(call):
    """Runs a tool and gives its exit status."""
    if sys.stderr:
        sys.stderr.reconfigure(encoding="utf-8", errors="backslashreplace")
    for number in SIGNALS:
        if signal.getsignal(number) != signal.SIG_IGN:  # as nohup leaves one
            signal.signal(number, end)
    try:
        call()
        return 0
    except Stop as stop:
        if str(stop):
            tell(stop)
        return stop.status
    except Ended as ended:
        return ended.status

"""What the tools share: their words, how far they are, and runs in folders of their own."""
import os
import sys

HERE = os.path.dirname(os.path.realpath(__file__))
sys.path.insert(1, os.path.join(os.path.dirname(HERE), "bin"))
import interpreter  # noqa: E402  first: it looks at the Python
import importlib.machinery  # noqa: E402
import importlib.util  # noqa: E402
import signal  # noqa: E402
import subprocess  # noqa: E402
import time  # noqa: E402
from pathlib import Path  # noqa: E402

from shown import shown  # noqa: E402

TOP = Path(HERE).parent
SECONDS = 120
BETWEEN = 5.0


class WrongWords(SystemExit):
    """Words that a tool does not know, and why. It ends a tool that does not catch it."""


def usage_of(about):
    """The lines of a tool's text that say its words."""
    return next(part for part in about.split("\n\n") if part.startswith("usage:")).strip()


def name_of(path):
    """A tool by its place in the repository, and one of another place as if it lay in tools."""
    place = Path(path).resolve()
    return str(place.relative_to(TOP)) if TOP in place.parents else f"tools/{place.name}"


def on_interrupt(one, other):
    """Has Ctrl-C do the other thing where it did the one."""
    if signal.getsignal(signal.SIGINT) == one:
        signal.signal(signal.SIGINT, other)


def open_streams():
    """Where a standard stream is closed, what is said there is lost, and a character that one
    cannot have is an escape there."""
    for name in ("stdout", "stderr"):
        if getattr(sys, name) is None:
            setattr(sys, name, open(os.devnull, "w", encoding="utf8"))
        getattr(sys, name).reconfigure(errors="backslashreplace")


def status_of(main, about):
    """Runs a tool, and answers its status. Ctrl-C leaves it the time to put its work away."""
    words, name, status = sys.argv[1:], name_of(sys.argv[0]), 0
    on_interrupt(signal.SIG_DFL, signal.default_int_handler)
    open_streams()
    try:
        if "--help" in words or "-h" in words:
            print(about.strip())
        else:
            status = main(words)
        sys.stdout.flush()
    except WrongWords as wrong:
        print(f"{name}: {shown(str(wrong))}\n{usage_of(about)}", file=sys.stderr)
        status = 2
    except BrokenPipeError:
        os.dup2(os.open(os.devnull, os.O_WRONLY), sys.stdout.fileno())
        status = 141
    except OSError as error:
        print(f"{name}: {told(error)}", file=sys.stderr)
        status = 2
    return status


def command(main, about):
    """Runs a tool and ends. `--help` prints what it is; words that it refuses have status 2."""
    try:
        try:
            status = status_of(main, about)
        finally:
            # Nothing is left to be put away.
            on_interrupt(signal.default_int_handler, signal.SIG_DFL)
    except KeyboardInterrupt:
        status = 130
    sys.exit(status)


def program_and_rows(words, rows):
    """The program that the first word names, or bin/nitpicker, and the rows that the others name.

    A row is known by its first word. Where none is named, all are meant.
    """
    options = [word for word in words if word.startswith("-")]
    if options:
        raise WrongWords(f"no such word: {options[0]}")
    for row in words[1:]:
        if row not in rows:
            raise WrongWords(f"no such row: {row}; there are {', '.join(rows)}")
    return program_at(words[0] if words else TOP / "bin" / "nitpicker"), words[1:] or list(rows)


def told(error):
    """What the system has refused."""
    if error.filename is None:
        return shown(error.strerror or str(error))
    return f"{shown(os.fsdecode(error.filename))}: {error.strerror}"


class Progress:
    """Says on standard error how far a tool is, every few seconds."""

    def __init__(self, total=None):
        self.total, self.said, self.begun = total, time.monotonic(), time.monotonic()

    def tell(self, number, what):
        now = time.monotonic()
        if now - self.said >= BETWEEN:
            self.said = now
            of_all = f" of {self.total}" if self.total else ""
            name, seconds = name_of(sys.argv[0]), now - self.begun
            print(f"{name}: {what} {number}{of_all}, {seconds:.0f} s", file=sys.stderr, flush=True)


class Outcome:
    """How a run ended, what it said, and the files that its folder has then."""

    def __init__(self, status, said, files):
        self.status, self.said, self.files = status, said, files


def build(starter):
    """Builds the program, where it is not as the sources are. Ctrl-C leaves it the time that it
    needs to put its work away. Where it fails, it has said why, and the tool ends."""
    building = subprocess.Popen([sys.executable, "-B", starter / "building.py"])
    try:
        building.wait()
    except KeyboardInterrupt:
        building.wait()
        raise
    if building.returncode:
        sys.exit(1)


def count(text):
    """A number of at least 1, as argparse reads it."""
    number = int(text)
    if number < 1:
        raise ValueError
    return number


def program_at(path):
    """The program itself, where the path is that of the script that builds it. Its runs then have
    the pages of memory that the script asks for."""
    program = Path(path).resolve()
    crate = program.parent.parent / "crates" / "nitpicker"
    if program.parent.name == "bin" and crate.is_dir():
        build(program.parent)
        pages = program.parent / "pages.txt"
        if pages.is_file():
            os.environ.setdefault("GLIBC_TUNABLES", pages.read_text(encoding="utf8").strip())
        program = crate / "out" / "nitpicker"
    if not (program.is_file() and os.access(program, os.X_OK)):
        raise WrongWords(f"{path}: not a program")
    return str(program)


def tool(name):
    """Another tool of this folder, as a module."""
    loader = importlib.machinery.SourceFileLoader(name, str(TOP / "tools" / name))
    module = importlib.util.module_from_spec(importlib.util.spec_from_loader(name, loader))
    loader.exec_module(module)
    return module


def write_files(folder, files):
    """Makes the files in the folder. Where there are no bytes, a folder is in the file's place."""
    for name, data in files.items():
        path = Path(folder) / name
        path.parent.mkdir(parents=True, exist_ok=True)
        if data is None:
            path.mkdir()
        else:
            path.write_bytes(data)


def read_files(folder):
    """The bytes of each file below the folder, and none for each folder without files."""
    files = {}
    for path in Path(folder).rglob("*"):
        if path.is_file():
            files[str(path.relative_to(folder))] = path.read_bytes()
        elif not any(path.iterdir()):
            files[str(path.relative_to(folder))] = None
    return files


def run(program, words, folder, environment=None):
    """Runs the program in the folder. The status is below 0 where it is killed or late."""
    try:
        ended = subprocess.run(
            [program, *words], cwd=folder, env=environment, timeout=SECONDS, check=False,
            stdin=subprocess.DEVNULL, stdout=subprocess.PIPE, stderr=subprocess.STDOUT)
    except subprocess.TimeoutExpired as late:
        return Outcome(-1000, late.stdout or b"", read_files(folder))
    return Outcome(ended.returncode, ended.stdout, read_files(folder))

"""The words of bin/nitpicker's own, in front of a command of the program."""
import interpreter  # first: it looks at the Python
import contextlib
import fcntl
import os
import resource
import signal
import subprocess
import sys
import tempfile
from pathlib import Path

import usage

TOP = Path(__file__).resolve().parent.parent
STARTER = TOP / "bin" / "nitpicker"
HELP = TOP / "bin" / "help.txt"
PAGES = TOP / "bin" / "pages.txt"
# The variable by which the program knows the folder to put into.
OUT = "NITPICKER_OUT"


class Refusal(Exception):
    """Why there is no run, and the status of that."""

    def __init__(self, status, why):
        super().__init__(why)
        self.status = status


def say(text):
    """Says it on standard error, where that is open and takes it."""
    with contextlib.suppress(OSError, AttributeError):
        sys.stderr.write(f"bin/nitpicker: {text}\n")
        sys.stderr.flush()


def tell(text):
    """Says on standard output what the program would, where that takes it."""
    with contextlib.suppress(OSError):
        os.write(1, os.fsencode(text))


def refuse_words(words):
    """Says that words are no command, as the program does. Answers the status."""
    tell(usage.TEXT)
    say(usage.hint(words))
    return 2


def own_words(words):
    """The folders that our own words give, and the words behind them."""
    words, here, out = list(words), Path(), None
    while words and words[0] in ("-C", "--out"):
        name = words.pop(0)
        if not words or not words[0]:
            raise Refusal(2, f"{name} wants a folder behind it; --help says more")
        folder = words.pop(0)
        if name == "-C":
            here /= folder
        elif out is None:
            out = folder
        else:
            raise Refusal(2, "--out stands twice; --help says more")
    return here, out, words


def output_of(*words):
    """What a command prints, or None where it is not there or fails."""
    try:
        ended = subprocess.run(words, cwd=TOP, capture_output=True, text=True, check=False)
    except OSError:
        return None
    return None if ended.returncode else ended.stdout.strip()


def version():
    """The commit, and the toolchain's line."""
    release = TOP / "VERSION"
    if release.is_file():
        return release.read_text(encoding="utf8")
    commit = output_of("git", "rev-parse", "HEAD") if (TOP / ".git").exists() else None
    changed = " with changes" if commit and output_of("git", "status", "--porcelain") else ""
    toolchain = output_of("rt", "version")
    return (f"nitpicker {commit or 'of an unknown commit'}{changed}\n"
            f"toolchain {toolchain or 'not here: there is no command rt'}\n")


def start(program, words):
    """Has this process become a program, with the signals as they were and the pages of memory that
    bin/nitpicker asks for."""
    for number in (signal.SIGPIPE, signal.SIGXFSZ):
        signal.signal(number, signal.SIG_DFL)
    os.environ.setdefault("GLIBC_TUNABLES", PAGES.read_text(encoding="utf8").strip())
    os.execv(program, [program, *words])


def die_of(number):
    """Ends by the signal that ended what was started."""
    resource.setrlimit(resource.RLIMIT_CORE, (0, 0))
    if number != signal.SIGKILL:
        signal.signal(number, signal.SIG_DFL)
    os.kill(os.getpid(), number)


def hold(folder):
    """Waits until no other run puts into the folder, where its file system has locks. The program
    that this process becomes has the lock until it ends."""
    found = os.open(folder, os.O_RDONLY)
    # What is handed on is no standard stream, even where one is closed.
    held = fcntl.fcntl(found, fcntl.F_DUPFD, 3)
    os.close(found)
    with contextlib.suppress(OSError):
        try:
            fcntl.flock(held, fcntl.LOCK_EX | fcntl.LOCK_NB)
        except BlockingIOError:
            say(f"waits for another run that puts into {folder}")
            fcntl.flock(held, fcntl.LOCK_EX)


def put_into(out):
    """Has the program put into this folder, which is made where it is not there."""
    try:
        os.makedirs(out, exist_ok=True)
        if os.path.samefile(out, os.curdir):
            raise Refusal(2, f"{out} is the folder that is read in; put there without --out")
        tempfile.TemporaryFile(dir=out).close()
        whole = os.path.abspath(out)
        whole.encode()
        if os.listdir(out):
            say(f"{out} is not empty: files of the same name are replaced, all others stay")
        hold(out)
    except UnicodeEncodeError as error:
        what = f"{os.fsencode(out)} is no text, which a folder's name has to be"
        raise Refusal(2, what) from error
    except OSError as error:
        raise Refusal(4, f"{out} takes no files: {error.strerror}") from error
    os.environ[OUT] = whole


def main(words):
    here, out, words = own_words(words)
    if words[:1] in (["--help"], ["--version"]):
        print(HELP.read_text(encoding="utf8") if words[0] == "--help" else version(), end="")
        return 0
    os.chdir(here)
    if usage.fault_of(words):
        return refuse_words(words)
    if out is not None:
        put_into(out)
    start(STARTER, words)
    return 1


if __name__ == "__main__":
    try:
        sys.exit(main(sys.argv[1:]))
    except Refusal as refusal:
        say(refusal)
        sys.exit(refusal.status)
    except OSError as error:
        say(f"{error.filename}: {error.strerror}" if error.filename else error)
        sys.exit(1)

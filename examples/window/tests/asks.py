"""What the cases ask of a desk, and the clients that they put on it."""

import os
from pathlib import Path
import random
import sys
import tempfile
import time

from host import Wrong, bar, check, text, until  # noqa: F401

HERE = Path(__file__).resolve().parent
BARE, WHITE = 0x000020, 0xFFFFFF
BLUE, PAPER, BOARD, ACTIVE, CLOCK = 0x304878, 0xD8D8D0, 0x602020, 0xC08020, 0x101820
COVER = 0x2060A0
PROMPT, COPY, BALL = (60, 80, 192, 112), (300, 80, 192, 112), (200, 260, 360, 170)
TOGGLE = (40, 730)
DESK = ["^clock=./clock", "login=./login", "game=./game", "pad=./pad"]


def dimmed(mode, word):
    """What a mode shows of a word in a view that has not the focus."""
    half = word >> 1 & 0x7F7F7F
    return {"flat": word, "xray": half, "kill": half + 0x800000}[mode]


def shows(screen, x, y, words):
    """Whether this text of the server stands there."""
    return screen.part(x, y, 4 * len(words) + 1, 7) == text(words)


def dots(screen, place=PROMPT):
    """How many dots stand in the field for the password."""
    row = screen.part(place[0] + 24, place[1] + 73, 144, 1)[0]
    return sum(row[8 * at] != WHITE for at in range(18))


def begun(screen):
    """Waits until the four clients of the desk have drawn."""
    until("the prompt", lambda: screen.pixel(60, 80) == BLUE)
    until("the board", lambda: screen.pixel(200, 230) == BOARD)
    until("the notes", lambda: screen.pixel(600, 80) == ACTIVE)
    until("the clock", lambda: screen.pixel(8, 12) == 0x101820)


def delay(screen):
    """Milliseconds from a key's event to the pixel that the client with the focus changed."""
    before = screen.pixel(*TOGGLE)
    begin = time.monotonic()
    screen.key("a")
    while screen.pixel(*TOGGLE) == before:
        if time.monotonic() > begin + 20:
            raise Wrong("a key is not answered in 20 seconds")
    return 1000 * (time.monotonic() - begin)


def typing(screen, keys=3):
    """The delays of so many keys: the client that tells by its colour is alive."""
    return [delay(screen) for _ in range(keys) if not time.sleep(random.uniform(0.01, 0.03))]


def focused_toggle(screen):
    """The client that tells by its colour has the focus."""
    until("the toggle", lambda: screen.pixel(*TOGGLE) == 0x0000F0)
    screen.user("mousemove 40 730 click 1")
    bar(screen, "flat:toggle")


def copied(screen):
    """The game has shown its copy of the prompt, and has the focus."""
    begun(screen)
    screen.user("mousemove 400 300 click 1")
    bar(screen, "flat:game")
    screen.user("key f")
    until("the copy", lambda: screen.part(*COPY) == screen.part(*PROMPT))


def program(folder, deed):
    """A program of its own for a deed of hostile.py, or for the puppet. By the file that is
    answered, too, it tells that the deed is done."""
    path, done = Path(folder) / deed, Path(folder) / f"{deed}.done"
    does = (f"import puppet\npuppet.main({str(done)!r})" if deed == "puppet" else
            f"import hostile\nhostile.main({deed!r}, {str(done)!r})")
    path.write_text(f"#!{sys.executable} -SE\nimport sys\nsys.path.insert(0, {str(HERE)!r})\n"
                    f"{does}\n", encoding="utf-8")
    path.chmod(0o755)
    return path, done


class Puppet:
    """A client that does what the test says, and nothing else."""

    def __init__(self, folder, label):
        path, self.told = program(tempfile.mkdtemp(dir=folder), "puppet")
        self.label, self.word, self.ordered = label, f"{label}={path}", 0
        os.mkfifo(f"{self.told}.orders")
        self.orders = open(f"{self.told}.orders", "r+b", buffering=0)

    def lines(self):
        """What it has written down."""
        return self.told.read_text(encoding="ascii").splitlines() if self.told.exists() else []

    def order(self, *words):
        """Says what it shall do."""
        self.ordered += 1
        self.orders.write(" ".join(map(str, words)).encode("ascii") + b"\n")

    def does(self, *words):
        """Says so, and waits until it has done that, and all before."""
        self.order(*words)
        until(f"it does {words}", lambda: self.lines().count("done") == self.ordered)

    def events(self):
        """The events that it has got: kind and code."""
        return [tuple(map(int, line.split())) for line in self.lines() if line != "done"]

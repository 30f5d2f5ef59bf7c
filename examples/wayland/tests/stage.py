"""The host of a test, with programs by its words."""

from pathlib import Path
import re
import sys
import tempfile
import time

sys.path.append(str(Path(__file__).resolve().parent.parent.parent / "shared" / "tests"))
from running import Running  # noqa: E402
from screen import Screen, Wrong, bar, check, large, stands, text, until  # noqa: E402, F401

BARE = 0x000020
FOOT = "foot{},home:{}={} sh -c 'clear; exec cat > typed'"


class Desk(Running):
    """The host in a screen. `folder` is a home for programs."""

    program = "desk"

    def __init__(self, screen, programs, words, **more):
        self.screen = screen
        self.made = tempfile.TemporaryDirectory(prefix="desk-")
        self.folder = Path(self.made.name)
        self.programs = Path(programs).resolve()
        environment = dict(screen.environment, XDG_RUNTIME_DIR=self.made.name)
        words = [word.replace("HOME", self.made.name) for word in words]
        super().__init__(self.programs / self.program, words, env=environment, **more)
        last = screen.width - 1, screen.height - 1
        until("the host's window", lambda: screen.pixel(*last) == BARE)

    def tell(self, line):
        """A line for the host's control line."""
        super().tell(line.replace("HOME", self.made.name))

    def start(self, word, command):
        """Starts one of the test's own clients, which writes what it says into its home."""
        name = re.split("[,=]", word)[0]
        self.tell(f"+{word},home:HOME,see:{self.programs}={self.programs}/{command} "
                  f"> {name}.said 2>&1")

    def wrote(self, name):
        """What a program has written into its home."""
        try:
            return (self.folder / name).read_text()
        except FileNotFoundError:
            return ""

    def ticks(self):
        """The hundredths of a second of a processor that the host and its porters have used."""
        porters = [number for number, words in self.children() if words[0].endswith(b"/porter")]
        return self.used([self.process.pid, *porters])

    def __exit__(self, kind, *more):
        try:
            if kind is not None and hasattr(self.screen, "shot"):
                self.screen.picture(self.screen.shot)
            super().__exit__(kind, *more)
            if kind is not None:
                print(*self.errors[:20], sep="\n    ")
        finally:
            self.made.cleanup()


def shown(screen, x, y, word=None):
    """Waits until something stands there, or this word."""
    until(f"something at {x}, {y}", lambda: screen.pixel(x, y) == word if word is not None
          else screen.pixel(x, y) != BARE, 60)


def steady(screen, part, seconds=0.6):
    """Waits until a part of the screen stays as it is, and answers it."""
    before, since = screen.part(*part), time.monotonic()
    end = since + 40
    while time.monotonic() < since + seconds:
        time.sleep(0.05)
        now = screen.part(*part)
        if now != before:
            before, since = now, time.monotonic()
        if time.monotonic() > end:
            raise Wrong(f"{part} does not stay as it is")
    return before


def label(screen, x, y, words):
    """Waits until a label stands here."""
    rows = text(words)
    until(f"the label {words} at {x}, {y}",
          lambda: screen.part(x, y, len(rows[0]), 7) == rows)

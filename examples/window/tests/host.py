"""The host of a test, with clients by its words."""

from pathlib import Path
import re
import sys

sys.path.append(str(Path(__file__).resolve().parent.parent.parent / "shared" / "tests"))
from running import Running, lives  # noqa: E402, F401
from screen import (LEAKS, NO_WINDOW, POINTED_WINDOW, Screen, Wrong,  # noqa: E402, F401
                    bar, check, large, stands, text, until)

SHARED = Path(__file__).resolve().parent.parent.parent / "shared" / "shared.h"
SEATS = int(re.search(r"SEATS = (\d+)", SHARED.read_text())[1])


class Host(Running):
    """The host in a screen."""

    def __init__(self, screen, programs, words, **more):
        self.programs = Path(programs).resolve()
        super().__init__(self.programs / "window", words, cwd=self.programs,
                         **{"env": screen.environment, **more})

    def clients(self):
        """The numbers of the clients' processes, by their programs' names."""
        found = {}
        for number, name in self.children():
            if len(name) > 1:
                found.setdefault(Path(name[-2].decode()).name, []).append(number)
        return found

    def ticks(self, numbers=()):
        """The hundredths of a second that host and clients, or some, have used of processors."""
        return self.used(numbers or [self.process.pid, *sum(self.clients().values(), [])])

    def end(self):
        """So does each client that has ended by itself."""
        super().end()
        wrong = [line for line in self.said if re.search(r": ended, status [1-9]", line)]
        if wrong:
            raise Wrong(f"clients end: {wrong}")

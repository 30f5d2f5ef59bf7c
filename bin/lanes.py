"""Lanes: copies of the sources in which crates are built side by side."""
import fcntl
import os
import shutil

from crates import KEPT, TOP, uses_in

LANES = KEPT / "lanes"
WORK = ("incremental", "rlib")


def link_or_copy(one, other):
    try:
        os.link(one, other)
    except OSError:
        shutil.copy2(one, other)


def move(one, other):
    """Moves what was built and what a check kept from one crate's folder to the other's."""
    for name in WORK:
        if (one / "out" / name).is_dir():
            (other / "out").mkdir(exist_ok=True)
            shutil.rmtree(other / "out" / name, ignore_errors=True)
            os.rename(one / "out" / name, other / "out" / name)


class Lane:
    """A copy of the parts' sources. A part that is built there has its kept work there so long, and
    its own folder is held, as `rt` holds the folder of a crate that it works in."""

    def __init__(self, number, parts):
        self.folder, self.linked, self.held = LANES / str(number), set(), None
        for part in parts:
            for name in part.files():
                to = self.place(part) / name
                to.parent.mkdir(parents=True, exist_ok=True)
                shutil.copyfile(part.folder / name, to)
        names = {part.name for part in parts}
        lines = (TOP / "crates.txt").read_text(encoding="utf8").splitlines(keepends=True)
        (self.folder / "crates.txt").write_text(
            "".join(line for line in lines if names & set(uses_in(line))), encoding="utf8")

    def place(self, part):
        return self.folder / "crates" / part.name

    def take(self, part):
        """Makes the lane ready to build a part over the libraries that are built."""
        self.held = os.open(part.folder, os.O_RDONLY)
        try:
            fcntl.flock(self.held, fcntl.LOCK_EX)
        except OSError:
            pass
        move(part.folder, self.place(part))
        for below in part.below:
            if below.name not in self.linked:
                to = self.place(below) / "out" / "rlib"
                shutil.rmtree(to, ignore_errors=True)
                shutil.copytree(below.library(), to, copy_function=link_or_copy)
                self.linked.add(below.name)

    def give_back(self, part):
        move(self.place(part), part.folder)
        if self.held is not None:
            os.close(self.held)
        self.held = None


def remove_lanes():
    shutil.rmtree(LANES, ignore_errors=True)

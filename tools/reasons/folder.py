"""The folder that a run would be in: which files it reads there, and where it puts its own."""
import difflib
import errno
import os
from pathlib import Path

from shown import shown

from . import scripts
from .faults import Note, Refused

ENDINGS = (".toml", ".nit", ".in", ".clip", ".txt")
STARTER = "bin/nitpicker"
ELSEWHERE = "docs/FAILURES.md, Into another folder"
ANOTHER = "another folder; it is made where it is not there"


class Folder:
    """A folder by its path, and the one of --out, where there is one."""

    def __init__(self, path=".", out=None):
        self.path, self.out = path, out

    # What is read.

    def read(self, name, most, beside="", about=""):
        """The bytes of a file, enough to tell whether it is too long. `beside` names it, and
        `about` is what else is to be said where it is not there."""
        try:
            with open(os.path.join(self.path, name) if name else "", "rb") as file:
                return file.read(most + 1)
        except (OSError, ValueError) as wrong:
            note = self.why_not(name, wrong, beside, about)
            raise Refused(3, f"{name}: read fault", note) from wrong

    def why_not(self, name, wrong, beside, about):
        what = getattr(wrong, "strerror", None) or str(wrong)
        right = ""
        if not name:
            what = "the name is empty"
        elif os.path.isdir(os.path.join(self.path, name)):
            what = "it is a folder"
        elif isinstance(wrong, FileNotFoundError):
            what = f"there is no such file in {shown(os.path.realpath(self.path))}"
            right = self.instead(name, beside, about)
        return Note(name or "''", f"it cannot be read: {what}", right,
                    "docs/FAILURES.md, Reading")

    def instead(self, name, beside, about):
        """What may be right in place of a name of no file."""
        close, home = None if about else self.near(name), os.path.dirname(beside)
        perhaps = f"perhaps `{shown(close)}`, which is there" if close else ""
        from_where = "names go from the folder in which the program is started, also those in a " \
            "configuration"
        there = f"there is one in {shown(home)}: start the program there" if \
            os.path.isfile(os.path.join(self.path, home, name)) else ""
        return "; ".join(filter(None, [perhaps, about or from_where, there]))

    def near(self, name):
        """A file that is there and that a name may have been meant to be, or none."""
        home, last = os.path.split(name)
        stem, ending = os.path.splitext(last.lower())
        try:
            names = {it.lower(): it for it in os.listdir(os.path.join(self.path, home))
                     if os.path.isfile(os.path.join(self.path, home, it))}
        except OSError:
            return None
        for close in difflib.get_close_matches(last.lower(), names, 5, 0.75):
            other, its_ending = os.path.splitext(close)
            is_kind = its_ending == ending or ending not in ENDINGS
            if is_kind and difflib.SequenceMatcher(None, stem, other).ratio() >= 0.6:
                return os.path.join(home, names[close])
        return None

    def phases(self, name):
        """How many lines `phase` a file has, whatever its other lines are, or none."""
        try:
            return self.read(name, scripts.MOST_BYTES).split(b"\n").count(b"phase")
        except Refused:
            return None

    # What is put.

    def check_puts(self, names):
        """That nothing refuses to put files of these names."""
        for name in names:
            path = str(Path(self.out or "") / name)
            why = "a folder has this name" if self.is_blocked(path) else \
                "" if self.out or is_open(self.path) else "this user may not write into the folder"
            if why:
                raise Refused(4, f"{name}: write fault", Note(
                    path, f"it cannot be written: {why}", "", "docs/FAILURES.md, Putting"))

    def is_blocked(self, name):
        """Whether a folder stands where a file is to be put."""
        path = os.path.join(self.path, name)
        return os.path.isdir(path) and not os.path.islink(path)

    def check_out(self):
        """That bin/nitpicker takes the folder of --out, where there is one."""
        path = os.path.join(self.path, self.out or "")
        if self.out is None:
            return
        if os.path.isdir(path) and os.path.samefile(path, self.path):
            raise Refused(2, f"{self.out} is the folder that is read in; put there without --out",
                          Note(self.out, "the folder of --out is the one that is read in",
                               f"{ANOTHER}, or no --out", ELSEWHERE), who=STARTER)
        why = why_closed(path)
        if why:
            raise Refused(4, f"{self.out} takes no files: {os.strerror(why[0])}",
                          Note(self.out, f"no files can be put there: {why[1]}", ANOTHER,
                               ELSEWHERE), who=STARTER)


def is_open(path):
    return os.access(path, os.W_OK | os.X_OK)


def why_closed(path):
    """Why no folder can be made within a path, which is made before: an error and words."""
    try:
        os.lstat(path)
        is_made = os.path.isdir(path)
        if not is_made:
            return errno.EEXIST, "something that is no folder has this name"
    except OSError as wrong:
        if wrong.errno not in (errno.ENOENT, errno.ENOTDIR):
            return wrong.errno, shown(wrong.strerror)
    above = Path(path).absolute()
    while not os.path.lexists(above):
        above = above.parent
    if not above.exists():
        return errno.ENOENT, f"{shown(str(above))} is a link that leads nowhere"
    if not above.is_dir():
        return errno.ENOTDIR, f"{shown(str(above))} is no folder"
    if is_open(above):
        return None
    is_fixed = os.statvfs(above).f_flag & os.ST_RDONLY
    return errno.EROFS if is_fixed else errno.EACCES, \
        f"this user may not write into {shown(str(above))}"

"""How tools/edges makes checks: side by side, each within its time and with a log of its own."""
import concurrent.futures
import contextlib
import os
import signal
import subprocess
import threading
import time
from typing import NamedTuple

from machine import processors

PASSED, FAILED, NOT_RUN = "passed", "FAILED", "not run"
# So many lines of a log are told.
LINES = 25
# What is asked to end has so many seconds for it.
ENDING = 5
# What make and Python hand on to what they start, and no check is to have.
HANDED_ON = ("MAKEFLAGS", "MAKELEVEL", "MFLAGS")


class Check(NamedTuple):
    """A check: the words that start it, in how many seconds it has to end, what it needs of the
    machine, the check that has to pass before it, whether it looks at time, and has a second try
    for that, as the machine may do something else too, and whether it is made alone, behind all
    others."""

    name: str
    words: list
    seconds: int = 120
    needs: tuple = ()
    over: str = ""
    looks_at_time: bool = False
    is_alone: bool = False


class Outcome(NamedTuple):
    """What came of a check, in how many seconds, and what there is to tell of it."""

    kind: str
    seconds: float = 0
    told: str = ""


def tail_of(log):
    """The last lines of a log."""
    lines = log.read_text(encoding="utf8", errors="backslashreplace").splitlines()
    return "\n".join(lines[-LINES:])


def end(started):
    """Ends what was started, and what of all that it has started is still in its group."""
    for what, seconds in ((signal.SIGTERM, ENDING), (signal.SIGKILL, None)):
        with contextlib.suppress(ProcessLookupError):
            os.killpg(started.pid, what)
        with contextlib.suppress(subprocess.TimeoutExpired):
            started.wait(seconds)


def leave(number, _):
    """Ends as a signal asks for, when what runs is ended."""
    raise SystemExit(128 + number)


class Lanes:
    """Makes checks, as many at once as there are processors, until its time is over."""

    def __init__(self, top, logs, seconds, tell):
        self.top, self.logs, self.tell = top, logs, tell
        self.over_at = time.monotonic() + seconds
        self.running, self.lock, self.is_over = set(), threading.Lock(), False
        self.environment = {name: value for name, value in os.environ.items()
                            if name not in HANDED_ON}
        self.environment["PYTHONPYCACHEPREFIX"] = str(logs / "pycache")

    def begin(self, words, log):
        """What is started by these words, or nothing where all is over."""
        with self.lock:
            if self.is_over:
                return None
            started = subprocess.Popen(words, cwd=self.top, env=self.environment,
                                       stdin=subprocess.DEVNULL, stdout=log,
                                       stderr=subprocess.STDOUT, start_new_session=True)
            self.running.add(started)
            return started

    def fault_of(self, words, seconds, log):
        """Why what these words start does not end well in so many seconds, or nothing."""
        try:
            started = self.begin(words, log)
        except OSError as error:
            return f"{words[0]}: {error.strerror}"
        if not started:
            return "it was not begun"
        try:
            status = started.wait(seconds)
            return f"status {status}" if status else ""
        except subprocess.TimeoutExpired:
            return f"it had not ended after {seconds:.0f} s"
        finally:
            end(started)
            self.running.discard(started)

    def try_to(self, check, path):
        """Makes one check, once, and answers what came of it."""
        begun = time.monotonic()
        left = min(check.seconds, self.over_at - begun)
        if left <= 0:
            return Outcome(FAILED, 0, "it was not begun, as the time for all checks is over")
        with open(path, "ab") as log:
            why = self.fault_of(check.words, left, log)
        seconds = time.monotonic() - begun
        if not why:
            return Outcome(PASSED, seconds)
        return Outcome(FAILED, seconds, f"{why}; {path} ends:\n{tail_of(path)}")

    def make(self, check):
        """Makes one check, and answers what came of it."""
        path = self.logs / f"{check.name.replace('/', '-')}.log"
        path.unlink(missing_ok=True)
        outcome = self.try_to(check, path)
        if outcome.kind == PASSED or not check.looks_at_time:
            return outcome
        again = self.try_to(check, path)
        return again._replace(told=f"at the second try; {path} has the first one") \
            if again.kind == PASSED else outcome

    def stop(self):
        """Ends what runs, and begins nothing more."""
        with self.lock:
            self.is_over = True
        for started in list(self.running):
            end(started)

    def note(self, found, check, outcome):
        found[check.name] = outcome
        self.tell(check, outcome)

    def take_ready(self, left, found):
        """Takes out the checks that can begin, for what came of others. One whose other check did
        not pass is as that one is."""
        known = [it for it in left if not it.over or it.over in found]
        left[:] = [it for it in left if it not in known]
        ready = [it for it in known if not it.over or found[it.over].kind == PASSED]
        for check in known:
            if check not in ready:
                self.note(found, check, Outcome(found[check.over].kind, 0, f"for {check.over}"))
        return ready

    def note_ended(self, futures, found):
        """Waits until one of those that run has ended, and notes what came of it."""
        for future in concurrent.futures.wait(futures, return_when="FIRST_COMPLETED").done:
            self.note(found, futures.pop(future), future.result())

    def side_by_side(self, checks, found, lanes):
        """Makes checks in so many lanes."""
        left, futures = list(checks), {}
        with concurrent.futures.ThreadPoolExecutor(lanes) as pool:
            try:
                while left or futures:
                    futures |= {pool.submit(self.make, it): it
                                for it in self.take_ready(left, found)}
                    self.note_ended(futures, found)
            except BaseException:
                self.stop()
                raise

    def all_of(self, checks, found):
        """Makes all checks, where it is known what came of others, and answers by name what came of
        each."""
        for number in (signal.SIGTERM, signal.SIGHUP):
            signal.signal(number, leave)
        quick = [it for it in checks if not it.is_alone]
        self.side_by_side(quick, found, processors())
        self.side_by_side([it for it in checks if it.is_alone], found, 1)
        return found

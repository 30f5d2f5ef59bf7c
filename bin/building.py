"""Proves and builds the program, and becomes it.

Crates that do not stand on each other are built side by side. One `rt` at a time works in a crate
and in those below it, so each has a lane: a copy of the sources, into which the libraries below the
crate are linked, and from which what was built of it is moved to its place. Last, `rt run` looks at
all of it, proves and links the program, and builds what it finds lacking. Without words it builds
alone. Words and files with which nothing would run are refused as the program does it, and nothing
is built.
"""
import interpreter  # first: it looks at the Python
import contextlib
import fcntl
import os
import shutil
import signal
import subprocess
import sys
import time
from concurrent.futures import FIRST_COMPLETED, ThreadPoolExecutor, wait

import usage
from crates import KEPT, PROGRAM, TOP, is_current, note_product, parts_of, RECORD
from lanes import Lane, remove_lanes
from machine import Machine
from starter import die_of, output_of, refuse_words, say, start, tell

# More seldom help a check.
MOST_JOBS = 8
# It names the toolchain.
README = TOP / "README.md"


class NotBuilt(Exception):
    """Why there is no program."""


def since(begun):
    """How long, since this second of the clock."""
    seconds = int(time.time() - begun)
    return f"{seconds} s" if seconds < 60 else f"{seconds // 60} min {seconds % 60} s"


class Commands:
    """The commands that run now, which all end where the build is broken off."""

    def __init__(self):
        self.running, self.signal, self.is_over = set(), None, False
        for number in (signal.SIGINT, signal.SIGTERM, signal.SIGHUP):
            if signal.getsignal(number) != signal.SIG_IGN:
                signal.signal(number, self.hand_on)

    def hand_on(self, number, _frame):
        self.signal = number
        self.end_all()

    def end_all(self):
        self.is_over = True
        for process in list(self.running):
            process.terminate()

    def run(self, words, folder, log):
        """The status of a command, whose lines go into the log."""
        with open(log, "wb") as lines:
            process = subprocess.Popen(words, cwd=folder, stdin=subprocess.DEVNULL,
                                       stdout=lines, stderr=subprocess.STDOUT)
        self.running.add(process)
        # It may have begun while all were ended.
        if self.is_over:
            process.terminate()
        status = process.wait()
        self.running.discard(process)
        return status


class Build:
    """The parts that are left to build, those that are being built, and the lanes for more."""

    def __init__(self, parts, machine, commands):
        self.left = [part for part in parts if not part.is_built()]
        self.count, self.number, self.machine = len(self.left), 0, machine
        self.commands, self.running = commands, {}
        self.lanes = [Lane(number, parts) for number in range(min(machine.lanes, len(self.left)))]

    def ready(self):
        """The parts that stand on none that is left, first those for which the most waits."""
        waits = [*self.left, *(part for part, _ in self.running.values())]
        return sorted((part for part in self.left if not any(it in waits for it in part.below)),
                      key=lambda part: -part.chain)

    def build(self, part, lane, jobs):
        """Builds a part in a lane, and answers the status and how long it took."""
        begun = time.time()
        try:
            lane.take(part)
            status = self.commands.run(["rt", "lib", "--jobs", str(jobs)], lane.place(part),
                                       KEPT / f"{part.name}.log")
        finally:
            lane.give_back(part)
        return status, lane, since(begun)

    def start_ready(self, pool):
        """Starts parts while there are lanes and processors, which they share."""
        ready = self.ready()
        idle = self.machine.processors - sum(jobs for _, jobs in self.running.values())
        while ready and self.lanes and idle > 0:
            share = idle // min(len(ready), len(self.lanes))
            jobs, part = max(1, min(MOST_JOBS, share)), ready.pop(0)
            self.left.remove(part)
            self.running[pool.submit(self.build, part, self.lanes.pop(), jobs)] = part, jobs
            idle -= jobs

    def end(self, future):
        """Takes in how a part's build ended."""
        part, jobs = self.running.pop(future)
        status, lane, took = future.result()
        if status and self.commands.is_over:
            return
        if status:
            raise NotBuilt(why_not(part.name, took))
        part.note_built()
        self.number += 1
        self.lanes.append(lane)
        rest = ", ".join(sorted(part.name for part, _ in self.running.values()))
        say(f"{self.number} of {self.count}, {part.name}: {took} with {jobs} "
            f"{'jobs' if jobs > 1 else 'job'}{f'; going on: {rest}' if rest else ''}")

    def run(self):
        with ThreadPoolExecutor(self.machine.lanes) as pool:
            try:
                while (self.left or self.running) and not self.commands.is_over:
                    self.start_ready(pool)
                    for future in wait(self.running, return_when=FIRST_COMPLETED).done:
                        self.end(future)
            except (NotBuilt, OSError):
                self.commands.end_all()
                raise


def why_not(name, took):
    """The last lines of a part's log, and where it is."""
    log = KEPT / f"{name}.log"
    lines = log.read_text(encoding="utf8", errors="backslashreplace").splitlines()[-5:]
    return "\n".join([f"{name} was not proved or not built, after {took}; its log ends:", *lines,
                      f"bin/nitpicker: all of it is in {log}"])


def build_program(machine, commands):
    """Proves, builds and links the program. `rt run` runs it without words too, which puts nothing
    and has a status of its own, so there the program is what tells."""
    begun = time.time()
    with contextlib.suppress(FileNotFoundError):
        PROGRAM.unlink()
    jobs = min(MOST_JOBS, machine.processors)
    commands.run(["rt", "run", "--jobs", str(jobs)], PROGRAM.parent.parent, KEPT / "nitpicker.log")
    if not commands.is_over and not os.access(PROGRAM, os.X_OK):
        raise NotBuilt(why_not("nitpicker", since(begun)))


def announce(parts, machine, toolchain):
    """Says what is to be done, what it takes, and what is not as it should be."""
    lacking = [part for part in parts[:-1] if not part.is_built()]
    if lacking:
        say(f"{len(lacking)} of {len(parts)} crates are proved and built first; all of them, from "
            f"nothing, take twenty minutes or more on four processors")
        for line in machine.lines():
            say(line)
    if toolchain.replace(" logic", ", logic") not in README.read_text(encoding="utf8"):
        say(f"the toolchain here is {toolchain}; README.md names another one")


def build_all(toolchain, commands):
    """Builds what is not built, and notes it."""
    begun, parts = time.time(), parts_of("nitpicker", toolchain)
    if is_current(parts, toolchain):
        os.utime(RECORD, (begun, begun))
        return
    machine = Machine(TOP)
    announce(parts, machine, toolchain)
    remove_lanes()
    try:
        Build(parts[:-1], machine, commands).run()
    finally:
        remove_lanes()
    if not commands.is_over:
        build_program(machine, commands)
    if commands.is_over:
        return
    if parts_of("nitpicker", toolchain)[-1].sum != parts[-1].sum:
        raise NotBuilt("a source has changed while the program was built; start it again")
    note_product(parts, toolchain, begun)
    say(f"proved and built in {since(begun)}")


def refusal_of_files(words):
    """The status with which the program would refuse a file, and its line, by the reading of
    tools/explain, or none."""
    name = usage.unreadable(words)
    if name is not None:
        return 3, f"{name}: read fault"
    if not (TOP / "tools" / "reasons").is_dir():
        return None
    # It reads much, for which a slip of the fingers does not wait.
    sys.path.append(str(TOP / "tools"))
    from reasons.commands import refusal_of
    verdict = refusal_of(words)
    return (verdict.status, verdict.line) if verdict else None


def refused(words):
    """The status of words with which nothing would run, said as the program says it, or none."""
    if usage.fault_of(words):
        return refuse_words(words)
    status, line = refusal_of_files(words) or (None, "")
    if status is not None:
        tell(f"nitpicker: {line}\n")
        say("nothing is built for that; tools/explain before the same words says more")
    return status


def main(words):
    status = refused(words) if words else None
    if status is not None:
        return status
    if not shutil.which("rt"):
        say("there is no command rt; README.md says where the toolchain comes from")
        return 1
    toolchain = output_of("rt", "version") or "unknown"
    KEPT.mkdir(parents=True, exist_ok=True)
    # One start builds, and the others wait for it. The lock goes with the process that holds it.
    with open(KEPT / "lock", "w", encoding="utf8") as lock:
        try:
            fcntl.flock(lock, fcntl.LOCK_EX | fcntl.LOCK_NB)
        except BlockingIOError:
            say("another start is building the program; waiting for it")
            fcntl.flock(lock, fcntl.LOCK_EX)
        commands = Commands()
        build_all(toolchain, commands)
    if commands.signal:
        die_of(commands.signal)
    if words:
        start(PROGRAM, words)
    return 0


if __name__ == "__main__":
    try:
        sys.exit(main(sys.argv[1:]))
    except NotBuilt as error:
        say(error)
    except OSError as error:
        say(f"{error.filename}: {error.strerror}" if error.filename else error)
    sys.exit(1)

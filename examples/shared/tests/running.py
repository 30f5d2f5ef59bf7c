"""A host that a test has started: what it is told and says, and what it uses."""

import os
from pathlib import Path
import queue
import subprocess
import sys
import threading
import time

from screen import Wrong


class Running:
    """A host as a process. Its streams are pipes to the test, where no more is said of them."""

    def __init__(self, program, words, **more):
        streams = dict.fromkeys(("stdin", "stdout", "stderr"), subprocess.PIPE)
        self.process = subprocess.Popen([str(program), *words], text=True, bufsize=1,
                                        **{**streams, **more})
        self.control = self.process.stdin
        self.lines = queue.Queue()
        self.said = []
        self.errors = []
        self.readers = [threading.Thread(target=self.read, args=(stream, put), daemon=True)
                        for stream, put in ((self.process.stdout, self.lines.put),
                                            (self.process.stderr, self.errors.append)) if stream]
        for reader in self.readers:
            reader.start()

    @staticmethod
    def read(stream, put):
        """Hands on each line of a stream."""
        for line in stream:
            put(line.rstrip("\n"))

    def tell(self, line):
        """A line for the host's control line."""
        self.control.write(line + "\n")

    def says(self, begin, seconds=30):
        """Waits for a line that begins so, and answers it."""
        end = time.monotonic() + seconds
        while True:
            try:
                line = self.lines.get(timeout=max(0.01, end - time.monotonic()))
            except queue.Empty:
                raise Wrong(f"the host does not say {begin!r}, but {self.said[-5:]}") from None
            self.said.append(line)
            if line.startswith(begin):
                return line

    def children(self):
        """The numbers of the processes that the host has started, and the words of each."""
        path = f"/proc/{self.process.pid}/task/{self.process.pid}/children"
        for number in Path(path).read_text().split():
            try:
                yield int(number), Path(f"/proc/{number}/cmdline").read_bytes().split(b"\0")
            except OSError:
                continue

    def descriptors(self):
        """How many the host has. Who may not list them is told their number, since Linux 6.2."""
        folder = f"/proc/{self.process.pid}/fd"
        try:
            return len(os.listdir(folder))
        except PermissionError:
            return os.stat(folder).st_size or sys.exit(f"{folder}: only root can count these")

    @staticmethod
    def used(numbers):
        """The hundredths of a second that these processes have used of processors."""
        stats = [Path(f"/proc/{number}/stat").read_text().rsplit(")", 1)[1].split()
                 for number in numbers]
        return sum(int(stat[11]) + int(stat[12]) for stat in stats)

    def __enter__(self):
        return self

    def __exit__(self, kind, *_):
        if kind is None:
            self.end()
            return
        self.process.kill()
        self.process.wait()

    def end(self):
        """Ends the host by its control line. It has to end well, and say nothing of errors."""
        try:
            self.tell("quit")
        except BrokenPipeError:
            pass
        try:
            status = self.process.wait(60)
        except subprocess.TimeoutExpired:
            self.process.kill()
            raise Wrong("the host does not end") from None
        for reader in self.readers:
            reader.join(5)
        self.said += iter(lambda: self.lines.get_nowait() if self.lines.qsize() else None, None)
        if status != 0 or self.errors:
            raise Wrong(f"the host ends with {status}: {self.errors[:40]}")


def lives(number):
    """Whether a process lives."""
    try:
        return Path(f"/proc/{number}/stat").read_text().rsplit(")", 1)[1].split()[0] not in "XZ"
    except FileNotFoundError:
        return False

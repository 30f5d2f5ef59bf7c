"""What a build may use of this machine."""
import os
import re
import shutil
from pathlib import Path

GIGABYTE = 10 ** 9
# What the largest crate takes, and what all of them leave on the disk.
MEMORY, DISK = 4 * GIGABYTE, 6 * GIGABYTE
GROUP = Path("/sys/fs/cgroup")


def number_in(path, pattern):
    """The number that stands first in a file of the system, or none."""
    try:
        found = re.search(pattern, Path(path).read_text(encoding="utf8"))
    except OSError:
        return None
    return int(found[1]) if found else None


def processors():
    """Those that this process may run on, or fewer by the quota of its group."""
    count = len(os.sched_getaffinity(0))
    quota, period = (number_in(GROUP / "cpu.max", form) for form in (r"^(\d+)", r" (\d+)"))
    return max(1, min(count, quota // period)) if quota and period else count


def memory():
    """The bytes that may still be taken, also by the limit of the group."""
    free = 1024 * (number_in("/proc/meminfo", r"MemAvailable:\s+(\d+)") or 0)
    limit, taken = number_in(GROUP / "memory.max", r"^(\d+)"), number_in(
        GROUP / "memory.stat", r"(?m)^anon (\d+)")
    return min(free, limit - taken) if limit and taken is not None else free


class Machine:
    """The processors, memory and disk that there are, and how many crates go side by side."""

    def __init__(self, folder):
        self.processors, self.memory = processors(), memory()
        self.disk = shutil.disk_usage(folder).free
        self.lanes = max(1, min(self.processors, self.memory // MEMORY))

    def lines(self):
        """What it has, and what it lacks."""
        yield (f"this machine: {self.processors} processors, {self.memory / GIGABYTE:.0f} GB of "
               f"memory and {self.disk / GIGABYTE:.0f} GB of disk are free; up to {self.lanes} "
               f"crates side by side")
        if self.memory < MEMORY:
            yield f"short of memory: one crate may take {MEMORY // GIGABYTE} GB"
        if self.disk < DISK:
            yield f"short of disk: what is built from nothing takes {DISK // GIGABYTE} GB"

"""What the checks of tools/edges need of the machine: is it there, and how does it come there?"""
import os
import shutil
import subprocess
import time

from edge_lanes import FAILED, NOT_RUN, Outcome

# What apt-get may take in all, and for its lists.
SECONDS, OF_LISTS = 180, 60
WAITS = ["-o", "DPkg::Lock::Timeout=60"]


def has(probe):
    """Whether a command ends well."""
    return subprocess.run(["sh", "-c", probe], stdin=subprocess.DEVNULL, check=False,
                          stdout=subprocess.DEVNULL, stderr=subprocess.DEVNULL).returncode == 0


def asked_of_apt(words, seconds):
    """Why apt-get does not do this in so many seconds, or nothing."""
    if seconds <= 0:
        return f"its {SECONDS} s are over"
    try:
        ended = subprocess.run(["apt-get", *WAITS, *words], stdin=subprocess.DEVNULL, text=True,
                               stdout=subprocess.PIPE, stderr=subprocess.STDOUT, check=False,
                               errors="backslashreplace", timeout=seconds,
                               env=os.environ | {"DEBIAN_FRONTEND": "noninteractive"})
    except subprocess.TimeoutExpired:
        return f"it had not ended after {seconds:.0f} s"
    last = ended.stdout.strip().rpartition("\n")[2]
    return f"status {ended.returncode}: {last}" if ended.returncode else ""


class Machine:
    """What is there of the needs, and with `installs` what apt-get brings as root."""

    def __init__(self, needs, installs):
        self.needs, self.installs, self.found, self.over_at = needs, installs, {}, None

    def fetched(self, packages):
        """Why apt-get does not bring these packages, or nothing."""
        if self.over_at is None:
            self.over_at = time.monotonic() + SECONDS
            asked_of_apt(["update", "-qq"], OF_LISTS)
        return asked_of_apt(["install", "-y", "-qq", "--no-install-recommends", *packages.split()],
                            self.over_at - time.monotonic())

    def look_for(self, need):
        """What keeps a check from its need: nothing, or why, and whether that is a fault."""
        probe, packages = self.needs[need]
        if has(probe):
            return None
        if not packages:
            return NOT_RUN, f"{need} is not there, and no package of Debian is known to bring it"
        if not self.installs:
            return FAILED, f"{need} is not there: apt-get install {packages}, or --install as root"
        if not shutil.which("apt-get"):
            return NOT_RUN, f"{need} is not there, and no apt-get that could bring {packages}"
        if os.geteuid():
            return FAILED, f"{need} is not there, and only root may apt-get install {packages}"
        why = self.fetched(packages)
        if why:
            return NOT_RUN, f"{need} is not there, and apt-get does not bring {packages}: {why}"
        return None if has(probe) else (FAILED, f"{need} is not there with {packages} either")

    def lack_of(self, check):
        """What comes of a check that the machine lacks something for, or none."""
        for need in check.needs:
            if need not in self.found:
                self.found[need] = self.look_for(need)
            if self.found[need]:
                kind, why = self.found[need]
                return Outcome(kind, 0, why)
        return None

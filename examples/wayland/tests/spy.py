#!/usr/bin/env python3
"""A program that tries what is not its own: spy.py HOST SOCKET DISPLAY FILE.

It prints a line for each try: what it tried, and `no`, or what it got."""

import ctypes
import os
import socket
import subprocess
import sys

SEIZE = 0x4206                # traces without stopping


def attempt(what, do_it):
    """Tries something, and says what came of it."""
    try:
        got = do_it()
    except (OSError, subprocess.SubprocessError) as wrong:
        got = None
        what = f"{what} ({type(wrong).__name__})"
    print(f"{what}: {got if got else 'no'}", flush=True)


def connect(address):
    """Connects to a socket."""
    with socket.socket(socket.AF_UNIX) as it:
        it.connect(address)
        return "connected"


def trace(number):
    """Traces a process."""
    libc = ctypes.CDLL(None, use_errno=True)
    return "traced" if libc.ptrace(SEIZE, number, None, None) == 0 else None


def memory(number):
    """Opens the memory of a process."""
    with open(f"/proc/{number}/mem", "rb"):
        return "opened"


def signal(number):
    """Finds a process."""
    os.kill(number, 0)
    return "found"


def interfaces():
    """What the display offers, beside what a program needs."""
    offers = subprocess.run(["wayland-info"], capture_output=True, text=True, timeout=10,
                            check=True).stdout
    words = ("screen", "capture", "copy", "virtual", "foreign", "input_method", "export", "lock")
    return [line for line in offers.splitlines()
            if "interface:" in line and any(word in line for word in words)]


def main():
    """Tries all."""
    host, sockets, display, file = int(sys.argv[1]), sys.argv[2], sys.argv[3], sys.argv[4]
    number = display.lstrip(":")
    attempt("another's socket", lambda: connect(f"{sockets}/listen"))
    attempt("the folder of sockets", lambda: os.listdir(sockets))
    attempt("other sockets beside its own",
            lambda: [name for name in os.listdir(os.environ["XDG_RUNTIME_DIR"])
                     if name != "wayland-0"])
    attempt("the X server", lambda: connect(f"/tmp/.X11-unix/X{number}"))
    attempt("the X server by its other name", lambda: connect(f"\0/tmp/.X11-unix/X{number}"))
    attempt("the variable DISPLAY", lambda: os.environ.get("DISPLAY"))
    attempt("the host's process", lambda: signal(host))
    attempt("tracing it", lambda: trace(host))
    attempt("its memory", lambda: memory(host))
    attempt("other processes", lambda: [name for name in os.listdir("/proc") if name.isdigit()
                                        and int(name) > 100])
    attempt("the user's file", lambda: open(file, encoding="ascii").read())
    attempt("the network", lambda: [name for _, name in socket.if_nameindex() if name != "lo"])
    attempt("a picture of the screen", interfaces)
    attempt("shared memory of others", lambda: os.listdir("/dev/shm"))
    print("done", flush=True)


if __name__ == "__main__":
    main()

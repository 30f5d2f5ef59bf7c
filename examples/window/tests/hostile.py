"""Clients of the test that do what they should not.

The host has to close who does one of MISDEEDS, and nobody else; so no client ends by itself. What
is in LIBERTIES it need not notice."""

import ctypes
import fcntl
import itertools
import os
from pathlib import Path
import signal
import socket
import struct
import sys
import termios
import threading
import time

from channel import (BELL, BUFFER, BYTES, CALLS, FRONT, MEMORY, NO_EVENT, PIXELS, PLACE, REFRESH,
                     SOCKET, TAKE, UPGRADE, VIEW, ask, draw, reply, ring, send)

WIDTH, HEIGHT = 1024, 768
ENDLESS = 2 ** 64 - 2


# ---- What the host closes


def deaf():
    """Calls, and no look at any reply."""
    while True:
        send(VIEW)


def deaf_at_once():
    """All calls that the bell can count, and no look at any reply."""
    for _ in range(CALLS):
        send(TAKE)
    ring(ENDLESS)


def leave():
    """Closes the channel, and lives on."""
    os.closerange(SOCKET, MEMORY + 1)


MISDEEDS = {
    "call-0": lambda: send(0),
    "call-13": lambda: send(13),
    "call-last": lambda: send(0xFFFFFFFF),
    "bell-alone": lambda: ring(ENDLESS),
    "deaf": deaf,
    "deaf-at-once": deaf_at_once,
    "leave": leave,
    "leave-socket": lambda: os.close(SOCKET),
    "shut": lambda: socket.socket(fileno=SOCKET).shutdown(socket.SHUT_RDWR),
    "shut-reading": lambda: socket.socket(fileno=SOCKET).shutdown(socket.SHUT_RD),
}


# ---- What the host does not notice


def lingering():
    """A socket that takes a million seconds to close."""
    door = socket.create_server(("127.0.0.1", 0))
    near = socket.create_connection(door.getsockname())
    far = door.accept()[0]
    near.setblocking(False)
    try:
        while near.send(bytes(65536)):
            continue
    except BlockingIOError:
        near.setsockopt(socket.SOL_SOCKET, socket.SO_LINGER, struct.pack("ii", 1, 1000000))
    return near, far


def linger(path):
    """Sends such a socket by each descriptor that there is, and closes it here."""
    near, far = lingering()
    for number in (SOCKET, BELL, MEMORY):
        refused(lambda number=number: socket.send_fds(socket.socket(fileno=os.dup(number)),
                                                      [bytes(48)], [near.fileno()]))
        refused(lambda number=number: os.write(number, bytes(48)) if number == SOCKET else None)
    thread = threading.Thread(target=near.close, daemon=True)
    Path(path).touch()
    thread.start()
    return far


def refused(deed):
    """True where the system does not let this be done."""
    try:
        deed()
    except OSError:
        return True
    return False


def resize(path):
    """The memory keeps its size and its seals."""
    sealed = [refused(lambda: os.ftruncate(MEMORY, 0)),
              refused(lambda: os.ftruncate(MEMORY, BYTES + 1)),
              refused(lambda: fcntl.fcntl(MEMORY, fcntl.F_ADD_SEALS, fcntl.F_SEAL_WRITE))]
    if all(sealed):
        Path(path).touch()


def flags(path):
    """All flags of the descriptors, set and taken away."""
    for number in (SOCKET, BELL, MEMORY):
        for flag in (os.O_NONBLOCK | os.O_APPEND | os.O_ASYNC, os.O_DIRECT, os.O_NOATIME, 0):
            refused(lambda number=number, flag=flag: fcntl.fcntl(number, fcntl.F_SETFL, flag))
    busy(path, lambda: ask(REFRESH, w=64, h=64))


def busy(path, deed):
    """A deed again and again."""
    for count in itertools.count():
        deed()
        if count == 2000:
            Path(path).touch()


def take_back(path):
    """Says that a call waits, and takes that back before the host does."""
    channel = socket.socket(fileno=SOCKET)

    def race():
        send(TAKE)
        refused(lambda: os.preadv(BELL, [bytearray(8)], -1, os.RWF_NOWAIT))
        while not refused(lambda: channel.recv(64, socket.MSG_DONTWAIT)):
            continue
    busy(path, race)


def holes(path):
    """The memory has holes, and then none, while the host reads it."""
    punch = ctypes.CDLL(None).fallocate
    punch.argtypes = [ctypes.c_int, ctypes.c_int, ctypes.c_long, ctypes.c_long]

    def dig():
        send(REFRESH, w=64, h=64)
        punch(MEMORY, 3, PIXELS, BYTES - PIXELS)
        os.pwrite(MEMORY, bytes(16384), PIXELS)
        reply()
    busy(path, dig)


def loud(path):
    """Says more than any pipe holds."""
    for number in (1, 2):
        os.write(number, bytes(1048576))
    Path(path).touch()


LIBERTIES = {"linger": linger, "resize": resize, "flags": flags, "holes": holes, "loud": loud,
             "take-back": take_back}


# ---- Others


def whole_screen(_):
    """A buffer as large as the screen, which is refreshed whole again and again."""
    view = ask(VIEW)[1]
    ask(UPGRADE, units=1048576)
    ask(BUFFER, w=WIDTH, h=HEIGHT)
    ask(PLACE, view, 100, 300, WIDTH, HEIGHT)
    while True:
        ask(REFRESH, w=WIDTH, h=HEIGHT)


def cover(path):
    """A view of one colour over the largest window."""
    draw(0, 0, 4096, 4096, 0x2060A0)
    Path(path).touch()


def jump(path):
    """Stands aside, and each time that the file is taken away jumps, by turns: under the pointer,
    right behind a picture, so that the next one is not due yet; and aside."""
    draw(700, 600, 64, 64, 0xF000F0)
    ask(FRONT, view=1)
    for turn in itertools.count():
        Path(path).touch()
        while Path(path).exists():
            time.sleep(0.01)
        ask(REFRESH, w=64, h=64)
        time.sleep(0.004)
        ask(PLACE, 1, *((80, 90) if turn % 2 == 0 else (700, 600)), 64, 64)


def listen(path):
    """Writes down each event: when it came, its kind, its code and its turn."""
    draw(10, 700, 64, 64, 0x0000F0)
    with open(path, "w", encoding="ascii", buffering=1) as file:
        while True:
            send(TAKE)
            kind, others = reply()
            if kind == NO_EVENT:
                os.read(SOCKET, 64) or sys.exit(0)
            else:
                file.write(f"{time.monotonic()} {others[1]} {others[2]} {others[5]}\n")


def escape(path):
    """A view, which a child of this program moves for ever. It leaves the program's session, and so
    lives on; and it calls also where nobody replies any more."""
    draw(600, 600, 64, 64, 0x00F0F0)
    child = os.fork()
    if child != 0:
        Path(path).write_text(str(child), encoding="ascii")
        return
    os.setsid()
    signal.alarm(60)
    os.set_blocking(SOCKET, False)
    while True:
        send(PLACE, 1, 100, 300, 64, 64)
        time.sleep(0.001)
        refused(lambda: os.read(SOCKET, 64))


def family(path):
    """Starts a child, which would live on, and ends."""
    child = os.fork()
    if child == 0:
        time.sleep(1000)
    Path(path).write_text(str(child), encoding="ascii")


def inject(path):
    """Types a line for the host at each terminal that it has."""
    for number in range(256):
        for sign in b"+bank=./login\n":
            refused(lambda number=number, sign=sign:
                    fcntl.ioctl(number, termios.TIOCSTI, bytes([sign])))
    Path(path).touch()


def steal(path):
    """Reads what is typed at the terminal that the file names."""
    with open(Path(path).read_text(encoding="utf-8"), "rb", buffering=0) as terminal:
        Path(path).unlink()
        while terminal.read(64):
            continue


OTHERS = {"whole-screen": whole_screen, "cover": cover, "jump": jump, "listen": listen,
          "escape": escape, "inject": inject, "steal": steal}


def main(deed, path):
    """Does the deed, and stays."""
    try:
        if deed in MISDEEDS:
            MISDEEDS[deed]()
        elif deed in LIBERTIES:
            draw(600, 600, 64, 64, 0x00F0F0)
            keep = LIBERTIES[deed](path)  # noqa: F841
        elif deed == "family":
            return family(path)
        elif deed == "family-closed":
            family(path)
            send(0)
        else:
            OTHERS[deed](path)
    except (BrokenPipeError, ConnectionResetError):
        pass
    while True:
        time.sleep(1000)

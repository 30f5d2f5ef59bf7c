"""The channel of a client, as the protocol spells it. It is soon there: it stands on little."""

import itertools
import os
import struct
import sys

BUFFER, VIEW, PLACE, FRONT, BACK, REFRESH, TAKE, UPGRADE = 1, 2, 3, 5, 6, 10, 11, 12
NO_EVENT = 4
SOCKET, BELL, MEMORY = 3, 4, 5
CALLS, PIXELS, BYTES = 64, 4096, 4096 + 4 * 16777216
SENT = itertools.count()


def send(number, view=0, x=0, y=0, w=0, h=0, units=0):
    """Sends a call as the protocol spells it."""
    data = struct.pack("<IIiiIII20x", number, view, x, y, w, h, units)
    os.pwrite(MEMORY, data, next(SENT) % CALLS * len(data))
    ring(1)


def ring(times):
    """Says that so many calls have been written."""
    os.write(BELL, struct.pack("<Q", times))


def reply():
    """The next reply: all its numbers."""
    kind = 128
    while kind == 128:
        data = os.read(SOCKET, 64) or sys.exit(0)
        kind, *others = struct.unpack("<6Ii4x2Q", data)
    return kind, others


def ask(*words, **named):
    """Makes a call, and answers the kind of its reply and the handle."""
    send(*words, **named)
    kind, others = reply()
    return kind, others[0]


def draw(x, y, w, h, word):
    """A view of one colour."""
    view = ask(VIEW)[1]
    ask(BUFFER, w=w, h=h)
    ask(PLACE, view, x, y, w, h)
    paint(w, h, word)


def paint(w, h, word):
    """A buffer of one colour, which is shown."""
    os.pwrite(MEMORY, struct.pack("<I", word) * (w * h), PIXELS)
    ask(REFRESH, w=w, h=h)

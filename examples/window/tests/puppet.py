"""A client of the test that does what the test says, and nothing else."""

import os
import select
import sys

from channel import BACK, NO_EVENT, PLACE, SOCKET, TAKE, ask, draw, paint, reply, send


def events():
    """All events that wait: the kind and the code of each."""
    send(TAKE)
    while (answer := reply())[0] != NO_EVENT:
        yield answer[1][1], answer[1][2]
        send(TAKE)


def order(orders):
    """The words of the next line."""
    line = b""
    while not line.endswith(b"\n"):
        line += os.read(orders, 1)
    return line.decode("ascii").split()


def main(path):
    """Does what the test says, and writes down each order that is done, and each event."""
    does = {"draw": draw, "paint": paint, "leave": sys.exit, "wait": lambda: None,
            "place": lambda *where: ask(PLACE, 1, *where), "back": lambda: ask(BACK, 1)}
    orders = os.open(f"{path}.orders", os.O_RDWR)
    with open(path, "w", encoding="ascii", buffering=1) as told:
        while True:
            is_told = orders in select.select([orders, SOCKET], [], [])[0]
            if is_told:
                name, *numbers = order(orders)
                does[name](*map(int, numbers))
            else:
                os.read(SOCKET, 64) or sys.exit(0)
            told.writelines(f"{kind} {code}\n" for kind, code in events())
            told.write("done\n" if is_told else "")

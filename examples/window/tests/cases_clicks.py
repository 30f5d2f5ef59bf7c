"""Cases of the test: what a click does where something has changed since the picture that the user
sees. The host of most of them shows one picture a second, so that there is time for that."""

from itertools import product
import os
from pathlib import Path
import signal
import tempfile
import time

from asks import BARE, Puppet, bar, check, dimmed, program
from host import Host, Wrong, lives, until

AT, ASIDE, BARED = (330, 330), (730, 630), (450, 350)
REAR, TOP, NEW = 0x602020, 0x206020, 0x202060
PRESS, RELEASE, FOCUS_ENTER, FOCUS_LEAVE = 1, 2, 6, 7


# ---- The clients, and what changes


class Stage:
    """A client, of which something is always seen, and others in front of it."""

    def __init__(self, folder, host, screen, rear):
        self.folder, self.host, self.screen, self.rear = folder, host, screen, rear
        self.rear.does("draw", 300, 300, 200, 100, REAR)

    def start(self, label, x, y, word):
        """A client with this label that has drawn a view."""
        client = Puppet(self.folder, label)
        self.host.tell(f"+{client.word}")
        client.does("draw", x - 30, y - 30, 64, 64, word)
        return client

    def end(self, client):
        """The client is no more."""
        client.order("leave")
        self.host.says(f"window: {client.label}: ")

    def picture(self, mode):
        """Waits until something has been shown, and answers when that was."""
        self.rear.does("paint", 200, 100, REAR + 0x020202)
        until("a picture", lambda: self.screen.pixel(*BARED) == dimmed(mode, REAR + 0x020202))
        return time.monotonic()


def jumps(stage):
    """Another one jumps there."""
    stage.start("top", *AT, TOP)
    other = stage.start("other", *ASIDE, NEW)
    yield None
    other.does("place", 300, 300, 64, 64)
    yield other


def leaves(stage):
    """It leaves, and another one has stood behind it."""
    other = stage.start("other", *AT, NEW)
    top = stage.start("top", *AT, TOP)
    yield None
    stage.end(top)
    yield other


def changes_hands(stage):
    """It leaves, and another one comes to its seat."""
    top = stage.start("top", *AT, TOP)
    yield None
    stage.end(top)
    yield stage.start("top", *AT, NEW)


# ---- What the user does


def is_soon(begin, holds):
    """Whether something holds before the picture that is due a second after that one."""
    while not holds() and time.monotonic() < begin + 0.9:
        time.sleep(0.005)
    return time.monotonic() < begin + 0.9


def buttons(client):
    """What a client was told of buttons and the focus."""
    return [kind for kind, _ in client.events() if kind in (PRESS, RELEASE, FOCUS_ENTER,
                                                            FOCUS_LEAVE)]


def served(screen, host, mode, client):
    """A click on this client does what it should in this mode."""
    before = buttons(client)
    screen.click(*AT, 3 if mode == "xray" else 1)
    if mode == "flat":
        bar(screen, f"flat:{client.label}")
        until("it hears", lambda: buttons(client) == [FOCUS_ENTER, PRESS, RELEASE])
    elif mode == "kill":
        host.says(f"window: {client.label}: locked out by the user")
        bar(screen, "flat")
    else:
        until("it is lowered", lambda: screen.pixel(*AT) in (dimmed(mode, TOP),
                                                             dimmed(mode, REAR + 0x020202)))
        client.does("wait")
        check("it hears nothing of that", buttons(client) == before)


def clicked(screen, programs, change, mode):
    """A click right behind a change is nobody's, and the new picture comes at once; the next one is
    served. False where the test was too slow, and another picture came between."""
    with tempfile.TemporaryDirectory() as folder:
        rear = Puppet(folder, "rear")
        with Host(screen, Path(programs) / "slow", [rear.word]) as host:
            stage = Stage(folder, host, screen, rear)
            steps = change(stage)
            next(steps)
            until("it is shown", lambda: screen.pixel(*AT) == TOP)
            if mode == "xray":
                screen.key("Scroll_Lock")
                bar(screen, "xray")
            begin = stage.picture("xray" if mode == "xray" else "flat")
            client = next(steps)
            if mode == "kill":
                screen.key("Print")
            screen.click(*AT, 3 if mode == "xray" else 1)
            if not is_soon(begin, lambda: screen.pixel(*AT) == dimmed(mode, NEW)):
                host.process.terminate()
                return False
            bar(screen, mode)
            check(f"{change.__name__}, {mode}: it stays", screen.pixel(*AT) == dimmed(mode, NEW))
            if mode != "kill":
                client.does("wait")
            check(f"{change.__name__}, {mode}: it hears {buttons(client)}", not buttons(client))
            served(screen, host, mode, client)
            return True


def case_between(screen, programs):
    """A click is nobody's where, since the picture, another client has jumped there, its own has
    left, or its seat has another one: in each mode, and X-ray mode's buttons too."""
    for change, mode in product((jumps, leaves, changes_hands), ("flat", "xray", "kill")):
        if not any(clicked(screen, programs, change, mode) for _ in range(5)):
            raise Wrong(f"{change.__name__}, {mode}: the picture of that does not come at once")


def clicked_meanwhile(screen, programs):
    """A click while the one in front goes behind another, for which it calls, is nobody's. False
    where the test was too early or too late, and the click came before that or behind."""
    with tempfile.TemporaryDirectory() as folder:
        rear = Puppet(folder, "rear")
        with Host(screen, Path(programs) / "slow", [rear.word]) as host:
            stage = Stage(folder, host, screen, rear)
            other = stage.start("other", *AT, NEW)
            top = stage.start("top", *AT, TOP)
            until("it is shown", lambda: screen.pixel(*AT) == TOP)
            time.sleep(1)
            begin = time.monotonic()
            top.order("back")
            time.sleep(0.1)
            screen.click(*AT)
            is_late = screen.pixel(*AT) != TOP or time.monotonic() > begin + 0.3
            until("it is behind", lambda: screen.pixel(*AT) == NEW)
            top.does("wait")
            other.does("wait")
            if is_late or buttons(top):
                return False
            check("the other one gets no click", not buttons(other))
            served(screen, host, "flat", other)
            return True


def case_meanwhile(screen, programs):
    """What the user does while a call is served is meant for the picture before it."""
    if not any(clicked_meanwhile(screen, programs) for _ in range(5)):
        raise Wrong("no click comes while a call is served")


# ---- A former client


def case_former(screen, programs):
    """The calls of a client that is locked out reach nobody: neither those that wait, nor those
    that a child of it still makes. The next one on the seat has its view as it has placed it."""
    with tempfile.TemporaryDirectory() as folder, \
            Host(screen, programs, ["login=./login"]) as host:
        path, told = program(folder, "escape")
        host.tell(f"+evil={path}")
        until("its child calls", lambda: screen.pixel(130, 330) == 0x00F0F0)
        child = int(told.read_text(encoding="ascii"))
        screen.user("key Print sleep 0.3 mousemove 130 330 click 1")
        host.says("window: evil: locked out by the user")
        new = Puppet(folder, "evil")
        host.tell(f"+{new.word}")
        new.does("draw", 600, 600, 64, 64, NEW)
        until("its view", lambda: screen.pixel(630, 630) == NEW)
        for _ in range(50):
            time.sleep(0.01)
            check("it stays", screen.pixel(630, 630) == NEW and screen.pixel(130, 330) == BARE)
        new.does("wait")
        screen.click(630, 630)
        until("it hears", lambda: buttons(new) == [FOCUS_ENTER, PRESS, RELEASE])
        check("the child has called all the time", lives(child))
        os.kill(child, signal.SIGKILL)


def case_held(screen, programs):
    """A button that is held as its client ends is released for nobody, whoever has the seat."""
    with tempfile.TemporaryDirectory() as folder:
        rear = Puppet(folder, "rear")
        with Host(screen, programs, [rear.word]) as host:
            stage = Stage(folder, host, screen, rear)
            old = stage.start("top", *AT, TOP)
            until("it is shown", lambda: screen.pixel(*AT) == TOP)
            screen.user("mousemove 330 330 mousedown 1")
            until("it hears", lambda: buttons(old) == [FOCUS_ENTER, PRESS])
            stage.end(old)
            new = stage.start("top", *AT, NEW)
            until("the next one is shown", lambda: screen.pixel(*AT) == NEW)
            screen.user("mousemove 331 331 mouseup 1")
            time.sleep(0.1)
            new.does("wait")
            check(f"it hears {new.events()}", not new.events())
            screen.click(*AT)
            until("it hears", lambda: buttons(new) == [FOCUS_ENTER, PRESS, RELEASE])

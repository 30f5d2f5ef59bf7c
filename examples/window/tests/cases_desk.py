"""Cases of the test: what the user sees and does."""

import os
from pathlib import Path
import signal
import tempfile
import time

from asks import (ACTIVE, BALL, BARE, BLUE, BOARD, CLOCK, COVER, DESK, PAPER, TOGGLE, WHITE,
                  Puppet, bar, begun, check, copied, dimmed, dots, program, shows, typing)
from host import NO_WINDOW, POINTED_WINDOW, Host, until


def case_places(screen, programs):
    """Windows stand where they are put, and where they are dragged to."""
    with Host(screen, programs, DESK):
        begun(screen)
        for x, y, w, h, first, last in ((60, 80, 192, 112, BLUE, PAPER),
                                        (200, 230, 360, 220, BOARD, 0x204020),
                                        (640, 230, 220, 120, 0x807860, 0xF8F0C0),
                                        (8, 12, 112, 32, 0x101820, 0x101820)):
            check("a first corner", screen.pixel(x, y) == first)
            check("a last corner", screen.pixel(x + w - 1, y + h - 1) == last)
            check("what is beside", {screen.pixel(x - 1, y), screen.pixel(x, y - 1),
                                     screen.pixel(x + w, y), screen.pixel(x, y + h)} == {BARE})
        screen.user("mousemove 650 90 mousedown 1 mousemove 500 520 mouseup 1")
        until("the note is dragged", lambda: screen.pixel(450, 510) == ACTIVE)
        check("beside it", screen.pixel(449, 510) == BARE == screen.pixel(600, 80))
        screen.user("mousemove 700 700")
        time.sleep(0.2)
        check("it stays", screen.pixel(450, 510) == ACTIVE)


def case_focus(screen, programs):
    """Keys reach the client with the focus, and no other."""
    with Host(screen, programs, DESK):
        begun(screen)
        screen.user("key a")
        screen.user("mousemove 100 100 click 1")
        bar(screen, "flat:login")
        notes = screen.part(600, 80, 300, 420)
        screen.user("key a key b key f key g")
        until("four dots", lambda: dots(screen) == 4)
        check("the notes and no copy", screen.part(600, 80, 300, 420) == notes)
        check("no copy", screen.pixel(300, 80) == BARE)
        screen.user("mousemove 700 300 click 1")
        bar(screen, "flat:pad")
        screen.user("key h key e key y")
        until("a text", lambda: screen.part(600, 80, 300, 420) != notes)
        check("the dots stay", dots(screen) == 4)
        screen.user("mousemove 50 20 click 1 key a")
        time.sleep(0.2)
        bar(screen, "flat:pad")


def case_phishing(screen, programs):
    """X-ray mode labels both prompts, and a click in kill mode ends the game's process."""
    with Host(screen, programs, DESK) as host:
        copied(screen)
        screen.user("key Scroll_Lock")
        bar(screen, "xray:game")
        check("the true label", shows(screen, 60, 80, "login"))
        check("the copy's label", shows(screen, 300, 80, "game:log in"))
        screen.user("key Print")
        bar(screen, "kill:game")
        ball = screen.part(*BALL)
        time.sleep(0.4)
        check("no call is served in kill mode", screen.part(*BALL) == ball)
        screen.user("mousemove 400 150 click 1")
        host.says("window: game: locked out by the user")
        until("the game's process is gone", lambda: "game" not in host.clients())
        until("its views are gone", lambda: screen.pixel(300, 80) == BARE)
        screen.user("mousemove 100 100 click 1")
        bar(screen, "flat:login")
        screen.user("key a key b")
        until("the login lives", lambda: dots(screen) == 2)
        host.tell("+game=./game")
        until("the seat is free again", lambda: screen.pixel(200, 230) == BOARD)


def case_frozen(screen, programs):
    """In kill mode nobody comes, and nobody's views go before the click."""
    with Host(screen, programs, ["--kill=F12", *DESK]) as host:
        begun(screen)
        screen.user("key F12")
        bar(screen, "kill")
        host.tell("+late=./login")
        os.kill(host.clients()["game"][0], signal.SIGKILL)
        before = screen.part(*BALL)
        time.sleep(0.5)
        check("nobody comes", len(host.clients()["login"]) == 1)
        check("the killed game's views stay", screen.part(*BALL) == before)
        screen.user("key Print")
        bar(screen, "flat")
        until("one comes", lambda: len(host.clients().get("login", [])) == 2)
        until("the game's views go", lambda: screen.pixel(200, 230) == BARE)


def jumped(screen, done, click):
    """The client of `case_jump` jumps under the pointer, and the user clicks at once, or when it is
    shown there. Whether the click gives it the focus."""
    done.unlink()
    end = time.monotonic() + 20
    while not done.exists():
        check("it jumps", time.monotonic() < end)
    if click == "at once":
        screen.click(100, 100)
    until("it is shown there", lambda: screen.pixel(100, 100) == 0xF000F0)
    if click == "shown":
        screen.click(100, 100)
    time.sleep(0.2)
    return shows(screen, 0, 0, "flat:jump")


def case_jump(screen, programs):
    """A click goes to the client that the picture shows, and not to one that jumped there since."""
    with tempfile.TemporaryDirectory() as folder:
        path, done = program(folder, "jump")
        with Host(screen, programs, ["login=./login", f"jump={path}"]):
            until("it stands aside", done.exists)
            refused = 0
            for turn in range(24):
                until("the prompt", lambda: screen.pixel(100, 100) not in (BARE, 0xF000F0))
                screen.user("mousemove 100 100 click 1")
                bar(screen, "flat:login")
                late = turn % 4 == 0
                focused = jumped(screen, done, "shown" if late else "at once")
                check("the user saw it", focused or not late)
                if not focused:
                    refused += 1
                    screen.click(100, 100)
                    bar(screen, "flat:jump")
                done.unlink()
                until("it is aside again", done.exists)
            check("clicks on what was not shown are refused", refused > 0)


def case_front(screen, programs):
    """A client with the mark ^ stands in front of all others, and no click gives it the focus."""
    with Host(screen, programs, DESK):
        begun(screen)
        screen.user("mousemove 100 100 click 1")
        bar(screen, "flat:login")
        screen.user("mousemove 650 90 mousedown 1 mousemove 60 22 mouseup 1")
        until("a note is dragged there", lambda: screen.pixel(125, 42) == 0xF8F0C0)
        check("the clock stands before it", screen.pixel(115, 42) == 0x101820)
        bar(screen, "flat:pad")
        screen.user("mousemove 200 150 click 1")
        bar(screen, "flat:login")
        screen.user("mousemove 60 20 click 1 key a")
        until("the key goes where it went", lambda: dots(screen) == 1)
        bar(screen, "flat:login")


def covered(screen, mode):
    """Whether the toggle is behind another client, and no label says that it is there."""
    return (screen.pixel(*TOGGLE) == dimmed(mode, COVER) and
            not any(shows(screen, 10, y, "toggle") for y in range(700, 757)))


def cover_all(screen, host, cover):
    """A client covers all but what stands in front of its layer, and is not lowered by the buttons
    in flat and in kill mode. In the end nobody has the focus, and X-ray mode has begun."""
    until("the toggle", lambda: screen.pixel(*TOGGLE) == 0x0000F0)
    host.tell(f"+{cover.word}")
    cover.does("draw", 0, 0, 1024, 768, COVER)
    until("it covers all", lambda: covered(screen, "flat"))
    screen.user("mousemove 40 730 click 2 click 3")
    bar(screen, "flat:cover")
    check("in flat mode these are its buttons", covered(screen, "flat"))
    screen.user("mousemove 200 0 click 1 key Print")
    bar(screen, "kill")
    screen.user("mousemove 40 730 click 2 click 3")
    time.sleep(0.2)
    check("in kill mode these are nobody's", covered(screen, "kill"))
    screen.key("F11")
    bar(screen, "xray")


def case_covered(screen, programs):
    """In X-ray mode the right button lowers a view and the middle one raises it, each within its
    layer, and no client is told: so the user gets at one that another covers in each mode."""
    with tempfile.TemporaryDirectory() as folder:
        cover = Puppet(folder, "cover")
        words = ["--xray=F11", "^clock=./clock", "toggle=./toggle"]
        with Host(screen, programs, words) as host:
            cover_all(screen, host, cover)
            cover.does("wait")
            told = cover.events()
            screen.user("mousemove 20 20 click 2 click 3")
            time.sleep(0.2)
            check("the clock stands in front, and none in its place",
                  screen.pixel(9, 20) == dimmed("xray", CLOCK) and covered(screen, "xray"))
            screen.user("mousemove 40 730 click 3")
            until("the toggle is seen", lambda: shows(screen, 10, 700, "toggle"))
            screen.user("mousemove 600 300 click 2")
            until("the toggle is covered again", lambda: covered(screen, "xray"))
            check("the clock stands in front", screen.pixel(9, 20) == dimmed("xray", CLOCK))
            screen.user("click 3")
            until("the toggle is seen again", lambda: shows(screen, 10, 700, "toggle"))
            cover.does("wait")
            check("nobody is told", cover.events() == told)
            screen.user("mousemove 40 730 click 1")
            bar(screen, "xray:toggle")
            screen.key("F11")
            bar(screen, "flat:toggle")
            typing(screen)


def heard(path):
    """The events that a listener has written down: kind, code and turn."""
    return [tuple(map(int, line.split()[1:])) for line in path.read_text().splitlines()]


def case_events(screen, programs):
    """A key that is held is one press, a wheel that turns sideways is none; 64 events wait."""
    with tempfile.TemporaryDirectory() as folder:
        path, done = program(folder, "listen")
        with Host(screen, programs, [f"listen={path}"]) as host:
            until("it listens", done.exists)
            until("its view is shown", lambda: screen.pixel(40, 730) == 0x0000F0)
            screen.user("mousemove 40 730 click 1 keydown t sleep 1.5 keyup t")
            os.kill(host.process.pid, signal.SIGSTOP)
            screen.user("keydown u sleep 1.5 keyup u click 6 click 7 click 5")
            os.kill(host.process.pid, signal.SIGCONT)
            until("the wheel", lambda: (4, 0, -1) in heard(done))
            known = [event for event in heard(done) if event[0] in (1, 2, 4) and event[1] < 272]
            check(f"no more than was done: {known}",
                  known == [(1, 20, 0), (2, 20, 0), (1, 22, 0), (2, 22, 0), (4, 0, -1)])
            number = host.clients()[path.name][0]
            before = len(heard(done))
            os.kill(number, signal.SIGSTOP)
            for at in range(50):
                screen.key("ab"[at % 2])
                time.sleep(0.005)
            time.sleep(0.5)
            os.kill(number, signal.SIGCONT)
            until("64 events", lambda: len(heard(done)) == before + 64)
            screen.key("c")
            until("the next one", lambda: heard(done)[-2:] == [(1, 46, 0), (2, 46, 0)])


def case_lost(screen, programs):
    """A key that is held as the window loses the keyboard is released, and so is a button that
    comes up beside the window: then the keys of modes work again."""
    with tempfile.TemporaryDirectory() as folder:
        path, done = program(folder, "listen")
        with Host(screen, programs, ["--size=320x768", f"listen={path}"]):
            until("it listens", done.exists)
            until("its view is shown", lambda: screen.pixel(40, 730) == 0x0000F0)
            screen.user("mousemove 40 730 click 1 keydown t")
            until("a press", lambda: heard(done)[-1][:2] == (1, 20))
            screen.keyboard(NO_WINDOW)
            until("it is released", lambda: heard(done)[-1][:2] == (2, 20))
            screen.user("keyup t")
            screen.keyboard(POINTED_WINDOW)
            screen.user("mousemove 40 731 mousedown 1 mousemove 900 500 mouseup 1")
            until("the button is released", lambda: heard(done).count((2, 272, 0)) == 2)
            screen.user("mousemove 40 730 key Scroll_Lock")
            bar(screen, "xray:listen")


def case_resize(screen, programs):
    """A window whose size others change shows all that it has room for."""
    with Host(screen, programs, ["login=./login", "pad=./pad"]):
        until("the prompt", lambda: screen.pixel(60, 80) == BLUE)
        until("the notes", lambda: screen.pixel(600, 80) == ACTIVE)
        before = screen.part(0, 0, 1024, 768)
        screen.user("search --name Nitpicker windowsize 500 300")
        until("it is small", lambda: screen.pixel(640, 90) != ACTIVE)
        screen.user("search --name Nitpicker windowsize 1024 768")
        until("all is there again", lambda: screen.part(0, 0, 1024, 768) == before)


def case_corners(screen, programs):
    """Of a picture in which two corners change only these go to the screen; and all of it where
    another window has stood in front."""
    with tempfile.TemporaryDirectory() as folder:
        corners = [Puppet(folder, label) for label in ("near", "far")]
        with Host(screen, Path(programs) / "slow", [corner.word for corner in corners]):
            for corner, at in zip(corners, ((10, 20), (950, 700))):
                corner.does("draw", *at, 64, 64, 0x102030)
            until("a picture", lambda: screen.pixel(20, 30) == 0x102030)
            until("the other", lambda: screen.pixel(1000, 740) == 0x102030)
            screen.spoil(100, 100, 800, 500, WHITE)
            for corner in corners:
                corner.does("paint", 64, 64, 0x302010)
            until("a picture", lambda: screen.pixel(20, 30) == 0x302010)
            check("both corners are in it", screen.pixel(1000, 740) == 0x302010)
            check("nothing else is", screen.part(100, 100, 800, 500) == [[WHITE] * 800] * 500)
            screen.pass_over(100, 100, 400, 300, 0x802040)
            until("the whole window", lambda: screen.part(100, 100, 800, 500) ==
                  [[BARE] * 800] * 500)


def case_large(screen, programs):
    """A window of the largest size shows what has room on the screen, and a client draws it all."""
    with Host(screen, programs, ["--size=4096x4096", "login=./login"]) as host:
        until("the prompt", lambda: screen.pixel(60, 80) == BLUE)
        with tempfile.TemporaryDirectory() as folder:
            path, done = program(folder, "cover")
            host.tell(f"+cover={path}")
            until("it is drawn", done.exists, 60)
            until("its last pixel here", lambda: screen.pixel(1023, 767) == 0x2060A0, 60)


def case_size(screen, programs):
    """The window has the size of the words."""
    with Host(screen, programs, ["--size=320x200", "login=./login"]):
        until("the prompt", lambda: screen.pixel(60, 80) == BLUE)
        check("its corner", screen.pixel(319, 199) == BARE)
        check("what is beside", {screen.pixel(320, 199), screen.pixel(319, 200)} == {0})

"""Cases of the test: what clients do to the host and to each other."""

import os
from pathlib import Path
import random
import shutil
import signal
import statistics
import tempfile
import time

from asks import BARE, TOGGLE, bar, check, focused_toggle, program, typing
from host import LEAKS, SEATS, Host, Wrong, lives, until
from hostile import LIBERTIES, MISDEEDS


def case_full(screen, programs):
    """A client on each seat, no further one, and another in the place of one that is killed."""
    words = [f"client-{seat}=./login" for seat in range(SEATS - 1)]
    with Host(screen, programs, [*words, "toggle=./toggle"]) as host:
        until("all", lambda: sum(map(len, host.clients().values())) == SEATS)
        focused_toggle(screen)
        typing(screen)
        host.tell("+more=./login")
        host.says("window: +more=./login: no seat of its layer is free")
        os.kill(host.clients()["login"][3], signal.SIGKILL)
        host.says("window: client-")
        host.tell("+more=./login")
        until("all again", lambda: sum(map(len, host.clients().values())) == SEATS)
        typing(screen)


def case_labels(screen, programs):
    """A label is the host's word: no second client has it, and not each text is one."""
    with Host(screen, programs, ["^clock=./clock", "login=./login"]) as host:
        for word, why in (("login=./game", "the label is taken"),
                          ("game", "a client is NAME=PROGRAM"), ("none=./none", "No such file"),
                          (".1=./none", "No such file"),
                          *((label + "=./game", "a label is 1 to 20 of") for label in
                            ("Login", "", "no label", "^login", "a-label-of-21-letters"))):
            host.tell("+" + word)
            host.says(f"window: +{word}: {why}")
        os.kill(host.clients()["clock"][0], signal.SIGTERM)
        host.says("window: clock:")
        for seat in range(SEATS - 1):
            host.tell(f"+client-{seat}=./login")
        host.says(f"window: +client-{SEATS - 2}=./login: no seat of its layer is free")
        host.tell("+clock=./clock")
        until("the seat in front is kept", lambda: "clock" in host.clients())


def replies(numbers):
    """How many replies these processes have read."""
    ios = [Path(f"/proc/{number}/io").read_text() for number in numbers]
    return sum(int(io.split("syscr: ")[1].split()[0]) for io in ios)


def beside(numbers, measured):
    """The delays that are measured, in milliseconds, at the 99th percentile; and how long a call
    takes of these processes, which call all the time."""
    before, begin = replies(numbers), time.monotonic()
    delays = sorted(measured())
    call = 1000 * (time.monotonic() - begin) / max(1, replies(numbers) - before)
    late = delays[len(delays) * 99 // 100]
    print(f"    beside calls of {call:.2f} ms, an event's way: median"
          f" {statistics.median(delays):.1f} ms, 99th percentile {late:.1f} ms;"
          f" load {os.getloadavg()[0]:.1f}", flush=True)
    return late, call


def case_flood(screen, programs):
    """A client that floods does not keep another one's keys: 50 ms at the 99th percentile. Other
    work of the machine adds to that, so the best of five attempts counts."""
    with Host(screen, programs, ["toggle=./toggle", "flood=./flood"]) as host:
        focused_toggle(screen)
        numbers = host.clients()["flood"]
        check("the 99th percentile is below 50 ms",
              any(beside(numbers, lambda: typing(screen, 300))[0] < 50 for _ in range(5)))


def told(screen, done, place):
    """Milliseconds from a click that moves the focus until the client that has it is told."""
    before = done.read_text().count("\n")
    begin = time.monotonic()
    screen.click(*place)
    until("a click is told", lambda: done.read_text().count("\n") > before)
    return 1000 * (float(done.read_text().splitlines()[before].split()[0]) - begin)


def crowd(screen, host, count, words):
    """So many clients of 64 views make the dearest calls all the time, in X-ray mode, where the bar
    says these words. Their processes."""
    until("all are there", lambda: len(host.clients().get("crowd", [])) == count)
    time.sleep(1)
    numbers = host.clients()["crowd"]
    first = {number: replies([number]) for number in numbers}
    until("all call", lambda: all(replies([it]) > first[it] for it in numbers))
    screen.user("mousemove 40 730 click 1 key Scroll_Lock")
    bar(screen, words)
    return numbers


def case_crowd(screen, programs):
    """In X-ray mode fifteen clients, of 64 views each, make the dearest calls all the time. A click
    waits for a few calls, and not for one of each client: twelve are the bound at the 99th
    percentile. Other work adds to that, so the best of three attempts counts."""
    with tempfile.TemporaryDirectory() as folder:
        path, done = program(folder, "listen")
        words = [f"listen={path}", *(f"crowd-{seat}=./crowd" for seat in range(15))]
        with Host(screen, programs, words) as host:
            until("it listens", done.exists)
            numbers = crowd(screen, host, 15, "xray:listen")
            for _ in range(3):
                late, call = beside(numbers, lambda: [
                    told(screen, done, place) for place in [(200, 740), (40, 730)] * 50])
                if late < max(12 * call, 50):
                    return
            raise Wrong(f"{late:.0f} ms at the 99th percentile, beside calls of {call:.1f} ms")


def case_share(screen, programs):
    """A client whose calls take many times its slice rests as much longer: in X-ray mode, beside
    fourteen whose views make its calls dear, it takes no more than a sixteenth of a processor. The
    bound is twice that and what looking takes."""
    with tempfile.TemporaryDirectory() as folder:
        still = shutil.copy(Path(programs) / "crowd", Path(folder) / "still")
        words = [*(f"still-{seat}={still}" for seat in range(14)), "crowd=./crowd"]
        with Host(screen, programs, words) as host:
            until("the others are there", lambda: len(host.clients().get("still", [])) == 14)
            crowd(screen, host, 1, "xray")
            before, begin = host.ticks([host.process.pid]), time.monotonic()
            time.sleep(3)
            share = (host.ticks([host.process.pid]) - before) / (time.monotonic() - begin)
            print(f"    the host takes {share:.0f} of 100 of a processor", flush=True)
            check("it pays for its calls", share < 15)


def case_stopped(screen, programs):
    """A client that is stopped while it calls keeps nobody, and goes on when it is let."""
    with Host(screen, programs, ["toggle=./toggle", "flood=./flood"]) as host:
        focused_toggle(screen)
        number = host.clients()["flood"][0]
        for _ in range(10):
            os.kill(number, signal.SIGSTOP)
            typing(screen)
            os.kill(number, signal.SIGCONT)
            time.sleep(random.uniform(0.01, 0.1))
        check("it lives", host.clients()["flood"] == [number])
        before = screen.pixel(500, 500)
        until("it draws", lambda: screen.pixel(500, 500) != before)


def case_killed(screen, programs):
    """A client is killed while the host copies from it, at twenty chance moments."""
    with tempfile.TemporaryDirectory() as folder, \
            Host(screen, programs, ["toggle=./toggle"]) as host:
        path, _ = program(folder, "whole-screen")
        focused_toggle(screen)
        for _ in range(20):
            host.tell(f"+evil={path}")
            until("it draws", lambda: screen.pixel(600, 600) == 0)
            typing(screen, 1)
            time.sleep(random.uniform(0, 0.05))
            os.kill(host.clients()[path.name][0], signal.SIGKILL)
            host.says("window: evil:")
            until("its view is gone", lambda: screen.pixel(600, 600) == BARE)
        typing(screen)


def case_misdeeds(screen, programs):
    """A client that breaks the protocol is closed and ends, and nobody and nothing else changes."""
    with tempfile.TemporaryDirectory() as folder, \
            Host(screen, programs, ["toggle=./toggle"]) as host:
        focused_toggle(screen)
        before = host.descriptors()
        for misdeed in MISDEEDS:
            host.tell(f"+evil={program(folder, misdeed)[0]}")
            said = host.says("window: evil:")
            check(f"{misdeed}: {said}", ": closed" in said)
            until(f"{misdeed}: its process ends", lambda: len(host.clients()) == 1)
            check(f"{misdeed}: no descriptor is left", host.descriptors() == before)
            typing(screen, 1)


def case_liberties(screen, programs):
    """What a client may do to its channel and beside it changes nothing for anybody else."""
    with tempfile.TemporaryDirectory() as folder, \
            Host(screen, programs, ["toggle=./toggle"]) as host:
        focused_toggle(screen)
        before = host.descriptors()
        for liberty in LIBERTIES:
            path, done = program(folder, liberty)
            host.tell(f"+evil={path}")
            until(f"{liberty}: it is done", done.exists)
            typing(screen)
            check(f"{liberty}: it lives", path.name in host.clients())
            os.kill(host.clients()[path.name][0], signal.SIGKILL)
            host.says("window: evil: ended, signal 9")
            until(f"{liberty}: no descriptor is left", lambda: host.descriptors() == before)


def ending(screen, programs, words, ready):
    """Seconds that the host takes to end."""
    with Host(screen, programs, words) as host:
        until("it is ready", ready)
        begin = time.monotonic()
        host.end()
        return time.monotonic() - begin


def case_linger(screen, programs):
    """The host ends at once, though a client has tried to give it what takes for ever to close."""
    with tempfile.TemporaryDirectory() as folder:
        path, done = program(folder, "linger")
        prompt = lambda: screen.pixel(60, 80) == 0x304878  # noqa: E731
        alone = ending(screen, programs, ["login=./login"], prompt)
        beside_it = ending(screen, programs, ["login=./login", f"evil={path}"],
                           lambda: done.exists() and prompt())
        print(f"    {alone:.2f} s alone, {beside_it:.2f} s beside it", flush=True)
        check("it ends at once", beside_it < alone + 0.1)


def case_children(screen, programs):
    """What a client has started ends with it, whether it ends itself or is closed."""
    with tempfile.TemporaryDirectory() as folder, \
            Host(screen, programs, ["toggle=./toggle"]) as host:
        focused_toggle(screen)
        for deed, how in (("family", "ended, status 0"), ("family-closed", "closed: it broke")):
            path, done = program(folder, deed)
            host.tell(f"+evil={path}")
            host.says(f"window: evil: {how}")
            until("the child is gone", lambda child=done: not lives(child.read_text()))


def case_alone(screen, programs):
    """A client has its channel: no environment, no other file, no terminal and nothing of the host
    by the system's list of processes. Root may look at all of these, so another user starts it."""
    with tempfile.TemporaryDirectory() as folder:
        os.chmod(folder, 0o755)
        for path in (Path(programs) / "window", Path(programs) / "alone", LEAKS):
            shutil.copy(path, folder)
        more = {"env": dict(screen.environment, LSAN_OPTIONS="suppressions=leaks:"
                            "print_suppressions=0", SECRET="of the user")}
        if os.getuid() == 0:
            more |= {"user": 65534, "group": 65534, "extra_groups": []}
        with Host(screen, folder, ["alone=./alone"], **more):
            until("it has looked", lambda: screen.pixel(*TOGGLE) not in (0, BARE))
            check(f"it finds {screen.pixel(*TOGGLE)}", screen.pixel(*TOGGLE) == 0x00F000)

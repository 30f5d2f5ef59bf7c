"""Cases of the test: how the host begins and ends, and what it reads and prints."""

import fcntl
import os
from pathlib import Path
import pty
import resource
import signal
import subprocess
import tempfile
import termios
import time

from asks import ACTIVE, BLUE, DESK, bar, begun, check, focused_toggle, program, typing
from host import SEATS, Host, Screen, large, stands, text, until

PLAIN = "login=./login"
FULL = [f"client-{seat}=./login" for seat in range(SEATS)]
WRONG = [
    ([], "there is no client"),
    (["--size=640x480"], "there is no client"),
    (["--other", PLAIN], "--other: there is no such word"),
    (["--size=640", PLAIN], "--size: "),
    (["--size=4097x768", PLAIN], "--size: a screen has up to 4096x4096"),
    (["--size=1024x4097", PLAIN], "--size: a screen has up to 4096x4096"),
    (["--size=64x7", PLAIN], "--size: "),
    (["--glyphs=large", "--scale=8", "--size=64x72", PLAIN], "and a row below the bar"),
    *(([f"--scale={scale}", PLAIN], f"--scale={scale}: a scale is 1 to 8")
      for scale in ("", "0", "9", "-1", "10", "1x", "two")),
    *(([f"--glyphs={glyphs}", PLAIN], f"--glyphs={glyphs}: glyphs are small or large")
      for glyphs in ("", "1", "Large", "larger")),
    (["--zoom=2", PLAIN], "--zoom=2: there is no such word"),
    (["--size=4294967360x64", PLAIN], "--size: "),
    (["--kill=Nokey", PLAIN], "--kill=Nokey: there is no such key"),
    ([PLAIN, "game"], "game: a client is NAME=PROGRAM"),
    (["Login=./login"], "Login=./login: a label is 1 to 20 of"),
    ([PLAIN, "login=./game"], "login=./game: the label is taken"),
    (["^login=./login", "^login=./game"], "^login=./game: the label is taken"),
    ([*FULL, "late=./login"], "late=./login: no seat of its layer is free"),
    ([*FULL, "^late=./login"], "^late=./login: no seat of its layer is free"),
    ([PLAIN, "none=./none"], "none=./none: No such file"),
    ([PLAIN, "none=/"], "none=/: Permission denied"),
]


def begin(screen, programs, words, **more):
    """The host with words that it does not begin by: its status and what it said."""
    ended = subprocess.run([str(Path(programs).resolve() / "window"), *words], cwd=programs,
                           stdin=subprocess.DEVNULL, timeout=60, capture_output=True, text=True,
                           check=False, **{"env": screen.environment, **more})
    return ended.returncode, ended.stdout, ended.stderr


def case_words(screen, programs):
    """Wrong words end the host with status 2 and the cause, and --help says which there are."""
    for words, why in WRONG:
        status, _, error = begin(screen, programs, words)
        check(f"{words}: {status} {error}", status == 2 and error.count("\n") == 1 and
              error.startswith("window: ") and why in error)
    status, said, error = begin(screen, programs, ["--help"])
    check("--help", status == 0 and not error and "NAME=PROGRAM" in said)


def case_letters(screen, programs):
    """Labels and the bar have the glyphs and the scale of the words."""
    thrice = [[word for word in row for _ in range(3)] for row in text("login") for _ in range(3)]
    for words, label, bar_says in (
            (["--scale=3"], thrice, None), (["--glyphs=small"], text("login"), text("xray:login")),
            (["--glyphs=large"], large("login", 1), large("xray:login", 1)),
            (["--glyphs=large", "--scale=3"], large("login", 3), large("xray:login", 3))):
        with Host(screen, programs, [*words, PLAIN]):
            until("the prompt", lambda: screen.pixel(60, 80) == BLUE)
            screen.user("mousemove 100 100 click 1 key Scroll_Lock")
            stands(screen, 60, 80, label)
            if bar_says:
                stands(screen, 0, 0, bar_says)


def case_memory(screen, programs):
    """Where memory is short the host says so."""
    host = (Path(programs) / "window").read_bytes()
    more = {"env": dict(screen.environment, ASAN_OPTIONS="allocator_may_return_null=1:"
                        "max_allocation_size_mb=100")}
    if b"__asan_init" not in host:
        more["preexec_fn"] = lambda: resource.setrlimit(resource.RLIMIT_AS, (2**30, 2**30))
    status, _, error = begin(screen, programs, ["--size=4096x4096", PLAIN], **more)
    check(f"{status} {error}", status == 2 and
          error.endswith("window: --size: there is not so much memory\n"))


def case_long(screen, programs):
    """A line of over 2,046 bytes ends the control line, and nothing else."""
    with Host(screen, programs, ["toggle=./toggle"]) as host:
        focused_toggle(screen)
        host.tell("a" * 2046)
        host.says("window: aaa")
        check(f"it says {host.said}", len(host.said) == 1)
        host.tell("b" * 2047)
        host.says("window: a line has at most 2046 bytes")
        host.tell("quit")
        typing(screen)
        host.process.terminate()


def case_bits(_, programs):
    """A screen of other words than the library's ends the host with the cause."""
    few = Screen(bits=16)
    try:
        status, _, error = begin(few, programs, [PLAIN])
        check(f"{status} {error}", status == 2 and
              error == "window: the window: the screen has other colours than those of 24 bits\n")
    finally:
        few.close()


def case_line(screen, programs):
    """No client types at the host's terminal; and one that reads there does not stop the host."""
    near, far = pty.openpty()
    with tempfile.TemporaryDirectory() as folder, \
            Host(screen, programs, ["toggle=./toggle"], stdin=far, stderr=far,
                 start_new_session=True,
                 preexec_fn=lambda: fcntl.ioctl(0, termios.TIOCSCTTY, 0)) as host:
        host.control = os.fdopen(near, "w", buffering=1)
        focused_toggle(screen)
        path, done = program(folder, "inject")
        host.tell(f"+evil={path}")
        until("it has typed", done.exists)
        typing(screen)
        check("nobody came by that", set(host.clients()) == {"toggle", path.name})
        path, done = program(folder, "steal")
        done.write_text(os.ttyname(far))
        host.tell(f"+thief={path}")
        until("it reads", lambda: not done.exists())
        for _ in range(40):
            host.tell("a line")
            typing(screen, 1)
        os.kill(host.clients()[path.name][0], signal.SIGKILL)
        host.says("window: thief: ended")
        os.close(far)


def case_output(screen, programs):
    """Nobody reads what the host prints, and then nobody can: it goes on."""
    near, far = os.pipe()
    os.set_blocking(far, False)
    try:
        while os.write(far, bytes(4096)):
            continue
    except BlockingIOError:
        os.set_blocking(far, True)
    with Host(screen, programs, ["toggle=./toggle"], stdout=far) as host:
        focused_toggle(screen)
        for close in (lambda: None, lambda: os.close(near)):
            close()
            for _ in range(3):
                host.tell("a line")
                typing(screen, 1)
    os.close(far)


def case_idle(screen, programs):
    """While nothing happens, nothing is done."""
    with Host(screen, programs, ["login=./login", "pad=./pad"]) as host:
        until("the prompt", lambda: screen.pixel(60, 80) == BLUE)
        until("the notes", lambda: screen.pixel(600, 80) == ACTIVE)
        time.sleep(0.5)
        before = host.ticks()
        time.sleep(3)
        check("no time of processors", host.ticks() == before)


def case_signal(screen, programs):
    """A signal ends the host well, also in kill mode, and its clients with it."""
    with Host(screen, programs, DESK) as host:
        begun(screen)
        screen.user("key Print")
        bar(screen, "kill")
        numbers = sum(host.clients().values(), [])
        host.process.send_signal(signal.SIGTERM)
        host.says("window: pad: the host ends")
        until("all are gone", lambda: not any(Path(f"/proc/{it}").exists() for it in numbers))

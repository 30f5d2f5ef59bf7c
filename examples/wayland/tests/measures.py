"""Measures, beside weston with the same programs, and the pictures of the README."""

import os
from pathlib import Path
import shutil
import statistics
import subprocess
import sys
import tempfile
import time

from cases_apart import late
from cases_programs import VIDEO
from running import Running
from stage import Desk, Screen, bar, shown, until
import video

HERE = Path(__file__).resolve().parent.parent
FOOT = "foot -F -o colors.background=242424 sh -c 'clear; exec cat > /dev/null'"
PAPER = 0x242424              # of foot
TURNS, KEYS, LONG = 3, 300, 10
WESTONS = {"weston, pixman": ["--use-pixman"], "weston, GL": []}


class Weston:
    """Weston in the same screen, with one program."""

    first_row = 0

    def __init__(self, screen, home, command, words):
        self.folder = tempfile.TemporaryDirectory(prefix="weston-")
        environment = dict(screen.environment, XDG_RUNTIME_DIR=self.folder.name,
                           WAYLAND_DISPLAY="measured")
        quiet = {"env": environment, "cwd": home, "stdout": subprocess.DEVNULL,
                 "stderr": subprocess.DEVNULL}
        self.processes = [subprocess.Popen(
            ["weston", "--no-config", "--backend=x11-backend.so", f"--width={screen.width}",
             f"--height={screen.height}", "--socket=measured", "--idle-time=0", *words], **quiet)]
        until("weston", (Path(self.folder.name) / "measured").exists)
        self.processes.append(subprocess.Popen(["sh", "-c", command], **quiet))

    def ticks(self):
        """The hundredths of a second of a processor that weston has used."""
        return Running.used([self.processes[0].pid])

    def __enter__(self):
        return self

    def __exit__(self, *_):
        for process in reversed(self.processes):
            process.terminate()
            process.wait()
        self.folder.cleanup()


class Timed(Desk):
    """The desk, whose looks are timed, with one program."""

    program, first_row = "timed", 7

    def looks(self):
        """The medians of its looks in microseconds, once it has ended."""
        words = next(line for line in self.said if line.startswith("looks: ")).split()
        return {"a look, of the library, us": float(words[-3]),
                "a look, with X11, until it is shown, us": float(words[-1])}


class Keys:
    """Keys in a terminal on the whole screen."""

    what, size, command = "foot", (1024, 768), FOOT

    @staticmethod
    def ask(screen, it, _):
        """From a key to the changed pixel, and what is done while nothing happens."""
        until("foot", lambda: screen.pixel(500, 400) == PAPER, 60)
        screen.user("mousemove 500 400 click 1")
        time.sleep(1)
        median, last = late(screen, KEYS, it.first_row)
        time.sleep(1)
        before = it.ticks()
        time.sleep(LONG)
        return {f"from a key to the changed pixel, median of {KEYS}, ms": median,
                "the same, 99th percentile, ms": last,
                "processor while nothing happens, %": (it.ticks() - before) / LONG}


class Video:
    """A video in a window, or on the whole screen."""

    def __init__(self, rate, size, words):
        self.size, self.command = size, video.PLAY.format(rate, words)
        self.what = f"mpv, {rate} pictures a second, " + (
            f"all of {size[0]} by {size[1]}" if words else "640 by 360 in a window")

    @staticmethod
    def ask(screen, it, folder):
        """How many pictures are given and seen, and what that costs."""
        where, said = video.found(screen), Path(folder) / "said"
        before, ticks = video.dropped(said.read_text()), it.ticks()
        count = video.seen(screen, where, LONG)
        return {f"pictures seen in {LONG} s": count,
                "dropped by mpv meanwhile": video.dropped(said.read_text()) - before,
                "processor meanwhile, %": (it.ticks() - ticks) / LONG}


SCENES = (Keys(), Video(60, (1024, 768), ""), Video(30, (1920, 1080), "--fs"))


def one(name, scene, folder, programs):
    """What is found of one scene, on the desk or in a weston."""
    screen = Screen(*scene.size)
    try:
        if name != "desk":
            with Weston(screen, folder, scene.command, WESTONS[name]) as it:
                return scene.ask(screen, it, folder)
        words = [f"--size={scene.size[0]}x{scene.size[1]}", f"one,home:{folder}={scene.command}"]
        with Timed(screen, programs, words) as it:
            found = scene.ask(screen, it, folder)
        return {**found, **it.looks()}
    finally:
        screen.close()


def rows(scene, names, ask):
    """The rows of a scene; each number is the median of its turns, which names take one by one."""
    found = {name: [] for name in names}
    for name in names * TURNS:
        print(f"{scene.what}: {name}", file=sys.stderr, flush=True)
        found[name].append(ask(name, scene))
    for at, what in enumerate(found["desk"][0]):
        values = ([turn[what] for turn in found[name] if what in turn] for name in names)
        yield "|".join(["", "" if at else scene.what, what, *(
            f"{statistics.median(some):.1f}" if some else "" for some in values), ""])


def measure(programs):
    """A table: on the desk and in weston."""
    names = ["desk", *(WESTONS if shutil.which("weston") else ())]
    print("|".join(["", "program", "what", *names, ""]), "|---" * (2 + len(names)) + "|", sep="\n")
    with tempfile.TemporaryDirectory() as folder:
        for rate in (30, 60):
            video.make(folder, rate)
        for scene in SCENES:
            print(*rows(scene, names, lambda name, scene: one(name, scene, folder, programs)),
                  sep="\n", flush=True)
    print(f"load {os.getloadavg()[0]:.1f}, {os.cpu_count()} processors, {TURNS} turns")


def pictures(programs):
    """The three pictures of the README."""
    screen = Screen()
    words = ["gtk,at:10:20=gtk4-demo", "flower,at:818:20=weston-flower",
             "video,home:HOME,at:690:240=mpv --no-audio --vo=wlshm --loop video.mp4",
             "copy,at:810:560=echo hello | wl-copy -f", "term,at:20:500=foot -W 60x16",
             "game,at:450:590=foot -W 44x9 -T 'Bank login' sh -c "
             "'echo Password:; exec cat > /dev/null'"]
    with Desk(screen, programs, []) as desk:
        subprocess.run(VIDEO.format(desk.folder), shell=True, check=True)
        for word in words:
            desk.tell("+" + word)
            time.sleep(1)
        time.sleep(5)
        shown(screen, 400, 300)
        screen.user("mousemove 100 700 click 1")
        bar(screen, "flat:term")
        screen.user("type --delay 20 id")
        screen.user("key Return")
        time.sleep(1)
        screen.picture(HERE / "flat.png")
        screen.user("key Scroll_Lock")
        bar(screen, "xray:term")
        screen.picture(HERE / "xray.png")
        screen.user("key Print")
        bar(screen, "kill:term")
        screen.picture(HERE / "kill.png")
        screen.user("key Print")
    screen.close()

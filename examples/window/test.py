#!/usr/bin/env python3
"""Tries the example host without a screen, with a user who is a machine (Xvfb and xdotool).

    test.py FOLDER             all cases over the programs of a folder
    test.py FOLDER CASE ..     some of them
    test.py --measure FOLDER   measures, beside the host over a plain compositor
    test.py --pictures FOLDER  takes the pictures of the README anew

`make check` builds the programs with sanitizers first. Status 0 where all is as it should be."""

from pathlib import Path
import statistics
import sys
import time

HERE = Path(__file__).resolve().parent
sys.path.insert(0, str(HERE / "tests"))
from asks import ACTIVE, COPY, DESK, PROMPT, TOGGLE, bar, copied, typing  # noqa: E402
import cases_clicks  # noqa: E402
import cases_clients  # noqa: E402
import cases_desk  # noqa: E402
import cases_host  # noqa: E402
from host import Host, Screen, Wrong, large, stands, until  # noqa: E402

LARGE = ["--size=1920x1080", "--scale=3", "--glyphs=large", "login=./login", "fun=./game",
         "pad=./pad"]
CASES = {name[5:]: case for module in (cases_desk, cases_clicks, cases_clients, cases_host)
         for name, case in vars(module).items() if name.startswith("case_")}


def pictures(screen, programs):
    """The four pictures of the README."""
    with Host(screen, programs, DESK):
        copied(screen)
        screen.picture(HERE / "flat.png")
        screen.user("key Scroll_Lock")
        bar(screen, "xray:game")
        screen.picture(HERE / "xray.png")
        screen.user("key Print")
        bar(screen, "kill:game")
        screen.picture(HERE / "kill.png")
        screen.user("key Print")
    larger(programs)


def larger(programs):
    """The one of a larger screen, on which texts are larger too."""
    screen = Screen(1920, 1080)
    try:
        with Host(screen, programs, LARGE):
            until("the notes", lambda: screen.pixel(600, 80) == ACTIVE)
            screen.user("mousemove 400 300 click 1 key f")
            until("the copy", lambda: screen.part(*COPY) == screen.part(*PROMPT))
            screen.user("key Scroll_Lock")
            stands(screen, 0, 0, large("xray:fun", 3))
            stands(screen, *COPY[:2], large("fun:log in", 3))
            screen.picture(HERE / "large.png")
    finally:
        screen.close()


def measure(screen, programs):
    """The time from a key's event to the changed pixel, by turns over both hosts."""
    delays = {"library": [], "plain": []}
    for _ in range(10):
        for name, folder in (("library", programs), ("plain", Path(programs) / "plain")):
            with Host(screen, folder, ["toggle=./toggle"]):
                until("the toggle", lambda: screen.pixel(*TOGGLE) == 0x0000F0)
                screen.user("mousemove 40 730 click 1")
                time.sleep(0.2)
                delays[name] += typing(screen, 100)
    for name, all_of in delays.items():
        late = sorted(all_of)[len(all_of) * 99 // 100]
        print(f"{name}: median {statistics.median(all_of):.2f} ms, 99th percentile {late:.2f} ms")


def main():
    """Runs what the words name."""
    words = sys.argv[1:]
    others = {"--measure": measure, "--pictures": pictures}
    other = others.get(words[0]) if words else None
    is_known = len(words) == 2 if other else words and all(name in CASES for name in words[1:])
    if not is_known or words[0] == "--help":
        print(__doc__)
        return 0 if words[:1] == ["--help"] else 2
    name, screen = words[0], Screen()
    try:
        if other:
            other(screen, words[1])
            return 0
        for name in words[1:] or CASES:
            begin = time.monotonic()
            CASES[name](screen, words[0])
            what = " ".join(CASES[name].__doc__.split())
            print(f"{name}: {what} ({time.monotonic() - begin:.0f} s)", flush=True)
    except Wrong as wrong:
        print(f"{name}: WRONG: {wrong}")
        return 1
    finally:
        screen.close()
    print(f"window: {len(words[1:] or CASES)} cases passed")
    return 0


if __name__ == "__main__":
    try:
        sys.exit(main())
    except KeyboardInterrupt:
        sys.exit(130)

#!/usr/bin/env python3
"""Tries the desk with real programs, without a screen (Xvfb), with a user who is a machine.

    test.py FOLDER             all cases over the host of a folder
    test.py FOLDER CASE ..     some of them
    test.py --measure FOLDER   measures, beside weston where it is there
    test.py --pictures FOLDER  takes the pictures of the README anew

`make check` builds the host with sanitizers first. Status 0 where all is as it should be."""

import os
from pathlib import Path
import sys
import time

HERE = Path(__file__).resolve().parent
sys.path.insert(0, str(HERE / "tests"))
import cases_apart  # noqa: E402
import cases_input  # noqa: E402
import cases_programs  # noqa: E402
from stage import Screen, Wrong  # noqa: E402
import measures  # noqa: E402

CASES = {name[5:]: case for module in (cases_input, cases_apart, cases_programs)
         for name, case in vars(module).items() if name.startswith("case_")}
OTHERS = {"--measure": measures.measure, "--pictures": measures.pictures}


def run(names, programs):
    """Runs cases, and answers how many went wrong."""
    bad, shots = 0, HERE / "out" / "shots"
    os.makedirs(shots, exist_ok=True)
    for name in names:
        begin, screen = time.monotonic(), Screen(*getattr(CASES[name], "size", ()))
        screen.shot = shots / f"{name}.png"
        try:
            CASES[name](screen, programs)
            what = " ".join(CASES[name].__doc__.split())
            print(f"{name}: {what} ({time.monotonic() - begin:.0f} s)", flush=True)
        except Wrong as wrong:
            bad += 1
            print(f"{name}: WRONG: {wrong}", flush=True)
        finally:
            screen.close()
    return bad


def main():
    """Runs what the words name."""
    words = sys.argv[1:]
    other = OTHERS.get(words[0]) if words else None
    is_known = len(words) == 2 if other else words and all(name in CASES for name in words[1:])
    if not is_known or words[0] == "--help":
        print(__doc__)
        print("cases:", " ".join(CASES))
        return 0 if words[:1] == ["--help"] else 2
    if other:
        other(words[1])
        return 0
    names = words[1:] or list(CASES)
    bad = run(names, words[0])
    print(f"desk: {len(names) - bad} of {len(names)} cases passed")
    return bad != 0


if __name__ == "__main__":
    try:
        sys.exit(main())
    except KeyboardInterrupt:
        sys.exit(130)

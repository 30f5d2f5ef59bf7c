#!/usr/bin/env python3
"""Plants wrong bodies of the library, one at a time, and says which test finds each.

usage: embed/tests/planted.py [--only TEXT] [--all] FOLDER

FOLDER has the tests over planted.c, as `make -C embed planted` builds them: `answers-planted`,
`storm-planted` and `replay-planted`. They are tried in this order until one finds the wrong body;
with --all each is tried. --only has those alone in whose name TEXT stands.

A wrong body `damage KIND MODE` has the next nit_damage miss a pixel that a step of this kind
changes in this mode, and `look KIND MODE` has the next nit_look leave its word as it was. The
others are named in planted.c and planted_calls.c. A row is printed for each, with what finds it;
`no step does this` where no answer became another one, as where a step of the kind changes no
pixel in the mode. The status is 1 where an answer became another one and no test finds that, or
where a test fails without a wrong body.
"""
import os
import sys

HERE = os.path.dirname(os.path.realpath(__file__))
sys.path.insert(0, os.path.join(HERE, os.pardir, os.pardir, "tools"))

import runs  # first: it looks at the Python
import argparse
import re
import subprocess
import tempfile
from concurrent.futures import ThreadPoolExecutor
from pathlib import Path

SOURCES = ("planted.c", "planted_calls.c")
# Kinds of steps that are no call of their own, and the modes.
KINDS = ["opening", "take", "press", "kill", "xray-key", "kill-key"]
MODES = ["flat", "xray", "kill"]
CALLS, RUNS, LANES = "300000", "20", 2


def names():
    """The names of all wrong bodies."""
    text = "".join((Path(HERE) / name).read_text(encoding="utf8") for name in SOURCES)
    kinds = KINDS + re.findall(r'^STEP\("([a-z]+)"', text, re.M)
    yield from (f"{form} {kind} {mode}" for form in ("damage", "look") for kind in kinds
                for mode in (MODES if kind != "opening" else MODES[:1]))
    yield from sorted(set(re.findall(r'is_planted\("([^"]+)"\)', text)))


def tests_in(folder):
    """The tests by name, each with its command."""
    replay = [sys.executable, os.path.join(HERE, "replay.py"), "--runs", RUNS]
    return {"answers": [folder / "answers-planted"],
            "storm": [folder / "storm-planted", CALLS],
            "replay": [*replay, folder / "replay-planted"]}


def is_ended_well(command, name, done):
    """Whether a test ends well with this wrong body. The file `done` is made where it shows."""
    more = {"PLANTED": name, "PLANTED_DONE": str(done)}
    ended = subprocess.run(command, env=os.environ | more, check=False,
                           stdout=subprocess.DEVNULL, stderr=subprocess.DEVNULL)
    return ended.returncode == 0


def found_by(tests, name, top, tries_all):
    """The tests that find a wrong body; none where it never shows."""
    found, shows = [], False
    for test, command in tests.items():
        done = top / f"{name} {test}"
        is_well = is_ended_well(command, name, done)
        shows = shows or done.exists()
        found += [] if is_well else [test]
        if found and not tries_all:
            break
    return found if shows else None


def told(found):
    if found is None:
        return "no step does this"
    return ", ".join(found) or "NOT FOUND"


def main(words):
    reader = argparse.ArgumentParser(prog="embed/tests/planted.py", add_help=False,
                                     usage=runs.usage_of(__doc__)[7:])
    reader.add_argument("--only", default="")
    reader.add_argument("--all", action="store_true")
    reader.add_argument("folder", type=Path)
    given = reader.parse_args(words)
    tests = tests_in(given.folder.resolve())
    missed = 0
    with tempfile.TemporaryDirectory(prefix="planted-") as top, ThreadPoolExecutor(LANES) as lanes:
        for test, command in tests.items():
            if not is_ended_well(command, "", Path(top) / "none"):
                print(f"{test}: fails without a wrong body")
                return 1
        chosen = [name for name in names() if given.only in name]
        all_found = lanes.map(lambda name: found_by(tests, name, Path(top), given.all), chosen)
        print("| wrong body | found by |\n|---|---|")
        for name, found in zip(chosen, all_found):
            print(f"| {name} | {told(found)} |", flush=True)
            missed += found == []
    print(f"\nplanted: {len(chosen)} wrong bodies, {missed} not found")
    return 1 if missed else 0


if __name__ == "__main__":
    runs.command(main, __doc__)

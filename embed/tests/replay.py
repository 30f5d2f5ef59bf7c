#!/usr/bin/env python3
"""Makes random runs through the library, and compares all that it answers with the rules.

usage: embed/tests/replay.py [--runs N] [--seed S] [--program PROGRAM] REPLAY

REPLAY is the program that `make -C embed out/replay` builds of replay.c and the library. N runs by
`turns` are made, 1000 where no number is given, of the valid cases of tools/fuzz from the seed S
on; so `--runs 1 --seed S` makes one again. S is 1 where none is given. The journal of a run is the
one that PROGRAM leaves by `turns`, and where none is given the one that the rules give
(tools/expected.py).

REPLAY makes the calls and the input of the journal with two servers, one that the configuration
opens and one that is opened by seats. Of each step are compared the reply or the deliveries, and
the text. At each shot, and at the end, each live client refreshes all that its script has drawn by
then; then the screen is to show the picture that tools/screen.py gives, and at the end also
`final.ppm` of PROGRAM, and a look is to tell the least part that changed. Then the run is made once
more, by seats alone, on a screen whose texts are drawn in random letters (letters.py), by the
journal that the rules give there.

The status is 1 where a run differs. Its files are then kept, and said.
"""
import os
import sys

HERE = os.path.dirname(os.path.realpath(__file__))
sys.path.insert(0, os.path.join(HERE, os.pardir, os.pardir, "tools"))

import runs  # first: it looks at the Python
import argparse
import random
import subprocess
import tempfile
from pathlib import Path

import model
from cases import case_of
from expected import expected_of, outputs_by_turns
from letters import LetteredScene, Letters
from screen import Scene


class Refused(Exception):
    """What is wrong with a run before it is made again."""


def cases_from(seed):
    """The valid cases of `turns`, each with its seed and what it comes to."""
    while True:
        case = case_of(seed)
        if case.words[:1] == ["turns"]:
            want = expected_of(case)
            if want.status == 0:
                yield seed, case, want
        seed += 1


def files_of(files):
    """The journal's lines and the last picture of what a run puts."""
    return files["journal.txt"].decode("latin-1").split("\n")[:-1], files["final.ppm"]


def files_of_run(case, want, program, folder):
    """The journal's lines and the last picture: the program's, or those of the rules."""
    files = want.puts
    if program:
        folder.mkdir()
        runs.write_files(folder, case.files)
        outcome = runs.run(program, case.words, folder)
        if outcome.status != 0:
            raise Refused(f"the program ends with {outcome.status}: {outcome.said!r}")
        files = outcome.files
    return files_of(files)


def letters_for(config, seed):
    """Letters whose status bar leaves a row of the screen, where it has one."""
    rng, screen = random.Random(f"letters {seed}"), config["screen"]
    while True:
        letters = Letters(rng.random() < 0.5, rng.choice([1, 1, 1, 2, 2, 3, 4, 5, 6, 7, 8]))
        if not screen.get("bar") or letters.height < screen["height"]:
            return letters


class Play:
    """The lines of a play, and its files. It goes along the journal with the rules beside."""

    def __init__(self, setup, folder, letters=None):
        self.scene = LetteredScene(setup.config, letters) if letters else Scene(setup.config)
        self.folder, self.pictures = folder, 0
        self.scripts = [list(lines) for lines in setup.clients]
        self.lines = self.head(setup.config, letters)

    @staticmethod
    def head(config, letters):
        screen, lines = config["screen"], [] if letters else ["config c.toml"]
        drawn = f"{int(letters.is_large)} {letters.scale}" if letters else "0 1"
        lines.append(f"screen {screen['width']} {screen['height']} {int(screen.get('bar', False))} "
                     f"{drawn}")
        for client in config["client"]:
            clicks = int(client.get("focus", "click") == "click")
            lines.append(f"seat {client['donation']} {client.get('layer', 0)} {clicks} "
                         f"{client['label']}")
        return [*lines, "begin"]

    def draw(self, who, until=None):
        """The strokes of a client up to its next call, which is to be this one, or to the end."""
        script = self.scripts[who]
        while script:
            line = script.pop(0)
            word = line.split(" ")[0]
            if word in model.STROKES:
                self.lines.append(f"stroke {who} {line}")
            if word != "phase":
                self.scene.drawings[who].do(line)
            if word in model.CALLS:
                if line != until:
                    raise Refused(f"client {who} is to do {line!r} and not {until!r}")
                return

    def picture(self, data=None):
        """All clients refresh all they have; the screen is to show this."""
        self.scene.finish()
        self.pictures += 1
        name = f"picture-{self.pictures}.ppm"
        (self.folder / name).write_bytes(data or self.scene.frame())
        self.lines.append(f"picture {name}")

    def entry(self, entry):
        if entry.startswith("call "):
            who = int(entry.split(" ")[1])
            line = entry.split(" < ", 1)[1]
            self.draw(who, line)
            self.scene.call(who, line)
            self.lines.append(entry)
        elif entry.startswith("input "):
            self.scene.device(entry[6:].split(" > ")[0])
            self.lines.append(entry)
        elif entry.startswith("shot "):
            self.picture()
        else:
            raise Refused(f"no entry: {entry!r}")


def make_play(case, want, files, folder, letters=None):
    """Puts the play of a case and its files into the folder."""
    journal, last = files
    play = Play(want.setup, folder, letters)
    (folder / "c.toml").write_bytes(case.files["c.toml"])
    for entry in journal[:-1]:
        play.entry(entry)
    for who in range(len(play.scripts)):
        play.draw(who)
    play.picture()
    play.picture(last)
    (folder / "play").write_text("".join(line + "\n" for line in play.lines))


def fault_of_play(replay, folder):
    """What is wrong with a play, or none."""
    try:
        ended = subprocess.run([replay, "play"], cwd=folder, capture_output=True, text=True,
                               errors="replace", timeout=runs.SECONDS, check=False)
    except subprocess.TimeoutExpired:
        return f"not over after {runs.SECONDS} s"
    if ended.returncode != 0:
        return f"status {ended.returncode}: {ended.stderr.strip()[:2000]}"
    return None


def fault_of(replay, numbered, program, folder):
    """What is wrong with a case, or none; and how many entries it has. It is played once as it is,
    and once in letters of its seed."""
    seed, case, want = numbered
    letters, entries = letters_for(want.setup.config, seed), 0
    try:
        for lettered in (None, letters):
            files = files_of_run(case, want, program, folder / "run") if not lettered else \
                files_of(outputs_by_turns(want.setup, LetteredScene(want.setup.config, letters)))
            make_play(case, want, files, folder, lettered)
            entries += len(files[0])
            fault = fault_of_play(replay, folder)
            if fault:
                return f"{fault} (lettered)" if lettered else fault, entries
    except Refused as why:
        return str(why), entries
    return None, entries


def words_of(words):
    reader = argparse.ArgumentParser(prog="embed/tests/replay.py", add_help=False,
                                     usage=runs.usage_of(__doc__)[7:])
    reader.add_argument("replay")
    reader.add_argument("--runs", type=int, default=1000)
    reader.add_argument("--seed", type=int, default=1)
    reader.add_argument("--program")
    given = reader.parse_args(words)
    replay = Path(given.replay).resolve()
    if not replay.is_file():
        raise runs.WrongWords(f"{given.replay}: not a program")
    program = runs.program_at(given.program) if given.program else None
    return given, str(replay), program


def main(words):
    given, replay, program = words_of(words)
    kept, failed, entries = Path(tempfile.mkdtemp(prefix="replay-kept-")), 0, 0
    progress, cases = runs.Progress(given.runs), cases_from(given.seed)
    for number in range(given.runs):
        progress.tell(number, "run")
        numbered = next(cases)
        seed = numbered[0]
        with tempfile.TemporaryDirectory(prefix="replay-") as top:
            fault, count = fault_of(replay, numbered, program, Path(top))
            entries += count
            if fault:
                failed += 1
                runs.write_files(kept / f"run-{seed}", runs.read_files(top))
                print(f"seed {seed}: {fault}: kept in {kept / f'run-{seed}'}", flush=True)
    if not failed:
        kept.rmdir()
    print(f"runs {given.runs}, entries {entries}, failed {failed}")
    return 1 if failed else 0


if __name__ == "__main__":
    runs.command(main, __doc__)

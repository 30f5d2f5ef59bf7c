"""The self-test of tools/verify: folders that are right, and errors planted in them."""
import contextlib
import io
import os
import random
import shutil
import tempfile
import unittest
from itertools import islice
from pathlib import Path

import runs
import shots_by_hand
import stand_ins
from expected import Setup
from valid_cases import toml_text
from verifying.checks import BY_TURNS, ONE_WORD
from verifying.made import MAKERS, Made, made_example, made_gen, made_page
from verifying.planted import KINDS, OTHER

FOLDERS = {"still": 10, "turns": 24, "run": 36, "clip": 40, "capture": 30, "nested": 8}
LEAST, LEAST_OF_KIND, EACH = 200, 5, 4
# For each run with one shot by hand, how many of its four pixels may show one of several words.
CHANCES = (1, 1, 0, 0, 1, 2, 2, 2, 2, 0, 0, 1, 2)
# The folder of an example, its words, and which pictures the pages of the documents show.
PAGES = {
    ("windows", "turns", "windows.toml"): {"shot-1.ppm": "windows.png"},
    ("phishing", "turns", "phishing.toml"): {"shot-1.ppm": "phishing-flat.png",
                                             "shot-3.ppm": "phishing.png"},
    ("nested", "nested", "outer.toml", "inner.toml"): {"shot-1.ppm": "nested-flat.png",
                                                       "final.ppm": "nested.png"},
}
NO_RUN = """#!/bin/sh
echo "nitpicker: $3: entry 3: not a run"
exit 9
"""


class Place:
    """A place for the folders of runs. `verify` is the tool's own."""

    def __init__(self, top, verify):
        self.top, self.verify = Path(top), verify

    def says(self, words, program=None):
        """The status of the tool in the folder of the inputs, and what it says."""
        said, here = io.StringIO(), os.getcwd()
        os.chdir(self.top / "in")
        try:
            with contextlib.redirect_stdout(said):
                status = self.verify(words, program)
        except runs.WrongWords as wrong:
            return 2, str(wrong)
        finally:
            os.chdir(here)
        return status, said.getvalue()

    def put(self, made, puts=None):
        """Makes the folder of the inputs, and the one that the run leaves."""
        for name, files in (("in", made.files), ("out", made.puts if puts is None else puts)):
            shutil.rmtree(self.top / name, ignore_errors=True)
            (self.top / name).mkdir()
            runs.write_files(self.top / name, files)

    def check(self, made, puts=None, program=None):
        self.put(made, puts)
        return self.says([*made.words, "../out"], program)


def plants(rng, made, counts):
    """A few errors for a folder, first of those kinds that were planted least."""
    kinds = sorted(KINDS, key=lambda kind: counts[kind.__name__])
    planted = ((kind.__name__, kind(rng, made)) for kind in kinds)
    return islice((pair for pair in planted if pair[1]), EACH)


def made_by_hand(setup, files, user="user.in"):
    """A run whose shots are worked out by hand, with the name of the user's script."""
    config = dict(setup.config, input={"script": user})
    config["client"] = [dict(client, script=f"{client['label']}.nit")
                        for client in setup.config["client"]]
    rng, scripts = random.Random(1), {user: setup.user}
    scripts |= {f"{label}.nit": lines for label, lines in zip(setup.labels(), setup.clients)}
    texts = {name: "".join(f"{line}\n" for line in lines) for name, lines in scripts.items()}
    texts["c.toml"] = toml_text(rng, config)
    return Made(["run", "c.toml"], {name: text.encode() for name, text in texts.items()}, files)


class VerifyTest(unittest.TestCase):
    """`own` is the tool's own way to judge a folder."""

    own = None

    def setUp(self):
        self.top = tempfile.mkdtemp(prefix="verify-")
        self.place = Place(self.top, type(self).own)
        self.addCleanup(shutil.rmtree, self.top)

    def right(self, made, what):
        """That a folder is right, and each of its files."""
        status, said = self.place.check(made)
        self.assertEqual(status, 0, f"{what}:\n{said}")
        for name in made.puts:
            self.assertIn(f"right: {name}: ", said, what)

    def wrong(self, made, plant, what):
        """That an error is found, and told as it is to be."""
        status, said = self.place.check(made, plant.files)
        self.assertEqual(status, 1, f"{what}, {plant.name}:\n{said}")
        self.is_told(said, plant.name, plant.has, what)

    def is_told(self, said, name, has, what):
        told = [line for line in said.split("\n") if line.startswith(f"wrong: {name}: ")]
        is_there = any(has in line for line in told)
        self.assertTrue(is_there, f"{what}: not {has!r} of {name}:\n{said}")

    def test_planted_errors_are_found(self):
        counts = {kind.__name__: 0 for kind in KINDS}
        for command, number in FOLDERS.items():
            for seed in range(number):
                rng = random.Random(f"verify {command} {seed}")
                made = MAKERS[command](rng)
                self.right(made, f"{command} {seed}")
                for name, plant in plants(rng, made, counts):
                    counts[name] += 1
                    self.wrong(made, plant, f"{command} {seed}, {name}")
        print(f"planted {sum(counts.values())}:", ", ".join(f"{k} {n}" for k, n in counts.items()))
        self.assertGreaterEqual(sum(counts.values()), LEAST)
        self.assertGreaterEqual(min(counts.values()), LEAST_OF_KIND)

    def test_shots_by_hand(self):
        for setup, files, wrong, shots in shots_by_hand.cases():
            status, said = self.place.check(made_by_hand(setup, files))
            self.assertEqual(status, 1 if wrong else 0, f"{shots}:\n{said}")
            number, _, fault = (wrong or "").partition(": ")
            self.assertIn(f"wrong: shot-{number[5:]}.ppm: {fault}" if wrong else "wrong 0", said)

    def test_what_chance_decides(self):
        """How much of a right shot is not checked, and less of a second one."""
        plain = list(shots_by_hand.runs_of_one_shot())
        pair = next(shots_by_hand.runs_of_two_shots())
        self.assertEqual(len(plain), len(CHANCES))
        for counts, (clients, user, journal, rows) in zip(
                [*((count,) for count in CHANCES), (1, 0)], [*plain, pair]):
            shots = next(shots for shots, wrong in rows.items() if not wrong)
            setup = Setup(shots_by_hand.CONFIG, clients, user)
            files = shots_by_hand.files_with(journal, shots.split(), "GGBB")
            _, said = self.place.check(made_by_hand(setup, files))
            for number, count in enumerate(counts, 1):
                has = f": {count} of 4 pixels show one of" if count else f": each pixel {ONE_WORD}"
                told = [line for line in said.split("\n") if f": shot-{number}.ppm: " in line]
                self.assertIn(has, told[0], said)

    def test_large_screens(self):
        counts = {kind.__name__: 0 for kind in KINDS}
        for folder, config in (("windows", "windows.toml"), ("phishing", "phishing.toml"),
                               ("desk", "desk.toml")):
            rng = random.Random(f"verify {folder}")
            made = made_example(rng, folder, config)
            self.right(made, folder)
            for name, plant in plants(rng, made, counts):
                counts[name] += 1
                self.wrong(made, plant, f"{folder}, {name}")

    def test_pictures_of_the_pages(self):
        """Folders whose pictures are those that the documents show."""
        for (folder, *words), shown in PAGES.items():
            self.right(made_page(folder, words, shown), folder)

    def test_a_generated_run(self):
        """All but three files are right."""
        made = made_gen(random.Random("verify gen"))
        script = bytearray(made.puts["g3.nit"])
        script[-8] ^= 1
        files = made.puts | {"g3.nit": bytes(script), "shot-2.ppm": b""}
        _, said = self.place.check(made, files)
        wrong = {"shot-1.ppm": "the pixel at (", "g3.nit": "line 1995: ", "shot-2.ppm": OTHER}
        for name, has in wrong.items():
            self.is_told(said, name, has, "gen")
        for name in made.puts.keys() - wrong.keys():
            self.assertIn(f"right: {name}: ", said)

    def test_audit_is_asked_too(self):
        made = MAKERS["run"](random.Random("verify audit"))
        yes = stand_ins.saying(Path(self.top), "yes", "nitpicker: audit yes entries 9")
        no = stand_ins.executable(Path(self.top) / "no", NO_RUN)
        self.assertEqual(self.place.check(made, program=yes)[0], 0)
        status, said = self.place.check(made, program=no)
        self.assertEqual(status, 1)
        self.assertIn("wrong: journal.txt: by `audit`: journal.txt: entry 3: not a run", said)

    def test_a_configuration_and_a_folder(self):
        """The command is known by the files, where these tell it."""
        for command in ("turns", "run", "clip", "capture", "nested"):
            made = MAKERS[command](random.Random("verify command"))
            self.place.put(made)
            status, said = self.place.says([made.words[1], "../out"])
            is_told = command not in ("capture", "nested")
            self.assertEqual(status, 0 if is_told else 2, f"{command}: {said}")
            has = {"turns": f"by turns: {BY_TURNS}", "run": "would be another one",
                   "clip": "right: clip.txt"}.get(command, f"say `{command} ")
            self.assertIn(has, said)

    def test_the_folder_of_the_inputs(self):
        """Files there that no run puts are let be. One that another run has put is not."""
        made = MAKERS["turns"](random.Random("verify inputs"))
        made.puts["README.md"] = b""
        self.place.put(made, {})
        runs.write_files(self.place.top / "in", made.puts)
        status, said = self.place.says([*made.words, "."])
        self.assertEqual(status, 0, said)
        self.assertIn("not checked: README.md: ", said)
        (self.place.top / "in" / "clip.txt").write_text("")
        status, said = self.place.says([*made.words, "."])
        self.assertEqual(status, 1, said)
        self.is_told(said, "clip.txt", OTHER, "inputs")

    def test_words_that_name_no_run(self):
        made = MAKERS["run"](random.Random("verify words"))
        self.place.put(made)
        for words, has in (([], "and a folder"), (["../out"], "and a folder"),
                           (["turns", "c.toml", "../absent"], "no folder"),
                           (["walk", "c.toml", "../out"], "the words of a run"),
                           (["still", "0", "8", "c.nit", "../out"], "W of still is a number"),
                           (["run", "d.toml", "../out"], "d.toml: read fault"),
                           (["capture", "c.toml", "0", "0", "0", "1", "../out"], "outside"),
                           (["clip", "c.toml", "../out"], ".clip: read fault")):
            status, said = self.place.says(words)
            self.assertEqual(status, 2, f"{words}: {said}")
            self.assertIn(has, said)

    def test_what_was_read_is_gone(self):
        """The user's script has the name of a file that the run puts."""
        setup, files, _, _ = next(shots_by_hand.cases())
        made = made_by_hand(setup, files, "final.ppm")
        self.assertEqual(self.place.check(made)[0], 0)
        self.place.put(made)
        for name in ("final.ppm", "shot-1.ppm", "journal.txt"):
            (self.place.top / "in" / name).write_bytes(files[name])
        status, said = self.place.says([*made.words, "."])
        self.assertEqual((status, "final.ppm is read and put" in said), (2, True), said)
        (self.place.top / "in" / "final.ppm").write_bytes(made.files["final.ppm"])
        status, said = self.place.says([*made.words, "."])
        self.assertEqual((status, "final.ppm is read and put" in said), (2, True), said)


def selftest(verify):
    """Tries the tool. Answers the status."""
    VerifyTest.own = staticmethod(verify)
    tests = unittest.defaultTestLoader.loadTestsFromTestCase(VerifyTest)
    return 0 if unittest.TextTestRunner(verbosity=1).run(tests).wasSuccessful() else 1

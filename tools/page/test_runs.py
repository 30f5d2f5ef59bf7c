"""Pages of the program's own runs, and of the same with something wrong in what it leaves."""
import os
import re
import subprocess
import sys
import tempfile
import unittest
from pathlib import Path
from unittest import mock

import runs
from page import commands
from page.sources import Fault, read_sources, run_apart, scripts_of

EXAMPLES = runs.TOP / "examples"
PROGRAM = runs.TOP / "bin" / "nitpicker"
ROWS = {
    "first": ["still", "8", "4", "first.nit"],
    "two": ["turns", "two.toml"],
    "xray": ["turns", "xray.toml"],
    "kill": ["turns", "kill.toml"],
    "clip": ["clip", "clip.toml"],
    "capture": ["capture", "capture.toml", "4", "4", "24", "24"],
    "nested": ["nested", "outer.toml", "inner.toml"],
}


def runs_of(example, words=None):
    """What a page of an example shows."""
    return commands.Command(str(PROGRAM), EXAMPLES / example,
                            ROWS[example] if words is None else words).runs()


def changed(name, old, new):
    """The program, but that what it leaves under this name has something else in it."""
    def run(program, words, files):
        outcome = run_apart(program, words, files)
        if name in outcome.files:
            data = outcome.files[name]
            outcome.files[name] = new if old is None else data.replace(old, new, 1)
            assert outcome.files[name] != data, f"{name} has not changed"
        return outcome
    return mock.patch.object(commands, "run_apart", run)


class RunsTest(unittest.TestCase):
    def test_each_example_has_its_page(self):
        for example, words in ROWS.items():
            for run in runs_of(example, words):
                data = run.data()
                entries = int(re.search(r"entries (\d+) frames (\d+)", data["said"])[1])
                count = int(re.search(r"frames (\d+)", data["said"])[1])
                self.assertEqual(sum(step[6] is not None for step in data["steps"]), entries)
                self.assertEqual(len(data["pictures"]), count, example)
                self.assertEqual(data["each"], run.name.split(" ")[0] in ("turns", "still"))
                self.assertTrue(data["checks"])

    def test_a_run_on_threads_has_its_pictures(self):
        [run] = runs_of("two", ["run", "two.toml"])
        data = run.data()
        self.assertEqual(data["pictures"], [["shot-1.ppm", 7], ["final.ppm", 9]])
        self.assertEqual([step for step, _ in data["frames"]], [7, 9])

    def test_kill_is_told_with_its_refused_calls(self):
        [run] = runs_of("kill")
        killed = [[0, "kill"]]
        [at] = [n for n, step in enumerate(run.replay.steps) if step.told == killed]
        refused = [step.why for step in run.replay.steps[at:] if step.kind == "refused"]
        self.assertEqual(refused, ["the user has locked it out"] * 3)
        self.assertEqual(run.replay.tracks.pairs["0 state"], [[0, "live"], [at + 1, "killed"]])

    def test_the_clipboard_stands_at_its_steps(self):
        [run] = runs_of("clip")
        steps, board = run.replay.steps, run.replay.tracks.pairs["clipboard"]
        copied = next(n for n, step in enumerate(steps, 1) if " copied < " in step.text)
        self.assertEqual([value for _, value in board[: board.index([copied, "hi"])]],
                         [None] * board.index([copied, "hi"]))
        self.assertEqual(board[-1][1], "hi")
        self.assertEqual(steps[-1].text, "final")
        self.assertEqual(run.pictures, [["final.ppm", len(steps)]])
        self.assertEqual(sum(step.kind == "clip" for step in steps), 4)

    def test_the_film_and_the_inner_run(self):
        [run] = runs_of("capture")
        self.assertEqual(run.region, [4, 4, 24, 24])
        outer, inner = runs_of("nested")
        self.assertEqual(inner.name, "turns inner.toml")
        self.assertTrue(inner.scene_is_drawn() and not outer.scene_is_drawn())

    def test_an_audit_has_the_entry_that_is_none_of_a_run(self):
        [run] = runs_of("two", ["run", "two.toml"])
        journal = run.files["journal.txt"]
        with tempfile.TemporaryDirectory() as folder:
            sources = read_sources(EXAMPLES / "two", ["run", "two.toml"])
            for text, kinds in ((journal, ["final"]), (journal[:-6], ["wrong"]),
                                (journal.replace(b"view", b"take", 1), ["wrong"])):
                runs.write_files(folder, sources | {"left.txt": text})
                words = ["audit", "two.toml", "left.txt"]
                [audit] = commands.Command(str(PROGRAM), folder, words).runs()
                self.assertEqual([audit.replay.steps[-1].kind], kinds)
                self.assertEqual(audit.data()["frames"], [])

    def test_what_the_program_leaves_wrong_is_told(self):
        rows = [
            ("first", "final.ppm", b"\xff\0\0", b"\xff\0\1", r"final.ppm: the pixel at \(1, 1\)"),
            ("two", "shot-1.ppm", b"\xff", b"\xfe", "shot-1.ppm: the pixel at"),
            ("two", "journal.txt", b"handle 1", b"handle 2", "entry .*handle 2"),
            ("clip", "journal.txt", b"< view", b"< fill 0 0 1 1 FFFFFF", "entry .*no entry"),
            ("clip", "journal.txt", b"< view", b"< sing", "entry .*no entry"),
            ("clip", "journal.txt", b"input motion", b"input phase", "entry .*no entry"),
            ("clip", "journal.txt", None, b"\0\n", "entry 1: no entry"),
            ("clip", "clip.txt", b"clip 9", b"clip 99", "no such place or client"),
            ("kill", "journal.txt", b" > 0 kill", b"", "entry .*rules give .*kill"),
            ("kill", "events-a.txt", b"killed", b"closed", "events-a.txt: "),
            ("clip", "clip.txt", b"pasted =hi", b"pasted =ho", "clip.txt: .*pasted =hi"),
            ("clip", "clip.txt", b"not-focused", b"empty", "clip.txt: .*not-focused"),
            ("clip", "clip.txt", b"copied", b"stolen", "clip.txt: no entry"),
            ("clip", "final.ppm", b"\xff", b"\xfe", "final.ppm: the pixel at"),
            ("capture", "capture.ncap", b"\xff\xff\xff", b"\xff\xff\xfe", "capture.ncap: "),
            ("capture", "shot-2.ppm", b"P6", b"P5", "shot-2.ppm: "),
            ("capture", "capture.ncap", None, b"NCAP", "capture.ncap: byte"),
            ("nested", "inner-journal.txt", b"motion", b"wheel", "inner-journal.txt: "),
        ]
        for example, name, old, new, said in rows:
            with self.subTest(f"{example} {name} {new}"), changed(name, old, new):
                with self.assertRaisesRegex(Fault, said):
                    runs_of(example)

    def test_a_run_that_is_refused_has_no_page(self):
        for words, said in ((["turns", "absent.toml"], "absent.toml: it cannot be read; "
                             "tools/explain -C .*broken turns absent.toml says why"),
                            (["turns", "folder.toml"], "status 3: .*read fault; tools/explain "),
                            (["still", "8", "4", "zero.nit"], "status 6: .*bad script; "
                             "tools/explain -C .*broken still 8 4 zero.nit says why"),
                            (["turns", "kind.toml"], "status 5: .* says why")):
            with self.assertRaisesRegex(Fault, said):
                runs_of("broken", words)
        for words in (["turns"], ["film"], [], ["still", "0", "4", "zero.nit"]):
            with self.assertRaises(runs.WrongWords):
                runs_of("broken", words)

    def test_a_file_that_is_refused_is_explained_elsewhere(self):
        folder = EXAMPLES / "broken"
        rows = ((["still", "8", "4", "zero.nit"], "still 8 4 zero.nit"),
                (["turns", "kind.toml"], "turns kind.toml"),
                (["turns", "folder.toml"], "turns folder.toml"),
                (["capture", "good.toml", "0", "0", "99", "99"], None))
        for words, named in rows:
            with self.assertRaises(Fault) as raised:
                runs_of("broken", words)
            ending = f"; tools/explain -C {folder} {named} says why"
            if named:
                self.assertTrue(str(raised.exception).endswith(ending), raised.exception)
            else:
                self.assertNotIn("explain", str(raised.exception))


class SourcesTest(unittest.TestCase):
    def test_names_that_lead_elsewhere_are_read_and_nothing_is_written_there(self):
        with tempfile.TemporaryDirectory() as top:
            folder = Path(top) / "scene"
            text = (EXAMPLES / "two" / "two.toml").read_text()
            text = text.replace('"a.nit"', '"../a.nit"').replace('"b.nit"', f'"{top}/deep/b.nit"')
            files = read_sources(EXAMPLES / "two", ["run", "two.toml"])
            runs.write_files(top, {"scene/two.toml": text.encode(), "a.nit": files["a.nit"],
                                   "deep/b.nit": files["b.nit"], "scene/two.in": files["two.in"]})
            before = sorted(os.walk(top))
            [run] = commands.Command(str(PROGRAM), folder, ["turns", "two.toml"]).runs()
            self.assertEqual(sorted(os.walk(top)), before)
            self.assertEqual(len(run.pictures), 2)

    def test_a_configuration_that_cannot_be_read_names_no_scripts(self):
        for data in (b"", b"\xff", b"client = 3", b"[[client]]",
                     b"input = 1\n[[client]]\nscript=1"):
            self.assertEqual(scripts_of(data), [])


class StarterTest(unittest.TestCase):
    """tools/show itself."""

    def started(self, *words):
        return subprocess.run([sys.executable, runs.TOP / "tools" / "show", "--program", PROGRAM,
                               *map(str, words)], capture_output=True, text=True, check=False)

    def test_it_makes_the_page(self):
        with tempfile.TemporaryDirectory() as folder:
            page = Path(folder) / "two.html"
            ended = self.started("-C", EXAMPLES / "two", "--out", page, "turns", "two.toml")
            self.assertEqual((ended.returncode, ended.stderr), (0, ""))
            self.assertEqual(ended.stdout, f"tools/show: {page}: {page.stat().st_size} bytes\n")

    def test_a_fault_is_one_line(self):
        for words in (["turns", "none.toml"],
                      ["--out", "/none/x.html", "-C", EXAMPLES / "first", *ROWS["first"]]):
            ended = self.started(*words)
            self.assertEqual((ended.returncode, ended.stdout), (1, ""), words)
            self.assertRegex(ended.stderr, r"\Atools/show: [^\n]+\n\Z")

    def test_the_desk_is_below_a_megabyte(self):
        with tempfile.TemporaryDirectory() as folder:
            page = Path(folder) / "desk.html"
            ended = self.started("-C", EXAMPLES / "desk", "--out", page, "turns", "desk.toml")
            self.assertEqual(ended.returncode, 0, ended.stderr)
            self.assertLess(page.stat().st_size, 1_000_000)

"""Slips of the fingers, where nothing is built: each is answered at once, and starts no build."""
import os
import re
import shlex
import shutil
import signal
import subprocess
import sys
from unittest import SkipTest

import older_pythons
import starter_stand_ins as stand_ins
from slips import QUICK, spent
from starter_stand_ins import ANY, TOP, Case, ends, executable

SAID_BY_TESTS = TOP / "crates" / "nit_top_tests" / "src" / "usage_tests.rt"
# Words, and what may have been meant.
GUESSES = (
    (["turn", "a.toml"], "`turn` is no command; perhaps `turns`"),
    (["trun", "a.toml"], "`trun` is no command; perhaps `run` or `turns`"),
    (["Audit", "a", "b"], "`Audit` is no command; `audit`, in lower case"),
    (["-C", ".", "cilp", "a"], "`cilp` is no command; perhaps `clip`"),
    (["help"], "perhaps `--help`"), (["-h"], "perhaps `--help`"),
    (["--HELP"], "`--HELP` is no command; `--help`, in lower case"),
    (["-v"], "perhaps `--version`"), (["version"], "perhaps `--version`"),
    (["--out=x", "turns", "a"], "perhaps `--out`"), (["-c", "x"], "perhaps `-C`"),
    (["two.toml"], "`two.toml` is no command; --help lists the commands"),
    ([], "bin/nitpicker: --help lists the commands"), (["--"], "--help lists the commands"),
    (["a\x1b[31m\n"], "`a\\x1b[31m\\n` is no command"), ([b"\xff"], "`\\xff` is no UTF-8"),
    (["turns"], "`turns` takes 1 word, and none is given; `turns CONFIG`"),
    (["audit", "a"], "`audit` takes 2 words, and 1 is given; `audit CONFIG JOURNAL`"),
    (["run", "a", "b"], "`run` takes 1 word, and 2 are given"),
    (["still", "0", "4", "a"], "`0` stands where W is to stand in `still W H SCRIPT`; a number "
     "from 1 to 1024"),
    (["--out", "made", "gen", "07"], "`07` stands where N is to stand in `gen N`"),
)


# Files of a scene, and what is refused of them before anything is run.
SCENE = "[screen]\nwidth = 8\nheight = 8\n[input]\nscript = 'u.in'\n[[client]]\nlabel = 'a'\n" \
    "donation = 256\nscript = '{}'\n"
FILES = {"scene.toml": SCENE.format("a.nit"), "bad.toml": SCENE.format("bad.nit"),
         "none.toml": SCENE.format("none.nit"), "small.toml": SCENE.replace("256", "255"),
         "a.nit": "view\n", "bad.nit": "view\nbufer 1 1\n", "u.in": "shot\n"}
REFUSED = (
    (["turns", "small.toml"], 5, "small.toml: bad configuration: range"),
    (["run", "u.in"], 5, "u.in: bad configuration: syntax"),
    (["turns", "bad.toml"], 6, "bad.nit: line 2: bad script"),
    (["audit", "none.toml", "u.in"], 3, "none.nit: read fault"),
    (["audit", "scene.toml", "none"], 3, "none: read fault"),
    (["audit", "scene.toml", "u.in"], 8, "u.in: line 1: bad journal"),
    (["clip", "scene.toml"], 3, "a.nit.clip: read fault"),
    (["capture", "scene.toml", "0", "0", "9", "1"], 10, "capture outside"),
    (["still", "8", "8", "bad.nit"], 6, "bad.nit: line 2: bad script"),
    (["nested", "scene.toml", "scene.toml"], 6, "a.nit: phases differ"),
    (["--out", "made", "nested", "scene.toml", "bad.toml"], 6, "bad.nit: line 2: bad script"),
)


def line_of_usage():
    """What the program says of words that are no command, by docs/FORMATS.md."""
    formats = (TOP / "docs" / "FORMATS.md").read_text(encoding="utf8")
    return f"nitpicker: {re.search(r'`(usage: nitpicker [^`]*)`', formats)[1]}\n"


def lines_in_sources():
    """The same line in the program's code and in its specification, by their files."""
    for path in sorted((TOP / "crates").glob("*/s*/**/*")):
        if path.suffix in (".rt", ".antt") and "_tests/" not in str(path):
            _, found, behind = path.read_text(encoding="utf8").partition("usage: nitpicker ")
            pieces = re.findall(r'"([^"]*)"', f'"nitpicker: {found}{behind}') if found else []
            end = next((at for at, piece in enumerate(pieces, 1) if piece.endswith("\\n")), 0)
            if end:
                yield path.name, "".join(pieces[:end]).replace("\\n", "\n")


def wrong_words():
    """The lists of words that the program's own tests have for no command."""
    rows = SAID_BY_TESTS.read_text(encoding="utf8").partition("base screen")[0]
    return [line[6:].split(", ") if line != "words" else []
            for line in rows.splitlines() if line.startswith("words")]


class Slips(Case):
    is_built = False

    def quick(self, *words, **more):
        """How it ended, where no build was begun, and it took no second of a processor."""
        before = spent()
        ended = self.run_it(*words, **more)
        self.assertLess(spent() - before, QUICK, words)
        self.assertEqual(self.repository.done(), [], words)
        self.assertNotIn("Traceback", self.said(ended))
        return ended

    def refused(self, words, has=""):
        """That these words are refused as the program refuses them."""
        ended = self.quick(*words)
        self.assertEqual((ended.returncode, ended.stdout.decode()), (2, line_of_usage()), words)
        self.assertRegex(self.said(ended), r"\Abin/nitpicker: [^\n]+\n\Z")
        self.assertIn(has, self.said(ended))

    def test_words_that_the_program_refuses(self):
        if not SAID_BY_TESTS.is_file():
            raise SkipTest("the tests of the program are not here")
        for words in wrong_words():
            self.refused(words)

    def test_the_usage_is_the_programs_own(self):
        """The code's and the specification's, which are in files of these endings."""
        if not SAID_BY_TESTS.is_file():
            raise SkipTest("the sources of the program are not here")
        lines = list(lines_in_sources())
        self.assertEqual({name.rpartition(".")[2] for name, _ in lines}, {"rt", "antt"})
        self.assertEqual({line for _, line in lines}, {line_of_usage()})
        self.assertEqual(self.quick().stdout.decode(), line_of_usage())

    def test_what_may_have_been_meant(self):
        for words, has in GUESSES:
            self.refused(words, has)
        self.assertFalse((self.repository.folder / "made").exists())

    def test_words_that_say_something(self):
        for words in (["--help"], ["--version"], ["-C", ".", "--help"], ["-C", ".", "--version"]):
            ended = self.quick(*words)
            self.assertEqual((ended.returncode, ended.stderr), (0, b""))
        self.assertEqual(self.quick("-C", "nowhere", "--out", "made", *ANY).returncode, 1)

    def test_a_file_that_cannot_be_read(self):
        for words, name in ((["turns", "none.toml"], "none.toml"), (["clip", ""], ""),
                            (["still", "8", "4", "crates"], "crates"), (["run", "a\n"], "a\n"),
                            (["audit", "none", "README.md"], "none"),
                            (["nested", "x" * 256, "README.md"], "x" * 256),
                            (["--out", "made", "turns", "none.toml"], "none.toml")):
            ended = self.quick(*words)
            self.assertEqual((ended.returncode, ended.stdout.decode()),
                             (3, f"nitpicker: {name}: read fault\n"))
            self.assertIn("nothing is built for that", self.said(ended))

    def test_a_file_that_is_refused(self):
        """By the reading of tools/explain, which the small repository has here."""
        shutil.copytree(TOP / "tools", self.repository.folder / "tools",
                        ignore=shutil.ignore_patterns("__pycache__"))
        for name, text in FILES.items():
            self.repository.write(name, text)
        for words, status, line in REFUSED:
            ended = self.quick(*words)
            self.assertEqual((ended.returncode, ended.stdout.decode()),
                             (status, f"nitpicker: {line}\n"), words)
            self.assertIn("nothing is built for that", self.said(ended))
        os.mkfifo(self.repository.folder / "pipe")
        writer = subprocess.Popen(["sh", "-c", "exec cat scene.toml >pipe"],
                                  cwd=self.repository.folder)
        self.addCleanup(writer.wait)
        self.addCleanup(writer.kill)
        for words in (["turns", "scene.toml"], ["turns", "pipe"]):
            self.assertEqual(self.run_it(*words).returncode, 7, words)
        self.assertIsNone(writer.poll())

    def test_standard_output_that_is_closed(self):
        for words in ([], ["turns"], ["turns", "none"]):
            ended = subprocess.run(self.repository.command(words), cwd=self.top, check=False,
                                   stderr=subprocess.PIPE, preexec_fn=lambda: os.close(1))
            self.assertEqual(ended.returncode, 3 if words[1:] else 2)
            self.assertNotIn("Traceback", self.said(ended))

    def test_each_command_of_the_usage_is_built(self):
        """The shell has the commands too: one that it does not know would never be built."""
        self.repository.write("f", "a name that can be read")
        for form in re.split(", | or ", line_of_usage().strip().split("usage: nitpicker ")[1]):
            command, *names = form.split()
            words = [command, *("1" if len(name) == 1 else "f" for name in names)]
            self.assertEqual(self.run_it(*words).returncode, 7, words)

    def test_a_link_to_it(self):
        starter, path = self.repository.folder / "bin" / "nitpicker", self.top / "path"
        path.mkdir()
        (path / "absolute").symlink_to(starter)
        (path / "nitpicker").symlink_to("../repository/bin/nitpicker")
        (path / "far").symlink_to("nitpicker")
        known = self.repository.environment
        known = {**known, "PATH": f"{path}:{known['PATH']}"}
        for name in ("nitpicker", "far", "absolute", str(path / "far"), "path/nitpicker"):
            for words, status in ((["--help"], 0), (["turn"], 2), (["-C", ".", *ANY], 7)):
                command = [name, *words]
                if "/" not in name:
                    command = ["sh", "-c", '"$0" "$@"', *command]
                ended = subprocess.run(command, cwd=self.top, capture_output=True, check=False,
                                       env=known)
                self.assertEqual(ended.returncode, status, (name, words, ended.stderr))

    def test_one_python_is_named(self):
        """Once, in README, and it is the one that is looked for."""
        pages = [*TOP.glob("*.md"), *TOP.glob("docs/*.md"), *TOP.glob("examples/**/*.md")]
        named = [(page.name, found) for page in pages for found in re.findall(
            r"[Pp]ython\s+(\d[.\d]*\d|\d)", page.read_text(encoding="utf8"))]
        self.assertEqual(named, [("README.md", "{}.{}".format(*older_pythons.LEAST))])

    def test_an_older_python(self):
        for name in ("starter.py", "building.py", "library.py"):
            for faults in (older_pythons.reading_faults, older_pythons.late_faults):
                self.assertEqual(faults(stand_ins.BIN / name), [])
        executable(self.top / "faked", f"""#!/bin/sh
while [ "${{1#-}}" != "$1" ]; do shift; done
exec {sys.executable} -c {shlex.quote(older_pythons.FAKED)} "$@"
""")
        for python in [*older_pythons.found(), self.top / "faked"]:
            (self.repository.tools / "python3").unlink(missing_ok=True)
            (self.repository.tools / "python3").symlink_to(python)
            for words in (ANY, ["-C", ".", *ANY], ["--version"]):
                self.assertEqual(older_pythons.refusal_faults(
                    self.repository.command(words), self.repository.environment), [])
            self.assertEqual(self.quick("turn").returncode, 2)


class Interrupts(Case):
    """Ctrl-C, which leaves nothing behind and says nothing of Python."""

    is_built = False

    def ended_by(self, started, number=signal.SIGINT):
        """That a start ends by a signal that it gets now."""
        started.send_signal(number)
        said, told = started.communicate(timeout=300)
        self.assertEqual((started.returncode, said), (-number, b""), told)
        self.assertNotIn(b"Traceback", told)

    def setUp(self):
        super().setUp()
        # Who starts this in the background may have it ignored.
        self.addCleanup(signal.signal, signal.SIGINT,
                        signal.signal(signal.SIGINT, signal.SIG_DFL))

    def test_a_start_that_builds_and_one_that_waits(self):
        for number in (signal.SIGINT, signal.SIGTERM):
            first = self.repository.begin(*ANY, STAND_IN_SECONDS="20")
            self.assertTrue(ends(lambda: "begin low" in self.repository.log.read_text()))
            second = self.repository.begin(*ANY)
            self.assertIn(b"waiting for it", second.stderr.readline())
            self.ended_by(second, number)
            self.ended_by(first, number)
            self.assertFalse((self.repository.folder / "out/build/lanes").exists())
            self.repository.done()

    def test_a_toolchain_that_does_not_answer(self):
        executable(self.repository.tools / "rt", "#!/bin/sh\necho asked >>$STAND_IN_LOG\n"
                   "exec sleep 60 >/dev/null 2>&1\n")
        for words in (ANY, ["--version"], ["-C", ".", "--version"]):
            started = self.repository.begin(*words)
            self.assertTrue(ends(lambda: "asked" in self.repository.log.read_text()))
            self.ended_by(started)
            self.repository.done()

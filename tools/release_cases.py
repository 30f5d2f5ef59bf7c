"""What `tools/release --selftest` tries: a release of a small repository with stand-ins."""
import hashlib
import os
import re
import shutil
import subprocess
import tarfile
import tempfile
import unittest
from pathlib import Path

import starter_stand_ins as stand_ins
from stand_ins import copied, plain_library, silent_library
from starter_stand_ins import CRATES, RT, TOP, Repository, doing, executable, try_all

PAGE = ("`../../bin/nitpicker turns 'tell red 2 0'` says `nitpicker: red`, and "
        "`../../bin/nitpicker turns 'read a.nit'` says `nitpicker: one`. So does "
        "`../../bin/nitpicker X`.")
CASES = """small | turns 'tell red 2 0' | 0 | red | 2
small | turns 'tell "no run" 0 9' | 9 | no run | 0
small | turns 'read a.nit' | 0 | one | 0
small | turns 'read a.nit' | 0 | two | 0 | s/one/two/ a.nit
small | turns 'read a.nit' | 0 | one | 0 | | grep one a.nit
"""
# A toolchain that is the stand-in of the starter's and builds the library: `library` beside it.
LIBRARY_RT = """#!/bin/sh
[ "$1" != doc ] || exec echo "{kit}/START-HERE.md"
[ "${{PWD##*/}} $1" = "nit_c lib" ] || exec "{kit}/starter-rt" "$@"
mkdir -p out && cp "{kit}/library" out/libnit_c.a
"""


class Case(unittest.TestCase):
    """A case has a repository with a commit, whose program and library are built from it."""

    def setUp(self):
        folder = tempfile.TemporaryDirectory(prefix="release-")
        self.addCleanup(folder.cleanup)
        self.top = Path(folder.name).resolve()
        self.repository = Repository(self.top)
        self.folder = self.repository.folder
        for name, text in {"examples/small/README.md": PAGE, "examples/small/a.nit": "one\n",
                           "examples/cases.txt": CASES, "docs/x.md": "x", ".hidden": "x",
                           "examples/broken/cases.txt": "turns 'tell b 0 5' | 5 | b\n"}.items():
            self.repository.write(name, text)
        for name in ("release", "run-examples", "runs.py"):
            (self.folder / "tools").mkdir(exist_ok=True)
            shutil.copy(TOP / "tools" / name, self.folder / "tools" / name)
        self.lay_library()
        self.git("init", "-q")
        self.commit()
        self.build()

    def lay_library(self):
        """Puts embed, the crate below it, and a toolchain that builds it."""
        shutil.copy(TOP / ".gitignore", self.folder)
        self.repository.write("crates.txt", CRATES + "nit_c staticlib: low core\n")
        self.repository.write("crates/nit_c/src/lib.rt", "nit_c")
        embed = copied(self.folder, TOP / "embed")
        shutil.copy(silent_library(self.top, embed), self.top / "library")
        executable(self.top / "starter-rt", RT)
        executable(self.repository.tools / "rt", LIBRARY_RT.format(kit=self.top))
        (self.top / "c").mkdir()
        subprocess.run(["ar", "rc", self.top / "c/liblibc_c.a"], check=True)

    def make(self, *words):
        subprocess.run(["make", "-s", "-C", "embed", *words], cwd=self.folder, check=True,
                       env=self.repository.environment)

    def build(self):
        self.assertEqual(self.repository.run("gen", "1", STAND_IN_SECONDS="0").returncode, 7)
        self.make()

    def git(self, *words):
        who = ["-c", "user.name=nobody", "-c", "user.email=nobody@localhost"]
        return subprocess.run(["git", *who, *words], cwd=self.folder, check=True,
                              capture_output=True).stdout.decode().strip()

    def commit(self):
        self.git("add", "-A")
        self.git("commit", "-q", "--allow-empty", "-m", "a change")

    def release(self):
        return subprocess.run([self.folder / "tools" / "release", self.top / "made"],
                              cwd=self.top, capture_output=True, text=True, check=False,
                              env=self.repository.environment)

    def refused(self, why):
        ended = self.release()
        self.assertEqual((ended.returncode, ended.stdout), (1, ""))
        self.assertIn(why, ended.stderr)
        self.assertFalse((self.top / "made").exists())

    def made(self):
        """The archive."""
        ended = self.release()
        self.assertEqual((ended.returncode, ended.stderr), (0, ""))
        [archive] = (self.top / "made").iterdir()
        self.assertIn(hashlib.sha256(archive.read_bytes()).hexdigest(), ended.stdout)
        return archive


class Refusals(Case):
    """What there is no release of."""

    def test_a_tree_that_is_not_clean(self):
        self.repository.write("docs/y.md", "y")
        self.refused("the tree is not clean:\n?? docs/y.md")
        (self.folder / "docs/y.md").unlink()
        self.repository.write("docs/x.md", "y")
        self.refused("the tree is not clean:\n M docs/x.md")

    def test_a_program_of_other_sources(self):
        self.repository.write("crates/low/src/lib.rt", "another text")
        self.commit()
        self.refused("the program was not built from this commit")
        self.assertEqual(self.repository.run("gen", "1", STAND_IN_SECONDS="0").returncode, 7)
        self.refused("the library was not built from this commit")
        self.make()
        self.made()

    def test_a_library_of_other_sources(self):
        self.repository.write("crates/nit_c/src/lib.rt", "another text")
        self.commit()
        self.refused("the library was not built from this commit")
        self.make()
        archive = self.folder / "crates/nit_c/out/libnit_c.a"
        archive.write_bytes(archive.read_bytes() + b"\n")
        self.refused("the library was not built from this commit")
        self.make("clean")
        self.refused("the library was not built from this commit")

    def test_a_program_that_was_not_built_by_the_starter(self):
        program = self.folder / "crates/nitpicker/out/nitpicker"
        executable(program, program.read_text() + "# another one\n")
        self.refused("was not built from this commit")
        program.unlink()
        self.refused("was not built from this commit")

    def test_no_program(self):
        shutil.rmtree(self.folder / "out")
        self.refused("was not built from this commit")

    def test_a_page_that_tells_more(self):
        self.repository.write("examples/small/README.md", PAGE + " It says `nitpicker: blue`.")
        self.commit()
        self.refused("lacks what these pages tell:\nexamples/small: blue")
        self.repository.write("examples/small/README.md", PAGE + " `../../bin/nitpicker run x`")
        self.commit()
        self.refused("lacks what these pages tell:\nexamples/small: run x")


class Archives(Case):
    """What is in the archive, and what `run-examples` finds."""

    def setUp(self):
        super().setUp()
        self.archive = self.made()
        self.name = f"nitpicker-{self.git('rev-parse', 'HEAD')[:12]}"
        with tarfile.open(self.archive) as tar:
            self.names = sorted(it.name for it in tar)
            tar.extractall(self.top / "elsewhere")
        self.unpacked = self.top / "elsewhere" / self.name
        # The stand-in reads what it does beside itself, as no program does.
        shutil.copy(self.folder / "crates/nitpicker/out/nitpicker.py",
                    self.unpacked / "bin/proved/nitpicker.py")

    def try_examples(self):
        """How `run-examples` ends where no toolchain is."""
        return subprocess.run([self.unpacked / "run-examples"], cwd=self.top, capture_output=True,
                              text=True, check=False, env={"PATH": "/usr/bin:/bin"})

    def test_what_is_in_it(self):
        self.assertEqual(self.archive.name, f"{self.name}.tar.gz")
        kept = ["bin", "docs", "embed", "examples", "tools", "README.md"]
        files = subprocess.run(["git", "ls-files", *kept], cwd=self.folder, capture_output=True,
                               text=True, check=True)
        wanted = [*files.stdout.split(), "VERSION", "SHA256SUMS", "run-examples",
                  "bin/proved/nitpicker", "embed/lib/libnitpicker.a",
                  "embed/lib/pkgconfig/nitpicker.pc"]
        self.assertEqual(self.names, sorted(f"{self.name}/{name}" for name in wanted))
        self.assertEqual((self.unpacked / "VERSION").read_text(),
                         f"nitpicker {self.git('rev-parse', 'HEAD')}\n"
                         f"toolchain {stand_ins.TOOLCHAIN}\n")
        for line in (self.unpacked / "SHA256SUMS").read_text().splitlines():
            told, name = line.split("  ")
            self.assertEqual(told, hashlib.sha256((self.unpacked / name).read_bytes()).hexdigest())
            wanted.remove(name)
        self.assertEqual(wanted, ["SHA256SUMS"])

    def test_the_same_bytes_twice(self):
        first = self.archive.read_bytes()
        for it in self.folder.rglob("*.md"):
            os.utime(it)
        self.assertEqual(self.made().read_bytes(), first)

    def test_another_library_beside_it_is_not_taken(self):
        first = self.archive.read_bytes()
        other = plain_library(self.top, self.folder / "embed")
        self.make(f"NIT_C={other}")
        self.assertNotEqual((self.folder / "embed/out/libnitpicker.a").read_bytes(),
                            (self.unpacked / "embed/lib/libnitpicker.a").read_bytes())
        self.assertEqual(self.made().read_bytes(), first)

    def test_a_host_is_compiled_without_a_toolchain(self):
        """By the pkg-config file where it lies, after the release was moved, and by the two
        commands of the guide."""
        moved = self.unpacked.rename(self.top / "moved")
        page = (TOP / "docs/EMBEDDING.md").read_text()
        commands, host = (re.search(rf"^```{kind}\n(.*?)^```$", page, re.M | re.S)[1]
                          for kind in ("", "c"))
        (moved / "host.c").write_text(host)
        there = ("cc -Wall -Werror host.c "
                 "$(PKG_CONFIG_PATH=embed/lib/pkgconfig pkg-config --cflags --libs nitpicker)")
        for text in (there, commands):
            subprocess.run(["sh", "-ec", text], cwd=moved, check=True, capture_output=True,
                           env={"PATH": "/usr/bin:/bin", "HOME": str(self.top / "home")})
            # The stand-in of the library opens nothing.
            self.assertEqual(subprocess.run(["./a.out"], cwd=moved, check=False).returncode, 1)
            (moved / "a.out").unlink()
        self.assertTrue((self.top / "home/.local/lib/libnitpicker.a").is_file())

    def test_examples_are_as_their_pages_say(self):
        ended = self.try_examples()
        self.assertEqual((ended.stdout, ended.returncode), ("runs 6, failed 0\n", 0), ended.stderr)
        self.assertEqual((self.unpacked / "examples/small/a.nit").read_text(), "one\n")

    def test_the_starter_builds_nothing_there(self):
        starter = self.unpacked / "bin" / "nitpicker"
        for words, wanted in ((["--version"], (self.unpacked / "VERSION").read_bytes()),
                              (["--help"], (TOP / "bin" / "help.txt").read_bytes()),
                              (["turns", "--help"], b"[b'turns', b'--help']\n"),
                              (["-C", "docs", *doing("join", "y", "x.md")], b"")):
            ended = subprocess.run([starter, *words], cwd=self.unpacked, capture_output=True,
                                   check=False)
            self.assertEqual((ended.stdout, ended.stderr), (wanted, b""))
        self.assertFalse((self.unpacked / "out").exists())

    def test_what_is_not_as_it_should_be_is_found(self):
        cases = self.unpacked / "examples" / "cases.txt"
        for old, new in (("0 | red | 2", "0 | blue | 2"), ("0 | red | 2", "0 | red | 3"),
                         ("9 | no run", "8 | no run"), ("0 | two", "0 | one"),
                         ("grep one", "grep two")):
            cases.write_text(CASES.replace(old, new))
            (self.unpacked / "SHA256SUMS").unlink(missing_ok=True)
            ended = self.try_examples()
            self.assertEqual(ended.returncode, 1)
            self.assertTrue(ended.stdout.endswith("runs 6, failed 1\n"), ended.stdout)

    def test_a_file_of_another_release_is_found(self):
        (self.unpacked / "docs/x.md").write_text("y")
        ended = self.try_examples()
        self.assertEqual(ended.returncode, 1)
        self.assertIn("a file is not the one of the release", ended.stdout)


def selftest():
    return try_all((Refusals, Archives))

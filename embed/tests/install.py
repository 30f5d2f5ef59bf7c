#!/usr/bin/env python3
"""Tries what embed/Makefile installs and removes, and after which change it builds anew.

usage: embed/tests/install.py

Each case has a copy of embed, and stand-ins for the library and the toolchain, so nothing is proved
and nothing of what is installed is run. The status is 1 where a case failed.
"""
import os
import re
import subprocess
import sys
import tempfile
import unittest
from pathlib import Path

TOP = Path(__file__).resolve().parents[2]
sys.path.insert(0, str(TOP / "tools"))
sys.dont_write_bytecode = True

import runs
import stand_ins

# Where no rt is.
PATH = os.pathsep.join(it for it in os.environ["PATH"].split(os.pathsep)
                       if not Path(it, "rt").exists())
# Words of make, and the folders of a prefix, of libraries and of headers, below {top} where the
# files are to be and as the pkg-config file is to name them.
FOLDERS = [
    (["DESTDIR={top}/d"], "/usr/local", "/usr/local/lib", "/usr/local/include"),
    (["PREFIX={top}/a"], "{top}/a", "{top}/a/lib", "{top}/a/include"),
    (["prefix={top}/b"], "{top}/b", "{top}/b/lib", "{top}/b/include"),
    (["PREFIX={top}/c", "prefix={top}/b"], "{top}/b", "{top}/b/lib", "{top}/b/include"),
    (["prefix={top}/b", "libdir={top}/c", "includedir={top}/d/e"],
     "{top}/b", "{top}/c", "{top}/d/e"),
    (["DESTDIR={top}/d", "prefix=/usr", "libdir=/usr/lib/x86_64-linux-gnu"],
     "/usr", "/usr/lib/x86_64-linux-gnu", "/usr/include"),
    (["DESTDIR={top}/d", "prefix=/opt/n", "libdir=/usr/lib64"],
     "/opt/n", "/usr/lib64", "/opt/n/include"),
]
# A toolchain that builds the crate in whose folder it is, unless a source says that it is wrong,
# and tells so in a file. `late` is written to while it builds.
RT = """#!/bin/sh
case $1 in
    version) echo "stand-in-kit logic 1" ;;
    doc) echo "{top}/kit/START-HERE.md" ;;
    lib)
        echo "${{PWD##*/}}" >>"{top}/done"
        ! grep -rq wrong ../*/src || exit 1
        ! grep -q late src/lib.rt || echo >>src/lib.rt
        mkdir -p out && cp "{library}" out/libnit_c.a
        ;;
esac
"""
# A host that opens in both ways.
OPENS = """#include <nitpicker.h>
int main(void)
{
    const struct nit_plan plan = { .width = 1, .height = 1, .seats = NULL };
    struct nit_server server = NIT_CLOSED;
    return (int)(nit_open(&server, &plan) + nit_open_config(&server, "", 0));
}
"""
CRATES = """# Each crate, and what it stands on.
low:
middle may_wait=1: low slab
apart: low
nit_c staticlib: middle core
"""


def read(path, form):
    """What the form finds in a file, which has it once."""
    [found] = re.findall(form, Path(path).read_text(), re.M)
    return found


def files_in(folder):
    return {str(it.relative_to(folder)) for it in Path(folder).rglob("*") if not it.is_dir()}


class Case(unittest.TestCase):
    """A case has a copy of embed, an archive of nit_c, and the toolchain's part of the archive."""

    def setUp(self):
        folder = tempfile.TemporaryDirectory(prefix="install-")
        self.addCleanup(folder.cleanup)
        self.top = Path(folder.name).resolve()
        self.embed = stand_ins.copied(self.top, TOP / "embed")
        self.library = stand_ins.silent_library(self.top, self.embed)
        self.version = read(self.embed / "rust/Cargo.toml", r'^version = "(.*)"$')
        (self.top / "kit/c").mkdir(parents=True)
        subprocess.run(["ar", "rc", self.top / "kit/c/liblibc_c.a"], check=True)

    def toolchain(self):
        """The path with a toolchain in front that builds this case's archive."""
        (self.top / "tools").mkdir(exist_ok=True)
        stand_ins.executable(self.top / "tools/rt", RT.format(top=self.top, library=self.library))
        return f"{self.top}/tools:{PATH}"

    def start(self, *words, path=PATH, **more):
        return subprocess.run(words, cwd=self.top, capture_output=True, text=True, check=False,
                              env={"PATH": path, "HOME": str(self.top), **more})

    def make(self, *words, **more):
        """What make says on its standard output. It says nothing else, and ends well."""
        ended = self.start("make", "-C", self.embed, *words, **more)
        self.assertEqual((ended.returncode, ended.stderr), (0, ""))
        return ended.stdout

    def refused(self, why, *words, **more):
        ended = self.start("make", "-C", self.embed, *words, **more)
        self.assertEqual(ended.returncode, 2)
        self.assertIn(why, ended.stderr)

    def build(self):
        self.make(f"NIT_C={self.library}", f"KIT={self.top}/kit")

    def libraries(self):
        shared = f"libnitpicker.so.{self.version}"
        return {"libnitpicker.a", "libnitpicker.so", shared, shared[:-len(".0.0")]}

    def pkg_config(self, libraries, *words):
        ended = self.start("pkg-config", *words, "nitpicker",
                           PKG_CONFIG_PATH=f"{libraries}/pkgconfig")
        self.assertEqual((ended.returncode, ended.stderr), (0, ""))
        return ended.stdout.split()


class Installing(Case):
    """Installing needs what is built: neither a toolchain nor an archive of nit_c is there."""

    def setUp(self):
        super().setUp()
        self.build()
        self.library.unlink()
        self.before = {it: it.stat().st_mtime_ns for it in self.embed.rglob("*")}

    def test_files_are_where_the_words_say_and_no_others(self):
        for words, *folders in FOLDERS:
            words = [it.format(top=self.top) for it in words]
            prefix, libraries, headers = (it.format(top=self.top) for it in folders)
            place = next((it[len("DESTDIR="):] for it in words if it.startswith("DEST")), "")
            before = files_in(self.top)
            self.make("install", *words)
            wanted = {f"{headers}/nitpicker.h", f"{libraries}/pkgconfig/nitpicker.pc",
                      *(f"{libraries}/{name}" for name in self.libraries())}
            self.assertEqual({f"{self.top}/{it}" for it in files_in(self.top) - before},
                             {place + it for it in wanted}, words)
            for name, folder in (("prefix", prefix), ("libdir", libraries),
                                 ("includedir", headers)):
                self.assertEqual(self.pkg_config(place + libraries, f"--variable={name}"), [folder])
            text = Path(f"{place}{libraries}/pkgconfig/nitpicker.pc").read_text()
            self.assertFalse(place and place in text or "@" in text, text)
            self.make("uninstall", *words)
            self.assertEqual(files_in(self.top), before)
        self.assertEqual({it: it.stat().st_mtime_ns for it in self.embed.rglob("*")}, self.before)

    def test_what_else_is_there_stays(self):
        (self.top / "a/lib/pkgconfig").mkdir(parents=True)
        for name in ("a/lib/libother.a", "a/lib/pkgconfig/other.pc"):
            (self.top / name).write_text("x")
        for verb in ("install", "install", "uninstall", "uninstall"):
            self.make(verb, f"PREFIX={self.top}/a")
        self.assertEqual(files_in(self.top / "a"), {"lib/libother.a", "lib/pkgconfig/other.pc"})

    def test_anyone_can_read_them(self):
        umask = os.umask(0o077)
        self.addCleanup(os.umask, umask)
        self.make("install", f"PREFIX={self.top}/a")
        for it in (self.top / "a").rglob("*"):
            runs_it = it.is_dir() or ".so" in it.name
            self.assertEqual(it.stat().st_mode & 0o777, 0o755 if runs_it else 0o644, it)

    def test_a_program_takes_the_shared_object_or_the_archive(self):
        self.make("install", f"PREFIX={self.top}/a")
        source, libraries = self.top / "host.c", self.top / "a/lib"
        source.write_text("#include <nitpicker.h>\nint main(void)\n{\n"
                          "    struct nit_server server = NIT_CLOSED;\n"
                          "    return nit_close(&server) != 0;\n}\n")
        soname = f"libnitpicker.so.{self.version.split('.')[0]}"
        for more, wanted in (([], [soname]), (["-static"], [])):
            words = self.pkg_config(libraries, "--cflags", "--libs", *more[:1] and ["--static"])
            ended = self.start("cc", *more, source, *words, f"-Wl,-rpath,{libraries}")
            self.assertEqual((ended.returncode, ended.stderr), (0, ""))
            said = self.start("readelf", "-d", self.top / "a.out").stdout
            self.assertEqual(re.findall(r"NEEDED.*\[(libnit.*)\]", said), wanted)
            self.assertEqual(self.start(self.top / "a.out").returncode, 0)
        self.assertEqual(os.readlink(libraries / "libnitpicker.so"), soname)
        self.assertEqual(os.readlink(libraries / soname), f"libnitpicker.so.{self.version}")

    def test_there_is_one_version(self):
        self.make("install", f"PREFIX={self.top}/a")
        self.assertRegex(self.version, r"^\d+\.\d+\.\d+$")
        self.assertEqual(self.pkg_config(self.top / "a/lib", "--modversion"), [self.version])
        self.assertEqual(read(self.embed / "rust/Cargo.lock", r'"nitpicker"\nversion = "(.*)"$'),
                         self.version)
        self.assertEqual(read(self.embed / "include/nitpicker.h", r"^#define NIT_VERSION (\d+)$"),
                         self.version.split(".")[0])

    def linked(self, headers, library):
        """What is said where a host that opens in both ways is linked."""
        source = self.top / "host.c"
        source.write_text(OPENS)
        ended = self.start("cc", "-I", headers, source, "-L", self.top / "a/lib", library)
        self.assertEqual(ended.returncode == 0, ended.stderr == "")
        return ended.stderr

    def test_a_header_and_a_library_of_two_versions_do_not_link(self):
        self.make("install", f"PREFIX={self.top}/a")
        ours, other = int(self.version.split(".")[0]), self.top / "other"
        text = (self.embed / "include/nitpicker.h").read_text()
        other.mkdir()
        (other / "nitpicker.h").write_text(text.replace(f"_{ours}(", f"_{ours + 1}("))
        for library in (self.embed / "out/libnitpicker.a", "-lnitpicker"):
            self.assertEqual(self.linked(self.embed / "include", library), "")
            said = self.linked(other, library)
            for name in ("nit_open_seats", "nit_open_config"):
                self.assertIn(f"undefined reference to `{name}_{ours + 1}'", said)

    def test_help_is_said_and_nothing_else(self):
        for said in (self.make("help"), self.make("help", f"NIT_C={self.library}")):
            self.assertIn("make -C embed uninstall", said)

    def test_a_release_has_the_archive_in_lib(self):
        (self.embed / "lib").mkdir()
        archive = (self.embed / "out/libnitpicker.a").replace(self.embed / "lib/libnitpicker.a")
        for path in (PATH, self.toolchain()):
            self.make("clean")
            self.make("install", f"PREFIX={self.top}/a", path=path)
            self.assertEqual((self.top / "a/lib/libnitpicker.a").read_bytes(),
                             archive.read_bytes())
        self.assertFalse((self.top / "done").exists())


class Building(Case):
    """What is built anew after a change, by a toolchain that is a stand-in."""

    def setUp(self):
        super().setUp()
        stand_ins.copied(self.top, TOP / "bin")
        self.write("crates.txt", CRATES)
        for line in CRATES.splitlines()[1:]:
            self.write(f"crates/{line.split(':')[0].split()[0]}/src/lib.rt", line)
        self.path = self.toolchain()
        self.make(path=self.path)
        self.assertEqual(self.done(), ["nit_c"])

    def write(self, name, text):
        (self.top / name).parent.mkdir(parents=True, exist_ok=True)
        (self.top / name).write_text(text)

    def done(self):
        """The crates that were built since this was asked last."""
        if not (self.top / "done").exists():
            return []
        text = (self.top / "done").read_text()
        (self.top / "done").unlink()
        return text.split()

    def test_only_what_nit_c_stands_on_counts(self):
        for name in ("apart/src/lib.rt", "apart/src/more.rt", "low/must-fail/x.edit",
                     "low/out/rlib/x", "new/src/lib.rt"):
            self.write(f"crates/{name}", "another text")
            self.make(path=self.path)
            self.assertEqual(self.done(), [], name)
        for name in ("low/src/lib.rt", "low/specs/Lib.antt", "middle/proofs/deep/x.antt",
                     "nit_c/src/lib.rt", "../crates.txt"):
            self.write(f"crates/{name}", CRATES + "# another text\n")
            for wanted in (["nit_c"], []):
                self.make(path=self.path)
                self.assertEqual(self.done(), wanted, name)
        (self.top / "crates/low/specs/Lib.antt").unlink()
        self.make(path=self.path)
        self.assertEqual(self.done(), ["nit_c"])

    def test_a_crate_that_comes_below_counts_from_then_on(self):
        self.write("crates.txt", CRATES.replace("low slab", "low apart"))
        self.make(path=self.path)
        self.write("crates/apart/src/lib.rt", "another text")
        self.assertEqual(self.done(), ["nit_c"])
        self.make(path=self.path)
        self.assertEqual(self.done(), ["nit_c"])

    def test_another_archive_of_nit_c_is_linked_anew(self):
        before = (self.embed / "out/libnitpicker.a").read_bytes()
        self.library = stand_ins.plain_library(self.top, self.embed)
        self.toolchain()
        self.write("crates/low/src/lib.rt", "another text")
        self.make(path=self.path)
        self.assertNotEqual((self.embed / "out/libnitpicker.a").read_bytes(), before)

    def test_what_is_not_proved_is_not_built(self):
        self.write("crates/low/src/lib.rt", "wrong")
        for _ in range(2):
            self.refused("Error 1", "install", f"PREFIX={self.top}/a", path=self.path)
            self.assertEqual(self.done(), ["nit_c"])
        self.assertFalse((self.top / "a").exists())
        self.write("crates/low/src/lib.rt", "right")
        self.make(path=self.path)

    def test_a_source_that_changes_meanwhile_is_found(self):
        self.write("crates/nit_c/src/lib.rt", "late")
        self.refused("a source has changed while the library was built", path=self.path)
        self.write("crates/nit_c/src/lib.rt", "right")
        self.make(path=self.path)

    def test_without_a_toolchain_what_is_built_is_taken(self):
        self.write("crates/low/src/lib.rt", "another text")
        self.make("install", f"PREFIX={self.top}/a")
        self.assertEqual(self.done(), [])
        self.make("clean")
        for words in ([], ["install"], [f"NIT_C={self.library}"]):
            self.refused("no out/libnitpicker.a: put rt on the path", *words)


def main(words):
    if words:
        raise runs.WrongWords("it takes no words")
    load = unittest.defaultTestLoader.loadTestsFromTestCase
    cases = unittest.TestSuite(load(kind) for kind in (Installing, Building))
    return 0 if unittest.TextTestRunner(sys.stdout).run(cases).wasSuccessful() else 1


if __name__ == "__main__":
    runs.command(main, __doc__)

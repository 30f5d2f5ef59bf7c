"""A small repository with the starter of this one, for its tests: `rt` and the program in it are
stand-ins, which write down what they are asked for."""
import os
import shlex
import shutil
import subprocess
import sys
import tempfile
import time
import unittest
from pathlib import Path

TOP = Path(__file__).resolve().parent.parent
# The starter that is tried.
BIN = TOP / "bin"
TOOLCHAIN = "stand-in-kit logic 1"
CRATES = """# Each crate, and what it stands on.
low:
left: low
right may_wait=2: low slab
deep: left
apart:
nitpicker may_wait=1: deep right apart
tests: nitpicker
"""
# It asks that the libraries below a crate are there, as built from what stands in its sources. A
# line with its begin and one with its end go into the log of what was done.
RT = f"""#!{sys.executable}
import os, shutil, sys, time
from pathlib import Path

def built_from(folder):
    below = [built_from(folder.parent / name) for name in uses[folder.name] if name in uses]
    return "".join([*below, *sorted(it.read_text() for it in (folder / "src").iterdir())])

def library(folder):
    return folder / "out" / "rlib" / (folder.name + ".rlib")

def note(text):
    with open(os.environ["STAND_IN_LOG"], "a") as log:
        log.write(text + "\\n")

if sys.argv[1:] == ["version"]:
    sys.exit(print("{TOOLCHAIN}"))
verb, jobs, here = sys.argv[1], sys.argv[3], Path.cwd()
lines = (here.parent.parent / "crates.txt").read_text().splitlines()
uses = {{it.split(":")[0].split()[0]: it.split(":")[1].split() for it in lines if ":" in it}}
for name in uses:
    if not (here.parent / name).is_dir():
        sys.exit(f"there is no folder of {{name}}")
for name in uses[here.name]:
    below = here.parent / name
    if name in uses and (library(below) / "format").read_text() != built_from(below):
        sys.exit(f"{{name}} is not built")
text = built_from(here)
if verb == "lib" and library(here).is_dir() and (library(here) / "format").read_text() == text:
    sys.exit(0)
note(f"begin {{here.name}} {{jobs}}")
time.sleep(float(os.environ.get("STAND_IN_SECONDS", "0.1")))
if "no proof" in text:
    print("a goal is open")
    sys.exit(1)
if verb == "lib":
    shutil.rmtree(library(here).parent, ignore_errors=True)
    library(here).mkdir(parents=True)
    (library(here) / "format").write_text(text)
else:
    (here / "out").mkdir(exist_ok=True)
    shutil.copy(os.environ["STAND_IN_PROGRAM"], here / "out" / "nitpicker")
note(f"end {{here.name}}")
sys.exit(2 if verb == "run" else 0)
"""
# Behind a command stand, in one word, the words that say what it does (`doing`); other words it
# prints. A put is as the program's: a new file beside it, and a renaming. Python ignores the signal
# of `die` by itself, and the shell does as it is told.
PROGRAM = f"""#!/bin/sh
if [ "$2" = die ]; then
    echo one >"${{NITPICKER_OUT:-.}}/one.txt"
    kill -XFSZ $$
    exit 0
fi
exec {sys.executable} -S "$0.py" "$@"
"""
WORK = """import os, shlex, sys, time

def put(name, data):
    name = os.path.join(os.environ.get("NITPICKER_OUT", ""), name)
    with open(name + ".1.part", "wb") as part:
        part.write(data)
    try:
        os.rename(name + ".1.part", name)
    except OSError:
        os.remove(name + ".1.part")
        print("nitpicker: a write fault")
        sys.exit(4)

texts = shlex.split(sys.argv[2]) if sys.argv[1:2] == ["turns"] and len(sys.argv) == 3 else []
words = [os.fsencode(word) for word in texts]
if words[:1] == [b"join"]:
    data = b"".join(open(name, "rb").read() for name in words[2:])
    put(texts[1], data)
elif words[:1] == [b"tell"]:
    for number in range(int(texts[2])):
        put(f"{number}.ppm", b"P6")
    print("nitpicker: " + texts[1])
    sys.exit(int(texts[3]))
elif words[:1] == [b"half"]:
    put("one.txt", b"one")
    sys.exit(4)
elif words[:1] == [b"hang"]:
    put("one.txt", b"one")
    print("hangs", os.getpid(), flush=True)
    time.sleep(60)
elif words[:1] == [b"many"]:
    for number in range(400):
        put(f"{number}.txt", words[1])
    print("put", flush=True)
    while not os.path.exists(words[2]):
        time.sleep(0.001)
elif words[:1] == [b"read"]:
    print("nitpicker: " + open(words[1]).read().strip())
elif words[:1] == [b"known"]:
    print(os.environb.get(words[1], b"nothing").decode())
else:
    print([os.fsencode(word) for word in sys.argv[1:]])
    sys.exit(7)
"""


# Words with which it prints them.
ANY = ("gen", "1")


def doing(*words):
    """The words of a command with which the stand-in does what these words say."""
    return "turns", shlex.join(map(str, words))


class Repository:
    """The small repository in a folder, its stand-ins, and what is started in it."""

    def __init__(self, folder, program=None):
        self.folder, self.log = Path(folder, "repository"), Path(folder, "log")
        self.tools, self.program = Path(folder, "tools"), Path(folder, "program")
        self.log.write_text("")
        self.tools.mkdir()
        self.write("README.md", f"It wants {TOOLCHAIN.replace(' logic', ', logic')}.\n")
        self.write("crates.txt", CRATES)
        self.write(".gitignore", "crates/*/out/\n/out/\n__pycache__/\n")
        for line in CRATES.splitlines()[1:]:
            self.write(f"crates/{line.split(':')[0].split()[0]}/src/lib.rt", f"{line}\n")
        shutil.copytree(BIN, self.folder / "bin",
                        ignore=shutil.ignore_patterns("__pycache__"))
        executable(self.tools / "rt", RT)
        executable(self.program, PROGRAM)
        executable(self.folder / "crates/nitpicker/out/nitpicker.py", WORK)
        self.environment = {**os.environ, "PATH": f"{self.tools}:{os.environ['PATH']}",
                            "STAND_IN_LOG": str(self.log),
                            "STAND_IN_PROGRAM": str(program or self.program)}
        self.environment.pop("GLIBC_TUNABLES", None)
        self.started = []

    def write(self, name, text):
        path = self.folder / name
        path.parent.mkdir(parents=True, exist_ok=True)
        path.write_text(text)

    def command(self, words):
        return [self.folder / "bin" / "nitpicker", *words]

    def run(self, *words, here=None, **more):
        """How `bin/nitpicker` ended with these words, in bytes."""
        environment = {**self.environment, **more}
        return subprocess.run(self.command(words), cwd=here or self.folder, env=environment,
                              stdin=subprocess.DEVNULL, capture_output=True, timeout=300,
                              check=False)

    def begin(self, *words, here=None, **more):
        """Starts it, and does not wait for its end."""
        environment = {**self.environment, **more}
        started = subprocess.Popen(self.command(words), cwd=here or self.folder, env=environment,
                                   stdin=subprocess.DEVNULL, stdout=subprocess.PIPE,
                                   stderr=subprocess.PIPE)
        self.started.append(started)
        return started

    def end_all(self):
        """Ends what was started and goes on."""
        for it in self.started:
            it.kill()
            it.wait()

    def done(self):
        """What `rt` did since this was asked last, a line each."""
        lines = self.log.read_text().splitlines()
        self.log.write_text("")
        return lines


def executable(path, text):
    path.parent.mkdir(parents=True, exist_ok=True)
    path.write_text(text)
    path.chmod(0o755)


def ends(condition):
    """Whether something comes about in five minutes."""
    last = time.monotonic() + 300
    while not condition() and time.monotonic() < last:
        time.sleep(0.02)
    return condition()


class Case(unittest.TestCase):
    """A case has a repository in a folder that goes with it."""

    is_built = True

    def setUp(self):
        folder = tempfile.TemporaryDirectory(prefix="starter-")
        self.addCleanup(folder.cleanup)
        self.top = Path(folder.name).resolve()
        self.repository = Repository(self.top)
        self.addCleanup(self.repository.end_all)
        self.run_it = self.repository.run
        if self.is_built:
            self.assertEqual(self.run_it(*ANY, STAND_IN_SECONDS="0").returncode, 7)

    def said(self, ended):
        return ended.stderr.decode()


def try_all(kinds):
    """Tries all cases of these kinds, and answers the status."""
    load = unittest.defaultTestLoader.loadTestsFromTestCase
    cases = unittest.TestSuite(load(kind) for kind in kinds)
    return 0 if unittest.TextTestRunner(sys.stdout).run(cases).wasSuccessful() else 1

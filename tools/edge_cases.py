"""What `tools/edges --selftest` tries: on small repositories in which all that is started is a
stand-in, on checks that end in each way, and on machines that lack what is needed."""
import os
import shutil
import signal
import subprocess
import sys
import time
import unittest
from pathlib import Path
from tempfile import TemporaryDirectory
from unittest import mock

import edge_lanes
import machine_needs
import runs
from edge_lanes import FAILED, NOT_RUN, PASSED, Check, Lanes, Outcome
from machine_needs import Machine
from stand_ins import copied, executable
from starter_stand_ins import try_all

CRATES = """# Each crate, and what it stands on.
low:
middle: low slab
apart: low
nit_c staticlib: middle core
"""
# A toolchain whose gate says what the file `gate` has, and ends as the file `status` says.
RT = """#!/bin/sh
case $1 in
    version) echo "stand-in-kit logic 1" ;;
    doc) echo "{top}/kit/START-HERE.md" ;;
    ci) cat "{top}/gate"; exit "$(cat "{top}/status")" ;;
esac
"""
# Its build, which notes its words.
RATTLE = """#!/bin/sh
echo "$PWD $*" >"{top}/built"
while [ "$1" != -o ]; do shift; done
echo archive >"$2"
"""
# What stands in for embed, an example and the tests of tools. A check fails whose name stands in
# the file `wrong`. Each notes its begin and its end.
NOTED = "@echo begin {0} >>{1}/done; sleep 0.2; echo end {0} >>{1}/done; ! grep -qx {0} {1}/wrong"
EMBED = f"""library:
	@cat $(NIT_C) >library
check: check-answers check-endless
check-answers: library
	{NOTED.format("embed/answers", "..")}
check-endless:
	{NOTED.format("embed/endless", "..")}
"""
WINDOW = f"""check:
	@cat ../../embed/library; echo cases $(CASES)
	{NOTED.format("examples/window", "../..")}
"""
CASES = """def case_one(screen):
    pass
def case_flood(screen):
    pass
def case_two(screen):
    pass
"""
SELFTEST = """import sys
assert sys.argv[1] == "--program" and open(sys.argv[2]).read() == "a program"
is_wrong = f"tools/{sys.argv[3]}" in open("wrong").read().split()
sys.exit("\\n".join(map(str, range(100))) if is_wrong else 0)
"""
# A check that goes on until it is ended.
INTERRUPTED = """import runs, edge_lanes, signal, sys
from pathlib import Path
signal.signal(signal.SIGINT, signal.default_int_handler)
check = edge_lanes.Check("endless", ["sh", "-c", "echo $$ >number; exec sleep 60"])
edge_lanes.Lanes(Path(sys.argv[1]), Path(sys.argv[1]), 60, print).all_of([check], {})
"""
GATE = "rt: low proved\n7 passed, 0 failed\n"
CHECKS = ["archive", "tools/edges", "tools/embed", "tools/selftest", "embed/answers",
          "embed/endless", "examples/window", "python"]


def is_alive(number):
    """Whether a process is there, and is not over."""
    try:
        return Path(f"/proc/{number}/stat").read_text().rpartition(")")[2].split()[0] != "Z"
    except OSError:
        return False


def is_over(path):
    """Whether the process that a file names is over, or is so within some seconds."""
    last = time.monotonic() + 5
    while is_alive(int(path.read_text())) and time.monotonic() < last:
        time.sleep(0.02)
    return not is_alive(int(path.read_text()))


class Behind(unittest.TestCase):
    """`.ci/run` of a small repository: the gate, and the checks behind it."""

    def setUp(self):
        folder = TemporaryDirectory(prefix="edges-")
        self.addCleanup(folder.cleanup)
        self.top = Path(folder.name).resolve()
        copied(self.top, runs.TOP / "bin")
        self.write("crates.txt", CRATES)
        for name in ("low", "middle"):
            self.write(f"crates/{name}/out/rlib/{name}.rlib/format", name)
        self.write("crates/nit_c/src/lib.rt", "nit_c")
        self.write("crates/nitpicker/out/nitpicker", "a program")
        (self.top / "crates/nitpicker/out/nitpicker").chmod(0o755)
        for name, text in {"wrong": "", "status": "0", "gate": GATE, "embed/Makefile": EMBED,
                           "examples/window/Makefile": WINDOW, "tools/selftest": SELFTEST,
                           "examples/window/tests/cases.py": CASES}.items():
            self.write(name, text)
        self.put_tools()

    def put_tools(self):
        """The tool itself, and on the path a toolchain and what else checks need."""
        for path in [runs.TOP / "tools/edges", runs.TOP / "tools/runs.py",
                     *runs.TOP.glob("tools/*edge*.py"), *runs.TOP.glob("tools/*gate*.py"),
                     runs.TOP / "tools/machine_needs.py"]:
            shutil.copy(path, self.top / "tools")
        for name in ("path", "kit/bin"):
            (self.top / name).mkdir(parents=True)
        executable(self.top / "path/rt", RT.format(top=self.top))
        executable(self.top / "kit/bin/rattle", RATTLE.format(top=self.top))
        for name in ("pkg-config", "Xvfb", "xdotool", "import"):
            executable(self.top / "path" / name, "#!/bin/sh\n")
        self.path = f"{self.top}/path:{os.environ['PATH']}"

    def write(self, name, text):
        (self.top / name).parent.mkdir(parents=True, exist_ok=True)
        (self.top / name).write_text(text)

    def ci(self, *words):
        """How the gate and the checks behind it end, as `.ci/run` has them."""
        gate = '{ rt ci; echo "rt ci: status $?"; } | tools/edges --gate "$@"'
        return subprocess.run(["sh", "-c", gate, "run", *words], cwd=self.top, text=True,
                              capture_output=True, check=False, env=os.environ | {
                                  "PATH": self.path, "HOME": str(self.top), "MAKEFLAGS": "n"})

    def ended(self, status, last, *words):
        """What is said where it ends with this status and this last line."""
        ended = self.ci(*words)
        self.assertEqual((ended.returncode, ended.stdout.rpartition("\n")[0].split("\n")[-1]),
                         (status, last), ended.stdout + ended.stderr)
        self.assertTrue(ended.stdout.startswith((self.top / "gate").read_text()))
        return ended.stdout

    def test_gate_and_checks_count_together(self):
        said = self.ended(0, f"{7 + len(CHECKS)} passed, 0 failed")
        for name in CHECKS:
            self.assertRegex(said, f"\nedges: {name}: passed, \\d+ s\n")
        self.assertEqual((self.top / "embed/library").read_text(), "archive\n")
        self.assertIn("\narchive\ncases one two\n",
                      (self.top / "out/edges/examples-window.log").read_text())

    def test_a_check_that_fails_is_named_with_its_last_lines(self):
        self.write("wrong", "tools/embed\nexamples/window\n")
        said = self.ended(1, f"{5 + len(CHECKS)} passed, 2 failed")
        self.assertRegex(said, r"edges: tools/embed: FAILED, \d+ s: status 1; \S+/tools-embed.log "
                               r"ends:\n75\n(\d\d\n){23}99\n")
        self.assertIn("edges: examples/window: FAILED", said)

    def test_behind_a_gate_that_failed_no_check_is_made(self):
        for gate, status, last in (
                ("6 passed, 2 failed\n", 1, "6 passed, 2 failed"),
                (GATE, 137, "7 passed, 1 failed"),
                ("rt: low proved\n", 0, "0 passed, 1 failed"), ("", 0, "0 passed, 1 failed"),
                ("0 passed, 0 failed\n", 0, "0 passed, 1 failed")):
            self.write("gate", gate)
            self.write("status", str(status))
            self.assertIn("no check is made, as the gate has failed", self.ended(1, last))
        self.assertFalse((self.top / "done").exists())

    def test_a_gate_that_says_no_status_has_failed(self):
        executable(self.top / "path/rt", f"#!/bin/sh\ncat '{self.top}/gate'\nkill -9 $PPID\n")
        self.ended(1, "7 passed, 1 failed")

    def test_the_library_is_built_over_what_the_gate_has_built(self):
        self.ended(0, "8 passed, 0 failed", "archive")
        folder, *words = (self.top / "built").read_text().split()
        self.assertEqual(folder, f"{self.top}/crates/nit_c")
        low, middle = (f"{self.top}/crates/{name}/out/rlib" for name in ("low", "middle"))
        for told, wanted in (
                ("--extern", [f"{name}={self.top}/kit/rlibs/{name}.rlib" for name in
                              ("std", "core")] + [f"middle={middle}/middle.rlib"]),
                ("-L", [f"dependency={it}" for it in (f"{self.top}/kit/rlibs", low, middle)]),
                ("--crate-type", ["staticlib"])):
            self.assertEqual([word for before, word in zip(words, words[1:]) if before == told],
                             wanted)
        shutil.rmtree(self.top / "crates/low/out")
        said = self.ended(1, "7 passed, 3 failed", "embed")
        self.assertIn("not built by rt ci: low", said)
        self.assertIn("embed/answers: FAILED: for archive", said)

    def test_what_measures_time_is_made_alone_and_last(self):
        self.ended(0, f"{7 + len(CHECKS)} passed, 0 failed")
        done = (self.top / "done").read_text().split("\n")
        self.assertEqual(done[-5:], [*(f"{what} {name}" for name in CHECKS[5:7]
                                       for what in ("begin", "end")), ""])

    def test_words(self):
        listed = subprocess.run([self.top / "tools/edges", "--list"], text=True, check=True,
                                capture_output=True).stdout
        self.assertEqual(listed.split(), CHECKS)
        self.ended(0, "10 passed, 0 failed", "embed")
        self.ended(0, "9 passed, 0 failed", "examples/window")
        ended = self.ci("no-such-check")
        self.assertEqual(ended.returncode, 2)
        self.assertIn("no such check: no-such-check", ended.stderr)


class Ends(unittest.TestCase):
    """Checks that end in each way."""

    def setUp(self):
        folder = TemporaryDirectory(prefix="edges-")
        self.addCleanup(folder.cleanup)
        self.top, self.told = Path(folder.name), {}

    def made(self, *checks, seconds=60):
        def tell(check, outcome):
            self.told[check.name] = outcome
        found = Lanes(self.top, self.top, seconds, tell).all_of(checks, {})
        self.assertEqual(found, self.told)
        return found

    def test_one_that_is_late_is_ended_with_all_that_it_has_started(self):
        begun = time.monotonic()
        with mock.patch.object(edge_lanes, "ENDING", 0.2):
            found = self.made(Check("late", ["sh", "-c", "trap '' TERM; sleep 60 & echo $! >number;"
                                                         " echo said; wait; sleep 60"], 1))
        self.assertLess(time.monotonic() - begun, 20)
        self.assertEqual(found["late"].kind, FAILED)
        self.assertRegex(found["late"].told, "^it had not ended after 1 s; .*ends:\nsaid$")
        self.assertTrue(is_over(self.top / "number"))

    def test_what_a_check_leaves_behind_is_ended(self):
        found = self.made(Check("left", ["sh", "-c", "sleep 60 & echo $! >number"]))
        self.assertEqual(found["left"].kind, PASSED)
        self.assertTrue(is_over(self.top / "number"))

    def test_when_the_time_for_all_is_over_the_others_have_failed(self):
        found = self.made(Check("first", ["sleep", "60"], is_alone=True),
                          Check("second", ["touch", "second"], is_alone=True), seconds=1)
        self.assertEqual([it.kind for it in found.values()], [FAILED, FAILED])
        self.assertFalse((self.top / "second").exists())

    def test_what_cannot_be_started_and_what_dies_has_failed(self):
        found = self.made(Check("absent", ["./absent"]), Check("dead", ["sh", "-c", "kill -9 $$"]),
                          Check("over", ["true"], over="dead"), Check("good", ["true"]))
        self.assertEqual({name: it.kind for name, it in found.items()}, {
            "absent": FAILED, "dead": FAILED, "over": FAILED, "good": PASSED})
        self.assertIn("./absent: No such file or directory", found["absent"].told)

    def test_what_waits_for_one_that_cannot_be_made_is_not_made(self):
        lack = Outcome(NOT_RUN, 0, "no cc")
        lanes = Lanes(self.top, self.top, 60, lambda check, outcome: None)
        found = lanes.all_of([Check("over", ["true"], over="lacking")], {"lacking": lack})
        self.assertEqual([it.kind for it in found.values()], [NOT_RUN, NOT_RUN])

    def test_what_measures_time_has_a_second_try(self):
        words = ["sh", "-c", "echo >>$0; test $(wc -l <$0) -ge $1"]
        found = self.made(*(Check(f"{name} {number}", [*words, f"{name} {number}", str(number)],
                                  looks_at_time=name == "timed")
                            for name in ("timed", "other") for number in (1, 2, 3)))
        self.assertEqual(sorted(name for name, it in found.items() if it.kind == PASSED),
                         ["other 1", "timed 1", "timed 2"])
        self.assertIn("at the second try", found["timed 2"].told)

    def ended_by(self, number):
        """The status of a run that gets a signal, and what it says, when what it has begun is
        over."""
        path = self.top / "number"
        path.unlink(missing_ok=True)
        with subprocess.Popen([sys.executable, "-c", INTERRUPTED, self.top], text=True,
                              stderr=subprocess.PIPE, cwd=runs.TOP / "tools") as started:
            while not path.exists() or not path.read_text():
                time.sleep(0.02)
            started.send_signal(number)
            said = started.communicate(timeout=30)[1]
        self.assertTrue(is_over(path))
        return started.returncode, said

    def test_a_signal_ends_all_that_runs(self):
        self.assertEqual(self.ended_by(signal.SIGTERM), (143, ""))
        self.assertEqual(self.ended_by(signal.SIGHUP), (129, ""))
        self.assertIn("KeyboardInterrupt", self.ended_by(signal.SIGINT)[1])


class Lacks(unittest.TestCase):
    """Machines that lack what a check needs."""

    def setUp(self):
        folder = TemporaryDirectory(prefix="edges-")
        self.addCleanup(folder.cleanup)
        self.top = Path(folder.name)
        self.there = self.top / "there"
        self.apt(f'case "$*" in *install*one*two*) touch {self.there} ;; esac')

    def apt(self, text):
        executable(self.top / "apt-get", f'#!/bin/sh\necho "$*" >>{self.top}/asked\n{text}\n')

    def lack(self, packages="one two", installs=True, user=0, path=None):
        """What comes of two checks that need a file."""
        machine = Machine({"thing": (f"test -e {self.there}", packages)}, installs)
        with mock.patch.dict(os.environ, PATH=path or f"{self.top}:{os.environ['PATH']}"), \
                mock.patch.object(machine_needs.os, "geteuid", lambda: user):
            lacks = [machine.lack_of(Check(name, [], needs=("thing",))) for name in "ab"]
        self.assertEqual(lacks[0], lacks[1])
        return lacks[0]

    def asked(self):
        return (self.top / "asked").read_text() if (self.top / "asked").exists() else ""

    def test_what_is_there_is_not_asked_for(self):
        self.there.touch()
        self.assertIsNone(self.lack())
        self.assertEqual(self.asked(), "")

    def test_what_apt_get_brings_is_there(self):
        self.assertIsNone(self.lack())
        self.assertEqual(self.asked().count("install -y"), 1)

    def test_what_apt_get_cannot_bring_is_no_fault(self):
        self.apt('echo "E: Unable to locate package one"; exit 100')
        lack = self.lack()
        self.assertEqual((lack.kind, lack.told), (
            NOT_RUN, "thing is not there, and apt-get does not bring one two: status 100: "
                     "E: Unable to locate package one"))
        self.apt("exec sleep 60")
        for seconds, has in ((2, "it had not ended after"), (0.2, "its 0.2 s are over")):
            with mock.patch.multiple(machine_needs, SECONDS=seconds, OF_LISTS=0.3):
                lack = self.lack()
                self.assertEqual(lack.kind, NOT_RUN)
                self.assertIn(has, lack.told)

    def test_what_cannot_be_brought_is_no_fault(self):
        self.assertEqual(self.lack(packages="").kind, NOT_RUN)
        sh = self.top / "sh"
        sh.mkdir()
        (sh / "sh").symlink_to(shutil.which("sh"))
        self.assertEqual(self.lack(path=str(sh)).kind, NOT_RUN)
        self.assertEqual(self.asked(), "")

    def test_what_could_be_brought_and_is_not_asked_for_is_a_fault(self):
        for more in ({"installs": False}, {"user": 1000}):
            self.assertEqual(self.lack(**more).kind, FAILED)
        self.assertEqual(self.asked(), "")

    def test_a_package_without_what_is_needed_is_a_fault(self):
        self.apt("true")
        self.assertEqual(self.lack().kind, FAILED)


def selftest():
    return try_all((Behind, Ends, Lacks))

"""Slips of the fingers in the tools: words with which nothing runs, and Ctrl-C."""
import contextlib
import os
import resource
import signal
import subprocess
import time

import older_pythons
import runs
import stand_ins

SECONDS = 300
# What an answer may take that needs no program, of a processor: others may be at work too.
QUICK = 1.0
# A program that tells in a file that it has begun, and goes on until it gets a signal.
ENDLESS = "#!/bin/sh\necho begun >>{}\nexec sleep 600\n"
# Words with which a tool works for a while: over such a program, and without one.
PROGRAM = "program"
OVER_PROGRAM = {
    "bench": [PROGRAM], "beside": [PROGRAM], "broken": [PROGRAM], "clips-and-nests": [PROGRAM],
    "disk": [PROGRAM], "explain": ["--compare", "9", PROGRAM], "floods": [PROGRAM],
    "fuzz": [PROGRAM], "refuse-memory": [PROGRAM], "refuse-threads": [PROGRAM],
    "run-examples": [PROGRAM], "selftest": ["--program", PROGRAM, "fuzz"],
    "show": ["-C", str(runs.TOP / "examples" / "two"), "--program", PROGRAM, "turns", "two.toml"],
}
# Words that a tool refuses before it builds bin/nitpicker, which STARTER stands for.
STARTER = str(runs.TOP / "bin" / "nitpicker")
WRONG = {
    "bench": [[], ["--only", "no such row", STARTER], [STARTER] * 3],
    "beside": [[STARTER, "no-such-row"]], "broken": [[STARTER] * 2],
    "clips-and-nests": [["--runs", "0"], ["--seed", "x"], [STARTER] * 2],
    "disk": [[STARTER, "no-such-row"]], "edges": [["no-such-check"], ["tools/no-such-tool"]],
    "explain": [["--compare", "x"]],
    "floods": [[STARTER, "no-such-row"]], "fuzz": [["--runs", "0"], [STARTER] * 2],
    "refuse-memory": [[STARTER, "no-such-row"]], "refuse-threads": [[STARTER] * 2],
    "run-examples": [[STARTER, "no-such-example"]], "selftest": [["no-such-tool"]],
    "show": [[], ["foo"], ["turns"]], "test-starter": [["NoSuchCase"]],
    "verify": [["--program", STARTER], ["--program", STARTER, "turns", "none.toml", "."]],
}
ALONE = {"believe": [], "claims": [], "json-lines": ["-"], "links": [],
         "release": ["--selftest"], "test-starter": ["Words"], "verify": ["--selftest"]}


def begun(tool, words, **more):
    """A tool that was just started, as on a terminal of its own, with more in its environment."""
    return subprocess.Popen([tool, *map(str, words)], text=True, start_new_session=True,
                            env=os.environ | more,
                            stdin=subprocess.PIPE, stdout=subprocess.PIPE, stderr=subprocess.PIPE,
                            preexec_fn=lambda: signal.signal(signal.SIGINT, signal.SIG_DFL))


def until_imported(started, module):
    """Waits until a tool, which tells of its imports on standard error, has this module. Answers
    what it said so long."""
    told = [started.stderr.readline()]
    while told[-1] and not told[-1].endswith(f" {module}\n"):
        told.append(started.stderr.readline())
    return "".join(told)


def wait_for(log):
    last = time.monotonic() + SECONDS
    while not log.exists() and time.monotonic() < last:
        time.sleep(0.02)
    return ""


def faults_of_interrupt(tool, words, log=None, module="runs", seconds=0.2):
    """What is wrong with how a tool ends that gets Ctrl-C so long after it has imported a module,
    or where there is a log, after that has something. Without one it may be over before."""
    with begun(tool, words, **({} if log else {"PYTHONPROFILEIMPORTTIME": "1"})) as started:
        told = wait_for(log) if log else until_imported(started, module)
        time.sleep(seconds)
        with contextlib.suppress(ProcessLookupError):
            os.killpg(started.pid, signal.SIGINT)
        said, rest = started.communicate(timeout=SECONDS)
    is_right = started.returncode in (130, -signal.SIGINT) or log is None and not started.returncode
    if "Traceback" in told + rest or not is_right:
        yield f"{tool} {words}: after Ctrl-C status {started.returncode}, said {said}{rest[-600:]}"


def spent():
    """The seconds of a processor that ended children have taken."""
    used = resource.getrusage(resource.RUSAGE_CHILDREN)
    return used.ru_utime + used.ru_stime


def endless(kit, name):
    """A program that never ends, and the log in which it tells that it has begun."""
    log = kit.top / f"begun-{name}"
    return stand_ins.executable(kit.top / f"endless-{name}", ENDLESS.format(log)), log


def faults_at_once(kit, tool, row, folder):
    """That words are refused as a row says, and at once."""
    words, status, has = row
    before = spent()
    yield from kit.faults(tool, words, status, has, folder=folder)
    if spent() - before > QUICK:
        yield f"tools/{tool} {words}: over {QUICK} s"


def try_show(kit):
    program, log = endless(kit, "show")
    with_it, folder = ["--program", program], runs.TOP / "examples" / "two"
    for words, status, has in (
            (["foo"], 2, "`foo` is no command; --help lists the commands"),
            (["trun", "two.toml"], 2, "perhaps `run` or `turns`"), ([], 2, "usage: tools/show"),
            (["turns"], 2, "takes 1 word, and none is given"), (["still", "0", "4", "a"], 2, "W"),
            (["turns", "none.toml"], 1, "none.toml: it cannot be read; tools/explain turns"),
            (["turns", "two.in"], 1, "would end with status 5: two.in: bad configuration: syntax"),
            (["--out", "/none/x.html", "turns", "two.toml"], 1, "no file can be put there")):
        yield from faults_at_once(kit, "show", ([*with_it, *words], status, has), folder)
    if log.exists():
        yield "tools/show: words with which nothing runs start the program"


def try_claims(kit):
    yield from kit.faults("claims", ["no-such-function"], 1, "nothing is found of no-such-function")
    yield from kit.faults("claims", [""], 2, "an empty word")
    yield from kit.faults("claims", ["--fields", "Answer"], 0, "2 exactly where the words are no")
    yield from kit.faults("claims", ["--fields", "no_such_record"], 1, "found of no_such_record")
    yield from kit.faults("claims", ["--fields", "--clauses"], 2, "--fields of records")


def faults_of_failed_build(kit, tool):
    """A tool that is to build the program ends where that fails, without a usage."""
    top = kit.top / "unbuilt"
    runs.write_files(top, {"crates/nitpicker": None,
                           "bin/building.py": b"import sys\nsys.exit('no build')\n"})
    ended = kit.run(tool, top / "bin" / "nitpicker")
    if (ended.returncode, ended.stdout, ended.stderr) != (1, "", "no build\n"):
        yield f"tools/{tool}: after a failed build status {ended.returncode}, said {ended.stderr}"


def faults_of_interrupted_build(kit, tool):
    """A tool that builds the program waits at Ctrl-C until the build has put its work away."""
    top, log, away = kit.top / "interrupted", kit.top / "building", kit.top / "put-away"
    building = (f"import signal, sys, time\n\ndef end(*_):\n    time.sleep(1)\n"
                f"    open({str(away)!r}, 'w').close()\n    sys.exit(130)\n\n"
                f"signal.signal(signal.SIGINT, end)\nopen({str(log)!r}, 'w').close()\n"
                "time.sleep(600)\n")
    runs.write_files(top, {"crates/nitpicker": None, "bin/building.py": building.encode()})
    with begun(kit.tools / tool, [top / "bin" / "nitpicker"]) as started:
        wait_for(log)
        os.killpg(started.pid, signal.SIGINT)
        status = started.wait(timeout=SECONDS)
        if status not in (130, -signal.SIGINT) or not away.exists():
            yield f"tools/{tool}: status {status}, and Ctrl-C ends it before the build it began"
        rest = started.communicate(timeout=SECONDS)[1]
    if "Traceback" in rest:
        yield f"tools/{tool}: after Ctrl-C in a build it says {rest[-600:]}"


def faults_of_wrong_words(kit, tool, unknown):
    """That words which a tool does not know have status 2, at once, and ask for no build."""
    log = kit.top / f"asked-{tool}"
    folder = kit.top / f"path-{tool}"
    folder.mkdir()
    stand_ins.executable(folder / "rt", f"#!/bin/sh\necho asked >>{log}\nexit 1\n")
    path = f"{folder}:{os.environ['PATH']}"
    for words in [[unknown], *WRONG.get(tool, [])]:
        before = spent()
        yield from kit.faults(tool, words, 2, PATH=path)
        if log.exists() or spent() - before > QUICK:
            yield f"tools/{tool} {words}: a build is begun, or it takes over {QUICK} s"


def interrupt_faults(kit, tool):
    """What is wrong with how a tool ends that gets Ctrl-C while it begins, and while it works."""
    path = kit.tools / tool
    if path.read_bytes().startswith(b"#!/usr/bin/env python3"):
        yield from older_pythons.late_faults(path)
        yield from faults_of_interrupt(path, ["--help"], module="interpreter", seconds=0)
    if tool in ALONE:
        yield from faults_of_interrupt(path, ALONE[tool])
    if tool in OVER_PROGRAM:
        program, log = endless(kit, "interrupt")
        words = [program if word == PROGRAM else word for word in OVER_PROGRAM[tool]]
        yield from faults_of_interrupt(path, words, log)


# What is tried of a tool beside its own test.
CASES = {"claims": try_claims, "show": try_show}

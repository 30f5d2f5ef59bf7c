"""Pythons that are too old for what is started here: those that this machine has, and its own one,
which says that it is older than it is."""
import ast
import shutil
import subprocess
import sys
from pathlib import Path

from interpreter import LEAST

# What an older one has to be able to read, so that it comes to say that it is too old.
READS = (3, 6)
# What looks at the Python.
LOOKS = ("interpreter", "runs")
# Starts what stands behind it by a Python that says that it is the one before the least.
FAKED = f"""import runpy, sys
sys.argv, sys.version_info = sys.argv[1:], ({LEAST[0]}, {LEAST[1] - 1}, 0, "final", 0)
sys.path[0] = sys.argv[0].rpartition("/")[0]
runpy.run_path(sys.argv[0], run_name="__main__")
"""


def version_of(python):
    """The version of a Python, or none where it does not start."""
    asked = "import sys; print(*sys.version_info[:2])"
    ended = subprocess.run([python, "-c", asked], capture_output=True, text=True, check=False)
    return tuple(map(int, ended.stdout.split())) if ended.returncode == 0 else None


def found():
    """Those that are there."""
    names = [shutil.which(f"python3.{number}") for number in range(READS[1], LEAST[1])]
    places = [*filter(None, names), *Path.home().glob(".pyenv/versions/3.*/bin/python3")]
    return [it for it in sorted(map(str, places)) if READS <= (version_of(it) or ()) < LEAST]


def imported(body):
    """The modules that a text imports at its top, in order."""
    for it in body:
        yield from (name.name for name in it.names) if isinstance(it, ast.Import) else \
            [it.module] if isinstance(it, ast.ImportFrom) else []


def reading_faults(path):
    """Why an older Python cannot read a file, or does not come to say that it is too old before it
    reads others of ours."""
    path = Path(path)
    try:
        body = ast.parse(path.read_text(encoding="utf8"), feature_version=READS).body
    except SyntaxError as fault:
        return [f"{path}: Python {READS[0]}.{READS[1]} cannot read it: {fault}"]
    ours = [name for name in imported(body) if name in LOOKS or
            any((path.parent / name.split(".")[0]).with_suffix(it).exists() for it in ("", ".py"))]
    is_first = bool(ours) and ours[0] in LOOKS
    return [] if is_first else [f"{path}: it does not look at the Python first"]


def late_faults(path):
    """Why Ctrl-C shows a traceback while a tool begins: something else is imported first."""
    body = ast.parse(Path(path).read_text(encoding="utf8")).body
    first = next(imported(body), None)
    return [] if first in LOOKS else [f"{path}: it begins with the import of {first}"]


def faults_of(tool):
    """What is wrong with how older Pythons take a tool."""
    refused = [refusal_faults([tool, "--help"], None, python) for python in found()]
    refused.append(refusal_faults([sys.executable, "-c", FAKED, tool, "--help"]))
    return [*reading_faults(tool), *(fault for faults in refused for fault in faults)]


def refusal_faults(words, environment=None, python=None):
    """What is wrong with how an older Python is refused that these words start."""
    ended = subprocess.run([*([python] if python else []), *words], env=environment, check=False,
                           stdin=subprocess.DEVNULL, capture_output=True, text=True)
    wanted = f"and {LEAST[0]}.{LEAST[1]} or later is wanted"
    is_one = ended.stderr.count("\n") == 1 and wanted in ended.stderr and not ended.stdout
    return [] if (ended.returncode, is_one) == (1, True) else \
        [f"{words} by {python}: status {ended.returncode}, said {ended.stdout}{ended.stderr}"]

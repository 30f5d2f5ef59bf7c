"""Each move of a word by the library, and by the plain compositor that makes the same three: the
table of `tools/bench --library --moves`."""
import os
import re
import shutil
import subprocess
import tempfile
from pathlib import Path

import runs

EMBED = runs.TOP / "embed"
PROGRAMS = {"the library": EMBED / "out" / "speed", "three moves": EMBED / "out" / "speed-kept"}
STEPS = 2
ROUNDS = 5
# The sizes, by their names in what `speed moves` says, and how many pixels each has.
SIZES = {"200 by 200": 200 * 200, "3840 by 2160": 3840 * 2160}
# A move is one work, less another one.
MOVES = {"handed in": ("handed in", None), "shown": ("handed in and shown", "handed in"),
         "copied": ("copied", None)}
# So the first cache is thought, whatever the processor has.
VALGRIND = ["valgrind", "-q", "--tool=callgrind", "--cache-sim=yes", "--I1=32768,8,64",
            "--D1=32768,8,64", "--LL=1048576,16,64", "--toggle-collect=steps_take",
            "--dump-after=steps_take"]
LINE = 64
# Where `memcpy` is one instruction for any number of bytes, each byte would count as one.
VECTORS = {"GLIBC_TUNABLES": "glibc.cpu.x86_rep_movsb_threshold=1000000000"}


class NoMoves(Exception):
    """A program that does not do the moves, and what it says in place of them."""


def lines_of(program, *words, under=(), **more):
    """What a program says of the moves, where it is run by itself or under another one."""
    ended = subprocess.run([*under, program, "moves", *words], check=False, capture_output=True,
                           text=True, env={**os.environ, **more})
    if ended.returncode != 0:
        said = (ended.stdout + ended.stderr).strip()
        raise NoMoves(f"{program.name}: status {ended.returncode}, said: {said}")
    return ended.stdout.splitlines()


def times_of(program):
    """The nanoseconds of each work."""
    lines = [line.split("\t") for line in lines_of(program)]
    return {name: float(time) for name, time in lines}


def least_times():
    """The least nanoseconds of each work, by program, in some rounds in which they run in turn."""
    rounds = [[times_of(program) for program in PROGRAMS.values()] for _ in range(ROUNDS)]
    return [{work: min(times[work] for times in of_one) for work in of_one[0]}
            for of_one in zip(*rounds)]


def counted(path):
    """What valgrind counted in one work: instructions, and the bytes of all lines that came into
    the first cache, a step."""
    text = path.read_text()
    names = re.search(r"^events: (.*)", text, re.M)[1].split()
    totals = re.search(r"^totals: (.*)", text, re.M)[1].split()
    counts = {name: int(count) for name, count in zip(names, totals)}
    lines = counts.get("D1mr", 0) + counts.get("D1mw", 0)
    return counts.get("Ir", 0) / STEPS, LINE * lines / STEPS


def counts_of(program):
    """What valgrind counted in each work. There is a file for each, in their order."""
    with tempfile.TemporaryDirectory(prefix="bench-") as folder:
        path = Path(folder) / "counts"
        valgrind = [*VALGRIND, f"--callgrind-out-file={path}"]
        works = lines_of(program, str(STEPS), under=valgrind, **VECTORS)
        return {work: counted(path.with_name(f"counts.{number}"))
                for number, work in enumerate(works, 1)}


def numbers_of(program, times):
    """The numbers of each work: nanoseconds, and instructions and bytes where there is valgrind."""
    if not shutil.which("valgrind"):
        return {work: (time,) for work, time in times.items()}
    return {work: (times[work], *numbers) for work, numbers in counts_of(program).items()}


def move_of(numbers, size, move):
    """The numbers of a move, a pixel."""
    work, less = MOVES[move]
    whole, part = numbers[f"{size} {work}"], numbers[f"{size} {less}"] if less else [0] * 3
    return [(all_of - of_part) / SIZES[size] for all_of, of_part in zip(whole, part)]


def table(numbers):
    kinds = ["ns", "instructions", "bytes"][:len(next(iter(numbers[0].values())))]
    names = [f"{name}: {kinds[0]}, {', '.join(kinds[1:])}".rstrip(", ") for name in PROGRAMS]
    yield f"| a pixel of | move | {' | '.join(names)} |"
    yield "|---|---|---|---|"
    for size in SIZES:
        for move in MOVES:
            cells = [", ".join(f"{number:.2f}" for number in move_of(each, size, move))
                     for each in numbers]
            yield f"| {size} | {move} | {' | '.join(cells)} |"


def print_moves():
    """Prints the table. Without valgrind there are times alone. No move has a limit."""
    numbers = [numbers_of(*each) for each in zip(PROGRAMS.values(), least_times())]
    print("\n".join(table(numbers)))
    return []

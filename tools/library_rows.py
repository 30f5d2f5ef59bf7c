"""Times the library for hosts beside two plain compositors: the rows of `tools/bench --library`.
One moves each word twice, the other one three times, as the library does."""
import statistics
import subprocess
import sys

import library_moves
import runs

EMBED = runs.TOP / "embed"
PROGRAMS = ["speed", "speed-plain", "speed-kept"]
# The plain compositor without and with a screen of its own, by their places there.
PLAIN, KEPT = 1, 2
ROUNDS = 5
# The two ways in which a host looks at what a work changed, as its name ends.
LOOKED, COPIED = ", and a look", ", and damage copied"
# What a row may be: so many times the time of the plain compositor with three moves, so many times
# another row's, or so many nanoseconds.
MOST_RATIO = {work + way: most for way in (LOOKED, COPIED) for work, most in (
    ("a refresh of 200 by 200", 1.3), ("a refresh of 1000 by 700", 1.3),
    ("3840 by 2160: all refreshed", 1.2))}
CORNER = "a corner refreshed, and damage copied"
CORNERS = "two corners refreshed, and damage copied"
MOST_BESIDE = {f"{size}: {CORNERS}": (f"{size}: {CORNER}", 3)
               for size in ("1920 by 1080", "3840 by 2160")}
MOST_TIME = {"a call that changes nothing": 200}
# The row of which it is told what a host takes that shows so many pictures a second.
PICTURES, PICTURE = 60, "1920 by 1080: all refreshed, and damage copied"
LIMITED = {*MOST_RATIO, *MOST_BESIDE, *MOST_TIME, PICTURE}


class NoTimes(Exception):
    """A program that does not say what is timed, and what it says in place of it."""


def times_of(program):
    """What one run says: the numbers of each work. The first one is that of nanoseconds, and the
    second one, where there is one, that of kilobytes that are resident then."""
    ended = subprocess.run([program], check=False, capture_output=True, text=True)
    lines = [line.split("\t") for line in ended.stdout.splitlines()]
    times = {line[0]: tuple(map(float, line[1:])) for line in lines if len(line) in (2, 3)}
    if ended.returncode != 0 or not LIMITED <= times.keys():
        said = (ended.stdout + ended.stderr).strip()
        raise NoTimes(f"{program.name}: status {ended.returncode}, said: {said}")
    return times


class Rows:
    """What the programs say of each work in some rounds, in which they run in turn."""

    def __init__(self, programs):
        self.rounds = [[times_of(program) for program in programs] for _ in range(ROUNDS)]
        self.works = list(self.rounds[0][0])

    def least(self, work):
        """The numbers of each program where it took least."""
        return [min(times[k][work] for times in self.rounds) for k in range(len(PROGRAMS))]

    def ratio(self, work, by):
        """Our time by another program's in one round: the median of all."""
        return statistics.median(times[0][work][0] / times[by][work][0] for times in self.rounds)

    def beside(self, work, other):
        """Our time of a work by that of another one in the same round: the median of all."""
        return statistics.median(times[0][work][0] / times[0][other][0] for times in self.rounds)


def beyond_limits(rows):
    """What takes longer than it may."""
    for work, most in MOST_RATIO.items():
        if rows.ratio(work, KEPT) > most:
            yield f"{work}: over {most} times the time of three moves"
    for work, (other, most) in MOST_BESIDE.items():
        if rows.beside(work, other) > most:
            yield f"{work}: over {most} times what one takes"
    for work, most in MOST_TIME.items():
        if rows.least(work)[0][0] > most:
            yield f"{work}: over {most} ns"


def shown(number):
    digits = 2 if number < 10 else 1 if number < 100 else 0
    return f"{number:,.{digits}f}"


def cells(rows, work):
    """What a work takes in microseconds, and each plain compositor, with our time by its own."""
    if work not in rows.works:
        return [""] * len(PROGRAMS)
    ours, *theirs = [shown(numbers[0] / 1000) for numbers in rows.least(work)]
    return [ours] + [f"{time}, {rows.ratio(work, by):.2f}" for by, time in enumerate(theirs, PLAIN)]


def work_of(name):
    """A work without the way in which what it changed is looked at."""
    return name.replace(LOOKED, "").replace(COPIED, "")


def print_tables(rows):
    """A row for each work, with a look in the one half and with copies in the other one."""
    more = "two moves: µs, ratio | three moves: µs, ratio"
    print(f"| work | by look: the library, µs | {more} | by copies: the library, µs | {more} |")
    print("|---" * 7 + "|")
    for work in dict.fromkeys(map(work_of, rows.works)):
        looked = work + LOOKED if work + LOOKED in rows.works else work
        row = [work, *cells(rows, looked), *cells(rows, work + COPIED)]
        print(f"| {' | '.join(row)} |")
    print("\n| work | the library, MB | two moves, MB | three moves, MB |\n|---|---|---|---|")
    for work in rows.works:
        if len(rows.least(work)[0]) > 1:
            sizes = [f"{numbers[1] / 1024:,.1f}" for numbers in rows.least(work)]
            print(f"| {work} | {' | '.join(sizes)} |")


def print_notes(rows):
    shares = [f"{numbers[0] * PICTURES / 1e7:.0f} %" for numbers in rows.least(PICTURE)]
    print(f"\n{PICTURES} pictures a second of {PICTURE}: {shares[0]} of a processor, over the")
    print(f"plain compositor {shares[PLAIN]} with two moves, and {shares[KEPT]} with three.\n")
    for work, (other, _) in MOST_BESIDE.items():
        print(f"{work}, by {other}: {rows.beside(work, other):.2f}.")


def print_rows():
    """Prints the tables, and answers what takes longer than it may."""
    rows = Rows([EMBED / "out" / name for name in PROGRAMS])
    print_tables(rows)
    print_notes(rows)
    return list(beyond_limits(rows))


def main(is_of_moves):
    """Prints the tables, or that of moves. The status is 1 where a work has no time, or takes
    longer than it may."""
    command = ["make", "-s", "-C", EMBED, *(f"out/{name}" for name in PROGRAMS)]
    if subprocess.run(command, check=False, stdout=sys.stderr).returncode != 0:
        return 1
    try:
        notes = library_moves.print_moves() if is_of_moves else print_rows()
    except (NoTimes, library_moves.NoMoves) as why:
        notes = [str(why)]
    if notes:
        print("\nNot as it should be:\n\n" + "\n".join(f"- {note}" for note in notes))
    return 1 if notes else 0

"""What the program would say to the words of a command line, and why. Nothing is run or put."""
import os

import usage
from expected import Setup, outputs_by_turns
from screen import header
from shown import shown

from . import calls, config, journal, scripts
from .faults import Note, Refused, Verdict
from .folder import Folder

USAGE_RULE = "docs/FORMATS.md, The command line"


def check_words(words, folder):
    """That the words are those of a command."""
    fault = usage.fault_of(words)
    if fault is None:
        return
    what, right = fault
    if not words or words[0] not in usage.COMMANDS:
        known = ", ".join(f"`{name}`" for name in usage.COMMANDS)
        close = folder.near(words[0]) if words and "." in words[0] else None
        right = f"perhaps the file `{shown(close)}`, which is there" if close else \
            f"{right}; the commands are {known}" if right else \
            f"one of {known}, or the name of a file that is there"
    raise Refused(2, usage.LINE, Note("the words", what, right, USAGE_RULE))


# Files.


def read_setup(folder, name, first_line=None, has_phases=True):
    """A configuration and its scripts, each judged before the next one is read."""
    table = config.read_config(name, folder.read(name, config.MOST_BYTES))
    names = [client["script"] for client in table["client"]] + [table["input"]["script"]]
    found = []
    for place, script_name in enumerate(names):
        kind = "input" if place == len(names) - 1 else "client"
        data = folder.read(script_name, scripts.MOST_BYTES, beside=name)
        script = scripts.read_script(script_name, data, kind, None if place else first_line)
        if found and has_phases:
            check_phases(folder, names, (script_name, script), found[0].count("phase"))
        found.append(script)
    setup = Setup(table, found[:-1], found[-1])
    setup.names = names
    return setup


def check_phases(folder, names, named_script, count, of_whom=None):
    """That a script has as many lines `phase` as the first one of `names`, or as `of_whom` asks."""
    name, script = named_script
    if script.count("phase") == count:
        return
    counts = [(other, number) for other in dict.fromkeys([*names, name])
              for number in [folder.phases(other)] if number is not None]
    raise scripts.phases_fault(name, script, count,
                               of_whom or f"the first client's {shown(names[0])} has", counts)


def puts_of(setup):
    """The names of what a run puts, in their order."""
    shots = [f"shot-{number}.ppm" for number in range(1, setup.user.count("shot") + 1)]
    texts = [f"events-{label}.txt" for label in setup.labels()]
    return [*shots, "final.ppm", *texts, "journal.txt"]


# What each command reads before anything is run.


def read_still(folder, _width, _height, name):
    return scripts.read_script(name, folder.read(name, scripts.MOST_BYTES), "client")


def read_audit(folder, name, journal_name):
    """The setup, and the entries of the journal."""
    setup = read_setup(folder, name)
    data = folder.read(journal_name, journal.MOST_BYTES)
    return setup, journal.read_journal(journal_name, data)


def read_clip(folder, name):
    setup = read_setup(folder, name)
    count = setup.clients[0].count("phase")
    for script_name in setup.names[:-1]:
        clip = f"{script_name}.clip"
        about = "`clip` reads a clip script beside each client's script, here " \
            f"{shown(clip)} for {shown(script_name)}, with as many lines `phase`"
        data = folder.read(clip, scripts.MOST_BYTES, about=about)
        lines = scripts.read_script(clip, data, "clip")
        check_phases(folder, setup.names, (clip, lines), count)
    return setup


def read_capture(folder, name, *region):
    setup = read_setup(folder, name)
    x, y, width, height = map(int, region)
    screen = setup.config["screen"]
    across, down = screen["width"], screen["height"]
    what = None
    if not width or not height:
        what = "the region has no pixels"
    elif x + width > across or y + height > down:
        what = f"the region ends at column {x + width} and row {y + height}, and the screen has " \
            f"{across} and {down}"
    if what:
        right = f"X + W is at most {across}, Y + H at most {down}, W and H at least 1"
        raise Refused(10, "capture outside", Note("the words", what, right,
                                                  "docs/FORMATS.md, What the program says"))
    return setup


def read_nested(folder, outer_name, inner_name):
    """The setups of both, and how many frames the inner run has."""
    outer = read_setup(folder, outer_name, scripts.nested_line, has_phases=False)
    inner = read_setup(folder, inner_name)
    frames = inner.user.count("shot") + 1
    for name, script in zip(outer.names, [*outer.clients, outer.user]):
        check_phases(folder, outer.names, (name, script), frames - 1,
                     f"{shown(inner_name)} has {frames} frames, which takes")
    return outer, inner, frames


# The commands. Each answers the verdict of status 0.


def do_still(folder, width, height, name):
    script = read_still(folder, width, height, name)
    folder.check_puts(["final.ppm"])
    screen = {"width": int(width), "height": int(height)}
    client = {"label": "still", "donation": 8388608}
    user = ["phase"] * script.count("phase")
    setup = Setup({"screen": screen, "client": [client]}, [script], user)
    setup.names = [name, ""]
    return Verdict(0, setup.summary(), notes=calls.refused_by_turns(setup))


def do_turns(folder, name):
    setup = read_setup(folder, name)
    folder.check_puts(puts_of(setup))
    return Verdict(0, setup.summary(), notes=calls.refused_by_turns(setup))


def do_run(folder, name):
    setup = read_setup(folder, name)
    return on_threads(folder, setup)


def on_threads(folder, setup, more=()):
    """The verdict of a run on threads that puts these files more than `turns`."""
    folder.check_puts([*puts_of(setup), *more])
    return Verdict(0, setup.summary(), notes=calls.refused_on_threads(setup))


def do_gen(folder, _number):
    made = ["gen.toml", *(f"g{client}.nit" for client in range(8)), "gen.in"]
    texts = [f"events-g{client}.txt" for client in range(8)]
    folder.check_puts([*made, "shot-1.ppm", "final.ppm", *texts, "journal.txt"])
    return Verdict(0, "clients 8 entries 12260 frames 2")


def do_audit(folder, name, journal_name):
    setup, entries = read_audit(folder, name, journal_name)
    journal.judge(journal_name, entries, setup)
    return Verdict(0, f"audit yes entries {len(entries)}")


def do_clip(folder, name):
    return on_threads(folder, read_clip(folder, name), ["clip.txt"])


def do_capture(folder, name, *region):
    return on_threads(folder, read_capture(folder, name, *region), ["capture.ncap"])


def do_nested(folder, outer_name, inner_name):
    outer, inner, frames = read_nested(folder, outer_name, inner_name)
    drawn = 1 + sum(map(frame_lines, frames_of(inner)))
    if drawn + len(outer.clients[0]) > scripts.MOST_LINES:
        raise Refused(11, f"{inner_name}: inner frames too long", Note(
            inner_name, f"its frames are {drawn:,} lines, {outer.names[0]} has "
            f"{len(outer.clients[0]):,}, and {scripts.MOST_LINES:,} are the most",
            "fewer shots, a smaller screen or plainer pictures",
            "docs/FORMATS.md, Frames as lines of a script"))
    folder.check_puts([*puts_of(outer), "inner-journal.txt"])
    said = outer.summary().split(" ")
    said[3] = str(int(said[3]) + 1 + frames)
    return Verdict(0, " ".join(said))


def frames_of(inner):
    """The pictures of the inner run by turns, each as rows of words of three bytes."""
    screen, outputs = inner.config["screen"], outputs_by_turns(inner)
    for name, picture in outputs.items():
        if name.endswith(".ppm"):
            body = picture[len(header(screen["width"], screen["height"])):]
            yield [body[at : at + 3 * screen["width"]]
                   for at in range(0, len(body), 3 * screen["width"])]


def frame_lines(rows):
    """How many lines a frame makes: one for each run of equal words, and one to show it."""
    return 1 + sum(1 + sum(row[at : at + 3] != row[at - 3 : at] for at in range(3, len(row), 3))
                   for row in rows)


DO = {"still": do_still, "turns": do_turns, "run": do_run, "gen": do_gen, "audit": do_audit,
      "clip": do_clip, "capture": do_capture, "nested": do_nested}
READ = {"still": read_still, "turns": read_setup, "run": read_setup, "audit": read_audit,
        "clip": read_clip, "capture": read_capture, "nested": read_nested}


def verdict_of(words, path=".", out=None):
    """How the program would end with these words in the folder of this path, and with --out where
    a folder is given for it."""
    folder = Folder(path, out)
    try:
        check_words(words, folder)
        folder.check_out()
        return DO[words[0]](folder, *words[1:])
    except Refused as refused:
        return refused.verdict


class Pipe(Exception):
    """A file that can be read once."""


class Unread(Folder):
    """A folder whose files are read again later."""

    def read(self, name, *more, **about):
        path = os.path.join(self.path, name)
        if os.path.exists(path) and not os.path.isfile(path) and not os.path.isdir(path):
            raise Pipe
        return super().read(name, *more, **about)


def refusal_of(words, path="."):
    """How the program would end with these words of a command in the folder of this path, where it
    would refuse a file before anything is run, or none."""
    try:
        if words[0] in READ:
            READ[words[0]](Unread(path), *words[1:])
    except Pipe:
        return None
    except Refused as refused:
        return refused.verdict
    return None

"""Broken inputs, and what the program says of each beside what is said here."""
import copy
import os
import random
import re
import shlex
import shutil
import tempfile
from pathlib import Path

import model
import runs
from broken_cases import BREAKS
from expected import entry_of_device, is_call, text_of
from shown import quoted
from valid_cases import pick_title, toml_text, valid_case

from . import calls, commands
from .edits import MARKS, TOML_MARKS, edited, other_entry, other_statements
from .folder import Folder
from .journal import Unpainted

FROM_ONE = 40
KINDS = {"client": 4, "input": 4, "clip": 4, "config": 6, "journal": 6, "words": 1, "nested": 1}
WORD_MARKS = [b"0", b"1", b"9", b"-", b"+", b" ", b"\n", b"x", b".", b"00", b"1024", b"1025",
              b"769"]


# Good inputs.


def clip_text(rng, phases):
    lines = []
    for phase in range(phases + 1):
        for _ in range(rng.randint(0, 3)):
            lines.append(rng.choice(["paste", f"copy ={pick_title(rng)}"]))
        lines += ["phase"] * (phase < phases)
    return text_of(lines)


def journal_text(setup):
    """The journal of a run by turns, by the rules of tools/screen.py."""
    scene, entries, shots = Unpainted(setup.config), [], 0
    for who, line in model.rounds([*setup.clients, setup.user]):
        if who < len(setup.clients):
            if is_call(line):
                entries.append(f"call {who} {scene.call(who, line)} < {line}")
        elif line == "shot":
            shots += 1
            entries.append(f"shot {shots}")
        elif line != "phase":
            entries.append(entry_of_device(line, scene.device(line)))
    return text_of([*entries, "final"])


class Good:
    """A valid case with all that any command reads."""

    def __init__(self, seed):
        rng = random.Random(f"good {seed}")
        case = valid_case(rng, "free")
        self.config, self.files = case.config, dict(case.files)
        self.names = [client["script"] for client in self.config["client"]]
        self.user = self.config["input"]["script"]
        folder = Memory(self.files)
        setup = commands.read_setup(folder, "c.toml")
        phases = setup.clients[0].count("phase")
        for name in self.names:
            path = f"{os.path.normpath(name)}.clip"
            if len(os.path.basename(path)) <= 255:
                self.files.setdefault(path, clip_text(rng, phases))
        self.files["j.txt"] = journal_text(setup)
        self.add_nest(rng, setup)

    def add_nest(self, rng, setup):
        """An outer configuration with two scripts, whose frames are those of a small inner one."""
        frames = rng.randint(1, 3)
        self.files["i.in"] = text_of(["shot"] * (frames - 1))
        self.files["i.nit"] = text_of(["buffer 3 2", "view", "place 1 0 0 3 2",
                                       "fill 1 0 2 1 00FF00"])
        phases = ["phase"] * (frames - 1)
        self.files["o.nit"] = text_of(["view", "place 1 0 0 4 4", *phases, "take"])
        self.files["o.in"] = text_of(["motion 1 1", *phases, "shot"])
        for letter in "io":
            config = {"screen": {"width": 8, "height": 6}, "input": {"script": f"{letter}.in"},
                      "client": [{"label": "a", "donation": 9000, "script": f"{letter}.nit"}]}
            self.files[f"{letter}.toml"] = toml_text(rng, config).encode()


class Memory(Folder):
    """Files that are not on a disk yet."""

    def __init__(self, files):
        super().__init__()
        self.files = files

    def read(self, name, most, beside="", about=""):
        return self.files[os.path.normpath(name)]


# Broken ones.


def broken(good, number):
    """The kind, the words and the files of an input, and what was done to it."""
    rng = random.Random(f"broken {number}")
    kind = rng.choices(list(KINDS), KINDS.values())[0]
    if kind == "words":
        return kind, words_of(rng, good), good.files, "words"
    name, words = {
        "client": (os.path.normpath(rng.choice(good.names)), ["turns", "c.toml"]),
        "input": (os.path.normpath(good.user), ["turns", "c.toml"]),
        "clip": (os.path.normpath(rng.choice(good.names)) + ".clip", ["clip", "c.toml"]),
        "config": ("c.toml", ["turns", "c.toml"]),
        "journal": ("j.txt", ["audit", "c.toml", "j.txt"]),
        "nested": (rng.choice(["o.nit", "o.in", "i.nit", "i.in", "o.toml", "i.toml"]),
                   ["nested", "o.toml", "i.toml"]),
    }[kind]
    if name not in good.files:
        return kind, words, good.files, f"{name}: too long a name"
    if kind == "journal" and rng.random() < 0.5:
        data, what = other_entry(rng, good.files[name])
    elif kind == "config" and rng.random() < 0.3:
        data, what = other_values(rng, good.config)
    elif kind == "config" and rng.random() < 0.5:
        data, what = other_statements(rng, good.files[name])
    else:
        marks = MARKS + TOML_MARKS if name.endswith(".toml") else MARKS
        data, what = edited(rng, good.files[name], marks)
    return kind, words, good.files | {name: data}, f"{name}: {what}"


def other_values(rng, config):
    """A configuration with values that are refused."""
    config, names = copy.deepcopy(config), []
    breaks = rng.sample(BREAKS, rng.choice([1, 1, 2, 3]))
    for make in sorted(breaks, key=BREAKS.index, reverse=True):
        names.append(make(rng, config))
    return toml_text(rng, config).encode(), ", ".join(names)


def words_of(rng, good):
    """The words of a command, often with an edit in one of them."""
    screen = good.config["screen"]
    region = [str(rng.randint(0, screen[side] // most + 1)) for most in (2, 2)
              for side in ("width", "height")]
    lists = [["still", str(rng.randint(1, 40)), str(rng.randint(1, 20)), good.names[0]],
             ["turns", "c.toml"], ["run", "c.toml"], ["audit", "c.toml", "j.txt"],
             ["clip", "c.toml"],
             ["capture", "c.toml", *region], ["capture", "c.toml", *region],
             ["nested", "o.toml", "i.toml"]]
    words = rng.choice(lists)
    if rng.random() < 0.6:
        at = rng.randrange(len(words))
        words[at] = edited(rng, words[at].encode(), WORD_MARKS)[0].decode(errors="replace")
        words[at] = words[at].replace("\0", "").replace("\ufeff", "")
    if rng.random() < 0.1:
        words.insert(rng.randint(0, len(words)), rng.choice(["", "x", "8", "c.toml"]))
    return words


# Both beside each other.


class Counts:
    """How many inputs there were of each kind, and what became of them."""

    def __init__(self):
        self.rows, self.differ = {}, 0

    def add(self, kind, verdict, differs):
        row = self.rows.setdefault(kind, {})
        row[verdict.status] = row.get(verdict.status, 0) + 1
        self.differ += differs

    def told(self):
        for kind, row in self.rows.items():
            by_status = ", ".join(f"{status}: {row[status]}" for status in sorted(row))
            refused = sum(row.values()) - row.get(0, 0)
            yield f"{kind}: {sum(row.values())} inputs, {refused} refused (by status {by_status})"


def is_same(verdict, outcome):
    said = f"nitpicker: {verdict.line}\n".encode("utf-8", "surrogateescape")
    return (outcome.status, outcome.said) == (verdict.status, said)


def refused_in(journal, labels):
    """Of each client with refused calls in a journal: its label, how many, and the first one."""
    rows = {}
    for entry in journal.decode().splitlines():
        match = re.match(r"call (\d+) (([a-z-]+)[^<]*) < (.*)", entry)
        if match and match[3] in calls.REFUSALS:
            rows.setdefault(int(match[1]), []).append(f"{quoted(match[4])} gets `{match[2]}`")
    return [(labels[who], str(len(rows[who])), rows[who][0]) for who in sorted(rows)]


def calls_told(verdict, words, folder):
    """The labels of a run and what is told of its refused calls, or none where that is left out."""
    if verdict.status != 0 or words[0] not in ("turns", "run", "clip", "capture"):
        return None
    setup = commands.read_setup(Folder(folder), words[1])
    if words[0] != "turns" and calls.KILL in setup.user:
        return None
    told = [re.match(r"(.*?): (\d+) .*?: (`.*)", note).groups() for note in verdict.notes]
    return setup.labels(), told


def compared(program, kind, words, folder, counts):
    """Says what both say of the words in the folder, where it is not the same."""
    verdict = commands.verdict_of(words, folder)
    told = calls_told(verdict, words, folder)
    outcome = runs.run(program, words, folder)
    is_good = is_same(verdict, outcome)
    tells = not (is_good and told) or \
        told[1] == refused_in(outcome.files["journal.txt"], told[0])
    counts.add(kind, verdict, not (is_good and tells))
    if not is_good:
        print(f"{kind}, {shlex.join(words)}: explain says {verdict.status}, {verdict.line!r}; the "
              f"program {outcome.status}, {outcome.said!r}", flush=True)
    if not tells:
        print(f"{kind}, {shlex.join(words)}: the journal has other refused calls than explain says",
              flush=True)
    return not (is_good and tells)


def compare_examples(program, top, counts):
    """All of examples/broken."""
    tool = runs.tool("broken")
    rows = (tool.EXAMPLES / "broken" / "cases.txt").read_text().splitlines()
    for case in map(tool.Case, rows):
        for name in ("broken", "two"):
            shutil.copytree(tool.EXAMPLES / name, top / name)
        runs.write_files(top / "broken", dict(tool.large_files(case.words)))
        compared(program, "examples/broken", case.words, top / "broken", counts)
        for name in ("broken", "two"):
            shutil.rmtree(top / name)


def compare_broken(program, numbers, top, kept, counts):
    good, progress = None, runs.Progress(len(numbers))
    for number in numbers:
        progress.tell(number - numbers[0], "input")
        if good is None or number % FROM_ONE == 0:
            good = Good(number // FROM_ONE)
        kind, words, files, what = broken(good, number)
        folder = top / "now"
        folder.mkdir()
        runs.write_files(folder, files)
        if compared(program, kind, words, folder, counts):
            shutil.copytree(folder, kept / str(number))
            print(f"  input {number}, {what}: kept in {kept / str(number)}", flush=True)
        shutil.rmtree(folder)


def main(count, seed, words):
    program = runs.program_at(words[0] if words else runs.TOP / "bin" / "nitpicker")
    counts, kept = Counts(), Path(tempfile.mkdtemp(prefix="explain-kept-"))
    with tempfile.TemporaryDirectory(prefix="explain-") as name:
        compare_examples(program, Path(name), counts)
        compare_broken(program, range(seed, seed + count), Path(name), kept, counts)
    if not any(kept.iterdir()):
        kept.rmdir()
    print("\n".join(counts.told()))
    total = sum(sum(row.values()) for row in counts.rows.values())
    print(f"inputs {total}, differed {counts.differ}")
    return 1 if counts.differ else 0

"""What a run has left in a folder, file by file, against the rules in Python."""
import errno
import os
import re
from itertools import zip_longest

import runs
from along import Along, Fault, agree
from clips import ClipList
from expected import outputs_by_turns
from page.pixels import Scene
from pictures import fault_of_picture
from shown import quoted, shown
from verifying.films import check_film

OF_RUNS = re.compile(r"(shot-[1-9][0-9]*|final)\.ppm|events-.*\.txt|(inner-)?journal\.txt|"
                     r"clip\.txt|capture\.ncap")
BY_JOURNAL = re.compile(r"(shot-[0-9]+|final)\.ppm|events-.*\.txt|clip\.txt")
MOST_SHOWN, MOST_SAID = 120, 400
# More than any file has that is checked in reasonable time.
MOST_BYTES = 1 << 30
BY_TURNS = "each byte is that of the run by turns"
ONE_WORD = "shows the one word that it may hold"


class Report:
    """What is said of a folder: a line for each file, and how many are right or wrong."""

    def __init__(self):
        self.counts = {"right": 0, "wrong": 0, "not checked": 0}

    def say(self, word, name, what):
        self.counts[word] += 1
        what = str(what)
        more = " .." if len(what) > MOST_SAID else ""
        print(f"{word}: {shown(name)}: {shown(what[:MOST_SAID])}{more}", flush=True)

    def judge(self, name, fault, what):
        """Says what is wrong, or where nothing is, what is right."""
        self.say("wrong" if fault else "right", name, fault or what)


class Folder:
    """The files that a run has left."""

    def __init__(self, path):
        self.path = path

    def path_of(self, name):
        return os.path.realpath(os.path.join(self.path, name))

    def has(self, name):
        return os.path.isfile(self.path_of(name))

    def left_by_runs(self):
        """The names of the files there that some run may have put."""
        return sorted(filter(OF_RUNS.fullmatch, os.listdir(self.path)))

    def read(self, name):
        path = self.path_of(name)
        if os.path.getsize(path) > MOST_BYTES:
            raise OSError(errno.EFBIG, f"over {MOST_BYTES} bytes, so it is not read", path)
        with open(path, "rb") as file:
            return file.read()


# Which files are there.


def check_names(run, folder, report, read):
    """That the files of the run are there, and no other one is that a run may put. Where the
    folder is not the run's own, others are let be."""
    puts, others = run.puts(), []
    for name in puts:
        if not folder.has(name):
            report.say("wrong", name, "it is not there")
    here = os.path.realpath(folder.path)
    is_shared = here == os.path.realpath(".") or any(os.path.dirname(path) == here for path in read)
    for name in sorted(set(os.listdir(folder.path)) - set(puts)):
        if folder.path_of(name) not in read:
            if OF_RUNS.fullmatch(name) or not is_shared:
                report.say("wrong", name, "it is none of the files of this run")
            else:
                others.append(name)
    if others:
        report.say("not checked", ", ".join(others), "no run leaves such files")


# Texts.


def lines_of(data):
    """The lines of a text, each with its line feed. The last one may lack it."""
    return re.findall(r"[^\n]*\n|[^\n]+\Z", data.decode("latin-1"))


def fault_of_text(left, right):
    """The first line of a text that is not the one of the right text, if there is one."""
    if left == right:
        return None
    for number, (line, wanted) in enumerate(zip_longest(lines_of(left), lines_of(right)), 1):
        if line is None:
            return f"line {number} is missing: {told(wanted)}"
        if wanted is None:
            return f"line {number} is one too many: {told(line)}"
        if line + "\n" == wanted:
            return f"line {number} has no line feed at its end"
        if line != wanted:
            return f"line {number}: {told(line)} is to be {told(wanted)}"
    raise AssertionError("two texts with the same lines differ")


def told(line):
    return quoted(line.removesuffix("\n"), MOST_SHOWN)


# Each kind of run.


def check_bytes(folder, report, right, what):
    """That files are these, byte for byte. One that is not there is told of elsewhere."""
    for name, data in right.items():
        if folder.has(name):
            fault = fault_of_picture if name.endswith(".ppm") else fault_of_text
            report.judge(name, fault(folder.read(name), data), what)


def told_of_shot(scene):
    """What a right shot shows, and how much of it chance has decided."""
    if not scene.by_chance:
        return f"each pixel {ONE_WORD}"
    return f"{scene.by_chance} of {scene.width * scene.height} pixels show one of several words " \
        "that they may hold, by when a client drew, and which one is not checked; each other " \
        f"pixel {ONE_WORD}"


class Beside:
    """The check of a run on threads along its journal."""

    def __init__(self, run, folder, report):
        self.run, self.folder, self.report = run, folder, report
        self.along, self.is_over, self.judged = Along(run.setup), False, set()

    def judge(self, name, fault, what):
        self.judged.add(name)
        self.report.judge(name, fault, what)

    def step(self, line):
        """Goes on by a line of the journal."""
        text = line.removesuffix("\n")
        agree(not self.is_over, f"{text} stands behind the last picture")
        agree(line != text, "it has no line feed at its end")
        if text == "final":
            self.along.finish()
            self.is_over = True
            return
        self.along.step(text)
        name = f"shot-{self.along.shots}.ppm"
        if text.startswith("shot ") and self.folder.has(name):
            fault = self.along.scene.fault_of_shot(self.folder.read(name))
            self.judge(name, fault, told_of_shot(self.along.scene))

    def fault_of_journal(self, lines):
        progress = runs.Progress(len(lines))
        for number, line in enumerate(lines, 1):
            progress.tell(number, "line")
            try:
                self.step(line)
            except Fault as fault:
                return f"line {number}: {fault}"
        return None if self.is_over else f"line {len(lines) + 1} is missing"

    def check(self):
        """Says of each file what is wrong. Without a right journal some cannot be checked."""
        if self.folder.has("journal.txt"):
            lines = lines_of(self.folder.read("journal.txt"))
            fault = self.fault_of_journal(lines)
            self.judge("journal.txt", fault, f"{len(lines)} entries, each as the rules have it")
        if self.is_over:
            self.check_end()
            return
        for name in self.run.puts():
            if BY_JOURNAL.fullmatch(name) and self.folder.has(name) and name not in self.judged:
                self.report.say("not checked", name, "it goes by the journal")

    def check_end(self):
        """The texts of the events, and the last picture."""
        for name, data in self.along.texts().items():
            if self.folder.has(name):
                fault = fault_of_text(self.folder.read(name), data)
                self.judge(name, fault, "it goes with the journal")
        if self.folder.has("final.ppm"):
            fault = fault_of_picture(self.folder.read("final.ppm"), self.along.scene.frame())
            self.judge("final.ppm", fault, "each pixel shows the word that the script leaves")


def check_clips(run, folder, report):
    """That the clip list goes with the journal, which is right up to the last picture."""
    journal = lines_of(folder.read("journal.txt"))
    entries = [line[:-1] for line in journal[: journal.index("final\n")]]
    clip_list, number = ClipList(run.setup, run.clips, entries), 0
    lines = lines_of(folder.read("clip.txt"))
    fault = None
    try:
        for number, line in enumerate(lines, 1):
            agree(line.endswith("\n"), "it has no line feed at its end")
            clip_list.step(line[:-1])
        number = len(lines) + 1
        clip_list.finish()
    except Fault as wrong:
        fault = f"line {number}: {wrong}"
    report.judge("clip.txt", fault, f"{len(lines)} entries, each as the rules have it")


def check(run, folder, report):
    """Says of each file of a run what is right, wrong, or not checked."""
    check_bytes(folder, report, run.made, "it is as its number has it")
    if run.is_by_turns():
        outputs = outputs_by_turns(run.setup, Scene(run.setup.config))
        check_bytes(folder, report, outputs, BY_TURNS)
        return
    beside = Beside(run, folder, report)
    beside.check()
    if beside.is_over and run.clips and folder.has("clip.txt"):
        check_clips(run, folder, report)
    if run.region and folder.has("capture.ncap"):
        check_film(run, folder, report)
    if run.inner:
        check_bytes(folder, report, {"inner-journal.txt": run.inner["journal.txt"]}, BY_TURNS)

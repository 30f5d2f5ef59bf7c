"""What a run on threads leaves, along its journal, by the rules of docs/RULES.md."""
import re

import model
from expected import entry_of_device, events_files
from near import SceneBeside
from pictures import fault_of_picture

CALL_ENTRY = re.compile(r"call (\d+) [^<]* < (.*)\Z")


class Fault(Exception):
    """What is wrong with a journal or what goes with it."""


def agree(holds, what):
    if not holds:
        raise Fault(what)


class Actors:
    """The lines that the actors are still to record, each with its phase."""

    def __init__(self, setup):
        scripts = setup.clients + [setup.user]
        self.left = [list(self.entries(lines))[::-1] for lines in scripts]
        self.phase = 0

    @staticmethod
    def entries(lines):
        for phase, part in enumerate(model.by_phases(lines)):
            for line in part:
                if line.split(" ")[0] not in ("fill", "check", "phase"):
                    yield phase, line

    def record(self, who, entry, line):
        """Takes this line of an actor, which is to be its next one."""
        agree(who < len(self.left) and self.left[who], f"an entry too many: {entry}")
        phase, right = self.left[who].pop()
        agree(line == right, f"{entry} stands where {right} is to stand")
        agree(phase >= self.phase, f"{entry} falls behind phase {self.phase}")
        self.phase = phase


class Along:
    """A run as far as its journal is read. Each entry has to be the one of the rules there."""

    def __init__(self, setup, loads=True):
        self.setup, self.actors = setup, Actors(setup)
        self.scene = SceneBeside(setup.config, setup.clients, self.actors, loads)
        self.events, self.shots = [[] for _ in setup.clients], 0

    def step(self, entry):
        """Goes on by an entry that is not the last picture. Raises what is wrong with it."""
        if entry.startswith("call "):
            self.call(entry)
        elif entry.startswith("input "):
            self.device(entry)
        else:
            self.shots += 1
            agree(entry == f"shot {self.shots}", f"no entry: {entry}")
            self.actors.record(len(self.setup.clients), entry, "shot")

    def call(self, entry):
        match = CALL_ENTRY.match(entry)
        agree(match and int(match[1]) < len(self.setup.clients), f"no entry: {entry}")
        who, line = int(match[1]), match[2]
        self.actors.record(who, entry, line)
        reply = self.scene.call(who, line)
        right = f"call {who} {reply} < {line}"
        agree(entry == right, f"{entry} is to be {right}")
        self.events[who] += [reply[6:]] if reply.startswith("event ") else []

    def device(self, entry):
        line = entry[6:].split(" > ")[0]
        self.actors.record(len(self.setup.clients), entry, line)
        right = entry_of_device(line, self.scene.device(line))
        agree(entry == right, f"{entry} is to be {right}")

    def finish(self):
        """Takes the last picture. Raises that something is not done before it."""
        for lines in self.actors.left:
            agree(not lines, f"the entry of {lines[-1][1] if lines else ''} is missing")
        self.scene.finish()

    def texts(self):
        """The texts of the events, by the names of their files."""
        return events_files(self.setup, self.scene.sessions, self.events)


def entries_of(files):
    """The lines of a run's journal in front of the last one, which has to be the last picture."""
    agree("journal.txt" in files, "journal.txt is not there")
    text = files["journal.txt"].decode("latin-1")
    agree(f"\n{text}".endswith("\nfinal\n"), "the last picture does not end the journal")
    return text.split("\n")[:-2]


def check_journal(setup, files, loads=True):
    """The journal's text of a run, and what goes with it. Pictures are let be if nothing loads."""
    along = Along(setup, loads)
    for entry in entries_of(files):
        along.step(entry)
        if loads and entry.startswith("shot "):
            name = f"shot-{along.shots}.ppm"
            agree(name in files, f"{name} is not there")
            fault = along.scene.fault_of_shot(files[name])
            agree(not fault, f"shot {along.shots}: {fault}")
    along.finish()
    for name, data in along.texts().items():
        agree(files.get(name) == data, f"{name} does not go with the journal")
    if loads:
        fault = fault_of_picture(files.get("final.ppm", b""), along.scene.frame())
        agree(not fault, f"final.ppm: {fault}")

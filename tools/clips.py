"""What a clip list is, by docs/RULES.md and docs/FORMATS.md."""
import re

import model
from along import Actors, agree
from expected import is_call
from page.pixels import Scene

CLIP_ENTRY = re.compile(r"clip (0|[1-9][0-9]*) (0|[1-9][0-9]*) "
                        r"(copied|empty|not-focused|pasted =.*) < (.*)\Z")


class ClipList:
    """A clip list as far as it is read. Each entry has to go with the run's journal."""

    def __init__(self, setup, clips, entries):
        self.focused, self.phases = along(setup, entries)
        self.left = [by_phase(lines)[::-1] for lines in clips]
        self.counts = [calls_by_phase(lines) for lines in setup.clients]
        self.calls = calls_along(entries, len(setup.clients))
        self.before, self.text = 0, None

    def step(self, line):
        """Goes on by an entry. Raises what is wrong with it."""
        match = CLIP_ENTRY.match(line)
        agree(match, f"no clip entry: {line}")
        at, who, reply, call = int(match[1]), int(match[2]), match[3], match[4]
        agree(self.before <= at < len(self.focused), f"{line}: its place is not within its bounds")
        agree(who < len(self.left) and self.left[who], f"a clip call too many: {line}")
        phase, wanted = self.left[who].pop()
        agree(call == wanted, f"{line} stands where {wanted} is to stand")
        agree(self.calls[at][who] >= sum(self.counts[who][: phase + 1]),
              f"{line}: it is a phase early")
        agree(at == 0 or self.phases[at - 1] <= phase, f"{line}: it is behind its phase")
        right = self.answer(who, at, call)
        agree(reply == right, f"{line}: the reply is to be {right}")
        self.before = at

    def answer(self, who, at, call):
        """The reply to a clip call with so many entries before it."""
        if self.focused[at] != who:
            return "not-focused"
        if call.startswith("copy "):
            self.text = call[6:]
            return "copied"
        return "empty" if self.text is None else f"pasted ={self.text}"

    def finish(self):
        for lines in self.left:
            agree(not lines, f"the clip call {lines[-1][1] if lines else ''} is missing")


def by_phase(lines):
    return [(phase, line) for phase, part in enumerate(model.by_phases(lines))
            for line in part if line != "phase"]


def calls_by_phase(lines):
    return [sum(map(is_call, part)) for part in model.by_phases(lines)]


def calls_along(entries, clients):
    """How many calls each client has made before each entry, and behind the last."""
    rows = [[0] * clients]
    for entry in entries:
        rows.append(list(rows[-1]))
        if entry.startswith("call "):
            rows[-1][int(entry.split(" ")[1])] += 1
    return rows


def along(setup, entries):
    """Who has the focus before each entry and behind the last, and the phase of each entry. The
    entries are those of a run."""
    scene, actors = Scene(setup.config, loads=False), Actors(setup)
    focused, phases = [None], []
    for entry in entries:
        if entry.startswith("call "):
            _, who, rest = entry.split(" ", 2)
            line = rest.split(" < ", 1)[1]
            actors.record(int(who), entry, line)
            scene.call(int(who), line)
        else:
            line = "shot" if entry.startswith("shot ") else entry[6:].split(" > ")[0]
            actors.record(len(setup.clients), entry, line)
            if line != "shot":
                scene.device(line)
        phases.append(actors.phase)
        focused.append(None if scene.focused is None else scene.sessions.index(scene.focused))
    return focused, phases

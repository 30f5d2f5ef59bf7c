"""A run along its journal: each step with what the rules say of the state behind it."""
import re
from dataclasses import dataclass, field
from typing import Optional

import expected
import model
from page import words
from page.pixels import Scene
from page.sources import Fault

CALL = re.compile(r"call (\d+) [a-z][-a-z0-9 ]*? < (.*)\Z")
CLIP = re.compile(r"clip (\d+) (\d+) (copied|empty|not-focused|pasted =.*?)"
                  r" < ((?:copy =|paste\Z).*)\Z")


@dataclass
class Step:
    """An entry of the journal, or a call of the clip list."""

    text: str
    lane: Optional[int]  # the client whose call it is
    kind: str
    plain: str  # the same in plain words
    why: str = ""  # why it was refused
    told: list = field(default_factory=list)  # pairs of a client and what it gets
    entry: Optional[int] = None  # its number in the journal


class Tracks:
    """Values that change along the steps: by name, pairs of a step and the value from it on."""

    def __init__(self):
        self.pairs = {}

    def note(self, step, values):
        for name, value in values.items():
            pairs = self.pairs.setdefault(name, [])
            if not pairs or pairs[-1][1] != value:
                pairs.append([step, value])


class Replay:
    """The rules, led along the entries of a run."""

    def __init__(self, config, loads):
        self.scene = Scene(config, loads)
        self.labels = self.scene.labels
        self.steps, self.tracks, self.texts, self.shots = [], Tracks(), [], 0
        # Since which entry the focus is where it is and how it came there, and the client that got
        # the first press while something is held.
        self.focused, self.since, self.first = None, None, None
        self.note()

    def note(self):
        """Notes the state behind the last step."""
        self.tracks.note(len(self.steps), self.state())
        for place, session in enumerate(self.scene.sessions):
            self.tracks.note(len(self.steps), {
                f"{place} {name}": value for name, value in session_state(session).items()})

    def state(self):
        scene = self.scene
        number = {None: None} | {one: k for k, one in enumerate(scene.sessions)}
        return {"mode": scene.mode, "focus": number[scene.focused], "hover": number[scene.hovered],
                "receiver": number[scene.receiver], "pointer": list(scene.pointer),
                "held": list(scene.held), "since": self.since}

    def add(self, step, cause=""):
        """Adds a step. `cause` is how it moves the focus, where it does."""
        self.steps.append(step)
        if step.kind != "clip":
            self.texts.append(step.text)
            step.entry = len(self.texts)
        if self.scene.focused is not self.focused:
            self.focused, self.since = self.scene.focused, [step.entry, cause]
        self.note()

    # Entries.

    def act(self, who, line):
        """Does a line of an actor's script. Answers whether it makes an entry."""
        if who < len(self.labels):
            self.scene.drawings[who].do(line)
            if not expected.is_call(line):
                return False
            self.call(who, line)
        elif line == "shot":
            self.shots += 1
            self.add(Step(f"shot {self.shots}", None, "shot",
                          f"The picture shot-{self.shots}.ppm is taken."))
        elif line == "phase":
            return False
        else:
            self.device(line)
        return True

    def call(self, who, line):
        reply = self.scene.call(who, line)
        why = words.refusal(reply)
        kind = "refused" if why else "take" if reply.startswith("event ") else "call"
        plain = words.of_call(self.labels[who], line, reply)
        self.add(Step(f"call {who} {reply} < {line}", who, kind, plain, why),
                 f"as client {self.labels[who]} closed its session")

    def device(self, line):
        before = self.state()
        told = self.scene.device(line)
        if not before["held"]:
            receiver = self.scene.receiver
            self.first = self.labels[self.scene.sessions.index(receiver)] if receiver else None
        plain = words.of_device(line, told, self.labels, words.why_nobody(line, before, self.first))
        changes = words.of_changes(before, self.state(), self.labels)
        text = expected.entry_of_device(line, told)
        step = Step(text, None, line.split(" ")[0], f"{plain} {changes}".strip())
        step.told = [list(pair) for pair in told]
        self.add(step, words.of_click(told, before["pointer"], self.labels))

    def finish(self):
        if self.scene.loads:
            self.scene.finish()
        self.add(Step("final", None, "final", "The last picture, final.ppm, is taken."))

    # A journal that was left.

    def follow(self, lines):
        """Does the entries of a journal. The fault is the first one that is not by the rules."""
        for number, line in enumerate(lines, 1):
            if not self.act_entry(line):
                raise Fault(f"entry {number}: no entry: {line!r}")
            self.check(number, line)

    def act_entry(self, line):
        """Does an entry of a journal. Answers whether it is one."""
        match, user = CALL.match(line), len(self.labels)
        if line == "final":
            self.finish()
            return True
        if match:
            who, call = int(match[1]), match[2]
            is_entry = who < user and expected.is_call(call) and model.is_client_line(call)
            if is_entry:
                self.call(who, call)
            return is_entry
        shown = "shot" if line.startswith("shot ") else line[6:].split(" > ")[0]
        return model.is_input_line(shown) and self.act(user, shown)

    def check(self, number, line):
        if self.texts[number - 1] != line:
            raise Fault(f"entry {number}: the journal has {line!r}, "
                        f"and the rules give {self.texts[number - 1]!r}")

    def check_all(self, lines):
        """That the entries made here are those of a journal."""
        for number, line in enumerate(lines[: len(self.texts)], 1):
            self.check(number, line)
        if len(lines) != len(self.texts):
            raise Fault(f"the journal has {len(lines)} entries, "
                        f"and the rules give {len(self.texts)}")


def session_state(session):
    views, (width, height) = len(session.views), session.size
    return {"state": session.state, "queued": len(session.queue), "lost": session.lost,
            "views": views, "buffer": [width, height], "donation": session.donation,
            "reserve": session.reserve,
            "units": session.donation - 256 * views - 8 * width * height}


def journal_lines(data):
    return data.decode("latin-1").split("\n")[:-1]


def with_clips(replay, lines):
    """Puts the calls of a clip list between the steps, each with its answer checked."""
    tracks, clipboard = replay.tracks.pairs, None
    placed = [[] for _ in range(len(replay.steps) + 1)]
    for line in lines:
        match = CLIP.match(line)
        if match is None:
            raise Fault(f"clip.txt: no entry: {line!r}")
        place, who, reply, call = int(match[1]), int(match[2]), match[3], match[4]
        if place >= len(placed) or who >= len(replay.labels):
            raise Fault(f"clip.txt: it has {line!r}, and there is no such place or client")
        right, clipboard = clip_answer(value_at(tracks["focus"], place) == who, call, clipboard)
        if reply != right:
            raise Fault(f"clip.txt: it has {line!r}, and the rules give {right!r}")
        plain = words.of_call(replay.labels[who], call, reply)
        placed[place].append((Step(line, who, "clip", plain, words.refusal(reply)), clipboard))
    put_between(replay, placed)


def clip_answer(has_focus, call, clipboard):
    """The reply to a clip call, and the text that the clipboard has then."""
    if not has_focus:
        return "not-focused", clipboard
    if call.startswith("copy ="):
        return "copied", call[6:]
    return ("empty" if clipboard is None else f"pasted ={clipboard}"), clipboard


def put_between(replay, placed):
    """Puts steps behind so many entries, and moves what is said of later steps."""
    steps, moved = [], []
    clipboard = [[0, None]]
    for place in range(len(placed)):
        if place:
            steps.append(replay.steps[place - 1])
        moved.append(len(steps))
        for step, text in placed[place]:
            steps.append(step)
            clipboard.append([len(steps), text])
    replay.steps = steps
    for pairs in replay.tracks.pairs.values():
        for pair in pairs:
            pair[0] = moved[pair[0]]
    replay.tracks.pairs["clipboard"] = clipboard


def value_at(pairs, step):
    """The value behind so many steps."""
    return next(value for start, value in reversed(pairs) if start <= step)

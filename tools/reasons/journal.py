"""Why a journal is refused: a line that has no reading, or an entry that is none of a run."""
from screen import Scene
from shown import quoted, shown

from . import lines
from .faults import Fault, Finding, Note, Refused
from .scripts import pieces_of

MOST_BYTES = 134217728
TEXT_RULE = "docs/FORMATS.md, Journal and events as text"
RUN_RULE = "docs/RULES.md, Journals"
REPLIES = "docs/RULES.md, Calls and replies"
DELIVERIES = "docs/RULES.md, The user's input"
AUDIT = "docs/FORMATS.md, The command line: `audit`"
PHASES = "docs/FORMATS.md, Phases"


class Unpainted(Scene):
    """The scene without its pixels: what is answered and delivered goes by the views alone."""

    def owners(self):
        return []

    def load(self, before, after, is_dirty):
        pass


def read_journal(name, data):
    """The lines of a journal's text. Raises why it is refused."""
    if len(data) > MOST_BYTES:
        raise Refused(8, f"{name}: too long", Note(
            name, f"the file has more than {MOST_BYTES:,} bytes", "", TEXT_RULE))
    whole, rest = pieces_of(data)
    for number, line in enumerate(whole + [rest] * bool(rest), 1):
        fault = lines.first_fault(line, lines.read_entry)
        if fault is None and number > len(whole):
            fault = Fault(len(rest), len(rest) + 1, "the file ends here without a line feed",
                          "a line feed behind the last line too", lines.ENDED)
        if isinstance(fault, lines.LineEnd):
            fault.told(name, sum(line.endswith("\r") for line in whole))
        if fault:
            raise Refused(8, f"{name}: line {number}: bad journal",
                          Finding(name, line, fault, TEXT_RULE, number))
    return whole


class Wrong(Exception):
    """Why an entry is none of a run: what is wrong where in it, what is right, and the rule."""

    def __init__(self, at, end, what, right, rule):
        super().__init__(what)
        self.fault, self.rule = Fault(at, max(end, at + 1), what, right), rule


class Actor:
    """A script with the place that a run has come to in it."""

    def __init__(self, name, script, is_entry):
        self.name, self.next = shown(name), 0
        self.left, phase = [], 0
        for number, line in enumerate(script, 1):
            if line == "phase":
                phase += 1
            elif is_entry(line):
                self.left.append((number, phase, line))

    def peek(self):
        """The number, the phase and the text of the next line that makes an entry, or none."""
        return self.left[self.next] if self.next < len(self.left) else None


def is_call(line):
    return line.split(" ")[0] in lines.CALLS


class Run:
    """A run along its entries, by the rules of tools/screen.py."""

    def __init__(self, setup):
        self.scene = Unpainted(setup.config)
        self.actors = [Actor(name, script, is_call)
                       for name, script in zip(setup.names, setup.clients)]
        self.user = Actor(setup.names[-1], setup.user, lambda line: True)
        self.phase, self.shots, self.is_over = 0, 0, False
        self.last = None

    def step(self, entry):
        """Goes on by an entry. Raises what is wrong with it."""
        if self.is_over:
            raise Wrong(0, len(entry), "it stands behind the last picture",
                        "`final` is the last entry", RUN_RULE)
        steps = {"call": self.call, "input": self.device, "shot": self.shot, "final": self.final}
        steps[entry.split(" ")[0]](entry)

    def take(self, actor, entry, at, line):
        """That the entry's line, which stands at this place of it, is its script's next one."""
        end, wanted = at + len(line), actor.peek()
        if wanted is None:
            raise Wrong(at, end, f"all that {actor.name} asks for stands in front of it",
                        f"no entry of {actor.name} more", AUDIT)
        number, phase, text = wanted
        if line != text:
            raise Wrong(at, end, f"{quoted(line)} is not what {actor.name} does next",
                        f"its line {number}: {quoted(text)}", AUDIT)
        if phase < self.phase:
            raise Wrong(at, end, f"line {number} of {actor.name} is of phase {phase + 1}, and an "
                        f"entry of phase {self.phase + 1} stands in front of it: {self.last}",
                        "no actor begins a phase before all have ended the one before it", PHASES)
        if phase > self.phase:
            self.phase, self.last = phase, f"line {number} of {actor.name}"
        actor.next += 1

    def call(self, entry):
        _, who, rest = entry.split(" ", 2)
        number, at = int(who), len(f"call {who} ")
        if number >= len(self.actors):
            raise Wrong(5, at - 1, f"there is no session {number}", "sessions are numbered from 0, "
                        f"in the order of the configuration, here up to {len(self.actors) - 1}",
                        AUDIT)
        reply, line = rest.split(" < ", 1)
        self.take(self.actors[number], entry, len(entry) - len(line), line)
        right = self.scene.call(number, line)
        if reply != right:
            raise Wrong(at, at + len(reply), f"{quoted(line)} was answered `{reply}`",
                        f"the rules give `{right}`{self.cause(number, right)}", REPLIES)

    def cause(self, number, reply):
        """Why this is the reply, where that can be said in a few words."""
        session = self.scene.sessions[number]
        word = reply.split(" ")[0]
        if word == "no-such-view":
            handles = ", ".join(map(str, session.views)) or "none"
            return f"; session {number} has these views then: {handles}"
        if word in ("closed", "killed"):
            return f"; session {number} was {word} before"
        if word == "no-event":
            return f"; no event is queued at session {number} then"
        return ""

    def device(self, entry):
        line, *told = entry.removeprefix("input ").split(" > ")
        self.take(self.user, entry, 6, line)
        mode, focus = self.scene.mode, self.scene.focused
        right = [f"{number} {item}" for number, item in self.scene.device(line)]
        if told != right:
            given = " ".join(["input", line, *(f"> {part}" for part in right)])
            who = "nobody" if focus is None else f"session {self.scene.sessions.index(focus)}"
            raise Wrong(6 + len(line), len(entry), "this was delivered" if told else
                        "nothing was delivered", f"the rules give `{given}`; the mode was {mode}, "
                        f"and {who} had the focus", DELIVERIES)

    def shot(self, entry):
        self.take(self.user, entry, 0, "shot")
        self.shots += 1
        if entry != f"shot {self.shots}":
            raise Wrong(5, len(entry), "another number comes next",
                        f"the rules give `shot {self.shots}`; shots count from 1", RUN_RULE)

    def final(self, entry):
        for actor in [*self.actors, self.user]:
            if actor.peek():
                number, _, text = actor.peek()
                raise Wrong(0, len(entry), f"line {number} of {actor.name} is not done yet",
                            f"{quoted(text)} and what follows it, and then the last picture",
                            AUDIT)
        self.is_over = True


def judge(name, entries, setup):
    """That the entries are those of a run. Raises the first one that is not."""
    run = Run(setup)
    for number, entry in enumerate(entries, 1):
        try:
            run.step(entry)
        except Wrong as wrong:
            wrong.fault.what = f"entry {number} is none of a run: {wrong.fault.what}"
            raise Refused(9, f"{name}: entry {number}: not a run",
                          Finding(name, entry, wrong.fault, wrong.rule, number)) from wrong
    if not run.is_over:
        raise Refused(9, f"{name}: entry {len(entries) + 1}: not a run",
                      what_is_lacking(name, len(entries) + 1, run))


def what_is_lacking(name, number, run):
    """Where all entries are good, what is to follow them."""
    left = next((actor for actor in [*run.actors, run.user] if actor.peek()), None)
    if left is None:
        return Note(name, f"entry {number} is missing: the journal ends without the last picture",
                    "`final` is the last line", RUN_RULE)
    line, _, text = left.peek()
    what = f"the journal ends, and line {line} of {left.name} is not done"
    return Note(name, f"entry {number} is missing: {what}",
                f"{quoted(text)} and what follows it, and `final` last", RUN_RULE)

"""Each command of the program, done and made into what its page shows."""
import os
import re
import shlex

import runs
import usage
from page.png import size_of
from page.replay import Step, journal_lines
from page.run import Run
from page.sources import Fault, read_sources, run_apart, setup_of
from reasons.commands import refusal_of
from shown import shown

EXPLAINED = (3, 5, 6, 8)


def explaining(folder, words):
    """The tool that says why a file is refused, with the words for it."""
    within = [] if str(folder) == "." else ["-C", str(folder)]
    return shown(shlex.join(["tools/explain", *within, *words]))


class Command:
    """The words of a command, the files that it reads, and the program that does it, which is built
    where it is not there. Words with which nothing would run are refused before."""

    def __init__(self, program, folder, words):
        if usage.fault_of(words):
            raise runs.WrongWords(usage.hint(words))
        if usage.unreadable(words, folder) is not None:
            raise Fault(f"{shown(usage.unreadable(words, folder))}: it cannot be read; "
                        f"{explaining(folder, words)} says why")
        self.program, self.folder, self.words = program, folder, words
        self.files = read_sources(folder, words)

    def done(self, words, statuses=(0,)):
        """The outcome of the program with these words."""
        outcome = run_apart(self.program, words, self.files)
        if outcome.status not in statuses:
            said = outcome.said.decode("utf-8", "replace").strip()
            raise self.fault(words, f"ends with status {outcome.status}: {said}", outcome.status)
        return outcome

    def fault(self, words, how, status):
        """Why there is no page where the program ends so."""
        why = f"; {explaining(self.folder, words)} says why" if status in EXPLAINED else ""
        return Fault(f"the program {how}{why}")

    def runs(self):
        """What the page shows: a run, and for `nested` the inner one behind it. Where a file would
        be refused, no program is built."""
        refused = refusal_of(self.words, self.folder)
        if refused:
            how = f"would end with status {refused.status}: {shown(refused.line)}"
            raise self.fault(self.words, how, refused.status)
        self.program = runs.program_at(self.program)
        return getattr(self, self.words[0])()

    def run_of(self, outcome, config, by_turns=False):
        setup = setup_of(["turns", config], self.files)
        return Run(" ".join(self.words), setup, outcome, by_turns)

    # A command each.

    def still(self):
        outcome = self.done(self.words)
        run = Run(" ".join(self.words), setup_of(self.words, self.files), outcome, True)
        run.by_turns()
        run.checks.append("A run of `still` leaves no journal: the entries are those of the rules.")
        return [run]

    def turns(self):
        return [self.made_by_turns(self.words)]

    def made_by_turns(self, words):
        outcome = self.done(words)
        run = Run(" ".join(words), setup_of(words, self.files), outcome, True)
        run.by_turns()
        run.check_texts()
        return run

    def run(self):
        run = self.run_of(self.done(self.words), self.words[1])
        run.by_journal()
        run.check_final()
        return [run]

    def gen(self):
        outcome = self.done(self.words)
        self.files = outcome.files
        run = self.run_of(outcome, "gen.toml")
        run.by_journal()
        run.check_final()
        return [run]

    def clip(self):
        [run] = self.run()
        run.check_clips()
        return [run]

    def capture(self):
        [run] = self.run()
        run.check_film([int(word) for word in self.words[2:]])
        return [run]

    def nested(self):
        outcome = self.done(self.words)
        inner = self.made_by_turns(["turns", self.words[2]])
        if outcome.files.get("inner-journal.txt") != inner.file("journal.txt"):
            raise Fault("inner-journal.txt: it is not the journal of the inner run by turns")
        outer = self.run_of(outcome, self.words[1])
        outer.by_journal()
        outer.check_final(size_of(inner.file("final.ppm")))
        outer.checks.append("The inner journal is that of the inner run by turns.")
        return [outer, inner]

    def audit(self):
        """The journal up to the entry that is none of a run, if there is one."""
        outcome = self.done(self.words, (0, 9))
        run = self.run_of(outcome, self.words[1])
        lines = journal_lines(self.files[os.path.normpath(self.words[2])])
        match = re.search(r": entry (\d+): not a run\n\Z", run.said + "\n")
        good = lines if match is None else lines[: int(match[1]) - 1]
        run.replay.follow(good)
        run.checks.append("Each reply and each delivery of an entry that is good is that of the "
                          "rules.")
        if match:
            run.replay.add(wrong_step(lines[len(good) :], len(run.labels())))
        return [run]


def wrong_step(rest, clients):
    """The entry with which a journal is none of a run."""
    match = re.match(r"call (\d+) ", rest[0]) if rest else None
    lane = int(match[1]) if match and int(match[1]) < clients else None
    plain = "With this entry the journal is none of a run." if rest else \
        "The journal ends here, and lacks the last picture."
    return Step(rest[0] if rest else "", lane, "wrong", plain, "not a run")

"""The journals of a folder by the program's own `audit`."""
import os

import runs
from expected import text_of
from page.sources import run_apart

BUILT = runs.TOP / "crates" / "nitpicker" / "out" / "nitpicker"
ABSENT = "by `audit`: the program is not built here, and --program names none"


def journals_of(run):
    """Each journal of a run, its configuration, and the files that `audit` reads. Where another
    actor of OUTER has the first client's script, there are none for that."""
    command, *words = run.words
    if command == "nested":
        yield "inner-journal.txt", words[1], run.files
        parts = [*run.setup.config["client"], run.setup.config["input"]]
        first, *others = (os.path.normpath(part["script"]) for part in parts)
        made = {first: text_of(run.setup.clients[0])}
        yield "journal.txt", words[0], None if first in others else run.files | made
    elif command != "still":
        yield "journal.txt", "gen.toml" if command == "gen" else words[0], run.made or run.files


def built():
    """The program that is built in this repository, or none."""
    return str(BUILT) if os.access(BUILT, os.X_OK) else None


def check_audits(run, folder, report, program):
    """That `audit` says yes of each journal, where there is a program."""
    for name, config, files in journals_of(run):
        if not folder.has(name):
            continue
        if program is None or files is None:
            why = "by `audit`: two actors have one script" if program else ABSENT
            report.say("not checked", name, why)
            continue
        at = next(f"{number}.journal" for number in range(99) if f"{number}.journal" not in files)
        outcome = run_apart(program, ["audit", config, at], files | {at: folder.read(name)})
        said = outcome.said.decode("utf-8", "replace").strip().removeprefix("nitpicker: ")
        said = said or f"it has not ended within {runs.SECONDS} s, or was killed"
        word = {0: "right", 8: "wrong", 9: "wrong"}.get(outcome.status, "not checked")
        report.say(word, name, f"by `audit`: {said.replace(at, name)}")

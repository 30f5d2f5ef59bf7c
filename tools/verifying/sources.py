"""A run by its words: what it reads, what its scripts say, and which files it leaves."""
import os

import model
import runs
from expected import (Refused, Setup, generated, is_number, outputs_by_turns, script_of, setup_of,
                      still_setup)
from nests import FORBIDDEN, frames_of, made_script
from page.pixels import Scene
from page.sources import named_by, scripts_of
from valid_cases import Case

FORMS = {
    "still": ("W", "H", "SCRIPT"), "turns": ("CONFIG",), "run": ("CONFIG",), "gen": ("N",),
    "clip": ("CONFIG",), "capture": ("CONFIG", "X", "Y", "W", "H"), "nested": ("OUTER", "INNER"),
}
BY_TURNS = ("still", "turns")


class Run:
    """A run that the words begin. `clips` are the clip scripts of `clip`, `region` is that of
    `capture`, and `inner` what the inner run of `nested` leaves."""

    def __init__(self, words, files):
        self.words, self.files, self.made = words, files, {}
        self.clips, self.region, self.inner = [], None, {}
        self.setup = getattr(self, f"setup_of_{words[0]}")(*words[1:])

    def puts(self):
        """The names of the files that the run puts, in their order."""
        if not self.setup.has_texts:
            return ["final.ppm"]
        shots = [f"shot-{number}.ppm" for number in range(1, self.setup.user.count("shot") + 1)]
        texts = [f"events-{label}.txt" for label in self.setup.labels()]
        own = {"clip": ["clip.txt"], "capture": ["capture.ncap"], "nested": ["inner-journal.txt"]}
        return [*self.made, *shots, "final.ppm", *texts, "journal.txt",
                *own.get(self.words[0], [])]

    def is_by_turns(self):
        return self.words[0] in BY_TURNS

    def case(self, *words):
        return Case("verify", list(words), self.files)

    # What each command runs.

    def setup_of_still(self, width, height, script):
        return still_setup(self.case("still", width, height, script))

    def setup_of_turns(self, config):
        return setup_of(self.case("turns", config))

    setup_of_run = setup_of_turns

    def setup_of_gen(self, number):
        setup, self.made = generated(int(number))
        return setup

    def setup_of_clip(self, config):
        setup, case = self.setup_of_turns(config), self.case("turns", config)
        for client in setup.config["client"]:
            name = f"{client['script']}.clip"
            lines = script_of(case, name, model.is_clip_line)
            if lines.count("phase") != setup.user.count("phase"):
                raise Refused(6, f"{name}: phases differ")
            self.clips.append(lines)
        return setup

    def setup_of_capture(self, config, *region):
        setup = self.setup_of_turns(config)
        self.region = x, y, width, height = tuple(map(int, region))
        screen = setup.config["screen"]
        inside = x + width <= screen["width"] and y + height <= screen["height"]
        if not (inside and width and height):
            raise Refused(10, "capture outside")
        return setup

    def setup_of_nested(self, outer, inner):
        setup, shown = self.setup_of_turns(outer), self.setup_of_turns(inner)
        self.inner = outputs_by_turns(shown, Scene(shown.config))
        frames, name = frames_of(self.inner), setup.config["client"][0]["script"]
        own, *others = setup.clients
        bad = [number for number, line in enumerate(own, 1) if line.split(" ")[0] in FORBIDDEN]
        if bad:
            raise Refused(6, f"{name}: line {bad[0]}: bad script")
        if own.count("phase") != len(frames) - 1:
            raise Refused(6, f"{name}: phases differ")
        made = made_script(frames, own)
        if len(made) > model.MOST_LINES:
            raise Refused(11, f"{inner}: inner frames too long")
        return Setup(setup.config, [made, *others], setup.user)


def check_words(words):
    """That these are the words of a command that leaves files."""
    command, *given = words
    names = FORMS.get(command, ())
    if not names or len(given) != len(names):
        known = ", ".join(" ".join([name, *form]) for name, form in FORMS.items())
        raise runs.WrongWords(f"the words of a run are those of {known}")
    for name, word in zip(names, given):
        least, most = 0, 999999999
        if command == "still":
            least, most = 1, {"W": 1024, "H": 768}.get(name, 0)
        if len(name) == 1 and not is_number(word, least, most):
            raise runs.WrongWords(f"{name} of {command} is a number from {least} to {most}")


def paths_read(words, files):
    """Where the files lie that a run of these words reads."""
    configs, others = named_by(words)
    names = [*configs, *others]
    for config in configs:
        scripts = scripts_of(files.get(os.path.normpath(config), b""))
        names += scripts + [f"{script}.clip" for script in scripts if words[0] == "clip"]
    return {os.path.realpath(name) for name in names}

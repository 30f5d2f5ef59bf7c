"""What a page shows of a run: its steps, their states, its pictures, and what was checked."""
import sys

import model
import runs
from page.frames import Frames, check_picture, cut
from page.png import size_of
from page.replay import Replay, journal_lines, with_clips
from page.sources import Fault


class Run:
    """A run as a page shows it. `loads` says whether the rules give a frame behind each entry."""

    def __init__(self, name, setup, outcome, loads):
        self.name, self.setup, self.files = name, setup, outcome.files
        self.said = outcome.said.decode("utf-8", "replace").strip()
        self.replay = Replay(setup.config, loads)
        self.scene = self.replay.scene
        self.frames = Frames(self.scene.width, self.scene.height)
        self.pictures, self.checks, self.events = [], [], {}
        self.region = None

    def note_frame(self):
        self.frames.add(len(self.replay.steps), self.scene.pixels())

    def note_picture(self, name):
        self.pictures.append([name, len(self.replay.steps)])

    def entry_of(self, step):
        """The number of a step in the journal."""
        return self.replay.steps[step - 1].entry

    def file(self, name):
        data = self.files.get(name)
        if data is None:
            raise Fault(f"{name}: the program has not left it")
        return data

    # By turns: each frame is worked out.

    def by_turns(self):
        """Does all lines in the order by turns."""
        self.note_frame()
        user = len(self.setup.clients)
        lines = list(model.rounds(self.setup.clients + [self.setup.user]))
        for number, (who, line) in enumerate(lines, 1):
            tell(number, len(lines))
            if self.replay.act(who, line):
                self.note_frame()
                if who == user and line == "shot":
                    self.check_frame(f"shot-{self.replay.shots}.ppm")
        self.replay.finish()
        self.note_frame()
        self.check_frame("final.ppm")
        self.checks.append(f"The frame behind each entry is worked out by the rules. Where the "
                           f"program has left a picture ({len(self.pictures)} times), the frame "
                           f"is that picture, byte for byte.")

    def check_frame(self, name):
        check_picture(name, self.file(name), self.scene.frame())
        self.note_picture(name)

    def check_texts(self):
        """That the journal and the events are as the rules give them."""
        self.replay.check_all(journal_lines(self.file("journal.txt")))
        self.check_events()
        self.checks.append("Each reply, each delivery and the text of each client's events are "
                           "those of the rules.")

    # On threads: the order is the journal's, and the pictures are the program's.

    def by_journal(self):
        self.replay.follow(journal_lines(self.file("journal.txt")))
        for number, step in enumerate(self.replay.steps, 1):
            if step.kind in ("shot", "final"):
                name = "final.ppm" if step.kind == "final" else f"shot-{step.text[5:]}.ppm"
                self.take_picture(name, number)
        self.check_events()
        self.checks.append("Each reply, each delivery and the text of each client's events are "
                           "those of the rules along the order of this journal.")

    def take_picture(self, name, step):
        try:
            width, height, pixels = size_of(self.file(name))
        except ValueError as wrong:
            raise Fault(f"{name}: {wrong}") from wrong
        if (width, height) != (self.scene.width, self.scene.height):
            raise Fault(f"{name}: it is {width} by {height} pixels, which is not the screen")
        self.frames.add_whole(step, pixels)
        self.pictures.append([name, step])

    def check_final(self, inner=None):
        """That the last picture is what the scripts leave; the first client may show a picture."""
        for place, (drawing, lines) in enumerate(zip(self.scene.drawings, self.setup.clients)):
            if place == 0 and inner:
                width, height, pixels = inner
                drawing.do(f"buffer {width} {height}")
                if drawing.plan.size != (0, 0):
                    drawing.words[: len(pixels)] = pixels
                continue
            for line in lines:
                drawing.do(line)
        self.scene.loads = True
        self.scene.finish()
        check_picture("final.ppm", self.file("final.ppm"), self.scene.frame())
        self.checks.append("The last picture is, byte for byte, what the rules give for what the "
                           "scripts leave. The shots stand as the program has left them: what a "
                           "client had drawn by then was up to its thread.")

    # The texts.

    def check_events(self):
        """That the events of each client go with the journal. They are kept for the page."""
        texts = {name: journal_lines(self.file(name)) for name in map(events_name, self.labels())}
        for place, name in enumerate(texts):
            session = self.scene.sessions[place]
            taken = [step.text.split(" < ")[0].split(" ", 3)[3] for step in self.replay.steps
                     if step.kind == "take" and step.lane == place]
            right = [*taken, f"lost {session.lost}", f"left {len(session.queue)}",
                     f"state {session.state}"]
            if texts[name] != right:
                raise Fault(f"{name}: it does not go with the journal by the rules")
            self.events[place] = texts[name]

    def labels(self):
        return self.setup.labels()

    def check_clips(self):
        with_clips(self.replay, journal_lines(self.file("clip.txt")))
        places = [0] + [n for n, step in enumerate(self.replay.steps, 1) if step.kind != "clip"]
        for pair in [*self.pictures, *self.frames.list]:
            place = 1 if isinstance(pair[0], str) else 0
            pair[place] = places[pair[place]]
        self.checks.append("Each clip call is answered as the focus and the copies before it say.")

    def check_film(self, region):
        """That the film is the region of each picture."""
        film = runs.tool("film")
        reader = film.Reader(self.file("capture.ncap"))
        try:
            size = film.read_header(reader)
            pictures = [pixels for pixels, _, _ in film.read_pictures(reader, *size)]
        except film.NoFilm as wrong:
            raise Fault(f"capture.ncap: {wrong}") from wrong
        names = [name for name, _ in self.pictures]
        if size != tuple(region[2:]) or len(pictures) != len(names):
            raise Fault("capture.ncap: it is no film of the region of each picture")
        for name, picture in zip(names, pictures):
            if picture != cut(self.file(name), region):
                raise Fault(f"capture.ncap: its picture of {name} is not the region of it")
        self.region = list(region)
        self.checks.append(f"The film has {len(pictures)} pictures, and each is the region of the "
                           f"run's own picture.")

    # For the page.

    def data(self):
        clients = [{"label": client["label"], "layer": client.get("layer", 0),
                    "focus": client.get("focus", "click"), "donation": client["donation"],
                    "events": self.events.get(place)}
                   for place, client in enumerate(self.setup.config["client"])]
        steps = [[step.text, step.plain, step.lane, step.kind, step.why, step.told, step.entry]
                 for step in self.replay.steps]
        return {"name": self.name, "said": self.said, "clients": clients, "steps": steps,
                "width": self.scene.width, "height": self.scene.height,
                "tracks": self.replay.tracks.pairs, "frames": self.frames.list,
                "files": self.frames.files(), "pictures": self.pictures,
                "each": self.scene_is_drawn(), "region": self.region, "checks": self.checks}

    def scene_is_drawn(self):
        """Whether there is a frame behind each entry."""
        return bool(self.frames.list) and self.frames.list[0][0] == 0


def events_name(label):
    return f"events-{label}.txt"


def tell(number, count):
    """Says on a terminal how far a long run is."""
    if count >= 1000 and sys.stderr.isatty() and (number % 100 == 0 or number == count):
        print(f"\r{number} of {count} lines", end="\n" if number == count else "",
              file=sys.stderr, flush=True)

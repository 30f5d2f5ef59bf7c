"""What a shot on threads may show, by the second theorem of README.md.

A pixel that a call of its owner's loaded last has the very word that the owner's script had left
there at that call. Each other pixel of a buffer has a word that the script leaves at that place
after a number of its lines: just as many of these are calls as its client had made when the pixel
was loaded, and just as many are `phase` as phases were over. So the script is within the phase of
the entry for which the pixel was loaded: a word of a phase that is over stands there only if that
phase left it so. The pixel has the same word in all shots until an entry makes it dirty: one word
has to agree with all that these shots show there.
"""
from array import array
from bisect import bisect_left, bisect_right
from collections import namedtuple
from functools import cached_property

from expected import is_call
from model import Drawing
from page.pixels import Scene
from pictures import WrongPixel
from screen import header

# A load of words that are not told: how many calls the client had made, in which phase, where the
# buffer's first place lies on the screen, how wide the buffer is, and for which call or event it
# was.
Load = namedtuple("Load", "who made phase left top across entry")


class Changes:
    """For each place of a table the numbers of the lines that change its word, and these words. All
    words are 0 after no line, and a line sets a place once at most."""

    def __init__(self):
        self.line, self.by_place = 0, {}

    def __setitem__(self, place, word):
        numbers, words = self.by_place.setdefault(place, ([0], [0]))
        if word != words[-1]:
            numbers.append(self.line)
            words.append(word)


class Stages:
    """What stands at each place after 0, 1, .. or all lines of a script, and how many of these
    lines are calls and end phases."""

    def __init__(self, donation, lines):
        self.calls, self.phases, self.changes = [0], [0], Changes()
        drawing = Drawing(donation)
        drawing.words = self.changes
        for line in lines:
            self.changes.line += 1
            drawing.do(line)
            self.calls.append(self.calls[-1] + is_call(line))
            self.phases.append(self.phases[-1] + (line == "phase"))

    def words_at(self, place, made, phase):
        """The words that stand there after numbers of lines of which just so many are calls, and
        just so many `phase`: the script is within this phase."""
        least = max(bisect_left(self.calls, made), bisect_left(self.phases, phase))
        behind = min(bisect_right(self.calls, made), bisect_right(self.phases, phase))
        if behind <= least:
            return set()
        numbers, words = self.changes.by_place.get(place, ([0], [0]))
        return set(words[bisect_right(numbers, least) - 1 : bisect_left(numbers, behind)])


class SceneBeside(Scene):
    """The scene along the journal of a run on threads. Where the journal and the scripts do not
    tell the word of a pixel, the load is kept for which it was made dirty last, and the words that
    agree with all shots since then. A call of the owner's tells it again. One that does not load
    knows no pixels."""

    def __init__(self, config, scripts, actors, loads=True):
        super().__init__(config, loads)
        self.donations = [client["donation"] for client in config["client"]]
        self.scripts, self.left = scripts, [iter(lines) for lines in scripts]
        self.actors, self.made, self.told = actors, [0 for _ in scripts], []
        self.entry, self.loaded, self.numbers = 0, [None], {}
        self.load_at = array("I", bytes(4 * self.width * self.height))
        self.agreeing, self.by_chance = {}, 0

    @cached_property
    def stages(self):
        """The stages of each client. They are worked out for the first shot."""
        return [Stages(*pair) for pair in zip(self.donations, self.scripts)]

    def draw(self, who):
        """Does the lines of a client's script up to its next call, or all that are left."""
        for line in self.left[who] if self.loads else ():
            self.drawings[who].do(line)
            if is_call(line):
                break

    def call(self, who, line):
        self.draw(who)
        self.made[who] += 1
        self.entry += 1
        self.told = [self.sessions[who]]
        reply = super().call(who, line)
        self.told = []
        return reply

    def device(self, line):
        self.entry += 1
        return super().device(line)

    def finish(self):
        """The last picture loads what the whole scripts leave. All calls are done by then."""
        for who in range(len(self.scripts)):
            self.draw(who)
        self.told = self.sessions
        super().finish()

    def load_part(self, view, left, right, top, bottom):
        super().load_part(view, left, right, top, bottom)
        self.note((left, right), (top, bottom), 0)
        if view is None or view.session in self.told:
            return
        x, y = view.rect[0] + view.offset[0], view.rect[1] + view.offset[1]
        across, down = view.session.size
        columns = max(left, x), min(right, x + across)
        rows = max(top, y), min(bottom, y + down)
        if columns[0] < columns[1]:
            who = self.sessions.index(view.session)
            load = Load(who, self.made[who], self.actors.phase, x, y, across, self.entry)
            if load not in self.numbers:
                self.numbers[load] = len(self.loaded)
                self.loaded.append(load)
            self.note(columns, rows, self.numbers[load])

    def note(self, columns, rows, number):
        """Keeps the number of their load for the pixels of a rectangle, or 0 where it is told."""
        part = array("I", [number]) * (columns[1] - columns[0])
        for row in range(*rows):
            start = row * self.width + columns[0]
            self.load_at[start : start + len(part)] = part

    def may_hold(self, column, row):
        """The words of which a pixel holds one, whatever the shots show."""
        at = row * self.width + column
        load = self.loaded[self.load_at[at]]
        if load is None:
            return {int.from_bytes(self.raw[3 * at : 3 * at + 3], "big")}
        place = (row - load.top) * load.across + column - load.left
        return self.stages[load.who].words_at(place, load.made, load.phase)

    def fault_of_shot(self, picture):
        """What is wrong with a picture that is taken here, if something is. `by_chance` is then how
        many of its pixels might have shown another word."""
        self.by_chance = 0
        start, right = len(header(self.width, self.height)), self.frame()
        if picture[:start] != right[:start] or len(picture) != len(right):
            return f"it is no picture of {self.width} by {self.height} pixels"
        owners, labels = self.what_stands()
        for at in range(self.width * self.height):
            here = start + 3 * at
            if self.load_at[at] or picture[here : here + 3] != right[here : here + 3]:
                row, column = divmod(at, self.width)
                word = int.from_bytes(picture[here : here + 3], "big")
                shown = {raw: self.pixel(owners[row][column], labels, column, row, raw)
                         for raw in self.may_hold(column, row)}
                fault = self.fault_of_pixel(column, row, shown, word)
                if fault:
                    return fault
        return None

    def fault_of_pixel(self, column, row, shown, word):
        """What is wrong with this word at a pixel of a shot, where the pixel may hold any of some
        words, each with what it shows. Those that agree with all shots are kept."""
        at = row * self.width + column
        number = self.load_at[at]
        since, agreeing = self.agreeing.get(at, (0, None))
        if not number or since != number:
            agreeing = set(shown)
        self.by_chance += len({shown[raw] for raw in agreeing}) > 1
        kept = {raw for raw in agreeing if shown[raw] == word}
        if not kept:
            is_later = word in shown.values()
            return WrongPixel(column, row, word, {shown[raw] for raw in agreeing}, is_later)
        self.agreeing[at] = number, kept
        return None

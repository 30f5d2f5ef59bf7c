"""Frames by the rules of tools/screen.py, by rectangles instead of pixel by pixel.

The sessions, the stack and the user's input are those of that file. What is loaded and what a frame
shows is worked out here for whole rectangles, so that a large screen has a frame behind each entry
of a journal in reasonable time. The tests compare the two on random runs.

A picture is three bytes a pixel, red, green and blue, row by row from the top.
"""
from functools import cached_property
from itertools import groupby

import model
import screen

BARE = screen.BARE.to_bytes(3, "big")
HALVED = bytes(n // 2 for n in range(256))
REDDENED = bytes(128 + n // 2 for n in range(256))
GREY, WHITE, RED = b"\x80" * 3, b"\xff" * 3, b"\xff\0\0"


class Band:
    """Rows in which the owners are the same, as runs (left, right, view)."""

    def __init__(self, top, row):
        self.top, self.bottom, self.row, self.runs = top, top + 1, row, []
        left = 0
        for view, pixels in groupby(row):
            right = left + sum(1 for _ in pixels)
            self.runs.append((left, right, view))
            left = right


class Owners(list):
    """The rows of the owners of all pixels."""

    @cached_property
    def bands(self):
        """The same as bands from top to bottom."""
        bands = []
        for y, row in enumerate(self):
            if bands and bands[-1].row == row:
                bands[-1].bottom = y + 1
            else:
                bands.append(Band(y, row))
        return bands


def common(before, after):
    """The common parts of two lists of parts, from left to right. A part has its ends in front."""
    first, second = iter(before), iter(after)
    old, new = next(first), next(second)
    start = old[0]
    while True:
        end = min(old[1], new[1])
        yield start, end, old[2], new[2]
        start = end
        if old[1] == end:
            old = next(first, None)
        if new[1] == end:
            new = next(second, None)
        if old is None or new is None:
            return


class Drawing(model.Drawing):
    """The words that a script writes, three bytes each."""

    def __init__(self, donation):
        super().__init__(donation)
        self.words = bytearray()

    def do(self, line):
        word = line.split(" ")[0]
        if word in model.STROKES:
            self.stroke(line.split(" ")[1:])
        elif word != "phase" and self.plan.call(line) == "done" and word == "buffer":
            size = 3 * self.plan.size[0] * self.plan.size[1]
            self.words[:size] = bytes(size)

    def stroke(self, words):
        x, y, width, height = (int(word) for word in words[:4])
        colours = [int(word, 16).to_bytes(3, "big") for word in words[4:]] * 2
        across, down = self.plan.size
        count = min(x + width, across) - x
        if count <= 0:
            return
        rows = [(colours[odd] + colours[1 - odd]) * (count // 2 + 1) for odd in (0, 1)]
        for row in range(y, min(y + height, down)):
            start = 3 * (row * across + x)
            self.words[start : start + 3 * count] = rows[(row - y) % 2][: 3 * count]


def text_rows(text, width):
    """The seven rows of the picture of a text, cut off at the width."""
    columns = range(min(4 * len(text) + 1, width))
    return [b"".join(WHITE if screen.is_dot(text, x, y) else bytes(3) for x in columns)
            for y in range(7)]


class Scene(screen.Scene):
    """The scene of the rules, whose pixels are bytes. One that does not load knows no pixels."""

    def __init__(self, config, loads=True):
        super().__init__(config)
        self.loads = loads
        self.drawings = [Drawing(client["donation"]) for client in config["client"]]
        self.raw = bytearray(BARE * (self.width * self.height))
        self.known = None

    def owners(self):
        """The owners by the rules. They are kept while no view moves."""
        if not self.loads:
            return Owners()
        now = [(view, view.rect) for view in self.stack]
        if self.known is None or self.known[0] != now:
            self.known = now, Owners(super().owners())
        return self.known[1]

    # Loading.

    def load(self, before, after, is_dirty):
        if not self.loads:
            return
        old_bands = [(band.top, band.bottom, band) for band in before.bands]
        new_bands = [(band.top, band.bottom, band) for band in after.bands]
        for top, bottom, was, now in common(old_bands, new_bands):
            for left, right, old, new in common(was.runs, now.runs):
                if is_dirty(old, new, left, top):
                    self.load_part(new, left, right, top, bottom)

    def load_part(self, view, left, right, top, bottom):
        """Loads a rectangle of the screen that the view owns."""
        for row in range(top, bottom):
            start = 3 * (row * self.width + left)
            self.raw[start : start + 3 * (right - left)] = self.source(view, left, right, row)

    def source(self, view, left, right, row):
        """What the pixels of a row load. Where the buffer does not reach they are black."""
        if view is None:
            return BARE * (right - left)
        across, down = view.session.size
        x = left - view.rect[0] - view.offset[0]
        y = row - view.rect[1] - view.offset[1]
        first, last = max(x, 0), min(x + right - left, across)
        if not 0 <= y < down or first >= last:
            return bytes(3 * (right - left))
        words = self.drawings[self.sessions.index(view.session)].words
        inside = words[3 * (y * across + first) : 3 * (y * across + last)]
        return bytes(3 * (first - x)) + inside + bytes(3 * (x + right - left - last))

    def call(self, who, line):
        if not line.startswith("refresh "):
            return super().call(who, line)
        reply = self.sessions[who].call(line)
        if reply == "done":
            self.refresh(self.sessions[who], model.numbers_of(line))
        return reply

    def refresh(self, session, numbers):
        """Loads the pixels of the session that show this part of its buffer."""
        x, y, width, height = numbers
        across, down = session.size
        columns = max(x, 0), min(x + width, across)
        rows = max(y, 0), min(y + height, down)
        for band in self.owners().bands:
            for left, right, view in band.runs:
                if view is not None and view.session is session:
                    dx, dy = view.rect[0] + view.offset[0], view.rect[1] + view.offset[1]
                    part = (max(left, columns[0] + dx), min(right, columns[1] + dx),
                            max(band.top, rows[0] + dy), min(band.bottom, rows[1] + dy))
                    if part[0] < part[1]:
                        self.load_part(view, *part)

    # Frames.

    def frame(self):
        """The picture in the form P6."""
        return screen.header(self.width, self.height) + self.pixels()

    def pixels(self):
        """What the screen shows."""
        picture, owners = bytearray(self.raw), self.owners()
        for band in owners.bands:
            for left, right, view in band.runs:
                if view is None:
                    self.paint(picture, (left, right), (band.top, band.bottom), BARE)
                elif self.mode != "flat":
                    self.tint(picture, view, left, right, band)
        if self.mode != "flat":
            for place in self.label_places(owners).values():
                if place:
                    self.write(picture, *place)
        if self.bar:
            self.paint(picture, (0, self.width), (0, self.bar), bytes(3))
            self.write(picture, 0, 0, self.said())
        return bytes(picture)

    def said(self):
        """The text of the status bar."""
        if self.focused is None:
            return self.mode
        return f"{self.mode}:{self.labels[self.sessions.index(self.focused)]}"

    def paint(self, picture, columns, rows, colour):
        """Gives a rectangle one colour."""
        count = columns[1] - columns[0]
        for row in range(*rows):
            start = 3 * (row * self.width + columns[0])
            picture[start : start + 3 * count] = colour * count

    def write(self, picture, x, y, text):
        for row, pixels in enumerate(text_rows(text, self.width - x), y):
            start = 3 * (row * self.width + x)
            picture[start : start + len(pixels)] = pixels

    def tint(self, picture, view, left, right, band):
        """X-ray and kill mode within a run of a view, but for the label."""
        focused, kill = view.session is self.focused, self.mode == "kill"
        ring = RED if kill else WHITE if focused else GREY
        x, y, width, height = view.rect
        for row in range(band.top, band.bottom):
            if row in (y, y + height - 1):
                self.paint(picture, (left, right), (row, row + 1), ring)
                continue
            start, end = 3 * (row * self.width + left), 3 * (row * self.width + right)
            if kill or not focused:
                part = picture[start:end]
                picture[start:end] = part.translate(HALVED)
                if kill:
                    picture[start:end:3] = part[::3].translate(REDDENED)
            if left == x:
                picture[start : start + 3] = ring
            if right == x + width:
                picture[end - 3 : end] = ring

    def label_places(self, owners):
        """Where each label stands that has a place: the first one at which seven rows have room."""
        row_bands = [band for band in owners.bands for _ in range(band.top, band.bottom)]
        return {view: self.label_place(view, row_bands) for view in self.stack}

    def label_place(self, view, row_bands):
        text = self.label_of(view)
        _, y, _, height = view.rect
        room, tried = 4 * len(text) + 1, None
        for row in range(max(self.bar, y), min(self.height, y + height) - 6):
            bands = list(dict.fromkeys(row_bands[row : row + 7]))
            if bands != tried:
                left = first_room(view, bands, room)
                if left is not None:
                    return left, row, text
            tried = bands
        return None


def first_room(view, bands, room):
    """The first column from which the view owns so many pixels in each of these bands."""
    free = [(left, right) for left, right, owner in bands[0].runs if owner is view]
    for band in bands[1:]:
        own = [(left, right) for left, right, owner in band.runs if owner is view]
        free = [(max(a, c), min(b, d)) for a, b in free for c, d in own if max(a, c) < min(b, d)]
    return next((left for left, right in free if right - left >= room), None)

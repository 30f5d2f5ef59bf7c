"""The rules of tools/screen.py for screens whose texts are drawn otherwise: by glyphs.h beside."""
import re
from pathlib import Path

from screen import Scene

PICTURES = (Path(__file__).parent / "glyphs.h").read_text()


def glyphs_of(name, rows):
    """The rows of each glyph of a table: which of its columns have a dot."""
    lines = re.findall(r'"(.*)"', PICTURES.partition(f"{name}_glyphs")[2].partition("};")[0])
    glyphs = {" ": [""] * rows}
    for head in range(0, len(lines), 1 + rows):
        for found in re.finditer(r"\S", lines[head]):
            glyphs[found[0]] = [row[found.start():].split(" ")[0]
                                for row in lines[head + 1 : head + 1 + rows]]
    return glyphs


class Letters:
    """Small or large glyphs, each dot so many pixels wide and high."""

    def __init__(self, is_large, scale):
        self.is_large, self.scale = is_large, scale
        columns, rows = (5, 7) if is_large else (3, 5)
        self.step, self.height = columns + 1, scale * (rows + 2)
        self.glyphs = glyphs_of("large" if is_large else "small", rows)

    def width(self, text):
        return self.scale * (self.step * len(text) + 1)

    def is_dot(self, text, x, y):
        (at, column), row = divmod(x // self.scale, self.step), y // self.scale
        if column == 0 or row == 0 or at >= len(text):
            return False
        rows = self.glyphs[text[at]]
        return row <= len(rows) and rows[row - 1][column - 1 : column] == "#"


class LetteredScene(Scene):
    """A scene whose labels and status bar are drawn by these letters."""

    def __init__(self, config, letters):
        super().__init__(config)
        self.letters = letters
        self.bar = letters.height if self.bar else 0

    def label_places(self, owners):
        places, height = {}, self.letters.height
        for view in self.stack:
            text = self.label_of(view)
            wide = [view] * self.letters.width(text)
            places[view] = next(
                ((x, y, text)
                 for y in range(self.bar, self.height - height + 1)
                 for x in range(self.width - len(wide) + 1)
                 if all(row[x : x + len(wide)] == wide for row in owners[y : y + height])), None)
        return places

    def picture(self, text, x, y):
        """The word at a pixel of the picture of a text."""
        return 0xFFFFFF if self.letters.is_dot(text, x, y) else 0

    def pixel(self, view, labels, column, row, raw):
        if row >= self.bar:
            return self.shown(view, labels, column, row, raw)
        said = self.mode
        if self.focused is not None:
            said += ":" + self.labels[self.sessions.index(self.focused)]
        return self.picture(said, column, row)

    def shown(self, view, labels, column, row, raw):
        if self.mode != "flat" and view is not None and labels[view]:
            x, y, text = labels[view]
            across, down = column - x, row - y
            if 0 <= across < self.letters.width(text) and 0 <= down < self.letters.height:
                return self.picture(text, across, down)
        return super().shown(view, {view: None}, column, row, raw)

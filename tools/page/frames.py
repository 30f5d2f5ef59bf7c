"""The pictures of a page: whole ones, and what differs from the picture before, as PNG files."""
import base64

from page.png import differences, part_of, png, size_of
from page.sources import Fault

EACH_WHOLE = 24


class Frames:
    """Pictures of one size, each at a step. Equal PNG files are kept once."""

    def __init__(self, width, height):
        self.width, self.height = width, height
        self.last, self.since, self.list, self.kept = None, 0, [], {}

    def png(self, pixels, width, height):
        """The place of a picture's PNG file among those that are kept."""
        data = base64.b64encode(png(pixels, width, height)).decode()
        return self.kept.setdefault(data, len(self.kept))

    def add_whole(self, step, pixels):
        rect = [0, 0, self.width, self.height]
        self.list.append([step, [[*rect, self.png(pixels, *rect[2:])]]])
        self.last, self.since = pixels, 0

    def add(self, step, pixels):
        """A picture as what differs from the one before, and now and then as a whole."""
        if pixels == self.last:
            return
        if self.last is None or self.since == EACH_WHOLE:
            self.add_whole(step, pixels)
            return
        rects = differences(self.last, pixels, self.width)
        parts = [[*rect, self.png(part_of(pixels, self.width, rect), *rect[2:])] for rect in rects]
        self.list.append([step, parts])
        self.last, self.since = pixels, self.since + 1

    def files(self):
        return list(self.kept)


def check_picture(name, left, made):
    """That a picture which the program has left is the one by the rules."""
    if left == made:
        return
    try:
        width, height, pixels = size_of(left)
        *size, right = size_of(made)
    except (ValueError, TypeError) as wrong:
        raise Fault(f"{name}: it is no picture in the form P6") from wrong
    if [width, height] != size:
        raise Fault(f"{name}: it is {width} by {height} pixels, which is not the screen")
    at = next(at for at in range(0, len(right), 3) if pixels[at : at + 3] != right[at : at + 3])
    raise Fault(f"{name}: the pixel at ({at // 3 % width}, {at // 3 // width}) is "
                f"{pixels[at : at + 3].hex().upper()}, and by the rules it is "
                f"{right[at : at + 3].hex().upper()}")


def cut(picture, rect):
    """The region of a P6 picture, as pixels."""
    width, _, pixels = size_of(picture)
    return part_of(pixels, width, rect)

"""Pictures in the form P6 as docs/FORMATS.md has it, and where two of them differ."""
import re

MOST_COLUMNS, MOST_ROWS = 1024, 768
MOST_TOLD = 6
HEADER = re.compile(rb"P6\n([1-9][0-9]{0,3}) ([1-9][0-9]{0,2})\n255\n")


class NoPicture(Exception):
    """Why bytes are no picture."""


def read_picture(data):
    """The width and the height of a picture, and its pixels, three bytes each."""
    match = HEADER.match(data)
    if match is None:
        raise NoPicture("no picture: it does not begin with P6, a width, a height and 255, as "
                        "docs/FORMATS.md has them")
    width, height, pixels = int(match[1]), int(match[2]), data[match.end() :]
    if width > MOST_COLUMNS or height > MOST_ROWS:
        raise NoPicture(f"no picture is {width} by {height}")
    if len(pixels) != 3 * width * height:
        raise NoPicture(f"no picture: {width} by {height} pixels have {3 * width * height} bytes, "
                        f"and it has {len(pixels)}")
    return width, height, pixels


class WrongPixel:
    """A pixel that shows a word which it cannot hold, and those that it may show."""

    def __init__(self, column, row, word, right, is_later=False):
        self.column, self.row, self.word = column, row, word
        self.right, self.is_later = sorted(right), is_later

    def __str__(self):
        words = " or ".join(f"{word:06X}" for word in self.right)
        if len(self.right) > MOST_TOLD:
            words = f"one of {len(self.right)} words"
        later = " after what earlier shots show" if self.is_later else ""
        return f"the pixel at ({self.column}, {self.row}) cannot be {self.word:06X}{later}, " \
            f"but {words}"


def fault_of_picture(left, right):
    """What is wrong with a picture that is to be the right one, if something is."""
    if left == right:
        return None
    width, height, pixels = read_picture(right)
    try:
        size, shown = read_picture(left)[:2], left[-len(pixels) :]
    except NoPicture as wrong:
        return str(wrong)
    if size != (width, height):
        return f"it is {size[0]} by {size[1]} pixels, and not {width} by {height}"
    at = next(at for at in range(0, len(pixels), 3) if shown[at : at + 3] != pixels[at : at + 3])
    word, wanted = (int.from_bytes(data[at : at + 3], "big") for data in (shown, pixels))
    return WrongPixel(at // 3 % width, at // 3 // width, word, {wanted})

"""Pictures as PNG files, by Python's zlib, and what differs between two pictures.

A picture is three bytes a pixel, red, green and blue, row by row from the top.
"""
import struct
import zlib

GAP = 6


def chunk(kind, data):
    return struct.pack(">I", len(data)) + kind + data + struct.pack(">I", zlib.crc32(kind + data))


def png(pixels, width, height):
    """The PNG file of a picture: by a palette where it has at most 256 colours."""
    rows = [pixels[3 * width * y : 3 * width * (y + 1)] for y in range(height)]
    colours = sorted({row[at : at + 3] for row in set(rows) for at in range(0, 3 * width, 3)})
    palette, depth, kind = b"", 8, 2
    if len(colours) <= 256:
        depth = next(bits for bits in (1, 2, 4, 8) if len(colours) <= 1 << bits)
        places = {colour: place for place, colour in enumerate(colours)}
        packed = {row: packed_row(row, places, depth) for row in set(rows)}
        rows = [packed[row] for row in rows]
        palette, kind = chunk(b"PLTE", b"".join(colours)), 3
    header = chunk(b"IHDR", struct.pack(">IIBBBBB", width, height, depth, kind, 0, 0, 0))
    data = chunk(b"IDAT", zlib.compress(b"".join(filtered(rows)), 9))
    return b"\x89PNG\r\n\x1a\n" + header + palette + data + chunk(b"IEND", b"")


def packed_row(row, places, depth):
    """The places of a row's colours in the palette, so many bits each."""
    row_places = [places[row[at : at + 3]] for at in range(0, len(row), 3)]
    each = 8 // depth
    row_places += [0] * (-len(row_places) % each)
    packed = bytearray(len(row_places) // each)
    for first in range(each):
        for at, place in enumerate(row_places[first::each]):
            packed[at] |= place << depth * (each - 1 - first)
    return bytes(packed)


def filtered(rows):
    """Each row behind its filter: a row like the one above is all zeros, less that row."""
    above = None
    for row in rows:
        yield b"\2" + bytes(len(row)) if row == above else b"\0" + row
        above = row


def size_of(data):
    """The width and the height of a P6 picture, and its pixels."""
    form, size, depth, pixels = data.split(b"\n", 3)
    width, height = (int(number) for number in size.split(b" "))
    if form != b"P6" or depth != b"255" or len(pixels) != 3 * width * height:
        raise ValueError("no picture in the form P6")
    return width, height, pixels


def part_of(pixels, width, rect):
    """The pixels of a rectangle (x, y, width, height) of a picture."""
    x, y, across, down = rect
    starts = (3 * (row * width + x) for row in range(y, y + down))
    return b"".join(pixels[start : start + 3 * across] for start in starts)


def differences(before, after, width):
    """The rectangles (x, y, width, height) out of which two pictures of one size are the same."""
    if before == after:
        return []
    size, groups = 3 * width, []
    for y in range(len(after) // size):
        old, new = before[size * y : size * (y + 1)], after[size * y : size * (y + 1)]
        if old != new:
            left, right = ends(old, new)
            if groups and y - groups[-1][3] <= GAP:
                group = groups[-1]
                groups[-1] = min(group[0], left), group[1], max(group[2], right), y + 1
            else:
                groups.append((left, y, right, y + 1))
    return [(left, top, right - left, bottom - top) for left, top, right, bottom in groups]


def ends(old, new):
    """The first column in which two rows differ, and the one behind the last."""
    mixed = int.from_bytes(old, "big") ^ int.from_bytes(new, "big")
    last = (mixed & -mixed).bit_length() - 1
    first = mixed.bit_length() - 1
    return (len(old) - 1 - first // 8) // 3, (len(old) - 1 - last // 8) // 3 + 1

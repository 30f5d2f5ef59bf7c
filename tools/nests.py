"""The inner pictures of `nested` as lines of a script, by docs/FORMATS.md."""
import model
from pictures import read_picture

FORBIDDEN = ("buffer", "fill", "check", "close")


def frames_of(outputs):
    """The pictures of a run, in their order, as rows of words."""
    shots = [name for name in outputs if name.startswith("shot-")]
    return [rows_of(outputs[name]) for name in [*shots, "final.ppm"]]


def rows_of(picture):
    width, _, pixels = read_picture(picture)
    words = [pixels[at : at + 3].hex().upper() for at in range(0, len(pixels), 3)]
    return [words[at : at + width] for at in range(0, len(words), width)]


def frame_lines(rows):
    lines = []
    for y, row in enumerate(rows):
        x = 0
        while x < len(row):
            end = x
            while end < len(row) and row[end] == row[x]:
                end += 1
            lines.append(f"fill {x} {y} {end - x} 1 {row[x]}")
            x = end
    return [*lines, f"refresh 0 0 {len(rows[0])} {len(rows)}"]


def made_script(frames, own):
    """The script of the first outer client, whose own lines these are, with the inner frames."""
    drawn = [frame_lines(rows) for rows in frames]
    parts = model.by_phases(own)
    lines = [f"buffer {len(frames[0][0])} {len(frames[0])}"]
    for frame, part in zip(drawn, parts):
        lines += frame + part
    return lines

"""The film of a run against its pictures."""
import runs
from page.png import part_of
from pictures import NoPicture, fault_of_picture, read_picture
from screen import header

film = runs.tool("film")


def check_film(run, folder, report):
    """That the film has each picture of the folder, cut to the region, and is spelled as the
    format has it. The format leaves no choice, so each byte is looked at."""
    names = [name for name in run.puts() if name.endswith(".ppm")]
    absent = [name for name in names if not folder.has(name)]
    if absent:
        report.say("not checked", "capture.ncap", f"{absent[0]} is not there")
        return
    try:
        parts = {name: region_of(folder.read(name), run.region) for name in names}
    except NoPicture:
        report.say("not checked", "capture.ncap", "a file of the run is no picture")
        return
    fault = fault_of_film(folder.read("capture.ncap"), parts, run.region)
    report.judge("capture.ncap", fault, f"{len(names)} pictures, each the region of the run's own")


def region_of(picture, region):
    """The region of a picture, as a picture."""
    width, height, pixels = read_picture(picture)
    x, y, across, down = region
    if x + across > width or y + down > height:
        raise NoPicture("it does not have the region")
    return header(across, down) + part_of(pixels, width, region)


def fault_of_film(data, parts, region):
    """The first byte of a film that has no reading, or the first pixel of its pictures that is
    not the one of these."""
    reader, left = film.Reader(data), list(parts.items())
    try:
        size = film.read_header(reader)
        if size != tuple(region[2:]):
            return f"byte 4: its pictures are {size[0]} by {size[1]}"
        for pixels, _, length in film.read_pictures(reader, *size):
            start = reader.at - length
            if not left:
                return f"byte {start}: a picture more than the run has"
            name, right = left.pop(0)
            fault = fault_of_picture(header(*size) + pixels, right)
            if fault:
                return f"byte {start} begins the picture {name}, in which {fault}"
    except film.NoFilm as wrong:
        return str(wrong)
    return f"byte {reader.at - 1}: it ends in front of {left[0][0]}" if left else None

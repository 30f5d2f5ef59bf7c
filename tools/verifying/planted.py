"""Errors for folders that are right, each with the file that it makes wrong and what has to be said
of that, for the self-test of tools/verify."""
from pictures import read_picture
from verifying.made import film_of

ABSENT, OTHER = "it is not there", "it is none of the files of this run"
REPLIES = ("done", "handle 999999", "no-event", "bad-rect", "bad-size", "bad-title", "killed",
           "closed", "too-many-views", "event leave", "no-such-view 0", "out-of-quota 1 0")


class Plant:
    """A folder's files with an error: the file that is wrong, and what has to be said of it."""

    def __init__(self, name, files, has=""):
        self.name, self.files, self.has = name, files, has


def with_file(made, name, data, has=""):
    """The folder with other bytes in a file, or none where that is no change."""
    return Plant(name, made.puts | {name: data}, has) if data != made.puts[name] else None


def pictures(made):
    return [name for name in made.puts if name.endswith(".ppm")]


# Pictures.


def pixel(rng, made):
    """A pixel shows a word that is nowhere in the run, and is not mixed of such words."""
    name = rng.choice(pictures(made))
    width, _, pixels = read_picture(made.puts[name])
    at, word = rng.randrange(len(pixels) // 3), 0xABCDEF ^ 1 << rng.randrange(24)
    start = len(made.puts[name]) - len(pixels) + 3 * at
    data = made.puts[name]
    data = data[:start] + word.to_bytes(3, "big") + data[start + 3 :]
    return with_file(made, name, data, f"the pixel at ({at % width}, {at // width}) cannot be "
                                       f"{word:06X}, but ")


def picture_bytes(rng, made):
    """A picture is cut, or has a byte more, or another header."""
    name = rng.choice(pictures(made))
    data = made.puts[name]
    kinds = {"cut": data[:-1], "more": data + b"\0", "form": b"P3" + data[2:],
             "space": data.replace(b"\n255\n", b" 255\n", 1), "empty": b"",
             "zero": data.replace(b" ", b" 0", 1)}
    return with_file(made, name, kinds[rng.choice(sorted(kinds))], "no picture")


# Journals.


def lines_of(made, name="journal.txt"):
    """The lines of a text, or of one that is not there none."""
    return made.puts.get(name, b"").decode("latin-1").split("\n")[:-1]


def with_lines(made, name, lines, has=""):
    return with_file(made, name, "".join(f"{line}\n" for line in lines).encode("latin-1"), has)


def place_of(rng, lines, start):
    """The place of one of the lines that begin so, or none."""
    places = [at for at, line in enumerate(lines) if line.startswith(start)]
    return rng.choice(places) if places else None


def reply(rng, made):
    """A call has another reply."""
    lines = lines_of(made)
    at = place_of(rng, lines, "call ")
    if at is None:
        return None
    front, line = lines[at].split(" < ", 1)
    _, who, _ = front.split(" ", 2)
    lines[at] = f"call {who} {rng.choice(REPLIES)} < {line}"
    return with_lines(made, "journal.txt", lines, f"line {at + 1}: ")


def delivery(rng, made):
    """A delivery is lacking, goes to another session, is twice there, or is one too many."""
    lines = lines_of(made)
    at = place_of(rng, lines, "input ")
    if at is None:
        return None
    line, *told = lines[at].split(" > ")
    if told:
        place = rng.randrange(len(told))
        who, item = told[place].split(" ", 1)
        kinds = [[], [told[place]] * 2, [f"{(int(who) + 1) % 16} {item}"], [f"{who} {item} 1"]]
        told[place : place + 1] = rng.choice(kinds)
    else:
        told = [f"{rng.randrange(2)} {line.removeprefix('input ')}"]
    lines[at] = " > ".join([line, *told])
    return with_lines(made, "journal.txt", lines, f"line {at + 1}: ")


def entry_gone(rng, made):
    lines = lines_of(made)
    if lines:
        lines.pop(rng.randrange(len(lines)))
    return with_lines(made, "journal.txt", lines, "line ") if lines else None


def entry_twice(rng, made):
    lines = lines_of(made)
    if not lines:
        return None
    at = rng.randrange(len(lines))
    lines.insert(at, lines[at])
    return with_lines(made, "journal.txt", lines, "line ")


def swapped(rng, made):
    """Two entries of one actor stand in the other order."""
    lines = lines_of(made)
    at = place_of(rng, lines, rng.choice(["call 0 ", "call 1 ", "input "]))
    if at is None:
        return None
    actor = " ".join(lines[at].split(" ")[: 1 if lines[at].startswith("input ") else 2])
    other = place_of(rng, lines, actor + " ")
    lines[at], lines[other] = lines[other], lines[at]
    return with_lines(made, "journal.txt", lines, "line ")


def journal_end(rng, made):
    """The end of the journal is another one."""
    if not lines_of(made):
        return None
    data = made.puts["journal.txt"]
    data = rng.choice([data[:-1], data[:-6], data + b"final\n", data + b"shot 1\n", data + b"\n",
                       data[:-6] + b"Final\n"])
    return with_file(made, "journal.txt", data, "line ")


def phase_early(_rng, made):
    """An entry stands in front of one of the phase before its own."""
    lines = lines_of(made)
    for at in range(1, len(made.phases)):
        if made.phases[at - 1] < made.phases[at]:
            lines[at - 1], lines[at] = lines[at], lines[at - 1]
            return with_lines(made, "journal.txt", lines, "line ")
    return None


def shot_number(rng, made):
    lines = lines_of(made)
    at = place_of(rng, lines, "shot ")
    if at is None:
        return None
    lines[at] = f"shot {int(lines[at][5:]) + rng.choice([-1, 1, 10])}"
    return with_lines(made, "journal.txt", lines, f"line {at + 1}: ")


# The other texts.


def events(rng, made):
    """A line of the events is another one, gone or twice there."""
    names = sorted(name for name in made.puts if name.startswith("events-"))
    if not names:
        return None
    name = rng.choice(names)
    lines = lines_of(made, name)
    at = rng.randrange(len(lines))
    lines[at : at + 1] = rng.choice([[], [lines[at]] * 2, [lines[at] + "1"], ["press 30"],
                                     ["state dead"]])
    return with_lines(made, name, lines, "line ")


def clip(rng, made):
    """A clip entry has another reply or place, is gone, or is twice there."""
    lines = lines_of(made, "clip.txt")
    if not lines:
        return None
    at = rng.randrange(len(lines))
    word, place, who, rest = lines[at].split(" ", 3)
    said, line = rest.split(" < ", 1)
    other = "empty" if said == "not-focused" else "not-focused"
    lines[at : at + 1] = rng.choice([
        [], [lines[at]] * 2, [f"{word} {place} {who} {other} < {line}"],
        [f"{word} {int(place) + 100000} {who} {rest}"], [f"{word} {place} {who} {rest}x"]])
    return with_lines(made, "clip.txt", lines, "line ")


def clip_order(rng, made):
    """The places of a clip list fall once."""
    lines = lines_of(made, "clip.txt")
    places = [int(line.split(" ")[1]) for line in lines]
    rises = [at for at in range(1, len(lines)) if places[at - 1] < places[at]]
    if not rises:
        return None
    at = rng.choice(rises)
    lines[at - 1], lines[at] = lines[at], lines[at - 1]
    return with_lines(made, "clip.txt", lines, "line ")


def clip_early(_rng, made):
    """The first clip call stands in front of calls that its client has made before it."""
    lines = lines_of(made, "clip.txt")
    if not lines or " not-focused < " not in lines[0]:
        return None
    _, place, who, rest = lines[0].split(" ", 3)
    if not any(entry.startswith(f"call {who} ") for entry in lines_of(made)[: int(place)]):
        return None
    lines[0] = f"clip 0 {who} {rest}"
    return with_lines(made, "clip.txt", lines, "line 1: ")


def clip_late(_rng, made):
    """The last clip call stands behind an entry of a later phase than its own."""
    lines = lines_of(made, "clip.txt")
    if not lines or not made.phases or made.phases[-1] <= made.clip_phases[-1]:
        return None
    _, _, who, rest = lines[-1].split(" ", 3)
    lines[-1] = f"clip {len(made.phases)} {who} {rest}"
    return with_lines(made, "clip.txt", lines, f"line {len(lines)}: ")


def inner(rng, made):
    """A line of the inner journal is another one."""
    lines = lines_of(made, "inner-journal.txt")
    if not lines:
        return None
    at = rng.randrange(len(lines))
    lines[at] = lines[at] + " "
    return with_lines(made, "inner-journal.txt", lines, f"line {at + 1}: ")


def text_bytes(rng, made):
    """A byte of a text has another bit. A place of a clip list may be another one."""
    names = [name for name, data in made.puts.items()
             if name.endswith(".txt") and name != "clip.txt" and data]
    if not names:
        return None
    name = rng.choice(names)
    data = bytearray(made.puts[name])
    data[rng.randrange(len(data))] ^= 1 << rng.randrange(7)
    return with_file(made, name, bytes(data), "line ")


# Films.


def film_byte(rng, made):
    """A byte of the film has another bit, the film is cut, or goes on."""
    film = made.puts.get("capture.ncap")
    if film is None:
        return None
    data = bytearray(film)
    data[rng.randrange(len(data))] ^= 1 << rng.randrange(8)
    data = rng.choice([bytes(data)] * 4 + [film[:-1], film + b"\0"])
    return with_file(made, "capture.ncap", data, "byte ")


def film_pictures(rng, made):
    """The film is a right one, of other pictures or of another region."""
    if "capture.ncap" not in made.puts:
        return None
    shown, region = [made.puts[name] for name in pictures(made)], region_of(made)
    x, y, width, height = region
    if rng.random() < 0.5 and width > 1:
        region = x, y, width - 1, height
    elif rng.random() < 0.5 or len(shown) == 1:
        shown.append(shown[0])
    else:
        shown.pop()
    return with_file(made, "capture.ncap", film_of(shown, region), "byte ")


def film_spelling(rng, made):
    """The film has the right pictures, with a run for each pixel, or with each tile."""
    if "capture.ncap" not in made.puts:
        return None
    shown = [made.puts[name] for name in pictures(made)]
    more = rng.choice([{"longest": 1}, {"is_put": lambda *_: True}])
    film = film_of(shown, region_of(made), **more)
    return with_file(made, "capture.ncap", film, "byte ")


def region_of(made):
    return tuple(map(int, made.words[2:]))


# Files.


def file_gone(rng, made):
    name = rng.choice(sorted(made.puts))
    return Plant(name, {other: data for other, data in made.puts.items() if other != name}, ABSENT)


def file_more(rng, made):
    shots = sum(name.startswith("shot-") for name in made.puts)
    name = rng.choice([f"shot-{shots + 1}.ppm", "shot-70000.ppm", "events-no.such.txt", "a", "clip",
                       "events-.txt", "journal.txt.1.part", "in/final.ppm"])
    return Plant(name.split("/", maxsplit=1)[0], made.puts | {name: b"lost 0\n"}, OTHER)


KINDS = (pixel, picture_bytes, reply, delivery, entry_gone, entry_twice, swapped, journal_end,
         phase_early, shot_number, events, clip, clip_order, clip_early, clip_late, inner,
         text_bytes, film_byte, film_pictures, film_spelling, file_gone, file_more)

"""The cases of tools/selftest for the tools that look at what a run leaves."""
import json
import shutil
import struct

import runs
import shots_by_hand
from page.test_rules import read_png
from screen import header

BLUE, RED = b"\x00\x00\xff", b"\xff\x00\x00"

# The film of docs/FORMATS.md: 4 by 2 pixels, all blue and then all red.
FILM = bytes.fromhex("4E434150 0400 0200 01 0100 0000 070000FF 01 0100 0000 07FF0000 00")

# What tools/json-lines says of each line of a journal, besides its number and its text.
CALLS = {"kind": "call", "session": 0}
LINES = {
    "call 0 handle 2 < view": CALLS | {
        "call": "view", "arguments": [], "reply": "handle", "numbers": [2]},
    "call 0 done < place 1 -4 0 30 12": CALLS | {
        "call": "place", "arguments": [1, -4, 0, 30, 12], "reply": "done", "numbers": []},
    "call 0 bad-title < title 1 =a < b = 2": CALLS | {
        "call": "title", "arguments": [1, "a < b = 2"], "reply": "bad-title", "numbers": []},
    "call 0 out-of-quota 512 256 < buffer 8 8": CALLS | {
        "call": "buffer", "arguments": [8, 8], "reply": "out-of-quota", "numbers": [512, 256]},
    "call 0 event motion 1 1 < take": CALLS | {
        "call": "take", "arguments": [], "reply": "event", "event": "motion", "numbers": [1, 1]},
    "call 0 event focus-enter < take": CALLS | {
        "call": "take", "arguments": [], "reply": "event", "event": "focus-enter", "numbers": []},
    "input wheel -3": {"kind": "input", "input": "wheel", "arguments": [-3], "deliveries": []},
    "input motion 6 1 > 0 leave > 1 motion 6 1": {
        "kind": "input", "input": "motion", "arguments": [6, 1], "deliveries": [
            {"session": 0, "item": "leave", "numbers": []},
            {"session": 1, "item": "motion", "numbers": [6, 1]}]},
    "shot 12": {"kind": "shot", "number": 12},
    "final": {"kind": "final"},
}


def try_film(kit):
    folder = kit.top / "film"
    shutil.copytree(runs.TOP / "examples" / "capture", folder)
    words = ["capture", "capture.toml", "0", "0", "8", "4"]
    files = runs.run(kit.program, words, folder).files
    film = files["capture.ncap"]
    (folder / "cut.ncap").write_bytes(film[:-1])
    yield from kit.pair("film", [folder / "capture.ncap", folder / "pictures"],
                        [folder / "cut.ncap", folder / "cut"], "ends too early")
    left = runs.read_files(folder / "pictures")
    for number, name in enumerate(["shot-1.ppm", "shot-2.ppm", "final.ppm"], 1):
        if left.get(f"{number}.ppm") != cut_to(files[name], 8, 4):
            yield f"tools/film: {number}.ppm is not the corner of {name}"
    (folder / "small.ncap").write_bytes(FILM)
    yield from kit.faults("film", ["--png", folder / "small.ncap", folder / "small"], 0)
    left = runs.read_files(folder / "small")
    yield from faults_of_png("film", left, {"1.png": (4, 2, 8 * BLUE), "2.png": (4, 2, 8 * RED)})


def faults_of_png(tool, left, right):
    """Where files are not the PNG files of these pictures."""
    if left.keys() != right.keys():
        yield f"tools/{tool}: it writes {', '.join(left) or 'nothing'}"
        return
    for name, (width, height, pixels) in right.items():
        if struct.unpack(">II", left[name][16:24]) != (width, height) \
                or read_png(left[name]) != pixels:
            yield f"tools/{tool}: {name} is another picture"


def try_png(kit):
    """A picture of a few colours, one of many, and files that are no pictures."""
    folder, shades = kit.top / "pictures", bytes(n * k % 256 for n in range(900) for k in (1, 3, 7))
    runs.write_files(folder, {
        "shot-1.ppm": header(4, 2) + 4 * (BLUE + RED), "many.ppm": header(30, 30) + shades,
        "text.ppm": b"state live\n", "cut.ppm": header(4, 2) + 7 * RED,
        "wide.ppm": header(1025, 1) + 1025 * RED, "plain.ppm": b"P3" + header(1, 1)[2:] + RED,
        "zero.ppm": b"P6\n04 2\n255\n" + 8 * RED, "two.ppm": header(1, 1) + 2 * RED})
    out = ["--out", folder / "out"]
    yield from kit.faults("png", [*out, folder / "shot-1.ppm", folder / "many.ppm"], 0)
    right = {"shot-1.png": (4, 2, 4 * (BLUE + RED)), "many.png": (30, 30, shades)}
    yield from faults_of_png("png", runs.read_files(folder / "out"), right)
    for name in ("text", "cut", "wide", "plain", "zero", "two"):
        wrong = folder / f"{name}.ppm"
        yield from kit.faults("png", [wrong, folder / "shot-1.ppm"], 1, f"{wrong}: no picture")
    left = {path.name: path.read_bytes() for path in folder.glob("*.png")}
    yield from faults_of_png("png", left, {"shot-1.png": right["shot-1.png"]})
    yield from kit.faults("png", [folder / "absent.ppm"], 2, "absent.ppm: No such file")
    (folder / "\u00fc.ppm").write_bytes(header(1, 1) + RED)
    yield from kit.faults("png", ["--out", folder / "ascii", folder / "\u00fc.ppm"], 0,
                          "\\xfc.png: 1 by 1", PYTHONIOENCODING="ascii")
    yield from kit.faults("png", ["--scale", "0", folder / "shot-1.ppm"], 2, "from 1 to 64")
    large = ["--out", folder / "large", "--scale", "2", folder / "shot-1.ppm"]
    yield from kit.faults("png", large, 0)
    right = {"shot-1.png": (8, 4, 8 * (2 * BLUE + 2 * RED))}
    yield from faults_of_png("png", runs.read_files(folder / "large"), right)


def try_json_lines(kit):
    journal, config = kit.top / "journal.txt", runs.TOP / "examples" / "two" / "two.toml"
    journal.write_text("".join(f"{line}\n" for line in LINES))
    for labels, words in ((None, [journal]), (["a", "b"], [journal, config])):
        ended = kit.run("json-lines", *words)
        said = [json.loads(line) for line in ended.stdout.splitlines()]
        right = [labelled({"entry": number, "text": line} | keys, labels)
                 for number, (line, keys) in enumerate(LINES.items(), 1)]
        if ended.returncode != 0 or said != right:
            yield f"tools/json-lines: status {ended.returncode}, said {said}"
    for text, has in (("call 0 done < views\n", "line 1: bad journal"),
                      ("final\ncall 2 done < close\n", "has no session 2")):
        journal.write_text(text)
        yield from kit.faults("json-lines", [journal, config], 1, has)
    yield from kit.faults("json-lines", [kit.top / "absent.txt"], 2, "absent.txt: No such file")


def labelled(made, labels):
    """An object with the label of each session in it."""
    parts = [made, *made.get("deliveries", [])]
    rows = [part | ({"label": labels[part["session"]]} if labels and "session" in part else {})
            for part in parts]
    return rows[0] | ({"deliveries": rows[1:]} if "deliveries" in made else {})


def cut_to(picture, width, height):
    """The upper left corner of a picture."""
    head, size, most, body = picture.split(b"\n", 3)
    across = 3 * int(size.split()[0])
    rows = [body[across * row :][: 3 * width] for row in range(height)]
    return b"\n".join([head, b"%d %d" % (width, height), most, b"".join(rows)])


def try_fuzz(kit):
    few = ["--runs", "12"]
    yield from kit.pair("fuzz", [kit.program, *few], [kit.wrong_picture(), *few],
                        "final.ppm is not as expected")
    yield from kit.faults("fuzz", [kit.wrong_line(), *few], 1, "said b")
    yield from kit.faults("fuzz", ["--runs", "0"], 2, "--runs: invalid count value")
    yield from shots_by_hand.faults()


def try_verify(kit):
    """Its own test, and a folder that the program has left, with an error in it too."""
    yield from kit.faults("verify", ["--selftest"], 0, "planted ")
    folder = kit.top / "two"
    shutil.copytree(runs.TOP / "examples" / "two", folder)
    words = ["--program", kit.program, "turns", "two.toml", "."]
    picture = runs.run(kit.program, words[2:4], folder).files["final.ppm"]
    yield from kit.faults("verify", words, 0, "by `audit`: audit yes entries 9", folder=folder)
    (folder / "final.ppm").write_bytes(picture[:-1] + bytes([picture[-1] ^ 1]))
    yield from kit.faults("verify", words, 1, "wrong: final.ppm: the pixel at ", folder=folder)


CASES = {"film": try_film, "fuzz": try_fuzz, "json-lines": try_json_lines, "png": try_png,
         "verify": try_verify}

"""Frames, PNG files and plain words, without the program and without a browser."""
import base64
import json
import random
import struct
import unittest
import zlib
from html.parser import HTMLParser
from itertools import zip_longest

import expected
import runs
import screen
from page import build, pixels, replay, words
from page.frames import Frames, check_picture
from page.png import differences, part_of, png
from page.run import Run
from page.sources import Fault
from page.test_scenes import (frames_along, label_files, moving_files, refresh_files, scene_files,
                              setup_from)
from valid_cases import valid_case

SEEDS = 25


class FramesTest(unittest.TestCase):
    def check(self, setup, what):
        """That frames by rectangles are those pixel by pixel."""
        slow = frames_along(setup, screen.Scene(setup.config))
        fast = frames_along(setup, pixels.Scene(setup.config))
        for number, (one, other) in enumerate(zip_longest(slow, fast)):
            self.assertEqual(one, other, f"{what}, line {number}")

    def test_frames_of_random_runs(self):
        for seed in range(SEEDS):
            rng = random.Random(f"show {seed}")
            kind = rng.choice(["free", "phases"])
            self.check(expected.setup_of(valid_case(rng, kind)), f"seed {seed}")

    def test_frames_of_labels_that_just_fit(self):
        for width in range(8, 24):
            for height, cover in ((6, 5), (7, 30), (8, 12), (11, 17), (11, 18)):
                self.check(setup_from(label_files(width, height, cover)), (width, height, cover))

    def test_frames_of_parts_that_are_loaded_again(self):
        for seed in range(20):
            self.check(setup_from(refresh_files(random.Random(f"refresh {seed}"))), seed)

    def test_frames_of_views_that_move(self):
        self.check(setup_from(moving_files()), "moving")

    def test_frames_of_a_page_give_each_frame_again(self):
        setup = setup_from(moving_files())
        made = [row[3] for row in frames_along(setup, pixels.Scene(setup.config))]
        width, height = setup.config["screen"]["width"], setup.config["screen"]["height"]
        bodies = [data[len(screen.header(width, height)) :] for data in made]
        frames = Frames(width, height)
        for step, body in enumerate(bodies):
            frames.add(step, body)
        self.assertLess(len(frames.list), len(bodies))
        shown, rest = None, list(frames.list)
        for step, body in enumerate(bodies):
            if rest and rest[0][0] == step:
                shown = drawn_over(shown, width, height, rest.pop(0)[1], frames.files())
            self.assertEqual(shown, body, f"step {step}")

    def test_a_wrong_picture_is_told_by_its_pixel(self):
        right = screen.header(3, 2) + bytes(range(18))
        wrong = right[:-4] + b"\xff" + right[-3:]
        with self.assertRaisesRegex(Fault, r"x\.ppm: the pixel at \(1, 1\) is 0C0DFF, .* 0C0D0E"):
            check_picture("x.ppm", wrong, right)
        for other in (b"", right[:-1], b"P5" + right[2:], screen.header(2, 3) + right[11:]):
            with self.assertRaises(Fault):
                check_picture("x.ppm", other, right)


def drawn_over(shown, width, height, parts, files):
    """The picture with these parts drawn over it."""
    picture = bytearray(shown or bytes(3 * width * height))
    for *rect, file in parts:
        put(picture, width, rect, read_png(base64.b64decode(files[file])))
    return bytes(picture)


def put(picture, width, rect, inside):
    """Puts the pixels of a rectangle into a picture."""
    x, y, across, down = rect
    for row in range(down):
        start = 3 * ((y + row) * width + x)
        picture[start : start + 3 * across] = inside[3 * across * row : 3 * across * (row + 1)]


def read_png(data):
    """The pixels of a PNG file, by the format's own rules."""
    assert data[:8] == b"\x89PNG\r\n\x1a\n"
    at, chunks = 8, {}
    while at < len(data):
        length, kind = struct.unpack(">I4s", data[at : at + 8])
        body = data[at + 8 : at + 8 + length]
        assert struct.unpack(">I", data[at + 8 + length : at + 12 + length])[0] == \
            zlib.crc32(kind + body)
        chunks[kind] = chunks.get(kind, b"") + body
        at += 12 + length
    width, height, depth, kind, *rest = struct.unpack(">IIBBBBB", chunks[b"IHDR"])
    assert rest == [0, 0, 0] and kind in (2, 3)
    raw, above = zlib.decompress(chunks[b"IDAT"]), None
    size = (width * (24 if kind == 2 else depth) + 7) // 8
    assert len(raw) == (size + 1) * height
    pixels_read = b""
    for row in range(height):
        line = raw[(size + 1) * row : (size + 1) * (row + 1)]
        assert line[0] in (0, 2)
        now = line[1:] if line[0] == 0 else bytes(a + b & 255 for a, b in zip(line[1:], above))
        pixels_read += now if kind == 2 else coloured(now, width, depth, chunks[b"PLTE"])
        above = now
    return pixels_read


def coloured(row, width, depth, palette):
    bits = "".join(f"{byte:08b}" for byte in row)
    places = [int(bits[depth * at : depth * (at + 1)], 2) for at in range(width)]
    return b"".join(palette[3 * place : 3 * place + 3] for place in places)


class PngTest(unittest.TestCase):
    def test_a_png_file_has_the_pixels(self):
        rng = random.Random("png")
        for colours in (1, 2, 3, 4, 5, 16, 17, 256, 257, 5000):
            width, height = rng.randint(1, 70), rng.randint(1, 40)
            palette = [rng.randbytes(3) for _ in range(colours)]
            rows = [b"".join(rng.choice(palette) for _ in range(width)) for _ in range(5)]
            picture = b"".join(rng.choice(rows) for _ in range(height))
            self.assertEqual(read_png(png(picture, width, height)), picture, f"{colours} colours")

    def test_differences_turn_one_picture_into_the_other(self):
        rng = random.Random("differences")
        for _ in range(200):
            width, height = rng.randint(1, 30), rng.randint(1, 30)
            before = rng.randbytes(3 * width * height)
            after = bytearray(before)
            for _ in range(rng.randint(0, 4)):
                after[rng.randrange(len(after))] = rng.randrange(256)
            made = bytearray(before)
            for rect in differences(before, bytes(after), width):
                self.assertLessEqual(rect[1] + rect[3], height)
                put(made, width, rect, part_of(bytes(after), width, rect))
            self.assertEqual(made, after)


class WordsTest(unittest.TestCase):
    """What is said of an entry; the replies are those that docs/FORMATS.md lists."""

    def test_calls(self):
        rows = [
            ("view", "handle 3", "Client a asks for a new view. It is view 3."),
            ("place 1 -2 3 4 5", "done",
             "Client a asks for view 1 to be at (-2, 3), 4 by 5: done."),
            ("title 1 ==< {0} =x", "bad-title",
             "Client a asks for view 1 to have the title “=< {0} =x”. "
             "Refused: the text is no title."),
            ("take", "event press 273",
             "Client a asks for its oldest event. It gets the press of the right button (273)."),
            ("take", "no-event", "Client a asks for its oldest event: none is queued."),
            ("buffer 9 9", "out-of-quota 648 256", "Client a asks for a buffer of 9 by 9 pixels. "
             "Refused: it needs 648 units and has 256 left."),
            ("paste", "pasted =hi =", "Client a asks for the text of the clipboard. "
             "It gets “hi =”."),
            ("copy =", "copied", "Client a asks for “” to be put on the clipboard: copied."),
        ]
        for line, reply, said in rows:
            self.assertEqual(words.of_call("a", line, reply), said)

    def test_each_refusal_has_a_reason(self):
        for reply in ("no-such-view 7", "bad-rect", "bad-size", "bad-title", "too-many-views",
                      "out-of-quota 5 4", "no-reserve 5 4", "closed", "killed", "not-focused"):
            self.assertTrue(words.refusal(reply), reply)
        for reply in ("done", "handle 1", "event leave", "no-event", "copied", "pasted =x",
                      "empty"):
            self.assertFalse(words.refusal(reply), reply)

    def test_device_events(self):
        told = [(1, "leave"), (0, "motion 4 5")]
        self.assertEqual(words.of_device("motion 4 5", told, ["a", "b"], ""),
                         "The user moves the pointer to (4, 5). Client b gets word that the "
                         "pointer has left it. Client a gets the motion to (4, 5).")
        self.assertEqual(words.of_device("press 272", [(1, "kill")], ["a", "b"], ""),
                         "The user presses the left button (272). Client b is locked out.")
        self.assertEqual(words.of_device("press 70", [], ["a"], "a mode key is the server's own"),
                         "The user presses the X-ray key. Nobody gets an event: a mode key is the "
                         "server's own.")


class Elements(HTMLParser):
    """The elements of a page, and the text of each kind."""

    def __init__(self, text):
        super().__init__()
        self.names, self.texts, self.open, self.attributes = [], {}, None, {}
        self.feed(text)

    def handle_starttag(self, tag, attributes):
        self.names.append(tag)
        self.open = (tag, dict(attributes).get("type"))
        self.attributes.setdefault(self.open, []).append(dict(attributes))

    def handle_endtag(self, tag):
        self.open = None

    def handle_data(self, data):
        self.texts[self.open] = self.texts.get(self.open, "") + data


HOSTILE = ["</script><script>hostile = 1</script>", "<!--<script>", "</script ",
           "]]><img src=x onerror=hostile=1>", "&lt;img&gt; &amp;", "\u2028 \\u003c \\",
           "{{SCRIPT}} ${hostile = 1}"]


class PageTest(unittest.TestCase):
    def test_hostile_texts_stay_texts(self):
        self.assertEqual(json.loads(build.as_json(HOSTILE)), HOSTILE)
        for letter in "<>&":
            self.assertNotIn(letter, build.as_json(HOSTILE))
        plain = Elements(build.page_of([StandIn("name")]))
        for text in HOSTILE:
            page = Elements(build.page_of([StandIn(text)]))
            self.assertEqual(page.names, plain.names)
            self.assertEqual(page.texts["script", None], plain.texts["script", None])
            data = json.loads(page.texts["script", "application/json"])
            self.assertEqual(data, {"runs": [{"name": text}]})

    def test_the_policy_lets_only_the_parts_of_the_page_run(self):
        page = Elements(build.page_of([StandIn("name")]))
        [policy] = [row["content"] for row in page.attributes["meta", None]
                    if row.get("http-equiv") == "Content-Security-Policy"]
        rules = dict(rule.split(" ", 1) for rule in policy.split("; "))
        self.assertEqual(rules["default-src"], "'none'")
        self.assertEqual(rules["img-src"], "data:")
        self.assertEqual(rules["script-src"], f"'{build.digest(page.texts['script', None])}'")
        self.assertEqual(rules["style-src"], f"'{build.digest(page.texts['style', None])}'")

    def test_the_script_puts_texts_into_the_document_by_text_content_alone(self):
        for name in build.SCRIPTS:
            text = (build.HERE / name).read_text("utf-8")
            for word in ("innerHTML", "outerHTML", "insertAdjacentHTML", "document.write", "eval(",
                         "new Function", "srcdoc", "setHTML", "fetch(", "XMLHttpRequest", "http:",
                         "https:"):
                self.assertNotIn(word, text.replace("http://www.w3.org/2000/svg", ""), name)


class StandIn:
    """A run that has a name alone."""

    def __init__(self, name):
        self.name = name

    def data(self):
        return {"name": self.name}


NOBODY = "while something is held all goes where its first press went, to nobody"
ENDED = "while something is held all goes where its first press went, to client a, whose session " \
    "has ended"
BARE, XRAY, KILL = ("no client is under the pointer", "in X-ray mode none goes to a client",
                    "in kill mode none goes to a client")
# Lines behind four calls, and why nobody gets an event at each, where nobody does.
REASONS = [
    ("motion 15 8", BARE), ("press 30", "nobody has the focus"), ("press 30", "it is held already"),
    ("press 70", "a mode key does nothing while something is held"), ("wheel 1", NOBODY),
    ("press 31", NOBODY), ("release 32", "it was not held"),
    ("release 70", "a mode key is never held"), ("release 30", NOBODY), ("release 31", NOBODY),
    ("press 272", BARE), ("release 272", NOBODY), ("motion 1 1", ""), ("press 272", ""),
    ("close", ""), ("motion 2 2", ENDED), ("release 272", ENDED),
    ("press 70", "a mode key is the server's own"), ("press 31", XRAY), ("release 31", NOBODY),
    ("motion 6 1", XRAY), ("press 272", ""), ("release 272", NOBODY),
    ("press 99", "a mode key is the server's own"), ("wheel 2", KILL), ("press 273", KILL),
    ("release 273", NOBODY), ("press 272", ""), ("release 272", NOBODY),
    ("press 99", "a mode key is the server's own"), ("motion 15 8", KILL), ("press 272", BARE),
]


class ReplayTest(unittest.TestCase):
    """A run by turns as tools/expected.py makes it, and the same with something wrong."""

    def setup_and_files(self):
        for seed in range(1000):
            setup = expected.setup_of(valid_case(random.Random(f"replay {seed}"), "free"))
            files = expected.outputs_by_turns(setup)
            text = files["journal.txt"]
            if all(word in text for word in (b"shot 1\n", b" done < ", b" > 0 ", b"call 0 event ")):
                return setup, files
        return None

    def run_of(self, setup, files):
        run = Run("x", setup, runs.Outcome(0, b"said\n", files), True)
        run.by_turns()
        run.check_texts()
        return run

    def test_a_right_run_has_each_entry_and_each_state(self):
        setup, files = self.setup_and_files()
        run = self.run_of(setup, files)
        self.assertEqual([step.text for step in run.replay.steps],
                         replay.journal_lines(files["journal.txt"]))
        scene, focus, entry = screen.Scene(setup.config), None, None
        for number, step in enumerate(run.replay.steps[:-1], 1):
            if step.text.startswith("call "):
                scene.call(step.lane, step.text.split(" < ", 1)[1])
            elif step.text.startswith("input "):
                scene.device(step.text[6:].split(" > ")[0])
            focused = number_of(scene, scene.focused)
            if focused != focus:
                focus, entry = focused, number
            since = replay.value_at(run.replay.tracks.pairs["since"], number)
            self.assertEqual(since and since[0], entry, number)
            for name, value in (("mode", scene.mode), ("pointer", list(scene.pointer)),
                                ("held", scene.held), ("focus", number_of(scene, scene.focused)),
                                ("hover", number_of(scene, scene.hovered))):
                pairs = run.replay.tracks.pairs[name]
                self.assertEqual(replay.value_at(pairs, number), value, f"{name} behind {number}")

    def test_since_when_and_how_a_client_has_the_focus(self):
        made, _ = self.made_by(REASONS)
        self.assertEqual(made.tracks.pairs["since"], [
            [0, None], [18, [18, "by the click at (1, 1)"]],
            [19, [19, "as client a closed its session"]], [26, [26, "by the click at (6, 1)"]],
            [32, [32, "as client b was locked out"]]])

    def test_why_nobody_gets_an_event(self):
        made, rows = self.made_by(REASONS)
        for step, (line, why) in zip(made.steps[4:], rows):
            said = f" Nobody gets an event: {why}."
            self.assertEqual(step.plain.count("Nobody gets an event"), bool(why), line)
            self.assertIn(said if why else "", step.plain, line)

    def made_by(self, rows):
        """The steps of lines, where two clients have a view each and `close` is one of the
        first client."""
        setup = setup_from(scene_files((20, 10, "false"), {"a": [], "b": []}, []))
        made = replay.Replay(setup.config, False)
        for who, column in ((0, 0), (1, 5)):
            made.act(who, "view")
            made.act(who, f"place 1 {column} 0 5 5")
        for line, _ in rows:
            made.act(0 if line == "close" else 2, line)
        return made, rows

    def test_units_that_are_left(self):
        lines = ["buffer 10 9", "view", "view", "destroy 1", "upgrade 1", "buffer 40 40", "close"]
        setup = setup_from(scene_files((9, 9, "false"), {"a": lines}, []))
        made = replay.Replay(setup.config, False)
        for line in lines:
            made.act(0, line)
        self.assertEqual(made.steps[5].text, "call 0 out-of-quota 12800 9744 < buffer 40 40")
        pairs = made.tracks.pairs
        self.assertEqual(pairs["0 units"], [[0, 9999], [1, 9279], [2, 9023], [3, 8767], [4, 9023],
                                            [5, 9024], [7, 10000]])
        self.assertEqual(pairs["0 donation"], [[0, 9999], [5, 10000]])
        self.assertEqual(pairs["0 reserve"], [[0, 9999], [5, 9998]])

    def test_what_is_wrong_is_told(self):
        setup, files = self.setup_and_files()
        journal = files["journal.txt"]
        label = setup.labels()[0]
        events = f"events-{label}.txt"
        rows = [
            ("journal.txt", journal.replace(b" done < ", b" bad-rect < ", 1),
             "entry [0-9]+: .*bad-rect"),
            ("journal.txt", journal.replace(b" > 0 ", b" > 1 ", 1), "entry [0-9]+: .* > 1 "),
            ("journal.txt", journal.replace(b"shot 1\n", b"", 1), "entry [0-9]+: "),
            ("journal.txt", journal + b"final\n", "the journal has"),
            ("journal.txt", journal[: journal.rindex(b"final")], "the journal has"),
            (events, files[events].replace(b"state ", b"state not-"), "does not go with"),
            (events, b"leave\n" + files[events], "does not go with"),
            ("final.ppm", files["final.ppm"][:-1] + b"\x77", "final.ppm: the pixel at"),
            ("shot-1.ppm", files["shot-1.ppm"][:-2], "shot-1.ppm: it is no picture"),
            ("shot-1.ppm", None, "shot-1.ppm: the program has not left it"),
        ]
        for name, data, said in rows:
            with self.assertRaisesRegex(Fault, said):
                self.run_of(setup, files | {name: data})


def number_of(scene, session):
    return None if session is None else scene.sessions.index(session)

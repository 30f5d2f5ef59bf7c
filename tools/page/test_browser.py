"""Pages in Debian's chromium: pictures, scrubbing and lanes, at two widths, light and dark."""
import base64
import json
import struct

import runs
import screen
from page import test_runs
from page.browser_case import LOOKS, ROWS, SEEN, PageCase
from page.frames import EACH_WHOLE
from page.making import picture_of
from page.png import size_of
from page.replay import value_at
from page.sources import read_sources
from page.test_scenes import frames_along, moving_files

HOSTILE_TITLES = ["</script><script>hostile=1</script>", "<img src=x onerror=hostile=1>",
                  "<svg onload=hostile=1>", "\"'`${hostile=1}&lt;b&gt;"]


class BrowserTest(PageCase):
    # Each page, in each look.

    def test_each_page_stands_in_each_look(self):
        for example in ROWS:
            for look in LOOKS:
                with self.subTest(example=example, look=look):
                    [run, *_] = self.open(example, look)
                    self.assertEqual(self.text("#name"), run.name)
                    self.assertEqual(self.count("#labels span"), len(run.labels()) + 1)
                    self.assertGreater(self.count("#marks .mark"), 3)
                    self.assertEqual(self.count("#clients article"), len(run.labels()))
                    self.assertEqual(self.count("#pictures canvas"), len(run.pictures))
                    wide = self.browser.value("document.documentElement.scrollWidth")
                    self.assertEqual(wide, look[0])
                    self.check_colours(look[2])
                    self.check_quiet()

    def check_colours(self, scheme):
        light = [self.browser.value(
            f"getComputedStyle(document.body).{name}.match(/[0-9]+/g).slice(0, 3)"
            ".reduce((sum, part) => sum + Number(part) / 765, 0)")
            for name in ("backgroundColor", "color")]
        darker, lighter = sorted(light)
        self.assertEqual(light[0] == lighter, scheme == "light")
        self.assertGreater(lighter - darker, 0.6)

    # Pictures.

    def test_pictures_are_those_of_the_program(self):
        for example in ("desk", "nested", "capture", "xray"):
            [run, *_] = self.open(example)
            for number, (name, _) in enumerate(run.pictures, 1):
                with self.subTest(example=example, name=name):
                    self.browser.click(f"#stops button:nth-child({number})")
                    self.assertTrue(self.text("#caption").startswith(name))
                    self.assertEqual(self.seen(), size_of(run.files[name])[2])
            self.check_quiet()

    def test_frames_are_those_of_the_rules_there_and_back(self):
        [run] = self.open_moving()
        wanted = [size_of(frame)[2] for frame in frames_behind_entries(run.setup)]
        last = len(wanted) - 1
        self.assertGreater(len(run.frames.list), 2 * EACH_WHOLE)
        far = EACH_WHOLE + 12
        for first, key, places in (("Home", "ArrowRight", range(far + 1)),
                                   ("End", "ArrowLeft", range(last, last - far - 1, -1)),
                                   ("Home", "ArrowRight", [0, 1]), ("End", "ArrowLeft", [last])):
            pictures = self.walk([first, *[key] * (len(places) - 1)])
            self.assertEqual(len(pictures), len(places))
            for place, picture in zip(places, pictures):
                self.assertEqual(picture, wanted[place], f"by {key} at {place}")
        self.check_quiet()

    def walk(self, keys):
        """The pixels of the picture behind each of these keys."""
        return [base64.b64decode(text) for text in self.browser.value(f"""(async () => {{
          const pictures = [];
          for (const key of {json.dumps(keys)}) {{
            document.dispatchEvent(new KeyboardEvent('keydown', {{ key }}));
            const place = document.querySelector('#line').getAttribute('aria-valuenow');
            while (document.querySelector('#canvas').dataset.step !== place) {{
              await new Promise((done) => setTimeout(done));
            }}
            pictures.push({SEEN});
          }}
          return pictures;
        }})()""")]

    def open_moving(self):
        """A run by turns in which most entries change the frame."""
        if "moving" not in self.pages:
            folder = self.folder / "moving"
            runs.write_files(folder, moving_files())
            self.page("moving", ["turns", "x.toml"], folder)
        return self.open("moving", (400, 300, "light", False))

    def test_a_picture_of_the_page(self):
        path, [run] = self.page("kill")
        picture_of(path, run, self.folder / "kill.png")
        data = (self.folder / "kill.png").read_bytes()
        self.assertEqual(struct.unpack(">8sI4sII", data[:24])[2:], (b"IHDR", 1180, 1000))

    # The line of time, the lanes and the panel.

    def test_keys_and_buttons(self):
        [run] = self.open("desk")
        count = len(run.replay.steps)
        self.assertEqual(self.text("#place"), f"Entry {count} of {count}")
        for key, shift, place in (("Home", False, "Before the first entry"),
                                  ("ArrowLeft", False, "Before the first entry"),
                                  ("ArrowRight", False, f"Entry 1 of {count}"),
                                  ("ArrowRight", True, f"Entry 11 of {count}"),
                                  ("ArrowLeft", False, f"Entry 10 of {count}"),
                                  ("End", False, f"Entry {count} of {count}"),
                                  ("ArrowRight", False, f"Entry {count} of {count}")):
            self.browser.press(key, shift)
            self.assertEqual(self.text("#place"), place, key)
        for button, place in (("#first", 0), ("#after", 1), ("#before", 0), ("#last", count)):
            self.browser.click(button)
            self.assertEqual(self.browser.value(
                "Number(document.querySelector('#line').getAttribute('aria-valuenow'))"), place)
        self.browser.click("#first")
        self.browser.click("#play")
        self.browser.wait("Number(document.querySelector('#place').textContent.split(' ')[1]) >= 3")
        self.browser.click("#play")
        self.check_quiet()

    def test_scrubbing_by_mouse_and_by_touch(self):
        for look in (LOOKS[0], LOOKS[2]):
            for strip in ("#line", "#marks"):
                with self.subTest(look=look, strip=strip):
                    [run] = self.open("kill", look)
                    count = len(run.replay.steps)
                    for number, place in ((0, "Before the first entry"), (8, f"Entry 8 of {count}"),
                                          (count, f"Entry {count} of {count}")):
                        part = (number + 0.5) / (count + 1)
                        self.browser.drag(strip, [0.3, 0.7, part], touch=look[3])
                        self.assertEqual(self.text("#place"), place)
                    self.check_quiet()

    def test_lanes_have_calls_refusals_and_deliveries(self):
        [run] = self.open("kill")
        steps = run.replay.steps
        self.assertEqual(self.count("#marks .mark"), len(steps))
        self.assertEqual(self.count("#marks .delivery"), sum(len(step.told) for step in steps))
        self.assertEqual(self.count("#marks .delivery.kill"), 1)
        self.assertEqual(self.count("#marks .mark.refused"), 3)
        self.assertIn("killed", self.text("#marks .reason"))
        self.assertEqual(self.count("#refused .line.bad"), 3)
        red = "getComputedStyle(document.querySelector('#marks .mark.refused')).stroke"
        self.assertEqual(self.browser.value(red), "rgb(192, 22, 36)")

    def test_the_panel_says_what_the_journal_and_the_rules_say(self):
        [run] = self.open("kill")
        self.browser.press("Home")
        for number, step in enumerate(run.replay.steps, 1):
            self.browser.press("ArrowRight")
            self.assertEqual(self.text("#text"), step.text)
            self.assertEqual(self.text("#plain"), step.plain)
            self.assertEqual(self.count("#told li"), len(step.told))
            values = {name: value_at(run.replay.tracks.pairs[name], number)
                      for name in ("mode", "focus", "hover", "pointer")}
            state = self.text("#state")
            for name in ("focus", "hover"):
                label = "nobody" if values[name] is None else run.labels()[values[name]]
                self.assertIn(f"{name}{label}", state)
            self.assertIn(f"mode{values['mode'].replace('xray', 'X-ray')}", state)
            self.assertIn("pointer({}, {})".format(*values["pointer"]), state)

    def test_a_refusal_is_told_once(self):
        [run] = self.open("kill")
        for number, step in enumerate(run.replay.steps, 1):
            if step.kind == "refused":
                place = sum(one.kind == "refused" for one in run.replay.steps[:number])
                self.browser.click(f"#refused li:nth-child({place}) button")
                self.assertEqual(self.text("#plain"), step.plain)
                self.assertEqual(self.text("#plain .why"), f"Refused: {step.why}.")
                self.assertEqual(self.text("#panel").count(step.why), 1)

    def test_units_on_the_cards(self):
        [run] = self.open("kill")
        self.browser.press("Home")
        pairs = run.replay.tracks.pairs
        for number in range(len(run.replay.steps)):
            left, given, reserve, state = (value_at(pairs[f"0 {name}"], number) for name in (
                "units", "donation", "reserve", "state"))
            said = f"units{left} of {given} left, {reserve} in reserve"
            self.assertEqual(said in self.text("#clients article"), state == "live", number)
            self.browser.press("ArrowRight")

    # The arrow, the legend and the address.

    def test_the_arrow_stands_from_the_first_motion_and_is_said_to_be_the_pages(self):
        for example in ("kill", "desk"):
            [run] = self.open(example)
            self.browser.press("Home")
            moved = False
            for step in [None, *run.replay.steps]:
                if step:
                    self.browser.press("ArrowRight")
                    moved = moved or step.text.startswith("input motion ")
                self.assertEqual(self.count("#over .pointer"), moved)
                self.assertEqual("arrow is the page's" in self.text("#laid"), moved)
            self.assertTrue(moved)
        self.open("first")
        self.assertEqual((self.count("#over .pointer"), self.text("#laid")), (0, ""))
        self.open("capture")
        self.assertIn("dashed lines are the page's", self.text("#laid"))

    def test_the_legend_has_what_the_lanes_have(self):
        rows = {
            "first": ["call", "picture"],
            "xray": ["call", "press", "picture", "X-ray mode"],
            "kill": ["call", "refused call", "motion", "press", "release", "picture",
                     "a client gets an event", "a client is locked out", "kill mode",
                     "has the focus"],
            "clip": ["call", "clip call", "refused clip call", "motion", "press", "release",
                     "picture", "a client gets an event", "has the focus"],
        }
        for example, words in rows.items():
            self.open(example)
            self.assertEqual(self.browser.value(
                "[...document.querySelectorAll('#legend li')].map((item) => item.textContent)"),
                words)

    def address(self, wanted):
        self.browser.wait(f"location.hash === {json.dumps(wanted)}")

    def test_the_address_is_that_of_the_entry(self):
        [run] = self.open("desk", place="#29")
        count = len(run.replay.steps)
        self.assertEqual(self.text("#place"), f"Entry 29 of {count}")
        self.browser.press("ArrowRight")
        self.address("#30")
        self.browser.press("Home")
        self.address("#0")
        self.browser.value("location.hash = '#12'")
        self.browser.wait(f"document.querySelector('#place').textContent === 'Entry 12 of {count}'")
        for place in ("#999999", "#x", "#", "#inner-3x"):
            self.open("desk", place=place)
            self.assertEqual(self.text("#place"), f"Entry {count} of {count}")
        self.check_quiet()

    def test_the_address_of_clip_calls_and_of_the_inner_run(self):
        [run] = self.open("clip", place="#0")
        behind = 0
        for step in run.replay.steps:
            behind = behind + 1 if step.entry is None else 0
            entry = step.entry or int(step.text.split(" ")[1])
            self.browser.press("ArrowRight")
            wanted = f"#{entry}" if step.entry else f"#{entry}.{behind}"
            self.address(wanted)
            self.open("clip", place=wanted)
            self.assertEqual(self.text("#text"), step.text)
        inner = self.open("nested")[1]
        self.browser.click("#tabs button:nth-child(2)")
        self.address(f"#inner-{len(inner.replay.steps)}")
        self.open("nested", place="#inner-3")
        self.assertEqual(self.text("#name"), inner.name)
        self.assertEqual(self.text("#text"), inner.replay.steps[2].text)
        self.check_quiet()

    def test_small_pictures_are_sharp_and_lead_to_the_large_one(self):
        self.page("windows", ["turns", "windows.toml"])
        for example in ("desk", "windows", "kill"):
            [run] = self.open(example)
            for number, (name, _) in enumerate(run.pictures, 1):
                card = f"#pictures article:nth-child({number})"
                across = self.browser.value(f"document.querySelector('{card} canvas').offsetWidth")
                larger, smaller = max(across, run.scene.width), min(across, run.scene.width)
                self.assertEqual(larger % smaller, 0, example)
                self.browser.click(f"{card} .large")
                self.assertTrue(self.text("#caption").startswith(name))
                self.assertEqual(self.seen(), size_of(run.files[name])[2])

    def test_clipboard_film_and_inner_run(self):
        [_] = self.open("clip")
        self.assertEqual(self.count("#marks .mark.clip"), 4)
        self.assertIn("clipboard“hi”", self.text("#state"))
        self.open("capture")
        cut = self.browser.value("(() => { const c = document.querySelector('#cut');"
                                 "return [c.width, c.height, c.offsetWidth > 0]; })()")
        self.assertEqual(cut, [24, 24, True])
        self.assertEqual(self.count("#over .region"), 2)
        outer, inner = self.open("nested")
        self.browser.click("#tabs button:nth-child(2)")
        self.assertEqual(self.text("#name"), inner.name)
        self.assertEqual(self.seen(), size_of(inner.files["final.ppm"])[2])
        self.browser.click("#tabs button:nth-child(1)")
        self.assertEqual(self.seen(), size_of(outer.files["final.ppm"])[2])
        self.check_quiet()

    # Hostile texts.

    def test_hostile_texts_stay_texts(self):
        name = "<img src=x onerror=hostile=1>.toml"
        folder = self.folder / "hostile"
        sources = read_sources(test_runs.EXAMPLES / "clip", ROWS["clip"])
        titles = "".join(f"title 1 ={title}\n" for title in HOSTILE_TITLES)
        sources["pa.nit"] = sources["pa.nit"].replace(b"phase\n", titles.encode() + b"phase\n", 1)
        copy = f"copy ={HOSTILE_TITLES[0]}\npaste\n".encode()
        sources["pa.nit.clip"] = sources["pa.nit.clip"].replace(b"copy =hi\n", copy)
        sources[name] = sources.pop("clip.toml")
        runs.write_files(folder, sources)
        for look in LOOKS:
            [run] = self.page("hostile", ["clip", name], folder)[1]
            self.open("hostile", look)
            self.browser.press("Home")
            said = []
            for _ in run.replay.steps:
                self.browser.press("ArrowRight")
                said.append(self.text("#text"))
            self.assertEqual(said, [step.text for step in run.replay.steps])
            for title in HOSTILE_TITLES:
                self.assertTrue(any(title in text for text in said))
            self.assertEqual(self.text("#name"), f"clip {name}")
            self.assertEqual(self.count("img, iframe, #lanes script, [onload], [onerror]"), 0)
            self.assertEqual(self.count("script"), 2)
            self.assertIsNone(self.browser.value("window.hostile"))
            self.check_quiet()

    def test_the_policy_stops_what_gets_in_all_the_same(self):
        self.open("kill")
        self.browser.value("document.body.insertAdjacentHTML('beforeend',"
                           "'<img src=x onerror=\"hostile=1\"><svg onload=\"hostile=1\"></svg>')")
        self.browser.value("(() => { const s = document.createElement('script');"
                           "s.textContent = 'hostile = 1'; document.body.append(s); })()")
        self.browser.settle()
        self.assertIsNone(self.browser.value("window.hostile"))
        self.assertTrue(any("Content Security Policy" in line for line in self.browser.logged))


def frames_behind_entries(setup):
    """The frame of the beginning, and the one behind each entry, pixel by pixel."""
    yield screen.Scene(setup.config).frame()
    for _, line, said, frame in frames_along(setup, screen.Scene(setup.config)):
        if said is not None or line in ("shot", "final"):
            yield frame

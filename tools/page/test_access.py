"""Pages by the keys, for a screen reader, with little motion; and since when the focus is where."""
import json
import time

from page.browser_case import PageCase

NOW = "document.querySelector('#line').getAttribute('aria-valuenow')"
ENTRY = "Number(document.querySelector('#place').textContent.split(' ')[1])"
LIVE = "document.querySelector('#plain').getAttribute('aria-live')"
# The milliseconds between the first places that one sees while it plays.
PACES = """new Promise((done) => {
  const times = [];
  new MutationObserver(() => {
    times.push(performance.now());
    if (times.length === 4) done(times.slice(1).map((time, at) => time - times[at]));
  }).observe(document.querySelector('#place'), { childList: true });
  document.querySelector('#play').click();
})"""


class AccessTest(PageCase):
    def focus(self, selector):
        self.browser.value(f"document.querySelector({json.dumps(selector)}).focus()")
        self.assertTrue(self.browser.value(
            f"document.activeElement === document.querySelector({json.dumps(selector)})"), selector)

    def press_until(self, key, expression):
        """Presses a key, and again where a browser that is busy has lost it."""
        for _ in range(100):
            self.browser.press(key)
            self.browser.settle()
            if self.browser.value(expression):
                return
            time.sleep(0.2)
        self.fail(f"{key}: never came: {expression}")

    def test_keys_act_where_the_focus_is(self):
        [run] = self.open("desk", place="#9")
        count = len(run.replay.steps)
        place = f"Entry 9 of {count}"
        for selector in ("#pictures article ol", "#pictures article ol button"):
            top = "document.querySelector('#pictures article ol').scrollTop"
            self.focus(selector)
            self.press_until("End", f"{top} > 0")
            self.press_until("Home", f"{top} === 0")
            for key in ("ArrowLeft", "ArrowRight"):
                self.browser.press(key)
            self.assertEqual(self.text("#place"), place)
        for selector in ("#play", "#line", "#near button"):
            self.focus(selector)
            self.browser.press("ArrowRight")
            self.assertEqual(self.text("#place"), f"Entry 10 of {count}")
            self.browser.press("ArrowLeft")
            self.assertEqual(self.text("#place"), place)

    def test_the_line_of_time_is_a_slider(self):
        [run] = self.open("desk", place="#9")
        count = len(run.replay.steps)
        for selector, places in (("#line", (10, 9, 19, 9)), ("#play", (9, 9, 9, 9))):
            self.focus(selector)
            for key, place in zip(("ArrowUp", "ArrowDown", "PageUp", "PageDown"), places):
                self.browser.press(key)
                self.assertEqual(self.text("#place"), f"Entry {place} of {count}", key)
        self.check_quiet()

    def test_each_list_that_scrolls_takes_the_focus_and_has_a_name(self):
        self.open("kill")
        lists = "#refused, #pictures ol, #clients pre"
        self.assertEqual(self.count(lists), 4)
        for part in ("[tabindex='0']", ".scrolled", "[aria-label]:not([aria-label=''])"):
            self.assertEqual(self.count(", ".join(f"{it}{part}" for it in lists.split(", "))), 4)

    def test_a_reader_is_told_nothing_while_it_plays(self):
        [run] = self.open("desk", place="#0")
        self.assertEqual(self.browser.value(LIVE), "polite")
        self.browser.click("#play")
        self.browser.wait(f"{ENTRY} >= 3")
        self.assertEqual(self.browser.value(f"[{LIVE}, {NOW}]"), ["off", "0"])
        self.browser.click("#play")
        place = self.text("#place").split()[1]
        self.assertEqual(self.browser.value(f"[{LIVE}, {NOW}]"), ["polite", place])
        self.browser.press("End")
        self.browser.press("ArrowLeft")
        self.browser.click("#play")
        self.browser.wait(f"{LIVE} === 'polite'")
        self.assertEqual(self.browser.value(NOW), str(len(run.replay.steps)))
        self.check_quiet()

    def test_who_wants_little_motion_has_it(self):
        for motion, least, most in (("reduce", 2700, 60000), ("no-preference", 0, 2700)):
            self.open("desk", place="#0")
            self.browser.look(1280, 900, motion=motion)
            paces = self.browser.value(PACES)
            self.browser.click("#play")
            self.assertTrue(least <= sum(paces) <= most, paces)

    def test_since_when_the_focus_is_where_it_is(self):
        [run] = self.open("kill", place="#0")
        count = len(run.replay.steps)
        for number in range(1, count + 1):
            self.browser.press("ArrowRight")
            since = "" if number < 8 else "since entry 8, by the click at (1, 1)" if number < 11 \
                else "since entry 11, as client a was locked out"
            self.assertEqual(self.count("#state .since"), bool(since))
            self.assertIn(since, self.text("#state"))
            card = self.text("#clients article")
            self.assertEqual("has the focus since entry 8" in card, 8 <= number < 11)
        self.browser.click("#state .since button")
        self.assertEqual(self.text("#place"), f"Entry 11 of {count}")
        self.check_quiet()

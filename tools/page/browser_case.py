"""What the tests in a browser share: pages of the program's runs, and what is seen of them."""
import base64
import json
import shutil
import tempfile
import unittest
from pathlib import Path

from page import build, test_runs
from page.browser import Browser
from page.commands import Command

LOOKS = [(1280, 900, "light", False), (1280, 900, "dark", False),
         (400, 800, "light", True), (400, 800, "dark", True)]
ROWS = test_runs.ROWS | {"desk": ["turns", "desk.toml"]}
SEEN = """(() => {
  const canvas = document.querySelector('#canvas');
  const data = canvas.getContext('2d').getImageData(0, 0, canvas.width, canvas.height).data;
  const parts = [];
  for (let at = 0; at < data.length; at += 4) {
    parts.push(String.fromCharCode(data[at], data[at + 1], data[at + 2]));
  }
  return btoa(parts.join(''));
})()"""


class PageCase(unittest.TestCase):
    """A case has a browser, and pages of the examples in a folder that goes with it."""

    @classmethod
    def setUpClass(cls):
        cls.folder = Path(tempfile.mkdtemp(prefix="nitpicker-pages-"))
        cls.addClassCleanup(shutil.rmtree, cls.folder)
        cls.browser = Browser()
        cls.addClassCleanup(cls.browser.__exit__)
        cls.pages = {}

    def page(self, example, words=None, folder=None):
        """The page of an example, and its runs."""
        if example not in self.pages:
            folder = folder or test_runs.EXAMPLES / example
            shown = Command(str(test_runs.PROGRAM), folder, words or ROWS[example]).runs()
            path = self.folder / f"{example}.html"
            path.write_text(build.page_of(shown), "utf-8")
            self.pages[example] = path, shown
        return self.pages[example]

    def open(self, example, look=LOOKS[0], place=""):
        path, shown = self.page(example)
        self.browser.look(*look)
        self.browser.open(path, place)
        return shown

    def text(self, selector):
        return self.browser.value(f"document.querySelector({json.dumps(selector)}).textContent")

    def count(self, selector):
        return self.browser.value(f"document.querySelectorAll({json.dumps(selector)}).length")

    def seen(self):
        """The pixels of the picture at the top of the page."""
        self.browser.wait("document.querySelector('#canvas').dataset.step === "
                          "document.querySelector('#line').getAttribute('aria-valuenow')")
        return base64.b64decode(self.browser.value(SEEN))

    def check_quiet(self):
        """That nothing was logged, and that the page asked for nothing but itself. That these
        tests read a canvas again and again is told too, and is theirs."""
        logged = [line for line in self.browser.logged if "willReadFrequently" not in line]
        self.assertEqual(logged, [])
        others = [url for url in self.browser.asked if not url.startswith("data:image/png;base64,")]
        self.assertEqual(len(others), 1, others)

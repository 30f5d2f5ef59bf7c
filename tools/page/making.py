"""Makes the page that tools/show is asked for."""
import os
import re
import sys
import tempfile
from pathlib import Path

from page import browser, build
from page.commands import Command
from page.sources import Fault


def page_file(given):
    """Where the page goes."""
    if given.out:
        return Path(given.out)
    name = re.sub("[^A-Za-z0-9.-]", "_", "-".join(Path(word).name for word in given.words))[:80]
    return Path(tempfile.mkdtemp(prefix="nitpicker-show-")) / f"{name}.html"


def look_ahead(given):
    """Refuses what could not be left in the end."""
    if given.picture and browser.program() is None:
        raise Fault("chromium is not here, so there is no picture of the page")
    for name in filter(None, (given.out, given.picture)):
        if not os.access(Path(name).absolute().parent, os.W_OK):
            raise Fault(f"{name}: no file can be put there")


def picture_of(page, run, path):
    """Writes the upper part of the page as a browser shows it."""
    with browser.Browser() as shown:
        shown.look(1180, 1000)
        shown.open(page, f"#{run.entry_of(run.pictures[0][1])}" if run.pictures else "")
        shown.wait("document.querySelector('#canvas').dataset.step")
        shown.picture(path)


def make(given):
    """Makes the page, and says where it is. Answers the status."""
    try:
        look_ahead(given)
        shown = Command(given.program, given.folder, given.words).runs()
        page = build.page_of(shown).encode()
        target = page_file(given)
        target.write_bytes(page)
        if given.picture:
            picture_of(target, shown[0], Path(given.picture))
    except (Fault, OSError) as why:
        print(f"tools/show: {why}", file=sys.stderr)
        return 1
    print(f"tools/show: {target}: {len(page)} bytes")
    return 0

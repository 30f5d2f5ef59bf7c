"""Debian's chromium without a screen, led by its DevTools over two pipes."""
import base64
import json
import os
import select
import shutil
import subprocess
import tempfile
import time

SECONDS = 240
FLAGS = ("--headless=new", "--no-sandbox", "--disable-gpu", "--disable-dev-shm-usage",
         "--no-first-run", "--disable-extensions", "--disable-background-networking",
         "--remote-debugging-pipe", "--hide-scrollbars")
KEYS = {"ArrowLeft": 37, "ArrowUp": 38, "ArrowRight": 39, "ArrowDown": 40, "Home": 36, "End": 35,
        "PageUp": 33, "PageDown": 34}


class BrowserFault(Exception):
    """What the browser did not do."""


def program():
    """The browser, or nothing where there is none."""
    return shutil.which("chromium") or shutil.which("chromium-browser")


class Browser:
    """A browser with one page. What the page logs and what fails in it is kept in `logged`."""

    def __init__(self):
        self.folder = tempfile.mkdtemp(prefix="nitpicker-browser-")
        self.logged, self.asked, self.number, self.rest = [], [], 0, b""
        to_browser, self.send_end = os.pipe()
        self.read_end, from_browser = os.pipe()
        self.process = self.started(to_browser, from_browser)
        os.close(to_browser)
        os.close(from_browser)
        target = self.ask("Target.createTarget", {"url": "about:blank"}, None)["targetId"]
        attached = self.ask("Target.attachToTarget", {"targetId": target, "flatten": True}, None)
        self.session = attached["sessionId"]
        for part in ("Page", "Runtime", "Log", "Network"):
            self.ask(f"{part}.enable")

    def started(self, to_browser, from_browser):
        """The process, which reads what it is asked from 3 and answers at 4."""
        def pipes():
            first, second = os.dup(to_browser), os.dup(from_browser)
            os.dup2(first, 3)
            os.dup2(second, 4)

        words = [program(), *FLAGS, f"--user-data-dir={self.folder}"]
        return subprocess.Popen(words, preexec_fn=pipes, close_fds=False, stdin=subprocess.DEVNULL,
                                stdout=subprocess.DEVNULL, stderr=subprocess.DEVNULL)

    def __enter__(self):
        return self

    def __exit__(self, *_):
        self.process.terminate()
        self.process.wait(SECONDS)
        os.close(self.send_end)
        os.close(self.read_end)
        shutil.rmtree(self.folder, ignore_errors=True)

    # Messages.

    def ask(self, method, params=None, session=""):
        """What the browser answers."""
        self.number += 1
        message = {"id": self.number, "method": method, "params": params or {}}
        if session is not None:
            message["sessionId"] = self.session
        os.write(self.send_end, json.dumps(message).encode() + b"\0")
        while True:
            answer = self.message()
            if answer.get("id") == self.number:
                if "error" in answer:
                    raise BrowserFault(f"{method}: {answer['error']['message']}")
                return answer["result"]
            self.keep(answer)

    def message(self):
        """The next message."""
        until = time.monotonic() + SECONDS
        while b"\0" not in self.rest:
            ready, _, _ = select.select([self.read_end], [], [], max(until - time.monotonic(), 0))
            data = os.read(self.read_end, 1 << 20) if ready else b""
            if not data:
                raise BrowserFault("the browser does not answer")
            self.rest += data
        one, self.rest = self.rest.split(b"\0", 1)
        return json.loads(one)

    def keep(self, message):
        """Keeps what is logged and which addresses are asked for."""
        method, params = message.get("method"), message.get("params", {})
        if method == "Log.entryAdded":
            self.logged.append(f"{params['entry']['level']}: {params['entry']['text']}")
        elif method == "Runtime.consoleAPICalled":
            words = [str(part.get("value", part.get("description"))) for part in params["args"]]
            self.logged.append(f"{params['type']}: {' '.join(words)}")
        elif method == "Runtime.exceptionThrown":
            details = params["exceptionDetails"]
            said = details.get("exception", {}).get("description", details["text"])
            self.logged.append(f"thrown: {said}")
        elif method == "Network.requestWillBeSent":
            self.asked.append(params["request"]["url"])

    # The page.

    def look(self, width, height, scheme="light", touch=False, motion="no-preference"):
        """Of what size and colours the page is seen, whether by touch, and with how much motion."""
        self.ask("Emulation.setDeviceMetricsOverride", {
            "width": width, "height": height, "deviceScaleFactor": 1, "mobile": touch})
        self.ask("Emulation.setTouchEmulationEnabled", {"enabled": touch})
        self.ask("Emulation.setEmulatedMedia", {
            "features": [{"name": "prefers-color-scheme", "value": scheme},
                         {"name": "prefers-reduced-motion", "value": motion}]})

    def open(self, path, place=""):
        """Opens a page of a file, and waits until it stands."""
        self.logged, self.asked = [], []
        self.ask("Page.navigate", {"url": "about:blank"})
        self.ask("Page.navigate", {"url": f"{path.resolve().as_uri()}{place}"})
        self.wait("document.readyState === 'complete' && location.protocol === 'file:'")
        self.settle()

    def value(self, expression):
        """The value of an expression in the page."""
        answer = self.ask("Runtime.evaluate", {
            "expression": expression, "returnByValue": True, "awaitPromise": True})
        if "exceptionDetails" in answer:
            raise BrowserFault(f"{expression}: {answer['exceptionDetails']}")
        return answer["result"].get("value")

    def wait(self, expression):
        until = time.monotonic() + SECONDS
        while not self.value(expression):
            if time.monotonic() > until:
                raise BrowserFault(f"never came: {expression}")
            time.sleep(0.05)

    def settle(self):
        """Waits until what was begun is drawn."""
        self.value("new Promise((done) => requestAnimationFrame(() => setTimeout(done, 5)))")

    def press(self, key, shift=False):
        event = {"key": key, "code": key, "windowsVirtualKeyCode": KEYS[key],
                 "modifiers": 8 if shift else 0}
        self.ask("Input.dispatchKeyEvent", {"type": "keyDown"} | event)
        self.ask("Input.dispatchKeyEvent", {"type": "keyUp"} | event)

    def place_of(self, selector):
        """The rectangle of an element in the window, once it is scrolled into it."""
        return self.value(
            f"(() => {{ const e = document.querySelector({json.dumps(selector)});"
            "e.scrollIntoView({block: 'center'}); const r = e.getBoundingClientRect();"
            "return {x: r.x, y: r.y, width: r.width, height: r.height}; })()")

    def drag(self, selector, places, touch=False):
        """Presses on an element, and drags to each of these parts of its width."""
        rect = self.place_of(selector)
        points = [(rect["x"] + part * rect["width"], rect["y"] + rect["height"] / 2)
                  for part in places]
        kinds = ["touchStart", "touchMove", "touchEnd"] if touch else \
            ["mousePressed", "mouseMoved", "mouseReleased"]
        for place, point in enumerate(points):
            self.point(kinds[min(place, 1)], point, touch)
        self.point(kinds[2], points[-1], touch)
        self.settle()

    def point(self, kind, point, touch):
        if touch:
            points = [] if kind == "touchEnd" else [{"x": point[0], "y": point[1]}]
            self.ask("Input.dispatchTouchEvent", {"type": kind, "touchPoints": points})
            return
        self.ask("Input.dispatchMouseEvent", {
            "type": kind, "x": point[0], "y": point[1], "button": "left", "buttons": 1,
            "clickCount": 1})

    def click(self, selector):
        self.drag(selector, [0.5])

    def picture(self, path, whole=False):
        """Writes what is seen as a PNG file."""
        words = {"format": "png", "captureBeyondViewport": whole}
        if whole:
            size = self.ask("Page.getLayoutMetrics")["cssContentSize"]
            words["clip"] = {"x": 0, "y": 0, "width": size["width"], "height": size["height"],
                             "scale": 1}
        data = self.ask("Page.captureScreenshot", words)["data"]
        path.write_bytes(base64.b64decode(data))

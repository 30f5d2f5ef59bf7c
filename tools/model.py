"""The rules of docs/FORMATS.md and docs/RULES.md in plain Python, for tools/fuzz.

They are written from the documents alone and know nothing of the program: here what a script and a
configuration are, what a session answers, and what a script draws; in tools/screen.py the rest.
"""
import re
from collections import deque

MOST_BYTES = 1048576
MOST_LINES = 65536
LABEL_BYTES = "abcdefghijklmnopqrstuvwxyz0123456789-._"

# Scripts.

NAT = r"(?:0|[1-9][0-9]{0,8})"
INT = r"(?:0|-?[1-9][0-9]{0,8})"
COLOUR = r"[0-9A-F]{6}"
CALLS = {
    "buffer": f"{NAT} {NAT}",
    "view": "",
    "place": f"{NAT} {INT} {INT} {NAT} {NAT}",
    "offset": f"{NAT} {INT} {INT}",
    "front": NAT,
    "back": NAT,
    "above": f"{NAT} {NAT}",
    "title": f"{NAT} =[ -~]{{0,40}}",
    "destroy": NAT,
    "refresh": f"{INT} {INT} {NAT} {NAT}",
    "take": "",
    "upgrade": NAT,
    "close": "",
}
STROKES = {"fill": f"{NAT} {NAT} {NAT} {NAT} {COLOUR}"}
STROKES["check"] = f"{STROKES['fill']} {COLOUR}"
DEVICES = {"press": NAT, "release": NAT, "motion": f"{NAT} {NAT}", "wheel": INT}


def line_pattern(forms):
    """What matches exactly the lines of these forms."""
    spelled = [f"{word} {form}" if form else word for word, form in forms.items()]
    return re.compile("(?:" + "|".join(spelled) + r")\Z")


CLIENT_LINE = line_pattern(CALLS | STROKES | {"phase": ""})
INPUT_LINE = line_pattern(DEVICES | {"shot": "", "phase": ""})
CLIP_LINE = line_pattern({"copy": "=[ -~]{0,40}", "paste": "", "phase": ""})


def is_client_line(line):
    return CLIENT_LINE.match(line) is not None


def is_input_line(line):
    if INPUT_LINE.match(line) is None:
        return False
    word, *numbers = line.split(" ")
    values = [int(number) for number in numbers]
    bounds = {"press": (0, 767), "release": (0, 767), "motion": (0, 65535), "wheel": (-127, 127)}
    return word not in bounds or all(bounds[word][0] <= n <= bounds[word][1] for n in values)


def is_clip_line(line):
    return CLIP_LINE.match(line) is not None


class BadScript(Exception):
    """What the program says behind the name of a script that has no reading."""


def read_script(data, is_line):
    """The lines that a file's bytes spell."""
    if len(data) > MOST_BYTES:
        raise BadScript("too long")
    *lines, rest = data.decode("latin-1").split("\n")
    for number, line in enumerate(lines[:MOST_LINES], 1):
        if not is_line(line):
            raise BadScript(f"line {number}: bad script")
    if len(lines) > MOST_LINES or len(lines) == MOST_LINES and rest:
        raise BadScript("too long")
    if rest:
        raise BadScript(f"line {len(lines) + 1}: bad script")
    return lines


def by_phases(lines):
    """The lines of each phase, each with the line that ends the phase."""
    phases = [[]]
    for line in lines:
        phases[-1].append(line)
        if line == "phase":
            phases.append([])
    return phases


def rounds(scripts):
    """The order by turns: pairs of an actor and its line."""
    phases = [by_phases(lines) for lines in scripts]
    for number in range(len(phases[0])):
        rows = [script[number] for script in phases]
        for place in range(max(map(len, rows))):
            yield from ((who, row[place]) for who, row in enumerate(rows) if place < len(row))


# The configuration.

TABLES = {"screen": dict, "input": dict, "client": list}
SCREEN = {"width": int, "height": int, "bar": bool}
INPUT = {"script": str}
CLIENT = {"label": str, "donation": int, "script": str, "layer": int, "focus": str}
OPTIONAL = ("bar", "layer", "focus")
RANGES = {"width": (1, 1024), "height": (1, 768), "donation": (256, 8388608), "layer": (0, 7)}


def is_label(text):
    return 1 <= len(text) <= 20 and all(letter in LABEL_BYTES for letter in text)


def is_name(text):
    return 1 <= len(text.encode()) <= 255 and all(" " <= letter <= "~" for letter in text)


def out_of_range(key, value):
    if key in RANGES:
        return not RANGES[key][0] <= value <= RANGES[key][1]
    if key == "script":
        return not is_name(value)
    return key == "focus" and value not in ("click", "none")


def refusal(table):
    """The first refusal that applies to a configuration, or none."""
    kinds = [(table, TABLES)]
    kinds += [(table.get("screen"), SCREEN), (table.get("input"), INPUT)]
    clients = table.get("client")
    if isinstance(clients, list):
        kinds += [(client, CLIENT) for client in clients]
    for part, keys in kinds:
        if part is not None and not isinstance(part, dict):
            return "kind"
    parts = [(part or {}, keys) for part, keys in kinds]
    pairs = [(key, part[key], keys[key]) for part, keys in parts for key in keys if key in part]
    if any(type(value) is not kind for _, value, kind in pairs):
        return "kind"
    if not clients or any(set(keys) - set(part) - set(OPTIONAL) for part, keys in parts):
        return "missing"
    if any(set(part) - set(keys) for part, keys in parts):
        return "unknown"
    if len(clients) > 16:
        return "too many"
    bar = table["screen"].get("bar", False) and table["screen"]["height"] < 8
    if bar or any(out_of_range(key, value) for key, value, _ in pairs):
        return "range"
    labels = [client["label"] for client in clients]
    if not all(map(is_label, labels)):
        return "label"
    return "twice" if len(set(labels)) < len(labels) else None


# Sessions.


def is_rect(x, y, width, height):
    return all(-32768 <= n <= 32767 for n in (x, y)) and all(n <= 32767 for n in (width, height))


def numbers_of(line):
    return [int(word) for word in line.split(" ")[1:]]


class View:
    """A rectangle of the screen. It equals itself alone."""

    def __init__(self, session):
        self.session = session
        self.rect = (0, 0, 0, 0)
        self.offset = (0, 0)
        self.title = ""

    def covers(self, column, row):
        x, y, width, height = self.rect
        return x <= column < x + width and y <= row < y + height


class Session:
    """The machine of one session. It keeps its views, and asks the scene to move them."""

    def __init__(self, donation, layer=0):
        room = min(2 * donation, 8388608)
        self.donation, self.reserve, self.layer = donation, room - donation, layer
        self.size, self.views, self.next_handle = (0, 0), {}, 1
        self.queue, self.lost, self.state = deque(), 0, "live"

    def end(self, state):
        self.state, self.size = state, (0, 0)
        self.views.clear()
        self.queue.clear()

    def offer(self, event):
        if len(self.queue) < 64:
            self.queue.append(event)
        else:
            self.lost += 1

    def call(self, line):
        """The reply to a call. A call that moves views in the stack leaves that to the scene."""
        word = line.split(" ")[0]
        if self.state != "live":
            return self.state
        return getattr(self, "call_" + word)(*self.arguments(word, line))

    @staticmethod
    def arguments(word, line):
        if word == "title":
            _, handle, text = line.split(" ", 2)
            return int(handle), text[1:]
        return numbers_of(line)

    def missing(self, *handles):
        """The refusal for the first of these that is no view's handle."""
        return next((f"no-such-view {h}" for h in handles if h not in self.views), None)

    def call_buffer(self, width, height):
        if not (1 <= width <= 4096 and 1 <= height <= 4096):
            return "bad-size"
        need, left = 8 * width * height, self.donation - 256 * len(self.views)
        if need > left:
            return f"out-of-quota {need} {left}"
        self.size = (width, height)
        return "done"

    def call_view(self):
        if len(self.views) == 64:
            return "too-many-views"
        left = self.donation - 256 * len(self.views) - 8 * self.size[0] * self.size[1]
        if left < 256:
            return f"out-of-quota 256 {left}"
        handle = self.next_handle
        self.views[handle] = View(self)
        self.next_handle += 1
        return f"handle {handle}"

    def call_place(self, handle, *rect):
        refused = self.missing(handle) or (None if is_rect(*rect) else "bad-rect")
        if not refused:
            self.views[handle].rect = rect
        return refused or "done"

    def call_offset(self, handle, x, y):
        refused = self.missing(handle) or (None if is_rect(x, y, 0, 0) else "bad-rect")
        if not refused:
            self.views[handle].offset = (x, y)
        return refused or "done"

    def call_front(self, *handles):
        return self.missing(*handles) or "done"

    call_back = call_above = call_front

    def call_title(self, handle, text):
        good = len(text) <= 12 and all(letter in LABEL_BYTES + " " for letter in text)
        refused = self.missing(handle) or (None if good else "bad-title")
        if not refused:
            self.views[handle].title = text
        return refused or "done"

    def call_destroy(self, handle):
        refused = self.missing(handle)
        if not refused:
            del self.views[handle]
        return refused or "done"

    def call_refresh(self, *rect):
        return "done" if is_rect(*rect) else "bad-rect"

    def call_take(self):
        return f"event {self.queue.popleft()}" if self.queue else "no-event"

    def call_upgrade(self, units):
        if units > self.reserve:
            return f"no-reserve {units} {self.reserve}"
        self.donation += units
        self.reserve -= units
        return "done"

    def call_close(self):
        self.end("closed")
        return "done"


class Drawing:
    """The words that a script writes, by the calls before each stroke."""

    def __init__(self, donation):
        self.plan = Session(donation)
        self.words = {}

    def do(self, line):
        """What a line of a script does to the words."""
        word = line.split(" ")[0]
        if word in STROKES:
            self.stroke(line.split(" ")[1:])
        elif word != "phase":
            done = self.plan.call(line)
            if word == "buffer" and done == "done":
                for place in range(self.plan.size[0] * self.plan.size[1]):
                    self.words[place] = 0

    def stroke(self, words):
        x, y, width, height = (int(word) for word in words[:4])
        colours = [int(word, 16) for word in words[4:]] * 2
        across, down = self.plan.size
        for row in range(y, min(y + height, down)):
            for column in range(x, min(x + width, across)):
                self.words[row * across + column] = colours[(column - x + row - y) % 2]

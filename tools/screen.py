"""The rules of docs/RULES.md on the screen in plain Python, for tools/fuzz.

They are written from the document alone: where an input event goes, what is loaded, and what a
frame shows. They are slow and meant for small screens. Sessions are those of tools/model.py.
"""
from model import Drawing, Session, View, numbers_of

BARE = 0x000020
XRAY_KEY, KILL_KEY, KILL_BUTTON = 70, 99, 272
BUTTONS = range(272, 280)
DIRTYING = ("place", "offset", "front", "back", "above", "destroy", "close", "buffer", "refresh")
GLYPHS = dict(zip("0123456789abcdefghijklmnopqrstuvwxyz-._: ", (
    "75557 26227 71747 71717 55711 74717 74757 71111 75757 75717 "
    "25755 65656 34443 65556 74647 74644 34553 55755 72227 "
    "11152 55655 44447 57755 65555 25552 65644 25563 65665 "
    "34216 72222 55557 55552 55775 55255 55222 71247 "
    "00700 00002 00007 02020 00000").split()))


def is_dot(text, x, y):
    if not (1 <= y <= 5 and x >= 1 and (x - 1) % 4 < 3):
        return False
    return int(GLYPHS[text[(x - 1) // 4]][y - 1]) & (4 >> (x - 1) % 4) != 0


def header(width, height):
    return f"P6\n{width} {height}\n255\n".encode()


def mixed(word, red):
    """Each channel halved, with so much red on top."""
    return (word >> 1 & 0x7F7F7F) + (red << 16)


class Scene:
    """All sessions, the stack, the user's input, and the words that were loaded."""

    def __init__(self, config):
        screen = config["screen"]
        self.width, self.height = screen["width"], screen["height"]
        self.bar = 7 if screen.get("bar") else 0
        clients = config["client"]
        self.labels = [client["label"] for client in clients]
        self.clicks = [client.get("focus", "click") == "click" for client in clients]
        self.sessions = [Session(c["donation"], c.get("layer", 0)) for c in clients]
        self.drawings = [Drawing(client["donation"]) for client in clients]
        self.stack, self.mode, self.pointer, self.held = [], "flat", (0, 0), []
        self.receiver = self.hovered = self.focused = None
        self.raw = [[BARE] * self.width for _ in range(self.height)]

    # The stack, and who owns a pixel.

    def owner(self, column, row):
        if row < self.bar:
            return None
        return next((view for view in self.stack if view.covers(column, row)), None)

    def owners(self):
        rows = [[None] * self.width for _ in range(self.height)]
        for view in reversed(self.stack):
            x, y, width, height = view.rect
            left, right = max(x, 0), min(x + width, self.width)
            for row in range(max(y, self.bar), min(y + height, self.height)):
                if left < right:
                    rows[row][left:right] = [view] * (right - left)
        return rows

    def to_front(self, view):
        self.stack = [other for other in self.stack if other is not view]
        places = (k for k, v in enumerate(self.stack) if v.session.layer >= view.session.layer)
        self.stack.insert(next(places, len(self.stack)), view)

    def to_back(self, view):
        self.stack = [other for other in self.stack if other is not view]
        layer = view.session.layer
        self.stack.insert(sum(other.session.layer <= layer for other in self.stack), view)

    def restack(self, session, line, moved):
        """What an accepted call changes in the stack; `moved` is the view that it names first."""
        word = line.split(" ")[0]
        if word == "view":
            self.to_front(session.views[session.next_handle - 1])
        elif word == "front":
            self.to_front(moved)
        elif word == "back":
            self.to_back(moved)
        elif word == "above":
            behind = session.views[numbers_of(line)[1]]
            if behind is not moved:
                self.stack.remove(moved)
                self.stack.insert(self.stack.index(behind), moved)
        elif word == "destroy":
            self.stack.remove(moved)
        elif word == "close":
            self.take_away(session)

    def take_away(self, session):
        self.stack = [view for view in self.stack if view.session is not session]
        self.receiver, self.hovered, self.focused = (
            None if who is session else who
            for who in (self.receiver, self.hovered, self.focused))

    # Loading.

    def place_of(self, view, column, row):
        """The place in the buffer that a pixel of the view shows, or none."""
        across, down = view.session.size
        x = column - view.rect[0] - view.offset[0]
        y = row - view.rect[1] - view.offset[1]
        return (x, y) if 0 <= x < across and 0 <= y < down else None

    def load(self, before, after, is_dirty):
        for row in range(self.height):
            for column in range(self.width):
                old, new = before[row][column], after[row][column]
                if is_dirty(old, new, column, row):
                    self.raw[row][column] = self.word(new, column, row)

    def word(self, view, column, row):
        if view is None:
            return BARE
        place = self.place_of(view, column, row)
        if place is None:
            return 0
        words = self.drawings[self.sessions.index(view.session)].words
        return words.get(place[1] * view.session.size[0] + place[0], 0)

    def call(self, who, line):
        """The reply to a client's call. What is dirty is loaded."""
        session = self.sessions[who]
        word, *words = line.split(" ")
        before = self.owners() if word in DIRTYING else []
        moved = session.views.get(int(words[0])) if words and word != "refresh" else None
        reply = session.call(line)
        if reply.split(" ")[0] not in ("done", "handle"):
            return reply
        self.restack(session, line, moved)
        if word in ("place", "offset", "front", "back", "above", "destroy"):
            self.load(before, self.owners(), lambda old, new, *_: moved in (old, new))
        elif word == "close":
            self.load(before, self.owners(), lambda old, *_: old and old.session is session)
        elif word == "buffer":
            self.load(before, before, lambda old, *_: old and old.session is session)
        elif word == "refresh":
            rect = View(None)
            rect.rect = tuple(numbers_of(line))

            def is_dirty(old, _, column, row):
                if old is None or old.session is not session:
                    return False
                place = self.place_of(old, column, row)
                return place is not None and rect.covers(*place)

            self.load(before, before, is_dirty)
        return reply

    def finish(self):
        """The last picture loads all."""
        owners = self.owners()
        self.load(owners, owners, lambda *_: True)

    # The user's input.

    def device(self, line):
        """The deliveries of a device event, as pairs of a session's number and an item."""
        word, *numbers = line.split(" ")
        values = [int(number) for number in numbers]
        if word == "motion":
            self.pointer = (min(values[0], self.width - 1), min(values[1], self.height - 1))
            routed = self.moved("motion {} {}".format(*self.pointer))
        elif word == "wheel":
            routed = self.moved(line)
        elif word == "press":
            routed = self.pressed(values[0])
        else:
            routed = self.released(values[0])
        told = [(self.sessions.index(who), item) for who, item in routed if who is not None]
        for number, item in told:
            self.deliver(self.sessions[number], item)
        return told

    def deliver(self, session, item):
        if item != "kill":
            session.offer(item)
            return
        before = self.owners()
        session.end("killed")
        self.take_away(session)
        self.load(before, self.owners(), lambda old, *_: old and old.session is session)

    def pointed(self):
        view = self.owner(*self.pointer)
        return view.session if view else None

    def moved(self, event):
        if self.held:
            return [(self.receiver, event)]
        if self.mode != "flat":
            return []
        pointed, hovered = self.pointed(), self.hovered
        self.hovered = pointed
        return [(hovered if hovered is not pointed else None, "leave"), (pointed, event)]

    def pressed(self, code):
        event = f"press {code}"
        if code in (XRAY_KEY, KILL_KEY):
            return [] if self.held else self.mode_key("xray" if code == XRAY_KEY else "kill")
        if code in self.held:
            return []
        self.held.append(code)
        if len(self.held) > 1:
            return [(self.receiver, event)]
        self.receiver = None
        if code in BUTTONS and self.mode in ("flat", "xray"):
            routed, pointed = self.click(), self.pointed()
            if self.mode == "flat":
                self.receiver = pointed
                routed.append((pointed, event))
            return routed
        if self.mode == "kill" and code == KILL_BUTTON:
            self.mode = "flat"
            return [(self.pointed(), "kill")]
        if self.mode == "flat":
            self.receiver = self.focused
            return [(self.focused, event)]
        return []

    def mode_key(self, mode):
        was, left = self.mode, self.hovered
        self.mode = "flat" if was == mode else mode
        if was != "flat":
            return []
        self.hovered = None
        return [(left, "leave")]

    def click(self):
        pointed, old = self.pointed(), self.focused
        takes = pointed is None or self.clicks[self.sessions.index(pointed)]
        if not takes or pointed is old:
            return []
        self.focused = pointed
        return [(old, "focus-leave"), (pointed, "focus-enter")]

    def released(self, code):
        if code not in self.held:
            return []
        self.held.remove(code)
        receiver = self.receiver
        if not self.held:
            self.receiver = None
        return [(receiver, f"release {code}")]

    # Frames.

    def label_of(self, view):
        label = self.labels[self.sessions.index(view.session)]
        return f"{label}:{view.title}" if view.title else label

    def label_places(self, owners):
        """Where each label stands that has a place."""
        places = {}
        for view in self.stack:
            text = self.label_of(view)
            wide = [view] * (4 * len(text) + 1)
            places[view] = next(
                ((x, y, text)
                 for y in range(self.bar, self.height - 6)
                 for x in range(self.width - len(wide) + 1)
                 if all(row[x : x + len(wide)] == wide for row in owners[y : y + 7])), None)
        return places

    def frame(self):
        """The picture in the form P6."""
        owners, labels = self.what_stands()
        pixels = bytearray(header(self.width, self.height))
        for row in range(self.height):
            for column in range(self.width):
                raw = self.raw[row][column]
                word = self.pixel(owners[row][column], labels, column, row, raw)
                pixels += word.to_bytes(3, "big")
        return bytes(pixels)

    def what_stands(self):
        owners = self.owners()
        return owners, self.label_places(owners) if self.mode != "flat" else {}

    def pixel(self, view, labels, column, row, raw):
        """The word of a pixel, for what was loaded there."""
        if row >= self.bar:
            return self.shown(view, labels, column, row, raw)
        said = self.mode
        if self.focused is not None:
            said += ":" + self.labels[self.sessions.index(self.focused)]
        return 0xFFFFFF if column < 4 * len(said) + 1 and is_dot(said, column, row) else 0

    def shown(self, view, labels, column, row, raw):
        if view is None:
            return BARE
        if self.mode == "flat":
            return raw
        if labels[view]:
            x, y, text = labels[view]
            if x <= column < x + 4 * len(text) + 1 and y <= row < y + 7:
                return 0xFFFFFF if is_dot(text, column - x, row - y) else 0
        left, top, width, height = view.rect
        ring = column in (left, left + width - 1) or row in (top, top + height - 1)
        focused = view.session is self.focused
        if self.mode == "kill":
            return 0xFF0000 if ring else mixed(raw, 128)
        if ring:
            return 0xFFFFFF if focused else 0x808080
        return raw if focused else mixed(raw, 0)

"""A case of tools/fuzz, and the random valid ones: configurations, scripts and their spelling."""
import os

import model
from expected import text_of
from screen import KILL_KEY, XRAY_KEY

COLOURS = ["000000", "FF0000", "00FF00", "0000FF", "FFFFFF", "808080", "123456", "FEDCBA"]
MODE_KEYS = (XRAY_KEY, KILL_KEY)


class Case:
    """The words, the files, and what the case was broken to."""

    def __init__(self, kind, words, files, broken="", refused=None):
        self.kind, self.words, self.files = kind, words, files
        self.broken, self.refused = broken, refused


# Scripts.


def pick_number(rng, usual):
    """A number, mostly a usual one, sometimes one at the edge of what is read or accepted."""
    if rng.random() < 0.95:
        return rng.randint(*usual)
    return rng.choice([0, 1, 4096, 4097, 32767, 32768, 65536, 999999999])


def pick_place(rng, size):
    if rng.random() < 0.96:
        return rng.randint(-6, size)
    return rng.choice([-32768, -32769, 32767, 32768, -999999999, 999999999])


def pick_title(rng):
    letters = "abz059-._ " if rng.random() < 0.9 else "A<>=\"~ x"
    longest = rng.choice([1, 2, 3, 12, 13, 40])
    return "".join(rng.choice(letters) for _ in range(rng.randint(0, longest)))


def pick_colour(rng):
    return rng.choice(COLOURS) if rng.random() < 0.9 else f"{rng.randrange(1 << 24):06X}"


class Client:
    """Makes lines of a client's script that mostly fit what it has."""

    def __init__(self, rng, width, height):
        self.rng, self.width, self.height, self.views = rng, width, height, 0

    def handle(self):
        return self.rng.randint(1, self.views) if self.views and self.rng.random() < 0.95 \
            else self.rng.choice([0, self.views + 1, 999999999])

    def area(self):
        rng = self.rng
        return (f"{pick_number(rng, (0, 8))} {pick_number(rng, (0, 6))} "
                f"{pick_number(rng, (0, self.width))} {pick_number(rng, (0, self.height))}")

    def placed(self):
        rng = self.rng
        x, y = pick_place(rng, self.width), pick_place(rng, self.height)
        return (f"{x} {y} {pick_number(rng, (0, self.width + 2))} "
                f"{pick_number(rng, (0, self.height + 2))}")

    def begin(self):
        """The lines with which most scripts begin."""
        width, height = self.rng.randint(1, self.width), self.rng.randint(1, self.height)
        left, top = self.rng.randint(-2, self.width // 2), self.rng.randint(-2, self.height // 2)
        large = f"{left} {top} {self.width // 2 + 4} {self.height // 2 + 4}"
        self.views = 1
        return [f"buffer {width} {height}", f"fill 0 0 {width} {height} {pick_colour(self.rng)}",
                "view", f"place 1 {self.rng.choice([large, large, self.placed()])}"]

    def line(self):
        rng = self.rng
        word = rng.choices(
            ["view", "place", "fill", "check", "title", "front", "back", "above", "offset",
             "refresh", "take", "destroy", "buffer", "upgrade", "close"],
            [8, 14, 10, 7, 6, 7, 6, 6, 5, 7, 12, 2, 3, 3, 0.3])[0]
        if word == "view":
            self.views += 1
        if word in ("view", "take", "close"):
            return word
        if word in ("fill", "check"):
            colours = [pick_colour(rng) for _ in range(1 if word == "fill" else 2)]
            return " ".join([word, self.area(), *colours])
        if word == "refresh":
            return f"refresh {self.placed()}"
        if word == "buffer":
            width, height = pick_number(rng, (1, self.width)), pick_number(rng, (1, self.height))
            return f"buffer {width} {height}"
        if word == "upgrade":
            return f"upgrade {pick_number(rng, (0, 2000))}"
        rest = {
            "place": lambda: " " + self.placed(),
            "title": lambda: " =" + pick_title(rng),
            "above": lambda: f" {self.handle()}",
            "offset": lambda: f" {pick_place(rng, self.width)} {pick_place(rng, self.height)}",
        }.get(word, lambda: "")()
        return f"{word} {self.handle()}{rest}"


class User:
    """Makes lines of an input script."""

    def __init__(self, rng, width, height, has_clicks=True):
        self.rng, self.width, self.height = rng, width, height
        self.held, self.has_clicks, self.last_key = [], has_clicks, None
        self.mode_chance = rng.choice([0, 0.1, 0.3])

    def mode_key(self):
        """A key that changes the mode, often the one that was pressed last: it leads back."""
        if self.last_key is None or self.rng.random() < 0.4:
            self.last_key = self.rng.choice(MODE_KEYS)
        return self.last_key

    def line(self):
        rng = self.rng
        weights = [8, 4, 20, 3, 2] if self.held else [10, 9, 1, 3, 3]
        word = rng.choices(["motion", "press", "release", "wheel", "shot"], weights)[0]
        if word == "motion":
            if rng.random() < 0.97:
                return f"motion {rng.randint(0, self.width)} {rng.randint(0, self.height)}"
            return f"motion {rng.choice([0, 65535])} 65535"
        if word == "press":
            keys, buttons = [0, 30, 69, 71, 767], [272] * 12 + [273, 279, 280, 271]
            code = rng.choice(keys + buttons if self.has_clicks else keys)
            if rng.random() < self.mode_chance:
                code = self.mode_key()
            self.held += [code] if code not in MODE_KEYS else []
            return f"press {code}"
        if word == "release":
            held = self.held
            return f"release {held.pop(rng.randrange(len(held))) if held else rng.choice([30, 70])}"
        return f"wheel {rng.randint(-127, 127)}" if word == "wheel" else word


def pick_scripts(rng, kind, config):
    """The scripts of the clients and the user's, for a valid configuration."""
    width, height = config["screen"]["width"], config["screen"]["height"]
    makers = [Client(rng, width, height) for _ in config["client"]]
    user = User(rng, width, height, has_clicks=kind != "layers")
    phases = rng.randint(0, 3) if kind != "phases" else rng.randint(1, 6)
    idle = phases > 0 and rng.random() < 0.7
    most = rng.choice([3, 10, 25, 60])
    scripts = [[] for _ in range(len(makers) + 1)]
    for phase in range(phases + 1):
        alone = rng.randrange(len(scripts))
        for number, maker in enumerate([*makers, user]):
            waits = idle and phase == 0 and number == len(makers)
            if number == alone if kind == "phases" else not waits:
                if number < len(makers) and not maker.views and rng.random() < 0.9:
                    scripts[number] += maker.begin()
                scripts[number] += [maker.line() for _ in range(rng.randint(0, most))]
            scripts[number] += ["phase"] if phase < phases else []
    if kind != "phases" and rng.random() < 0.03:
        flood(rng, scripts, width, height)
    return scripts


def flood(rng, scripts, width, height):
    """More events than a queue takes, or more views than a session has."""
    if rng.random() < 0.5:
        scripts[-1] += [f"motion {rng.randrange(width)} {rng.randrange(height)}" for _ in range(90)]
    else:
        scripts[0] += ["view"] * 70


# Configurations.


def pick_donation(rng):
    small = rng.choice([256, 511, 512, 767, 1000])
    return rng.choice([small, rng.randint(256, 20000)] + [20000, 65536, 65536, 262144] * 2)


def pick_label(rng, taken):
    while True:
        longest = rng.choice([1, 1, 2, 5, 20])
        letters = (rng.choice(model.LABEL_BYTES) for _ in range(rng.randint(1, longest)))
        label = "".join(letters)
        if label not in taken:
            return label


def pick_name(rng, number):
    """A client's file."""
    forms = ["c{}.nit"] * 12 + ["a b {}.nit", "{}", "in/deep/{}.nit", "./c{}.nit", "q'{}\"\\.nit",
                                "-{}~", "{}" + "n" * 250, "events-{}.txt"]
    return rng.choice(forms).format(number)


def pick_config(rng, kind):
    count = rng.choices([1, 2, 3, 4, 8, 16], [20, 40, 20, 10, 2, 1])[0]
    count = min(count, 8) if kind == "layers" else count
    screen = {"width": rng.randint(1, 40), "height": rng.randint(1, 24)}
    if rng.random() < 0.5:
        screen = {"width": rng.randint(24, 56), "height": rng.randint(12, 32)}
    if rng.random() < 0.5:
        screen["bar"] = screen["height"] >= 8 and rng.random() < 0.7
    layers = rng.sample(range(8), min(count, 8))
    clients, labels = [], []
    for number in range(count):
        labels.append(pick_label(rng, labels))
        client = {"label": labels[-1], "donation": pick_donation(rng)}
        client["script"] = pick_name(rng, number)
        if kind == "layers":
            client["layer"] = layers[number]
        elif rng.random() < 0.3:
            client["layer"] = rng.randint(0, 7)
        if rng.random() < 0.3:
            client["focus"] = rng.choice(["click", "none"])
        clients.append(client)
    name = rng.choice(["user.in"] * 8 + ["journal.txt", "shot-1.ppm"])
    return {"screen": screen, "input": {"script": name}, "client": clients}


def toml_text(rng, config):
    """A spelling of the configuration: one of many."""
    parts, lines = [], []
    for name in ("screen", "input"):
        pairs = pair_lines(rng, config[name])
        if rng.random() < 0.2:
            lines.append(f"{name} = {{ {', '.join(pairs)} }}")
        else:
            parts.append([f"[{name}]", *pairs])
    if rng.random() < 0.1:
        tables = [f"{{ {', '.join(pair_lines(rng, client))} }}" for client in config["client"]]
        lines.append("client = [" + ",\n ".join(tables) + "]")
    else:
        parts.append([line for client in config["client"]
                      for line in ["[[client]]", *pair_lines(rng, client)]])
    rng.shuffle(parts)
    for part in parts:
        lines += ["", *part]
    if rng.random() < 0.2:
        lines.insert(rng.randint(0, len(lines) - 1) if len(lines) > 30 else 0, "# a comment")
    return "\n".join(lines) + rng.choice(["\n", "\n", ""])


def pair_lines(rng, table):
    pairs = [f"{key} = {toml_value(rng, value)}" for key, value in table.items()]
    rng.shuffle(pairs)
    return pairs


def toml_value(rng, value):
    if isinstance(value, bool):
        return "true" if value else "false"
    if isinstance(value, int):
        return hex(value) if value > 0 and rng.random() < 0.05 else str(value)
    if isinstance(value, str):
        if "'" not in value and value.isprintable() and rng.random() < 0.2:
            return f"'{value}'"
        return '"' + "".join(toml_letter(letter) for letter in value) + '"'
    if isinstance(value, float):
        return repr(value)
    return "[" + ", ".join(toml_value(rng, part) for part in value) + "]"


def toml_letter(letter):
    if letter in "\"\\":
        return "\\" + letter
    return letter if letter.isprintable() else f"\\u{ord(letter):04X}"


# Cases.


def valid_case(rng, kind):
    config = pick_config(rng, kind)
    scripts = pick_scripts(rng, kind, config)
    names = [client["script"] for client in config["client"]] + [config["input"]["script"]]
    files = {"c.toml": toml_text(rng, config).encode()}
    files |= {os.path.normpath(name): text_of(lines) for name, lines in zip(names, scripts)}
    case = Case(kind, ["turns", "c.toml"], files)
    case.config = config
    return case


def still_case(rng):
    width, height = rng.randint(1, 40), rng.randint(1, 22)
    maker = Client(rng, width, height)
    lines = maker.begin() + [maker.line() for _ in range(rng.choice([0, 5, 20, 60]))]
    for _ in range(rng.randint(0, 2)):
        lines.insert(rng.randint(0, len(lines)), "phase")
    name = pick_name(rng, 0)
    files = {os.path.normpath(name): text_of(lines)}
    return Case("still", ["still", str(width), str(height), name], files)

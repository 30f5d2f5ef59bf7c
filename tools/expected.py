"""What a case of tools/fuzz comes to, worked out by tools/model.py from the documents alone."""
import os
import re

import model
from reasons import toml_places
from reasons.config import plain
from reasons.faults import Fault
from screen import Scene
from usage import LINE as USAGE


class Setup:
    """A configuration and scripts that can be run."""

    def __init__(self, config, clients, user, has_texts=True):
        self.config, self.clients, self.user, self.has_texts = config, clients, user, has_texts

    def summary(self):
        """The line of status 0."""
        calls = sum(is_call(line) for lines in self.clients for line in lines)
        others = sum(line != "phase" for line in self.user)
        frames = self.user.count("shot") + 1
        return f"clients {len(self.clients)} entries {calls + others + 1} frames {frames}"

    def labels(self):
        return [client["label"] for client in self.config["client"]]


def is_call(line):
    return line.split(" ")[0] in model.CALLS


class Expected:
    """The status, the line behind `nitpicker: `, and the files that a run puts, in their order."""

    def __init__(self, status, line, setup=None, puts=None):
        self.status, self.line, self.setup, self.puts = status, line, setup, puts or {}


# What is expected.


class Refused(Exception):
    """The status and the line of a case that cannot be run."""


def file_of(case, name):
    data = case.files.get(os.path.normpath(name)) if name else None
    if data is None:
        raise Refused(3, f"{name}: read fault")
    return data


def table_of(text):
    """The table of a TOML text."""
    return plain(toml_places.read(text))


def config_of(case, name):
    data = file_of(case, name)
    if len(data) > model.MOST_BYTES:
        raise Refused(5, f"{name}: bad configuration: too long")
    try:
        table = table_of(data.decode())
        kind = model.refusal(table)
    except (Fault, UnicodeDecodeError):
        kind = "syntax"
    if kind:
        raise Refused(5, f"{name}: bad configuration: {kind}")
    return table


def script_of(case, name, is_line):
    try:
        return model.read_script(file_of(case, name), is_line)
    except model.BadScript as why:
        raise Refused(6, f"{name}: {why}") from why


def setup_of(case):
    """What the files of `turns` and `run` make, each judged before the next one is read."""
    config = config_of(case, case.words[1])
    names = [client["script"] for client in config["client"]] + [config["input"]["script"]]
    scripts = []
    for place, name in enumerate(names):
        is_user = place == len(names) - 1
        lines = script_of(case, name, model.is_input_line if is_user else model.is_client_line)
        if scripts and lines.count("phase") != scripts[0].count("phase"):
            raise Refused(6, f"{name}: phases differ")
        scripts.append(lines)
    return Setup(config, scripts[:-1], scripts[-1])


def is_number(word, least, most):
    return re.fullmatch(model.NAT, word) is not None and least <= int(word) <= most


def still_setup(case):
    _, width, height, name = case.words
    lines = script_of(case, name, model.is_client_line)
    client = {"label": "still", "donation": 8388608}
    config = {"screen": {"width": int(width), "height": int(height)}, "client": [client]}
    return Setup(config, [lines], ["phase"] * lines.count("phase"), has_texts=False)


def setup_by_words(case):
    word, *others = case.words or [""]
    if word in ("turns", "run") and len(others) == 1:
        return setup_of(case)
    if word == "still" and len(others) == 3:
        if is_number(others[0], 1, 1024) and is_number(others[1], 1, 768):
            return still_setup(case)
    raise Refused(2, USAGE)


def expected_of(case):
    """What the case comes to by turns."""
    try:
        setup = setup_by_words(case)
    except Refused as refused:
        return Expected(*refused.args)
    puts = {}
    for name, data in outputs_by_turns(setup).items():
        if name in case.files and case.files[name] is None:
            return Expected(4, f"{name}: write fault", setup, puts)
        puts[name] = data
    return Expected(0, setup.summary(), setup, puts)


def entry_of_device(line, told):
    return f"input {line}" + "".join(f" > {number} {item}" for number, item in told)


def outputs_by_turns(setup, scene=None):
    """The files of a run by turns, in the order in which they are put."""
    return outputs_in(setup, model.rounds(setup.clients + [setup.user]), scene)


def outputs_in(setup, order, scene=None):
    """The files of a run in which the actors do their lines in this order, as pairs of an actor
    and its line. A large screen takes long without the scene of tools/page/pixels.py."""
    scene, journal, puts = scene or Scene(setup.config), [], {}
    events = [[] for _ in setup.clients]
    for who, line in order:
        if who < len(setup.clients):
            scene.drawings[who].do(line)
            if is_call(line):
                reply = scene.call(who, line)
                journal.append(f"call {who} {reply} < {line}")
                events[who] += [reply[6:]] if reply.startswith("event ") else []
        elif line == "shot":
            shot = len(puts) + 1
            puts[f"shot-{shot}.ppm"] = scene.frame()
            journal.append(f"shot {shot}")
        elif line != "phase":
            journal.append(entry_of_device(line, scene.device(line)))
    scene.finish()
    puts["final.ppm"] = scene.frame()
    if setup.has_texts:
        puts |= events_files(setup, scene.sessions, events)
        puts["journal.txt"] = text_of(journal + ["final"])
    return puts


def text_of(lines):
    return "".join(line + "\n" for line in lines).encode()


def events_files(setup, sessions, events):
    return {
        f"events-{label}.txt": text_of(
            [*taken, f"lost {one.lost}", f"left {len(one.queue)}", f"state {one.state}"])
        for label, one, taken in zip(setup.labels(), sessions, events)}


# The generated run, from its description.


class Stream:
    def __init__(self, start):
        self.at = start % (1 << 32)

    def draw(self, below):
        self.at = (self.at * 1664525 + 1013904223) % (1 << 32)
        return self.at // 65536 % below

    def colour(self):
        return "".join(f"{self.draw(256):02X}" for _ in range(3))

    def placed(self):
        x, y = self.draw(340) - 20, self.draw(260) - 20
        width = 20 + self.draw(100)
        return f"{x} {y} {width} {10 + self.draw(60)}"

    def area(self):
        x, y = self.draw(128), self.draw(96)
        width = 1 + self.draw(64)
        return f"{x} {y} {width} {1 + self.draw(48)}"

    def line(self, kind):
        if kind == 0:
            return f"fill {self.area()} {self.colour()}"
        if kind == 1:
            area, first = self.area(), self.colour()
            return f"check {area} {first} {self.colour()}"
        if kind == 5:
            return f"refresh {self.area()}"
        if kind == 6:
            return "take"
        handle = 1 + self.draw(16)
        if kind == 2:
            return f"place {handle} {self.placed()}"
        if kind == 7:
            x = self.draw(41) - 20
            return f"offset {handle} {x} {self.draw(41) - 20}"
        return f"{'front' if kind == 3 else 'back'} {handle}"


def generated(number):
    """The setup of a generated run, and its ten files."""
    config = {"screen": {"width": 320, "height": 240}, "input": {"script": "gen.in"}, "client": []}
    text = ["[screen]", "width = 320", "height = 240", "", "[input]", 'script = "gen.in"']
    clients = []
    for c in range(8):
        config["client"].append({"label": f"g{c}", "donation": 262144, "script": f"g{c}.nit"})
        text += ["", "[[client]]", f'label = "g{c}"', "donation = 262144", f'script = "g{c}.nit"']
        stream = Stream(9 * number + c)
        lines = ["buffer 128 96", f"fill 0 0 128 96 {stream.colour()}"] + ["view"] * 16
        lines += [f"place {view} {stream.placed()}" for view in range(1, 17)]
        lines += [f"title {view} =w{view}" for view in range(1, 17)] + ["phase"]
        clients.append(lines + [stream.line(j % 8) for j in range(1944)] + ["phase"])
    stream, user = Stream(9 * number + 8), ["phase"]
    for _ in range(50):
        x = stream.draw(320)
        user += [f"motion {x} {stream.draw(240)}", "press 272", "release 272", "wheel 1"]
    user += ["phase", "press 70", "shot", "press 70"]
    files = {"gen.toml": text_of(text)}
    files |= {f"g{c}.nit": text_of(lines) for c, lines in enumerate(clients)}
    files["gen.in"] = text_of(user)
    return Setup(config, clients, user), files

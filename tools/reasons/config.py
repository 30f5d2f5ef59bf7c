"""Why a configuration is refused: each key that breaks a rule of docs/FORMATS.md, by kinds."""
import difflib
import re

from shown import quoted, shown

from . import toml_places
from .faults import Fault, Finding, Note, Refused

MOST_BYTES = 1048576
KINDS = ("syntax", "kind", "missing", "unknown", "too many", "range", "label", "twice")
FORM = "docs/FORMATS.md, Configuration"
# Of each key its kind, whether it has to be there, and the values that it may have in words.
NAME = "a file's name is 1 to 255 characters of ASCII, from the space to `~`"
SCREEN = {
    "width": ("an integer", True, "1 to 1024 pixels"),
    "height": ("an integer", True, "1 to 768 pixels"),
    "bar": ("a boolean", False, "true or false"),
}
INPUT = {"script": ("a string", True, NAME)}
CLIENT = {
    "label": ("a string", True, "1 to 20 of `a` to `z`, `0` to `9`, `-`, `.` and `_`"),
    "donation": ("an integer", True, "256 to 8388608 units"),
    "script": ("a string", True, NAME),
    "layer": ("an integer", False, "0 to 7, 0 in front"),
    "focus": ("a string", False, '`"click"` or `"none"`'),
}
TOP = {"screen": ("a table", True, "`[screen]`"), "input": ("a table", True, "`[input]`"),
       "client": ("an array of tables", True, "`[[client]]` for each of 1 to 16 clients")}
RULES = {
    "missing": "there is at least one client", "unknown": "no other keys stand there",
    "too many": "16 clients are the most", "label": f"a label is {CLIENT['label'][2]}",
    "twice": "no two clients have one label",
}
RANGES = {"width": (1, 1024), "height": (1, 768), "donation": (256, 8388608), "layer": (0, 7)}
SAMPLES = {"width": "640", "height": "480", "bar": "true", "label": '"mail"', "donation": "65536",
           "script": '"mail.nit"', "layer": "0", "focus": '"none"'}
NO = ("0", "false", "no", "none", "off")
LETTERS = "abcdefghijklmnopqrstuvwxyz0123456789-._"


class Part:
    """A table of the configuration: its name for a person, its value, and its keys."""

    def __init__(self, name, value, keys):
        self.name, self.value, self.keys = name, value, keys

    def key(self, key):
        """A key of this part, as a person is told of it."""
        return f"`{key}` of {self.name}" if self.name else f"`{key}`"

    def has(self, key):
        return key in self.value.data

    def get(self, key):
        """The value at a key, where it is of the key's kind."""
        value = self.value.get(key)
        return value if value and is_kind(value, self.keys[key][0]) else None


def is_kind(value, kind):
    if kind == "an array of tables":
        return value.kind == kind or value.kind == "an array" and all(
            item.kind == "a table" for item in value.data)
    return value.kind == kind


def row_of(keys, key):
    """What the table of keys says of one."""
    kind, is_required, right = keys[key]
    return f"`{key}` is {kind}{', required' if is_required else ''}: {right}"


def elements(top):
    """The clients' tables, as far as there are tables."""
    clients = top.get("client")
    if clients is None or clients.kind not in ("an array", "an array of tables"):
        return []
    return [item for item in clients.data if item.kind == "a table"]


def parts_of(top):
    """The top, and each table in it that is one."""
    parts = [Part("", top, TOP)]
    for name, keys in (("screen", SCREEN), ("input", INPUT)):
        value = top.get(name)
        if value and value.kind == "a table":
            parts.append(Part(f"`[{name}]`", value, keys))
    for number, item in enumerate(elements(top), 1):
        label = item.get("label")
        is_told = label and label.kind == "a string" and label.data
        known = f" ({shown(label.data[:20])})" if is_told else ""
        parts.append(Part(f"client {number}{known}", item, CLIENT))
    return parts


# Each refusal, as pairs of its kind and its fault.


def wrong_kinds(parts):
    for part in parts:
        for key, (kind, _, right) in part.keys.items():
            value = part.value.get(key)
            if value is None or is_kind(value, kind):
                continue
            if key == "client" and value.kind == "an array":
                value = next(item for item in value.data if item.kind != "a table")
            yield "kind", Fault(value.at, value.end, f"{part.key(key)} is {value.kind}, and has to "
                                f"be {kind}", sample_of(key, right, value),
                                row_of(part.keys, key))


def sample_of(key, right, value):
    if key == "bar":
        return boolean_sample(key, str(value.data))
    if key == "client" and value.kind == "a table":
        return "`[[client]]`, with two brackets, for each client"
    return f"`{key} = {SAMPLES[key]}`" if key in SAMPLES else right


def boolean_sample(key, word):
    """The line with the boolean that a word may stand for."""
    return f"`{key} = {'false' if word.lower() in NO else 'true'}`"


def at_known_key(text, fault):
    """The fault, or what says it better where a word without quotes stands at a key that takes a
    boolean or a number: quotes would not mend that."""
    word, start = text[fault.at : fault.end], text.rfind("\n", 0, fault.at) + 1
    match = re.search(r"(?:^|[ \t.{,])([a-z]+)[ \t]*=[ \t]*\Z", text[start : fault.at][-80:])
    keys = SCREEN | INPUT | CLIENT
    kind = keys[match[1]][0] if match and match[1] in keys else None
    if kind not in ("a boolean", "an integer") or not re.fullmatch("[A-Za-z]+", word):
        return fault
    key, what = match[1], f"`{match[1]}` is {quoted(word)}, and has to be {kind}"
    if kind == "a boolean":
        is_spelled = word.lower() in ("true", "false")
        return Fault(fault.at, fault.end, fault.what if is_spelled else what,
                     boolean_sample(key, word), row_of(keys, key))
    return Fault(fault.at, fault.end, what, f"`{key} = {SAMPLES[key]}`", row_of(keys, key))


def missing_keys(parts, text):
    for part in parts:
        for key, (_, is_required, right) in part.keys.items():
            if is_required and not part.has(key):
                is_top = part.keys is TOP
                at = len(text.rstrip("\n")) if is_top else part.value.at
                sample = right if is_top else f"`{key} = {SAMPLES[key]}`: {right}"
                yield "missing", Fault(at, at + 1 if is_top else part.value.end,
                                       f"{part.key(key)} is missing", sample,
                                       row_of(part.keys, key))
    clients = parts[0].value.get("client")
    if clients and clients.kind == "an array" and not clients.data:
        yield "missing", Fault(clients.at, clients.end, "there is no client", TOP["client"][2])


def unknown_keys(parts):
    for part in parts:
        for key, ((at, end), _) in part.value.data.items():
            if key in part.keys:
                continue
            close = difflib.get_close_matches(key.lower(), part.keys, 1, 0.7)
            known = "the keys there are " + ", ".join(f"`{name}`" for name in part.keys)
            homes = [name for name, keys in (("[screen]", SCREEN), ("[[client]]", CLIENT))
                     if key in keys and keys is not part.keys]
            hint = f"perhaps `{close[0]}`; " if close else \
                f"it belongs to `{homes[0]}`; " if homes else ""
            yield "unknown", Fault(at, end, f"{part.name or 'the file'} has no key {quoted(key)}",
                                   hint + known)


def too_many(parts):
    clients = [part for part in parts if part.keys is CLIENT]
    if len(clients) > 16:
        value = clients[16].value
        yield "too many", Fault(value.at, value.end, f"there are {len(clients)} clients, and this "
                                "is the 17th", "16 are the most")


def out_of_range(parts):
    for part in parts:
        for key, (_, _, right) in part.keys.items():
            value = part.get(key)
            what = value and key != "label" and range_fault(key, value.data)
            if what:
                yield "range", Fault(value.at, value.end, f"{part.key(key)} is {what}", right,
                                     row_of(part.keys, key))
    for part in parts:
        if part.keys is SCREEN:
            bar, height = part.get("bar"), part.get("height")
            if bar and bar.data and height and height.data < 8:
                yield "range", Fault(bar.at, bar.end, "the bar is on, and the screen has only "
                                     f"{height.data} rows",
                                     "8 rows or more: seven of them are the bar's",
                                     "`bar` is true only at a height of 8 or more")


def range_fault(key, data):
    """What is wrong with a value of the right kind, or none."""
    if key in RANGES:
        least, most = RANGES[key]
        return None if least <= data <= most else \
            f"{data}, which is {'below ' + str(least) if data < least else 'over ' + str(most)}"
    if key == "focus":
        return None if data in ("click", "none") else quoted(data)
    if key != "script":
        return None
    odd = next((letter for letter in data if not " " <= letter <= "~"), None)
    if odd is not None:
        return f"{quoted(data)}, with the character {quoted(odd)}"
    if not data:
        return "empty"
    return f"a name of {len(data)} characters" if len(data) > 255 else None


def bad_labels(parts):
    for part in parts:
        label = part.get("label") if part.keys is CLIENT else None
        if not label:
            continue
        odd = next((letter for letter in label.data if letter not in LETTERS), None)
        what = f"has the character {quoted(odd)}" if odd is not None else \
            "is empty" if not label.data else f"has {len(label.data)} characters"
        if odd is not None or not 1 <= len(label.data) <= 20:
            yield "label", Fault(label.at, label.end, f"the label of {part.name} {what}",
                                 f"{near_label(label.data)}a label is {CLIENT['label'][2]}")


def near_label(text):
    """What a label may have been meant to be, in front of the rule, where it is not far."""
    near = "".join(letter if letter in LETTERS else "-" for letter in text.lower())
    is_far = len(near) > 20 or sum(letter not in LETTERS for letter in text.lower()) > 3
    return "" if is_far or not near.strip("-") else f'perhaps `"{near}"`: '


def twins(parts):
    first = {}
    for part in parts:
        label = part.get("label") if part.keys is CLIENT else None
        if label and label.data in first:
            yield "twice", Fault(label.at, label.end, f"{part.name} has the label of "
                                 f"{first[label.data]}", "each client has a label of its own")
        elif label:
            first[label.data] = part.name.split(" (")[0]


def refusals(top, text):
    """All faults of a table, by kinds in their order."""
    parts = parts_of(top)
    for faults in (wrong_kinds(parts), missing_keys(parts, text), unknown_keys(parts),
                   too_many(parts), out_of_range(parts), bad_labels(parts), twins(parts)):
        yield from faults


def plain(value):
    """A value without its places. A date or time is none that a configuration has."""
    if value.kind == "a date or time":
        return None
    if isinstance(value.data, dict):
        return {key: plain(inner) for key, (_, inner) in value.data.items()}
    return [plain(item) for item in value.data] if isinstance(value.data, list) else value.data


def refused(name, kind, *findings):
    return Refused(5, f"{name}: bad configuration: {kind}", *findings)


def text_of(name, data):
    """The text of a file's bytes."""
    try:
        return data.decode()
    except UnicodeDecodeError as wrong:
        text = data.decode("utf-8", "surrogateescape")
        at = len(data[: wrong.start].decode())
        fault = Fault(at, at + 1, f"the byte 0x{data[wrong.start]:02X} is no UTF-8",
                      "save the file as UTF-8")
        raise refused(name, "syntax", Finding(name, text, fault,
                                              f"{FORM}: it is a TOML file")) from wrong


def read_config(name, data):
    """The configuration as plain values. Raises why it is refused, by all that is wrong."""
    if len(data) > MOST_BYTES:
        raise refused(name, "too long", Note(
            name, f"the file has more than {MOST_BYTES:,} bytes", "", FORM))
    text = text_of(name, data)
    try:
        top = toml_places.read(text)
    except Fault as fault:
        fault = at_known_key(text, fault)
        rule = FORM if fault.rule else f"{FORM}: it is a TOML file"
        raise refused(name, "syntax", Finding(name, text, fault, rule)) from fault
    found = list(refusals(top, text))
    if found:
        raise refused(name, found[0][0], *(
            Finding(name, text, fault, FORM if fault.rule else f"{FORM}: {RULES[kind]}")
            for kind, fault in found))
    return plain(top)

"""The random broken cases of tools/fuzz: what each was broken to, and where known its refusal."""
import os

import model
from expected import expected_of
from valid_cases import Case, toml_text, valid_case


def words_case(rng):
    lists = [[], [""], ["still"], ["turns"], ["run"], ["gen"], ["turns", "c.toml", "c.toml"],
             ["run", "c.toml", ""], ["Turns", "c.toml"], ["turns ", "c.toml"], ["help"], ["--help"],
             ["still", "8", "4"], ["still", "8", "4", "s.nit", "s.nit"], ["c.toml"],
             ["audit", "c.toml"], ["gen", ""], ["gen", "7", "7"], ["gen", "x"], ["gen", "007"],
             ["gen", "-1"], ["gen", "1000000000"], ["gen", "+7"], ["gen", "7 "], ["gen", "\xb7"]]
    lists += [["still", width, height, "s.nit"] for width, height in
              [("08", "4"), ("8", "04"), ("0", "4"), ("8", "0"), ("1025", "4"), ("8", "769"),
               ("-8", "4"), ("8", "+4"), ("8.0", "4"), ("", "4"), (" 8", "4"), ("8", "4\n"),
               ("4294967304", "4"), ("18446744073709551624", "4"), ("0x8", "4"), ("\u0668", "4")]]
    words = rng.choice(lists)
    case = valid_case(rng, "free")
    case.files["s.nit"] = b"view\n"
    return Case("words", words, case.files, f"the words {words}")


def some_part(rng, config):
    return rng.choice([config["screen"], config["input"], *config["client"]])


def break_kind(rng, config):
    parts = [config["screen"], config["input"], *config["client"]]
    part, key = rng.choice([(part, key) for part in parts for key in part])
    now = part[key]
    part[key] = rng.choice([other for other in ("8", 8, True, 0.5, [8], ["click"])
                            if type(other) is not type(now)])
    return "kind"


def break_missing(rng, config):
    part = some_part(rng, config)
    key = rng.choice([key for key in part if key not in model.OPTIONAL])
    del part[key]
    return "missing"


def break_unknown(rng, config):
    some_part(rng, config)[rng.choice(["depth", "Width", "x", "screen", "size"])] = 24
    return "unknown"


def break_number(rng, config):
    clients, first = config["client"], dict(config["client"][0])
    for number in range(len(clients), rng.choice([17, 18, 40])):
        clients.append(first | {"label": f"more-{number}"})
    return "too many"


def break_range(rng, config):
    screen, client = config["screen"], rng.choice(config["client"])
    name = rng.choice(["", "n" * 256, "caf\u00e9.nit", "tab\t.nit", "nul\0.nit", "del\x7f.nit"])
    part, key, value = rng.choice([
        (screen, "width", 0), (screen, "width", 1025), (screen, "width", -1),
        (screen, "height", 0), (screen, "height", 769), (screen, "height", 1 << 40),
        (client, "donation", 255), (client, "donation", 8388609), (client, "donation", -256),
        (client, "donation", (1 << 63) - 1), (client, "layer", 8), (client, "layer", -1),
        (client, "layer", 1 << 32), (client, "focus", "Click"), (client, "focus", ""),
        (client, "script", name), (config["input"], "script", name), (screen, "bar", True)])
    part[key] = value
    if key == "bar":
        screen["height"] = rng.randint(1, 7)
    return "range"


def break_label(rng, config):
    client = rng.choice(config["client"])
    client["label"] = rng.choice(["", "A", "a b", "a" * 21, "\u00e4", "a:b", "../a", "a\n", "a\0"])
    return "label"


def break_twice(rng, config):
    first, *others = config["client"]
    if others:
        rng.choice(others)["label"] = first["label"]
    else:
        config["client"].append(dict(first))
    return "twice"


BREAKS = [break_kind, break_missing, break_unknown, break_number, break_range, break_label,
          break_twice]


def values_case(rng):
    """A configuration with values that are refused: the first refusal is known by its break."""
    case = valid_case(rng, "free")
    breaks = rng.sample(BREAKS, rng.choice([1, 1, 1, 2]))
    # What a later one needs must still be there, so the breaks that take least away come first.
    breaks.sort(key=BREAKS.index, reverse=True)
    kinds = [make(rng, case.config) for make in breaks]
    case.files["c.toml"] = toml_text(rng, case.config).encode()
    refused = f"c.toml: bad configuration: {kinds[0]}" if len(kinds) == 1 else None
    return Case("values", case.words, case.files, f"values: {', '.join(kinds)}", refused)


SYNTAX = [
    ("an open bracket at the end", lambda data: data + b"\n[screen"),
    ("a table twice", lambda data: data + b"\n[input]\nscript = \"x\"\n[input]\n"),
    ("no value", lambda data: b"width =\n" + data),
    ("a byte that is no UTF-8", lambda data: data + b"\n# \xff\n"),
    ("a NUL byte", lambda data: b"\0" + data),
    ("a lone carriage return", lambda data: data + b"\n# x\ry\n"),
    ("no line at all", lambda data: b"nitpicker"),
]


def syntax_case(rng):
    case = valid_case(rng, "free")
    what, change = rng.choice(SYNTAX)
    case.files["c.toml"] = change(case.files["c.toml"])
    return Case("syntax", case.words, case.files, f"configuration: {what}",
                "c.toml: bad configuration: syntax")


def changed(rng, data):
    """The bytes with a small change, and what it is."""
    at = rng.randint(0, len(data))
    kind = rng.choice(["cut", "a byte changed", "a byte put in", "a byte taken out", "swapped"])
    byte = bytes([rng.choice([0, 9, 10, 10, 13, 32, 32, 45, 48, 57, 61, 65, 97, 127, 255])])
    if kind == "cut":
        return data[:at], f"cut behind byte {at}"
    if kind == "a byte put in":
        return data[:at] + byte + data[at:], f"byte {byte[0]} put in at {at}"
    if kind == "a byte changed":
        return data[:at] + byte + data[at + 1 :], f"byte {at} changed to {byte[0]}"
    if kind == "a byte taken out":
        return data[:at] + data[at + 1 :], f"byte {at} taken out"
    return data[at:] + data[:at], f"swapped at {at}"


def bytes_case(rng):
    """A changed file, of which the rules say whether it is refused."""
    case = valid_case(rng, "free")
    name = rng.choice(sorted(case.files))
    case.files[name], what = changed(rng, case.files[name])
    return Case("bytes", case.words, case.files, f"{name}: {what}")


BAD_CLIENT_LINES = [
    "", " ", "view ", " view", "View", "view 1", "buffer 4", "buffer 4 2 1", "buffer  4 2",
    "buffer 04 2", "buffer 4 2\r", "buffer 1000000000 1", "buffer -1 2", "buffer +1 2",
    "buffer 4\t2",
    "fill 0 0 4 2 ff0000", "fill 0 0 4 2 FF00000", "fill 0 0 4 2 FF000", "fill -1 0 4 2 FF0000",
    "check 0 0 4 2 FF0000", "check 0 0 4 2 FF0000 0000FG", "place 1 -0 0 4 2", "place 1 0 0 -4 2",
    "place 1 0 0 4", "title 1", "title 1 w", "title 1 =" + "w" * 41, "title 1 =\x7f", "title 1 =\0",
    "title =w", "take 1", "upgrade", "upgrade -1", "close now", "phase 1", "shot", "press 1",
    "motion 1 1", "# a comment", "view\x0b", "\xef\xbb\xbfview", "take\0", "refresh 0 0 0x4 1",
    "offset 1 2", "front", "front -1", "front 01", "above 1", "destroy", "back 1 2"]
BAD_INPUT_LINES = [
    "", " ", "shot ", "Shot", "shot 1", "press", "press 768", "press -1", "press 070", "press 70 1",
    "release 768", "release 999999999", "motion 1", "motion 65536 0", "motion 0 65536",
    "motion -1 0", "wheel 128", "wheel -128", "wheel -0", "wheel", "wheel 1\r", "view", "take",
    "phase 0", "# shot", "motion 1  1", "press 1000000000", "shot\0"]


def line_case(rng):
    """A script with a line that has no reading, whose number is known."""
    case = valid_case(rng, "free")
    names = [client["script"] for client in case.config["client"]]
    names.append(case.config["input"]["script"])
    place = rng.randrange(len(names))
    is_user = place == len(names) - 1
    data = case.files[os.path.normpath(names[place])]
    lines = data.decode().split("\n")[:-1]
    at = rng.randint(0, len(lines))
    bad = rng.choice(BAD_INPUT_LINES if is_user else BAD_CLIENT_LINES)
    lines.insert(at, bad)
    refused = f"{names[place]}: line {at + 1}: bad script"
    case.files[os.path.normpath(names[place])] = "".join(f"{x}\n" for x in lines).encode("latin-1")
    return Case("line", case.words, case.files, f"{names[place]}: line {at + 1}: {bad!r}", refused)


def absent_case(rng):
    """A file that is not there, or a folder in its place."""
    case = valid_case(rng, "free")
    names = [client["script"] for client in case.config["client"]]
    name = rng.choice(["c.toml", case.config["input"]["script"], *names])
    is_folder = rng.random() < 0.5
    case.files.pop(os.path.normpath(name))
    if is_folder:
        case.files[os.path.normpath(name)] = None
    what = "is a folder" if is_folder else "is not there"
    return Case("absent", case.words, case.files, f"{name} {what}", f"{name}: read fault")


def phases_case(rng):
    """One script with other phases. It may be the first one: then the second one differs."""
    case = valid_case(rng, "free")
    names = [client["script"] for client in case.config["client"]]
    names.append(case.config["input"]["script"])
    place = rng.randrange(len(names))
    name = os.path.normpath(names[place])
    case.files[name] += b"phase\n" * rng.randint(1, 2)
    refused = f"{names[max(place, 1)]}: phases differ"
    return Case("differ", case.words, case.files, f"{name}: more phases", refused)


def long_case(rng):
    """Too many lines or bytes, or the most that there may be."""
    case = valid_case(rng, "free")
    client = rng.choice(case.config["client"])["script"]
    name = rng.choice(["c.toml", client, case.config["input"]["script"]])
    path, is_client = os.path.normpath(name), name == client
    data, more = case.files[path], rng.randint(0, 1)
    if name == "c.toml":
        comment = model.MOST_BYTES + more - len(data) - 2
        case.files[path] = data + b"\n#" + b"x" * comment
        refused = f"{name}: bad configuration: too long" if more else None
    elif rng.random() < 0.5:
        line = b"take\n" if is_client else b"release 3\n"
        case.files[path] = data + line * (model.MOST_LINES + more - data.count(b"\n"))
        refused = f"{name}: too long" if more else None
    else:
        case.files[path] = data + b"x" * (model.MOST_BYTES + more - len(data))
        lines = data.count(b"\n") + 1
        refused = f"{name}: too long" if more else f"{name}: line {lines}: bad script"
    return Case("long", case.words, case.files, f"{name}: {len(case.files[path])} bytes", refused)


def put_case(rng):
    """A folder in the place of a file that is to be put."""
    case = valid_case(rng, "free")
    expected = expected_of(case)
    name = rng.choice(sorted(expected.puts.keys() - case.files.keys()))
    case.files[name] = None
    return Case("put", case.words, case.files, f"{name} is a folder", f"{name}: write fault")

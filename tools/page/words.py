"""What an entry of a journal says, in plain words."""
import screen

CALLS = {
    "buffer": "a buffer of {0} by {1} pixels",
    "view": "a new view",
    "place": "view {0} to be at ({1}, {2}), {3} by {4}",
    "offset": "what view {0} shows to be shifted by ({1}, {2})",
    "front": "view {0} to stand in front of its layer",
    "back": "view {0} to stand behind its layer",
    "above": "view {0} to stand directly in front of view {1}",
    "title": "view {0} to have the title “{1}”",
    "destroy": "view {0} to be gone",
    "refresh": "the pixels that show ({0}, {1}), {2} by {3}, of its buffer to be loaded again",
    "take": "its oldest event",
    "upgrade": "{0} more units to donate",
    "close": "its session to be closed",
    "copy": "“{0}” to be put on the clipboard",
    "paste": "the text of the clipboard",
}
ANSWERS = {"done": "done", "no-event": "none is queued", "copied": "copied",
           "empty": "nothing was copied yet"}
REFUSALS = {
    "no-such-view": "it has no view {0}",
    "bad-rect": "a number is out of range",
    "bad-size": "a side of the buffer is 0 or over 4096",
    "bad-title": "the text is no title",
    "too-many-views": "it has 64 views",
    "out-of-quota": "it needs {0} units and has {1} left",
    "no-reserve": "it asks for {0} units and has {1} in reserve",
    "closed": "its session is closed",
    "killed": "the user has locked it out",
    "not-focused": "it has not the focus",
}
MODES = {"xray": "X-ray mode", "kill": "kill mode"}
BUTTONS = {272: "the left button", 273: "the right button", 274: "the middle button"}
KEYS = {70: "the X-ray key", 99: "the kill key"}


def parts_of(line):
    """The word of a call's line, and what stands behind it."""
    word, _, rest = line.partition(" ")
    if word == "title":
        handle, _, text = rest.partition(" =")
        return word, [handle, text]
    return word, [rest[1:]] if word == "copy" else rest.split(" ") if rest else []


def code_name(code):
    number = int(code)
    if number in KEYS:
        return KEYS[number]
    if number in screen.BUTTONS:
        return f"{BUTTONS.get(number, 'a button')} ({code})"
    return f"key {code}"


def event_name(item):
    """What an event is to the client that gets it."""
    word, *numbers = item.split(" ")
    if word in ("press", "release"):
        return f"the {word} of {code_name(numbers[0])}"
    return {
        "motion": lambda: "the motion to ({}, {})".format(*numbers),
        "wheel": lambda: f"the wheel by {numbers[0]}",
        "leave": lambda: "word that the pointer has left it",
        "focus-enter": lambda: "word that it has the focus",
        "focus-leave": lambda: "word that the focus has left it",
        "kill": lambda: "locked out",
    }[word]()


def refusal(reply):
    """Why a call was refused, or nothing where it was not."""
    word, *numbers = reply.split(" ")
    return REFUSALS[word].format(*numbers) if word in REFUSALS else ""


def of_call(label, line, reply):
    word, parts = parts_of(line)
    asked = f"Client {label} asks for {CALLS[word].format(*parts)}"
    why = refusal(reply)
    if why:
        return f"{asked}. Refused: {why}."
    kind, _, rest = reply.partition(" ")
    if kind == "handle":
        return f"{asked}. It is view {rest}."
    if kind == "event":
        return f"{asked}. It gets {event_name(rest)}."
    if kind == "pasted":
        return f"{asked}. It gets “{rest[1:]}”."
    return f"{asked}: {ANSWERS[kind]}."


def why_nobody(line, before, first):
    """Why nobody gets a device's event, by the state before it. `first` is the client that got the
    first press while something is held, if one did."""
    word, *numbers = line.split(" ")
    code = int(numbers[0])
    if word in ("press", "release") and code in KEYS:
        return why_no_mode_key(word, before)
    if word == "release" and code not in before["held"]:
        return "it was not held"
    if word == "press" and code in before["held"]:
        return "it is held already"
    if before["held"]:
        who = "nobody" if first is None else f"client {first}, whose session has ended"
        return f"while something is held all goes where its first press went, to {who}"
    is_kill = word == "press" and before["mode"] == "kill" and code == screen.KILL_BUTTON
    if before["mode"] != "flat" and not is_kill:
        return f"in {MODES[before['mode']]} none goes to a client"
    if word == "press" and code not in screen.BUTTONS:
        return "nobody has the focus"
    return "no client is under the pointer"


def why_no_mode_key(word, before):
    if word == "release":
        return "a mode key is never held"
    return "a mode key does nothing while something is held" if before["held"] else \
        "a mode key is the server's own"


def of_device(line, told, labels, why):
    """What the user does, and who gets what, or why nobody does."""
    word, *numbers = line.split(" ")
    done = {
        "motion": lambda: "moves the pointer to ({}, {})".format(*numbers),
        "wheel": lambda: f"turns the wheel by {numbers[0]}",
        "press": lambda: f"presses {code_name(numbers[0])}",
        "release": lambda: f"releases {code_name(numbers[0])}",
    }[word]()
    sentences = [f"The user {done}."]
    for client, item in told:
        verb = "is" if item == "kill" else "gets"
        sentences.append(f"Client {labels[client]} {verb} {event_name(item)}.")
    return " ".join(sentences if told else [*sentences, f"Nobody gets an event: {why}."])


def of_click(told, pointer, labels):
    """How a press moves the focus: by a click, or as it locks out who had it."""
    killed = [client for client, item in told if item == "kill"]
    return f"as client {labels[killed[0]]} was locked out" if killed else \
        "by the click at ({}, {})".format(*pointer)


def of_changes(before, after, labels):
    """What an entry changes of the mode and of the focus."""
    def named(client):
        return "nobody" if client is None else f"client {labels[client]}"

    said = []
    if before["mode"] != after["mode"]:
        said.append(f"The mode turns from {before['mode']} to {after['mode']}.")
    if before["focus"] != after["focus"]:
        said.append(f"The focus goes from {named(before['focus'])} to {named(after['focus'])}.")
    return " ".join(said)

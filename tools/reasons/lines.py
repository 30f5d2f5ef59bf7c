"""How a line of a script or a journal is read, word by word, and where it stops to have a reading.

Written from docs/FORMATS.md. A line is a text without its line feed. Each of its bytes is a
character: that of ASCII, or by `surrogateescape` one that stands for a byte from 128 on.
"""
import difflib
import re
import shlex

from shown import quoted, shown

from .faults import Fault

# The least and the most of each kind of number.
MOST = 999999999
NUMBERS = {
    "NAT": (0, MOST), "INT": (-MOST, MOST), "CODE": (0, 767), "AT": (0, 65535),
    "TURN": (-127, 127), "SESSION": (0, 15), "SHOT": (1, 65536),
}
AREA = ("NAT x", "NAT y", "NAT width", "NAT height")
RECT = ("INT x", "INT y", "NAT width", "NAT height")
CALLS = {
    "buffer": ("NAT width", "NAT height"),
    "view": (),
    "place": ("NAT handle", *RECT),
    "offset": ("NAT handle", "INT x", "INT y"),
    "front": ("NAT handle",),
    "back": ("NAT handle",),
    "above": ("NAT handle", "NAT handle of the view behind"),
    "title": ("NAT handle", "TEXT text"),
    "destroy": ("NAT handle",),
    "refresh": RECT,
    "take": (),
    "upgrade": ("NAT units",),
    "close": (),
}
STROKES = {"fill": (*AREA, "COLOUR colour"),
           "check": (*AREA, "COLOUR colour", "COLOUR second colour")}
DEVICES = {"press": ("CODE code",), "release": ("CODE code",), "motion": ("AT x", "AT y"),
           "wheel": ("TURN turn",)}
PHASE = {"phase": ()}
CLIENT = CALLS | STROKES | PHASE
INPUT = DEVICES | {"shot": ()} | PHASE
CLIP = {"copy": ("TEXT text",), "paste": ()} | PHASE
EVENTS = DEVICES | {"leave": (), "focus-enter": (), "focus-leave": ()}
REPLIES = {
    "done": (), "handle": ("NAT handle",), "event": ("EVENT event",), "no-event": (),
    "no-such-view": ("NAT handle",), "bad-rect": (), "bad-size": (), "bad-title": (),
    "too-many-views": (), "out-of-quota": ("NAT need", "NAT left"),
    "no-reserve": ("NAT need", "NAT left"), "closed": (), "killed": (),
}
ENTRIES = ("call", "input", "shot", "final")
EXAMPLES = {
    "NAT": "4", "INT": "-2", "CODE": "30", "AT": "10", "TURN": "-1", "COLOUR": "FF0000",
    "TEXT": "=hello", "SESSION": "0", "SHOT": "1", "EVENT": "leave",
}
SPELLED = {
    "NAT": "NAT is `0`, or 1 to 9 digits of which the first is not `0`",
    "INT": "INT is a NAT, or `-` and a NAT other than `0`",
    "COLOUR": "COLOUR is six digits of `0` to `9` and `A` to `F`, read as RRGGBB",
    "TEXT": "TEXT is 0 to 40 bytes of 0x20 to 0x7E, up to the line feed",
}
PARTED = "words are parted by exactly one space, with nothing before the first and after the last"
ENDED = "each line ends with one line feed"
NOTHING = "there are no comments and no empty lines"
MARK = b"\xef\xbb\xbf".decode("ascii", "surrogateescape")
# What a person may write for the codes that every scene has.
CODES = {"left": "the left button is `272`", "right": "the right button is `273`",
         "middle": "the middle button is `274`", "xray": "the X-ray key is `70`",
         "x-ray": "the X-ray key is `70`", "kill": "the kill key is `99`"}
CODED = "codes are those of Linux's input-event-codes.h: `272` is the left button, `30` the key A"
UTF_16 = ("\udcff\udcfe", "\udcfe\udcff")
ODD = {
    "\t": "a tab", "\r": "a carriage return", "\0": "a NUL byte",
    "\x7f": "the control character DEL", "\x0b": "a vertical tab", "\x0c": "a form feed",
    "\x1b": "the control character ESC",
}


def odd_at(text, start, end):
    """The first place with a byte that no word may have, or none."""
    for at in range(start, end):
        if not (text[at].isascii() and text[at].isprintable()):
            return at
    return None


def name_of_odd(letter):
    if letter in ODD:
        return ODD[letter]
    return f"the byte 0x{ord(letter) & 255:02X}" + (" (no ASCII)" if letter > "~" else "")


class Reader:
    """A line that is read from left to right."""

    def __init__(self, text):
        self.text, self.at, self.form = text, 0, ""

    def fail(self, at, end, what, right="", rule=""):
        raise Fault(at, max(end, at + 1), what, right or self.form, rule)

    def word_end(self):
        end = self.text.find(" ", self.at)
        return len(self.text) if end < 0 else end

    def space(self, name):
        """One space, behind which `name` is to stand."""
        if self.at == len(self.text):
            self.fail(self.at, self.at, f"the line ends here, and {name} is missing")
        self.at += 1
        if self.at == len(self.text):
            self.fail(self.at - 1, self.at, f"the line ends with a space, and {name} is missing")
        if self.text[self.at] == " ":
            self.fail(self.at, self.at + 1, f"a second space in front of {name}", "", PARTED)

    def no_odd(self, name):
        """That the next word has no byte that no word may have."""
        odd = odd_at(self.text, self.at, self.word_end())
        if odd is None:
            return
        letter = self.text[odd]
        if letter == "\t":
            self.fail(odd, odd + 1, "a tab", "a space", PARTED)
        self.fail(odd, odd + 1, f"{name_of_odd(letter)} in {name}")

    def word(self, name):
        """The next word, which has characters that a person sees."""
        self.no_odd(name)
        start, self.at = self.at, self.word_end()
        return start, self.text[start : self.at]

    def over(self, name):
        """That nothing stands behind `name`."""
        if self.at == len(self.text):
            return
        rest = self.text[self.at :]
        if not rest.strip(" "):
            what = "a space" if len(rest) == 1 else f"{len(rest)} spaces"
            self.fail(self.at, len(self.text), f"{what} at the end of the line", "", PARTED)
        self.at += 1
        if self.text[self.at] == " ":
            self.fail(self.at, self.at + 1, "a second space", "", PARTED)
        self.no_odd(name)
        self.fail(self.at, self.word_end(),
                  f"{quoted(self.text[self.at : self.word_end()])} stands behind {name}, "
                  "where the line is to end")


# Words.


def bounds_told(kind):
    least, most = NUMBERS[kind]
    return f"a number from {least} to {most}"


def read_number(reader, kind, name):
    start, word = reader.word(name)
    least, most = NUMBERS[kind]
    if re.fullmatch(r"0|-?[1-9][0-9]{0,8}", word) and least <= int(word) <= most:
        return
    what, right = number_fault(word, kind, name)
    reader.fail(start, reader.at, what, f"{right}; {reader.form}" if reader.form else right,
                SPELLED.get(kind, f"{name} is {bounds_told(kind)}"))


def number_fault(word, kind, name):
    """What is wrong with a word that is to be a number, and what is right."""
    least, _ = NUMBERS[kind]
    right = bounds_told(kind)
    if re.fullmatch(r"-?0+[0-9]+", word):
        bare = word.lstrip("-").lstrip("0") or "0"
        return f"{quoted(word)} has a leading zero", f"`{'-' * word.startswith('-')}{bare}`"
    if word == "-0":
        return "`-0` is no number; zero has no sign", "`0`"
    if re.fullmatch(r"-[0-9]+", word) and least >= 0:
        return f"{quoted(word)} is below zero, and {name} may not be", right
    if re.fullmatch(r"\+[0-9]+", word):
        return f"{quoted(word)} has a plus sign", f"`{word[1:]}`"
    if re.fullmatch(r"-?[0-9]{10,}", word):
        return f"{quoted(word)} has {len(word.lstrip('-'))} digits, and nine are the most", right
    if re.fullmatch(r"-?[0-9]+", word):
        return f"{quoted(word)} is out of range", right
    if re.fullmatch(r"[-+]?0[xX][0-9a-fA-F]+|[-+]?[0-9]+\.[0-9]*", word):
        return f"{quoted(word)} is no number here; numbers are whole and in decimal", right
    if kind == "CODE":
        right = CODES.get(word.lower(), CODED)
    return f"{quoted(word)} stands where {name} is to stand, which is a number", right


def read_colour(reader, name):
    start, word = reader.word(name)
    if re.fullmatch("[0-9A-F]{6}", word):
        return
    bare = word.removeprefix("#").removeprefix("0x")
    if re.fullmatch("[0-9a-fA-F]{6}", word):
        bad = re.search("[a-f]", word).start()
        reader.fail(start + bad, start + bad + 1, f"{quoted(word)} has a lower-case letter",
                    f"`{word.upper()}`", SPELLED["COLOUR"])
    if bare != word and re.fullmatch("[0-9a-fA-F]{6}", bare):
        reader.fail(start, start + len(word) - 6,
                    f"{quoted(word)}: nothing stands before the digits",
                    f"`{bare.upper()}`", SPELLED["COLOUR"])
    if re.fullmatch("[0-9a-fA-F]+", word):
        reader.fail(start, reader.at,
                    f"{quoted(word)} has {len(word)} digits, and a colour has six",
                    "red is `FF0000`", SPELLED["COLOUR"])
    reader.fail(start, reader.at, f"{quoted(word)} stands where {name} is to stand",
                f"red is `FF0000`; {reader.form}", SPELLED["COLOUR"])


def read_text(reader, name):
    """`=` and a text, which goes up to the end of the line."""
    at, line = reader.at, reader.text
    if line[at] != "=":
        equals = line.find("=", at)
        hint = f"; it is at column {equals + 1}" if equals > 0 else ""
        reader.fail(at, at + 1, f"{name} is to begin with `=` here{hint}", "", SPELLED["TEXT"])
    odd = odd_at(line, at + 1, len(line))
    if odd is not None:
        reader.fail(odd, odd + 1, f"{name_of_odd(line[odd])} in {name}",
                    "characters of ASCII from the space to `~`", SPELLED["TEXT"])
    if len(line) - at - 1 > 40:
        reader.fail(at + 41, len(line), f"{name} has {len(line) - at - 1} characters",
                    "40 are the most", SPELLED["TEXT"])
    reader.at = len(line)


def named(name):
    return name if name in ("x", "y") else f"the {name}"


def read_fields(reader, fields):
    for field in fields:
        kind, name = field.split(" ", 1)
        reader.space(named(name))
        if kind == "COLOUR":
            read_colour(reader, named(name))
        elif kind == "TEXT":
            read_text(reader, named(name))
        elif kind == "EVENT":
            read_form(reader, EVENTS, "an event")
        else:
            read_number(reader, kind, named(name))


def form_told(word, fields):
    """A line of this kind, and an example of it."""
    if not fields:
        return f"`{word}` stands alone"
    spelled = [field.split(" ", 1)[1].replace(" ", "-").upper() for field in fields]
    spelled = ["=" + name if field.startswith("TEXT") else name
               for field, name in zip(fields, spelled)]
    sample = [EXAMPLES[field.split(" ")[0]] for field in fields]
    return f"`{' '.join([word, *spelled])}`, as in `{' '.join([word, *sample])}`"


def read_form(reader, forms, what):
    """A word of these, and what stands with it. Answers the word."""
    start, word = reader.word(what)
    if word not in forms:
        reader.at = start
        unknown_word(reader, word, forms, what)
    reader.form = form_told(word, forms[word])
    read_fields(reader, forms[word])
    return word


def unknown_word(reader, word, forms, what):
    start, end = reader.at, reader.word_end()
    all_words = "one of " + ", ".join(f"`{name}`" for name in forms)
    close = difflib.get_close_matches(word.lower(), forms, 1, 0.7)
    if word.lower() in forms:
        reader.fail(start, end, f"{quoted(word)}: words are in lower case", f"`{word.lower()}`")
    for others, place in ((CLIENT, "a client's script"), (INPUT, "an input script"),
                          (CLIP, "a clip script")):
        if word in others:
            reader.fail(start, end, f"`{word}` is a line of {place}, and not {what}", all_words)
    if close:
        reader.fail(start, end, f"{quoted(word)} is no word that begins {what}",
                    f"perhaps `{close[0]}`: {form_told(close[0], forms[close[0]])}")
    reader.fail(start, end, f"{quoted(word)} is no word that begins {what}", all_words)


# Lines.


def check_start(reader):
    """What may be wrong with a line before its first word is looked at."""
    line = reader.text
    if not line:
        reader.fail(0, 0, "the line is empty", "take the line out", NOTHING)
    if line.startswith(MARK):
        reader.fail(0, 3, "a byte order mark (EF BB BF) stands here",
                    "save the file as UTF-8 without one, or as ASCII")
    if line.startswith(UTF_16):
        reader.fail(0, 2, "the file is UTF-16", "save it as ASCII")
    if line[0] in " \t":
        reader.fail(0, len(line) - len(line.lstrip(" \t")),
                    f"{'a tab' if line[0] != ' ' else 'a space'} stands before the first word",
                    "a line begins with its first word", PARTED)
    if line.startswith(("#", "//", ";", "--")):
        reader.fail(0, len(line), "this looks like a comment", "take the line out", NOTHING)
    if line == "\r":
        reader.fail(0, 0, "the line is empty, but for a carriage return", "take the line out",
                    NOTHING)


class LineEnd(Fault):
    """A line that would be good, were it not for the line end of Windows."""

    def __init__(self, line):
        super().__init__(len(line) - 1, len(line), "a carriage return stands before the line feed",
                         "a line feed alone", ENDED)

    def told(self, name, count):
        """The same of all such lines of a file, and how they are mended."""
        more = f", as in {count - 1} more line{'s' if count > 2 else ''}" if count > 1 else ""
        self.what += f"{more}: lines end so under Windows"
        self.right += f"; `sed -i 's/\\r$//' {shown(shlex.quote(name))}` takes all of them out"
        return self


def first_fault(line, read):
    """Where the line stops to be one that `read` reads, or none."""
    try:
        read(Reader(line))
    except Fault as fault:
        is_end = len(line) > 1 and line.endswith("\r") and fault.at == len(line) - 1
        return LineEnd(line) if is_end else fault
    return None


def script_line(forms, what):
    """Reads a line of these forms."""

    def read(reader):
        check_start(reader)
        word = read_form(reader, forms, what)
        reader.over("the whole line" if not forms[word] else f"the last part of `{word}`")

    return read


client_line = script_line(CLIENT, "a line of a client's script")
input_line = script_line(INPUT, "a line of an input script")
clip_line = script_line(CLIP, "a line of a clip script")


def read_entry(reader):
    """Reads a line of a journal."""
    check_start(reader)
    start, word = reader.word("the first word")
    if word not in ENTRIES:
        reader.fail(start, reader.at, f"{quoted(word)} begins no entry",
                    "one of `call`, `input`, `shot`, `final`")
    if word == "call":
        reader.form = "`call SESSION REPLY < LINE`, as in `call 0 handle 1 < view`"
        read_call(reader)
    elif word == "input":
        reader.form = "`input LINE > SESSION ITEM`, as in `input motion 1 1 > 0 motion 1 1`"
        read_input(reader)
    elif word == "shot":
        reader.form = "`shot NUMBER`, as in `shot 1`"
        read_fields(reader, ("SHOT number",))
    reader.over(f"the last part of `{word}`" if word != "call" else "the call's line")


def read_call(reader):
    form = reader.form
    read_fields(reader, ("SESSION number of the session",))
    reader.space("the reply")
    read_form(reader, REPLIES, "a reply")
    reader.form = form
    reader.space("`<`")
    sign, word = reader.word("`<`")
    if word != "<":
        reader.fail(sign, reader.at, f"{quoted(word)} stands where `<` is to stand")
    reader.space("the call's line")
    read_form(reader, CALLS, "a call")


def read_input(reader):
    form = reader.form
    reader.space("the event's line")
    read_form(reader, DEVICES, "a device event")
    reader.form, count = form, 0
    while reader.at < len(reader.text):
        count += 1
        reader.space("`>`")
        sign, word = reader.word("`>`")
        if word != ">" or count > 3:
            what = "a fourth delivery; three are the most" if word == ">" \
                else f"{quoted(word)} stands where `>` or the line's end is to stand"
            reader.fail(sign, reader.at, what)
        read_fields(reader, ("SESSION number of the session",))
        reader.space("what was delivered")
        read_form(reader, EVENTS | {"kill": ()}, "what is delivered")
        reader.form = form

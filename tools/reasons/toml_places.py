"""Reads TOML 1.1 into values that know their places, or says where a text is none.

Python's tomllib reads TOML 1.0, says nothing of places, and differs from what the program reads:
inline tables over several lines, `\\e` and `\\x41`, times without seconds, a byte order mark at the
start, and numbers that are too large. This reader has the text of TOML 1.1 in those.
"""
from shown import quoted

from .faults import Fault
from .toml_words import (
    after_blanks, after_gap, is_control, line_end, read_key, read_string, read_word)

MOST_DEPTH = 80


class Value:
    """A value: its kind in words, what it is in Python, and its place.

    A table's `data` is a dict from keys to pairs of the key's place and end, and the value.
    `origin` tells how a table came to be: by its own header, by a longer header, by a dotted key,
    or inline.
    An array's `data` is a list of values.
    """

    def __init__(self, kind, data, at, end, origin="inline"):
        self.kind, self.data, self.at, self.end, self.origin = kind, data, at, end, origin

    @property
    def grows(self):
        """Whether headers of double brackets make it."""
        return self.kind == "an array of tables"

    def get(self, key):
        """The value at a key of a table, or none."""
        pair = self.data.get(key)
        return pair[1] if pair else None


def new_table(part, origin):
    return Value("a table", {}, part[1], part[2], origin)


def read(text):
    """The table of a document. Raises the first fault."""
    at = 1 if text.startswith("\ufeff") else 0
    root = new_table(("", 0, 0), "header")
    section = root
    while True:
        at = after_gap(text, at)
        if at == len(text):
            return root
        if text[at] == "[":
            section, after = read_header(text, at, root)
        else:
            after = read_pair(text, at, section, MOST_DEPTH)
        at = end_of_line(text, after)


def end_of_line(text, at):
    """That nothing but a comment follows on the line."""
    at = after_blanks(text, at)
    if at == len(text) or text[at] in "#\n" or text.startswith("\r\n", at):
        return at
    if text[at] == "\r":
        raise Fault(at, at + 1, "a carriage return without a line feed",
                    "a line ends with a line feed")
    if is_control(text[at]):
        raise Fault(at, at + 1, "a control character")
    raise Fault(at, line_end(text, at), f"{quoted(text[at : line_end(text, at)])} stands where the "
                "line is to end", "one key and one value on a line, as in `width = 8`")


# Headers.


def read_header(text, at, root):
    """The table that a header opens, and the place behind it."""
    is_array = text.startswith("[[", at)
    key, after = read_key(text, after_blanks(text, at + 1 + is_array))
    close = "]]" if is_array else "]"
    if not text.startswith(close, after):
        raise Fault(after, after + 1, f"the header is not ended by `{close}`",
                    "`[screen]`, `[input]` or `[[client]]`")
    table = root
    for part in key[:-1]:
        table = through_header(table, part)
    return define_header(table, key[-1], is_array), after + len(close)


def through_header(table, part):
    """The table that a header goes through: in an array of tables, the last one."""
    found = table.get(part[0])
    if found is None:
        found = new_table(part, "longer header")
        table.data[part[0]] = ((part[1], part[2]), found)
    if found.grows:
        return found.data[-1]
    if found.kind != "a table" or found.origin == "inline":
        raise Fault(part[1], part[2], f"{quoted(part[0])} is a value already, and no open table")
    return found


def define_header(table, part, is_array):
    found = table.get(part[0])
    if is_array:
        if found is None:
            found = Value("an array of tables", [], part[1], part[2])
            table.data[part[0]] = ((part[1], part[2]), found)
        if found.grows:
            found.data.append(new_table(part, "header"))
            return found.data[-1]
        raise given_twice(part, found)
    if found is None:
        found = new_table(part, "header")
        table.data[part[0]] = ((part[1], part[2]), found)
    elif found.kind == "a table" and found.origin == "longer header":
        found.origin = "header"
    else:
        raise given_twice(part, found)
    return found


def given_twice(part, found):
    right = "`[[client]]`, with two brackets each time" if found.grows or part[0] == "client" else \
        "each stands once"
    return Fault(part[1], part[2], f"{quoted(part[0])} is given a second time", right)


# Pairs and values.


def read_pair(text, at, table, depth):
    """Reads a key, `=` and a value into the table. Answers the place behind them."""
    key, after = read_key(text, at)
    if text[after : after + 1] != "=":
        raise no_equals(text, at, after)
    value, end = read_value(text, after_blanks(text, after + 1), depth)
    for part in key[:-1]:
        table = through_dots(table, part)
    part = key[-1]
    if part[0] in table.data:
        raise given_twice(part, table.get(part[0]))
    table.data[part[0]] = ((part[1], part[2]), value)
    return end


def no_equals(text, at, after):
    if after == len(text) or text[after] in "\r\n#":
        return Fault(at, after, "a key without `=` and a value", "`width = 8`")
    if is_control(text[after]):
        return Fault(after, after + 1, "a control character")
    return Fault(after, after + 1, f"{quoted(text[after])} stands where `=` is to stand",
                 "a key, `=` and a value, as in `width = 8`")


def through_dots(table, part):
    """The table that a dotted key goes through: one that no header has defined."""
    found = table.get(part[0])
    if found is None:
        found = new_table(part, "dotted key")
        table.data[part[0]] = ((part[1], part[2]), found)
    if found.kind != "a table" or found.origin in ("header", "inline"):
        raise Fault(part[1], part[2], f"{quoted(part[0])} was defined before, and no dotted key "
                    "goes on with it")
    found.origin = "dotted key"
    return found


def read_value(text, at, depth):
    """A value, and the place behind it."""
    letter = text[at : at + 1]
    if letter and letter in "[{" and depth == 0:
        raise Fault(at, at + 1, "more than 80 arrays and tables in one another")
    if letter == "[":
        return read_array(text, at, depth - 1)
    if letter == "{":
        return read_inline_table(text, at, depth - 1)
    if letter and letter in "\"'":
        data, end = read_string(text, at)
        return Value("a string", data, at, end), end
    kind, data, end = read_word(text, at)
    return Value(kind, data, at, end), end


def read_array(text, at, depth):
    items, after = [], after_gap(text, at + 1)
    while text[after : after + 1] != "]":
        item, after = read_value(text, after, depth)
        items.append(item)
        after = after_element(text, at, after, "]")
    return Value("an array", items, at, after + 1), after + 1


def read_inline_table(text, at, depth):
    table = Value("a table", {}, at, at + 1)
    after = after_gap(text, at + 1)
    while text[after : after + 1] != "}":
        after = after_element(text, at, read_pair(text, after, table, depth), "}")
    table.end = after + 1
    return table, after + 1


def after_element(text, opened, at, close):
    """Behind the comma that follows an element, or at the closing bracket."""
    at = after_gap(text, at)
    if text.startswith(",", at):
        return after_gap(text, at + 1)
    if text.startswith(close, at):
        return at
    if at == len(text):
        raise Fault(opened, opened + 1, f"the bracket is not closed by `{close}`")
    raise Fault(at, at + 1, f"{quoted(text[at])} stands where `,` or `{close}` is to stand")

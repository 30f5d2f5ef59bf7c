"""Strings, numbers, dates and keys of TOML 1.1, each read from a place of a text."""
import math
import re

from shown import letter_shown, quoted

from .faults import Fault

MOST_PARTS = 80
BARE = re.compile(r"[A-Za-z0-9_-]+")
WORD = re.compile(r"[0-9]{4}-[0-9]{2}-[0-9]{2} [0-9][A-Za-z0-9_+\-.:]*|[A-Za-z0-9_+\-.:]+")
BLANKS = re.compile(r"[ \t]*")
GAP = re.compile(r"(?:[ \t]+|\r?\n|#[^\x00-\x08\x0a-\x1f\x7f]*)*")
MOST_DIGITS = 20
ESCAPES = {"b": "\b", "e": "\x1b", "f": "\f", "n": "\n", "r": "\r", "t": "\t", '"': '"', "\\": "\\"}
HEX = {"x": 2, "u": 4, "U": 8}
INTEGER = re.compile(r"[+-]?(?:0|[1-9](?:_?[0-9])*)")
PREFIXED = re.compile(r"0x[0-9A-Fa-f](?:_?[0-9A-Fa-f])*|0o[0-7](?:_?[0-7])*|0b[01](?:_?[01])*")
FLOAT = re.compile(INTEGER.pattern + r"(?:\.[0-9](?:_?[0-9])*)?(?:[eE][+-]?[0-9](?:_?[0-9])*)?")
DATE = r"(?P<year>[0-9]{4})-(?P<month>[0-9]{2})-(?P<day>[0-9]{2})"
TIME = r"(?P<hour>[0-9]{2}):(?P<minute>[0-9]{2})(?::(?P<second>[0-9]{2})(?:\.[0-9]+)?)?"
OFFSET = r"(?:[Zz]|[+-](?P<hours>[0-9]{2}):(?P<minutes>[0-9]{2}))"
DATE_TIME = re.compile(f"{DATE}(?:[Tt ]{TIME}{OFFSET}?)?")
LOCAL_TIME = re.compile(TIME)


def is_control(letter):
    return letter < " " and letter != "\t" or letter == "\x7f"


def starts_line_end(text, at):
    return text.startswith(("\n", "\r\n"), at)


def line_end(text, at):
    """The end of the line that has this place."""
    end = text.find("\n", at)
    return len(text) if end < 0 else end


def after_blanks(text, at):
    return BLANKS.match(text, at).end()


def after_gap(text, at):
    """Behind white space, line ends and comments."""
    return GAP.match(text, at).end()


# Strings.


def read_string(text, at):
    """The text of a string, and the place behind it. It may go over several lines."""
    if text.startswith(text[at] * 3, at):
        start = at + 3
        start += 2 if text.startswith("\r\n", start) else text.startswith("\n", start)
        return read_body(text, at, start, is_multi=True)
    return read_body(text, at, at + 1, is_multi=False)


def read_body(text, opened, at, is_multi):
    delimiter, parts = text[opened], []
    while at < len(text):
        letter = text[at]
        if letter == delimiter:
            count = len(re.match(f"{delimiter}*", text[at : at + 6])[0])
            if not is_multi:
                return "".join(parts), at + 1
            if count == 3:
                return "".join(parts), at + 3
            if count == 6:
                raise Fault(at, at + 6, "six or more quotes in a string of several lines",
                            "three end it")
            piece, at = letter, at + 1
        elif letter == "\\" and delimiter == '"':
            piece, at = read_escape(text, at, is_multi)
        elif is_multi and starts_line_end(text, at):
            piece, at = letter, at + 1
        elif starts_line_end(text, at):
            break
        elif is_control(letter):
            raise Fault(at, at + 1, f"the control character {letter_shown(letter)} in a string",
                        f"in a string of \"..\" it is spelled `\\u{ord(letter):04X}`")
        else:
            piece, at = letter, at + 1
        parts.append(piece)
    mark = text[opened] * (3 if is_multi else 1)
    raise Fault(opened, min(at, line_end(text, opened)), "a string begins here and is not ended",
                f"`{mark}` ends it")


def read_escape(text, at, is_multi):
    """What stands for a backslash and what follows it, and the place behind."""
    after = after_blanks(text, at + 1)
    if is_multi and starts_line_end(text, after):
        return "", re.compile(r"(?:[ \t]|\r?\n)*").match(text, at + 1).end()
    letter = text[at + 1 : at + 2]
    if letter in HEX:
        digits = text[at + 2 : at + 2 + HEX[letter]]
        if len(digits) == HEX[letter] and re.fullmatch("[0-9A-Fa-f]+", digits):
            code = int(digits, 16)
            if code < 0xD800 or 0xE000 <= code <= 0x10FFFF:
                return chr(code), at + 2 + HEX[letter]
        raise Fault(at, at + 2 + len(digits), f"`\\{letter}` without the number of a character",
                    f"{HEX[letter]} hexadecimal digits follow it, as in "
                    f"`\\{letter}{41:0{HEX[letter]}d}`")
    if letter and letter in ESCAPES:
        return ESCAPES[letter], at + 2
    raise Fault(at, at + 2, f"a backslash in front of {quoted(letter)}",
                "a backslash is spelled `\\\\`, or the string stands in '..'")


# Keys.


def read_key(text, at):
    """The parts of a key, each with its place and its end, and the place behind key and blanks."""
    parts = []
    while True:
        start = at
        if text[at : at + 1] in ("'", '"'):
            part, at = read_body(text, at, at + 1, is_multi=False)
        else:
            bare = BARE.match(text, at)
            if bare is None:
                raise no_key(text, at)
            part, at = bare[0], bare.end()
        parts.append((part, start, at))
        after = after_blanks(text, at)
        if text[after : after + 1] != ".":
            return parts, after
        if len(parts) == MOST_PARTS:
            raise Fault(start, at, "a key of more than 80 parts")
        at = after_blanks(text, after + 1)


def no_key(text, at):
    right = "a key has letters, digits, `_` and `-`, as in `width = 8`"
    if at == len(text) or text[at] in "\r\n":
        return Fault(at, at + 1, "the line ends where a key is to stand", right)
    if is_control(text[at]):
        return Fault(at, at + 1, f"the control character {letter_shown(text[at])}", right)
    return Fault(at, at + 1, f"{quoted(text[at])} stands where a key is to stand", right)


# Words: booleans, numbers and dates.


def read_word(text, at):
    """The kind and the value of a word that is no string, and the place behind it."""
    match = WORD.match(text, at)
    if match is None:
        raise no_value(text, at)
    word, end = match[0], match.end()
    if word in ("true", "false"):
        return "a boolean", word == "true", end
    if re.match(r"[0-9]+[-:]", word):
        check_date_time(word, at)
        return "a date or time", word, end
    if PREFIXED.fullmatch(word) or INTEGER.fullmatch(word):
        return "an integer", integer_of(word, at, end), end
    if re.fullmatch("[+-]?(?:inf|nan)", word):
        return "a float", float(word), end
    if FLOAT.fullmatch(word):
        number = float(word.replace("_", ""))
        if math.isinf(number):
            raise Fault(at, end, f"{quoted(word)} is too large for a float")
        return "a float", number, end
    raise no_word(word, at, end)


def integer_of(word, at, end):
    digits = word.replace("_", "")
    is_decimal = INTEGER.fullmatch(word) is not None
    if not (is_decimal and len(digits) > MOST_DIGITS):
        number = int(digits, 0)
        if -(1 << 63) <= number < 1 << 63:
            return number
    raise Fault(at, end, f"{quoted(word)} is too large for TOML",
                "an integer has 64 bits with its sign")


def no_value(text, at):
    right = "a value is a number, true, false, a string in quotes, an array or a table"
    if at == len(text) or text[at] in "\r\n#":
        return Fault(at, at + 1, "no value stands here", right)
    return Fault(at, at + 1, f"{quoted(text[at])} begins no value", right)


def no_word(word, at, end):
    """What is wrong with a word that is no value."""
    if re.fullmatch(r"[+-]?0[0-9_]+", word):
        sign, digits = re.match("([+-]?)0+(.*)", word).groups()
        return Fault(at, end, f"{quoted(word)} has a leading zero", f"`{sign}{digits or 0}`")
    if word.lower() in ("true", "false"):
        return Fault(at, end, f"{quoted(word)}: capitals", f"`{word.lower()}`")
    if re.match("[A-Za-z]", word):
        return Fault(at, end, f"{quoted(word)} is a text without quotes", f'`"{word}"`')
    return Fault(at, end, f"{quoted(word)} is no number",
                 "a number is spelled as `8`, `-8`, `1_000`, `0x1F` or `0.5`")


def check_date_time(word, at):
    """That the word is a date, a time or both, as RFC 3339 has them, the seconds being optional."""
    match = DATE_TIME.fullmatch(word) or LOCAL_TIME.fullmatch(word)
    if match and are_in_range({key: int(text) for key, text in match.groupdict().items() if text}):
        return
    raise Fault(at, at + len(word), f"{quoted(word)} is no date and no time",
                "no value of a configuration is one; a text stands in quotes")


def are_in_range(parts):
    year = parts.get("year", 1)
    is_leap = year % 4 == 0 and (year % 100 != 0 or year % 400 == 0)
    month = parts.get("month", 1)
    days = {2: 29 if is_leap else 28, 4: 30, 6: 30, 9: 30, 11: 30}.get(month, 31)
    bounds = {"month": (1, 12), "day": (1, days), "hour": (0, 23), "minute": (0, 59),
              "second": (0, 60), "hours": (0, 23), "minutes": (0, 59)}
    return all(bounds[key][0] <= number <= bounds[key][1]
               for key, number in parts.items() if key in bounds)

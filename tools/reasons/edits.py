"""Broken inputs, made out of good ones by small edits."""
import re

from expected import text_of

from .statements import HEADERS, KEYS, VALUES

MARKS = [b"\0", b"\t", b"\n", b"\r", b"\r\n", b" ", b"  ", b"-", b"0", b"9", b"=", b"A", b"a",
         b"<", b">", b"\x7f", b"\xe9", b"\xc3\xa9", b"#", b"+", b".", b"_", b"\x1b",
         b"\xef\xbb\xbf"]
TOML_MARKS = [
    b"'", b'"', b"'''", b'"""', b"\\", b"\\e", b"\\x41", b"\\u0041", b"\\q", b"[", b"]", b"[[",
    b"]]", b"{", b"}", b",", b"{}", b"[]", b"#", b"\n#", b"1e999", b"0x", b"0o17", b"0b1", b"1_0",
    b"1__0", b"_", b"1979-05-27", b"07:32", b"07:32:60", b"1979-02-30", b"1979-05-27 07:32",
    b"0000-01-01", b"inf", b"-nan", b"true", b"9223372036854775808", b"-9223372036854775808",
    b"a.b", b".x = 1\n", b" = ", b"\n[screen]\n", b"\n[[client]]\n", b"\n[client.x]\n",
    b"\nscreen.bar = true\n", b"\n[a.b]\nc = 1\n", b"\n[a]\n", b"\nx = {a = 1,\n b = 2,}\n",
    b"\nx = [1, [2], ]\n", b"\n'' = 1\n", b"\n\"\\e\" = 1\n"]


# Edits of bytes.


def put_in(rng, data, marks):
    at = rng.randint(0, len(data))
    return data[:at] + rng.choice(marks) + data[at:]


def change(rng, data, marks):
    at = rng.randint(0, len(data))
    return data[:at] + rng.choice(marks) + data[at + 1 :]


def leave_out(rng, data, marks):
    at = rng.randint(0, len(data))
    return data[:at] + data[at + rng.choice([1, 1, 1, 2, 5]) :]


def change_case(rng, data, marks):
    at = rng.randint(0, len(data))
    end = at + rng.choice([1, 6])
    return data[:at] + data[at:end].swapcase() + data[end:]


def change_number(rng, data, marks):
    """A number gets a zero in front, becomes another one, or one past a bound."""
    found = list(re.finditer(rb"-?[0-9]+", data))
    if not found:
        return put_in(rng, data, marks)
    match = rng.choice(found)
    number = match[0]
    new = rng.choice([b"0" + number, b"-" + number, b"+" + number, number + b"0", b"0", b"-0", b"1",
                      b"2", b"128", b"767", b"768", b"65535", b"65536", b"999999999",
                      b"1000000000"])
    return data[: match.start()] + new + data[match.end() :]


def edit_lines(rng, data, change_lines):
    lines = data.split(b"\n")
    change_lines(lines, rng.randrange(len(lines)), rng.randrange(len(lines)))
    return b"\n".join(lines)


def swap_lines(rng, data, marks):
    def swap(lines, first, second):
        lines[first], lines[second] = lines[second], lines[first]
    return edit_lines(rng, data, swap)


def move_line(rng, data, marks):
    def move(lines, first, second):
        lines.insert(second, lines.pop(first))
    return edit_lines(rng, data, move)


def double_line(rng, data, marks):
    return edit_lines(rng, data, lambda lines, first, second: lines.insert(second, lines[first]))


def drop_line(rng, data, marks):
    return edit_lines(rng, data, lambda lines, first, second: lines.pop(first))


def end_lines(rng, data, marks):
    """Line ends of Windows, in all lines or in one."""
    if rng.random() < 0.3:
        return data.replace(b"\n", b"\r\n")
    def end(lines, first, second):
        lines[first] += rng.choice([b"\r", b" ", b"\t", b"  "])
    return edit_lines(rng, data, end)


def mark_front(rng, data, marks):
    return b"\xef\xbb\xbf" + data


def cut(rng, data, marks):
    return data[: rng.randint(0, len(data))]


def swap_words(rng, data, marks):
    """Two words change places, or one takes the place of the other."""
    found = list(re.finditer(rb"[^ \n]+", data))
    if len(found) < 2:
        return put_in(rng, data, marks)
    first, second = sorted(rng.sample(found, 2), key=lambda match: match.start())
    other = rng.choice([first[0], second[0]])
    return data[: first.start()] + second[0] + data[first.end() : second.start()] + other \
        + data[second.end() :]


EDITS = {
    "a byte put in": put_in, "a byte changed": change, "bytes left out": leave_out,
    "case": change_case, "a number": change_number, "lines swapped": swap_lines,
    "a line moved": move_line, "a line doubled": double_line, "a line left out": drop_line,
    "line ends": end_lines, "a mark in front": mark_front, "cut": cut, "words swapped": swap_words,
}
WEIGHTS = [6, 6, 5, 3, 8, 2, 3, 3, 3, 3, 1, 1, 3]


def other_statements(rng, data):
    """A configuration with lines of TOML at any line of it, whether they have a reading or not."""
    lines = data.decode().split("\n")
    for _ in range(rng.choice([1, 1, 2, 3])):
        line = f"{rng.choice(KEYS)} = {rng.choice(VALUES)}"
        if rng.random() < 0.3:
            line = rng.choice(HEADERS)
        lines.insert(rng.randint(0, len(lines)), line)
    mark = "\ufeff" if rng.random() < 0.1 else ""
    return (mark + rng.choice(["\n"] * 5 + ["\r\n"]).join(lines)).encode(), "statements"


# Edits that leave each line of a journal a reading.

REPLIES = ["done", "handle 1", "handle 2", "no-event", "event leave", "event press 30", "closed",
           "no-such-view 1", "no-such-view 7", "bad-rect", "bad-size", "bad-title", "killed",
           "too-many-views", "out-of-quota 256 0", "no-reserve 1 0", "event motion 1 1"]


def other_reply(rng, line):
    return re.sub(r"(call \d+) .*? < ", rf"\1 {rng.choice(REPLIES)} < ", line)


def other_session(rng, line):
    number = rng.choice([0, 0, 1, 1, 2, 3, 15])
    return re.sub(r"^call \d+", f"call {number}", line) if rng.random() < 0.5 else \
        re.sub(r"> \d+", f"> {number}", line)


def other_delivery(rng, line):
    more = f" > {rng.choice([0, 1, 2])} {rng.choice(['leave', 'focus-enter', 'kill', 'press 272'])}"
    if line.startswith("input ") and line.count(" > ") < 3 and rng.random() < 0.5:
        return line + more
    return line.rpartition(" > ")[0] or line


def other_number(rng, line):
    return re.sub(r"\d+$", str(rng.choice([0, 1, 2, 30, 70, 99, 272])), line)


def move_entry(rng, data):
    """An entry changes places with one that stands a few places behind: another actor's, mostly."""
    lines = data.decode().split("\n")[:-1]
    at = rng.randrange(len(lines))
    lines.insert(at + rng.choice([-3, -2, -1, 1, 2, 3]), lines.pop(at))
    return text_of(lines), f"an entry moved from line {at + 1}"


def other_entry(rng, data):
    """A journal with an entry that is another one, or stands elsewhere, and what was done."""
    if rng.random() < 0.3:
        return move_entry(rng, data)
    if rng.random() < 0.4:
        name = rng.choice(["lines swapped", "a line moved", "a line doubled", "a line left out"])
        return EDITS[name](rng, data[:-1], MARKS) + b"\n", name
    lines = data.decode().split("\n")
    change_line = rng.choice([other_reply, other_session, other_delivery, other_number])
    for _ in range(20):
        at = rng.randrange(len(lines))
        now = change_line(rng, lines[at])
        if now != lines[at]:
            lines[at] = now
            break
    return "\n".join(lines).encode(), f"{change_line.__name__} at line {at + 1}"


def edited(rng, data, marks):
    """The bytes with one small edit, sometimes with up to three, and what they are."""
    names = rng.choices(list(EDITS), WEIGHTS, k=rng.choice([1, 1, 1, 1, 2, 3]))
    for name in names:
        data = EDITS[name](rng, data, marks)
    return data, ", ".join(names)

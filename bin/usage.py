"""Which words are a command of the program, why others are none, and what they may have meant.

usage.txt has what the program says of words that are none, and with it the form of each command.
"""
import difflib
import os
import re
import stat
import sys
from pathlib import Path

from shown import quoted

TEXT = (Path(__file__).resolve().parent / "usage.txt").read_text(encoding="utf8")
LINE = TEXT.strip().partition(": ")[2]
COMMANDS = {command: tuple(names) for command, *names in
            (form.split() for form in re.split(", | or ", LINE.partition("nitpicker ")[2]))}
OWN = ("--help", "--version", "-C", "--out")
NUMBER = re.compile(r"0|[1-9][0-9]{0,8}")


def form_of(command):
    return f"`{' '.join([command, *COMMANDS[command]])}`"


def near(word):
    """The words that a first word may have been meant to be, the likeliest first."""
    lower, bare = word.lower(), word.lower().lstrip("-")
    if lower in COMMANDS:
        return [lower]
    own = [it for it in OWN if it.lower().lstrip("-").startswith(bare)]
    if bare and own and word.startswith("-"):
        return own[:1]
    return difflib.get_close_matches(lower, [*COMMANDS, *OWN], 2, 0.6)


def perhaps(word):
    """The same as one says it, or nothing."""
    close = near(word)
    if close == [word.lower()]:
        return f"`{close[0]}`, in lower case"
    return "perhaps " + " or ".join(f"`{it}`" for it in close) if close else ""


def number_fault(command, name, word):
    """What is wrong with a number of a command, and what is right, or none."""
    least, most = 0, 999999999
    if command == "still":
        least, most = 1, {"W": 1024, "H": 768}[name]
    if NUMBER.fullmatch(word) and least <= int(word) <= most:
        return None
    return (f"{quoted(word)} stands where {name} is to stand in {form_of(command)}",
            f"a number from {least} to {most}, in decimal without leading zeros")


def count_fault(command, given):
    wanted = len(COMMANDS[command])
    if given == wanted:
        return None
    return (f"`{command}` takes {wanted} word{'s' if wanted > 1 else ''}, and {given or 'none'} "
            f"{'are' if given > 1 else 'is'} given", form_of(command))


def is_utf8(word):
    try:
        os.fsencode(word).decode()
    except UnicodeError:
        return False
    return True


def fault_of(words):
    """Why words are no command, and what is right, which may be left to be said; or none."""
    odd = next((word for word in words if not is_utf8(word)), None)
    if odd is not None:
        return f"{quoted(odd)} is no UTF-8", "all words are UTF-8"
    if not words:
        return "there are none", ""
    command, *given = words
    if command not in COMMANDS:
        return f"{quoted(command)} is no command", perhaps(command)
    numbers = [(name, word) for name, word in zip(COMMANDS[command], given) if len(name) == 1]
    return count_fault(command, len(given)) or next(
        filter(None, (number_fault(command, *pair) for pair in numbers)), None)


def unreadable(words, folder=""):
    """The file that a command reads first in a folder, where it cannot be read, or none."""
    if words[0] == "gen":
        return None
    name = words[3 if words[0] == "still" else 1]
    path = os.path.join(folder, name) if name else ""
    try:
        is_file = not stat.S_ISDIR(os.stat(path).st_mode) and os.access(path, os.R_OK)
    except (OSError, ValueError):
        is_file = False
    return None if is_file else name


def hint(words):
    """What helps with words that are no command, behind what the program says of them."""
    what, right = fault_of(words)
    more = right or "--help lists the commands"
    return f"{what}; {more}" if words else more


if __name__ == "__main__":
    print(f"bin/nitpicker: {hint(sys.argv[1:])}")

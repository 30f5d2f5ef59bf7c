"""Why a script is refused: its lines without a reading, its size, its phases."""
import shlex

from shown import shown

from . import lines
from .faults import Fault, Finding, Note, Refused

MOST_BYTES = 1048576
MOST_LINES = 65536
FORBIDDEN = ("buffer", "fill", "check", "close")
RULE = "docs/FORMATS.md, {}"
SCRIPTS = RULE.format("Scripts")
KINDS = {
    "client": (lines.client_line, RULE.format("Lines of a client's script")),
    "input": (lines.input_line, RULE.format("Lines of an input script")),
    "clip": (lines.clip_line, RULE.format("Lines of a clip script")),
}
GENERAL = (lines.PARTED, lines.ENDED, lines.NOTHING, *lines.SPELLED.values())


def nested_line(reader):
    """Reads a line of the first outer script of `nested`."""
    lines.client_line(reader)
    word = reader.text.split(" ")[0]
    if word in FORBIDDEN:
        raise Fault(0, len(word), f"`{word}` may not stand in the script that shows inner frames",
                    "no `buffer`, `fill`, `check` or `close`: the inner frames are drawn there")


def pieces_of(data):
    """The lines that end with a line feed, and what is left behind the last one."""
    *whole, rest = data.decode("ascii", "surrogateescape").split("\n")
    return whole, rest


def bad_lines(whole, read):
    """The number of each line without a reading, and its fault."""
    for number, line in enumerate(whole, 1):
        fault = lines.first_fault(line, read)
        if fault:
            yield number, fault


def told_once(bad, name):
    """The same with one fault for all line ends of Windows."""
    ends = [row for row in bad if isinstance(row[1], lines.LineEnd)]
    if ends:
        ends[0][1].told(name, len(ends))
    return [row for row in bad if not isinstance(row[1], lines.LineEnd) or row is ends[0]]


def open_end(rest, read, name):
    """The fault of a last line without its line feed."""
    fault = lines.first_fault(rest, read)
    if fault:
        return fault
    return Fault(len(rest), len(rest) + 1, "the file ends here without a line feed",
                 f"a line feed behind the last line too; `echo >> {shown(shlex.quote(name))}` adds "
                 "it", lines.ENDED)


def read_script(name, data, kind, read=None):
    """The lines of a script. Raises why it is refused."""
    usual, rule = KINDS[kind]
    read = read or usual
    if len(data) > MOST_BYTES:
        raise Refused(6, f"{name}: too long", Note(
            name, f"the file has more than {MOST_BYTES:,} bytes", "",
            f"{SCRIPTS}: a script has at most {MOST_LINES:,} lines, and its file {MOST_BYTES:,} "
            "bytes"))
    whole, rest = pieces_of(data)
    bad = list(bad_lines(whole[:MOST_LINES], read))
    if not bad and len(whole) + bool(rest) > MOST_LINES:
        raise Refused(6, f"{name}: too long", Note(
            name, f"the script has {len(whole) + bool(rest):,} lines, and {MOST_LINES:,} are the "
            "most", "", f"{SCRIPTS}: a script has at most {MOST_LINES:,} lines"))
    if rest and len(whole) < MOST_LINES:
        bad.append((len(whole) + 1, open_end(rest, read, name)))
    if not bad:
        return whole
    bad = told_once(bad, name)
    rules = [SCRIPTS if bad[0][1].rule in GENERAL else rule] + [""] * (len(bad) - 1)
    texts = whole + [rest]
    raise Refused(6, f"{name}: line {bad[0][0]}: bad script", *(
        Finding(name, texts[number - 1], fault, rule, number)
        for (number, fault), rule in zip(bad, rules)))


def phases_in(script):
    """The numbers of the lines `phase`."""
    return [number for number, line in enumerate(script, 1) if line == "phase"]


def phases_told(count):
    return f"{count} line{'' if count == 1 else 's'} `phase`"


def phases_fault(name, script, count, of_whom, others):
    """Where a script has not so many lines `phase`, the refusal, with the counts of all scripts."""
    own = phases_in(script)
    if len(own) == count:
        return None
    where = f", at line{'' if len(own) == 1 else 's'} {', '.join(map(str, own[:8]))}" if own else ""
    where += " .." if len(own) > 8 else ""
    counts = ", ".join(f"{shown(other)} {number}" for other, number in others)
    return Refused(6, f"{name}: phases differ", Note(
        name, f"it has {phases_told(len(own))}{where}, and {of_whom} {count}",
        f"as many in each script; as they are, these have: {counts}",
        RULE.format("Phases: all scripts of a run have as many phases")))

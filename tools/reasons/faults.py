"""What is wrong at a place of a file, and how that is shown to a person."""
from shown import shown

WIDEST = 76


class Fault(Exception):
    """A place at which a text has no reading, from `at` to `end`: what is there, and what is right.

    `rule` is the sentence of the rules that it breaks, where it is one of the few that are spelled.
    """

    def __init__(self, at, end, what, right="", rule=""):
        super().__init__(what)
        self.at, self.end, self.what, self.right, self.rule = at, end, what, right, rule


class Finding:
    """A fault of a file: the text, the first line's number, and the rule that is broken, which is
    left out where none is given."""

    def __init__(self, name, text, fault, rule="", first_line=1):
        self.name, self.text, self.fault = name, text, fault
        self.rule = f"{rule}: {fault.rule}" if rule and fault.rule else rule
        self.first_line = first_line

    def place(self):
        """The line and the column, both from 1, and the line's start and end in the text."""
        at = min(self.fault.at, len(self.text))
        start = self.text.rfind("\n", 0, at) + 1
        end = self.text.find("\n", at)
        end = len(self.text) if end < 0 else end
        return self.first_line + self.text.count("\n", 0, start), at - start + 1, start, end


class Note:
    """A finding that has no place in a file, or brings a place with it by its own words."""

    def __init__(self, name, what, right="", rule=""):
        self.name, self.what, self.right, self.rule = name, what, right, rule


class Verdict:
    """How the program would end: the status, its line behind `nitpicker: `, and why. `notes` are
    lines on a run that is not refused; they are worked out when they are asked for. `who` is who
    says the line, if not the program."""

    def __init__(self, status, line, findings=(), notes=(), who="The program"):
        self.status, self.line, self.findings = status, line, list(findings)
        self.notes, self.who = notes, who


class Refused(Exception):
    """A verdict that ends the reading."""

    def __init__(self, status, line, *findings, **more):
        super().__init__(line)
        self.verdict = Verdict(status, line, findings, **more)


def counted(number, what):
    return f"{number} {what}{'' if number == 1 else 's'}"


def excerpt(line, column, length):
    """The line, cut to what fits, and the carets under `length` characters from `column` on."""
    column = min(column, len(line) + 1)
    start = max(0, column - 1 - WIDEST // 2) if len(line) > WIDEST else 0
    front = ".. " if start else ""
    part = line[start : start + WIDEST]
    above = front + shown(part) + (" .." if start + WIDEST < len(line) else "")
    indent = len(front) + len(shown(line[start : column - 1]))
    under = shown(line[column - 1 : min(column - 1 + length, start + WIDEST)])
    return above, " " * indent + "^" * max(1, len(under))


def text_of_finding(finding, paint=lambda what, colour: what):
    """What a person is shown of a finding."""
    if isinstance(finding, Note):
        lines = [paint(f"{shown(finding.name)}: {finding.what}", "bold")]
    else:
        fault = finding.fault
        number, column, start, end = finding.place()
        above, under = excerpt(finding.text[start:end], column, fault.end - fault.at)
        margin = f"{number:>6} | "
        place = f"{shown(finding.name)}: line {number}, column {column}"
        lines = [paint(f"{place}: {fault.what}", "bold"),
                 margin + above, " " * (len(margin) - 2) + "| " + paint(under, "red")]
        finding = Note("", "", fault.right, finding.rule)
    lines += [f"  right: {finding.right}"] if finding.right else []
    lines += [f"  rule:  {finding.rule}"] if finding.rule else []
    return "\n".join(lines)

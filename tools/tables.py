"""Tables of two programs' times, in Markdown."""


def heading(programs, ours="ours, ms", theirs="theirs, ms"):
    names = [ours, theirs, "ratio"] if len(programs) == 2 else [ours]
    return [f"| work | {' | '.join(names)} |", "|---" * (len(names) + 1) + "|"]


def cells(values, form):
    """A cell for each program, and the ratio of two."""
    shown = [form(value) for value in values]
    if len(values) == 2:
        shown.append(f"{values[0] / values[1]:.2f}" if values[1] > 0 else "")
    return " | ".join(shown)


def side_by_side(line, other):
    """The row of a table with the cells of another one's behind it, but for what names the row."""
    return line + "|".join(other.split("|")[2:])


def milliseconds(value):
    return f"{value:.1f}" if value < 100 else f"{value:,.0f}"

"""The calls of a run that are refused. The run is valid: its journal has each with its refusal."""
import model
import runs
from screen import KILL_KEY
from shown import quoted, shown

from .faults import counted
from .journal import Unpainted, is_call

KILL = f"press {KILL_KEY}"
REFUSALS = ("closed", "killed", "no-such-view", "bad-rect", "bad-size", "bad-title",
            "too-many-views", "out-of-quota", "no-reserve")


class Row:
    """The refused calls of a client: how many, and the first one's line and reply."""

    def __init__(self, number, line, reply):
        self.count, self.number, self.line, self.reply = 0, number, line, reply


def rows_by_turns(setup):
    """The rows of the run by turns, by the numbers of the clients."""
    scene, numbers, rows = Unpainted(setup.config), [0] * len(setup.clients), {}
    progress = runs.Progress(sum(map(len, [*setup.clients, setup.user])))
    for done, (who, line) in enumerate(model.rounds([*setup.clients, setup.user])):
        progress.tell(done, "line")
        if who == len(numbers):
            if line not in ("shot", "phase"):
                scene.device(line)
            continue
        numbers[who] += 1
        reply = scene.call(who, line) if is_call(line) else "done"
        if reply.split(" ")[0] in REFUSALS:
            rows.setdefault(who, Row(numbers[who], line, reply)).count += 1
    return rows


def refused_by_turns(setup, run="the run"):
    """A line for each client with refused calls in the run by turns."""
    for who, row in sorted(rows_by_turns(setup).items()):
        refused = f"{counted(row.count, 'call')} {'is' if row.count == 1 else 'are'} refused"
        first = ", the first" if row.count > 1 else ","
        yield f"{setup.labels()[who]}: {refused} in {run}{first} at {shown(setup.names[who])} " \
            f"line {row.number}: {quoted(row.line)} gets `{row.reply}`"


def refused_on_threads(setup):
    """The same for a run on threads where no client is killed: whether a call is refused depends
    then on the client's own calls alone."""
    return () if KILL in setup.user else refused_by_turns(setup)

"""Runs on threads whose shots are worked out by hand, right and wrong, for tools/selftest."""
from along import Fault, check_journal
from expected import Setup, text_of
from screen import header

COLOURS = {"K": "000000", "R": "FF0000", "G": "00FF00", "B": "0000FF", "W": "FFFFFF", "Y": "FFFF00"}
CONFIG = {"screen": {"width": 4, "height": 1},
          "client": [{"label": "a", "donation": 512}, {"label": "b", "donation": 512}]}

# Its first stroke reaches nothing, and its second buffer is refused. White is never drawn, green in
# the left half alone, blue in the right one.
FIRST = ["fill 0 0 4 1 FFFFFF", "buffer 4 1", "fill 0 0 4 1 FF0000", "view", "place 1 0 0 4 1",
         "fill 0 0 2 1 00FF00", "buffer 2 40", "fill 2 0 9 1 0000FF"]
SECOND = ["buffer 2 1", "fill 0 0 2 1 FFFF00", "view", "place 1 1 0 2 1", "destroy 1"]

# Here blue is of the second phase.
PHASED = [*FIRST[:-1], "phase", FIRST[-1]]

# Here the second buffer is accepted, with white in the left half before it.
CLEARED = [*FIRST[:5], "fill 0 0 2 1 FFFFFF", "buffer 4 1", "fill 2 0 9 1 0000FF", FIRST[5]]

# Here the first phase ends with white, and the second covers it with green and blue. The third has
# no line.
COVERED = [*FIRST[:5], "fill 0 0 4 1 FFFFFF", "phase", FIRST[5], FIRST[-1], "phase"]

# Here the buffer ends behind two columns of two rows, of which the lower one is green.
NARROW = ["buffer 2 2", "fill 0 0 2 1 FF0000", "fill 0 1 2 1 00FF00", "view", "place 1 0 0 4 1"]

# Here it ends above the row that is shown. The words behind it are those of a larger one.
ABOVE = ["buffer 2 2", "fill 0 0 2 2 00FF00", "buffer 2 1", "view", "place 1 0 0 4 1",
         "offset 1 0 -1"]

# The first client's `place` loads all four pixels, red by then. The second one's `destroy` loads
# the two in the middle, whatever the first one has drawn by then: in front of its next call or
# behind that.
OPENING = ["call 0 done < buffer 4 1", "call 0 handle 1 < view", "call 0 done < place 1 0 0 4 1",
           "call 1 done < buffer 2 1", "call 1 handle 1 < view", "call 1 done < place 1 1 0 2 1"]
DESTROYED = "call 1 done < destroy 1"
REFUSED, ACCEPTED = "call 0 out-of-quota 640 256 < buffer 2 40", "call 0 done < buffer 4 1"
IN_FRONT, BEHIND = [*OPENING, DESTROYED], [*OPENING, REFUSED, DESTROYED]


def cannot(column, letter, right, shot=1, more=""):
    """What is said of a pixel that shows the colour of a letter and is to show one of others."""
    words = " or ".join(sorted(COLOURS[other] for other in right))
    return f"shot {shot}: the pixel at ({column}, 0) cannot be {COLOURS[letter]}{more}, but {words}"


# Each of these but `RYBR` has nothing but black and colours of the first client's script. In the
# left half red is from before its last call; in front of that blue is from behind its next one.
SHOTS_BEHIND = {
    "RGBR": None, "RGRR": None, "RRBR": cannot(1, "R", "G"), "RKBR": cannot(1, "K", "G"),
    "RGKR": cannot(2, "K", "RB"), "RBBR": cannot(1, "B", "G"), "RGGR": cannot(2, "G", "RB"),
    "RWBR": cannot(1, "W", "G"), "RGWR": cannot(2, "W", "RB"), "RYBR": cannot(1, "Y", "G"),
    "GGBR": cannot(0, "G", "R"), "RGBK": cannot(3, "K", "R"),
    "RGB": "shot 1: it is no picture of 4 by 1 pixels",
}
SHOTS_IN_FRONT = {"RRRR": None, "RGRR": None, "RGBR": cannot(2, "B", "R"),
                  "RKRR": cannot(1, "K", "RG")}
SHOTS_OF_FIRST_PHASE = {"RGRR": None, "RGBR": cannot(2, "B", "R"), "RRRR": cannot(1, "R", "G")}
SHOTS_OF_SECOND_PHASE = {"RGRR": None, "RGBR": None, "RRRR": cannot(1, "R", "G")}
SHOTS_BEFORE_CLEARED = {"RRRR": None, "RWRR": None, "RKRR": cannot(1, "K", "RW"),
                        "RWKR": cannot(2, "K", "R")}
SHOTS_OF_CLEARED = {"KKKK": None, "KKBK": None, "KGBK": None,
                    "KWKK": cannot(1, "W", "KG"), "KKRK": cannot(2, "R", "KB")}

# Red and white may be there in the first phase. White may still be there in the second, whose
# strokes may not have been done yet. In the third it is over.
SHOTS_COVERED = [
    {"RWWR": None, "RRWR": None, "RGWR": cannot(1, "G", "RW"), "RWBR": cannot(2, "B", "RW")},
    {"RWWR": None, "RGWR": None, "RWBR": None, "RGBR": None, "RRWR": cannot(1, "R", "WG"),
     "RWRR": cannot(2, "R", "WB"), "RKWR": cannot(1, "K", "WG"), "RBWR": cannot(1, "B", "WG")},
    {"RGBR": None, "RWBR": cannot(1, "W", "G"), "RGWR": cannot(2, "W", "B"),
     "RRBR": cannot(1, "R", "G"), "RGRR": cannot(2, "R", "B"), "RKBR": cannot(1, "K", "G")},
]

# Behind the ends of a buffer all is black.
SHOTS_NARROW = {"RRKK": None, "RRGK": cannot(2, "G", "K"), "RRRK": cannot(2, "R", "K"),
                "RKKK": cannot(1, "K", "R")}
SHOTS_ABOVE = {"KKKK": None, "KGKK": cannot(1, "G", "K")}

# Two shots. Where nothing between them loads the pixel again it has one word for both.
EARLIER = " after what earlier shots show"
PAIRS = {"RGRR RGRR": None, "RGBR RGBR": None, "RGRR RGGR": cannot(2, "G", "R", 2),
         "RGRR RGBR": cannot(2, "B", "R", 2, EARLIER), "RGBR RGRR": cannot(2, "R", "B", 2, EARLIER)}
PAIRS_ANEW = PAIRS | {"RGRR RGBR": None, "RGBR RGRR": None, "RGRR RGGR": cannot(2, "G", "RB", 2)}
PAIRS_OF_PHASES = PAIRS | {"RGBR RGBR": cannot(2, "B", "R"), "RGBR RGRR": cannot(2, "B", "R"),
                           "RGRR RGBR": cannot(2, "B", "R", 2)}
PAIRS_OF_PHASES_ANEW = PAIRS_OF_PHASES | {"RGRR RGBR": None,
                                          "RGRR RGGR": cannot(2, "G", "RB", 2)}
PAIRS_BESIDE_A_CALL = {"RGRR RGRR": None, "RGRR RGBR": None, "RGRR RGKR": cannot(2, "K", "RB", 2),
                       "RRRR RRBR": None, "RRRR RGBR": cannot(1, "G", "R", 2, EARLIER)}


def anew(column):
    """Lines of the second client's that make one pixel dirty, with a view that goes again, and what
    they put into the journal."""
    lines = ["view", f"place 2 {column} 0 1 1", "destroy 2"]
    replies = ["handle 2", "done", "done"]
    return lines, [f"call 1 {reply} < {line}" for reply, line in zip(replies, lines)]


def runs_of_one_shot():
    """Each run's scripts and journal, with shots and what is wrong with them."""
    early, late = [*SECOND, "phase"], [*SECOND[:-1], "phase", SECOND[-1]]
    yield [FIRST, SECOND], ["shot"], [*BEHIND, "shot 1"], SHOTS_BEHIND
    yield [FIRST, SECOND], ["shot"], [*IN_FRONT, REFUSED, "shot 1"], SHOTS_IN_FRONT
    yield [PHASED, early], ["shot", "phase"], [*BEHIND, "shot 1"], SHOTS_OF_FIRST_PHASE
    yield [PHASED, early], ["phase", "shot"], [*BEHIND, "shot 1"], SHOTS_OF_FIRST_PHASE
    yield [PHASED, late], ["phase", "shot"], [*BEHIND, "shot 1"], SHOTS_OF_SECOND_PHASE
    for phase, shots in enumerate(SHOTS_COVERED):
        before, behind = ["phase"] * phase, ["phase"] * (2 - phase)
        second = [*SECOND[:-1], *before, SECOND[-1], *behind]
        for user in ([*before, "shot", *behind], ["phase", "phase", "shot"]):
            yield [COVERED, second], user, [*IN_FRONT, "shot 1"], shots
    yield [CLEARED, SECOND], ["shot"], [*IN_FRONT, "shot 1", ACCEPTED], SHOTS_BEFORE_CLEARED
    yield [CLEARED, SECOND], ["shot"], [*OPENING, ACCEPTED, DESTROYED, "shot 1"], SHOTS_OF_CLEARED


def runs_of_two_shots():
    """So of runs with two shots."""
    shots, phases = ["shot", "shot"], ["shot", "phase", "shot"]
    journal = [*BEHIND, "shot 1", "shot 2"]
    yield [FIRST, SECOND], shots, journal, PAIRS
    yield [PHASED, [*SECOND, "phase"]], phases, journal, PAIRS_OF_PHASES
    for column, pairs, pairs_of_phases in (
            (1, PAIRS, PAIRS_OF_PHASES), (2, PAIRS_ANEW, PAIRS_OF_PHASES_ANEW)):
        lines, entries = anew(column)
        journal = [*BEHIND, "shot 1", *entries, "shot 2"]
        yield [FIRST, SECOND + lines], shots, journal, pairs
        yield [PHASED, [*SECOND, "phase", *lines]], phases, journal, pairs_of_phases
    lines, entries = anew(2)
    journal = [*IN_FRONT, "shot 1", REFUSED, *entries, "shot 2"]
    yield [FIRST, SECOND + lines], shots, journal, PAIRS_BESIDE_A_CALL


def runs_of_small_buffers():
    """So of runs whose last picture is not `GGBB`, each with that."""
    for script, replies, shots, final in (
            (NARROW, ["done", "handle 1", "done"], SHOTS_NARROW, "RRKK"),
            (ABOVE, ["done", "done", "handle 1", "done", "done"], SHOTS_ABOVE, "KKKK")):
        calls = [line for line in script if not line.startswith("fill ")]
        entries = [f"call 0 {reply} < {line}" for reply, line in zip(replies, calls)]
        journal = [*entries, *OPENING[3:], DESTROYED, "shot 1"]
        yield [script, SECOND], ["shot"], journal, shots, final


def picture(letters):
    return header(4, 1) + bytes.fromhex("".join(COLOURS[letter] for letter in letters))


def files_with(journal, shots, final):
    """The files of a run with this journal, with these pictures."""
    end = text_of(["lost 0", "left 0", "state live"])
    pictures = {f"shot-{number}.ppm": picture(shot) for number, shot in enumerate(shots, 1)}
    return pictures | {"final.ppm": picture(final), "events-a.txt": end, "events-b.txt": end,
                       "journal.txt": text_of([*journal, "final"])}


def cases():
    """Each run's setup and files, and what is wrong with them, with the shots as letters."""
    plain = [(*run, "GGBB") for run in (*runs_of_one_shot(), *runs_of_two_shots())]
    for clients, user, journal, rows, final in [*plain, *runs_of_small_buffers()]:
        for shots, wrong in rows.items():
            files = files_with(journal, shots.split(), final)
            yield Setup(CONFIG, clients, user), files, wrong, shots


def faults():
    """Where right shots are called wrong, or wrong ones anything but what they are."""
    for setup, files, wrong, shots in cases():
        said = None
        try:
            check_journal(setup, files)
        except Fault as fault:
            said = str(fault)
        if said != wrong:
            yield f"tools/fuzz: of the shots {shots} it says {said!r} and not {wrong!r}"

"""Whom keys, clicks and the wheel go to, and who learns of them."""

from pathlib import Path
import re
import subprocess
import time

from stage import BARE, FOOT, Desk, bar, check, shown, steady, text, until

PERIOD = 1000000 // 60


def case_typing(screen, folder):
    """Keys reach the terminal that was clicked on, and not the other one."""
    words = [FOOT.format(",at:20:20", "HOME", "foot"),
             FOOT.format("b,at:300:420", "HOME", "foot -W 80x20").replace("typed", "other")]
    with Desk(screen, folder, words) as desk:
        shown(screen, 100, 100)
        shown(screen, 400, 500)
        screen.user("mousemove 100 100 click 1")
        bar(screen, "flat:foot")
        screen.user("type --delay 10 Hello_World")
        screen.user("key Return")
        until("the first has it", lambda: desk.wrote("typed") == "Hello_World\n")
        screen.user("mousemove 400 600 click 1")
        bar(screen, "flat:footb")
        screen.user("type --delay 10 x=1")
        screen.user("key Return")
        until("the second has it", lambda: desk.wrote("other") == "x=1\n")
        check("the first has no more", desk.wrote("typed") == "Hello_World\n")


def lines(desk, name, word):
    """The lines that begin with a word, of what a listener was told."""
    return [line for line in desk.wrote(f"{name}.said").splitlines() if line.startswith(word)]


def told(desk, name):
    """What a listener was told, but for frames."""
    return [line for line in desk.wrote(f"{name}.said").splitlines()
            if not line.startswith("frame")]


def case_untold(screen, folder):
    """A client is told nothing of what the user does to another one."""
    with Desk(screen, folder, []) as desk:
        desk.start("one,at:50:60", "listen f00000")
        desk.start("two,at:500:60", "listen 00f000")
        shown(screen, 100, 100, 0xF00000)
        shown(screen, 600, 100, 0x00F000)
        screen.user("mousemove 100 100 click 1")
        bar(screen, "flat:one")
        until("it has the keys", lambda: lines(desk, "one", "keys"))
        screen.user("key a")
        until("and one", lambda: len(lines(desk, "one", "key ")) == 2)
        screen.user("mousemove 600 100 click 1")
        bar(screen, "flat:two")
        until("it has no keys now", lambda: lines(desk, "one", "nokeys"))
        until("no pointer", lambda: lines(desk, "one", "leave"))
        before = told(desk, "one")
        screen.user("key b keydown shift key c keyup shift key Caps_Lock key d")
        screen.user("mousemove 650 150 click 1 click 4 click 5 mousedown 1 mousemove 700 180 "
                    "mouseup 1")
        until("the other is told", lambda: len(lines(desk, "two", "key ")) == 10)
        until("of buttons", lambda: len(lines(desk, "two", "button")) == 6)
        time.sleep(0.3)
        check(f"told no more: {told(desk, 'one')[len(before):]}", told(desk, "one") == before)
        screen.user("mousemove 100 100 click 1")
        bar(screen, "flat:one")
        until("told again", lambda: len(lines(desk, "one", "keys")) == 2)
        check("the other has one locked", lines(desk, "two", "modifiers")[-1].split()[4] == "2")
        check("no modifier of the other's", lines(desk, "one", "modifiers")[-1].split()[2:] ==
              ["0", "0", "0", "0"])
        serials = [int(line.split()[1]) for line in told(desk, "one")
                   if re.match("key |keys|nokeys|modifiers|enter|leave|button", line)]
        check(f"serials of its own: {serials}",
              all(0 < after - before < 4 for before, after in zip(serials, serials[1:])))


def case_frames(screen, folder):
    """Frames come by one clock, whatever others draw, and also to who is covered."""
    with Desk(screen, folder, []) as desk:
        desk.start("one,at:50:60", "listen f00000")
        shown(screen, 100, 100, 0xF00000)
        time.sleep(1)
        alone = [int(line.split()[1]) for line in lines(desk, "one", "frame")]
        desk.start("two,at:0:7", "evil flood")
        shown(screen, 100, 100, 0x00C000)
        time.sleep(2)
        beside = [int(line.split()[1]) for line in lines(desk, "one", "frame")][len(alone):]
        check(f"frames go on: {len(beside)}", len(beside) > 30)
        off = [tick for tick in alone + beside
               if (1000 * tick + 999) // PERIOD * PERIOD // 1000 != tick]
        check(f"they come at ticks: {off}", not off)
        early = [line for line in lines(desk, "one", "frame")
                 if float(line.split()[3]) < int(line.split()[1]) / 1000]
        check(f"and not before: {early[:3]}", not early)


def case_wheel(screen, folder):
    """Both axes of the wheel go to the client under the pointer."""
    with Desk(screen, folder, []) as desk:
        desk.start("one,at:50:60", "listen f00000")
        shown(screen, 100, 100, 0xF00000)
        screen.user("mousemove 100 100 click 4 click 5 click 5 click 6 click 7")
        until("five turns", lambda: len(lines(desk, "one", "axis")) == 5)
        check(f"which: {lines(desk, 'one', 'axis')}",
              lines(desk, "one", "axis") == ["axis 0 -10", "axis 0 10", "axis 0 10",
                                             "axis 1 -10", "axis 1 10"])


def case_drag(screen, folder):
    """A window goes where its client lets it be dragged, and where the move key drags it."""
    with Desk(screen, folder, ["term,at:20:40=weston-terminal"]):
        shown(screen, 100, 300)
        screen.user("mousemove 300 50 mousedown 1")
        for at in range(1, 11):
            screen.user(f"mousemove {300 + 20 * at} {50 + 20 * at}")
        screen.user("mouseup 1")
        until("it is dragged", lambda: screen.pixel(219, 300) == BARE != screen.pixel(221, 300))
        screen.user("keydown super mousemove 500 400 mousedown 1 mousemove 400 300 "
                    "mousemove 300 200 mouseup 1 keyup super")
        until("it is back", lambda: screen.pixel(19, 200) == BARE != screen.pixel(21, 200))


def case_drags(screen, folder):
    """A client drags its window while a button is held in it, and not before or after."""
    with Desk(screen, folder, []) as desk:
        desk.start("one,at:50:60", "listen f00000 drags")
        shown(screen, 100, 100, 0xF00000)
        screen.user("mousemove 100 100 mousedown 1")
        until("it is told", lambda: lines(desk, "one", "button"))
        time.sleep(0.3)
        screen.user("mousemove 200 150 mousemove 250 160")
        until("it has moved", lambda: screen.pixel(199, 150) == BARE and
              screen.pixel(201, 150) == 0xF00000)
        screen.user("mouseup 1 mousemove 400 300 mousemove 700 500")
        time.sleep(0.5)
        check("it stays", screen.pixel(199, 150) == BARE and screen.pixel(201, 150) == 0xF00000)
        desk.start("two,at:600:60", "listen 00f000 late")
        shown(screen, 650, 100, 0x00F000)
        screen.user("mousemove 650 100 click 1")
        until("it has asked", lambda: len(lines(desk, "two", "button")) == 2)
        time.sleep(0.3)
        screen.user("mousemove 660 110 mousemove 700 300")
        time.sleep(0.5)
        check("a drag that comes late is none", screen.pixel(603, 63) == 0x00F000)


def case_resize(screen, folder):
    """The move key with a button pulls at a window's corner or moves it, in X-ray mode too."""
    with Desk(screen, folder, []) as desk:
        desk.start("one,at:50:60", "listen f00000")
        shown(screen, 100, 100, 0xF00000)
        screen.user("keydown super mousemove 300 200 mousedown 3 mousemove 350 250 "
                    "mousemove 400 300 mouseup 3 keyup super")
        until("it is larger", lambda: screen.pixel(440, 350) == 0xF00000)
        check("and no larger", screen.pixel(451, 350) == BARE)
        screen.user("key Scroll_Lock")
        bar(screen, "xray")
        screen.user("keydown super mousemove 300 200 mousedown 1 mousemove 320 220 "
                    "mousemove 400 300 mouseup 1 keyup super")
        until("it is moved", lambda: screen.pixel(145, 250) == BARE != screen.pixel(155, 250))
        screen.user("key Scroll_Lock")


def stands(screen, box, word):
    """Waits until a window of one colour has just this place: its left, top, right and bottom."""
    left, top, right, bottom = box
    x, y = (left + right) // 2, (top + bottom) // 2
    sides = (((left, y), (left - 1, y)), ((right - 1, y), (right, y)),
             ((x, top), (x, top - 1)), ((x, bottom - 1), (x, bottom)))
    until(f"it has the place {box}", lambda: all(
        screen.pixel(*inside) == word and screen.pixel(*outside) == BARE
        for inside, outside in sides))


def pull(screen, box, across, down, words):
    """Pulls at the edges of this third of a window, and answers where it is to stand then."""
    press, release = words
    left, top, right, bottom = box
    x = left + (2 * across + 1) * (right - left) // 6
    y = top + (2 * down + 1) * (bottom - top) // 6
    screen.user(f"mousemove {x} {y} {press}")
    time.sleep(0.3)
    screen.user(f"mousemove {x + 10} {y + 10} mousemove {x + 24} {y + 18} {release}")
    middle = across == down == 1
    return (left + 24 * (across == 0), top + 18 * (down == 0),
            right + 24 * (across == 2 or middle), bottom + 18 * (down == 2 or middle))


def case_edges(screen, folder):
    """Each edge and corner is pulled, by a client's request and by the move key; the rest stays."""
    with Desk(screen, folder, []) as desk:
        desk.start("one,at:300:200", "listen f00000 pulls")
        box = (300, 200, 600, 400)
        stands(screen, box, 0xF00000)
        thirds = [(across, down) for down in range(3) for across in range(3)]
        for words in (("mousedown 1", "mouseup 1"),
                      ("keydown super mousedown 3", "mouseup 3 keyup super")):
            for across, down in thirds:
                if across == down == 1 and "super" not in words[0]:
                    continue
                box = pull(screen, box, across, down, words)
                stands(screen, box, 0xF00000)
        desk.start("two,at:40:500", "listen 00f000 slow")
        box = (40, 500, 340, 700)
        stands(screen, box, 0x00F000)
        box = pull(screen, box, 0, 0, words)
        stands(screen, box, 0x00F000)


def case_scale(screen, folder):
    """On a window of twice the size a pixel is two by two, and a click goes where it seems to."""
    with Desk(screen, folder, ["--zoom=2", "--size=512x384"]) as desk:
        desk.start("one,at:50:60", "listen f00000")
        shown(screen, 100, 120, 0xF00000)
        check("its corner", screen.part(98, 118, 4, 4) ==
              [[BARE] * 4] * 2 + [[BARE, BARE, 0xF00000, 0xF00000]] * 2)
        screen.user("mousemove 120 140 click 1")
        until("it is told where", lambda: lines(desk, "one", "enter"))
        check("where", lines(desk, "one", "enter")[0].split()[2:] == ["10", "10"])


def case_words(screen, folder):
    """Wrong words are refused with status 2, and say what is wrong."""
    for words, says in ((["--size=5000x10"], "4096x4096"), (["--size=10x7"], "4096x4096"),
                        (["--zoom=5"], "--zoom=5: a zoom is 1 to 4"),
                        (["--zoom="], "--zoom=: a zoom is 1 to 4"),
                        (["--zoom=22"], "--zoom=22: a zoom is 1 to 4"),
                        (["--scale=9"], "--scale=9: a scale is 1 to 8"),
                        (["--scale=0"], "--scale=0: a scale is 1 to 8"),
                        (["--glyphs=tall"], "--glyphs=tall: glyphs are small or large"),
                        (["--kill=Nokey"], "no such key"),
                        (["--what"], "no such word"), (["A=true"], "a program is"),
                        (["a,what=true"], "wrong word"), (["a=true", "a=true"], "this name")):
        ended = subprocess.run([Path(folder) / "desk", *words], env=screen.environment, text=True,
                               stdin=subprocess.DEVNULL, capture_output=True, timeout=30,
                               check=False)
        check(f"{words}: {ended}", ended.returncode == 2 and
              says in ended.stdout + ended.stderr)


def case_menu(screen, folder):
    """A menu opens at a click, has the label of its client, and closes at a click elsewhere."""
    with Desk(screen, folder, ["gtk,at:20:40=gtk4-demo"]) as desk:
        desk.start("other,at:700:540", "listen 00f000")
        shown(screen, 400, 300)
        shown(screen, 950, 700, 0x00F000)
        steady(screen, (20, 40, 600, 400))
        screen.user("mousemove 745 60 mousemove 749 63 click 1")
        bar(screen, "flat:gtk")
        until("the menu", lambda: screen.pixel(825, 120) != BARE)
        steady(screen, (600, 40, 250, 250))
        screen.user("key Scroll_Lock")
        bar(screen, "xray:gtk")
        until("the menu's label", lambda: any(
            part == LABEL for part in labels(screen, (560, 60, 280, 160))))
        screen.user("key Scroll_Lock")
        screen.user("mousemove 950 700 click 1")
        bar(screen, "flat:other")
        until("the menu is gone", lambda: screen.pixel(825, 120) == BARE)


LABEL = "gtk"


def labels(screen, part):
    """The labels in a part of the screen that begin with that of the GTK program."""
    rows, found = screen.part(*part), text(LABEL)
    width = len(found[0]) - 1
    for y in range(len(rows) - 7):
        for x in range(len(rows[0]) - width):
            if all(rows[y + k][x:x + width] == found[k][:width] for k in range(7)):
                yield LABEL

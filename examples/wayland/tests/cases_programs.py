"""Programs as Debian has them, and what each can do on the desk."""

import subprocess
import time

from stage import BARE, Desk, Wrong, bar, check, shown, steady, until
import video

VIDEO = ("ffmpeg -loglevel error -f lavfi -i testsrc=size=320x240:rate=30 -t 20 "
         "-pix_fmt yuv420p {}/video.mp4")


def changes(screen, x, y, seconds):
    """How often a row of the screen changes."""
    count, before, end = 0, None, time.monotonic() + seconds
    while time.monotonic() < end:
        now = screen.part(x, y, 200, 1)
        count += now != before
        before = now
        time.sleep(0.004)
    return count - 1


def pages(path):
    """Makes a document of a red and a green page."""
    parts = [b"<</Type/Catalog/Pages 2 0 R>>", b"<</Type/Pages/Kids[3 0 R 4 0 R]/Count 2>>"]
    for at in (5, 6):
        parts.append(b"<</Type/Page/Parent 2 0 R/MediaBox[0 0 300 400]/Contents %d 0 R>>" % at)
    for color in (b"1 0 0", b"0 1 0"):
        drawn = color + b" rg 0 0 300 400 re f"
        parts.append(b"<</Length %d>>stream\n%s\nendstream" % (len(drawn), drawn))
    text, places = b"%PDF-1.4\n", []
    for at, part in enumerate(parts, 1):
        places.append(len(text))
        text += b"%d 0 obj\n%s\nendobj\n" % (at, part)
    table = b"".join(b"%010d 00000 n \n" % place for place in places)
    text += (b"xref\n0 7\n0000000000 65535 f \n%strailer<</Size 7/Root 1 0 R>>\nstartxref\n%d\n"
             b"%%%%EOF\n" % (table, len(text)))
    path.write_bytes(text)


def made(desk, command):
    """Makes a file in the folder of the desk."""
    subprocess.run(command.format(desk.folder), shell=True, check=True)


def case_weston_clients(screen, folder):
    """weston-simple-shm and weston-flower are shown at the display's rate, side by side."""
    with Desk(screen, folder, ["shm,at:20:40=weston-simple-shm",
                               "flower,at:400:40=weston-flower"]):
        shown(screen, 100, 100)
        shown(screen, 500, 140)
        count = changes(screen, 45, 160, 2)
        check(f"about 60 a second: {count / 2}", 20 < count / 2 <= 62)


def case_weston_terminal(screen, folder):
    """weston-terminal takes keys, and is maximized."""
    with Desk(screen, folder, ["term,home:HOME,at:20:40=weston-terminal --shell=/bin/sh"]) as desk:
        shown(screen, 300, 50)
        screen.user("mousemove 300 200 click 1")
        bar(screen, "flat:term")
        steady(screen, (20, 40, 400, 200))
        screen.user("type --delay 10 id>typed")
        screen.user("key Return")
        until("it has the keys", lambda: "uid" in desk.wrote("typed"))
        at = next(x for x in range(1023, 40, -1) if screen.pixel(x, 60) != BARE)
        screen.user(f"mousemove {at - 40} 60 click --repeat 2 --delay 100 1")
        time.sleep(1)
        if screen.pixel(1000, 700) == BARE:
            screen.user("key F11")
        shown(screen, 1000, 700)


def rows_of(desk):
    """The rows of a terminal that has written them down, or 0."""
    return int((desk.wrote("size").split() or [0])[0])


def case_foot(screen, folder):
    """foot is resized by the host's key, and fills its window."""
    with Desk(screen, folder, ["foot,at:20:40,home:HOME=foot sh -c "
                               "'while sleep 0.2; do stty size > size; done'"]) as desk:
        until("its size", lambda: rows_of(desk))
        rows = rows_of(desk)
        screen.user("keydown super mousemove 650 480 mousedown 3 mousemove 680 560 "
                    "mousemove 700 630 mouseup 3 keyup super")
        until("it is larger", lambda: rows_of(desk) > rows + 3)


def case_gtk_demo(screen, folder):
    """gtk4-demo opens a second window."""
    with Desk(screen, folder, ["gtk,at:20:40=gtk4-demo"]):
        shown(screen, 400, 300)
        steady(screen, (20, 40, 600, 400))
        screen.user("mousemove 90 260 click 1")
        bar(screen, "flat:gtk")
        before = steady(screen, (20, 40, 900, 700))
        screen.user("mousemove 60 62 click 1")
        until("the second window", lambda: screen.part(60, 100, 380, 340) != [
            row[40:420] for row in before[60:400]])
        screen.user("key Scroll_Lock")
        bar(screen, "xray:gtk")
        screen.user("key Scroll_Lock")


def case_gtk_drag(screen, folder):
    """A GTK window goes where it is dragged by its header."""
    with Desk(screen, folder, ["gtk,at:20:40=gtk4-demo"]):
        shown(screen, 400, 300)
        steady(screen, (20, 40, 600, 400))
        screen.user("mousemove 300 62 mousedown 1")
        for at in range(1, 11):
            screen.user(f"mousemove {300 + 10 * at} {62 + 5 * at}")
        screen.user("mouseup 1")
        until("it is moved", lambda: screen.pixel(60, 300) == BARE and
              screen.pixel(160, 300) != BARE)


def case_gtk_factory(screen, folder):
    """gtk4-widget-factory runs, and takes keys."""
    with Desk(screen, folder, ["gtk,at:0:10=gtk4-widget-factory"]):
        shown(screen, 400, 300)
        time.sleep(2)
        screen.user("mousemove 120 40 click 1")
        bar(screen, "flat:gtk")
        screen.user("mousemove 100 81 click 1")
        time.sleep(1)
        before = screen.part(12, 70, 150, 22)
        screen.user("key ctrl+a type abcdef")
        until("it has the keys", lambda: screen.part(12, 70, 150, 22) != before)


def case_zathura(screen, folder):
    """zathura shows a page, and turns to the next one by a key."""
    with Desk(screen, folder, []) as desk:
        pages(desk.folder / "pages.pdf")
        desk.tell("+pdf,home:HOME,at:20:40=zathura pages.pdf")
        until("the red page", lambda: any(0xFF0000 in row for row in
                                          screen.part(20, 40, 900, 600)), 60)
        screen.user("mousemove 300 300 click 1")
        bar(screen, "flat:pdf")
        screen.user("key J")
        until("the green one", lambda: any(0x00FF00 in row for row in
                                           screen.part(20, 40, 900, 600)))


def case_imv(screen, folder):
    """imv shows a picture."""
    with Desk(screen, folder, []) as desk:
        made(desk, "convert -size 300x300 xc:red {}/red.png")
        desk.tell("+imv,home:HOME,at:20:40=imv-wayland red.png")
        until("red", lambda: any(0xFF0000 in row for row in screen.part(0, 7, 1024, 700)), 60)


def case_mpv(screen, folder):
    """mpv plays thirty frames a second in its window, and goes on fullscreen."""
    with Desk(screen, folder, []) as desk:
        made(desk, VIDEO)
        desk.tell("+mpv,home:HOME,at:20:40=mpv --no-audio --vo=wlshm --loop video.mp4")
        shown(screen, 100, 100)
        screen.user("mousemove 100 150 click 1")
        bar(screen, "flat:mpv")
        time.sleep(1)
        count = changes(screen, 30, 260, 3)
        check(f"about 30 a second: {count / 3}", 20 < count / 3 < 34)
        screen.user("key f")
        shown(screen, 1000, 500)
        time.sleep(1)
        count = changes(screen, 400, 700, 3)
        check(f"it goes on, on the whole screen: {count / 3}", 8 < count / 3 < 34)


def case_fullscreen(screen, folder):
    """mpv shows thirty pictures a second on the whole of a screen of 1920 by 1080."""
    with Desk(screen, folder, ["--size=1920x1080"]) as desk:
        video.make(desk.folder, 30)
        desk.tell("+mpv,home:HOME=" + video.PLAY.format(30, "--fs"))
        where = video.found(screen)
        for _ in range(5):  # other work on the machine is not the host's
            before = video.dropped(desk.wrote("said"))
            rate = video.seen(screen, where, 5) / 5
            given = 30 - (video.dropped(desk.wrote("said")) - before) / 5
            print(f"    mpv gives {given:.1f} a second, and {rate:.1f} were seen by looking")
            if given > 29 and rate > 15:
                return
        raise Wrong("mpv cannot give its pictures in time")


case_fullscreen.size = (1920, 1080)


def case_subsurfaces(screen, folder):
    """weston-subsurfaces and weston-stacking run."""
    with Desk(screen, folder, ["sub,at:20:40=weston-subsurfaces",
                               "stack,at:500:300=weston-stacking"]):
        shown(screen, 100, 100)
        shown(screen, 600, 400)


RED, GREEN, BLUE, YELLOW, WHITE = 0xF00000, 0x00F000, 0x0000F0, 0xF0F000, 0xF0F0F0
LEFT, RIGHT, INNER = (150, 160), (300, 160), (235, 105)
STEPS = (                     # what is seen after each step of the client, and where
    ("what is committed first waits for the parent", RED, RED, RED),
    ("the parent commits", GREEN, RED, RED),
    ("one is committed and another one attached", GREEN, RED, RED),
    ("the parent commits", BLUE, RED, RED),
    ("two more are committed", BLUE, RED, RED),
    ("the parent commits", WHITE, RED, RED),
    ("without waiting", GREEN, RED, RED),
    ("the place waits", GREEN, RED, RED),
    ("the parent commits", RED, GREEN, GREEN),
    ("another one, in front", RED, BLUE, BLUE),
    ("the order waits", RED, BLUE, BLUE),
    ("the parent commits", RED, GREEN, GREEN),
    ("one in another one waits with it", RED, GREEN, GREEN),
    ("the parent commits", RED, GREEN, YELLOW),
    ("one waits again", RED, GREEN, YELLOW),
    ("and waits no more", RED, WHITE, YELLOW))


def case_synced(screen, folder):
    """What a synchronized subsurface commits is seen with its parent's next state."""
    with Desk(screen, folder, []) as desk:
        desk.start("subs,at:50:60", "subs")
        shown(screen, 60, 70, RED)
        for number, (what, *colors) in enumerate(STEPS):
            until(f"step {number}", lambda: f"step {number}\n" in desk.wrote("subs.said"))
            time.sleep(0.1)
            said = desk.wrote("subs.said")
            until(f"step {number}, {what}: {colors}", lambda: colors == [
                screen.pixel(*place) for place in (LEFT, RIGHT, INNER)], 3)
            check(f"step {number}: a frame comes with the parent's",
                  ("frame" in said) == (number > 0))
            check(f"step {number}: what was never shown comes back: {said}",
                  ("released f0f000" in said) == (number > 3))
            (desk.folder / f"step{number + 1}").touch()
        until("a wrong order ends it", lambda: "disconnected" in desk.wrote("subs.said"))


def case_nested(screen, folder):
    """A nested weston runs, as one client."""
    with Desk(screen, folder, ["nest,at:20:40=weston --backend=wayland-backend.so "
                               "--width=640 --height=480"]):
        shown(screen, 200, 300)
        steady(screen, (20, 40, 300, 10), 1)
        screen.user("key Scroll_Lock")
        bar(screen, "xray")


def case_info(screen, folder):
    """wayland-info lists what the desk offers, and a screenshot is not in it."""
    with Desk(screen, folder, ["info,home:HOME=wayland-info > info; weston-screenshooter > shot "
                               "2>&1; echo over > over"]) as desk:
        until("it is over", lambda: desk.wrote("over"))
        names = [line.split("'")[1] for line in desk.wrote("info").splitlines()
                 if line.startswith("interface:")]
        check(f"these: {names}", sorted(names) == sorted([
            "wl_compositor", "wl_subcompositor", "wl_data_device_manager", "xdg_wm_base",
            "zxdg_decoration_manager_v1", "wl_output", "wl_seat", "wl_shm"]))
        check(f"refused: {desk.wrote('shot')}", desk.wrote("shot") != "")

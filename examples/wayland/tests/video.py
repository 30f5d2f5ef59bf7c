"""A video whose pictures are numbered, and which of them are seen."""

import subprocess
import time

from stage import until

SECONDS, BITS, RUN = 34, 11, 100
SHADE = "if(gte(Y\\,1)*mod(floor(N/pow(2\\,floor(X/4)))\\,2)\\,235\\,16)"
MAKE = ("ffmpeg -loglevel error -f lavfi -i nullsrc=s=44x4:r={1}:d={2} -vf "
        "\"geq=lum='if(Y\\,{3}\\,81)':cb='if(Y\\,128\\,90)':cr='if(Y\\,128\\,240)',"
        "scale=640:360:flags=neighbor,setsar=1\" -pix_fmt yuv420p {0}/numbers{1}.mp4")
PLAY = ("mpv {1} --no-audio --no-config --osd-level=0 --profile=sw-fast --vo=wlshm "
        "--term-status-msg='dropped ${{frame-drop-count}}' numbers{0}.mp4 > said 2>&1")


def make(folder, rate):
    """Makes the video: under a red beam eleven bars, each white where its bit of the picture's
    number is set."""
    subprocess.run(MAKE.format(folder, rate, SECONDS, SHADE), shell=True, check=True)


def dropped(said):
    """How many pictures mpv says that it could not give in time."""
    return int(said.split("dropped ")[-1].split()[0]) if "dropped" in said else 0


def is_red(word):
    """A word of the beam."""
    return word >> 16 > 200 and word >> 8 & 0xFF < 60 and word & 0xFF < 60


def place(screen):
    """Where the video is seen: its first column, a row of the bars, and its width; or None."""
    for y, row in enumerate(screen.part(0, 0, screen.width, screen.height)):
        red = [x for x, word in enumerate(row) if is_red(word)]
        if len(red) > RUN:
            wide = red[-1] + 1 - red[0]
            return red[0], y + wide * 9 // 32, wide
    return None


def number(screen, where):
    """The number of the picture that is seen there, or None."""
    x, y, wide = where
    row = screen.part(x, y, wide, 1)[0]
    bars = [row[(2 * bar + 1) * wide // (2 * BITS)] & 0xFF for bar in range(BITS)]
    if any(40 < bar < 210 for bar in bars):
        return None
    return sum((bar > 128) << at for at, bar in enumerate(bars))


def found(screen):
    """Waits for the video, and answers where it is."""
    until("the video", lambda: place(screen), 60)
    time.sleep(1)
    return place(screen)


def seen(screen, where, seconds):
    """How many pictures are seen there, for so long."""
    end, numbers = time.monotonic() + seconds, set()
    while time.monotonic() < end:
        numbers.add(number(screen, where))
        time.sleep(0.002)
    return len(numbers - {None})

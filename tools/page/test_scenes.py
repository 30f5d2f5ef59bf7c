"""Scenes that the tests make, and their frames."""
import expected
import model
from valid_cases import Case

SCREEN = "[screen]\nwidth = {}\nheight = {}\nbar = {}\n[input]\nscript = 'user.in'\n"
CLIENT = "[[client]]\nlabel = '{0}'\ndonation = 9999\nscript = '{0}.nit'\n"


def frames_along(setup, scene):
    """What a scene says and shows behind each line of a run by turns."""
    for who, line in model.rounds(setup.clients + [setup.user]):
        said = None
        if who < len(setup.clients):
            scene.drawings[who].do(line)
            if expected.is_call(line):
                said = scene.call(who, line)
        elif line not in ("shot", "phase"):
            said = scene.device(line)
        yield who, line, said, scene.frame()
    scene.finish()
    yield None, "final", None, scene.frame()


def scene_files(screen, scripts, user):
    """The files of a scene: its configuration `x.toml`, and the script of each actor."""
    config = SCREEN.format(*screen) + "".join(map(CLIENT.format, scripts))
    files = {f"{label}.nit": expected.text_of(lines) for label, lines in scripts.items()}
    return files | {"x.toml": config.encode(), "user.in": expected.text_of(user)}


def setup_from(files):
    return expected.setup_of(Case("made", ["turns", "x.toml"], files))


def moving_files():
    """Two clients whose views move, and a user who clicks and changes the mode."""
    first = ["buffer 14 8", "check 0 0 14 8 FF8000 0000FF", "view", "title 1 =x"]
    second = ["buffer 12 9", "fill 0 0 12 9 00C040", "view", "view", "place 2 20 10 9 9"]
    user = []
    for number in range(20):
        first.append(f"place 1 {number % 21 - 3} {number * 5 % 17 - 2} 16 9")
        second.append(f"place 1 {number * 7 % 25} {number % 13} 12 9")
        user += [f"motion {number} {number * 3 % 20}", "press 272", "release 272"]
        user += [f"press {70 if number % 2 else 99}"] * (number % 3)
        user += ["shot"] * (number % 10 == 9)
    return scene_files((32, 20, "true"), {"one": first, "two": second}, user)


def label_files(width, height, cover):
    """Two views of a width and a height, one that covers a part of the other, in both modes."""
    lines = ["buffer 30 12", "check 0 0 30 12 FFFFFF 123456", "view", "view", "title 1 =q",
             f"place 1 1 1 {width} {height}", f"place 2 {cover} 3 9 9"]
    keys = ["press 70", "press 99", "press 99", "motion 2 2", "press 272", "release 272",
            "press 70"]
    user = [f"motion {number} 0" for number in range(len(lines))] + keys
    return scene_files((26, 13, "false"), {"ab": lines}, user)


def refresh_files(rng):
    """A client that draws and has parts of its buffer loaded again."""
    lines = ["buffer 9 7", "view", f"place 1 {rng.randint(-3, 5)} {rng.randint(-3, 4)} 11 8",
             f"offset 1 {rng.randint(-2, 3)} {rng.randint(-2, 3)}", "view",
             f"place 2 {rng.randint(0, 9)} {rng.randint(0, 6)} 5 5"]
    for number in range(12):
        lines.append(f"check 0 0 9 7 {number:02X}0000 00{number:02X}FF")
        lines.append(f"refresh {rng.randint(-2, 8)} {rng.randint(-2, 6)} {rng.randint(0, 9)} "
                     f"{rng.randint(0, 7)}")
    return scene_files((14, 10, "false"), {"a": lines}, [])

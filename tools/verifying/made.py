"""Folders as runs leave them, made by the rules in Python, for the self-test of tools/verify.

The actors of a run on threads do their lines in an order by chance, each stroke at its own time.
"""
import model
import runs
from expected import generated, outputs_by_turns, outputs_in, setup_of, still_setup
from page.pixels import Scene as FastScene
from page.png import part_of
from page.sources import read_sources
from page.test_rules import read_png
from pictures import read_picture
from screen import Scene, header
from valid_cases import Case, still_case, valid_case
from verifying import sources

random_cases = runs.tool("clips-and-nests")
TILE = 16


class Made:
    """The words of a run, the files that it reads, and those that it leaves. On threads also the
    phase of each entry of the journal, and of each one of the clip list."""

    def __init__(self, words, files, puts, phases=(), clip_phases=()):
        self.words, self.files, self.puts = words, files, puts
        self.phases, self.clip_phases = phases, clip_phases


class Order:
    """An order that threads may take. Each actor has the parts of its phases; some are slow. The
    phases of the lines that make entries are kept."""

    def __init__(self, rng, parts):
        self.rng, self.parts, self.number, self.phases = rng, parts, 0, []

    def __iter__(self):
        for self.number in range(len(self.parts[0])):
            rows = [(list(actor[self.number])[::-1], self.rng.choice([1, 1, 5, 20]))
                    for actor in self.parts]
            while any(row for row, _ in rows):
                left = [(who, speed) for who, (row, speed) in enumerate(rows) if row]
                who = self.rng.choices([who for who, _ in left], [speed for _, speed in left])[0]
                line = rows[who][0].pop()
                if isinstance(line, str) and line.split(" ")[0] not in (*model.STROKES, "phase"):
                    self.phases.append(self.number)
                yield who, line


def parts_of(setup):
    return [model.by_phases(lines) for lines in [*setup.clients, setup.user]]


def made_beside(rng, words, files, setup, scene=None):
    """What a run on threads leaves."""
    order = Order(rng, parts_of(setup))
    puts = outputs_in(setup, order, scene)
    return Made(words, files, puts, order.phases)


# A run of each command.


def made_still(rng):
    case = still_case(rng)
    return Made(case.words, case.files, outputs_by_turns(still_setup(case)))


def made_turns(rng):
    case = valid_case(rng, rng.choice(["free", "layers", "phases"]))
    return Made(["turns", "c.toml"], case.files, outputs_by_turns(setup_of(case)))


def made_run(rng):
    case = valid_case(rng, rng.choice(["free", "layers"]))
    return made_beside(rng, ["run", "c.toml"], case.files, setup_of(case))


def made_capture(rng):
    made = made_run(rng)
    width, height, _ = read_picture(made.puts["final.ppm"])
    x, y = rng.randrange(width), rng.randrange(height)
    region = x, y, rng.randint(1, width - x), rng.randint(1, height - y)
    made.words = ["capture", "c.toml", *map(str, region)]
    pictures = [data for name, data in made.puts.items() if name.endswith(".ppm")]
    made.puts["capture.ncap"] = film_of(pictures, region)
    return made


def made_clip(rng):
    refused = True
    while refused:
        case, setup, clips, refused = random_cases.clip_case(rng)
    scene, said = Scene(setup.config), []
    order = Order(rng, parts_with(setup, clips))
    puts = outputs_in(setup, clip_calls_apart(order, said, scene), scene)
    puts["clip.txt"] = "".join(f"{line}\n" for line, _ in said).encode("latin-1")
    return Made(["clip", "c.toml"], case.files, puts, order.phases, [phase for _, phase in said])


def made_nested(rng):
    refused = True
    while refused:
        case, setup, journal, refused = random_cases.nested_case(rng)
    made = made_beside(rng, case.words, case.files, setup)
    made.puts["inner-journal.txt"] = journal
    return made


# Large screens.


def made_example(rng, folder, config):
    """A run of an example, on threads."""
    words, here = ["run", config], runs.TOP / "examples" / folder
    files = read_sources(here, words)
    setup = setup_of(Case("example", words, files))
    return made_beside(rng, words, files, setup, FastScene(setup.config))


def made_page(folder, words, shown):
    """A run of an example, by turns, which threads may bring about too. Of some pictures a page of
    the documents has an enlarged one, which is taken in place of the picture by the rules."""
    files = read_sources(runs.TOP / "examples" / folder, words)
    run = sources.Run(words, files)
    puts = outputs_by_turns(run.setup, FastScene(run.setup.config))
    if run.inner:
        puts["inner-journal.txt"] = run.inner["journal.txt"]
    screen = run.setup.config["screen"]
    for name, picture in shown.items():
        pixels = read_png((runs.TOP / "docs" / picture).read_bytes())
        puts[name] = shrunk(pixels, screen["width"], screen["height"])
    return Made(words, files, puts)


def shrunk(pixels, width, height):
    """A picture of this size, by one pixel of each square of an enlarged one."""
    scale = round((len(pixels) // (3 * width * height)) ** 0.5)
    across = 3 * scale * width
    kept = (pixels[at : at + 3] for row in range(0, scale * height, scale)
            for at in range(row * across, (row + 1) * across, 3 * scale))
    return header(width, height) + b"".join(kept)


def made_gen(rng):
    """A generated run, whose shot is wrong: nothing is loaded before it, which would take long."""
    number = rng.randrange(1000000000)
    setup, files = generated(number)
    scene = FastScene(setup.config, loads=False)
    order = loading_from_shot(Order(rng, parts_of(setup)), scene)
    return Made(["gen", str(number)], {}, files | outputs_in(setup, order, scene))


def loading_from_shot(order, scene):
    for who, line in order:
        scene.loads |= line == "shot"
        yield who, line


# Clip calls.


def parts_with(setup, clips):
    """The parts of the phases, with each client's clip calls at their ends, as tuples."""
    parts = parts_of(setup)
    for client, lines in zip(parts, clips):
        for part, calls in zip(client, model.by_phases(lines)):
            end = len(part) - (part[-1:] == ["phase"])
            part[end:end] = [(line,) for line in calls if line != "phase"]
    return parts


def clip_calls_apart(order, said, scene):
    """The order without its clip calls. Their entries are added to `said`, each with its phase, as
    the scene stands then."""
    text = None
    for who, line in order:
        if isinstance(line, str):
            yield who, line
            continue
        is_focused = scene.focused is not None and scene.focused is scene.sessions[who]
        if not is_focused:
            reply = "not-focused"
        elif line[0] == "paste":
            reply = "empty" if text is None else f"pasted ={text}"
        else:
            reply, text = "copied", line[0].split("=", 1)[1]
        said.append((f"clip {len(order.phases)} {who} {reply} < {line[0]}", order.number))


# Films.


def is_new(before, now):
    return before != now


def film_of(pictures, region, is_put=is_new, longest=256):
    """The film of a region of pictures. A film has only tiles that are new, and runs as long as
    they can be."""
    _, _, width, height = region
    stream = b"NCAP" + width.to_bytes(2, "little") + height.to_bytes(2, "little")
    before = bytes(3 * width * height)
    for picture in pictures:
        across, _, pixels = read_picture(picture)
        now = part_of(pixels, across, region)
        pairs = zip(tiles_of(before, width, height), tiles_of(now, width, height))
        tiles = [number.to_bytes(2, "little") + runs_of(tile, longest)
                 for number, (old, tile) in enumerate(pairs) if is_put(old, tile)]
        stream += b"\1" + len(tiles).to_bytes(2, "little") + b"".join(tiles)
        before = now
    return stream + b"\0"


def tiles_of(pixels, width, height):
    """The pixels of each tile, by rows."""
    for top in range(0, height, TILE):
        for left in range(0, width, TILE):
            rect = left, top, min(TILE, width - left), min(TILE, height - top)
            yield part_of(pixels, width, rect)


def runs_of(tile, longest):
    """A tile's pixels as runs of equal ones."""
    stream, count = b"", 0
    for at in range(0, len(tile), 3):
        count += 1
        if tile[at : at + 3] != tile[at + 3 : at + 6] or count == longest:
            stream += bytes([count - 1]) + tile[at : at + 3]
            count = 0
    return stream


MAKERS = {"still": made_still, "turns": made_turns, "run": made_run, "clip": made_clip,
          "capture": made_capture, "nested": made_nested}

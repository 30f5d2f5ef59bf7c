"""The checks of tools/edges, and what they need of the machine."""
import re
import sys

from edge_lanes import Check

# What a check may need: a command that ends well where it is there, and the packages of Debian that
# bring it. Without one, none that is new enough is known.
NEEDS = {
    "make": ("command -v make", "make"),
    "cc": ("command -v cc", "gcc libc6-dev"),
    "c++": ("command -v c++", "g++"),
    "binutils": ("command -v ld && command -v objcopy", "binutils"),
    "git": ("command -v git", "git"),
    "pkg-config": ("command -v pkg-config", "pkg-config"),
    "valgrind": ("command -v valgrind", "valgrind"),
    "cargo 1.74 with clippy and rustfmt":
        ("cargo --version && cargo clippy --version && cargo fmt --version", ""),
    "SDL2": ("pkg-config --exists sdl2", "libsdl2-dev"),
    "Wayland": ("pkg-config --exists wayland-server wayland-client wayland-scanner "
                "wayland-protocols xkbcommon",
                "libwayland-dev wayland-protocols libxkbcommon-dev"),
    "Xvfb": ("command -v Xvfb", "xvfb"),
    "xdotool": ("command -v xdotool", "xdotool"),
    "import": ("command -v import", "imagemagick"),
}
C = ("make", "cc", "binutils")
# What checks of embed need beside a C compiler.
OF_EMBED = {"header": ("c++",), "valgrind": ("valgrind",), "install": ("pkg-config",),
            "rust": ("cargo 1.74 with clippy and rustfmt",)}
# How much of the endless ones is enough here.
FEW = ["RUNS=300", "CALLS=300000", "STEPS=1000000"]
FEWER = {"valgrind": ["CALLS=20000"]}
# Those of embed that look at time.
TIMED = {"endless"}
# The tools whose tests take the longest, which begin first.
LONG = ["test-starter", "release", "verify"]
# The example hosts that have a test, what it needs, and the cases that are left out: they measure
# time, or have little of it, and want a machine that does nothing else.
HOSTS = {"window": ((*C, "pkg-config", "SDL2", "Xvfb", "xdotool", "import"),
                    {"flood", "crowd", "share", "between", "linger"})}
# The one that is built alone: its test wants programs of others, and a machine of its own.
BUILT = {"wayland": (*C, "pkg-config", "SDL2", "Wayland")}


def of_embed(top, nit_c):
    """The checks of embed: those for which its Makefile has a rule."""
    text = (top / "embed" / "Makefile").read_text(encoding="utf8")
    archive = [f"NIT_C={nit_c}"] if nit_c else []
    for name in re.findall(r"^check-([\w-]+):", text, re.M):
        words = ["make", "-C", "embed", f"check-{name}", *FEWER.get(name, FEW), *archive]
        yield Check(f"embed/{name}", words, 400, (*C, *OF_EMBED.get(name, ())), "archive",
                    name in TIMED, name in TIMED)


def cases_of(folder):
    """The cases of an example host's test."""
    texts = (it.read_text(encoding="utf8") for it in sorted((folder / "tests").glob("*.py")))
    return re.findall(r"^def case_(\w+)", "".join(texts), re.M)


def of_hosts(top):
    for name, (needs, left_out) in HOSTS.items():
        cases = [it for it in cases_of(top / "examples" / name) if it not in left_out]
        words = ["make", "-C", f"examples/{name}", "check", f"CASES={' '.join(cases)}"]
        yield Check(f"examples/{name}", words, 400, needs, "archive", True, True)
    for name in filter(lambda name: (top / "examples" / name).is_dir(), BUILT):
        words = ["make", "-C", f"examples/{name}"]
        yield Check(f"examples/{name}", words, 400, BUILT[name], "archive")


def of_tools(top, program):
    """The self-test of each tool, and of embed's commands. They press Ctrl-C and time answers."""
    names = [it.name for it in (top / "tools").iterdir() if it.is_file() and not it.suffix]
    for name in sorted([*names, "embed"], key=lambda name: (name not in LONG, name)):
        words = [sys.executable, "tools/selftest", "--program", program, name]
        yield Check(f"tools/{name}", words, 600, (*C, "git"), looks_at_time=True)


def all_checks(top, nit_c, program):
    """All of them, the long ones first. The archive of nit_c is built over what `rt ci` has built,
    or where none is named, as `make -C embed` does."""
    build = [sys.executable, "tools/gate_archive.py", nit_c] if nit_c else ["make", "-C", "embed"]
    read = [sys.executable, "-m", "compileall", "-q", "bin", "tools", "embed", "examples"]
    return [Check("archive", build, 900, C), *of_tools(top, program), *of_embed(top, nit_c),
            *of_hosts(top), Check("python", read)]

"""Builds the library over the crates that `rt ci` has built in this tree, and proves none of these
again. tools/edges starts it.

usage: tools/gate_archive.py ARCHIVE

ARCHIVE is the archive of nit_c, which is made on the way. `rt ci` makes none, so that crate alone
is proved once more. The status is 1 where `rt ci` has left no crate to build it over.
"""
import runs  # first: it looks at the Python
import subprocess
import sys
from pathlib import Path

from crates import TOP, parts_of, uses_in
from machine import processors
from starter import output_of

CRATE = "nit_c"


def library_of(part):
    return part.library() / f"{part.name}.rlib"


def externs(kit, top):
    """The libraries that the crate names: those of the toolchain, and ours."""
    ours = {it.name for it in top.uses}
    uses = uses_in((TOP / "crates.txt").read_text(encoding="utf8"))[CRATE]
    yield from ((name, kit / "rlibs" / f"{name}.rlib") for name in ["std", *uses]
                if name not in ours)
    yield from ((it.name, library_of(it)) for it in top.uses)


def words_of_build(kit, top, archive):
    """The build as the toolchain's `rt lib` words it."""
    words = [kit / "bin" / "rattle", "build", "--crate-name", CRATE, "src/lib.rt",
             "--crate-type", "staticlib", "--backend", "llvm", "--toolchain", kit / "toolchain",
             "--antt-project", kit / "rattle" / "logic" / "antt-project.json",
             "--logic-built", kit / "logic_built", "--links", f"{CRATE}=",
             "--jobs", str(min(2, processors())), "-o", archive]
    for name, library in externs(kit, top):
        words += ["--extern", f"{name}={library}"]
    for folder in [kit / "rlibs", *(it.library() for it in top.below)]:
        words += ["-L", f"dependency={folder}"]
    return words


def main(words):
    if len(words) != 1:
        raise runs.WrongWords("one word is wanted, the archive")
    archive = Path(words[0]).resolve()
    page = output_of("rt", "doc")
    if not page:
        print("there is no command rt")
        return 1
    kit, top = Path(page).parent, parts_of(CRATE, output_of("rt", "version"))[-1]
    lacking = [it.name for it in top.below if not (library_of(it) / "format").is_file()]
    if lacking:
        print(f"not built by rt ci: {', '.join(lacking)}")
        return 1
    archive.parent.mkdir(parents=True, exist_ok=True)
    ended = subprocess.run(words_of_build(kit, top, archive), cwd=top.folder, check=False)
    if ended.returncode:
        return ended.returncode
    made = ["make", "-C", TOP / "embed", f"NIT_C={archive}", f"KIT={kit}"]
    return subprocess.run(made, check=False).returncode


if __name__ == "__main__":
    runs.command(main, __doc__)

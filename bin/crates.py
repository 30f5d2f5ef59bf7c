"""The crates that the program and the library are made of, and which are built as they stand."""
import hashlib
import os
from pathlib import Path
from typing import NamedTuple

TOP = Path(__file__).resolve().parent.parent
KEPT = TOP / "out" / "build"
PROGRAM = TOP / "crates" / "nitpicker" / "out" / "nitpicker"
RECORD = KEPT / "built"
SOURCES = ("src", "specs", "proofs")


class Part:
    """A crate of the program: those of ours that it uses, all below it, and its sources."""

    def __init__(self, name, uses):
        self.name, self.uses, self.folder = name, uses, TOP / "crates" / name
        self.below = sorted({part for use in uses for part in [use, *use.below]},
                            key=lambda part: part.name)
        self.length = self.chain = self.sum = None

    def files(self):
        """Its sources, by their names within the folder."""
        return sorted(os.path.relpath(os.path.join(at, name), self.folder)
                      for kind in SOURCES for at, _, names in os.walk(self.folder / kind)
                      for name in names)

    def look(self, toolchain):
        """Takes the length of its sources, and a sum of all that it is built from."""
        told, self.length = hashlib.sha256(toolchain.encode()), 0
        for name in self.files():
            data = (self.folder / name).read_bytes()
            self.length += len(data)
            told.update(repr((name, data)).encode())
        told.update(repr([use.sum for use in self.uses]).encode())
        self.sum = told.hexdigest()

    def library(self):
        return self.folder / "out" / "rlib"

    def is_built(self):
        """Whether its library was built here from what stands there now."""
        return self.library().is_dir() and text_of(KEPT / f"{self.name}.sum") == self.sum

    def note_built(self):
        (KEPT / f"{self.name}.sum").write_text(self.sum, encoding="utf8")


def text_of(path):
    return path.read_text(encoding="utf8") if path.is_file() else None


def uses_in(text):
    """What each crate stands on, by crates.txt."""
    lines = (line.partition("#")[0].partition(":") for line in text.splitlines())
    return {head.split()[0]: below.split() for head, _, below in lines if head.strip()}


def parts_of(name, toolchain):
    """The parts of a program, lowest first and itself last, each with the length of the chain that
    waits for it."""
    uses, parts = uses_in((TOP / "crates.txt").read_text(encoding="utf8")), {}

    def add(it):
        if it in uses and it not in parts:
            for below in uses[it]:
                add(below)
            parts[it] = Part(it, [parts[below] for below in uses[it] if below in parts])

    add(name)
    for part in parts.values():
        part.look(toolchain)
    for part in reversed(parts.values()):
        above = [it.chain for it in parts.values() if part in it.uses]
        part.chain = part.length + max(above, default=0)
    return list(parts.values())


class Product(NamedTuple):
    """What is built: its word in the note, its file, and the note, which tells from what."""

    word: str
    file: Path
    note: Path


THE_PROGRAM = Product("program", PROGRAM, RECORD)
LIBRARY = Product("library", TOP / "crates" / "nit_c" / "out" / "libnit_c.a",
                  TOP / "embed" / "out" / "built")


def sum_of(path):
    return hashlib.sha256(path.read_bytes()).hexdigest() if path.is_file() else "none"


def record_of(parts, toolchain, product):
    """What tells that it was built from these parts: a word and a value a line."""
    lines = [("toolchain", toolchain), ("sources", parts[-1].sum),
             (product.word, sum_of(product.file))]
    return "".join(f"{word} {value}\n" for word, value in
                   [*lines, *(("part", part.name) for part in parts)])


def is_current(parts, toolchain, product=THE_PROGRAM):
    """Whether what is there was built here from what stands there now."""
    return product.file.is_file() and text_of(product.note) == record_of(parts, toolchain, product)


def note_product(parts, toolchain, begun, product=THE_PROGRAM):
    """Notes what it was built from. A source that is newer than the note is another one, so the
    note is as old as the begin of the build."""
    product.note.write_text(record_of(parts, toolchain, product), encoding="utf8")
    os.utime(product.note, (begun, begun))

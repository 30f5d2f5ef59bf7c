#!/usr/bin/env python3
"""Compares nitpicker.h with the library: with the sources of its exports, and with the archive.

usage: embed/tests/exports.py [--header HEADER] [--sources FOLDER] [--archive ARCHIVE]
                              [--shared OBJECT] [--selftest]

HEADER is embed/include/nitpicker.h and FOLDER crates/nit_c/src where none is given. ARCHIVE, and
OBJECT, a shared one, are compared where they are given. What is compared:

- each function of the header is an export of the sources, and the other way round: its name, the
  names of its arguments in their order, their types, and what it answers. A `Global` takes no
  place; a slice is a pointer and a length; the length may have any name; a reader may take there
  what the header has as const.
- the functions that read, and no others, take a const server.
- the names of those that open end in the header's version.
- each struct of the header that is an argument or an answer is a `#[repr(C)]` struct of the
  sources: the names and types of its fields in their order, but for ghost ones. An array may be as
  many fields there, of any names. C's compiler says by `_Static_assert` that its size and the place
  of each field are those that Rust's rules for `#[repr(C)]` give.
- each struct of the header has the bytes of its fields, and no other: so says `_Static_assert` too.
- each number of an enum of the header is a constant of the sources, of that name without NIT_ and
  of that value.
- nit_text has the name of each answer.
- `raw.rs` of embed/rust says the same of functions, structs and those numbers that it has.
- the archive defines the functions of the header and no other name that another object sees, and
  wants nothing but malloc, realloc, free, memcpy, memmove, memset, memcmp and bcmp.
- so does the shared object, but for what the compiler wants of a C library where that has it.

--selftest compares small headers and sources that differ, one difference at a time, which has to be
found. The status is 1 where something differs.
"""
import os
import sys

HERE = os.path.dirname(os.path.realpath(__file__))
sys.path.insert(0, os.path.join(HERE, os.pardir, os.pardir, "tools"))

import runs  # first: it looks at the Python
import argparse
import re
import subprocess
import tempfile
from pathlib import Path

from exports_read import Binding, Header, Sources, asserts, lengths_in, named_bytes
from exports_samples import BINDING, BINDINGS, CHANGES, HEADER, OBJECTS, SOURCES

READERS = {"nit_state", "nit_seat_state", "nit_account", "nit_label", "nit_view_at", "nit_title_at",
           "nit_owner", "nit_shown", "nit_held", "nit_entry", "nit_seat_for"}
WANTED = {"malloc", "realloc", "free", "memcpy", "memmove", "memset", "memcmp", "bcmp"}


# What differs.


def both(what, ours, theirs):
    """The names on both sides. Each that is on one side alone is said."""
    faults = [f"{what} {name}: in the header alone" for name in sorted(ours.keys() - theirs.keys())]
    faults += [f"{what} {name}: in the sources alone"
               for name in sorted(theirs.keys() - ours.keys())]
    return sorted(ours.keys() & theirs.keys()), faults


def is_taken(kind, theirs, is_read):
    """Whether an argument of the header is one of the sources."""
    return kind == theirs or is_read and kind == f"const {theirs}"


def function_faults(header, sources):
    names, faults = both("function", header.functions, sources.functions)
    for name in names:
        (answer, ours), (theirs_answer, theirs) = header.functions[name], sources.functions[name]
        is_read = name in READERS and not isinstance(sources, Binding)
        if answer != theirs_answer:
            faults.append(f"{name} answers {answer} and not {theirs_answer}")
        if len(ours) != len(theirs) or not all(
                is_taken(kind, other, is_read) for (kind, _), (other, _) in zip(ours, theirs)):
            faults.append(f"{name} takes {ours} and not {theirs}")
        for (_, word), (_, other) in zip(ours, theirs):
            if other is not None and word != other:
                faults.append(f"{name} takes {word} where it is to take {other}")
    return faults


def reader_faults(header):
    const = {name for name, (_, pairs) in header.functions.items()
             if pairs[0][0] == "const struct nit_server *"}
    return [f"{name} takes another server than it is to take"
            for name in sorted(const ^ (READERS & header.functions.keys()))]


def version_faults(header):
    version = f"_{header.defined.get('NIT_VERSION')}"
    return [f"{name} is not of version{version}" for name in sorted(header.functions)
            if name.startswith("nit_open") and not name.endswith(version)]


def text_faults(header):
    return [f"nit_text has no {name}" for name in header.answers if name not in header.texts]


def crossing(header):
    """The structs that are arguments or answers, and those inside them."""
    kinds = [kind for answer, pairs in header.functions.values()
             for kind in (answer, *(kind for kind, _ in pairs))]
    names = set()
    while kinds:
        match = re.fullmatch(r"(?:const )?struct (\w+)(?: \*)?", kinds.pop())
        if match and match[1] not in names and match[1] in header.structs:
            names.add(match[1])
            kinds += [kind for kind, _, _ in header.structs[match[1]]]
    return names


def compiler():
    return os.environ.get("CC", "cc")


def with_arrays(ours, theirs):
    """The fields of the sources, with an array where the header has one for as many of them."""
    fields, rest = [], list(theirs)
    for kind, name, count in ours:
        if count and [(other, number) for other, _, number in rest[:count]] == [(kind, 0)] * count:
            fields.append((kind, name, count))
            del rest[:count]
        elif rest:
            fields.append(rest.pop(0))
    return fields + rest


def struct_faults(header, sources, folder):
    ours = {name: header.structs[name] for name in crossing(header)}
    names, faults = both("struct", ours, sources.structs)
    theirs = {name: with_arrays(ours[name], sources.structs[name]) for name in names}
    faults += [f"struct {name} is {ours[name]} and not {theirs[name]}"
               for name in names if ours[name] != theirs[name]]
    if not faults:
        command = [compiler(), "-std=c11", "-fsyntax-only", "-I", folder, "-x", "c", "-"]
        ended = subprocess.run(command, input=asserts(theirs, names) + named_bytes(header),
                               text=True, capture_output=True, check=False)
        if ended.returncode:
            faults += re.findall(r"error: (.*)", ended.stderr) or [f"cc: {ended.stderr.strip()}"]
    return faults


def missing_constants(header, sources):
    return [f"constant {name}: in the header alone" for name in sorted(header.constants)
            if name.removeprefix("NIT_") not in sources.constants]


def constant_faults(header, sources):
    pairs = {f"NIT_{name}": value for name, value in sources.constants.items()}
    ours = {**header.defined, **header.constants}
    return [f"{name} is {ours[name]} and not {pairs[name]}"
            for name in sorted(ours.keys() & pairs.keys()) if ours[name] != pairs[name]]


def symbol_faults(header, what, words, ignored=""):
    """What is not as it should be of the names that `nm` tells with these words."""
    said = subprocess.run(["nm", *words], capture_output=True, text=True, check=True).stdout
    symbols = [it for it in re.findall(r"^[0-9a-f ]{16} ([A-Za-z]) ([^\s@]+)\S*$", said, re.M)
               if it[0] not in ignored]
    defined = {name for kind, name in symbols if kind != "U"}
    wanted = {name for kind, name in symbols if kind == "U"} - defined
    faults = [f"{what}: {name} is missing" for name in sorted(header.functions.keys() - defined)]
    faults += [f"{what}: {name} is defined" for name in sorted(defined - header.functions.keys())]
    return faults + [f"{what}: {name} is wanted"
                     for name in sorted(wanted - WANTED - {"_GLOBAL_OFFSET_TABLE_"})]


def archive_faults(header, archive):
    return symbol_faults(header, "archive", ["-g", archive])


def shared_faults(header, shared):
    """Weak names (`w`) are wanted only where another object has them: the compiler's own."""
    return symbol_faults(header, "shared", ["-D", shared], "w")


def source_text(folder):
    return "\n".join(path.read_text() for path in sorted(Path(folder).rglob("*.rt")))


def lengths_below(folder):
    """The lengths that the crates beside this one name."""
    crates = Path(folder).resolve().parents[1]
    return lengths_in("\n".join(path.read_text() for path in crates.glob("*/src/**/*.rt")))


def code_faults(ours, theirs, folder):
    faults = function_faults(ours, theirs) + struct_faults(ours, theirs, folder)
    return faults + constant_faults(ours, theirs)


def faults_of(header, theirs, archive=None, shared=None, binding=None):
    """What differs, and what was compared."""
    ours = Header(header.read_text())
    faults = code_faults(ours, theirs, header.parent) + missing_constants(ours, theirs)
    faults += reader_faults(ours) + version_faults(ours) + text_faults(ours)
    if binding:
        faults += [f"raw.rs: {fault}"
                   for fault in code_faults(ours, Binding(binding), header.parent)]
    faults += archive_faults(ours, archive) if archive else []
    faults += shared_faults(ours, shared) if shared else []
    constants = sum(f"NIT_{name}" in ours.constants for name in theirs.constants)
    return faults, (f"functions {len(ours.functions)}, structs {len(crossing(ours))}, "
                    f"constants {constants}")


# The test of this tool.

def is_said(faults, has):
    """Whether something is said of it, and nothing where nothing is to be."""
    return not faults if has is None else any(has in fault for fault in faults)


def selftest():
    """What is not found of the changes, or is found where nothing is changed."""
    with tempfile.TemporaryDirectory(prefix="exports-") as top:
        header, object_file = Path(top) / "nitpicker.h", Path(top) / "part.o"
        for old, new, has in [("", "", None), *CHANGES]:
            header.write_text(HEADER.replace(old, new, 1))
            faults, _ = faults_of(header, Sources(SOURCES.replace(old, new, 1)))
            if not is_said(faults, has):
                yield f"{new!r} in the place of {old!r}: it says {faults} and not {has!r}"
        header.write_text(HEADER)
        for old, new, has in [("", "", None), *BINDINGS]:
            faults, _ = faults_of(header, Sources(SOURCES), binding=BINDING.replace(old, new, 1))
            if not is_said(faults, has):
                yield f"{new!r} in the place of {old!r}: it says {faults} and not {has!r}"
        for text, has in OBJECTS:
            for words, look in (["-c"], archive_faults), (["-shared", "-fPIC"], shared_faults):
                command = [compiler(), "-w", *words, "-x", "c", "-", "-o", object_file]
                subprocess.run(command, input=text, text=True, check=True)
                faults = look(Header(HEADER), object_file)
                if not is_said(faults, has):
                    yield f"{text}: {look.__name__} says {faults} and not {has!r}"


def main(words):
    top = Path(__file__).resolve().parents[2]
    reader = argparse.ArgumentParser(prog="embed/tests/exports.py", add_help=False,
                                     usage=runs.usage_of(__doc__)[7:])
    reader.add_argument("--header", type=Path, default=top / "embed" / "include" / "nitpicker.h")
    reader.add_argument("--sources", default=top / "crates" / "nit_c" / "src")
    reader.add_argument("--archive")
    reader.add_argument("--shared")
    reader.add_argument("--selftest", action="store_true")
    given = reader.parse_args(words)
    if given.selftest:
        faults, compared = list(selftest()), f"changes {len(CHANGES + BINDINGS + OBJECTS)}"
    else:
        text = source_text(given.sources)
        if not text:
            raise runs.WrongWords(f"{given.sources}: no sources")
        binding = (top / "embed" / "rust" / "src" / "raw.rs").read_text()
        theirs = Sources(text, lengths_below(given.sources))
        faults, compared = faults_of(given.header, theirs, given.archive, given.shared, binding)
    print("".join(f"{fault}\n" for fault in faults), end="")
    print(f"exports: {compared}, differences {len(faults)}")
    return 1 if faults else 0


if __name__ == "__main__":
    runs.command(main, __doc__)

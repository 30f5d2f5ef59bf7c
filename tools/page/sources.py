"""The files that a command reads, and the command done in a folder of its own."""
import os
import shutil
import tempfile
from pathlib import Path

import expected
import runs
from reasons import faults
from valid_cases import Case

CONFIGS = {"turns": 1, "run": 1, "audit": 1, "clip": 1, "capture": 1, "nested": 2}
OTHERS = {"still": slice(3, 4), "audit": slice(2, 3)}


class Fault(Exception):
    """Why there is no page."""


def named_by(words):
    """The configurations that a command names, and the other files."""
    command = words[0] if words else ""
    configs = words[1 : 1 + CONFIGS.get(command, 0)]
    return configs, words[OTHERS.get(command, slice(0))]


def scripts_of(data):
    """The scripts that a configuration names. One that cannot be read names none."""
    try:
        table = expected.table_of(data.decode())
        parts = [*table["client"], table["input"]]
        return [part["script"] for part in parts if isinstance(part["script"], str)]
    except (UnicodeDecodeError, faults.Fault, KeyError, TypeError):
        return []


def read_sources(folder, words):
    """The bytes of each file that the command is to read and that can be read, by its name."""
    files = {}

    def read(name):
        try:
            files[os.path.normpath(name)] = (Path(folder) / name).read_bytes()
        except (OSError, ValueError):
            return b""
        return files[os.path.normpath(name)]

    configs, others = named_by(words)
    for config in configs:
        for script in scripts_of(read(config)):
            read(script)
            if words[0] == "clip":
                read(script + ".clip")
    for name in others:
        read(name)
    return files


def climb(name):
    """How many folders a name goes up."""
    return Path(os.path.normpath(name)).parts.count("..")


def run_apart(program, words, files):
    """Does the command in a temporary folder with these files. What lies elsewhere stays there."""
    near = {name: data for name, data in files.items() if not os.path.isabs(name)}
    top = Path(tempfile.mkdtemp(prefix="nitpicker-run-"))
    folder = top.joinpath(*["in"] * (1 + max(map(climb, near), default=0)))
    try:
        folder.mkdir(parents=True)
        for name, data in near.items():
            path = Path(os.path.normpath(folder / name))
            path.parent.mkdir(parents=True, exist_ok=True)
            path.write_bytes(data)
        return runs.run(program, words, folder)
    finally:
        shutil.rmtree(top)


def setup_of(words, files):
    """The configuration and the scripts of a command that the program has done."""
    return expected.setup_by_words(Case("show", words, files))

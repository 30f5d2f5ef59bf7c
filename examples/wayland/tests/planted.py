#!/usr/bin/env python3
"""Plants bugs in a copy of the host, one at a time, and says which the test finds.

    planted.py NITPICKER HEADER      the folders of the library and of its header
    planted.py NITPICKER HEADER BUG ..

Status 0 where each is found, by the case that is to find it."""

from pathlib import Path
import shutil
import subprocess
import sys
import tempfile

HERE = Path(__file__).resolve().parent
ROOT = HERE.parent.parent.parent
BUGS = {
    "clients are served in kill mode": (
        "frozen", "desk.c", "    if (!frozen())\n        wl_event_loop_dispatch",
        "    wl_event_loop_dispatch"),
    "a focus is never lost": (
        "untold", "input.c", "client->focused = focused;", "client->focused |= focused;"),
    "a drag begins without a button": (
        "drags", "drag.c", "surface->client->buttons > 0 && ", ""),
    "each client is told of all": (
        "untold", "input.c", "        tell(client, &reply.event);",
        "        for (struct client *any = desk.clients; any < desk.clients + SEATS; any++)\n"
        "            if (any->wl)\n                tell(any, &reply.event);"),
    "modifiers are another client's": (
        "untold", "keyboard.c", "struct xkb_state *keys = client->keys;",
        "struct xkb_state *keys = desk.clients[client == desk.clients].keys;"),
    "serials are of one counter": (
        "untold", "desk.h", "{ return ++client->serial; }",
        "{ return client->serial = ++desk.clients[SEATS - 1].serial; }"),
    "frames come as soon as they are asked for": (
        "frames", "desk.c", "    if (now() < desk.tick)\n        return;\n", ""),
    "the clipboard is set without the focus": (
        "misdeeds", "clip.c", "SET_SELECTION && client->focused;", "SET_SELECTION;"),
    "the clipboard is read without the focus": (
        "clipboard", "clip.c", "    if (client_of(self)->focused)\n", ""),
    "the porter hands each descriptor on": (
        "lingering", "porter.c", "if (fcntl(file, F_GET_SEALS) >= 0)",
        "if (fcntl(file, F_GETFD) >= 0)"),
    "rows may overlap": (
        "misdeeds", "shm.c", "like.stride / 4 < like.w", "like.stride < 4"),
    "surfaces are not counted": (
        "misdeeds", "surfaces.c", "wl_list_length(&client->surfaces) < SURFACES", "true"),
    "who is locked out comes again": (
        "kill", "clients.c", "    program_end(program);\n}", "    program_forget(program);\n}"),
    "a window that is let go of has no edge any more": (
        "edges", "drag.c", "dragged != surface && surface->heard == surface->asked)",
        "dragged != surface)"),
    "a subsurface does not wait for its parent": (
        "synced", "surfaces.c", "bool synced = surface_is_synced(surface);",
        "bool synced = false;"),
    "a sandbox has the network": (
        "sandbox", "sandbox.c", '"--unshare-all",', '"--unshare-all", "--share-net",'),
}


class Copy:
    """A copy of the host, built."""

    def __init__(self, folder, library, header):
        self.place = Path(folder) / "examples" / "wayland"
        self.words = ["make", "-s", "-C", str(self.place), f"NITPICKER={library}",
                      f"HEADER={header}", "FLAGS=-std=c11 -O1 -D_GNU_SOURCE"]
        shutil.copytree(HERE.parent, self.place,
                        ignore=shutil.ignore_patterns("out", "__pycache__"))
        shutil.copytree(ROOT / "examples" / "shared", Path(folder) / "examples" / "shared")
        subprocess.run(self.words, check=True)

    def finds(self, name):
        """Plants a bug, and answers whether its case finds it. The bug is taken out again."""
        case, file, old, new = BUGS[name]
        text = (self.place / file).read_text()
        if text.count(old) != 1:
            sys.exit(f"planted: {name}: {file} has it {text.count(old)} times")
        (self.place / file).write_text(text.replace(old, new))
        subprocess.run(self.words, check=True)
        found = subprocess.run([sys.executable, "test.py", "out", case], cwd=self.place,
                               stdout=subprocess.PIPE, stderr=subprocess.STDOUT, text=True,
                               check=False)
        (self.place / file).write_text(text)
        wrong = [line for line in found.stdout.splitlines() if ": WRONG: " in line]
        print(f"{'found' if wrong else 'NOT FOUND'}: {name}: {wrong or case}", flush=True)
        return bool(wrong)


def main():
    """Plants all, or some."""
    words = sys.argv[1:]
    if len(words) < 2 or any(name not in BUGS for name in words[2:]):
        print(__doc__)
        print("bugs:", *BUGS, sep="\n    ")
        return 0 if words[:1] == ["--help"] else 2
    library, header = (Path(word).resolve() for word in words[:2])
    with tempfile.TemporaryDirectory() as folder:
        copy = Copy(folder, library, header)
        missed = [name for name in words[2:] or BUGS if not copy.finds(name)]
    print(f"planted: {len(missed)} not found")
    return missed != []


if __name__ == "__main__":
    try:
        sys.exit(main())
    except KeyboardInterrupt:
        sys.exit(130)

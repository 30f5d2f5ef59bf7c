"""Programs and libraries that stand in for our own in tools/selftest, right ones and wrong ones."""
import re
import shlex
import shutil
import subprocess

# Says what a script's picture takes, and puts it, in the way that its name tells.
PUTTING = r"""
#include <errno.h>
#include <fcntl.h>
#include <stdlib.h>
#include <stdio.h>
#include <string.h>
#include <unistd.h>

static int say(const char *line, int status) {
    return write(1, line, strlen(line)) == (ssize_t)strlen(line) ? status : status ? status : 4;
}

int main(void) {
    char *volatile room = malloc(100);
    if (!room)
        return say("nitpicker: no memory\n", NO_MEMORY);
    memset(room, 'x', 100);
    int file = open(PART, O_WRONLY | O_CREAT | O_TRUNC | O_NONBLOCK, 0600);
    if (file < 0)
        return say("nitpicker: final.ppm: write fault\n", 4);
    int is_put = write(file, room, 100) == 100 && !close(file);
    is_put = is_put && (!strcmp(PART, "final.ppm") || !rename(PART, "final.ppm"));
    if (!is_put && strcmp(PART, "final.ppm"))
        unlink(PART);
    return is_put ? say("nitpicker: clients 1 entries 3 frames 1\n", 0)
                  : say("nitpicker: final.ppm: write fault\n", 4);
}
"""


def executable(path, text):
    path.write_text(text)
    path.chmod(0o755)
    return str(path)


def putting(folder, name, part="final.ppm.1.part", no_memory=7):
    """A program that puts `final.ppm` by way of another name, or at once, which is wrong."""
    source, path = folder / f"{name}.c", folder / name
    source.write_text(PUTTING)
    command = ["gcc", "-O1", f'-DPART="{part}"', f"-DNO_MEMORY={no_memory}", "-o", path, source]
    subprocess.run(command, check=True)
    return str(path)


def saying(folder, name, line):
    """A program that says a line, whatever its words are. `$$` is another number at each start."""
    return executable(folder / name, f'#!/bin/sh\necho "{line}"\n')


def wrapped(folder, name, program, changed="", behind=":"):
    """The program itself. Its line goes through a command, and another one is done behind it."""
    return executable(folder / name, f"""#!/bin/sh
said=$({shlex.quote(program)} "$@"; echo "status $?")
status=${{said##*status }}
printf '%s' "${{said%status *}}" {"| " + changed if changed else ""}
{behind}
exit "$status"
""")


def wrong_line(folder, program):
    """The program, but for a number in its line."""
    changed = "sed 's/line [0-9]*/line 7/; s/entries /entries 9/'"
    return wrapped(folder, "wrong-line", program, changed)


def wrong_picture(folder, program):
    """The program, but for the last byte of its last picture."""
    behind = "[ -f final.ppm ] && truncate -s -1 final.ppm && printf 'x' >> final.ppm"
    return wrapped(folder, "wrong-picture", program, "", behind)


def planted_tests(folder, status):
    """A folder of tests of the library, each of which ends so where a wrong body is planted."""
    tests = folder / f"planted-{status}"
    tests.mkdir()
    for name in ("answers", "storm", "replay"):
        executable(tests / f"{name}-planted", f"""#!/bin/sh
[ -z "$PLANTED" ] && exit 0
: >"$PLANTED_DONE"
exit {status}
""")
    return tests


def copied(folder, source):
    """A copy of a folder of the repository without what was made in it."""
    target = folder / source.name
    ignored = shutil.ignore_patterns("out", "must-fail", "target")
    shutil.copytree(source, target, ignore=ignored)
    return target


def silent_library(folder, embed):
    """An archive with each function of the library's header. It answers 0, and does nothing."""
    header = (embed / "include" / "nitpicker.h").read_text()
    header = re.sub(r"/\*.*?\*/|static inline .*?\n}", "", header, flags=re.S)
    lines = ['#include "nitpicker.h"', "#include <string.h>"]
    for answer, call in re.findall(r"^((?:struct )?\w+) (nit_\w+\([^)]*\));", header, re.M):
        body = f"{answer} none; memset(&none, 0, sizeof none); return none;"
        lines.append(f"{answer} {call} {{ {body} }}")
    return archived(folder, embed, "silent", "\n".join(lines) + "\n")


def plain_library(folder, embed):
    """An archive of the plain compositor, which does what `speed` asks of the library."""
    return archived(folder, embed, "plain", (embed / "tests" / "plain.c").read_text())


def changed_library(folder, embed, name, *changes):
    """The same, with other words in the place of some, each of which stands there."""
    text = (embed / "tests" / "plain.c").read_text()
    for old, new in changes:
        if old not in text:
            raise AssertionError(f"plain.c does not have {old!r}")
        text = text.replace(old, new)
    return archived(folder, embed, name, text)


def quick_library(folder, embed):
    """The same, but that it tells of one pixel alone: so it takes no longer than it may."""
    head = "struct nit_damage nit_damage(struct nit_server *server)\n{\n"
    pixel = "struct nit_damage told = all(server); told.part[0].w = told.part[0].h = 1; return told;"
    return changed_library(
        folder, embed, "quick", ("nit_damage(server).part", "all(server).part"),
        (head, head.replace("nit_damage(", "all(")),
        ("struct nit_rect nit_look(", f"{head}{pixel}}}\n\nstruct nit_rect nit_look("))


def slow_library(folder, embed):
    """The same, but for a call that takes much longer than it may."""
    head = "struct nit_reply nit_take(struct nit_server *server, nit_client client)\n{\n"
    slow = f"{head}    for (volatile int k = 0; k < 2000; k++);\n"
    return changed_library(folder, embed, "slow", (head, slow))


def archived(folder, embed, name, text):
    """An archive of one C source over the library's header."""
    source, part, archive = (folder / f"{name}.{end}" for end in ("c", "o", "a"))
    source.write_text(text)
    folders = ["-I", embed / "include", "-I", embed / "tests"]
    subprocess.run(["gcc", "-w", "-O2", *folders, "-c", source, "-o", part], check=True)
    subprocess.run(["ar", "rcs", archive, part], check=True)
    return archive

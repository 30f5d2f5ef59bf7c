"""Each call to the file system refused, cut off or interrupted, for tools/disk."""
import os
import shutil
import signal
import subprocess

import runs

SHIM = r"""
#define _GNU_SOURCE
#include <dlfcn.h>
#include <errno.h>
#include <fcntl.h>
#include <limits.h>
#include <signal.h>
#include <stdarg.h>
#include <stdio.h>
#include <stdlib.h>
#include <string.h>
#include <sys/syscall.h>
#include <unistd.h>

enum how { GOES, FAILS, HALF, INTERRUPTED };
static long made;
static int is_full;

static void tell(const char *call, const char *name) {
    char line[PATH_MAX + 64];
    int length = snprintf(line, sizeof line, "%s %s\n", call, name);
    const char *log = getenv("DISK_LOG");
    int file = syscall(SYS_openat, AT_FDCWD, log, O_WRONLY | O_CREAT | O_APPEND, 0600);
    if (file < 0 || syscall(SYS_write, file, line, length) < 0)
        abort();
    syscall(SYS_close, file);
}

/* What becomes of a call: the one of the number in DISK_AT goes as DISK_HOW says. */
static enum how becomes(const char *call, const char *name) {
    const char *how = getenv("DISK_HOW");
    int is_write = !strcmp(call, "write");
    if (!how)
        return GOES;
    long number = ++made, at = atol(getenv("DISK_AT"));
    if (is_full && is_write)
        return FAILS;
    if (number < at || (number > at && strcmp(how, "on")))
        return GOES;
    if (number == at)
        tell(call, name);
    if (!strcmp(how, "kill"))
        raise(SIGKILL);
    if (!strcmp(how, "interrupted"))
        return strcmp(call, "rename") && strcmp(call, "unlink") ? INTERRUPTED : GOES;
    if (!strcmp(how, "fail") || !strcmp(how, "on"))
        return FAILS;
    is_full = is_write && !strcmp(how, "full");
    return is_write ? HALF : GOES;
}

static const char *name_of(int file) {
    static char name[PATH_MAX];
    char link[64];
    if (file < 3)
        return "output";
    snprintf(link, sizeof link, "/proc/self/fd/%d", file);
    ssize_t length = readlink(link, name, sizeof name - 1);
    name[length < 0 ? 0 : length] = 0;
    char *last = strrchr(name, '/');
    return last ? last + 1 : name;
}

static int refused(enum how how, int error) {
    errno = how == INTERRUPTED ? EINTR : error;
    return -1;
}

static int opens(int folder, const char *path, int flags, int mode) {
    enum how how = becomes("open", path);
    return how == GOES ? syscall(SYS_openat, folder, path, flags, mode) : refused(how, EIO);
}

int open(const char *path, int flags, ...) {
    va_list more;
    va_start(more, flags);
    int mode = va_arg(more, int);
    va_end(more);
    return opens(AT_FDCWD, path, flags, mode);
}

int openat(int folder, const char *path, int flags, ...) {
    va_list more;
    va_start(more, flags);
    int mode = va_arg(more, int);
    va_end(more);
    return opens(folder, path, flags, mode);
}

ssize_t read(int file, void *bytes, size_t length) {
    enum how how = becomes("read", name_of(file));
    return how == GOES ? syscall(SYS_read, file, bytes, length) : refused(how, EIO);
}

ssize_t write(int file, const void *bytes, size_t length) {
    enum how how = becomes("write", name_of(file));
    if (how == HALF && getenv("DISK_KILLS")) {
        syscall(SYS_write, file, bytes, length / 2);
        raise(SIGKILL);
    }
    if (how == HALF && length > 1)
        return syscall(SYS_write, file, bytes, length / 2);
    if (how == GOES || (how == HALF && !is_full))
        return syscall(SYS_write, file, bytes, length);
    return refused(how, ENOSPC);
}

int rename(const char *from, const char *to) {
    enum how how = becomes("rename", to);
    return how == GOES ? syscall(SYS_rename, from, to) : refused(how, EIO);
}

int unlink(const char *path) {
    enum how how = becomes("unlink", path);
    return how == GOES ? syscall(SYS_unlink, path) : refused(how, EIO);
}
"""
EXAMPLES = runs.TOP / "examples"
TWO = ["shot-1.ppm", "final.ppm", "events-a.txt", "events-b.txt", "journal.txt"]
ROWS = [(["still", "8", "4", "first.nit"], "first", ["final.ppm"]),
        (["turns", "two.toml"], "two", TWO),
        (["run", "two.toml"], "two", TWO)]
OLDER = b"older\n" * 100


def is_part(name):
    return name.endswith(".part")


def file_of(name):
    """The name that a file is written for."""
    return name.rsplit(".", 2)[0] if is_part(name) else name


class Row:
    """The words of a run, its files, what it puts in its order, and the bytes of a whole run."""

    def __init__(self, program, words, folder, puts, top):
        self.program, self.words, self.puts, self.top = program, words, puts, top
        given = runs.read_files(EXAMPLES / folder)
        self.files = {name: data for name, data in given.items() if name not in puts}
        whole = self.run(self.files)
        self.whole = {name: whole.files[name] for name in puts}
        self.said = whole.said

    def run(self, files, environment=None):
        folder = self.top / "now"
        runs.write_files(folder, files)
        outcome = runs.run(self.program, self.words, folder, os.environ | (environment or {}))
        shutil.rmtree(folder)
        return outcome

    def faults_of(self, outcome, is_put):
        """What is wrong with the files: those of which `is_put` says so are new, and others old."""
        for name in self.puts:
            if outcome.files.get(name) != (self.whole[name] if is_put(name) else OLDER):
                yield f"{name} is not as expected"
        others = {name: data for name, data in outcome.files.items()
                  if name not in self.puts and not is_part(name)}
        if others != self.files:
            yield "another file has changed"


# Each call.


def build(top):
    source, library = top / "disk.c", top / "disk.so"
    source.write_text(SHIM)
    command = ["gcc", "-O1", "-shared", "-fPIC", "-o", library, source, "-ldl"]
    subprocess.run(command, check=True)
    return library


def ends_of(row, how, call, name):
    """The status, what is said, and how many files are put, where this call goes so."""
    if how in ("interrupted", "half") or how == "full" and call != "write":
        return 0, row.said, len(row.puts)
    if how in ("kill", "cut"):
        status = -signal.SIGKILL if how == "kill" or call == "write" else 0
        return status, None if status else row.said, None if status else len(row.puts)
    if name == "output":
        return 4, None, len(row.puts)
    place = row.puts.index(name) if name in row.puts else None
    kind, status = ("read", 3) if place is None else ("write", 4)
    said = f"nitpicker: {name}: {kind} fault\n".encode()
    return status, None if how in ("on", "full") else said, place or 0


def faults_of_call(row, how, told, outcome):
    call, name = told.split(" ")
    name = file_of(name)
    status, said, count = ends_of(row, how, call, name)
    if outcome.status != status:
        yield f"status {outcome.status}, said {outcome.said!r}"
    if said is not None and outcome.said != said:
        yield f"said {outcome.said!r}"
    if count is None:
        count = sum(outcome.files.get(name) == row.whole[name] for name in row.puts)
    yield from row.faults_of(outcome, lambda name: row.puts.index(name) < count)
    parts = sum(map(is_part, outcome.files))
    if parts > (1 if how in ("on", "kill", "cut") else 0):
        yield f"{parts} parts are left"


def try_calls(row, library, top):
    """Each call in each way, until a run makes fewer. Answers what is wrong."""
    files = row.files | dict.fromkeys(row.puts, OLDER)
    log, count, parts, wrong, progress = top / "log", 0, 0, [], runs.Progress()
    for how in ("fail", "on", "full", "half", "interrupted", "kill", "cut"):
        for number in range(1, 10000):
            progress.tell(number, f"{' '.join(row.words)}, {how}: call")
            log.unlink(missing_ok=True)
            environment = {"LD_PRELOAD": str(library), "DISK_AT": str(number),
                           "DISK_HOW": how, "DISK_LOG": str(log)}
            if how == "cut":
                environment["DISK_KILLS"] = "1"
            outcome = row.run(files, environment)
            if not log.exists():
                break
            count += 1
            parts += sum(map(is_part, outcome.files))
            told = log.read_text().splitlines()[0]
            wrong += [f"{row.words}, {how} at call {number}, {told}: {fault}"
                      for fault in faults_of_call(row, how, told, outcome)]
    print(f"{' '.join(row.words)}: {count} runs, each call in each way, {parts} left a part")
    return wrong


def try_each_call(program, top):
    library, wrong = build(top), []
    for words, folder, puts in ROWS:
        wrong += try_calls(Row(program, words, folder, puts, top), library, top)
    return wrong

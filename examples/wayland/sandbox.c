/* The sandbox of a program: what bubblewrap (bwrap) is told. Not proved.
 *
 * A program has a Wayland socket, which is its own, programs and libraries to read, an empty home,
 * and nothing else: no X server, no socket of another program's, no network, no other processes,
 * no files of the user. Words of the user give it more. */
#include "desk.h"
#include <stdio.h>
#include <string.h>
#include <unistd.h>

enum { WORDS = 160, TEXT = 2048 };

/* The words of a command line. They are too many where the last place is taken. */
struct line {
    const char *words[WORDS + 1];
    size_t count;
    bool open;                /* the program has no sandbox */
};

static void add(struct line *line, const char *const *words, size_t count)
{
    for (size_t at = 0; at < count && line->count < WORDS; at++)
        line->words[line->count++] = words[at];
}

#define ADD(line, ...) \
    add(line, (const char *const[]){ __VA_ARGS__ }, \
        sizeof (const char *const[]){ __VA_ARGS__ } / sizeof(char *))

static const char *const PATH = "/usr/local/bin:/usr/bin:/bin:/usr/games";

/* True where bubblewrap is there, and the system lets it do its work. */
bool sandbox_is_there(void)
{
    return system("/usr/bin/bwrap --unshare-all --ro-bind / / /bin/true 2> /dev/null") == 0;
}

/* What each program sees. */
static void common(struct line *line, const struct program *program)
{
    static const char *const etc[] = {
        "/etc/alternatives", "/etc/fonts", "/etc/ld.so.cache", "/etc/localtime", "/etc/xdg",
        "/etc/gtk-3.0", "/etc/gtk-4.0", "/etc/mpv", "/etc/mime.types", "/etc/zathurarc",
        "/etc/imv_config", "/var/cache/fontconfig"
    };
    ADD(line, "/usr/bin/bwrap", "--unshare-all", "--die-with-parent", "--new-session",
        "--cap-drop", "ALL", "--clearenv", "--ro-bind", "/usr", "/usr",
        "--symlink", "usr/bin", "/bin", "--symlink", "usr/sbin", "/sbin",
        "--symlink", "usr/lib", "/lib", "--symlink", "usr/lib64", "/lib64",
        "--proc", "/proc", "--dev", "/dev", "--tmpfs", "/tmp", "--tmpfs", "/home/me",
        "--dir", "/run/desk", "--chmod", "0700", "/run/desk",
        "--bind", program->path, "/run/desk/wayland-0",
        "--setenv", "WAYLAND_DISPLAY", "wayland-0", "--setenv", "XDG_RUNTIME_DIR", "/run/desk",
        "--setenv", "HOME", "/home/me", "--setenv", "PATH", PATH, "--setenv", "LANG", "C.UTF-8",
        "--setenv", "GDK_BACKEND", "wayland", "--setenv", "GSK_RENDERER", "cairo",
        "--setenv", "NO_AT_BRIDGE", "1", "--setenv", "GTK_A11Y", "none");
    for (size_t at = 0; at < sizeof etc / sizeof *etc; at++)
        ADD(line, "--ro-bind-try", etc[at], etc[at]);
}

/* What a word of the user adds: a place, a home that stays, a folder to read, the network. */
static bool more(struct line *line, struct program *program, const char *word)
{
    if (!strncmp(word, "home:", 5) && word[5])
        ADD(line, "--bind", word + 5, "/home/me");
    else if (!strncmp(word, "see:", 4) && word[4])
        ADD(line, "--ro-bind", word + 4, word + 4);
    else if (!strcmp(word, "net"))
        ADD(line, "--share-net", "--ro-bind-try", "/etc/resolv.conf", "/etc/resolv.conf",
            "--ro-bind-try", "/etc/ssl", "/etc/ssl", "--ro-bind-try", "/etc/hosts", "/etc/hosts");
    else if (!strcmp(word, "open"))
        line->open = true;
    else
        return sscanf(word, "at:%5d:%5d", &program->x, &program->y) == 2;
    return true;
}

/* The command line of a program in a sandbox, by the user's words, each behind a comma. False where
 * one is wrong. */
static bool boxed(struct line *line, struct program *program, char *words)
{
    bool good = true;
    common(line, program);
    strsep(&words, ",");
    for (const char *word; (word = strsep(&words, ",")) != NULL;)
        good = good && more(line, program, word);
    ADD(line, "--chdir", "/home/me", "--");
    return good;
}

/* That of one without, which has little of the user's environment; $0 is its socket. */
static const char OPEN[] =
    "exec /usr/bin/env -i HOME=\"$HOME\" PATH=\"$PATH\" LANG=\"$LANG\" USER=\"$USER\" "
    "WAYLAND_DISPLAY=\"$0\" XDG_RUNTIME_DIR=\"$1\" GDK_BACKEND=wayland GSK_RENDERER=cairo "
    "/bin/sh -c \"$2\"";

/* Starts a program by its words, from the first comma to the =, and its command, with nothing of
 * the host's: what it prints is lost. 0 where a word is wrong or it does not start. */
pid_t sandbox_spawn(struct program *program, const char *words, const char *command)
{
    static char *const nothing[] = { NULL };
    static const int nowhere[] = { -1, -1, -1 };
    char text[TEXT];
    struct line line = { .count = 0 };
    int length = snprintf(text, sizeof text, "%.*s", (int)strcspn(words, "="), words);
    if (length >= TEXT || !boxed(&line, program, text))
        return 0;
    if (line.open && desk.sandboxes)
        notice("%s: no sandbox", program->name);
    const bool open = line.open || !desk.sandboxes;
    line.count = open ? 0 : line.count;
    ADD(&line, "/bin/sh", "-c");
    if (open)
        ADD(&line, OPEN, program->path, desk.folder);
    ADD(&line, command);
    const struct start start = { line.words[0], (char *const *)line.words,
                                 open ? environ : nothing, nowhere, 3 };
    pid_t process = 0;
    return line.count < WORDS && process_start(&start, &process) == 0 ? process : 0;
}

/* A desk: a host of the Nitpicker core whose clients are unmodified programs that speak Wayland.
 *
 * THIS PROGRAM IS AN EXAMPLE, AND NOT PROVED. What is proved is the library below it, and who sees
 * and gets what is decided there: whose a pixel is, what the modes show, where a key or a click
 * goes, what a call may do. Here is the rest: a window, devices, processes, and what these say of
 * surfaces. Its part of the promise, which nothing proves, is that what it does for a connection
 * it does by this client's name alone, and tells it nothing but what nit_take gives. */
#include "desk.h"
#include <signal.h>
#include <stdarg.h>
#include <stdio.h>
#include <string.h>
#include <sys/resource.h>
#include <unistd.h>

enum { LENT = 6 /* the first descriptors, which a porter has */ };

struct desk desk = { .sandboxes = true };

static const char usage[] =
    "desk [--size=WxH] [--zoom=N] [--scale=N] [--glyphs=small|large] [--xray=KEY] [--kill=KEY]\n"
    "     [--open] NAME[,WORD ..]=COMMAND ...\n"
    "    starts programs on the desk, each in a sandbox (bubblewrap) and with its name as a label\n"
    "    words: at:X:Y home:FOLDER see:FOLDER net open\n"
    "    --size is the screen's, up to 4096x4096; --zoom makes the window 1 to 4 times as large\n"
    "    --scale, 1 to 8, and --glyphs say how large labels and the status bar are\n"
    "    --xray and --kill are more keys for the modes\n"
    "    --open starts all programs without a sandbox\n"
    "README.md says more.\n";

uint32_t milliseconds(void)
{
    return (uint32_t)(now() / 1000);
}

/* Says something to the user: on the standard output, and as the title of the host's window. */
void notice(const char *format, ...)
{
    char text[160];
    va_list more;
    va_start(more, format);
    vsnprintf(text, sizeof text, format, more);
    va_end(more);
    say("%s", text);
    if (host.window)
        SDL_SetWindowTitle(host.window, text);
}

/* ---- Beginning */

static void say_nothing(const char *format, va_list more)
{
    (void)format, (void)more;
}

/* Each client may have many pools, each of which is a descriptor. */
static void open_descriptors(void)
{
    struct rlimit files;
    process_open(LENT);
    if (getrlimit(RLIMIT_NOFILE, &files) == 0) {
        files.rlim_cur = files.rlim_max;
        setrlimit(RLIMIT_NOFILE, &files);
    }
    wl_log_set_handler_server(say_nothing);
}

/* All seats in one layer. The atlas of a client has room for four screens at least, as its donation
 * pays for it. Answers what is wrong, or NULL. */
static const char *open_server(const char *size)
{
    struct nit_seat_plan seats[SEATS];
    server_size(size);
    desk.atlas_w = SDL_clamp(2 * host.width, 1024, 4096);
    desk.atlas_h = SDL_clamp(2 * host.height, 1024, 4096);
    int64_t units = 8 * (int64_t)desk.atlas_w * desk.atlas_h + 256 * SURFACES;
    for (int seat = 0; seat < SEATS; seat++)
        seats[seat] = (struct nit_seat_plan){ (uint32_t)units, LAYER, 1 };
    return server_open(seats);
}

/* The sockets of programs stand in a folder of the host's own. */
static bool open_display(void)
{
    const char *base = getenv("XDG_RUNTIME_DIR");
    int length = snprintf(desk.folder, sizeof desk.folder, "%s/desk-XXXXXX", base ? base : "/tmp");
    wl_list_init(&desk.frames);
    desk.display = wl_display_create();
    if (!desk.display || length >= (int)sizeof desk.folder || !mkdtemp(desk.folder))
        return false;
    objects_start();
    return keyboard_start() && shm_start();
}

/* ---- A turn */

/* When the next look may be: at the display's rate, and at four times that where the client with
 * the focus has something to show; each for half of the host's own time at most. */
static uint64_t due(void)
{
    if (!host.changed)
        return UINT64_MAX;
    return client_with_focus() ? SDL_min(desk.soon, host.next) : host.next;
}

/* Shows what has changed. A click goes to what the last look showed. So what the user has done by
 * now is handed in first, as it was meant for the picture before; and what is looked at is shown at
 * once. */
static void show(void)
{
    const uint64_t begin = now(), used = spent();
    if (begin < due())
        return;
    const bool early = begin < host.next;
    devices_read();
    desk.soon = begin + host.period / 4;
    host.next = early ? host.next : begin + host.period;
    host.changed = false;
    if (!frozen())
        publish(early);
    bool left = host.changed;
    host.changed = !screen_look() || left;
    uint64_t *later = early ? &desk.soon : &host.next;
    *later = SDL_max(*later, now() + spent() - used);
}

/* Waits for devices, signals, the control line and clients, for the next look and the next tick
 * where one is due, and for clients that rest. While the host is frozen clients wake nobody. */
static void wait_for_any(void)
{
    int clients = wl_event_loop_get_fd(wl_display_get_event_loop(desk.display));
    bool served = !frozen();
    struct pollfd any[] = { { host.x11, POLLIN, 0 }, { host.signals, POLLIN, 0 },
                            { served ? clients : -1, POLLIN, 0 },
                            { served && host.listens ? STDIN_FILENO : -1, POLLIN, 0 } };
    uint64_t next = due();
    if (served)
        clients_credit(&next);
    if (served && !wl_list_empty(&desk.frames))
        next = SDL_min(next, desk.tick);
    wl_display_flush_clients(desk.display);
    devices_wait(any, sizeof any / sizeof *any, next);
    if (any[3].revents != 0)
        control_read();
}

/* Each surface that waits for a frame may draw one, whether it can be seen or not, and at the tick
 * of one clock: so no client learns of others what is covered, or when something is drawn. */
static void tick(void)
{
    struct wl_resource *callback, *next;
    if (now() < desk.tick)
        return;
    wl_resource_for_each_safe(callback, next, &desk.frames) {
        wl_callback_send_done(callback, (uint32_t)(desk.tick / 1000));
        wl_resource_destroy(callback);
    }
}

static void turn(void)
{
    wait_for_any();
    devices_read();
    process_signals();
    programs_reap();
    if (!frozen())
        wl_event_loop_dispatch(wl_display_get_event_loop(desk.display), 0);
    show();
    if (!frozen())
        tick();
}

/* ---- All of it */

/* Takes a word that begins with --. Answers what is wrong with it, or NULL. */
static const char *word_option(const char *word, const char **size)
{
    const bool zooms = !strncmp(word, "--zoom=", 7);
    if (zooms && (word[7] < '1' || word[7] > '4' || word[8]))
        return "a zoom is 1 to 4";
    if (zooms)
        host.scale = word[7] - '0';
    else if (!strcmp(word, "--open"))
        desk.sandboxes = false;
    else
        return option(word, size);
    return NULL;
}

static void close_all(void)
{
    if (desk.display)
        wl_display_destroy_clients(desk.display);
    for (struct program *program = desk.programs; program < desk.programs + PROGRAMS; program++)
        program_end(program);
    rmdir(desk.folder);
    xkb_keymap_unref(desk.keymap);
    if (desk.display)
        wl_display_destroy(desk.display);
    nit_close(&host.server);
    SDL_Quit();
}

/* Opens all, until something is wrong. Answers 0, or the status to end with. */
static int begin(char **words)
{
    const char *size = NULL, *why = NULL;
    for (; *words && !strncmp(*words, "--", 2); words++)
        if ((why = word_option(*words, &size)) != NULL)
            return refuse(*words, why);
    if ((why = open_server(size)) != NULL)
        return refuse("--size", why);
    if (!screen_open())
        return refuse("the window", SDL_GetError());
    if (!open_display())
        return refuse("the sockets", "no folder for them, or no map of keys");
    desk.sandboxes = desk.sandboxes && sandbox_is_there();
    if (!desk.sandboxes)
        notice("no sandbox: labels hold among programs that behave well, and no others");
    for (; *words; words++)
        if ((why = host_starts(*words)) != NULL)
            return refuse(*words, why);
    return 0;
}

int main(int count, char **words)
{
    if (count == 2 && !strcmp(words[1], "--help"))
        return fputs(usage, stdout) < 0;
    open_descriptors();
    host.both_ways = true;
    int status = begin(words + 1);
    while (status == 0 && !host.over)
        turn();
    close_all();
    return status;
}

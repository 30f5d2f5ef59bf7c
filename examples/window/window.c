/* A host of the Nitpicker core: a window on the desk, whose clients are processes.
 *
 * THIS PROGRAM IS AN EXAMPLE, AND NOT PROVED. What is proved is the library below it, and who sees
 * and gets what is decided there: whose a pixel is, what the modes show, where a key or a click
 * goes, what a call may do. Here is the rest: a window, devices, processes and their channels. */
#include "host.h"
#include "protocol.h"
#include <stdio.h>
#include <string.h>
#include <unistd.h>

enum { RIGHT_BUTTON = 273, MIDDLE_BUTTON = 274 };

struct client clients[SEATS];

static nit_client seen[SEATS]; /* who sat there as the last look was */

static const char usage[] =
    "window [--size=WxH] [--scale=N] [--glyphs=small|large] [--xray=KEY] [--kill=KEY]\n"
    "       [^]NAME=PROGRAM ...\n"
    "    NAME=PROGRAM starts a client; ^ puts it in front, where no click gives it the focus\n"
    "    --size is the window's, up to 4096x4096; --xray and --kill are more keys for the modes\n"
    "    --scale, 1 to 8, and --glyphs say how large labels and the status bar are\n"
    "README.md says more.\n";

/* ---- Beginning */

/* The units of each seat: they pay for a buffer of the window's size, and for 64 views. */
static uint32_t donation(void)
{
    uint64_t units = 8 * (uint64_t)host.width * (uint64_t)host.height + 256 * NIT_MOST_VIEWS;
    return (uint32_t)SDL_clamp(units, DONATION, NIT_MOST_UNITS);
}

/* Seats for the words in their order, and free ones behind. The mark ^ puts a client in front of
 * all others, where no click gives it the focus. Answers what is wrong, or NULL. */
static const char *open_server(const char *size, char **words)
{
    struct nit_seat_plan seats[SEATS];
    server_size(size);
    for (int seat = 0; seat < SEATS; seat++) {
        bool front = *words && (*words++)[0] == '^';
        seats[seat] = (struct nit_seat_plan){ donation(), front ? FRONT : REST, !front };
    }
    return server_open(seats);
}

/* ---- The user */

/* In X-ray mode a button of the mouse is the user's own: the right one lowers the view that the
 * picture shows under the pointer behind all of its layer, and the middle one raises it. Its client
 * has no part in that. Where that has left since, the name of then is nobody's. */
bool host_takes(uint32_t code, bool down)
{
    const struct nit_state state = nit_state(&host.server);
    const bool lowers = code == RIGHT_BUTTON;
    if (!down || state.mode != NIT_MODE_XRAY || (!lowers && code != MIDDLE_BUTTON))
        return false;
    struct nit_view_state view = nit_shown(&host.server, state.x, state.y);
    if (view.kind == NIT_DONE)
        (lowers ? nit_lower : nit_raise)(&host.server, seen[view.seat], view.view);
    host.changed = true;
    host.next = 0;
    return true;
}

void host_moved(int32_t x, int32_t y)
{
    (void)x, (void)y;
}

/* ---- A turn */

/* Waits for devices, signals, the control line and clients, for the next look where one is due,
 * and for clients that rest. While the host is frozen the control line and clients wake nobody. */
static void wait_for_any(void)
{
    const bool served = !frozen();
    struct pollfd any[3 + 2 * SEATS] = { { host.x11, POLLIN, 0 }, { host.signals, POLLIN, 0 },
        { served && host.listens ? STDIN_FILENO : -1, POLLIN, 0 } };
    uint64_t time = now(), next = host.changed ? host.next : UINT64_MAX;
    for (int seat = 0; seat < SEATS; seat++) {
        const struct client *client = &clients[seat];
        bool here = served && client->socket != 0, rests = here && client->rest > time;
        any[3 + 2 * seat] = (struct pollfd){ here && !rests ? client->bell : -1, POLLIN, 0 };
        any[4 + 2 * seat] = (struct pollfd){ here && !client->gone[0] ? client->socket : -1, 0, 0 };
        if (rests || (here && client->gone[0]))
            next = SDL_min(next, client->rest);
    }
    devices_wait(any, 3 + 2 * SEATS, next);
    if (any[2].revents != 0)
        control_read();
    for (int seat = 0; seat < SEATS; seat++)
        if (any[4 + 2 * seat].revents != 0)
            seats_left(&clients[seat]);
}

/* Shows what has changed, at the display's rate and for half of its own time at most. A click goes
 * to what the last look showed. So what the user has done by now is handed in first, as it was
 * meant for the picture before. */
static void show(void)
{
    const uint64_t begin = now(), used = spent();
    if (!host.changed || begin < host.next)
        return;
    devices_read();
    host.next = begin + host.period;
    if (!screen_look())
        return;
    for (int seat = 0; seat < SEATS; seat++)
        seen[seat] = clients[seat].name;
    calls_pay(spent() - used);
    host.next = SDL_max(host.next, now() + spent() - used);
}

/* ---- All of it */

static void close_all(void)
{
    for (uint32_t seat = 0; seat < SEATS; seat++)
        if (clients[seat].socket != 0)
            seats_close(seat, "the host ends");
    nit_close(&host.server);
    SDL_Quit();
}

/* Opens all, until something is wrong. Answers 0, or the status to end with. */
static int begin(char **words)
{
    const char *size = NULL, *why = NULL;
    for (; *words && !strncmp(*words, "--", 2); words++)
        if ((why = option(*words, &size)) != NULL)
            return refuse(*words, why);
    if (!*words)
        return refuse("NAME=PROGRAM", "there is no client, see --help");
    if ((why = open_server(size, words)) != NULL)
        return refuse("--size", why);
    for (; *words; words++) {
        bool front = **words == '^';
        if ((why = seats_start(*words + front, front ? FRONT : REST)) != NULL)
            return refuse(*words, why);
    }
    return screen_open() ? 0 : refuse("the window", SDL_GetError());
}

int main(int count, char **words)
{
    if (count == 2 && !strcmp(words[1], "--help"))
        return fputs(usage, stdout) < 0;
    process_open(PROTOCOL_MEMORY + 1);
    int status = begin(words + 1);
    while (status == 0 && !host.over) {
        wait_for_any();
        devices_read();
        process_signals();
        seats_reap();
        calls_serve();
        show();
    }
    close_all();
    return status;
}

/* Connections of programs, and the seats that they sit on. Not proved.
 *
 * A label says on which socket a client came: `foot` is the first connection to the socket of the
 * program foot, `foot.2` the next one beside it. What a client says of itself is nowhere in it. The
 * connection itself is in the hands of a porter (porter.c). */
#include "desk.h"
#include <signal.h>
#include <stdio.h>
#include <string.h>
#include <sys/eventfd.h>
#include <sys/socket.h>
#include <unistd.h>

enum {
    MOST_OF_A_PROGRAM = 9,
    PORTERS = 4 * SEATS,      /* at once, also those that a program makes wait */
    KNOCK = 50,               /* milliseconds between two connections of a program */
    REST = 1000               /* microseconds between two pieces of a client's requests */
};

/* ---- Ends */

static void left(struct wl_listener *listener, void *data)
{
    struct client *client = wl_container_of(listener, client, left);
    (void)data;
    say("%s: left", client->label);
    nit_leave(&host.server, client->name);
    close(client->bell);
    xkb_state_unref(client->keys);
    free(client->words);
    client->keys = NULL;
    client->words = NULL;
    client->wl = NULL;
    client->focused = false;
    client->typed = client->pointed = client->dragged = NULL;
    desk.mover = desk.mover == client ? NULL : desk.mover;
    host.changed = true;
    program_forget(client->program);
}

/* The user has locked a client out. Its program ends with it, and so do its other connections and
 * all that it has started: who is locked out does not come again by the same socket. */
void client_end(struct client *client)
{
    struct program *program = client->program;
    say("%s: locked out by the user", client->label);
    for (struct client *other = desk.clients; other < desk.clients + SEATS; other++)
        if (other->wl && other->program == program) {
            kill(other->porter, SIGKILL);
            wl_client_destroy(other->wl);
        }
    program_end(program);
}

/* ---- Seats */

/* A seat for one more connection of a program. False where there is none. */
static bool sit_down(const struct program *program, char *label, uint32_t *turn,
                     struct nit_seated *seated)
{
    for (*turn = 1; *turn <= MOST_OF_A_PROGRAM; ++*turn) {
        int length = snprintf(label, LABEL, *turn > 1 ? "%s.%u" : "%s", program->name, *turn);
        *seated = server_seat(label, (size_t)length, LAYER);
        if (seated->kind == NIT_DONE)
            return true;
    }
    return false;
}

/* A client comes, by the descriptor that a porter holds the other end of. */
static bool come(struct program *program, int descriptor)
{
    char label[LABEL];
    uint32_t turn;
    struct nit_seated seated;
    if (!sit_down(program, label, &turn, &seated))
        return false;
    struct client *client = &desk.clients[seated.seat];
    uint32_t *words = calloc((size_t)desk.atlas_w * (size_t)desk.atlas_h, sizeof *words);
    struct wl_client *wl = words ? wl_client_create(desk.display, descriptor) : NULL;
    if (!wl) {
        nit_leave(&host.server, seated.client);
        free(words);
        return false;
    }
    *client = (struct client){ .wl = wl, .name = seated.client, .program = program, .turn = turn,
                               .porter = program->porter, .bell = program->bell, .words = words,
                               .left.notify = left, .keys = xkb_state_new(desk.keymap) };
    memcpy(client->label, label, LABEL);
    struct wl_list *lists[] = { &client->surfaces, &client->keyboards, &client->pointers,
                                &client->devices, &client->outputs };
    for (size_t at = 0; at < sizeof lists / sizeof *lists; at++)
        wl_list_init(lists[at]);
    wl_client_add_destroy_listener(wl, &client->left);
    objects_watch(client);
    nit_buffer(&host.server, client->name, (uint32_t)desk.atlas_w, (uint32_t)desk.atlas_h);
    say("%s: seat %u", label, seated.seat);
    return true;
}

/* ---- Porters */

/* A porter has let somebody in, or nobody was there. */
static int arrived(int door, uint32_t mask, void *data)
{
    struct program *program = data;
    char byte;
    (void)mask;
    bool here = read(door, &byte, 1) == 1;
    wl_event_source_remove(program->arrival);
    program->arrival = NULL;
    program->door = -1;
    if (here && come(program, door))
        return 0;
    if (here)
        notice("no seat for %s", program->name);
    close(door);
    close(program->bell);
    return 0;
}

/* The porter's program, which stands beside the host's. False where that is not to be found. */
static bool beside(char *path, size_t room)
{
    ssize_t length = readlink("/proc/self/exe", path, room - 8);
    while (length > 0 && path[length - 1] != '/')
        length--;
    if (length > 0)
        strcpy(path + length, "porter");
    return length > 0;
}

/* Starts a porter with these descriptors as its 3, 4 and 5. Its standard error is the host's. */
static pid_t porter(int listener, int end, int bell)
{
    static char *const nothing[] = { NULL };
    char path[512];
    char *const words[] = { path, NULL };
    const int files[] = { -1, -1, STDERR_FILENO, listener, end, bell };
    const struct start start = { path, words, nothing, files, 6 };
    pid_t process = 0;
    return beside(path, sizeof path) && process_start(&start, &process) == 0 ? process : 0;
}

/* Somebody connects to a program's socket: a porter goes to the door, and the socket rests. */
int client_knocked(int socket, uint32_t mask, void *data)
{
    struct program *program = data;
    int pair[2] = { -1, -1 };
    (void)mask;
    wl_event_source_fd_update(program->source, 0);
    wl_event_source_timer_update(program->timer, KNOCK);
    if (program->door >= 0 || desk.porters >= PORTERS ||
        socketpair(AF_UNIX, SOCK_STREAM | SOCK_CLOEXEC, 0, pair) < 0)
        return 0;
    program->bell = eventfd(0, EFD_CLOEXEC | EFD_NONBLOCK);
    program->porter = porter(socket, pair[1], program->bell);
    desk.porters += program->porter != 0;
    program->door = pair[0];
    close(pair[1]);
    program->arrival = wl_event_loop_add_fd(wl_display_get_event_loop(desk.display), pair[0],
                                            WL_EVENT_READABLE, arrived, program);
    return 0;
}

/* The socket of a program has rested. */
int client_rested(void *data)
{
    struct program *program = data;
    wl_event_source_fd_update(program->source, WL_EVENT_READABLE);
    return 0;
}

/* Which clients still have a piece that they may ask for, by their seats. */
static void look_at_bells(struct pollfd *any)
{
    for (int at = 0; at < SEATS; at++)
        any[at] = (struct pollfd){ desk.clients[at].wl ? desk.clients[at].bell : -1, POLLIN, 0 };
    poll(any, SEATS, 0);
}

/* Lets the porters of clients that have rested hand on one more piece of requests each. Where one
 * has used up its piece and rests, `next` is when that ends, at the latest. */
void clients_credit(uint64_t *next)
{
    const uint64_t time = now(), one = 1;
    struct pollfd any[SEATS];
    look_at_bells(any);
    for (struct client *client = desk.clients; client < desk.clients + SEATS; client++) {
        if (!client->wl || any[client - desk.clients].revents != 0)
            continue;
        if (client->rest > time) {
            *next = SDL_min(*next, client->rest);
        } else if (write(client->bell, &one, sizeof one) == sizeof one) {
            client->rest = time + REST;
        }
    }
}

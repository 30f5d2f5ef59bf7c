/* Processes and the seats that they sit on. Not proved. A label is what the host's words say, never
 * what a client says of itself.
 *
 * A client has its channel and nothing else of the host, and nothing that it does to that makes the
 * host wait. A socket would bring descriptors, and to close one may take as long as the client
 * likes: so the host's end is shut for all that comes. A pipe is locked while the memory of who
 * writes is read, and that may take as long: so calls come by a memfd and an eventfd. */
#include "host.h"
#include "protocol.h"
#include <errno.h>
#include <fcntl.h>
#include <signal.h>
#include <stdio.h>
#include <string.h>
#include <sys/eventfd.h>
#include <sys/mman.h>
#include <sys/socket.h>
#include <sys/wait.h>
#include <unistd.h>

/* ---- Starting */

/* The channel, and the client's end of the socket. The memory keeps its size. */
static bool open_channel(struct client *client, int *lent)
{
    const int seals = F_SEAL_SHRINK | F_SEAL_GROW | F_SEAL_SEAL;
    int pair[2] = { 0, 0 };
    bool joined = socketpair(AF_UNIX, SOCK_SEQPACKET | SOCK_CLOEXEC, 0, pair) == 0;
    client->socket = pair[0];
    *lent = pair[1];
    client->bell = eventfd(0, EFD_CLOEXEC | EFD_SEMAPHORE);
    client->memory = memfd_create("client", MFD_CLOEXEC | MFD_ALLOW_SEALING);
    return joined && shutdown(client->socket, SHUT_RD) == 0 && client->bell >= 0 &&
           client->memory >= 0 && ftruncate(client->memory, PROTOCOL_BYTES) == 0 &&
           fcntl(client->memory, F_ADD_SEALS, seals) == 0;
}

/* Starts a program with the channel and nothing else. Answers 0, or the number of what is wrong. */
static int spawn(struct client *client, const char *program, int lent)
{
    static char *const nothing[] = { NULL };
    char *const words[] = { (char *)program, NULL };
    const int files[] = { -1, -1, -1, [PROTOCOL_SOCKET] = lent, [PROTOCOL_BELL] = client->bell,
                          [PROTOCOL_MEMORY] = client->memory };
    const struct start start = { program, words, nothing, files, PROTOCOL_MEMORY + 1 };
    return process_start(&start, &client->process);
}

/* What the user is told where the library has no seat. */
static const char *no_seat(uint32_t answer)
{
    switch (answer) {
    case NIT_BAD_LABEL:
        return "a label is 1 to 20 of a..z, 0..9, '-', '.', '_'";
    case NIT_LABEL_TAKEN:
        return "the label is taken";
    case NIT_NO_FREE_SEAT:
        return "no seat of its layer is free";
    default:
        return nit_text(answer);
    }
}

/* The client has no seat, no channel and no process any more, nor what its process has started. */
static void leave(uint32_t seat)
{
    struct client *client = &clients[seat];
    const int files[] = { client->socket, client->bell, client->memory };
    nit_leave(&host.server, client->name);
    host.changed = true;
    for (int at = 0; at < 3; at++)
        if (files[at] > 0)
            close(files[at]);
    client->socket = 0;
    if (client->process != 0)
        kill(-client->process, SIGKILL);
}

/* A new client by a word NAME=PROGRAM. Answers why there is none, or NULL. */
const char *seats_start(const char *word, uint32_t layer)
{
    const char *program = strchr(word, '=');
    if (!program)
        return "a client is NAME=PROGRAM";
    struct nit_seated seated = server_seat(word, (size_t)(program - word), layer);
    if (seated.kind != NIT_DONE)
        return no_seat(seated.kind);
    struct client *client = &clients[seated.seat];
    int lent;
    *client = (struct client){ .name = seated.client };
    int wrong = open_channel(client, &lent) ? spawn(client, program + 1, lent) : errno;
    if (lent > 0)
        close(lent);
    if (wrong != 0)
        leave(seated.seat);
    return wrong != 0 ? strerror(wrong) : NULL;
}

/* The same of a client that comes later. A seat in front is free only for the label that it had,
 * and then no other layer takes that. */
const char *host_starts(const char *word)
{
    uint32_t answer = nit_seat_for(&host.server, word, strcspn(word, "="), REST).kind;
    return seats_start(word, answer == NIT_LABEL_TAKEN ? FRONT : REST);
}

/* ---- Ending */

/* Ends a client, and says so. Never called while the host is frozen, but for the client that the
 * user has just locked out. */
void seats_close(uint32_t seat, const char *why)
{
    char label[LABEL];
    size_t length = nit_label(&host.server, seat, label, sizeof label);
    say("%.*s: %s", (int)length, label, why);
    leave(seat);
}

/* Notes that a client has closed its end. How it has ended is told soon, where it has. */
void seats_left(struct client *client)
{
    strcpy(client->gone, "closed: it left");
    client->rest = now() + 10000;
}

/* Notes which processes have ended, and ends those that they started. A number is not used again
 * before it is taken from here, so the group is still theirs. */
void seats_reap(void)
{
    siginfo_t ended = { 0 };
    while (waitid(P_ALL, 0, &ended, WEXITED | WNOHANG | WNOWAIT) == 0 && ended.si_pid != 0) {
        const char *how = ended.si_code == CLD_EXITED ? "status" : "signal";
        for (struct client *client = clients; client < clients + SEATS; client++)
            if (client->socket != 0 && client->process == ended.si_pid) {
                client->process = 0;
                client->rest = 0;
                snprintf(client->gone, sizeof client->gone, "ended, %s %d", how, ended.si_status);
            }
        kill(-ended.si_pid, SIGKILL);
        waitpid(ended.si_pid, NULL, 0);
        ended.si_pid = 0;
    }
}

/* ---- Telling */

/* Tells a client once that events wait. One that leaves no room for the word is closed later. */
static void wake(struct client *client)
{
    const struct reply woken = { .kind = PROTOCOL_WOKEN };
    if (client->socket == 0 || client->woken)
        return;
    client->woken = true;
    if (send(client->socket, &woken, sizeof woken, MSG_DONTWAIT | MSG_NOSIGNAL) < 0)
        strcpy(client->gone, "closed: it does not read its replies");
}

/* Wakes those to whom something went, and ends the one that is locked out. */
void host_delivers(const struct nit_routed *routed)
{
    for (uint32_t k = 0; k < routed->count; k++) {
        uint32_t seat = routed->to[k].seat;
        if (routed->to[k].event.kind != NIT_KILL)
            wake(&clients[seat]);
        else if (clients[seat].socket != 0)
            seats_close(seat, "locked out by the user");
    }
}

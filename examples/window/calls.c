/* The calls of clients, each answered by one message. Not proved.
 *
 * All that a client can write meanwhile is read once, by pread: a call, and pixels before the
 * library reads them. A client that breaks the protocol is closed. */
#include "host.h"
#include "protocol.h"
#include <errno.h>
#include <string.h>
#include <sys/socket.h>
#include <sys/uio.h>
#include <unistd.h>

static uint32_t pixels[MOST_WORDS]; /* what a client refreshes is copied to its place here */

/* Takes one call, where one waits. The bell's flags are the client's too, so that this read itself
 * says that it does not wait. */
static bool receive(struct client *client, struct call *call)
{
    uint64_t one;
    struct iovec part = { &one, sizeof one };
    if (preadv2(client->bell, &part, 1, -1, RWF_NOWAIT) != sizeof one)
        return false;
    off_t place = client->call++ % PROTOCOL_CALLS * (off_t)sizeof *call;
    return pread(client->memory, call, sizeof *call, place) == sizeof *call;
}

/* Copies the part of the buffer that is refreshed, once. It is read from the file and not from
 * memory that both have, so whatever the client does meanwhile, no read can fault. */
static bool copy(const struct client *client, const struct call *call)
{
    int64_t left = SDL_max(call->x, 0), top = SDL_max(call->y, 0);
    int64_t right = SDL_min((int64_t)call->x + call->w, client->w);
    int64_t bottom = SDL_min((int64_t)call->y + call->h, client->h);
    if (left >= right)
        return true;
    ssize_t bytes = (right - left) * (ssize_t)sizeof(uint32_t);
    for (int64_t row = top; row < bottom; row++) {
        int64_t at = row * client->w + left;
        off_t place = PROTOCOL_PIXELS + at * (off_t)sizeof(uint32_t);
        if (pread(client->memory, pixels + at, (size_t)bytes, place) != bytes)
            return false;
    }
    return true;
}

/* What the library answers to a call that is known and is neither of buffers nor of parts. */
static struct nit_reply ask(nit_client client, const struct call *call)
{
    struct nit_server *server = &host.server;
    switch (call->call) {
    case CALL_VIEW:
        return nit_view(server, client);
    case CALL_PLACE:
        return nit_place(server, client, call->view, call->x, call->y, call->w, call->h);
    case CALL_OFFSET:
        return nit_offset(server, client, call->view, call->x, call->y);
    case CALL_FRONT:
        return nit_front(server, client, call->view);
    case CALL_BACK:
        return nit_back(server, client, call->view);
    case CALL_ABOVE:
        return nit_above(server, client, call->view, call->number);
    case CALL_TITLE:
        return nit_title(server, client, call->view, call->title,
                         strnlen(call->title, sizeof call->title));
    case CALL_DESTROY:
        return nit_destroy(server, client, call->view);
    case CALL_TAKE:
        return nit_take(server, client);
    default:
        return nit_upgrade(server, client, call->number);
    }
}

/* Sends the reply. False where the client has left no room for it. One that has ended meanwhile is
 * noted, so that the user is told how it has ended. */
static bool answer(struct client *client, const struct nit_reply *told)
{
    struct reply reply = { .kind = told->kind, .handle = told->handle,
                           .event = told->event.kind, .code = told->event.code,
                           .x = told->event.x, .y = told->event.y, .turn = told->event.turn,
                           .need = told->need, .left = told->left };
    if (told->kind == NIT_NO_EVENT)
        client->woken = false;
    if (send(client->socket, &reply, sizeof reply, MSG_DONTWAIT | MSG_NOSIGNAL) == sizeof reply)
        return true;
    bool left = errno == EPIPE;
    if (left)
        seats_left(client);
    return left;
}

/* Serves one call. Answers why the client is to be closed, or NULL. */
static const char *serve(struct client *client, const struct call *call)
{
    struct nit_reply reply;
    if (call->call < CALL_BUFFER || call->call > CALL_LAST)
        return "closed: it broke the protocol";
    if (call->call == CALL_BUFFER) {
        reply = nit_buffer(&host.server, client->name, call->w, call->h);
        client->w = reply.kind == NIT_DONE ? call->w : client->w;
        client->h = reply.kind == NIT_DONE ? call->h : client->h;
    } else if (call->call == CALL_REFRESH) {
        if (!copy(client, call))
            return "closed: its buffer cannot be read";
        reply = nit_refresh(&host.server, client->name, call->x, call->y, call->w, call->h,
                            pixels, MOST_WORDS);
    } else {
        reply = ask(client->name, call);
    }
    host.changed |= call->call != CALL_TAKE;
    client->stirred |= call->call != CALL_TAKE && call->call != CALL_REFRESH;
    return answer(client, &reply) ? NULL : "closed: it does not read its replies";
}

/* Serves one client until nothing is left to do or its slice is over. A call is served to its end,
 * and who uses more than a slice rests so much longer: so none has more than its part of the time.
 * The time is that of this process, since a client is not to pay for what others do meanwhile. */
static void serve_client(uint32_t seat)
{
    struct client *client = &clients[seat];
    const char *why = client->gone[0] ? client->gone : NULL;
    const uint64_t begin = spent();
    uint64_t used = 0;
    for (struct call call; !why && !client->gone[0] && used < SLICE && receive(client, &call);
         used = spent() - begin)
        why = serve(client, &call);
    if (used > 0 && !client->gone[0])
        client->rest = now() + (used < SLICE ? 0 : (SEATS - 1) * used);
    if (why)
        seats_close(seat, why);
}

/* After a look that took so long. Outside of mode Flat it makes the whole picture where views have
 * changed: who has called for that pays for it, as for calls. */
void calls_pay(uint64_t used)
{
    const bool whole = used >= SLICE && nit_state(&host.server).mode != NIT_MODE_FLAT;
    uint64_t payers = 0;
    for (int seat = 0; seat < SEATS; seat++)
        payers += clients[seat].stirred;
    for (int seat = 0; seat < SEATS; seat++) {
        struct client *client = &clients[seat];
        if (whole && client->stirred)
            client->rest = SDL_max(client->rest, now() + (SEATS - 1) * used / payers);
        client->stirred = false;
    }
}

/* The seat whose client has rested longest, of those that may be served and are not yet. */
static uint32_t longest_rested(uint64_t served)
{
    uint64_t least = now();
    uint32_t longest = NIT_NONE;
    for (uint32_t seat = 0; seat < SEATS; seat++) {
        const struct client *client = &clients[seat];
        if (client->socket == 0 || (served >> seat & 1) != 0 || client->rest > least)
            continue;
        least = client->rest;
        longest = seat;
    }
    return longest;
}

/* Serves each client once, but for a slice of time in all: then it is the devices' turn. Nobody is
 * served while the host is frozen. */
void calls_serve(void)
{
    const uint64_t end = now() + SLICE;
    uint64_t served = 0;
    uint32_t seat;
    while (!frozen() && now() < end && (seat = longest_rested(served)) != NIT_NONE) {
        serve_client(seat);
        served |= (uint64_t)1 << seat;
    }
}

/* Calls by a name that is not that of the seat's client, or its last one: each is answered so and
 * reaches nobody, also where it waited while the client went and the next one came. */
#include "answers.h"
#include "whole.h"

static struct nit_server server = NIT_CLOSED;
static uint32_t words[64];

/* A client with one view, a title and a word of its own. */
static nit_client comes(uint32_t seat, const char *label, int32_t x)
{
    nit_client client = sits_on(&server, seat, label);
    words[0] = 0xABCDEF;
    REPLY(nit_buffer(&server, client, 8, 8), .kind = NIT_DONE);
    REPLY(nit_view(&server, client), .kind = NIT_HANDLE, .handle = 1);
    REPLY(nit_place(&server, client, 1, x, 8, 8, 8), .kind = NIT_DONE);
    REPLY(nit_title(&server, client, 1, TEXT("mine")), .kind = NIT_DONE);
    REPLY(nit_refresh(&server, client, 0, 0, 8, 8, words, 64), .kind = NIT_DONE);
    return client;
}

/* ---- Each call, of which none may do anything. */

static struct nit_reply call(int number, nit_client client)
{
    switch (number) {
    case 0: return nit_buffer(&server, client, 1, 1);
    case 1: return nit_view(&server, client);
    case 2: return nit_place(&server, client, 1, 30, 20, 3, 3);
    case 3: return nit_offset(&server, client, 1, 2, 2);
    case 4: return nit_front(&server, client, 1);
    case 5: return nit_back(&server, client, 1);
    case 6: return nit_above(&server, client, 1, 1);
    case 7: return nit_title(&server, client, 1, TEXT("other"));
    case 8: return nit_title(&server, client, 1, TEXT("\n"));
    case 9: return nit_destroy(&server, client, 1);
    case 10: return nit_take(&server, client);
    case 11: return nit_upgrade(&server, client, 1);
    case 12: return nit_refresh(&server, client, 0, 0, 8, 8, words, 64);
    case 13: return nit_refresh(&server, client, 0, 0, 8, 8, words, 63);
    default: return nit_leave(&server, client);
    }
}

enum { CALLS = 15 };

static void reaches_nobody(nit_client client, uint32_t why)
{
    static struct whole before;
    read_whole(&server, &before);
    words[0] = 0x123456;
    for (int number = 0; number < CALLS; number++) {
        REPLY(call(number, client), .kind = why);
        UNCHANGED(&server, &before);
    }
    CHECK(nit_raise(&server, client, 1) == why && nit_lower(&server, client, 1) == why);
    CHECK(nit_raise(&server, client, 9) == why && nit_lower(&server, client, 0) == why);
    UNCHANGED(&server, &before);
}

/* Events wait for each client, so that taking one would be seen. */
static void begin(void)
{
    open_plain(&server, 40, 30, 3, 65536);
}

static void each_call(void)
{
    begin();
    nit_client a = comes(0, "a", 0), b = comes(1, "b", 16);
    ROUTED(nit_motion(&server, 4, 10), MOTION(0, 4, 10));
    ROUTED(nit_motion(&server, 20, 10), TOLD(0, NIT_LEAVE), MOTION(1, 20, 10));
    reaches_nobody(0, NIT_OTHER_CLIENT);
    reaches_nobody(1, NIT_OTHER_CLIENT);
    reaches_nobody(a + 65536, NIT_OTHER_CLIENT);
    reaches_nobody(b - 65536, NIT_OTHER_CLIENT);
    reaches_nobody(a + 1, NIT_OTHER_CLIENT);
    reaches_nobody(65536 + 2, NIT_OTHER_CLIENT);
    reaches_nobody(a | 1ull << 63, NIT_OTHER_CLIENT);
    reaches_nobody(a | 1ull << 32, NIT_OTHER_CLIENT);
    reaches_nobody(UINT64_MAX << 16, NIT_OTHER_CLIENT);
    reaches_nobody(a + 3, NIT_NO_SEAT);
    reaches_nobody(3, NIT_NO_SEAT);
    reaches_nobody(UINT64_MAX, NIT_NO_SEAT);
    REPLY(nit_take(&server, a), .kind = NIT_EVENT,
          .event = { .kind = NIT_MOTION, .x = 4, .y = 10 });
    REPLY(nit_take(&server, b), .kind = NIT_EVENT,
          .event = { .kind = NIT_MOTION, .x = 20, .y = 10 });
    close_plain(&server);
}

/* ---- Who went keeps the name until the next one comes, whatever is asked by it meanwhile. */

static void keeps_its_name(nit_client client, uint32_t status, uint32_t why)
{
    for (int number = 0; number < CALLS; number++)
        if (number != 8)
            REPLY(call(number, client), .kind = why);
    SEAT(nit_seat_state(&server, nit_seat_of(client)), .kind = NIT_DONE, .status = status,
         .client = client);
    CHECK(nit_raise(&server, client, 1) == NIT_NO_SUCH_VIEW);
    reaches_nobody(client + 65536, NIT_OTHER_CLIENT);
}

static void who_left(void)
{
    begin();
    keeps_its_name(2, NIT_SEAT_CLOSED, NIT_SESSION_CLOSED);
    nit_client a = comes(0, "a", 0);
    REPLY(nit_leave(&server, a), .kind = NIT_DONE);
    keeps_its_name(a, NIT_SEAT_CLOSED, NIT_SESSION_CLOSED);
    nit_client b = comes(0, "a", 0);
    ROUTED(nit_motion(&server, 4, 10), MOTION(0, 4, 10));
    reaches_nobody(a, NIT_OTHER_CLIENT);
    REPLY(nit_leave(&server, b), .kind = NIT_DONE);
    reaches_nobody(a, NIT_OTHER_CLIENT);
    keeps_its_name(b, NIT_SEAT_CLOSED, NIT_SESSION_CLOSED);
    close_plain(&server);
}

static void who_was_locked_out(void)
{
    begin();
    nit_client a = comes(0, "a", 0);
    ROUTED(nit_motion(&server, 4, 10), MOTION(0, 4, 10));
    ROUTED(nit_press(&server, 99), TOLD(0, NIT_LEAVE));
    CHECK(nit_damage(&server).kind == NIT_DONE);
    ROUTED(nit_press(&server, 272), TOLD(0, NIT_KILL));
    ROUTED(nit_release(&server, 272), NOBODY);
    keeps_its_name(a, NIT_SEAT_KILLED, NIT_SESSION_KILLED);
    nit_client b = comes(0, "b", 0);
    ROUTED(nit_motion(&server, 5, 10), MOTION(0, 5, 10));
    reaches_nobody(a, NIT_OTHER_CLIENT);
    CHECK(b == a + 65536);
    close_plain(&server);
}

/* ---- A queue of calls, as a host has it that reads from a connection in slices. */

struct queued {
    nit_client client;
    int number;
};

/* Calls of the first client wait behind its own `leave`, and the next one sits down before they are
 * served: its first view has the handle of theirs. */
static void what_waits(void)
{
    static const int order[] = { 2, 7, 14, 2, 3, 7, 12, 10, 9, 14 };
    struct queued queue[10];
    begin();
    nit_client a = comes(0, "a", 0);
    for (size_t k = 0; k < 10; k++)
        queue[k] = (struct queued){ a, order[k] };
    for (size_t k = 0; k < 3; k++)
        REPLY(call(queue[k].number, queue[k].client), .kind = NIT_DONE);
    REPLY(call(queue[3].number, queue[3].client), .kind = NIT_SESSION_CLOSED);
    nit_client b = comes(0, "a", 5);
    ROUTED(nit_motion(&server, 6, 10), MOTION(0, 6, 10));
    for (size_t k = 4; k < 10; k++)
        REPLY(call(queue[k].number, queue[k].client), .kind = NIT_OTHER_CLIENT);
    VIEW(nit_view_at(&server, 0), .kind = NIT_DONE, .view = 1, .x = 5, .y = 8, .w = 8, .h = 8);
    char title[12];
    CHECK(nit_title_at(&server, 0, title, 12) == 4 && memcmp(title, "mine", 4) == 0);
    REPLY(nit_take(&server, b), .kind = NIT_EVENT,
          .event = { .kind = NIT_MOTION, .x = 6, .y = 10 });
    close_plain(&server);
}

void clients_answer(void)
{
    each_call();
    who_left();
    who_was_locked_out();
    what_waits();
}

/* A host that goes on: memory and time stay as they are.
 *
 * usage: endless [STEPS]
 *
 * So many steps are made, 10,000,000 where no number is given, a hundred in each round; in each
 * round a client leaves and another one takes its seat. Between the end of the first round and the
 * end of the last no request for memory is made, and the memory in use is the same to the byte.
 * Then a new server is opened, and rounds of the old one and of the new one are timed in turn: the
 * least of twenty times of the old one is at most 1.2 times that of the new one. */
#include "memory.h"
#include "parts.h"
#include <malloc.h>
#include <time.h>

enum { WIDTH = 48, HEIGHT = 32, STEPS_OF_ROUND = 100, TIMES = 20, ROUNDS_OF_TIME = 500 };

/* A host's server, and how many steps it has made. */
struct host {
    struct nit_server server;
    nit_client client[3];
    uint32_t frame[WIDTH * HEIGHT], rounds;
    uint64_t steps;
};

static uint32_t words[16 * 16];

static void served(struct host *h, struct nit_reply reply, uint32_t kind)
{
    CHECK(reply.kind == kind);
    h->steps++;
}

static void routed(struct host *h, struct nit_routed to)
{
    CHECK(to.kind == NIT_DONE);
    h->steps++;
}

/* A client with a view on the screen: 4 steps. */
static void begins(struct host *h, uint32_t seat, const char *label)
{
    struct nit_server *s = &h->server;
    SEATED(nit_seat_for(s, label, 1, 0), .kind = NIT_DONE, .seat = seat);
    nit_client client = h->client[seat] = sits_on(s, seat, label);
    REPLY(nit_view(s, client), .kind = NIT_HANDLE, .handle = 1);
    h->steps++;
    served(h, nit_buffer(s, client, 16, 16), NIT_DONE);
    served(h, nit_place(s, client, 1, (int32_t)(seat * 12), 4, 20, 20), NIT_DONE);
    served(h, nit_refresh(s, client, 0, 0, 16, 16, words, 256), NIT_DONE);
}

static void look(struct host *h)
{
    CHECK(nit_look(&h->server, h->frame, WIDTH * HEIGHT).kind == NIT_DONE);
}

/* A look by damage and copies. */
static void copy(struct host *h)
{
    struct nit_damage damage = nit_damage(&h->server);
    CHECK(damage.kind == NIT_DONE && damage.count <= 16);
    for (uint32_t k = 0; k < damage.count; k++) {
        struct nit_part part = damage.part[k];
        size_t at = (size_t)part.y * WIDTH + part.x;
        CHECK(nit_copy(&h->server, part.x, part.y, part.w, part.h, h->frame + at,
                       WIDTH * HEIGHT - at, WIDTH) == NIT_DONE);
    }
}

/* What the two clients that stay do, and a click on what is shown: eight steps. The user restacks
 * beside, which is none. */
static void changes(struct host *h, uint32_t turn)
{
    struct nit_server *s = &h->server;
    nit_client client = h->client[turn % 2];
    words[turn % 256] += 0x010203;
    served(h, nit_refresh(s, client, 2, 2, 8, 8, words, 256), NIT_DONE);
    served(h, nit_place(s, client, 1, (int32_t)(turn % 16), 4, 20, 20), NIT_DONE);
    served(h, nit_front(s, client, 1), NIT_DONE);
    served(h, nit_offset(s, client, 1, (int32_t)(turn % 3), 0), NIT_DONE);
    routed(h, nit_motion(s, turn % WIDTH, 10));
    CHECK(nit_raise(s, client, 1) == NIT_DONE && nit_lower(s, client, 1) == NIT_DONE);
    if (turn % 2)
        look(h);
    else
        copy(h);
    routed(h, nit_press(s, 272));
    routed(h, nit_release(s, 272));
    struct nit_reply taken = nit_take(s, client);
    served(h, taken, taken.kind == NIT_EVENT ? NIT_EVENT : NIT_NO_EVENT);
}

/* The views of a client that stays come and go, and its handles rise: 4 steps. */
static void views(struct host *h)
{
    struct nit_server *s = &h->server;
    struct nit_reply made = nit_view(s, h->client[0]);
    served(h, made, NIT_HANDLE);
    served(h, nit_place(s, h->client[0], made.handle, 30, 8, 10, 10), NIT_DONE);
    served(h, nit_title(s, h->client[0], made.handle, TEXT("new")), NIT_DONE);
    served(h, nit_destroy(s, h->client[0], made.handle), NIT_DONE);
}

/* A hundred steps. */
static void do_round(struct host *h)
{
    uint64_t end = h->steps + STEPS_OF_ROUND;
    for (uint32_t turn = 0; turn < 10; turn++)
        changes(h, turn);
    views(h);
    routed(h, nit_press(&h->server, 70));
    look(h);
    routed(h, nit_press(&h->server, 70));
    served(h, nit_leave(&h->server, h->client[2]), NIT_DONE);
    begins(h, 2, h->rounds++ % 2 ? "c" : "d");
    while (h->steps < end)
        routed(h, nit_wheel(&h->server, 1));
    look(h);
    CHECK(h->steps == end);
}

/* A host whose three clients sit there; its first round is done. */
static void opens(struct host *h)
{
    open_plain(&h->server, WIDTH, HEIGHT, 3, 65536);
    begins(h, 0, "a");
    begins(h, 1, "b");
    begins(h, 2, "c");
    do_round(h);
}

/* ---- Memory and time. */

static size_t in_use(void)
{
    struct mallinfo2 info = mallinfo2();
    return info.uordblks + info.hblkhd;
}

static void goes_on(struct host *h, uint64_t rounds)
{
    size_t requests = memory_requests, held = memory_held, bytes = in_use();
    for (uint64_t k = 0; k < rounds; k++)
        do_round(h);
    CHECK(memory_requests == requests && memory_held == held);
    CHECK(in_use() == bytes);
    printf("endless: %llu steps, seats taken again %u times, %zu bytes in use\n",
           (unsigned long long)h->steps, h->rounds, bytes);
}

/* The processor's time for some rounds, in ns a step. */
static double time_of(struct host *h)
{
    struct timespec begun, ended;
    CHECK(clock_gettime(CLOCK_PROCESS_CPUTIME_ID, &begun) == 0);
    for (uint32_t k = 0; k < ROUNDS_OF_TIME; k++)
        do_round(h);
    CHECK(clock_gettime(CLOCK_PROCESS_CPUTIME_ID, &ended) == 0);
    double seconds = (double)(ended.tv_sec - begun.tv_sec);
    double more = (double)(ended.tv_nsec - begun.tv_nsec);
    return (1e9 * seconds + more) / ROUNDS_OF_TIME / STEPS_OF_ROUND;
}

static void is_as_fast(struct host *old, struct host *new)
{
    double least_of_old = 1e9, least_of_new = 1e9;
    for (int k = 0; k < TIMES; k++) {
        double one = time_of(old), other = time_of(new);
        least_of_old = one < least_of_old ? one : least_of_old;
        least_of_new = other < least_of_new ? other : least_of_new;
    }
    printf("endless: %.0f ns a step, and %.0f of a new server\n", least_of_old, least_of_new);
    CHECK(least_of_old <= 1.2 * least_of_new);
}

int main(int count, char **given)
{
    static struct host old, new;
    uint64_t steps = count > 1 ? number_in(given[1]) : 10000000;
    CHECK(setvbuf(stdout, NULL, _IONBF, 0) == 0);
    opens(&old);
    goes_on(&old, steps / STEPS_OF_ROUND);
    opens(&new);
    is_as_fast(&old, &new);
    close_plain(&old.server);
    close_plain(&new.server);
    return 0;
}

/* Two servers, each on a thread of its own: what each answers and shows is what it answers and
 * shows where it is alone.
 *
 * usage: threads
 *
 * Each of ROUNDS rounds opens a server, makes random calls of two clients and the user, looks in
 * each way, and closes it. All that is answered goes into a sum. The rounds of each thread are made
 * first one after the other, and then with the two threads beside each other. */
#include "parts.h"
#include <pthread.h>

enum { THREADS = 2, ROUNDS = 40, CALLS = 300, WIDTH = 96, HEIGHT = 64, COUNT = WIDTH * HEIGHT,
       BUFFER = 32 };

/* What one thread has. */
struct host {
    struct random random;
    struct nit_server server;
    nit_client client[2];
    uint64_t sum, calls;
    uint32_t words[BUFFER * BUFFER], frame[COUNT];
};

static void add(struct host *h, const void *answer, size_t size)
{
    const unsigned char *at = answer;
    for (size_t k = 0; k < size; k++)
        h->sum = (h->sum ^ at[k]) * 0x100000001B3u;
}

static uint32_t below(struct host *h, uint32_t most)
{
    return (uint32_t)draw(&h->random, most);
}

/* ---- Calls. */

static struct nit_reply call(struct host *h, nit_client client)
{
    struct nit_server *s = &h->server;
    uint32_t view = 1 + below(h, 5);
    int32_t x = (int32_t)below(h, WIDTH) - 16, y = (int32_t)below(h, HEIGHT) - 16;
    h->words[below(h, BUFFER * BUFFER)] = below(h, 1u << 24);
    switch (below(h, 8)) {
    case 0: return nit_view(s, client);
    case 1: return nit_place(s, client, view, x, y, below(h, 60), below(h, 60));
    case 2: return nit_front(s, client, view);
    case 3: return nit_destroy(s, client, view);
    case 4: return nit_title(s, client, view, TEXT("thread"));
    case 5: return nit_take(s, client);
    default: return nit_refresh(s, client, x, y, 40, 40, h->words, BUFFER * BUFFER);
    }
}

static struct nit_routed input(struct host *h)
{
    static const uint32_t codes[] = { 70, 99, 70, 30, 272, 272 };
    struct nit_server *s = &h->server;
    uint32_t held = nit_held(s, 0);
    if (held != NIT_NONE)
        return nit_release(s, held);
    if (below(h, 2) == 0)
        return nit_motion(s, below(h, WIDTH), below(h, HEIGHT));
    return nit_press(s, codes[below(h, sizeof codes / sizeof *codes)]);
}

static void looks(struct host *h)
{
    struct nit_damage damage;
    struct nit_rect part;
    if (below(h, 2) == 0) {
        part = nit_look(&h->server, h->frame, COUNT);
        add(h, &part, sizeof part);
    } else {
        damage = nit_damage(&h->server);
        CHECK(nit_copy(&h->server, 0, 0, WIDTH, HEIGHT, h->frame, COUNT, WIDTH) == NIT_DONE);
        add(h, &damage, sizeof damage);
    }
    add(h, h->frame, sizeof h->frame);
}

/* A client that went comes again. */
static void sits(struct host *h, uint32_t seat)
{
    static const char *const labels[] = { "a", "b" };
    if (nit_seat_state(&h->server, seat).status == NIT_SEAT_LIVE)
        return;
    h->client[seat] = sits_on(&h->server, seat, labels[seat]);
    REPLY(nit_buffer(&h->server, h->client[seat], BUFFER, BUFFER), .kind = NIT_DONE);
}

static void does(struct host *h)
{
    struct nit_reply reply;
    struct nit_routed routed;
    uint32_t seat = below(h, 2);
    sits(h, seat);
    reply = call(h, h->client[seat]);
    add(h, &reply, sizeof reply);
    routed = input(h);
    add(h, &routed, sizeof routed);
    h->calls += 2;
    if (below(h, 3) == 0)
        looks(h);
}

static void *rounds(void *given)
{
    struct host *h = given;
    for (int round = 0; round < ROUNDS; round++) {
        open_plain(&h->server, WIDTH, HEIGHT, 2, 65536);
        for (int k = 0; k < CALLS; k++)
            does(h);
        looks(h);
        close_plain(&h->server);
    }
    return NULL;
}

int main(void)
{
    static struct host alone[THREADS], beside[THREADS];
    pthread_t thread[THREADS];
    for (uint64_t k = 0; k < THREADS; k++) {
        alone[k].random.at = beside[k].random.at = 7 + k;
        rounds(&alone[k]);
    }
    CHECK(alone[0].sum != alone[1].sum);
    for (int k = 0; k < THREADS; k++)
        CHECK(pthread_create(&thread[k], NULL, rounds, &beside[k]) == 0);
    for (int k = 0; k < THREADS; k++) {
        CHECK(pthread_join(thread[k], NULL) == 0);
        CHECK(beside[k].sum == alone[k].sum && beside[k].calls == alone[k].calls);
    }
    printf("threads: %d servers, %llu calls each\n", THREADS, (unsigned long long)beside[0].calls);
    return 0;
}

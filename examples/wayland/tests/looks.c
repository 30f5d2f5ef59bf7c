/* Times the looks of a host: the linker puts these in front of what they name (--wrap). How long
 * the last looks took is said at the end, as medians. */
#include "shared.h"
#include <stdio.h>
#include <time.h>

enum { KEPT = 8192 };

/* Of the last looks: what the library took of a processor, and until all was shown; nanoseconds. */
static uint64_t library[KEPT], all[KEPT], now_library;
static size_t looks;

bool __real_screen_look(void);
struct nit_damage __real_nit_damage(struct nit_server *server);
uint32_t __real_nit_copy(struct nit_server *server, uint32_t x, uint32_t y, uint32_t w, uint32_t h,
                         uint32_t *out, size_t count, size_t pitch);

static uint64_t clock_of(clockid_t clock)
{
    struct timespec time;
    clock_gettime(clock, &time);
    return (uint64_t)time.tv_sec * 1000000000 + (uint64_t)time.tv_nsec;
}

struct nit_damage __wrap_nit_damage(struct nit_server *server)
{
    uint64_t begin = clock_of(CLOCK_THREAD_CPUTIME_ID);
    struct nit_damage damage = __real_nit_damage(server);
    now_library += clock_of(CLOCK_THREAD_CPUTIME_ID) - begin;
    return damage;
}

uint32_t __wrap_nit_copy(struct nit_server *server, uint32_t x, uint32_t y, uint32_t w, uint32_t h,
                         uint32_t *out, size_t count, size_t pitch)
{
    uint64_t begin = clock_of(CLOCK_THREAD_CPUTIME_ID);
    uint32_t answer = __real_nit_copy(server, x, y, w, h, out, count, pitch);
    now_library += clock_of(CLOCK_THREAD_CPUTIME_ID) - begin;
    return answer;
}

bool __wrap_screen_look(void)
{
    uint64_t begin = clock_of(CLOCK_MONOTONIC);
    now_library = 0;
    bool shown = __real_screen_look();
    library[looks % KEPT] = now_library;
    all[looks++ % KEPT] = clock_of(CLOCK_MONOTONIC) - begin;
    return shown;
}

static int order(const void *a, const void *b)
{
    uint64_t one = *(const uint64_t *)a, other = *(const uint64_t *)b;
    return (one > other) - (one < other);
}

static double median(uint64_t *times)
{
    size_t count = looks < KEPT ? looks : KEPT;
    qsort(times, count, sizeof *times, order);
    return (double)times[count / 2] / 1000;
}

__attribute__((destructor)) static void tell(void)
{
    printf("looks: %zu, median us: library %.1f all %.1f\n", looks, median(library), median(all));
}

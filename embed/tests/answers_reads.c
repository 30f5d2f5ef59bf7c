/* Which words a refresh reads: those of its part alone. The words of the buffer fill pages, and
 * while a refresh runs no page may be touched but those that have words of the part. */
#include "answers.h"
#include "parts.h"
#include <sys/mman.h>
#include <unistd.h>

/* A row has two pages, and behind the last row stands one more. */
enum { PAGE = 1024, WIDE = 2 * PAGE, HIGH = 4, PAGES = 2 * HIGH + 1, COUNT = PAGES * PAGE,
       SIDE = 8 };

struct part {
    int32_t x, y;
    uint32_t w, h;
};

static struct nit_server server = NIT_CLOSED;
static nit_client a;
static uint32_t *words, turn, frame[SIDE * SIDE];

static void begin(void)
{
    size_t bytes = 4 * (size_t)COUNT;
    CHECK(sysconf(_SC_PAGESIZE) == 4 * PAGE);
    words = mmap(NULL, bytes, PROT_READ | PROT_WRITE, MAP_PRIVATE | MAP_ANONYMOUS, -1, 0);
    CHECK(words != MAP_FAILED);
    open_plain(&server, SIDE, SIDE, 1, 131072);
    a = sits_on(&server, 0, "a");
    REPLY(nit_buffer(&server, a, WIDE, HIGH), .kind = NIT_DONE);
    REPLY(nit_view(&server, a), .kind = NIT_HANDLE, .handle = 1);
    CHECK(nit_look(&server, frame, SIDE * SIDE).kind == NIT_DONE);
}

static void end(void)
{
    CHECK(munmap(words, 4 * (size_t)COUNT) == 0);
    close_plain(&server);
}

static void allow(size_t first, size_t count, int how)
{
    CHECK(mprotect(words + first * PAGE, 4 * count * PAGE, how) == 0);
}

static bool has(struct part part, int32_t x, int32_t y)
{
    return x >= part.x && y >= part.y && x - part.x < (int32_t)part.w
        && y - part.y < (int32_t)part.h;
}

/* Lets those pages be read that have a word of the part. */
static void allow_part(struct part part)
{
    for (int32_t y = 0; y < HIGH; y++)
        for (int32_t x = 0; x < WIDE; x++)
            if (has(part, x, y)) {
                allow((size_t)(y * WIDE + x) / PAGE, 1, PROT_READ);
                x |= PAGE - 1;
            }
}

/* A refresh with new words that has to read those of this part, and no page without one. */
static struct nit_reply refreshed(struct part part, struct part read)
{
    turn++;
    for (uint32_t k = 0; k < COUNT; k++)
        words[k] = 0x10000 * turn + k;
    allow(0, PAGES, PROT_NONE);
    allow_part(read);
    struct nit_reply reply = nit_refresh(&server, a, part.x, part.y, part.w, part.h, words, COUNT);
    allow(0, PAGES, PROT_READ | PROT_WRITE);
    return reply;
}

/* The view shows this place of the buffer in the corner of the screen. */
static uint32_t shown(int32_t x, int32_t y)
{
    REPLY(nit_place(&server, a, 1, -x, -y, WIDE, HIGH), .kind = NIT_DONE);
    CHECK(nit_look(&server, frame, SIDE * SIDE).kind == NIT_DONE);
    return frame[0];
}

static void reads(int32_t x, int32_t y, uint32_t w, uint32_t h)
{
    struct part part = { x, y, w, h };
    int32_t left = x < 0 ? 0 : x, top = y < 0 ? 0 : y;
    REPLY(refreshed(part, part), .kind = NIT_DONE);
    CHECK(shown(left, top) == 0x10000 * turn + (uint32_t)(top * WIDE + left));
}

static void reads_none(int32_t x, int32_t y, uint32_t w, uint32_t h)
{
    struct part part = { x, y, w, h }, none = { 0 };
    REPLY(refreshed(part, none), .kind = NIT_DONE);
}

/* Pages begin in columns 0 and 1024. */
static void parts_of_pages(void)
{
    begin();
    reads(0, 1, PAGE, 1);
    reads(PAGE, 1, PAGE, 2);
    reads(PAGE, 2, 1, 1);
    reads(PAGE - 1, 2, 1, 1);
    reads(WIDE - 1, HIGH - 1, 1, 1);
    reads(0, 0, 1, HIGH);
    reads(PAGE - 1, 0, 2, 1);
    reads(-5, -5, 5 + PAGE, 6);
    reads(PAGE, HIGH - 1, 32767, 32767);
    reads(-32000, -32000, 32001, 32003);
    reads_none(0, 0, 0, HIGH);
    reads_none(0, 0, WIDE, 0);
    reads_none(WIDE, 0, 32767, 32767);
    reads_none(0, HIGH, 32767, 32767);
    reads_none(-32768, -32768, 32767, 32767);
    end();
}

/* A refresh that is refused, or is not served, reads nothing. */
static void refusals_read_nothing(void)
{
    struct nit_server none = NIT_CLOSED;
    begin();
    allow(0, PAGES, PROT_NONE);
    REPLY(nit_refresh(&none, 0, 0, 0, 1, 1, words, COUNT), .kind = NIT_NO_SERVER);
    REPLY(nit_refresh(&server, a + 1, 0, 0, 1, 1, words, COUNT), .kind = NIT_NO_SEAT);
    REPLY(nit_refresh(&server, a, 0, 0, 1, 1, words, WIDE * HIGH - 1), .kind = NIT_SHORT_WORDS);
    REPLY(nit_refresh(&server, a, 0, 0, 32768, 1, words, COUNT), .kind = NIT_BAD_RECT);
    REPLY(nit_leave(&server, a), .kind = NIT_DONE);
    REPLY(nit_refresh(&server, a, 0, 0, 1, 1, words, COUNT), .kind = NIT_SESSION_CLOSED);
    end();
}

void refreshes_read(void)
{
    parts_of_pages();
    refusals_read_nothing();
}

/* Which words are copied: those of the part, to their places in the rows of a surface, and no other
 * one. */
#include "answers.h"
#include "parts.h"

enum { WIDTH = 40, HEIGHT = 30, COUNT = WIDTH * HEIGHT, KEPT = 0xC0FFEE };

static struct nit_server server = NIT_CLOSED;
static nit_client a;
static uint32_t frame[COUNT], *words;

static void handed_in(uint32_t x, uint32_t y, uint32_t word)
{
    words[y * WIDTH + x] = word;
    REPLY(nit_refresh(&server, a, (int32_t)x, (int32_t)y, 1, 1, words, COUNT), .kind = NIT_DONE);
}

/* Each pixel of the screen is another one, and none was looked at. */
static void begin(void)
{
    words = guarded_words(COUNT);
    open_plain(&server, WIDTH, HEIGHT, 1, 65536);
    a = sits_on(&server, 0, "a");
    for (uint32_t k = 0; k < COUNT; k++)
        words[k] = 0x10000 + k;
    REPLY(nit_buffer(&server, a, WIDTH, HEIGHT), .kind = NIT_DONE);
    REPLY(nit_view(&server, a), .kind = NIT_HANDLE, .handle = 1);
    REPLY(nit_place(&server, a, 1, 0, 0, WIDTH, HEIGHT), .kind = NIT_DONE);
    REPLY(nit_refresh(&server, a, 0, 0, WIDTH, HEIGHT, words, COUNT), .kind = NIT_DONE);
}

/* Rows that are `pitch` apart, and behind which a few more words lie. */
static uint32_t *kept(size_t count)
{
    uint32_t *out = guarded_words(count);
    for (size_t k = 0; k < count; k++)
        out[k] = KEPT;
    return out;
}

/* The words of the part are there, and each other one is kept. */
static void has(const uint32_t *out, size_t count, struct nit_part part, size_t pitch)
{
    size_t found = 0;
    for (size_t k = 0; k < count; k++) {
        size_t row = pitch == 0 ? 0 : k / pitch, column = k - row * pitch;
        bool is_in = row < part.h && column < part.w;
        uint32_t x = part.x + (uint32_t)column, y = part.y + (uint32_t)row;
        found += is_in;
        CHECK(out[k] == (is_in ? 0x10000 + y * WIDTH + x : KEPT));
    }
    CHECK(found == (size_t)part.w * part.h);
}

/* Where memory ends behind the last word, and where more lies there. */
static void copies(uint32_t x, uint32_t y, uint32_t w, uint32_t h, size_t pitch)
{
    for (size_t more = 0; more <= 9; more += 3) {
        size_t count = (h - 1) * pitch + w + more;
        uint32_t *out = kept(count);
        CHECK(nit_copy(&server, x, y, w, h, out, count, pitch) == NIT_DONE);
        has(out, count, (struct nit_part){ x, y, w, h }, pitch);
    }
}

static void parts(void)
{
    begin();
    copies(0, 0, WIDTH, HEIGHT, WIDTH);
    copies(0, 0, WIDTH, HEIGHT, WIDTH + 7);
    copies(0, 0, 1, 1, 1);
    copies(WIDTH - 1, HEIGHT - 1, 1, 1, 5);
    copies(3, 4, 5, 6, 5);
    copies(3, 4, 5, 6, 6);
    copies(3, 4, 5, 6, 1000);
    copies(0, HEIGHT - 1, WIDTH, 1, WIDTH);
    copies(WIDTH - 1, 0, 1, HEIGHT, 1);
    copies(WIDTH - 1, 0, 1, HEIGHT, 2);
    copies(7, 29, 33, 1, 33);
    close_plain(&server);
}

/* A part of one row has no row behind it, so its pitch says nothing. */
static void one_row(void)
{
    static const size_t pitches[] = { 0, 1, 4, 5, SIZE_MAX / 2 + 1, SIZE_MAX };
    begin();
    for (size_t k = 0; k < sizeof pitches / sizeof *pitches; k++) {
        uint32_t *out = kept(5);
        CHECK(nit_copy(&server, 3, 4, 5, 1, out, 5, pitches[k]) == NIT_DONE);
        has(out, 5, (struct nit_part){ 3, 4, 5, 1 }, 5);
    }
    close_plain(&server);
}

#define PART(...) (struct nit_part){ __VA_ARGS__ }

/* Nothing of the words changes where nothing is copied. */
static void nothing(struct nit_part part, size_t count, size_t pitch, uint32_t why)
{
    uint32_t *out = kept(100);
    CHECK(nit_copy(&server, part.x, part.y, part.w, part.h, out + 100 - count, count, pitch)
          == why);
    for (int k = 0; k < 100; k++)
        CHECK(out[k] == KEPT);
}

static void empty_parts(void)
{
    begin();
    nothing(PART(0, 0, 0, 0), 0, 0, NIT_DONE);
    nothing(PART(5, 5, 0, 7), 0, 0, NIT_DONE);
    nothing(PART(5, 5, 7, 0), 0, 0, NIT_DONE);
    nothing(PART(5, 5, 7, 0), 9, 2, NIT_DONE);
    nothing(PART(5, 5, 0, 7), 9, SIZE_MAX, NIT_DONE);
    nothing(PART(WIDTH, HEIGHT, 0, 0), 100, 40, NIT_DONE);
    nothing(PART(0, HEIGHT, WIDTH, 0), 100, 1, NIT_DONE);
    nothing(PART(WIDTH, 0, 0, HEIGHT), 100, 1, NIT_DONE);
    nothing(PART(WIDTH + 1, 0, 0, 0), 100, 1, NIT_BAD_RECT);
    nothing(PART(0, HEIGHT, 0, 1), 100, 1, NIT_BAD_RECT);
    nothing(PART(5, UINT32_MAX, 7, 0), 0, 0, NIT_BAD_RECT);
    close_plain(&server);
}

static void refusals(void)
{
    begin();
    nothing(PART(0, 0, WIDTH + 1, 1), 100, 50, NIT_BAD_RECT);
    nothing(PART(0, 0, 1, HEIGHT + 1), 100, 1, NIT_BAD_RECT);
    nothing(PART(WIDTH, 0, 1, 1), 100, 50, NIT_BAD_RECT);
    nothing(PART(0, HEIGHT, 1, 1), 100, 50, NIT_BAD_RECT);
    nothing(PART(WIDTH - 1, 0, 2, 1), 100, 50, NIT_BAD_RECT);
    nothing(PART(UINT32_MAX, 0, 1, 1), 100, 50, NIT_BAD_RECT);
    nothing(PART(UINT32_MAX, 0, 2, 1), 100, 50, NIT_BAD_RECT);
    nothing(PART(0, UINT32_MAX, 1, 2), 100, 50, NIT_BAD_RECT);
    nothing(PART(2, 2, UINT32_MAX, 1), 100, 50, NIT_BAD_RECT);
    nothing(PART(2, 2, 1, UINT32_MAX), 100, 50, NIT_BAD_RECT);
    nothing(PART(0, 0, WIDTH + 1, 2), 0, 0, NIT_BAD_RECT);
    nothing(PART(3, 4, 5, 2), 100, 4, NIT_WRONG_FRAME);
    nothing(PART(3, 4, 5, 2), 100, 0, NIT_WRONG_FRAME);
    nothing(PART(3, 4, 5, 1), 4, 5, NIT_WRONG_FRAME);
    nothing(PART(3, 4, 5, 1), 0, 5, NIT_WRONG_FRAME);
    nothing(PART(3, 4, 5, 3), 24, 10, NIT_WRONG_FRAME);
    nothing(PART(3, 4, 5, 3), 100, 48, NIT_WRONG_FRAME);
    nothing(PART(3, 4, 5, 3), 100, SIZE_MAX / 2 + 1, NIT_WRONG_FRAME);
    nothing(PART(3, 4, 5, 2), 100, SIZE_MAX, NIT_WRONG_FRAME);
    nothing(PART(3, 4, 5, 2), 100, SIZE_MAX - 4, NIT_WRONG_FRAME);
    nothing(PART(3, 4, 5, 9), 100, SIZE_MAX / 4 + 1, NIT_WRONG_FRAME);
    close_plain(&server);
}

/* The words are those of now, and a copy is no look: what changed is told all the same. */
static void of_now(void)
{
    uint32_t word = KEPT;
    begin();
    RECT(nit_look(&server, frame, COUNT), .kind = NIT_DONE, .w = WIDTH, .h = HEIGHT);
    handed_in(9, 8, 0x123456);
    CHECK(nit_copy(&server, 9, 8, 1, 1, &word, 1, 1) == NIT_DONE && word == 0x123456);
    handed_in(9, 8, 0xFF654321);
    CHECK(nit_copy(&server, 9, 8, 1, 1, &word, 1, 1) == NIT_DONE && word == 0x654321);
    RECT(nit_look(&server, frame, COUNT), .kind = NIT_DONE, .x = 9, .y = 8, .w = 1, .h = 1);
    CHECK(frame[8 * WIDTH + 9] == 0x654321);
    close_plain(&server);
}

/* In each mode a copy has what a look puts. */
static void in_modes(void)
{
    static const uint32_t keys[] = { 70, 99, 99 };
    begin();
    for (size_t k = 0; k < 3; k++) {
        uint32_t *out = kept(COUNT);
        CHECK(nit_press(&server, keys[k]).kind == NIT_DONE);
        CHECK(nit_copy(&server, 0, 0, WIDTH, HEIGHT, out, COUNT, WIDTH) == NIT_DONE);
        CHECK(nit_look_anew(&server, frame, COUNT).kind == NIT_DONE);
        CHECK(memcmp(out, frame, sizeof frame) == 0);
        CHECK((frame[COUNT / 2] == words[COUNT / 2]) == (k == 2));
    }
    close_plain(&server);
}

void copies_answer(void)
{
    parts();
    one_row();
    empty_parts();
    refusals();
    of_now();
    in_modes();
}

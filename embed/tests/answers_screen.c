/* What the screen shows, by the rules of pixels, of the stack and of the modes. */
#include "answers.h"
#include "parts.h"

enum { WIDTH = 32, HEIGHT = 24, BARE = 0x000020, WHITE = 0xFFFFFF, GREY = 0x808080 };

static struct nit_server server = NIT_CLOSED;
static uint32_t *frame;
static nit_client name[16];

static uint32_t at(uint32_t x, uint32_t y)
{
    return frame[y * WIDTH + x];
}

/* The part that changed since the last look. */
static struct nit_rect look(void)
{
    return look_whole(&server, frame, WIDTH, HEIGHT);
}

/* A server of so many seats; `layers` has one word for each, and a click gives each the focus. */
static void begin(uint32_t bar, uint32_t count, const uint32_t *layers)
{
    struct nit_seat_plan seats[16];
    for (uint32_t k = 0; k < count; k++)
        seats[k] = (struct nit_seat_plan){ .donation = 65536, .layer = layers[k], .clicks = 1 };
    struct nit_plan plan = { .width = WIDTH, .height = HEIGHT, .bar = bar,
                             .count = count, .seats = seats };
    CHECK(nit_open(&server, &plan) == NIT_DONE);
    frame = guarded_words(WIDTH * HEIGHT);
    for (uint32_t k = 0; k < WIDTH * HEIGHT; k++)
        frame[k] = 0xFFFFFFFF;
    RECT(look(), .kind = NIT_DONE, .w = WIDTH, .h = HEIGHT);
    RECT(look(), .kind = NIT_DONE);
}

/* A client with a buffer of w by h words, all of one colour, and a view over it. */
static void client(uint32_t seat, const char *label, uint32_t colour, int32_t x, int32_t y,
                   uint32_t w, uint32_t h)
{
    uint32_t *words = guarded_words((size_t)w * h);
    for (uint32_t k = 0; k < w * h; k++)
        words[k] = colour;
    name[seat] = sits_on(&server, seat, label);
    REPLY(nit_buffer(&server, name[seat], w, h), .kind = NIT_DONE);
    REPLY(nit_view(&server, name[seat]), .kind = NIT_HANDLE, .handle = 1);
    REPLY(nit_place(&server, name[seat], 1, x, y, w, h), .kind = NIT_DONE);
    REPLY(nit_refresh(&server, name[seat], 0, 0, w, h, words, (size_t)w * h), .kind = NIT_DONE);
}

/* ---- Looking. */

static void looks(void)
{
    begin(0, 1, (const uint32_t[]){ 0 });
    CHECK(at(0, 0) == BARE && at(WIDTH - 1, HEIGHT - 1) == BARE);
    RECT(nit_look(&server, frame, WIDTH * HEIGHT - 1), .kind = NIT_WRONG_FRAME);
    RECT(nit_look(&server, frame, 0), .kind = NIT_WRONG_FRAME);
    RECT(nit_look(&server, frame, SIZE_MAX), .kind = NIT_WRONG_FRAME);
    client(0, "a", 0x123456, 10, 20, 4, 3);
    RECT(look(), .kind = NIT_DONE, .x = 10, .y = 20, .w = 4, .h = 3);
    CHECK(at(10, 20) == 0x123456 && at(13, 22) == 0x123456);
    CHECK(at(9, 20) == BARE && at(14, 22) == BARE && at(10, 19) == BARE && at(13, 23) == BARE);
    RECT(look(), .kind = NIT_DONE);
    frame[5] = 1;             /* not as the look left it, and nothing changed there */
    RECT(nit_look(&server, frame, WIDTH * HEIGHT), .kind = NIT_DONE);
    CHECK(at(5, 0) == 1);
    frame[5] = BARE;
    REPLY(nit_place(&server, name[0], 1, 11, 20, 4, 3), .kind = NIT_DONE);
    RECT(look(), .kind = NIT_DONE, .x = 10, .y = 20, .w = 5, .h = 3);
    CHECK(at(10, 20) == BARE && at(14, 22) == 0x123456);
    REPLY(nit_leave(&server, name[0]), .kind = NIT_DONE);
    RECT(look(), .kind = NIT_DONE, .x = 11, .y = 20, .w = 4, .h = 3);
    close_plain(&server);
}

/* ---- Words. */

static void words_of_a_buffer(void)
{
    uint32_t *words = guarded_words(12);
    for (uint32_t k = 0; k < 12; k++)
        words[k] = 0xAB000000 + k;
    REPLY(nit_refresh(&server, name[0], 1, 1, 2, 1, words, 12), .kind = NIT_DONE);
    RECT(look(), .kind = NIT_DONE, .x = 11, .y = 21, .w = 2, .h = 1);
    CHECK(at(11, 21) == 5 && at(12, 21) == 6 && at(13, 21) == 0x123456);
    REPLY(nit_refresh(&server, name[0], -1, -1, 2, 2, words, 12), .kind = NIT_DONE);
    RECT(look(), .kind = NIT_DONE, .x = 10, .y = 20, .w = 1, .h = 1);
    memset(words, 0x55, 48);
    RECT(look(), .kind = NIT_DONE);
    REPLY(nit_place(&server, name[0], 1, 0, 0, 6, 5), .kind = NIT_DONE);
    RECT(look(), .kind = NIT_DONE, .w = 14, .h = 23);
    CHECK(at(0, 0) == 0 && at(1, 1) == 5 && at(3, 2) == 0x123456);
    CHECK(at(4, 0) == 0 && at(0, 3) == 0 && at(5, 4) == 0 && at(6, 0) == BARE);
    REPLY(nit_offset(&server, name[0], 1, 2, 1), .kind = NIT_DONE);
    look();
    CHECK(at(0, 0) == 0 && at(3, 2) == 5 && at(5, 3) == 0x123456 && at(1, 1) == 0);
}

/* Words stay by their index when the buffer gets another size. */
static void other_sizes(void)
{
    REPLY(nit_buffer(&server, name[0], 3, 4), .kind = NIT_DONE);
    look();
    CHECK(at(2, 1) == 0 && at(4, 2) == 5 && at(2, 3) == 6 && at(4, 4) == 0x123456);
    CHECK(at(5, 2) == 0 && at(2, 2) == 0x123456);
    REPLY(nit_buffer(&server, name[0], 5, 3), .kind = NIT_DONE);
    look();
    CHECK(at(2, 2) == 5 && at(3, 2) == 6 && at(3, 3) == 0x123456 && at(4, 3) == 0);
    REPLY(nit_buffer(&server, name[0], 1, 1), .kind = NIT_DONE);
    look();
    CHECK(at(2, 1) == 0 && at(3, 1) == 0 && at(2, 2) == 0);
    REPLY(nit_buffer(&server, name[0], 4, 3), .kind = NIT_DONE);
    look();
    CHECK(at(3, 2) == 5 && at(5, 3) == 0x123456);
}

/* What is refused is not kept either. */
static void words_refused(void)
{
    uint32_t *words = guarded_words(12);
    memset(words, 0x66, 48);
    REPLY(nit_refresh(&server, name[0], 0, 0, 32768, 3, words, 12), .kind = NIT_BAD_RECT);
    REPLY(nit_refresh(&server, name[0], 0, 0, 4, 3, words + 1, 11), .kind = NIT_SHORT_WORDS);
    REPLY(nit_offset(&server, name[0], 1, 0, 0), .kind = NIT_DONE);
    look();
    CHECK(at(0, 0) == 0 && at(3, 2) == 0x123456);
}

/* More words than the buffer has are not read, and a part that lies past it shows nothing. */
static void words_past_the_buffer(void)
{
    uint32_t *words = guarded_words(20);
    for (uint32_t k = 0; k < 20; k++)
        words[k] = 0x700 + k;
    REPLY(nit_refresh(&server, name[0], 3, 2, 32767, 32767, words, 20), .kind = NIT_DONE);
    RECT(look(), .kind = NIT_DONE, .x = 3, .y = 2, .w = 1, .h = 1);
    CHECK(at(3, 2) == 0x70B);
    REPLY(nit_refresh(&server, name[0], 4, 0, 10, 3, words, 20), .kind = NIT_DONE);
    REPLY(nit_refresh(&server, name[0], 0, 0, 0, 3, words, 20), .kind = NIT_DONE);
    RECT(look(), .kind = NIT_DONE);
}

static void words(void)
{
    begin(0, 1, (const uint32_t[]){ 0 });
    client(0, "a", 0x123456, 10, 20, 4, 3);
    look();
    words_of_a_buffer();
    other_sizes();
    words_refused();
    words_past_the_buffer();
    close_plain(&server);
}

/* ---- The stack. */

static uint32_t front_word(void)
{
    look();
    return at(4, 4);
}

/* Three clients stand one over the other; the first two are in one layer. */
static void layers(void)
{
    begin(0, 3, (const uint32_t[]){ 1, 1, 2 });
    client(0, "a", 0xA, 0, 0, 8, 8);
    client(1, "b", 0xB, 0, 0, 8, 8);
    client(2, "c", 0xC, 0, 0, 8, 8);
    CHECK(front_word() == 0xB);
    REPLY(nit_front(&server, name[2], 1), .kind = NIT_DONE);
    CHECK(front_word() == 0xB);
    REPLY(nit_front(&server, name[0], 1), .kind = NIT_DONE);
    CHECK(front_word() == 0xA);
    REPLY(nit_back(&server, name[0], 1), .kind = NIT_DONE);
    CHECK(front_word() == 0xB);
    REPLY(nit_back(&server, name[1], 1), .kind = NIT_DONE);
    CHECK(front_word() == 0xA);
    REPLY(nit_destroy(&server, name[0], 1), .kind = NIT_DONE);
    CHECK(front_word() == 0xB);
    REPLY(nit_leave(&server, name[1]), .kind = NIT_DONE);
    CHECK(front_word() == 0xC);
    close_plain(&server);
}

/* A client puts one view of its own directly in front of another one. */
static void views_above(void)
{
    begin(0, 1, (const uint32_t[]){ 0 });
    client(0, "a", 0xA, 0, 0, 8, 8);
    REPLY(nit_view(&server, name[0]), .kind = NIT_HANDLE, .handle = 2);
    REPLY(nit_place(&server, name[0], 2, 4, 4, 2, 2), .kind = NIT_DONE);
    REPLY(nit_offset(&server, name[0], 2, 100, 100), .kind = NIT_DONE);
    CHECK(front_word() == 0);
    REPLY(nit_above(&server, name[0], 1, 2), .kind = NIT_DONE);
    CHECK(front_word() == 0xA);
    REPLY(nit_above(&server, name[0], 1, 1), .kind = NIT_DONE);
    CHECK(front_word() == 0xA);
    REPLY(nit_above(&server, name[0], 2, 1), .kind = NIT_DONE);
    CHECK(front_word() == 0);
    close_plain(&server);
}

/* ---- Modes: the letters `f`, `x` and `k` of the bar differ in its first and third row. */

static void is_row(uint32_t y, uint32_t first, uint32_t second, uint32_t third)
{
    CHECK(at(0, y) == 0 && at(1, y) == first && at(2, y) == second && at(3, y) == third);
}

static void inner_words(uint32_t focused, uint32_t other, uint32_t ring_a, uint32_t ring_b)
{
    CHECK(at(1, 20) == focused && at(17, 20) == other);
    CHECK(at(15, 8) == ring_a && at(15, 23) == ring_a && at(0, 15) == ring_a);
    CHECK(at(31, 8) == ring_b && at(31, 23) == ring_b && at(16, 15) == ring_b);
}

/* The label of `a` is 5 by 7 and stands in the corner; `a` is 25755: a dot in its first row. */
static void modes(void)
{
    begin(1, 2, (const uint32_t[]){ 0, 0 });
    client(0, "a", 0xFE8041, 0, 8, 16, 16);
    client(1, "b", 0x8041FE, 16, 8, 16, 16);
    look();
    is_row(1, WHITE, WHITE, WHITE);
    ROUTED(nit_motion(&server, 5, 15), MOTION(0, 5, 15));
    ROUTED(nit_press(&server, 272), TOLD(0, NIT_FOCUS_ENTER), PRESS(0, 272));
    ROUTED(nit_release(&server, 272), RELEASE(0, 272));
    look();
    inner_words(0xFE8041, 0x8041FE, 0xFE8041, 0x8041FE);
    ROUTED(nit_press(&server, 70), TOLD(0, NIT_LEAVE));
    look();
    is_row(1, WHITE, 0, WHITE);
    is_row(3, 0, WHITE, 0);
    inner_words(0xFE8041, 0x40207F, WHITE, GREY);
    CHECK(at(2, 9) == WHITE && at(1, 9) == 0 && at(2, 8) == 0);
    ROUTED(nit_press(&server, 99), NOBODY);
    look();
    is_row(3, WHITE, WHITE, 0);
    inner_words(0xFF4020, 0xC0207F, 0xFF0000, 0xFF0000);
    ROUTED(nit_press(&server, 99), NOBODY);
    look();
    inner_words(0xFE8041, 0x8041FE, 0xFE8041, 0x8041FE);
    close_plain(&server);
}

/* ---- A seat that is taken again shows nothing of the client before. */

static void taken_again(void)
{
    begin(0, 1, (const uint32_t[]){ 0 });
    client(0, "a", 0x123456, 10, 20, 4, 3);
    look();
    CHECK(at(10, 20) == 0x123456);
    REPLY(nit_leave(&server, name[0]), .kind = NIT_DONE);
    name[0] = sits_on(&server, 0, "b");
    look();
    CHECK(at(10, 20) == BARE);
    REPLY(nit_buffer(&server, name[0], 4, 3), .kind = NIT_DONE);
    REPLY(nit_view(&server, name[0]), .kind = NIT_HANDLE, .handle = 1);
    REPLY(nit_place(&server, name[0], 1, 10, 20, 4, 3), .kind = NIT_DONE);
    RECT(look(), .kind = NIT_DONE, .x = 10, .y = 20, .w = 4, .h = 3);
    for (uint32_t k = 0; k < 12; k++)
        CHECK(at(10 + k % 4, 20 + k / 4) == 0);
    close_plain(&server);
}

/* ---- The largest screen, to its last pixel, of the largest buffer. */

static void largest(void)
{
    enum { SIDE = 4096, COUNT = SIDE * SIDE, LAST = COUNT - 1 };
    uint32_t *words = guarded_words(COUNT), *out = guarded_words(COUNT);
    open_plain(&server, SIDE, SIDE, 1, 134217728 + 256);
    name[0] = sits_on(&server, 0, "a");
    REPLY(nit_buffer(&server, name[0], SIDE, SIDE), .kind = NIT_DONE);
    REPLY(nit_view(&server, name[0]), .kind = NIT_HANDLE, .handle = 1);
    REPLY(nit_place(&server, name[0], 1, 0, 0, SIDE, SIDE), .kind = NIT_DONE);
    words[LAST] = 0x123456;
    REPLY(nit_refresh(&server, name[0], SIDE - 1, SIDE - 1, 1, 1, words, COUNT), .kind = NIT_DONE);
    CHECK(nit_look(&server, out, COUNT).kind == NIT_DONE);
    CHECK(out[0] == 0 && out[LAST - 1] == 0 && out[LAST] == 0x123456);
    words[LAST - SIDE + 1] = 0xABCDEF;
    REPLY(nit_refresh(&server, name[0], 0, SIDE - 1, 1, 1, words, COUNT), .kind = NIT_DONE);
    RECT(nit_look(&server, out, COUNT - 1), .kind = NIT_WRONG_FRAME);
    RECT(nit_look(&server, out, COUNT), .kind = NIT_DONE, .y = SIDE - 1, .w = 1, .h = 1);
    CHECK(out[LAST - SIDE + 1] == 0xABCDEF && out[LAST] == 0x123456);
    ROUTED(nit_motion(&server, 65535, 65535), MOTION(0, SIDE - 1, SIDE - 1));
    close_plain(&server);
}

void screen_answers(void)
{
    looks();
    words();
    layers();
    views_above();
    modes();
    taken_again();
    largest();
}

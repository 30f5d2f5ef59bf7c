/* Which parts of the screen have changed: behind each kind of step, in each mode, a surface that
 * gets the parts shows what the screen shows. */
#include "answers.h"
#include "surface.h"

enum { WIDTH = 96, HEIGHT = 64, BUFFER = 24 };

static struct nit_server server = NIT_CLOSED;
static struct surface surface;
static nit_client a, b;
static uint32_t words[BUFFER * BUFFER], colour, bar;

static void done(struct nit_reply reply)
{
    REPLY(reply, .kind = NIT_DONE);
}

/* All words of a buffer have a new colour. */
static void drawn(nit_client client)
{
    colour += 0x030507;
    for (uint32_t k = 0; k < BUFFER * BUFFER; k++)
        words[k] = colour + k % BUFFER;
    done(nit_refresh(&server, client, 0, 0, BUFFER, BUFFER, words, BUFFER * BUFFER));
}

static nit_client comes(uint32_t seat, const char *label, int32_t x, int32_t y)
{
    nit_client client = sits_on(&server, seat, label);
    done(nit_buffer(&server, client, BUFFER, BUFFER));
    REPLY(nit_view(&server, client), .kind = NIT_HANDLE, .handle = 1);
    done(nit_place(&server, client, 1, x, y, BUFFER, BUFFER));
    done(nit_title(&server, client, 1, TEXT("one")));
    REPLY(nit_view(&server, client), .kind = NIT_HANDLE, .handle = 2);
    done(nit_place(&server, client, 2, x + 30, y, BUFFER, BUFFER));
    drawn(client);
    return client;
}

/* Two clients whose views lie over each other in part, below the bar where there is one; the
 * pointer is over the first one's. The first look has the whole screen. */
static void begin(void)
{
    static const struct nit_seat_plan seats[] = { { 65536, 0, 1 }, { 65536, 0, 1 },
                                                  { 65536, 1, 1 } };
    const struct nit_plan plan = { .width = WIDTH, .height = HEIGHT, .bar = bar,
                                   .count = 3, .seats = seats };
    CHECK(nit_open(&server, &plan) == NIT_DONE);
    surface = surface_of(&server);
    a = comes(0, "a", 2, 9);
    b = comes(1, "b", 14, 20);
    CHECK(nit_motion(&server, 5, 12).kind == NIT_DONE);
    struct nit_damage first = damaged(&server, &surface);
    CHECK(area_of(&first) == WIDTH * HEIGHT);
    CHECK(nit_damage(&server).count == 0);
}

static void to_mode(uint32_t mode)
{
    if (mode != NIT_MODE_FLAT)
        CHECK(nit_press(&server, mode == NIT_MODE_XRAY ? 70 : 99).kind == NIT_DONE);
    CHECK(nit_state(&server).mode == mode);
    damaged(&server, &surface);
}

/* ---- Steps. */

static void key(uint32_t code)
{
    CHECK(nit_press(&server, code).kind == NIT_DONE);
}

/* A word of a client, in the middle of its buffer. */
static void dot(nit_client client)
{
    words[25] ^= 0xFFFFFF;
    done(nit_refresh(&server, client, 1, 1, 1, 1, words, BUFFER * BUFFER));
}

/* A view goes in front of one that lay over it. */
static void above(void)
{
    done(nit_place(&server, a, 2, 6, 12, BUFFER, BUFFER));
    damaged(&server, &surface);
    done(nit_above(&server, a, 1, 2));
}

enum { STEPS = 23, CLICK = 18 };

/* Which of the steps have to change a pixel in mode Flat. So has a click, but in the bar alone. */
static const bool CHANGES[STEPS] = { true, true, true, true, true, true, true, true, true, true,
                                     false, true, false, true, true, true, true, true };

/* A step of each kind. */
static void step(int number)
{
    switch (number) {
    case 0: drawn(a); break;
    case 1: dot(b); break;
    case 2: done(nit_place(&server, a, 1, 40, 31, 20, 30)); break;
    case 3: done(nit_place(&server, b, 2, -9, -9, 200, 30)); break;
    case 4: done(nit_offset(&server, a, 2, 5, -3)); break;
    case 5: done(nit_front(&server, a, 1)); break;
    case 6: done(nit_back(&server, b, 1)); break;
    case 7: above(); break;
    case 8: done(nit_destroy(&server, b, 1)); break;
    case 9: done(nit_buffer(&server, a, 10, 12)); break;
    case 10: done(nit_title(&server, a, 1, TEXT("two"))); break;
    case 11: done(nit_leave(&server, b)); break;
    case 12: sits_on(&server, 2, "c"); break;
    case 13: comes(2, "c", 30, 30); break;
    case 14: CHECK(nit_raise(&server, a, 1) == NIT_DONE); break;
    case 15: CHECK(nit_lower(&server, b, 1) == NIT_DONE); break;
    case 16: key(70); break;
    case 17: key(99); break;
    case CLICK: key(272); break;
    case 19: CHECK(nit_motion(&server, 90, 60).kind == NIT_DONE); break;
    case 20: CHECK(nit_take(&server, a).kind == NIT_EVENT); break;
    case 21: done(nit_upgrade(&server, a, 9)); break;
    default: CHECK(nit_view(&server, a).kind == NIT_HANDLE);
    }
}

/* A click in kill mode locks the client out whose view is under the pointer. */
static void behind_each_step(uint32_t mode)
{
    for (int number = 0; number < STEPS; number++) {
        begin();
        to_mode(mode);
        step(number);
        struct nit_damage damage = damaged(&server, &surface);
        bool changes = CHANGES[number] || (number == CLICK && bar == 1);
        CHECK(mode != NIT_MODE_FLAT || !changes || damage.count > 0);
        CHECK(nit_damage(&server).count == 0);
        close_plain(&server);
    }
}

/* All steps in turn, some without a look between. */
static void behind_many_steps(void)
{
    for (uint32_t every = 1; every <= 4; every++) {
        begin();
        for (int number = 0; number < 7; number++) {
            step(number);
            if ((uint32_t)number % every == 0)
                damaged(&server, &surface);
        }
        step(14);
        step(16);
        step(2);
        damaged(&server, &surface);
        step(16);
        step(12);
        damaged(&server, &surface);
        close_plain(&server);
    }
}

/* ---- How much. */

/* A client whose one view has the whole screen. */
static void begin_whole(uint32_t width, uint32_t height)
{
    open_plain(&server, width, height, 1, 8 * width * height + 256);
    surface = surface_of(&server);
    a = sits_on(&server, 0, "a");
    done(nit_buffer(&server, a, width, height));
    REPLY(nit_view(&server, a), .kind = NIT_HANDLE, .handle = 1);
    done(nit_place(&server, a, 1, 0, 0, width, height));
    damaged(&server, &surface);
}

/* One word of the client changes. */
static void dots(uint32_t *buffer, uint32_t x, uint32_t y)
{
    buffer[y * surface.width + x] += 0x010101;
    done(nit_refresh(&server, a, (int32_t)x, (int32_t)y, 1, 1, buffer,
                     (size_t)surface.width * surface.height));
}

/* Two corners cost two small parts. */
static void corners(void)
{
    uint32_t *buffer = guarded_words(640 * 480);
    begin_whole(640, 480);
    dots(buffer, 0, 0);
    dots(buffer, 639, 479);
    struct nit_damage damage = damaged(&server, &surface);
    CHECK(damage.count == 2 && area_of(&damage) == 2);
    dots(buffer, 639, 0);
    damage = damaged(&server, &surface);
    CHECK(damage.count == 1 && area_of(&damage) == 1);
    CHECK(damage.part[0].x == 639 && damage.part[0].y == 0);
    close_plain(&server);
}

/* More changes than there may be parts are all in them. */
static void many_dots(void)
{
    uint32_t *buffer = guarded_words(640 * 480);
    begin_whole(640, 480);
    for (uint32_t count = 1; count <= 40; count++) {
        for (uint32_t k = 0; k < count; k++)
            dots(buffer, 97 * k % 640, 61 * k % 480);
        struct nit_damage damage = damaged(&server, &surface);
        CHECK(damage.count >= 1 && area_of(&damage) >= count);
    }
    close_plain(&server);
}

/* ---- Beside the other looks. */

static void beside_looks(void)
{
    uint32_t frame[WIDTH * HEIGHT];
    bar = 0;
    begin();
    CHECK(nit_look_anew(&server, frame, WIDTH * HEIGHT).w == WIDTH);
    done(nit_place(&server, a, 1, 2, 9, BUFFER - 1, BUFFER));
    RECT(nit_look(&server, frame, WIDTH * HEIGHT - 1), .kind = NIT_WRONG_FRAME);
    struct nit_damage damage = damaged(&server, &surface);
    CHECK(damage.count > 0);
    memcpy(frame, surface.whole, sizeof frame);
    RECT(nit_look(&server, frame, WIDTH * HEIGHT), .kind = NIT_DONE);
    done(nit_place(&server, a, 1, 2, 9, BUFFER - 2, BUFFER));
    RECT(nit_look(&server, frame, WIDTH * HEIGHT), .kind = NIT_DONE, .x = 24, .y = 9, .w = 1,
         .h = 11);
    CHECK(nit_damage(&server).count == 0);
    CHECK(nit_look_anew(&server, frame, WIDTH * HEIGHT).w == 0);
    close_plain(&server);
}

/* A click goes to what the damage told, and no other one is served. */
static void clicks(void)
{
    bar = 0;
    begin();
    done(nit_place(&server, a, 1, 40, 40, 9, 9));
    CHECK(nit_press(&server, 272).kind == NIT_MOVED);
    CHECK(nit_copy(&server, 0, 0, WIDTH, HEIGHT, surface.whole, WIDTH * HEIGHT, WIDTH) == NIT_DONE);
    CHECK(nit_press(&server, 272).kind == NIT_MOVED);
    damaged(&server, &surface);
    ROUTED(nit_press(&server, 272), NOBODY);
    ROUTED(nit_release(&server, 272), NOBODY);
    done(nit_place(&server, a, 1, 2, 9, BUFFER, BUFFER));
    damaged(&server, &surface);
    ROUTED(nit_press(&server, 272), TOLD(0, NIT_FOCUS_ENTER), PRESS(0, 272));
    close_plain(&server);
}

void damage_answers(void)
{
    for (bar = 0; bar <= 1; bar++) {
        for (uint32_t mode = NIT_MODE_FLAT; mode <= NIT_MODE_KILL; mode++)
            behind_each_step(mode);
        behind_many_steps();
    }
    corners();
    many_dots();
    beside_looks();
    clicks();
}

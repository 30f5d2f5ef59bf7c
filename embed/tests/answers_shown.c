/* Which view was shown where: as the last look had it, whatever became of it since. The bar has
 * rows 0 to 6; the view of `a` stands in columns 4 to 13, and that of `b` lies over it from column
 * 9 on. */
#include "answers.h"
#include "parts.h"

enum { WIDTH = 32, HEIGHT = 24 };

static struct nit_server server = NIT_CLOSED;
static nit_client a, b;
static uint32_t frame[WIDTH * HEIGHT];

static const struct nit_view_state OF_A = { .kind = NIT_DONE, .seat = 0, .view = 1, .x = 4, .y = 2,
                                            .w = 10, .h = 12, .offset_x = 3, .offset_y = -1 };
static const struct nit_view_state OF_B = { .kind = NIT_DONE, .seat = 1, .view = 1, .x = 9, .y = 9,
                                            .w = 40, .h = 5 };

static void shows(uint32_t x, uint32_t y, struct nit_view_state view)
{
    same_view(nit_shown(&server, x, y), view, __FILE__, __LINE__);
}

static void shows_none(uint32_t x, uint32_t y)
{
    VIEW(nit_shown(&server, x, y), .kind = NIT_NO_SUCH_VIEW);
}

static void begin(void)
{
    static const struct nit_seat_plan seats[] = { { 65536, 1, 1 }, { 65536, 0, 1 } };
    const struct nit_plan plan = { .width = WIDTH, .height = HEIGHT, .bar = 1,
                                   .count = 2, .seats = seats };
    CHECK(nit_open(&server, &plan) == NIT_DONE);
    a = sits_on(&server, 0, "a");
    b = sits_on(&server, 1, "b");
    REPLY(nit_view(&server, a), .kind = NIT_HANDLE, .handle = 1);
    REPLY(nit_place(&server, a, 1, 4, 2, 10, 12), .kind = NIT_DONE);
    REPLY(nit_offset(&server, a, 1, 3, -1), .kind = NIT_DONE);
    REPLY(nit_view(&server, b), .kind = NIT_HANDLE, .handle = 1);
    REPLY(nit_place(&server, b, 1, 9, 9, 40, 5), .kind = NIT_DONE);
}

static void look(void)
{
    CHECK(nit_look(&server, frame, WIDTH * HEIGHT).kind == NIT_DONE);
}

/* The two views as they stood at first, and nothing else. */
static void shows_the_first(void)
{
    for (uint32_t y = 0; y < HEIGHT + 2; y++)
        for (uint32_t x = 0; x < WIDTH + 2; x++) {
            bool on_b = x >= 9 && x < WIDTH && y >= 9 && y < 14;
            bool on_a = x >= 4 && x < 14 && y >= 7 && y < 14 && !on_b;
            if (on_a || on_b)
                shows(x, y, on_a ? OF_A : OF_B);
            else
                shows_none(x, y);
        }
    shows_none(UINT32_MAX, 10);
    shows_none(10, UINT32_MAX);
}

/* Before the first look nothing was shown, and neither a look at a wrong number of words nor a copy
 * shows anything. */
static void before_the_first_look(void)
{
    begin();
    shows_none(5, 8);
    RECT(nit_look(&server, frame, 9), .kind = NIT_WRONG_FRAME);
    CHECK(nit_copy(&server, 0, 0, WIDTH, HEIGHT, frame, WIDTH * HEIGHT, WIDTH) == NIT_DONE);
    shows_none(5, 8);
    CHECK(nit_owner(&server, 5, 8).kind == NIT_DONE);
    look();
    shows_the_first();
    close_plain(&server);
}

/* Whatever clients, the user and the host do but look. */
static void stays(void)
{
    begin();
    look();
    REPLY(nit_place(&server, a, 1, 0, 7, 32, 17), .kind = NIT_DONE);
    REPLY(nit_offset(&server, a, 1, 0, 0), .kind = NIT_DONE);
    shows_the_first();
    REPLY(nit_destroy(&server, b, 1), .kind = NIT_DONE);
    REPLY(nit_view(&server, b), .kind = NIT_HANDLE, .handle = 2);
    shows_the_first();
    CHECK(nit_press(&server, 70).kind == NIT_DONE);
    REPLY(nit_leave(&server, a), .kind = NIT_DONE);
    shows_the_first();
    a = sits_on(&server, 0, "a");
    shows_the_first();
    CHECK(nit_copy(&server, 0, 0, WIDTH, HEIGHT, frame, WIDTH * HEIGHT, WIDTH) == NIT_DONE);
    RECT(nit_look_anew(&server, frame, 0), .kind = NIT_WRONG_FRAME);
    shows_the_first();
    look();
    shows_none(5, 8);
    shows_none(12, 10);
    close_plain(&server);
}

/* Each kind of look shows what stands then. */
static void looks_of_each_kind(void)
{
    begin();
    CHECK(nit_damage(&server).kind == NIT_DONE);
    shows_the_first();
    REPLY(nit_place(&server, a, 1, 0, 20, 2, 2), .kind = NIT_DONE);
    shows_none(0, 20);
    look();
    shows(0, 20, (struct nit_view_state){ .kind = NIT_DONE, .view = 1, .y = 20, .w = 2, .h = 2,
                                          .offset_x = 3, .offset_y = -1 });
    shows_none(5, 8);
    REPLY(nit_place(&server, a, 1, 4, 2, 10, 12), .kind = NIT_DONE);
    CHECK(nit_look_anew(&server, frame, WIDTH * HEIGHT).kind == NIT_DONE);
    shows_the_first();
    REPLY(nit_destroy(&server, a, 1), .kind = NIT_DONE);
    REPLY(nit_destroy(&server, b, 1), .kind = NIT_DONE);
    shows_the_first();
    CHECK(nit_damage(&server).kind == NIT_DONE);
    shows_none(5, 8);
    shows_none(12, 10);
    close_plain(&server);
}

/* The user restacks: what was shown in front is shown there until the next look. */
static void behind_the_user(void)
{
    begin();
    REPLY(nit_view(&server, a), .kind = NIT_HANDLE, .handle = 2);
    REPLY(nit_place(&server, a, 2, 4, 7, 2, 2), .kind = NIT_DONE);
    look();
    CHECK(nit_shown(&server, 5, 8).view == 2 && nit_shown(&server, 6, 8).view == 1);
    CHECK(nit_lower(&server, a, 2) == NIT_DONE);
    CHECK(nit_owner(&server, 5, 8).view == 1 && nit_shown(&server, 5, 8).view == 2);
    look();
    shows_the_first();
    CHECK(nit_raise(&server, a, 2) == NIT_DONE);
    shows_the_first();
    close_plain(&server);
}

void shown_answers(void)
{
    before_the_first_look();
    stays();
    looks_of_each_kind();
    behind_the_user();
}

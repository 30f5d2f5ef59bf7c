/* Which clicks are served: those on the client that the last look showed under the pointer. Clients
 * 0 and 1 stand beside each other, columns 0 and 20 on, ten wide and ten high; the pointer is over
 * client 0. */
#include "answers.h"
#include "parts.h"

enum { WIDTH = 64, HEIGHT = 32 };

static struct nit_server server = NIT_CLOSED;
static nit_client client[2];
static uint32_t frame[WIDTH * HEIGHT];

static void look(void)
{
    look_whole(&server, frame, WIDTH, HEIGHT);
}

static void placed(uint32_t seat, uint32_t view, int32_t x)
{
    REPLY(nit_place(&server, client[seat], view, x, 0, 10, 10), .kind = NIT_DONE);
}

static void sits(uint32_t seat, const char *label, int32_t x)
{
    client[seat] = sits_on(&server, seat, label);
    REPLY(nit_view(&server, client[seat]), .kind = NIT_HANDLE, .handle = 1);
    placed(seat, 1, x);
}

static void begin(void)
{
    open_plain(&server, WIDTH, HEIGHT, 2, 65536);
    sits(0, "a", 0);
    sits(1, "b", 20);
    ROUTED(nit_motion(&server, 5, 8), MOTION(0, 5, 8));
}

/* A press that is refused changes nothing that can be read, and is no step. */
static void moved(uint32_t code)
{
    char before[NIT_LINE] = "", after[NIT_LINE] = "";
    const struct nit_routed want = { .kind = NIT_MOVED };
    struct nit_state old = nit_state(&server), now;
    size_t length = nit_entry(&server, before, sizeof before);
    struct nit_routed got = nit_press(&server, code);
    CHECK(memcmp(&got, &want, sizeof want) == 0);
    now = nit_state(&server);
    CHECK(memcmp(&old, &now, sizeof now) == 0);
    CHECK(nit_entry(&server, after, sizeof after) == length);
    CHECK(memcmp(before, after, sizeof after) == 0);
}

/* In mode Flat a button goes to this client, which has the focus, or gets it from nobody. */
static void clicked(uint32_t seat, uint32_t code)
{
    if (nit_state(&server).focus == seat)
        ROUTED(nit_press(&server, code), PRESS(seat, code));
    else
        ROUTED(nit_press(&server, code), TOLD(seat, NIT_FOCUS_ENTER), PRESS(seat, code));
    ROUTED(nit_release(&server, code), RELEASE(seat, code));
}

/* ---- What was shown. */

/* Before the first look no client was shown; and a look at a wrong number of words is none. */
static void before_the_first_look(void)
{
    begin();
    moved(272);
    RECT(nit_look(&server, frame, WIDTH * HEIGHT - 1), .kind = NIT_WRONG_FRAME);
    moved(272);
    ROUTED(nit_release(&server, 272), NOBODY);
    ROUTED(nit_motion(&server, 15, 8), TOLD(0, NIT_LEAVE));
    ROUTED(nit_press(&server, 272), NOBODY);
    ROUTED(nit_release(&server, 272), NOBODY);
    ROUTED(nit_motion(&server, 5, 8), MOTION(0, 5, 8));
    moved(272);
    look();
    clicked(0, 272);
    close_plain(&server);
}

/* One client jumps in front of another one, and away. */
static void jumps(void)
{
    begin();
    look();
    placed(1, 1, 0);
    RECT(nit_look(&server, frame, WIDTH * HEIGHT + 1), .kind = NIT_WRONG_FRAME);
    moved(272);
    REPLY(nit_front(&server, client[0], 1), .kind = NIT_DONE);
    clicked(0, 272);
    REPLY(nit_front(&server, client[1], 1), .kind = NIT_DONE);
    moved(272);
    moved(279);
    look();
    ROUTED(nit_press(&server, 279), TOLD(0, NIT_FOCUS_LEAVE), TOLD(1, NIT_FOCUS_ENTER),
           PRESS(1, 279));
    ROUTED(nit_release(&server, 279), RELEASE(1, 279));
    placed(1, 1, 20);
    moved(272);
    placed(1, 1, 0);
    clicked(1, 272);
    close_plain(&server);
}

/* A client steps aside or is gone, so that nobody or another one is there; or comes where nobody
 * was. */
static void steps_aside(void)
{
    begin();
    look();
    placed(0, 1, 40);
    moved(272);
    look();
    ROUTED(nit_press(&server, 272), NOBODY);
    ROUTED(nit_release(&server, 272), NOBODY);
    placed(0, 1, 0);
    moved(272);
    look();
    clicked(0, 272);
    REPLY(nit_destroy(&server, client[0], 1), .kind = NIT_DONE);
    moved(272);
    look();
    ROUTED(nit_press(&server, 272), TOLD(0, NIT_FOCUS_LEAVE));
    close_plain(&server);
}

/* The same client may show another view of its own there. */
static void own_views(void)
{
    begin();
    REPLY(nit_view(&server, client[0]), .kind = NIT_HANDLE, .handle = 2);
    look();
    placed(0, 2, 2);
    clicked(0, 272);
    REPLY(nit_destroy(&server, client[0], 1), .kind = NIT_DONE);
    clicked(0, 273);
    close_plain(&server);
}

/* The next client of a seat is another one, wherever it stands, and whatever its label. */
static void the_next_of_a_seat(void)
{
    begin();
    look();
    REPLY(nit_leave(&server, client[0]), .kind = NIT_DONE);
    moved(272);
    sits(0, "a", 0);
    moved(272);
    look();
    clicked(0, 272);
    REPLY(nit_leave(&server, client[1]), .kind = NIT_DONE);
    sits(1, "c", 20);
    clicked(0, 272);
    close_plain(&server);
}

/* ---- Which presses are clicks. */

/* Keys, motions and turns of the wheel go on; and so does each button while a code is held. */
static void no_clicks(void)
{
    begin();
    look();
    clicked(0, 272);
    placed(1, 1, 0);
    ROUTED(nit_wheel(&server, 1), TOLD(0, NIT_LEAVE), WHEEL(1, 1));
    ROUTED(nit_motion(&server, 6, 8), MOTION(1, 6, 8));
    ROUTED(nit_press(&server, 271), PRESS(0, 271));
    ROUTED(nit_press(&server, 272), PRESS(0, 272));
    ROUTED(nit_release(&server, 271), RELEASE(0, 271));
    ROUTED(nit_press(&server, 279), PRESS(0, 279));
    ROUTED(nit_release(&server, 272), RELEASE(0, 272));
    ROUTED(nit_release(&server, 279), RELEASE(0, 279));
    ROUTED(nit_press(&server, 280), PRESS(0, 280));
    ROUTED(nit_release(&server, 280), RELEASE(0, 280));
    moved(272);
    moved(279);
    const struct nit_routed none = { .kind = NIT_BAD_DEVICE };
    struct nit_routed far = nit_press(&server, 768);
    CHECK(memcmp(&far, &none, sizeof none) == 0);
    close_plain(&server);
}

/* The rule stands in each mode: no other client gets the focus, and no other one is locked out. */
static void in_modes(void)
{
    begin();
    look();
    ROUTED(nit_press(&server, 70), TOLD(0, NIT_LEAVE));
    placed(1, 1, 0);
    moved(272);
    look();
    ROUTED(nit_press(&server, 272), TOLD(1, NIT_FOCUS_ENTER));
    ROUTED(nit_release(&server, 272), NOBODY);
    ROUTED(nit_press(&server, 99), NOBODY);
    placed(1, 1, 20);
    moved(272);
    CHECK(nit_state(&server).mode == NIT_MODE_KILL);
    SEAT(nit_seat_state(&server, 0), .kind = NIT_DONE, .status = NIT_SEAT_LIVE, .waiting = 2,
         .client = client[0]);
    look();
    ROUTED(nit_press(&server, 272), TOLD(0, NIT_KILL));
    ROUTED(nit_release(&server, 272), NOBODY);
    CHECK(nit_state(&server).mode == NIT_MODE_FLAT);
    moved(272);
    close_plain(&server);
}

/* The bar is nobody's, whatever stands below it. */
static void on_the_bar(void)
{
    const struct nit_seat_plan seat = { 65536, 0, 1 };
    const struct nit_plan plan = { .width = WIDTH, .height = HEIGHT, .bar = 1,
                                   .count = 1, .seats = &seat };
    CHECK(nit_open(&server, &plan) == NIT_DONE);
    sits(0, "a", 0);
    ROUTED(nit_motion(&server, 5, 6), NOBODY);
    ROUTED(nit_press(&server, 272), NOBODY);
    ROUTED(nit_release(&server, 272), NOBODY);
    ROUTED(nit_motion(&server, 5, 7), MOTION(0, 5, 7));
    moved(272);
    look();
    clicked(0, 272);
    close_plain(&server);
}

void clicks_answer(void)
{
    before_the_first_look();
    jumps();
    steps_aside();
    own_views();
    the_next_of_a_seat();
    no_clicks();
    in_modes();
    on_the_bar();
}

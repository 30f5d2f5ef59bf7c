/* Where the user's input goes, and how events wait, by the rules of the user's input. Clients 0, 1
 * and 2 stand beside each other: columns 0, 20 and 40 on, ten wide and ten high. A click gives the
 * third one no focus. What stands there was looked at before each click; answers_clicks.c has what
 * was not. */
#include "answers.h"
#include "parts.h"

static struct nit_server server = NIT_CLOSED;
static nit_client client[3];

static void sits(uint32_t seat, const char *label, int32_t x)
{
    client[seat] = sits_on(&server, seat, label);
    REPLY(nit_view(&server, client[seat]), .kind = NIT_HANDLE, .handle = 1);
    REPLY(nit_place(&server, client[seat], 1, x, 0, 10, 10), .kind = NIT_DONE);
}

static void look(void)
{
    static uint32_t frame[64 * 32];
    look_whole(&server, frame, 64, 32);
}

static void begin(void)
{
    static const struct nit_seat_plan seats[] = {
        { 65536, 0, 1 }, { 65536, 0, 1 }, { 65536, 0, 0 } };
    const struct nit_plan plan = { .width = 64, .height = 32, .count = 3, .seats = seats };
    CHECK(nit_open(&server, &plan) == NIT_DONE);
    sits(0, "a", 0);
    sits(1, "b", 20);
    sits(2, "c", 40);
    look();
}

/* The seat that gets what goes down and up, while a code is held. */
static uint32_t receiver = NIT_NONE;

static void state_is(uint32_t mode, uint32_t focus, uint32_t hover, uint32_t x, uint32_t y)
{
    STATE(nit_state(&server), .kind = NIT_DONE, .width = 64, .height = 32, .seats = 3,
          .mode = mode, .focus = focus, .hover = hover, .x = x, .y = y,
          .receiver = receiver);
}

/* ---- The pointer. */

static void pointer(void)
{
    begin();
    state_is(NIT_MODE_FLAT, NIT_NONE, NIT_NONE, 0, 0);
    ROUTED(nit_motion(&server, 5, 5), MOTION(0, 5, 5));
    state_is(NIT_MODE_FLAT, NIT_NONE, 0, 5, 5);
    ROUTED(nit_motion(&server, 25, 5), TOLD(0, NIT_LEAVE), MOTION(1, 25, 5));
    ROUTED(nit_motion(&server, 35, 5), TOLD(1, NIT_LEAVE));
    ROUTED(nit_wheel(&server, -3), NOBODY);
    ROUTED(nit_motion(&server, 9, 9), MOTION(0, 9, 9));
    ROUTED(nit_wheel(&server, 127), WHEEL(0, 127));
    ROUTED(nit_wheel(&server, -127), WHEEL(0, -127));
    ROUTED(nit_wheel(&server, 0), WHEEL(0, 0));
    ROUTED(nit_motion(&server, 65535, 65535), TOLD(0, NIT_LEAVE));
    state_is(NIT_MODE_FLAT, NIT_NONE, NIT_NONE, 63, 31);
    ROUTED(nit_motion(&server, 65535, 0), NOBODY);
    state_is(NIT_MODE_FLAT, NIT_NONE, NIT_NONE, 63, 0);
    REPLY(nit_place(&server, client[1], 1, 60, 0, 10, 10), .kind = NIT_DONE);
    ROUTED(nit_wheel(&server, 1), WHEEL(1, 1));
    state_is(NIT_MODE_FLAT, NIT_NONE, 1, 63, 0);
    close_plain(&server);
}

/* ---- The focus, and what is held. */

static void first_click(void)
{
    ROUTED(nit_press(&server, 30), NOBODY);
    ROUTED(nit_release(&server, 30), NOBODY);
    ROUTED(nit_motion(&server, 5, 5), MOTION(0, 5, 5));
    ROUTED(nit_press(&server, 272), TOLD(0, NIT_FOCUS_ENTER), PRESS(0, 272));
    receiver = 0;
    state_is(NIT_MODE_FLAT, 0, 0, 5, 5);
    ROUTED(nit_motion(&server, 25, 5), MOTION(0, 25, 5));
    state_is(NIT_MODE_FLAT, 0, 0, 25, 5);
    ROUTED(nit_wheel(&server, 2), WHEEL(0, 2));
    ROUTED(nit_press(&server, 30), PRESS(0, 30));
    ROUTED(nit_press(&server, 30), NOBODY);
    ROUTED(nit_press(&server, 70), NOBODY);
    ROUTED(nit_release(&server, 272), RELEASE(0, 272));
    ROUTED(nit_release(&server, 30), RELEASE(0, 30));
    ROUTED(nit_release(&server, 30), NOBODY);
    receiver = NIT_NONE;
    state_is(NIT_MODE_FLAT, 0, 0, 25, 5);
}

static void further_clicks(void)
{
    ROUTED(nit_motion(&server, 25, 5), TOLD(0, NIT_LEAVE), MOTION(1, 25, 5));
    ROUTED(nit_press(&server, 279), TOLD(0, NIT_FOCUS_LEAVE), TOLD(1, NIT_FOCUS_ENTER),
           PRESS(1, 279));
    ROUTED(nit_release(&server, 279), RELEASE(1, 279));
    ROUTED(nit_press(&server, 767), PRESS(1, 767));
    ROUTED(nit_release(&server, 767), RELEASE(1, 767));
    ROUTED(nit_press(&server, 280), PRESS(1, 280));
    ROUTED(nit_release(&server, 280), RELEASE(1, 280));
    ROUTED(nit_motion(&server, 45, 5), TOLD(1, NIT_LEAVE), MOTION(2, 45, 5));
    ROUTED(nit_press(&server, 272), PRESS(2, 272));
    ROUTED(nit_release(&server, 272), RELEASE(2, 272));
    state_is(NIT_MODE_FLAT, 1, 2, 45, 5);
    ROUTED(nit_motion(&server, 45, 31), TOLD(2, NIT_LEAVE));
    ROUTED(nit_press(&server, 272), TOLD(1, NIT_FOCUS_LEAVE));
    ROUTED(nit_release(&server, 272), NOBODY);
    state_is(NIT_MODE_FLAT, NIT_NONE, NIT_NONE, 45, 31);
}

static void focus(void)
{
    begin();
    first_click();
    further_clicks();
    close_plain(&server);
}

/* A client that leaves is forgotten, also with a button held over it; nobody gets its release. */
static void leaving(void)
{
    begin();
    ROUTED(nit_motion(&server, 5, 5), MOTION(0, 5, 5));
    ROUTED(nit_press(&server, 272), TOLD(0, NIT_FOCUS_ENTER), PRESS(0, 272));
    REPLY(nit_leave(&server, client[0]), .kind = NIT_DONE);
    state_is(NIT_MODE_FLAT, NIT_NONE, NIT_NONE, 5, 5);
    sits(0, "a", 0);
    ROUTED(nit_motion(&server, 6, 5), NOBODY);
    ROUTED(nit_release(&server, 272), NOBODY);
    SEAT(nit_seat_state(&server, 0), .kind = NIT_DONE, .status = NIT_SEAT_LIVE,
         .client = client[0]);
    ROUTED(nit_motion(&server, 6, 5), MOTION(0, 6, 5));
    close_plain(&server);
}

/* ---- Modes. */

static void xray_mode(void)
{
    ROUTED(nit_motion(&server, 5, 5), MOTION(0, 5, 5));
    ROUTED(nit_press(&server, 70), TOLD(0, NIT_LEAVE));
    ROUTED(nit_release(&server, 70), NOBODY);
    state_is(NIT_MODE_XRAY, NIT_NONE, NIT_NONE, 5, 5);
    ROUTED(nit_motion(&server, 25, 5), NOBODY);
    ROUTED(nit_wheel(&server, 1), NOBODY);
    ROUTED(nit_press(&server, 272), TOLD(1, NIT_FOCUS_ENTER));
    ROUTED(nit_release(&server, 272), NOBODY);
    ROUTED(nit_press(&server, 30), NOBODY);
    ROUTED(nit_release(&server, 30), NOBODY);
    ROUTED(nit_press(&server, 70), NOBODY);
    state_is(NIT_MODE_FLAT, 1, NIT_NONE, 25, 5);
}

static void kill_mode(void)
{
    ROUTED(nit_press(&server, 99), NOBODY);
    state_is(NIT_MODE_KILL, 1, NIT_NONE, 25, 5);
    ROUTED(nit_motion(&server, 5, 5), NOBODY);
    ROUTED(nit_press(&server, 273), NOBODY);
    ROUTED(nit_release(&server, 273), NOBODY);
    ROUTED(nit_press(&server, 30), NOBODY);
    ROUTED(nit_release(&server, 30), NOBODY);
    ROUTED(nit_motion(&server, 25, 5), NOBODY);
    ROUTED(nit_press(&server, 272), TOLD(1, NIT_KILL));
    state_is(NIT_MODE_FLAT, NIT_NONE, NIT_NONE, 25, 5);
    SEAT(nit_seat_state(&server, 1), .kind = NIT_DONE, .status = NIT_SEAT_KILLED,
         .client = client[1]);
    ROUTED(nit_release(&server, 272), NOBODY);
    look();
    ROUTED(nit_press(&server, 99), NOBODY);
    ROUTED(nit_press(&server, 272), NOBODY);
    state_is(NIT_MODE_FLAT, NIT_NONE, NIT_NONE, 25, 5);
}

static void modes(void)
{
    begin();
    xray_mode();
    kill_mode();
    close_plain(&server);
}

/* ---- Events that wait. */

static void taken(uint32_t seat, struct nit_event event)
{
    struct nit_reply reply = nit_take(&server, client[seat]);
    struct nit_reply want = { .kind = NIT_EVENT, .event = event };
    CHECK(memcmp(&reply, &want, sizeof want) == 0);
}

static void waiting(void)
{
    begin();
    REPLY(nit_take(&server, client[0]), .kind = NIT_NO_EVENT);
    ROUTED(nit_motion(&server, 5, 6), MOTION(0, 5, 6));
    ROUTED(nit_press(&server, 272), TOLD(0, NIT_FOCUS_ENTER), PRESS(0, 272));
    ROUTED(nit_wheel(&server, -9), WHEEL(0, -9));
    ROUTED(nit_release(&server, 272), RELEASE(0, 272));
    ROUTED(nit_motion(&server, 35, 5), TOLD(0, NIT_LEAVE));
    ROUTED(nit_press(&server, 272), TOLD(0, NIT_FOCUS_LEAVE));
    SEAT(nit_seat_state(&server, 0), .kind = NIT_DONE, .status = NIT_SEAT_LIVE, .waiting = 7,
         .client = client[0]);
    taken(0, (struct nit_event){ .kind = NIT_MOTION, .x = 5, .y = 6 });
    taken(0, (struct nit_event){ .kind = NIT_FOCUS_ENTER });
    taken(0, (struct nit_event){ .kind = NIT_PRESS, .code = 272 });
    taken(0, (struct nit_event){ .kind = NIT_WHEEL, .turn = -9 });
    taken(0, (struct nit_event){ .kind = NIT_RELEASE, .code = 272 });
    taken(0, (struct nit_event){ .kind = NIT_LEAVE });
    taken(0, (struct nit_event){ .kind = NIT_FOCUS_LEAVE });
    REPLY(nit_take(&server, client[0]), .kind = NIT_NO_EVENT);
    SEAT(nit_seat_state(&server, 0), .kind = NIT_DONE, .status = NIT_SEAT_LIVE,
         .client = client[0]);
    close_plain(&server);
}

/* 64 events wait at most. A seat that is taken again has none of them, and has lost none. */
static void lost(void)
{
    begin();
    for (uint16_t k = 0; k < 67; k++)
        ROUTED(nit_motion(&server, 1 + k % 8, 1), MOTION(0, 1 + k % 8, 1));
    SEAT(nit_seat_state(&server, 0), .kind = NIT_DONE, .status = NIT_SEAT_LIVE, .waiting = 64,
         .lost = 3,
         .client = client[0]);
    for (uint16_t k = 0; k < 64; k++)
        taken(0, (struct nit_event){ .kind = NIT_MOTION, .x = 1 + k % 8, .y = 1 });
    REPLY(nit_take(&server, client[0]), .kind = NIT_NO_EVENT);
    ROUTED(nit_wheel(&server, 5), WHEEL(0, 5));
    REPLY(nit_leave(&server, client[0]), .kind = NIT_DONE);
    client[0] = sits_on(&server, 0, "d");
    SEAT(nit_seat_state(&server, 0), .kind = NIT_DONE, .status = NIT_SEAT_LIVE,
         .client = client[0]);
    REPLY(nit_take(&server, client[0]), .kind = NIT_NO_EVENT);
    close_plain(&server);
}

/* ---- What is out of range is answered, and is no step. */

static void refused(struct nit_routed routed)
{
    struct nit_routed want = { .kind = NIT_BAD_DEVICE };
    CHECK(memcmp(&routed, &want, sizeof want) == 0);
}

static void out_of_range(void)
{
    begin();
    ROUTED(nit_motion(&server, 5, 5), MOTION(0, 5, 5));
    refused(nit_press(&server, 768));
    refused(nit_press(&server, 65536 + 272));
    refused(nit_press(&server, UINT32_MAX));
    refused(nit_release(&server, 768));
    refused(nit_motion(&server, 65536, 0));
    refused(nit_motion(&server, 0, 65536));
    refused(nit_motion(&server, (uint32_t)-1, 5));
    refused(nit_wheel(&server, 128));
    refused(nit_wheel(&server, -128));
    refused(nit_wheel(&server, 256));
    refused(nit_wheel(&server, INT32_MIN));
    state_is(NIT_MODE_FLAT, NIT_NONE, 0, 5, 5);
    char line[NIT_LINE];
    static const char last[] = "input motion 5 5 > 0 motion 5 5\n";
    CHECK(nit_entry(&server, line, sizeof line) == sizeof last - 1);
    CHECK(memcmp(line, last, sizeof last - 1) == 0);
    close_plain(&server);
}

void input_answers(void)
{
    pointer();
    focus();
    leaving();
    modes();
    waiting();
    lost();
    out_of_range();
}

/* How the user raises and lowers views: as the view's client could, but behind its back. Seats 0
 * and 1 are of layer 1, seat 2 of layer 0 and seat 3 of layer 2. */
#include "answers.h"
#include "whole.h"

static struct nit_server server = NIT_CLOSED;
static nit_client name[4];

/* Each client has two views over the whole screen; the front one of each has the handle 2. */
static void begin(void)
{
    static const struct nit_seat_plan seats[] = { { 65536, 1, 1 }, { 65536, 1, 1 },
                                                  { 65536, 0, 1 }, { 65536, 2, 1 } };
    static const char *const labels[] = { "a", "b", "c", "d" };
    const struct nit_plan plan = { .width = 32, .height = 24, .count = 4, .seats = seats };
    CHECK(nit_open(&server, &plan) == NIT_DONE);
    for (uint32_t seat = 0; seat < 4; seat++) {
        name[seat] = sits_on(&server, seat, labels[seat]);
        for (uint32_t view = 1; view <= 2; view++) {
            REPLY(nit_view(&server, name[seat]), .kind = NIT_HANDLE, .handle = view);
            REPLY(nit_place(&server, name[seat], view, 0, 0, 32, 24), .kind = NIT_DONE);
        }
    }
}

/* The stack from the front, as seats and handles: "2.2" is view 2 of seat 2. */
static void stands(const char *const *views)
{
    uint32_t at = 0;
    for (; views[at]; at++) {
        struct nit_view_state view = nit_view_at(&server, at);
        CHECK(view.kind == NIT_DONE && view.w == 32 && view.h == 24);
        CHECK(view.seat == (uint32_t)(views[at][0] - '0'));
        CHECK(view.view == (uint32_t)(views[at][2] - '0'));
    }
    CHECK(nit_view_at(&server, at).kind == NIT_NO_SUCH_VIEW);
}

#define STANDS(...) stands((const char *const[]){ __VA_ARGS__, NULL })

static void raised(uint32_t seat, uint32_t view)
{
    CHECK(nit_raise(&server, name[seat], view) == NIT_DONE);
}

static void lowered(uint32_t seat, uint32_t view)
{
    CHECK(nit_lower(&server, name[seat], view) == NIT_DONE);
}

static void orders(void)
{
    begin();
    STANDS("2.2", "2.1", "1.2", "1.1", "0.2", "0.1", "3.2", "3.1");
    raised(0, 1);
    STANDS("2.2", "2.1", "0.1", "1.2", "1.1", "0.2", "3.2", "3.1");
    raised(0, 1);
    STANDS("2.2", "2.1", "0.1", "1.2", "1.1", "0.2", "3.2", "3.1");
    lowered(1, 2);
    STANDS("2.2", "2.1", "0.1", "1.1", "0.2", "1.2", "3.2", "3.1");
    lowered(1, 2);
    STANDS("2.2", "2.1", "0.1", "1.1", "0.2", "1.2", "3.2", "3.1");
    raised(3, 1);
    STANDS("2.2", "2.1", "0.1", "1.1", "0.2", "1.2", "3.1", "3.2");
    lowered(2, 2);
    STANDS("2.1", "2.2", "0.1", "1.1", "0.2", "1.2", "3.1", "3.2");
    raised(1, 2);
    STANDS("2.1", "2.2", "1.2", "0.1", "1.1", "0.2", "3.1", "3.2");
    CHECK(nit_owner(&server, 3, 3).seat == 2);
    REPLY(nit_destroy(&server, name[2], 1), .kind = NIT_DONE);
    REPLY(nit_leave(&server, name[2]), .kind = NIT_DONE);
    CHECK(nit_owner(&server, 3, 3).seat == 1 && nit_owner(&server, 3, 3).view == 2);
    close_plain(&server);
}

/* What a client's calls answer that it was told nothing. */
static void knows_nothing(uint32_t seat)
{
    SEAT(nit_seat_state(&server, seat), .kind = NIT_DONE, .status = NIT_SEAT_LIVE,
         .client = name[seat]);
    REPLY(nit_take(&server, name[seat]), .kind = NIT_NO_EVENT);
    REPLY(nit_view(&server, name[seat]), .kind = NIT_HANDLE, .handle = 3);
    REPLY(nit_above(&server, name[seat], 3, 1), .kind = NIT_DONE);
    REPLY(nit_upgrade(&server, name[seat], 65537), .kind = NIT_NO_RESERVE, .need = 65537,
          .left = 65536);
}

/* The client of the view is told nothing, nor is any other one: not by events, and not by what its
 * calls answer. */
static void tells_nobody(void)
{
    begin();
    ROUTED(nit_motion(&server, 3, 3), MOTION(2, 3, 3));
    REPLY(nit_take(&server, name[2]), .kind = NIT_EVENT,
          .event = { .kind = NIT_MOTION, .x = 3, .y = 3 });
    struct nit_state before = nit_state(&server), after;
    for (uint32_t seat = 0; seat < 4; seat++) {
        raised(seat, 1);
        lowered(seat, 1);
        lowered(seat, 2);
        raised(seat, 2);
    }
    after = nit_state(&server);
    CHECK(memcmp(&before, &after, sizeof after) == 0);
    for (uint32_t seat = 0; seat < 4; seat++)
        knows_nothing(seat);
    close_plain(&server);
}

/* What waits for a client waits on, and the focus and what is held stay. */
static void keeps_events(void)
{
    begin();
    CHECK(nit_damage(&server).count == 1);
    ROUTED(nit_motion(&server, 3, 3), MOTION(2, 3, 3));
    ROUTED(nit_press(&server, 272), TOLD(2, NIT_FOCUS_ENTER), PRESS(2, 272));
    lowered(2, 2);
    raised(2, 2);
    CHECK(nit_held(&server, 0) == 272 && nit_held(&server, 1) == NIT_NONE);
    SEAT(nit_seat_state(&server, 2), .kind = NIT_DONE, .status = NIT_SEAT_LIVE, .waiting = 3,
         .client = name[2]);
    ROUTED(nit_release(&server, 272), RELEASE(2, 272));
    REPLY(nit_take(&server, name[2]), .kind = NIT_EVENT,
          .event = { .kind = NIT_MOTION, .x = 3, .y = 3 });
    REPLY(nit_take(&server, name[2]), .kind = NIT_EVENT, .event.kind = NIT_FOCUS_ENTER);
    REPLY(nit_take(&server, name[2]), .kind = NIT_EVENT,
          .event = { .kind = NIT_PRESS, .code = 272 });
    close_plain(&server);
}

/* The pointer's client is told that it is elsewhere at the next motion, as after a call. */
static void hovers(void)
{
    begin();
    REPLY(nit_leave(&server, name[2]), .kind = NIT_DONE);
    ROUTED(nit_motion(&server, 3, 3), MOTION(1, 3, 3));
    raised(0, 1);
    ROUTED(nit_motion(&server, 4, 3), TOLD(1, NIT_LEAVE), MOTION(0, 4, 3));
    close_plain(&server);
}

static void refusals(void)
{
    static struct whole before;
    begin();
    REPLY(nit_leave(&server, name[3]), .kind = NIT_DONE);
    read_whole(&server, &before);
    const struct { nit_client client; uint32_t view, why; } bad[] = {
        { 4, 1, NIT_NO_SEAT }, { UINT64_MAX, 1, NIT_NO_SEAT }, { name[0] + 4, 1, NIT_NO_SEAT },
        { 0, 1, NIT_OTHER_CLIENT }, { name[0] + 65536, 9, NIT_OTHER_CLIENT },
        { name[0], 0, NIT_NO_SUCH_VIEW }, { name[0], 3, NIT_NO_SUCH_VIEW },
        { name[0], UINT32_MAX, NIT_NO_SUCH_VIEW }, { name[3], 1, NIT_NO_SUCH_VIEW } };
    for (size_t k = 0; k < sizeof bad / sizeof *bad; k++) {
        CHECK(nit_raise(&server, bad[k].client, bad[k].view) == bad[k].why);
        CHECK(nit_lower(&server, bad[k].client, bad[k].view) == bad[k].why);
        UNCHANGED(&server, &before);
    }
    close_plain(&server);
}

/* A view that comes in front is drawn, and no click goes to it before that was shown. */
static void shows(void)
{
    uint32_t frame[32 * 24], words[4] = { 0xA1, 0xA2, 0xA3, 0xA4 };
    begin();
    REPLY(nit_leave(&server, name[2]), .kind = NIT_DONE);
    REPLY(nit_buffer(&server, name[0], 2, 2), .kind = NIT_DONE);
    REPLY(nit_refresh(&server, name[0], 0, 0, 2, 2, words, 4), .kind = NIT_DONE);
    CHECK(nit_look(&server, frame, 32 * 24).kind == NIT_DONE && frame[0] == 0);
    raised(0, 2);
    CHECK(nit_press(&server, 272).kind == NIT_MOVED);
    RECT(nit_look(&server, frame, 32 * 24), .kind = NIT_DONE, .w = 2, .h = 2);
    CHECK(frame[0] == 0xA1 && frame[33] == 0xA4);
    ROUTED(nit_press(&server, 272), TOLD(0, NIT_FOCUS_ENTER), PRESS(0, 272));
    lowered(0, 2);
    RECT(nit_look(&server, frame, 32 * 24), .kind = NIT_DONE, .w = 2, .h = 2);
    CHECK(frame[0] == 0);
    close_plain(&server);
}

void restacks_answer(void)
{
    orders();
    tells_nobody();
    keeps_events();
    hovers();
    refusals();
    shows();
}

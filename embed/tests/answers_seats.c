/* Who may sit where: labels, the seat that takes a new client, and the names of clients. */
#include "answers.h"
#include "parts.h"

static struct nit_server server = NIT_CLOSED;

/* The seat for a client of this label in layer 0 is this one. */
static void goes_to(uint32_t seat, const char *label)
{
    SEATED(nit_seat_for(&server, label, strlen(label), 0), .kind = NIT_DONE, .seat = seat);
}

static void has_no_seat(uint32_t why, const char *label)
{
    SEATED(nit_seat_for(&server, label, strlen(label), 0), .kind = why);
}

static void refused(uint32_t why, uint32_t seat, const char *label)
{
    SEATED(nit_seat(&server, seat, label, strlen(label)), .kind = why);
}

static void left(nit_client client)
{
    REPLY(nit_leave(&server, client), .kind = NIT_DONE);
}

/* ---- Labels. */

static void labels(void)
{
    static const char *const bad[] = { "", "abcdefghijklmnopqrstu", "A", "a b", "a:b", "a\n",
                                       "\xC3\xA4", "a/b" };
    static const char *const good[] = { "abcdefghijklmnopqrst", "-", "._0", "9z", "seat-1", "0" };
    open_plain(&server, 40, 30, 3, 65536);
    for (size_t k = 0; k < sizeof bad / sizeof *bad; k++) {
        refused(NIT_BAD_LABEL, 0, bad[k]);
        has_no_seat(NIT_BAD_LABEL, bad[k]);
    }
    SEATED(nit_seat(&server, 0, "a", 0), .kind = NIT_BAD_LABEL);
    SEATED(nit_seat(&server, 0, "a\0", 2), .kind = NIT_BAD_LABEL);
    SEATED(nit_seat_for(&server, "a\0", 2, 0), .kind = NIT_BAD_LABEL);
    for (size_t k = 0; k < sizeof good / sizeof *good; k++) {
        goes_to(0, good[k]);
        left(sits_on(&server, 0, good[k]));
    }
    close_plain(&server);
}

/* A seat that nobody has taken has its number as a label. */
static void labels_of_free_seats(void)
{
    open_plain(&server, 40, 30, 12, 256);
    goes_to(1, ".01");
    goes_to(11, ".0b");
    goes_to(0, ".0c");
    goes_to(0, ".1");
    refused(NIT_LABEL_TAKEN, 0, ".01");
    sits_on(&server, 1, "a");
    goes_to(0, ".01");
    sits_on(&server, 0, ".01");
    close_plain(&server);
    open_plain(&server, 40, 30, 64, 256);
    goes_to(15, ".0f");
    goes_to(16, ".10");
    goes_to(63, ".3f");
    goes_to(0, ".40");
    refused(NIT_LABEL_TAKEN, 15, ".3f");
    close_plain(&server);
}

/* ---- Seats, all of one layer. */

static void seats(void)
{
    open_plain(&server, 40, 30, 3, 65536);
    REPLY(nit_view(&server, 0), .kind = NIT_SESSION_CLOSED);
    refused(NIT_NO_SEAT, 3, "a");
    refused(NIT_NO_SEAT, UINT32_MAX, "");
    refused(NIT_NO_SEAT, 65536, "a");
    nit_client a = sits_on(&server, 0, "a");
    refused(NIT_SEAT_TAKEN, 0, "b");
    refused(NIT_SEAT_TAKEN, 0, "a");
    refused(NIT_BAD_LABEL, 0, "B");
    refused(NIT_LABEL_TAKEN, 1, "a");
    has_no_seat(NIT_LABEL_TAKEN, "a");
    goes_to(1, "b");
    nit_client b = sits_on(&server, 1, "b");
    refused(NIT_SEAT_TAKEN, 0, "b");
    left(b);
    left(a);
    goes_to(1, "b");
    goes_to(0, "c");
    refused(NIT_LABEL_TAKEN, 0, "b");
    refused(NIT_LABEL_TAKEN, 2, "a");
    sits_on(&server, 1, "c");
    sits_on(&server, 0, "b");
    goes_to(2, "a");
    sits_on(&server, 2, "a");
    has_no_seat(NIT_NO_FREE_SEAT, "d");
    has_no_seat(NIT_LABEL_TAKEN, "c");
    has_no_seat(NIT_BAD_LABEL, "D");
    close_plain(&server);
}

/* ---- Seats of several layers: 1, 0, 1, 7. */

static void open_layers(void)
{
    static const struct nit_seat_plan plans[] = { { 256, 1, 1 }, { 256, 0, 1 }, { 256, 1, 1 },
                                                  { 256, 7, 1 } };
    const struct nit_plan plan = { .width = 40, .height = 30, .count = 4, .seats = plans };
    CHECK(nit_open(&server, &plan) == NIT_DONE);
}

static void is_for(uint32_t layer, const char *label, uint32_t kind, uint32_t seat)
{
    SEATED(nit_seat_for(&server, label, strlen(label), layer), .kind = kind, .seat = seat);
}

/* No other layer's seat is told, and none of a layer that no seat has. */
static void layers(void)
{
    open_layers();
    is_for(0, "a", NIT_DONE, 1);
    is_for(1, "a", NIT_DONE, 0);
    is_for(7, "a", NIT_DONE, 3);
    is_for(2, "a", NIT_NO_FREE_SEAT, 0);
    is_for(8, "a", NIT_NO_FREE_SEAT, 0);
    is_for(UINT32_MAX, "a", NIT_NO_FREE_SEAT, 0);
    is_for(1, ".02", NIT_DONE, 2);
    is_for(0, ".02", NIT_LABEL_TAKEN, 0);
    is_for(UINT32_MAX, ".02", NIT_LABEL_TAKEN, 0);
    is_for(UINT32_MAX, "B", NIT_BAD_LABEL, 0);
    nit_client a = sits_on(&server, 1, "a");
    is_for(0, "b", NIT_NO_FREE_SEAT, 0);
    is_for(0, "a", NIT_LABEL_TAKEN, 0);
    is_for(1, "a", NIT_LABEL_TAKEN, 0);
    is_for(1, ".01", NIT_DONE, 0);
    left(a);
    is_for(0, "a", NIT_DONE, 1);
    is_for(0, "b", NIT_DONE, 1);
    is_for(1, "a", NIT_LABEL_TAKEN, 0);
    is_for(1, "b", NIT_DONE, 0);
    close_plain(&server);
}

/* The one that had the label comes before the first free one. No answer seats anybody. */
static void labels_in_layers(void)
{
    open_layers();
    nit_client c = sits_on(&server, 0, "c"), d = sits_on(&server, 2, "d");
    is_for(1, "e", NIT_NO_FREE_SEAT, 0);
    is_for(7, "e", NIT_DONE, 3);
    left(d);
    is_for(1, "e", NIT_DONE, 2);
    left(c);
    is_for(1, "d", NIT_DONE, 2);
    is_for(1, "e", NIT_DONE, 0);
    is_for(0, "d", NIT_LABEL_TAKEN, 0);
    is_for(0, ".03", NIT_LABEL_TAKEN, 0);
    refused(NIT_LABEL_TAKEN, 1, "d");
    sits_on(&server, 1, "e");
    is_for(0, "d", NIT_LABEL_TAKEN, 0);
    is_for(0, "f", NIT_NO_FREE_SEAT, 0);
    SEAT(nit_seat_state(&server, 2), .kind = NIT_DONE, .status = NIT_SEAT_CLOSED, .client = d);
    close_plain(&server);
}

/* A client that the user has locked out gets its seat again. */
static void locked_out(void)
{
    open_plain(&server, 40, 30, 2, 65536);
    sits_on(&server, 0, "a");
    nit_client b = sits_on(&server, 1, "b");
    REPLY(nit_view(&server, b), .kind = NIT_HANDLE, .handle = 1);
    REPLY(nit_place(&server, b, 1, 0, 0, 40, 30), .kind = NIT_DONE);
    ROUTED(nit_press(&server, 99), NOBODY);
    CHECK(nit_damage(&server).kind == NIT_DONE);
    ROUTED(nit_press(&server, 272), TOLD(1, NIT_KILL));
    goes_to(1, "b");
    goes_to(1, "c");
    CHECK(sits_on(&server, 1, "b") == 3 * 65536 + 1);
    close_plain(&server);
}

/* ---- Names: the turn counts the clients of all seats, and is 0 before anyone sat down. */

static void names(void)
{
    open_plain(&server, 40, 30, 64, 256);
    SEAT(nit_seat_state(&server, 63), .kind = NIT_DONE, .status = NIT_SEAT_CLOSED, .client = 63);
    SEAT(nit_seat_state(&server, 64), .kind = NIT_NO_SEAT);
    CHECK(sits_on(&server, 2, "a") == 65536 + 2);
    CHECK(sits_on(&server, 63, "b") == 2 * 65536 + 63);
    refused(NIT_SEAT_TAKEN, 2, "c");
    refused(NIT_LABEL_TAKEN, 0, "a");
    goes_to(0, "c");
    SEAT(nit_seat_state(&server, 2), .kind = NIT_DONE, .status = NIT_SEAT_LIVE,
         .client = 65536 + 2);
    left(65536 + 2);
    SEAT(nit_seat_state(&server, 2), .kind = NIT_DONE, .status = NIT_SEAT_CLOSED,
         .client = 65536 + 2);
    CHECK(sits_on(&server, 2, "a") == 3 * 65536 + 2);
    SEAT(nit_seat_state(&server, 63), .kind = NIT_DONE, .status = NIT_SEAT_LIVE,
         .client = 2 * 65536 + 63);
    SEAT(nit_seat_state(&server, 0), .kind = NIT_DONE, .status = NIT_SEAT_CLOSED);
    close_plain(&server);
    open_plain(&server, 40, 30, 1, 256);
    CHECK(sits_on(&server, 0, "a") == 65536);
    close_plain(&server);
}

/* The last of all seats is told as 63, wherever a seat is told. */
static void last_seat(void)
{
    open_plain(&server, 40, 30, 64, 65536);
    nit_client last = sits_on(&server, 63, "a");
    REPLY(nit_view(&server, last), .kind = NIT_HANDLE, .handle = 1);
    REPLY(nit_place(&server, last, 1, 0, 0, 40, 30), .kind = NIT_DONE);
    CHECK(nit_damage(&server).kind == NIT_DONE);
    ROUTED(nit_motion(&server, 5, 6), MOTION(63, 5, 6));
    ROUTED(nit_press(&server, 272), TOLD(63, NIT_FOCUS_ENTER), PRESS(63, 272));
    STATE(nit_state(&server), .kind = NIT_DONE, .width = 40, .height = 30, .seats = 64,
          .focus = 63, .hover = 63, .x = 5, .y = 6, .receiver = 63);
    CHECK(nit_owner(&server, 5, 6).seat == 63 && nit_shown(&server, 5, 6).seat == 63);
    CHECK(nit_view_at(&server, 0).seat == 63 && nit_account(&server, 63).donation == 65536);
    ROUTED(nit_press(&server, 30), PRESS(63, 30));
    CHECK(nit_seat_state(&server, 63).waiting == 4);
    close_plain(&server);
}

/* The turn goes on above 16 bits, and no name comes twice. */
static void many_turns(void)
{
    nit_client before = 0;
    open_plain(&server, 8, 8, 1, 256);
    for (uint64_t turn = 1; turn <= 70000; turn++) {
        nit_client client = sits_on(&server, 0, "a");
        CHECK(client == turn * 65536 && client > before);
        left(client);
        before = client;
    }
    sits_on(&server, 0, "a");
    REPLY(nit_view(&server, 70001ull % 65536 * 65536), .kind = NIT_OTHER_CLIENT);
    REPLY(nit_view(&server, 70001ull * 65536), .kind = NIT_HANDLE, .handle = 1);
    close_plain(&server);
}

void seats_answer(void)
{
    labels();
    labels_of_free_seats();
    seats();
    layers();
    labels_in_layers();
    locked_out();
    names();
    last_seat();
    many_turns();
}

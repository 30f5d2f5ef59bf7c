/* What a client's calls answer, by the tables of docs/RULES.md. */
#include "answers.h"
#include "parts.h"

static struct nit_server server = NIT_CLOSED;
static nit_client a;

/* A server with one client, whose seat has this donation. */
static void begin(uint32_t donation)
{
    open_plain(&server, 40, 30, 1, donation);
    a = sits_on(&server, 0, "a");
}

static void done(struct nit_reply reply)
{
    REPLY(reply, .kind = NIT_DONE);
}

static void handle(struct nit_reply reply, uint32_t number)
{
    REPLY(reply, .kind = NIT_HANDLE, .handle = number);
}

static void no_such_view(struct nit_reply reply, uint32_t number)
{
    REPLY(reply, .kind = NIT_NO_SUCH_VIEW, .handle = number);
}

static void bad_rect(struct nit_reply reply)
{
    REPLY(reply, .kind = NIT_BAD_RECT);
}

/* ---- Units. */

static void units(void)
{
    begin(1000);
    handle(nit_view(&server, a), 1);
    REPLY(nit_buffer(&server, a, 10, 10), .kind = NIT_OUT_OF_QUOTA, .need = 800, .left = 744);
    REPLY(nit_upgrade(&server, a, 1001), .kind = NIT_NO_RESERVE, .need = 1001, .left = 1000);
    REPLY(nit_upgrade(&server, a, UINT32_MAX), .kind = NIT_NO_RESERVE, .need = UINT32_MAX,
          .left = 1000);
    done(nit_upgrade(&server, a, 56));
    done(nit_upgrade(&server, a, 0));
    done(nit_buffer(&server, a, 10, 10));
    REPLY(nit_view(&server, a), .kind = NIT_OUT_OF_QUOTA, .need = 256, .left = 0);
    done(nit_buffer(&server, a, 5, 5));
    handle(nit_view(&server, a), 2);
    done(nit_upgrade(&server, a, 944));
    REPLY(nit_upgrade(&server, a, 1), .kind = NIT_NO_RESERVE, .need = 1, .left = 0);
    REPLY(nit_buffer(&server, a, 4096, 4096), .kind = NIT_OUT_OF_QUOTA, .need = 134217728,
          .left = 1488);
    close_plain(&server);
}

/* A view costs 256 units to the last one. */
static void units_of_a_view(void)
{
    begin(511);
    handle(nit_view(&server, a), 1);
    REPLY(nit_view(&server, a), .kind = NIT_OUT_OF_QUOTA, .need = 256, .left = 255);
    done(nit_upgrade(&server, a, 1));
    handle(nit_view(&server, a), 2);
    close_plain(&server);
}

/* A seat that is taken again has the donation of the plan, whatever the client before upgraded. */
static void units_of_the_next(void)
{
    begin(1000);
    done(nit_upgrade(&server, a, 1000));
    done(nit_buffer(&server, a, 12, 11));
    done(nit_leave(&server, a));
    a = sits_on(&server, 0, "b");
    REPLY(nit_buffer(&server, a, 12, 11), .kind = NIT_OUT_OF_QUOTA, .need = 1056, .left = 1000);
    REPLY(nit_upgrade(&server, a, 1001), .kind = NIT_NO_RESERVE, .need = 1001, .left = 1000);
    done(nit_upgrade(&server, a, 1000));
    close_plain(&server);
}

/* What can be upgraded of a donation: itself, but in all no more than 8,388,608 units, or
 * 268,435,456 where it is over 8,388,608. */
static void reserves(void)
{
    static const uint32_t each[][2] = {
        { 256, 256 }, { 4194304, 4194304 }, { 4194305, 4194303 }, { 8388607, 1 }, { 8388608, 0 },
        { 8388609, 8388609 }, { 134217728, 134217728 }, { 134217729, 134217727 },
        { 268435455, 1 }, { 268435456, 0 } };
    for (size_t k = 0; k < sizeof each / sizeof *each; k++) {
        uint32_t reserve = each[k][1];
        begin(each[k][0]);
        CHECK(room_of(each[k][0]) == each[k][0] + reserve);
        REPLY(nit_upgrade(&server, a, reserve + 1), .kind = NIT_NO_RESERVE, .need = reserve + 1,
              .left = reserve);
        done(nit_upgrade(&server, a, reserve));
        REPLY(nit_upgrade(&server, a, 1), .kind = NIT_NO_RESERVE, .need = 1, .left = 0);
        close_plain(&server);
    }
}

/* A donation of 8,388,608 pays for a buffer of a million words. */
static void units_of_a_million_words(void)
{
    begin(8388608);
    REPLY(nit_buffer(&server, a, 4096, 257), .kind = NIT_OUT_OF_QUOTA, .need = 8421376,
          .left = 8388608);
    done(nit_buffer(&server, a, 4096, 256));
    REPLY(nit_view(&server, a), .kind = NIT_OUT_OF_QUOTA, .need = 256, .left = 0);
    close_plain(&server);
    begin(8388609);
    done(nit_upgrade(&server, a, 8388609));
    done(nit_buffer(&server, a, 4096, 512));
    REPLY(nit_view(&server, a), .kind = NIT_OUT_OF_QUOTA, .need = 256, .left = 2);
    close_plain(&server);
}

/* The largest buffer is below the largest donation. */
static void units_of_the_largest_buffer(void)
{
    begin(134217727);
    REPLY(nit_buffer(&server, a, 4096, 4096), .kind = NIT_OUT_OF_QUOTA, .need = 134217728,
          .left = 134217727);
    done(nit_upgrade(&server, a, 1));
    done(nit_buffer(&server, a, 4096, 4096));
    REPLY(nit_view(&server, a), .kind = NIT_OUT_OF_QUOTA, .need = 256, .left = 0);
    close_plain(&server);
    begin(268435456);
    done(nit_buffer(&server, a, 4096, 4096));
    handle(nit_view(&server, a), 1);
    REPLY(nit_buffer(&server, a, 4097, 4096), .kind = NIT_BAD_SIZE);
    close_plain(&server);
}

/* ---- Sizes and rectangles. */

static void sizes(void)
{
    static const uint32_t bad[][2] = { { 0, 1 }, { 1, 0 }, { 4097, 1 }, { 1, 4097 },
                                       { UINT32_MAX, UINT32_MAX }, { 1u << 31, 2 } };
    begin(65536);
    for (size_t k = 0; k < sizeof bad / sizeof *bad; k++)
        REPLY(nit_buffer(&server, a, bad[k][0], bad[k][1]), .kind = NIT_BAD_SIZE);
    done(nit_buffer(&server, a, 4096, 1));
    done(nit_buffer(&server, a, 1, 4096));
    close_plain(&server);
}

static void edges(void)
{
    done(nit_place(&server, a, 1, -32768, -32768, 0, 0));
    done(nit_place(&server, a, 1, 32767, 32767, 32767, 32767));
    bad_rect(nit_place(&server, a, 1, -32769, 0, 1, 1));
    bad_rect(nit_place(&server, a, 1, 32768, 0, 1, 1));
    bad_rect(nit_place(&server, a, 1, 0, -32769, 1, 1));
    bad_rect(nit_place(&server, a, 1, 0, 32768, 1, 1));
    bad_rect(nit_place(&server, a, 1, 0, 0, 32768, 1));
    bad_rect(nit_place(&server, a, 1, 0, 0, 1, 32768));
    bad_rect(nit_place(&server, a, 1, INT32_MIN, INT32_MAX, UINT32_MAX, UINT32_MAX));
    no_such_view(nit_place(&server, a, 2, INT32_MIN, 0, 1, 1), 2);
    done(nit_offset(&server, a, 1, -32768, 32767));
    bad_rect(nit_offset(&server, a, 1, 32768, 0));
    bad_rect(nit_offset(&server, a, 1, 0, -32769));
    no_such_view(nit_offset(&server, a, 0, 0, -32769), 0);
}

static void rectangles(void)
{
    begin(65536);
    handle(nit_view(&server, a), 1);
    edges();
    close_plain(&server);
}

/* ---- Views. */

static void views(void)
{
    begin(65536);
    for (uint32_t k = 1; k <= 64; k++)
        handle(nit_view(&server, a), k);
    REPLY(nit_view(&server, a), .kind = NIT_TOO_MANY_VIEWS);
    done(nit_destroy(&server, a, 7));
    no_such_view(nit_destroy(&server, a, 7), 7);
    handle(nit_view(&server, a), 65);
    REPLY(nit_view(&server, a), .kind = NIT_TOO_MANY_VIEWS);
    no_such_view(nit_front(&server, a, 7), 7);
    no_such_view(nit_back(&server, a, UINT32_MAX), UINT32_MAX);
    no_such_view(nit_above(&server, a, 66, 7), 66);
    no_such_view(nit_above(&server, a, 1, 7), 7);
    done(nit_front(&server, a, 65));
    done(nit_back(&server, a, 65));
    done(nit_above(&server, a, 65, 1));
    done(nit_above(&server, a, 65, 65));
    close_plain(&server);
}

/* ---- Texts. */

static void titles(void)
{
    char text[42];
    memset(text, 'a', sizeof text);
    begin(65536);
    handle(nit_view(&server, a), 1);
    done(nit_title(&server, a, 1, text, 0));
    done(nit_title(&server, a, 1, TEXT("a z-0._9")));
    done(nit_title(&server, a, 1, text, 12));
    REPLY(nit_title(&server, a, 1, text, 13), .kind = NIT_BAD_TITLE);
    REPLY(nit_title(&server, a, 1, text, 40), .kind = NIT_BAD_TITLE);
    REPLY(nit_title(&server, a, 1, text, 41), .kind = NIT_BAD_TEXT);
    REPLY(nit_title(&server, a, 1, TEXT("A")), .kind = NIT_BAD_TITLE);
    REPLY(nit_title(&server, a, 1, TEXT("a:b")), .kind = NIT_BAD_TITLE);
    REPLY(nit_title(&server, a, 1, TEXT("~")), .kind = NIT_BAD_TITLE);
    REPLY(nit_title(&server, a, 1, TEXT("\x7F")), .kind = NIT_BAD_TEXT);
    REPLY(nit_title(&server, a, 1, TEXT("a\n")), .kind = NIT_BAD_TEXT);
    REPLY(nit_title(&server, a, 1, TEXT("\0")), .kind = NIT_BAD_TEXT);
    REPLY(nit_title(&server, a, 2, TEXT("\xC3\xA4")), .kind = NIT_BAD_TEXT);
    no_such_view(nit_title(&server, a, 2, TEXT("A")), 2);
    char *many = guarded_text(1 << 20);
    REPLY(nit_title(&server, a, 1, many, 1 << 20), .kind = NIT_BAD_TEXT);
    close_plain(&server);
}

/* ---- Refreshes. */

static void refreshes(void)
{
    uint32_t *words = guarded_words(12), *none = guarded_words(0);
    begin(65536);
    done(nit_refresh(&server, a, 0, 0, 4, 3, none, 0));
    done(nit_buffer(&server, a, 4, 3));
    done(nit_refresh(&server, a, 0, 0, 4, 3, words, 12));
    REPLY(nit_refresh(&server, a, 0, 0, 4, 3, words + 1, 11), .kind = NIT_SHORT_WORDS);
    REPLY(nit_refresh(&server, a, 0, 0, 0, 0, none, 0), .kind = NIT_SHORT_WORDS);
    REPLY(nit_refresh(&server, a, INT32_MIN, 0, 1, 1, none, 0), .kind = NIT_SHORT_WORDS);
    done(nit_refresh(&server, a, -32768, -32768, 32767, 32767, words, 12));
    done(nit_refresh(&server, a, 32767, 32767, 32767, 32767, words, 12));
    done(nit_refresh(&server, a, -5, -5, 32767, 32767, words, 12));
    bad_rect(nit_refresh(&server, a, -32769, 0, 1, 1, words, 12));
    bad_rect(nit_refresh(&server, a, 0, 32768, 1, 1, words, 12));
    bad_rect(nit_refresh(&server, a, 0, 0, 32768, 1, words, 12));
    bad_rect(nit_refresh(&server, a, 0, 0, 1, 32768, words, 12));
    bad_rect(nit_refresh(&server, a, INT32_MAX, INT32_MIN, UINT32_MAX, UINT32_MAX, words, 12));
    close_plain(&server);
}

/* ---- Sessions that are over, and seats that are not there. */

static void each_call(nit_client client, uint32_t kind)
{
    uint32_t *none = guarded_words(0);
    struct nit_reply replies[] = {
        nit_buffer(&server, client, 0, 0), nit_view(&server, client),
        nit_place(&server, client, 1, INT32_MIN, 0, 1, 1), nit_offset(&server, client, 9, 0, 0),
        nit_front(&server, client, 1), nit_back(&server, client, 1),
        nit_above(&server, client, 1, 2), nit_title(&server, client, 1, TEXT("A")),
        nit_destroy(&server, client, 1), nit_take(&server, client),
        nit_upgrade(&server, client, UINT32_MAX),
        nit_refresh(&server, client, 0, 0, 32768, 0, none, 0), nit_leave(&server, client) };
    for (size_t k = 0; k < sizeof replies / sizeof *replies; k++)
        REPLY(replies[k], .kind = kind);
}

static void sessions_that_are_over(void)
{
    begin(65536);
    each_call(1, NIT_NO_SEAT);
    each_call(64, NIT_NO_SEAT);
    each_call(UINT32_MAX, NIT_NO_SEAT);
    each_call(UINT64_MAX, NIT_NO_SEAT);
    each_call(a + 1, NIT_NO_SEAT);
    REPLY(nit_title(&server, 1, 1, TEXT("\n")), .kind = NIT_NO_SEAT);
    handle(nit_view(&server, a), 1);
    done(nit_buffer(&server, a, 4, 3));
    done(nit_leave(&server, a));
    SEAT(nit_seat_state(&server, 0), .kind = NIT_DONE, .status = NIT_SEAT_CLOSED,
         .client = a);
    each_call(a, NIT_SESSION_CLOSED);
    a = sits_on(&server, 0, "b");
    handle(nit_view(&server, a), 1);
    done(nit_place(&server, a, 1, 0, 0, 1, 1));
    ROUTED(nit_press(&server, 99), NOBODY);
    CHECK(nit_look(&server, guarded_words(1200), 1200).kind == NIT_DONE);
    ROUTED(nit_press(&server, 272), TOLD(0, NIT_KILL));
    SEAT(nit_seat_state(&server, 0), .kind = NIT_DONE, .status = NIT_SEAT_KILLED,
         .client = a);
    each_call(a, NIT_SESSION_KILLED);
    REPLY(nit_title(&server, a, 1, TEXT("\n")), .kind = NIT_BAD_TEXT);
    close_plain(&server);
}

void calls_answer(void)
{
    units();
    units_of_a_view();
    units_of_the_next();
    reserves();
    units_of_a_million_words();
    units_of_the_largest_buffer();
    sizes();
    rectangles();
    views();
    titles();
    refreshes();
    sessions_that_are_over();
}

/* What can be read of views, seats and held codes. */
#include "answers.h"
#include "parts.h"

static struct nit_server server = NIT_CLOSED;
static nit_client a, b;

#define ACCOUNT_IS(got, ...) same_account((got), (struct nit_account){ __VA_ARGS__ })

static void same_account(struct nit_account got, struct nit_account want)
{
    CHECK(memcmp(&got, &want, sizeof got) == 0);
}

static void title_is(uint32_t place, const char *title)
{
    char out[12];
    CHECK(nit_title_at(&server, place, out, sizeof out) == strlen(title));
    CHECK(memcmp(out, title, strlen(title)) == 0);
}

static void label_is(uint32_t seat, const char *label)
{
    char out[20];
    CHECK(nit_label(&server, seat, out, sizeof out) == strlen(label));
    CHECK(memcmp(out, label, strlen(label)) == 0);
}

static void done(struct nit_reply reply)
{
    REPLY(reply, .kind = NIT_DONE);
}

/* Two clients in two layers: a view of `a` of 10 by 8 at (4, 9), a titled one of `b` in front. */
static void begin(void)
{
    struct nit_seat_plan seats[] = { { 5000, 3, 1 }, { 1000, 2, 0 }, { 256, 0, 0 } };
    const struct nit_plan plan = { .width = 32, .height = 24, .bar = 1,
                                   .count = 3, .seats = seats };
    CHECK(nit_open(&server, &plan) == NIT_DONE);
    a = sits_on(&server, 0, "a");
    SEATED(nit_seat(&server, 1, TEXT("b.longest-label-of-20")), .kind = NIT_BAD_LABEL);
    b = sits_on(&server, 1, "b.longest-label-of20");
    REPLY(nit_view(&server, a), .kind = NIT_HANDLE, .handle = 1);
    done(nit_place(&server, a, 1, 4, 9, 10, 8));
    REPLY(nit_view(&server, b), .kind = NIT_HANDLE, .handle = 1);
    done(nit_place(&server, b, 1, -3, 3, 8, 7));
    done(nit_offset(&server, b, 1, -32768, 32767));
    done(nit_title(&server, b, 1, TEXT("mail and 12.")));
}

static void views(void)
{
    VIEW(nit_view_at(&server, 0), .kind = NIT_DONE, .seat = 1, .view = 1, .x = -3, .y = 3,
            .w = 8, .h = 7, .offset_x = -32768, .offset_y = 32767);
    VIEW(nit_view_at(&server, 1), .kind = NIT_DONE, .view = 1, .x = 4, .y = 9, .w = 10, .h = 8);
    VIEW(nit_view_at(&server, 2), .kind = NIT_NO_SUCH_VIEW);
    VIEW(nit_view_at(&server, UINT32_MAX), .kind = NIT_NO_SUCH_VIEW);
    title_is(0, "mail and 12.");
    title_is(1, "");
    title_is(2, "");
    char out[11];
    memset(out, 'x', sizeof out);
    CHECK(nit_title_at(&server, 0, out, sizeof out) == 12);
    for (size_t k = 0; k < sizeof out; k++)
        CHECK(out[k] == 'x');
}

/* The bar has rows 0 to 6; the view of `b` columns up to 4 and rows up to 9; that of `a` the rest
 * of its own. */
static void owners(void)
{
    const uint32_t none[][2] = { { 0, 6 }, { 4, 6 }, { 5, 7 }, { 0, 10 }, { 14, 9 }, { 4, 17 },
                                 { 32, 9 }, { 4, 24 }, { UINT32_MAX, 9 }, { 4, UINT32_MAX } };
    for (size_t k = 0; k < sizeof none / sizeof *none; k++)
        VIEW(nit_owner(&server, none[k][0], none[k][1]), .kind = NIT_NO_SUCH_VIEW);
    CHECK(nit_owner(&server, 0, 7).seat == 1 && nit_owner(&server, 4, 9).seat == 1);
    CHECK(nit_owner(&server, 5, 9).kind == NIT_DONE && nit_owner(&server, 5, 9).seat == 0);
    CHECK(nit_owner(&server, 4, 10).seat == 0 && nit_owner(&server, 13, 16).view == 1);
}

static void accounts(void)
{
    ACCOUNT_IS(nit_account(&server, 0), .kind = NIT_DONE, .layer = 3, .donation = 5000,
               .reserve = 5000);
    done(nit_buffer(&server, a, 20, 25));
    done(nit_upgrade(&server, a, 1200));
    ACCOUNT_IS(nit_account(&server, 0), .kind = NIT_DONE, .layer = 3, .donation = 6200,
               .reserve = 3800, .width = 20, .height = 25);
    ACCOUNT_IS(nit_account(&server, 2), .kind = NIT_DONE, .donation = 256, .reserve = 256);
    ACCOUNT_IS(nit_account(&server, 3), .kind = NIT_NO_SEAT);
    label_is(0, "a");
    label_is(1, "b.longest-label-of20");
    label_is(2, ".02");
    label_is(3, "");
}

static void held(void)
{
    CHECK(nit_held(&server, 0) == NIT_NONE);
    CHECK(nit_press(&server, 48).kind == NIT_DONE && nit_press(&server, 30).kind == NIT_DONE);
    CHECK(nit_press(&server, 48).kind == NIT_DONE && nit_press(&server, 0).kind == NIT_DONE);
    CHECK(nit_held(&server, 0) == 48 && nit_held(&server, 1) == 30 && nit_held(&server, 2) == 0);
    CHECK(nit_held(&server, 3) == NIT_NONE && nit_held(&server, UINT32_MAX) == NIT_NONE);
    CHECK(nit_release(&server, 30).kind == NIT_DONE && nit_held(&server, 1) == 0);
    nit_release_all(&server);
    CHECK(nit_held(&server, 0) == NIT_NONE);
}

/* Words that were lost: after the look they are what the screen shows, and are as it left them. */
static void looks_anew(void)
{
    enum { COUNT = 32 * 24 };
    uint32_t kept[COUNT], lost[COUNT];
    const uint32_t place = 10 * 32 + 4;
    const uint32_t red[500] = { 0xFF0000 };
    memset(kept, 0xFF, sizeof kept);
    done(nit_refresh(&server, a, 0, 0, 20, 25, red, 500));
    RECT(nit_look(&server, kept, COUNT), .kind = NIT_DONE, .w = 32, .h = 24);
    memcpy(lost, kept, sizeof lost);
    lost[place] ^= 1;
    lost[place + 33] ^= 1;
    RECT(nit_look(&server, lost, COUNT), .kind = NIT_DONE);
    RECT(nit_look_anew(&server, lost, COUNT - 1), .kind = NIT_WRONG_FRAME);
    RECT(nit_look_anew(&server, lost, COUNT), .kind = NIT_DONE, .x = 4, .y = 10, .w = 2, .h = 2);
    CHECK(memcmp(lost, kept, sizeof lost) == 0);
    RECT(nit_look(&server, lost, COUNT), .kind = NIT_DONE);
}

static void of_none(void)
{
    struct nit_server none = NIT_CLOSED;
    char out[1] = { 'x' };
    VIEW(nit_view_at(&none, 0), .kind = NIT_NO_SERVER);
    VIEW(nit_owner(&none, 0, 0), .kind = NIT_NO_SERVER);
    ACCOUNT_IS(nit_account(&none, 0), .kind = NIT_NO_SERVER);
    CHECK(nit_title_at(&none, 0, out, 1) == 0 && nit_label(&none, 0, out, 1) == 0);
    CHECK(nit_held(&none, 0) == NIT_NONE && out[0] == 'x');
    uint32_t word = 7;
    RECT(nit_look_anew(&none, &word, 1), .kind = NIT_NO_SERVER);
    CHECK(word == 7);
    nit_release_all(&none);
}

void views_answer(void)
{
    begin();
    views();
    owners();
    accounts();
    held();
    looks_anew();
    of_none();
    close_plain(&server);
}

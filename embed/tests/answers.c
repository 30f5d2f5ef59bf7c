/* Each call of the library in order, and each refusal by its name. The values are worked out from
 * docs/RULES.md and docs/FORMATS.md by hand. This part has handles and opening. */
#include "answers.h"
#include "parts.h"

/* ---- Handles that are none. */

static void calls_of_none(struct nit_server *none)
{
    const uint32_t word = 7;
    REPLY(nit_buffer(none, 0, 1, 1), .kind = NIT_NO_SERVER);
    REPLY(nit_view(none, 0), .kind = NIT_NO_SERVER);
    REPLY(nit_place(none, 0, 1, 0, 0, 1, 1), .kind = NIT_NO_SERVER);
    REPLY(nit_offset(none, 0, 1, 0, 0), .kind = NIT_NO_SERVER);
    REPLY(nit_front(none, 0, 1), .kind = NIT_NO_SERVER);
    REPLY(nit_back(none, 0, 1), .kind = NIT_NO_SERVER);
    REPLY(nit_above(none, 0, 1, 1), .kind = NIT_NO_SERVER);
    REPLY(nit_title(none, 0, 1, TEXT("t")), .kind = NIT_NO_SERVER);
    REPLY(nit_title(none, 0, 1, TEXT("\n")), .kind = NIT_NO_SERVER);
    REPLY(nit_destroy(none, 0, 1), .kind = NIT_NO_SERVER);
    REPLY(nit_take(none, 0), .kind = NIT_NO_SERVER);
    REPLY(nit_upgrade(none, 0, 1), .kind = NIT_NO_SERVER);
    REPLY(nit_leave(none, 0), .kind = NIT_NO_SERVER);
    REPLY(nit_refresh(none, 0, 0, 0, 1, 1, &word, 1), .kind = NIT_NO_SERVER);
    SEATED(nit_seat(none, 0, TEXT("a")), .kind = NIT_NO_SERVER);
    SEATED(nit_seat_for(none, TEXT("a"), 0), .kind = NIT_NO_SERVER);
    SEATED(nit_seat_for(none, TEXT("A"), 8), .kind = NIT_NO_SERVER);
    CHECK(nit_raise(none, 0, 1) == NIT_NO_SERVER && nit_lower(none, 0, 1) == NIT_NO_SERVER);
    CHECK(nit_close(none) == NIT_NO_SERVER);
}

static void others_of_none(struct nit_server *none)
{
    const struct nit_routed nobody = { .kind = NIT_NO_SERVER };
    struct nit_routed routed[] = { nit_press(none, 30), nit_press(none, 768),
                                   nit_release(none, 30), nit_motion(none, 1, 1),
                                   nit_wheel(none, 1), nit_wheel(none, 128) };
    for (size_t k = 0; k < sizeof routed / sizeof *routed; k++)
        CHECK(memcmp(&routed[k], &nobody, sizeof nobody) == 0);
    uint32_t word = 7;
    char out[1] = { 'x' };
    const struct nit_damage nothing = { .kind = NIT_NO_SERVER };
    struct nit_damage damage = nit_damage(none);
    CHECK(memcmp(&damage, &nothing, sizeof nothing) == 0);
    RECT(nit_look(none, &word, 1), .kind = NIT_NO_SERVER);
    CHECK(nit_copy(none, 0, 0, 1, 1, &word, 1, 1) == NIT_NO_SERVER);
    CHECK(nit_copy(none, 9, 9, 9, 9, &word, 0, 0) == NIT_NO_SERVER);
    VIEW(nit_shown(none, 0, 0), .kind = NIT_NO_SERVER);
    STATE(nit_state(none), .kind = NIT_NO_SERVER);
    SEAT(nit_seat_state(none, 0), .kind = NIT_NO_SERVER);
    CHECK(nit_entry(none, out, 1) == 0);
    CHECK(word == 7 && out[0] == 'x');
}

static void handles_that_are_none(void)
{
    uint32_t other = 5;
    struct nit_server none[] = { NIT_CLOSED, { &other, 0 }, { &other, 1 }, { NULL, UINT64_MAX } };
    for (size_t k = 0; k < sizeof none / sizeof *none; k++) {
        struct nit_server before = none[k];
        calls_of_none(&none[k]);
        others_of_none(&none[k]);
        CHECK(none[k].at == before.at && none[k].mark == before.mark && other == 5);
    }
}

/* ---- Opening. */

/* What opening answers; a refusal has to leave the handle as it is. */
static uint32_t opened(struct nit_plan screen, const uint32_t *seats, size_t words)
{
    struct nit_server server = NIT_CLOSED;
    uint32_t answer = nit_open_seats_3(&server, screen.width, screen.height, screen.bar,
                                       screen.glyphs, screen.scale, seats, words);
    if (answer == NIT_DONE)
        close_plain(&server);
    CHECK(server.at == NULL && server.mark == 0);
    return answer;
}

static uint32_t with_letters(uint32_t height, uint32_t bar, uint32_t glyphs, uint32_t scale)
{
    const struct nit_plan screen = { .width = 1, .height = height, .bar = bar, .glyphs = glyphs,
                                     .scale = scale };
    return opened(screen, (const uint32_t[]){ 256, 0, 0 }, 3);
}

static uint32_t with_screen(uint32_t width, uint32_t height, uint32_t bar)
{
    const struct nit_plan screen = { .width = width, .height = height, .bar = bar, .scale = 1 };
    return opened(screen, (const uint32_t[]){ 256, 0, 0 }, 3);
}

static const struct nit_plan small_screen = { .width = 8, .height = 8, .scale = 1 };

static uint32_t with_seat(uint32_t donation, uint32_t layer, uint32_t clicks)
{
    return opened(small_screen, (const uint32_t[]){ 256, 7, 1, donation, layer, clicks }, 6);
}

/* The numbers of the header are those that the next tests stand on. */
static void limits(void)
{
    CHECK(NIT_MOST_WIDTH == 4096 && NIT_MOST_HEIGHT == 4096);
    CHECK(NIT_MOST_SEATS == 64 && NIT_MOST_VIEWS == 64);
    CHECK(NIT_LEAST_UNITS == 256 && NIT_MOST_UNITS == 268435456);
}

static void screens(void)
{
    CHECK(with_screen(1, 1, 0) == NIT_DONE && with_screen(4096, 4096, 1) == NIT_DONE);
    CHECK(with_screen(4096, 1, 0) == NIT_DONE && with_screen(1, 4096, 0) == NIT_DONE);
    CHECK(with_screen(0, 1, 0) == NIT_BAD_PLAN && with_screen(4097, 1, 0) == NIT_BAD_PLAN);
    CHECK(with_screen(1, 0, 0) == NIT_BAD_PLAN && with_screen(1, 4097, 0) == NIT_BAD_PLAN);
    CHECK(with_screen(UINT32_MAX, UINT32_MAX, 0) == NIT_BAD_PLAN);
    CHECK(with_screen(1, 8, 1) == NIT_DONE && with_screen(1, 7, 1) == NIT_BAD_PLAN);
    CHECK(with_screen(8, 8, 2) == NIT_BAD_PLAN && with_screen(8, 8, 256) == NIT_BAD_PLAN);
}

/* A bar fits where it leaves a row. It has 7 rows of dots in small glyphs, and 9 in large ones. */
static void letterings(void)
{
    CHECK(with_letters(1, 0, 0, 1) == NIT_DONE && with_letters(1, 0, 1, 8) == NIT_DONE);
    CHECK(with_letters(4096, 1, 0, 0) == NIT_BAD_PLAN && with_letters(1, 0, 0, 0) == NIT_BAD_PLAN);
    CHECK(with_letters(4096, 1, 0, 9) == NIT_BAD_PLAN && with_letters(1, 0, 1, 9) == NIT_BAD_PLAN);
    CHECK(with_letters(4096, 1, 0, 256) == NIT_BAD_PLAN);
    CHECK(with_letters(4096, 1, 0, UINT32_MAX) == NIT_BAD_PLAN);
    CHECK(with_letters(4096, 1, 2, 1) == NIT_BAD_PLAN && with_letters(1, 0, 2, 1) == NIT_BAD_PLAN);
    CHECK(with_letters(4096, 1, 256, 1) == NIT_BAD_PLAN);
    CHECK(with_letters(4096, 1, UINT32_MAX, 1) == NIT_BAD_PLAN);
    for (uint32_t scale = 1; scale <= 8; scale++) {
        CHECK(with_letters(7 * scale, 1, 0, scale) == NIT_BAD_PLAN);
        CHECK(with_letters(7 * scale + 1, 1, 0, scale) == NIT_DONE);
        CHECK(with_letters(9 * scale, 1, 1, scale) == NIT_BAD_PLAN);
        CHECK(with_letters(9 * scale + 1, 1, 1, scale) == NIT_DONE);
    }
}

/* A plan without a scale has dots of one pixel, and one without glyphs has small ones. */
static void plain_plans(void)
{
    const struct nit_seat_plan seat = { .donation = 256 };
    struct nit_plan plan = { .width = 1, .height = 8, .bar = 1, .count = 1, .seats = &seat };
    struct nit_server server = NIT_CLOSED;
    CHECK(nit_open(&server, &plan) == NIT_DONE);
    close_plain(&server);
    plan.height = 7;
    CHECK(nit_open(&server, &plan) == NIT_BAD_PLAN);
    plan.bar = 0;
    plan.scale = 9;
    CHECK(nit_open(&server, &plan) == NIT_BAD_PLAN);
    plan.scale = 8;
    plan.glyphs = 2;
    CHECK(nit_open(&server, &plan) == NIT_BAD_PLAN);
    plan.glyphs = 1;
    CHECK(nit_open(&server, &plan) == NIT_DONE);
    close_plain(&server);
}

static void seats_of_plans(void)
{
    CHECK(with_seat(256, 0, 0) == NIT_DONE && with_seat(268435456, 7, 1) == NIT_DONE);
    CHECK(with_seat(8388608, 0, 0) == NIT_DONE && with_seat(8388609, 0, 0) == NIT_DONE);
    CHECK(with_seat(255, 0, 0) == NIT_BAD_PLAN && with_seat(268435457, 0, 0) == NIT_BAD_PLAN);
    CHECK(with_seat(0, 0, 0) == NIT_BAD_PLAN && with_seat(UINT32_MAX, 0, 0) == NIT_BAD_PLAN);
    CHECK(with_seat(256, 8, 0) == NIT_BAD_PLAN && with_seat(256, 256, 0) == NIT_BAD_PLAN);
    CHECK(with_seat(256, 0, 2) == NIT_BAD_PLAN && with_seat(256, 0, 256) == NIT_BAD_PLAN);
    for (size_t words = 0; words <= 198; words++) {
        uint32_t *seats = guarded_words(words);
        for (size_t k = 0; k < words; k++)
            seats[k] = k % 3 == 0 ? 256 : 0;
        bool fits = words % 3 == 0 && words >= 3 && words <= 192;
        CHECK(opened(small_screen, seats, words) == (fits ? NIT_DONE : NIT_BAD_PLAN));
    }
}

static void plans(void)
{
    struct nit_seat_plan seats[65];
    for (uint32_t k = 0; k < 65; k++)
        seats[k] = (struct nit_seat_plan){ .donation = 256, .layer = 7, .clicks = 1 };
    struct nit_plan plan = { .width = 9, .height = 8, .bar = 1, .count = 1, .seats = seats };
    struct nit_server server = NIT_CLOSED;
    CHECK(nit_open(&server, &plan) == NIT_DONE);
    STATE(nit_state(&server), .kind = NIT_DONE, .width = 9, .height = 8, .seats = 1,
          .focus = NIT_NONE, .hover = NIT_NONE, .receiver = NIT_NONE);
    SEAT(nit_seat_state(&server, 0), .kind = NIT_DONE, .status = NIT_SEAT_CLOSED);
    SEAT(nit_seat_state(&server, 1), .kind = NIT_NO_SEAT);
    struct nit_server before = server;
    CHECK(nit_open(&server, &plan) == NIT_IS_OPEN);
    plan.count = 65;
    CHECK(nit_open(&server, &plan) == NIT_IS_OPEN);
    CHECK(nit_open_config(&server, TEXT("no table")) == NIT_IS_OPEN);
    CHECK(server.at == before.at && server.mark == before.mark);
    close_plain(&server);
    CHECK(nit_open(&server, &plan) == NIT_BAD_PLAN);
    plan.count = 64;
    CHECK(nit_open(&server, &plan) == NIT_DONE && nit_state(&server).seats == 64);
    close_plain(&server);
    plan.count = 0;
    CHECK(nit_open(&server, &plan) == NIT_BAD_PLAN);
    plan.count = UINT32_MAX;
    CHECK(nit_open(&server, &plan) == NIT_BAD_PLAN);
}

/* ---- Texts of answers: each number that has one has another one. */

static void texts(void)
{
    static const char none[] = "unknown";
    uint32_t count = 0;
    CHECK(strcmp(nit_text(NIT_NO_SERVER), "NIT_NO_SERVER") == 0);
    CHECK(strcmp(nit_text(NIT_NO_FREE_SEAT), "NIT_NO_FREE_SEAT") == 0);
    CHECK(strcmp(nit_text(14), none) == 0 && strcmp(nit_text(UINT32_MAX), none) == 0);
    for (uint32_t kind = 0; kind < 128; kind++) {
        const char *text = nit_text(kind);
        count += strcmp(text, none) != 0;
        for (uint32_t other = 0; other < kind; other++)
            CHECK(strcmp(text, none) == 0 || strcmp(text, nit_text(other)) != 0);
    }
    CHECK(count == 14 + 16 + 9);
}

/* ---- Configurations. */

#define CLIENT(label) "[[client]]\nlabel = \"" label "\"\ndonation = 65536\nscript = \"s\"\n"

/* What the text of a configuration answers, with these lines in its screen and behind its input. */
static uint32_t configured(const char *screen, const char *clients)
{
    struct nit_server server = NIT_CLOSED;
    char text[4000];
    int length = snprintf(text, sizeof text, "[screen]\nwidth = 64\nheight = 32\n%s\n"
                          "[input]\nscript = \"i\"\n%s", screen, clients);
    CHECK(length > 0 && (size_t)length < sizeof text);
    char *exact = guarded_text((size_t)length);
    memcpy(exact, text, (size_t)length);
    uint32_t answer = nit_open_config(&server, exact, (size_t)length);
    if (answer == NIT_DONE)
        close_plain(&server);
    CHECK(server.at == NULL && server.mark == 0);
    return answer;
}

/* The same by its size and a donation: the format allows less than a plan. */
static uint32_t sized(uint32_t width, uint32_t height, uint32_t donation)
{
    struct nit_server server = NIT_CLOSED;
    char text[300];
    int length = snprintf(text, sizeof text, "[screen]\nwidth = %u\nheight = %u\n[input]\n"
                          "script = \"i\"\n[[client]]\nlabel = \"a\"\nscript = \"s\"\n"
                          "donation = %u\n", width, height, donation);
    CHECK(length > 0 && (size_t)length < sizeof text);
    uint32_t answer = nit_open_config(&server, text, (size_t)length);
    if (answer == NIT_DONE)
        close_plain(&server);
    return answer;
}

static void long_configurations(void)
{
    struct nit_server server = NIT_CLOSED;
    size_t most = 1048576;
    char *text = guarded_text(most + 1);
    memset(text, '\n', most + 1);
    CHECK(nit_open_config(&server, text, most + 1) == NIT_CONFIG_TOO_LONG);
    CHECK(nit_open_config(&server, text + 1, most) == NIT_CONFIG_MISSING);
    CHECK(nit_open_config(&server, text + most + 1, 0) == NIT_CONFIG_MISSING);
    CHECK(nit_config_line(text, most + 1) == NIT_NONE && nit_config_line(text + 1, most) == 0);
    text[most] = '=';
    CHECK(nit_config_line(text + 1, most) == most);
}

/* The line in which a text stops being TOML. */
static void config_lines(void)
{
    CHECK(nit_config_line(TEXT("")) == 0 && nit_config_line(TEXT("a = 1\nb = 2\n")) == 0);
    CHECK(nit_config_line(TEXT("a")) == 1 && nit_config_line(TEXT("[a\nb = 1\n")) == 1);
    CHECK(nit_config_line(TEXT("a = 1\n# b\n\nb = no\nc = \n")) == 4);
    CHECK(nit_config_line(TEXT("a = 1\r\nb = \"\xFF\"\n")) == 2);
}

static void many_clients(uint32_t count, uint32_t answer)
{
    char clients[3000] = "";
    for (uint32_t k = 0; k < count; k++) {
        size_t at = strlen(clients);
        int length = snprintf(clients + at, sizeof clients - at, CLIENT("c%u"), k);
        CHECK(length > 0 && (size_t)length < sizeof clients - at);
    }
    CHECK(configured("", clients) == answer);
}

static void refused_configurations(void)
{
    CHECK(configured("bar = true", CLIENT("a") CLIENT("b")) == NIT_DONE);
    CHECK(configured("", "[[client]\n") == NIT_CONFIG_SYNTAX);
    CHECK(configured("", "\xFF") == NIT_CONFIG_SYNTAX);
    CHECK(configured("bar = 1", CLIENT("a")) == NIT_CONFIG_KIND);
    CHECK(configured("", "") == NIT_CONFIG_MISSING);
    CHECK(configured("", "[[client]]\nlabel = \"a\"\n") == NIT_CONFIG_MISSING);
    CHECK(configured("depth = 24", CLIENT("a")) == NIT_CONFIG_UNKNOWN);
    CHECK(configured("", CLIENT("a") "layer = 8\n") == NIT_CONFIG_RANGE);
    CHECK(sized(1024, 768, 8388608) == NIT_DONE && sized(1025, 768, 256) == NIT_CONFIG_RANGE);
    CHECK(sized(1024, 769, 256) == NIT_CONFIG_RANGE && sized(9, 9, 8388609) == NIT_CONFIG_RANGE);
    CHECK(configured("", CLIENT("a") "focus = \"no\"\n") == NIT_CONFIG_RANGE);
    CHECK(configured("", CLIENT("A")) == NIT_CONFIG_LABEL);
    CHECK(configured("", CLIENT("a") CLIENT("a")) == NIT_CONFIG_TWICE);
    CHECK(configured("", CLIENT("a") "layer = 7\nfocus = \"none\"\n") == NIT_DONE);
    many_clients(16, NIT_DONE);
    many_clients(17, NIT_CONFIG_TOO_MANY);
    config_lines();
    long_configurations();
}

/* The clients of a configuration sit there from the start. */
static void seated_clients(void)
{
    static const char text[] = "[screen]\nwidth = 64\nheight = 32\n\n[input]\nscript = \"i\"\n\n"
        CLIENT("a") CLIENT("b");
    struct nit_server server = NIT_CLOSED;
    char out[1];
    CHECK(nit_open_config(&server, TEXT(text)) == NIT_DONE);
    CHECK(nit_entry(&server, out, 0) == 0);
    SEAT(nit_seat_state(&server, 0), .kind = NIT_DONE, .status = NIT_SEAT_LIVE);
    SEAT(nit_seat_state(&server, 1), .kind = NIT_DONE, .status = NIT_SEAT_LIVE, .client = 1);
    SEAT(nit_seat_state(&server, 2), .kind = NIT_NO_SEAT);
    REPLY(nit_view(&server, 1), .kind = NIT_HANDLE, .handle = 1);
    REPLY(nit_view(&server, 65536), .kind = NIT_OTHER_CLIENT);
    SEATED(nit_seat_for(&server, TEXT("c"), 0), .kind = NIT_NO_FREE_SEAT);
    REPLY(nit_leave(&server, 0), .kind = NIT_DONE);
    SEATED(nit_seat_for(&server, TEXT("c"), 0), .kind = NIT_DONE);
    SEATED(nit_seat_for(&server, TEXT("b"), 0), .kind = NIT_LABEL_TAKEN);
    SEATED(nit_seat(&server, 0, TEXT("b")), .kind = NIT_LABEL_TAKEN);
    CHECK(sits_on(&server, 0, "c") == 65536);
    REPLY(nit_view(&server, 0), .kind = NIT_OTHER_CLIENT);
    REPLY(nit_view(&server, 1), .kind = NIT_HANDLE, .handle = 2);
    close_plain(&server);
}

int main(void)
{
    handles_that_are_none();
    limits();
    texts();
    screens();
    letterings();
    plain_plans();
    seats_of_plans();
    plans();
    refused_configurations();
    seated_clients();
    seats_answer();
    clients_answer();
    steps_answer();
    calls_answer();
    screen_answers();
    refreshes_read();
    views_answer();
    input_answers();
    clicks_answer();
    restacks_answer();
    shown_answers();
    damage_answers();
    copies_answer();
    puts("answers: each call and each refusal is as the rules say");
    return 0;
}

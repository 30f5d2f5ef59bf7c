/* A random host: calls of all kinds with numbers of all sizes, and what has to hold of each answer
 * whatever was asked.
 *
 * usage: storm [CALLS] [SEED]
 *
 * So many calls are made, 1,000,000 where no number is given, with the random numbers of the seed,
 * 1 where none is given. Words that are read and frames that are written end where memory ends. In
 * a million calls each reply has to come up, and so have NIT_MOVED and NIT_OTHER_CLIENT. Each
 * eighth server, the first one too, may have a screen of up to 4096 by 4096 pixels, and then stands
 * for fewer calls; one in eight may have up to 64 seats, and each eighth donation may be any. Texts
 * are drawn in both kinds of glyphs and at each scale, and a hundred labels have to be found.
 */
#include "storm.h"

enum { LABELS = 8, GOOD = 5 };

/* Labels, and behind the GOOD ones texts that are none. */
static const char *const LABEL[LABELS] = { "a", "b", "c-1", "d.e", "abcdefghijklmnopqrst", "A",
                                           "", "abcdefghijklmnopqrstu" };

/* ---- What can be read. */

static void named(struct storm *s, uint32_t seat)
{
    if (seat != NIT_NONE)
        CHECK(nit_seat_state(&s->server, seat).status == NIT_SEAT_LIVE);
}

static void reads(struct storm *s)
{
    struct nit_state state = nit_state(&s->server);
    CHECK(state.kind == NIT_DONE && state.width == s->width && state.height == s->height);
    CHECK(state.seats == s->seats && state.mode <= NIT_MODE_KILL);
    CHECK(state.x < s->width && state.y < s->height);
    named(s, state.focus);
    named(s, state.hover);
    for (uint32_t seat = 0; seat < s->seats; seat++) {
        struct nit_seat_state one = nit_seat_state(&s->server, seat);
        CHECK(one.kind == NIT_DONE && one.waiting <= 64 && one.client == s->client[seat]);
        CHECK(one.status >= NIT_SEAT_LIVE && one.status <= NIT_SEAT_KILLED);
        CHECK(one.status == NIT_SEAT_LIVE || one.waiting == 0);
    }
}

/* ---- Seats. */

static bool is_live(struct storm *s, uint32_t seat)
{
    return nit_seat_state(&s->server, seat).status == NIT_SEAT_LIVE;
}

/* The seat that has the label, or had it last; NIT_NONE where none has. */
static uint32_t seat_of(const struct storm *s, int label)
{
    for (uint32_t seat = 0; seat < s->seats; seat++)
        if (s->label[seat] == label)
            return seat;
    return NIT_NONE;
}

/* What seats a client of this label in this layer. */
static struct nit_seated seat_for(struct storm *s, int label, uint32_t layer)
{
    uint32_t had = seat_of(s, label), free = 0;
    if (label >= GOOD)
        return (struct nit_seated){ .kind = NIT_BAD_LABEL };
    if (had != NIT_NONE && (is_live(s, had) || s->layer[had] != layer))
        return (struct nit_seated){ .kind = NIT_LABEL_TAKEN };
    if (had != NIT_NONE)
        return (struct nit_seated){ .kind = NIT_DONE, .seat = had };
    while (free < s->seats && (is_live(s, free) || s->layer[free] != layer))
        free++;
    if (free == s->seats)
        return (struct nit_seated){ .kind = NIT_NO_FREE_SEAT };
    return (struct nit_seated){ .kind = NIT_DONE, .seat = free };
}

/* What a seat answers to a client of this label that is to sit there. */
static uint32_t answer_of(struct storm *s, uint32_t seat, int label)
{
    uint32_t had = seat_of(s, label);
    if (seat >= s->seats)
        return NIT_NO_SEAT;
    if (label >= GOOD)
        return NIT_BAD_LABEL;
    if (is_live(s, seat))
        return NIT_SEAT_TAKEN;
    return had == NIT_NONE || had == seat ? NIT_DONE : NIT_LABEL_TAKEN;
}

/* A client sits down. Its name has the next turn. */
static void sits(struct storm *s, uint32_t seat, int label)
{
    s->client[seat] = ++s->turns * 65536 + seat;
    SEATED(nit_seat(&s->server, seat, LABEL[label], strlen(LABEL[label])), .kind = NIT_DONE,
           .seat = seat, .client = s->client[seat]);
    s->label[seat] = label;
    s->handle[seat] = 0;
    s->length = 0;
    SEAT(nit_seat_state(&s->server, seat), .kind = NIT_DONE, .status = NIT_SEAT_LIVE,
         .client = s->client[seat]);
}

static void takes_seat(struct storm *s)
{
    int label = (int)below(s, LABELS);
    const char *text = LABEL[label];
    uint32_t layer = below(s, 4), seat, answer;
    struct nit_seated found = nit_seat_for(&s->server, text, strlen(text), layer);
    same_seated(found, seat_for(s, label, layer), __FILE__, __LINE__);
    seat = found.kind == NIT_DONE && below(s, 3) != 0 ? found.seat : nit_seat_of(any_client(s));
    answer = answer_of(s, seat, label);
    CHECK(found.kind != NIT_DONE || answer_of(s, found.seat, label) == NIT_DONE);
    if (answer == NIT_DONE)
        sits(s, seat, label);
    else
        SEATED(nit_seat(&s->server, seat, text, strlen(text)), .kind = answer);
    told(s, false, "");
}

/* The client under the pointer leaves, and the next one of its seat, which has its label, stands
 * there; then the user clicks. What the client before still asks for reaches nobody. */
static void comes_again(struct storm *s)
{
    const struct placed *there = shown_owner(s, nit_state(&s->server));
    if (!there)
        return;
    nit_client before = there->client;
    uint32_t seat = nit_seat_of(before);
    whole_look(s);
    CHECK(nit_leave(&s->server, before).kind == NIT_DONE);
    shown_gone(s, before);
    sits(s, seat, s->label[seat]);
    REPLY(shown_view(s, s->client[seat]), .kind = NIT_HANDLE, .handle = 1);
    s->handle[seat] = 1;
    struct placed all = { .client = s->client[seat], .handle = 1, .w = s->width, .h = s->height };
    REPLY(shown_place(s, all), .kind = NIT_DONE);
    all.client = before;
    all.w = 1;
    REPLY(shown_place(s, all), .kind = NIT_OTHER_CLIENT);
    told(s, true, "call ");
    told(s, shown_press(s, 272).kind == NIT_DONE, "input ");
}

/* ---- The host. */

/* A number of pixels from `least` to 64, or to a power of 2 up to 4096. */
static uint32_t any_length(struct storm *s, uint32_t least, bool is_large)
{
    uint32_t most = is_large ? (uint32_t)SIDE << below(s, 7) : SIDE;
    return is_large && below(s, 2) == 0 ? most : least + below(s, most - least + 1);
}

/* Mostly few units, but one donation in eight is at an edge or of any size. */
static uint32_t any_donation(struct storm *s)
{
    static const uint32_t edges[] = { 256, 4194304, 4194305, 8388608, 8388609, 134217728,
                                      NIT_MOST_UNITS };
    uint32_t what = below(s, 16);
    if (what == 0)
        return edges[below(s, sizeof edges / sizeof *edges)];
    return 256 + below(s, what == 1 ? NIT_MOST_UNITS - 255 : 32512);
}

/* The size of the next server, and the memory that it is lent. The first one is the largest. */
static void sizes(struct storm *s)
{
    bool is_large = s->servers % 8 == 0, is_first = s->servers++ == 0;
    uint32_t *end = s->frame + (size_t)s->width * s->height;
    s->width = is_first ? NIT_MOST_WIDTH : any_length(s, 1, is_large);
    s->height = is_first ? NIT_MOST_HEIGHT : any_length(s, 8, is_large);
    s->frame = end - (size_t)s->width * s->height;
    s->side = s->width > s->height ? s->width : s->height;
    s->side = s->side < SIDE ? SIDE : s->side;
}

/* Seats of a plan, and what is remembered of them. */
static void seats_of(struct storm *s, struct nit_seat_plan *seats)
{
    s->seats = 1 + below(s, below(s, 8) == 0 ? NIT_MOST_SEATS : 4);
    s->room = 0;
    for (uint32_t k = 0; k < s->seats; k++) {
        seats[k] = (struct nit_seat_plan){ any_donation(s), below(s, 3), below(s, 2) };
        uint32_t words = room_of(seats[k].donation) / 8;
        s->room = words > s->room ? words : s->room;
        s->layer[k] = seats[k].layer;
        s->label[k] = -1;
        s->client[k] = k;
    }
    s->turns = 0;
    s->room = s->room < MOST_WORDS ? s->room : MOST_WORDS;
}

/* How texts are drawn: mostly small on a screen of a few pixels. */
static struct letters any_letters(struct storm *s)
{
    uint32_t most = s->side > SIDE || below(s, 8) == 0 ? 8 : 1 + below(s, 2);
    return (struct letters){ .glyphs = below(s, 2), .scale = 1 + below(s, most) };
}

/* A plan with a number too much is refused, and so is a bar that leaves no row. Answers one that is
 * not. */
static struct nit_plan good_plan(struct storm *s, const struct nit_seat_plan *seats)
{
    struct nit_plan plan = { .width = s->width, .height = s->height, .bar = 2 + any(s) % 9,
                             .count = s->seats, .seats = seats };
    CHECK(nit_open(&s->server, &plan) == NIT_BAD_PLAN);
    plan.bar = below(s, 2);
    plan.glyphs = 2 + any(s) % 9;
    CHECK(nit_open(&s->server, &plan) == NIT_BAD_PLAN);
    s->letters = any_letters(s);
    plan.glyphs = s->letters.glyphs;
    plan.scale = 9 + any(s) % 9;
    CHECK(nit_open(&s->server, &plan) == NIT_BAD_PLAN);
    plan.scale = s->letters.scale;
    if (plan.bar == 1 && letters_height(s->letters) >= s->height) {
        CHECK(nit_open(&s->server, &plan) == NIT_BAD_PLAN);
        plan.bar = 0;
    }
    return plan;
}

/* Opens a server of random size. */
static void opens(struct storm *s)
{
    struct nit_seat_plan seats[NIT_MOST_SEATS];
    sizes(s);
    seats_of(s, seats);
    const struct nit_plan plan = good_plan(s, seats);
    s->bar = plan.bar == 1 ? letters_height(s->letters) : 0;
    CHECK(nit_open(&s->server, &plan) == NIT_DONE);
    CHECK(nit_open(&s->server, &plan) == NIT_IS_OPEN);
    s->length = 0;
    shown_opens(s);
    for (int k = 0; k < 8 && s->side > SIDE; k++)
        takes_seat(s);
}

/* A server stands for 20,000 calls on average, and a large one for fewer, by its pixels. */
static bool is_over(struct storm *s)
{
    uint32_t calls = (uint32_t)(20000ull * SIDE * SIDE / ((uint64_t)s->width * s->height));
    return below(s, calls < 64 ? 64 : calls < 20000 ? calls : 20000) == 0;
}

static void does(struct storm *s)
{
    uint32_t what = below(s, 20000);
    if (is_over(s)) {
        looks(s);
        close_plain(&s->server);
        CHECK(nit_view(&s->server, 0).kind == NIT_NO_SERVER);
        opens(s);
    } else if (what < 100) {
        looks(s);
    } else if (what < 150) {
        copies(s);
    } else if (what < 200) {
        reads(s);
    } else if (what < 400) {
        user_restacks(s);
    } else if (what < 800) {
        takes_seat(s);
    } else if (what < 820) {
        comes_again(s);
    } else if (what < 5000) {
        user_does(s);
    } else {
        client_calls(s);
    }
}

int main(int count, char **words)
{
    static struct storm s;
    uint64_t calls = count > 1 ? number_in(words[1]) : 1000000;
    s.random.at = count > 2 ? number_in(words[2]) : 1;
    s.words = guarded_words(MOST_WORDS) + MOST_WORDS;
    s.frame = guarded_words(MOST_WORDS) + MOST_WORDS;
    s.other = guarded_words(MOST_WORDS);
    s.scratch = guarded_words(SCRATCH) + SCRATCH;
    opens(&s);
    for (uint64_t k = 0; k < calls; k++)
        does(&s);
    close_plain(&s.server);
    for (uint32_t kind = NIT_DONE; kind <= NIT_SESSION_KILLED; kind++)
        CHECK(calls < 1000000 || (s.seen >> kind & 1) == 1);
    CHECK(calls < 1000000 || (s.seen >> NIT_MOVED & s.seen >> NIT_OTHER_CLIENT & 1) == 1);
    CHECK(calls < 1000000 || s.labels >= 100);
    printf("storm: %llu calls\n", (unsigned long long)calls);
    return 0;
}

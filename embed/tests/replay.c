/* Makes the calls and the input of a run through the library, and compares all that is answered.
 *
 * usage: replay PLAY
 *
 * PLAY is a file that replay.py makes of a run: first `config NAME`, if a configuration says it
 * all, then `screen W H BAR GLYPHS SCALE`, a line `seat DONATION LAYER CLICKS LABEL` for each
 * client, and `begin`; then the run in order: each entry of its journal, `stroke CLIENT LINE` for
 * what a client draws, and `picture NAME` where all clients refresh all they have and the screen is
 * to show the picture of that name. The run is made with two servers in turn, one that the
 * configuration opens, or as many seats as there are clients, and one that 64 seats open, of which
 * nobody takes the last ones. Both are looked at before the press of a button, and the second one
 * behind each step. The first difference ends it with status 1. */
#include "replay_read.h"

enum { SEATS = 16, LINE = 400 };

/* What a client has drawn: so many words, of which its buffer has the first w times h. */
struct drawing {
    uint32_t *words;
    size_t room;
    uint32_t w, h;
};

struct part {
    int32_t x, y;
    uint32_t w, h;
};

/* A run, with the servers that it is made with, and what was seen of each. */
struct run {
    struct nit_server server[2];
    nit_client client[2][SEATS];
    uint32_t *frame[2];
    uint32_t width, height, bar, glyphs, scale, count, line;
    struct nit_seat_plan plan[NIT_MOST_SEATS]; /* behind those of the clients nobody sits */
    char label[SEATS][32];
    struct drawing drawing[SEATS];
};

static const char *name_of_play;

static void wrong(const struct run *run, const char *line, const char *what)
{
    fprintf(stderr, "%s:%u: %s: %s\n", name_of_play, run->line, line, what);
    exit(1);
}

static struct nit_rect look_at(struct run *run, int k)
{
    return nit_look(&run->server[k], run->frame[k], (size_t)run->width * run->height);
}

/* ---- Calls. */

/* A call of views by its line; `*is_one` says whether it was one. */
static struct nit_reply call_views(struct nit_server *s, nit_client client, const char *line,
                                   bool *is_one)
{
    uint32_t v = 0, w, h;
    int32_t x, y;
    *is_one = true;
    if (begins(line, "view"))
        return nit_view(s, client);
    if (sscanf(line, "place %u %d %d %u %u", &v, &x, &y, &w, &h) == 5)
        return nit_place(s, client, v, x, y, w, h);
    if (sscanf(line, "offset %u %d %d", &v, &x, &y) == 3)
        return nit_offset(s, client, v, x, y);
    if (sscanf(line, "front %u", &v) == 1)
        return nit_front(s, client, v);
    if (sscanf(line, "back %u", &v) == 1)
        return nit_back(s, client, v);
    if (sscanf(line, "above %u %u", &v, &w) == 2)
        return nit_above(s, client, v, w);
    if (sscanf(line, "title %u =", &v) == 1)
        return nit_title(s, client, v, strchr(line, '=') + 1, strlen(strchr(line, '=') + 1));
    if (sscanf(line, "destroy %u", &v) == 1)
        return nit_destroy(s, client, v);
    *is_one = false;
    return (struct nit_reply){ .kind = NIT_NO_SERVER };
}

static struct nit_reply refresh(struct run *run, int k, uint32_t seat, const struct part *part)
{
    struct drawing *d = &run->drawing[seat];
    size_t count = (size_t)d->w * d->h;
    return nit_refresh(&run->server[k], run->client[k][seat], part->x, part->y, part->w, part->h,
                       d->words + d->room - count, count);
}

/* A call of a session: on each server its client has a name of its own. */
static struct nit_reply call(struct run *run, int k, uint32_t seat, const char *line)
{
    struct nit_server *s = &run->server[k];
    nit_client client = run->client[k][seat];
    struct part part;
    uint32_t w, h;
    bool is_one;
    struct nit_reply reply = call_views(s, client, line, &is_one);
    if (is_one)
        return reply;
    if (sscanf(line, "buffer %u %u", &w, &h) == 2)
        return nit_buffer(s, client, w, h);
    if (sscanf(line, "refresh %d %d %u %u", &part.x, &part.y, &part.w, &part.h) == 4)
        return refresh(run, k, seat, &part);
    if (sscanf(line, "upgrade %u", &w) == 1)
        return nit_upgrade(s, client, w);
    if (begins(line, "take"))
        return nit_take(s, client);
    if (begins(line, "close"))
        return nit_leave(s, client);
    wrong(run, line, "no call");
    return reply;
}

static struct nit_routed input(struct run *run, struct nit_server *s, const char *line)
{
    uint32_t code, y;
    int32_t turn;
    if (sscanf(line, "press %u", &code) == 1)
        return nit_press(s, code);
    if (sscanf(line, "release %u", &code) == 1)
        return nit_release(s, code);
    if (sscanf(line, "motion %u %u", &code, &y) == 2)
        return nit_motion(s, code, y);
    if (sscanf(line, "wheel %d", &turn) != 1)
        wrong(run, line, "no input");
    return nit_wheel(s, turn);
}

/* ---- The lines of a play. */

/* The words of the client's buffer are the last ones of its room, so that none lies behind. */
static void has_buffer(struct drawing *d, uint32_t w, uint32_t h)
{
    d->w = w;
    d->h = h;
    memset(d->words + d->room - (size_t)w * h, 0, 4 * (size_t)w * h);
}

static void is_entry(struct run *run, struct nit_server *s, const char *line)
{
    char out[NIT_LINE];
    size_t length = strlen(line);
    if (nit_entry(s, out, sizeof out) != length + 1 || memcmp(out, line, length) != 0
        || out[length] != '\n')
        wrong(run, line, "the text of the step is another one");
}

/* By a name that the seat's client does not have nobody is asked, and no step is done. */
static void others_reach_nobody(struct run *run, int k, uint32_t seat, const char *line)
{
    struct nit_server *s = &run->server[k];
    nit_client other = run->client[k][seat] + 65536;
    if (nit_take(s, other).kind != NIT_OTHER_CLIENT || nit_leave(s, other).kind != NIT_OTHER_CLIENT
        || nit_raise(s, other, 1) != NIT_OTHER_CLIENT)
        wrong(run, line, "another client is served");
}

static void play_call(struct run *run, const char *line)
{
    uint32_t seat = (uint32_t)strtoul(line + 5, NULL, 10), w, h;
    const char *said = strchr(line + 5, ' '), *asked = strstr(line, " < ");
    if (!said || !asked || seat >= run->count)
        wrong(run, line, "no call");
    said++;
    asked += 3;
    struct nit_reply want = reply_in(said);
    for (int k = 0; k < 2; k++) {
        others_reach_nobody(run, k, seat, line);
        struct nit_reply got = call(run, k, seat, asked);
        if (memcmp(&got, &want, sizeof want) != 0)
            wrong(run, line, "another reply");
        is_entry(run, &run->server[k], line);
    }
    look_at(run, 1);
    if (want.kind == NIT_DONE && sscanf(asked, "buffer %u %u", &w, &h) == 2)
        has_buffer(&run->drawing[seat], w, h);
    if (want.kind == NIT_DONE && begins(asked, "close"))
        has_buffer(&run->drawing[seat], 0, 0);
}

/* A run has no looks, and a click goes to what the last look showed: so each is shown first. */
static bool is_button(const char *line)
{
    uint32_t code;
    return sscanf(line, "input press %u", &code) == 1 && code >= 272 && code <= 279;
}

static void play_input(struct run *run, const char *line)
{
    struct nit_routed want = routed_in(line);
    for (int k = 0; k < 2; k++) {
        if (is_button(line))
            look_at(run, k);
        struct nit_routed got = input(run, &run->server[k], line + 6);
        if (memcmp(&got, &want, sizeof want) != 0)
            wrong(run, line, "it goes elsewhere");
        is_entry(run, &run->server[k], line);
    }
    look_at(run, 1);
}

static void play_stroke(struct run *run, const char *line)
{
    uint32_t seat, x, y, w, h, colours[2];
    char word[8];
    int found = sscanf(line, "stroke %u %7s %u %u %u %u %x %x", &seat, word, &x, &y, &w, &h,
                       &colours[0], &colours[1]);
    if (found < 7 || seat >= run->count)
        wrong(run, line, "no stroke");
    if (found == 7)
        colours[1] = colours[0];
    struct drawing *d = &run->drawing[seat];
    uint32_t *words = d->words + d->room - (size_t)d->w * d->h;
    for (uint32_t j = y; j < d->h && j - y < h; j++)
        for (uint32_t i = x; i < d->w && i - x < w; i++)
            words[(size_t)j * d->w + i] = colours[(i - x + j - y) % 2];
}

/* ---- Pictures. */

static void refresh_all(struct run *run, int k, const char *line)
{
    const struct part all = { 0, 0, 4096, 4096 };
    for (uint32_t seat = 0; seat < run->count; seat++)
        if (nit_seat_state(&run->server[k], seat).status == NIT_SEAT_LIVE
            && refresh(run, k, seat, &all).kind != NIT_DONE)
            wrong(run, line, "a whole refresh is refused");
}

/* Whether the words in which two frames differ reach each side of the part, and lie in it. */
static bool is_least(const struct run *run, struct nit_rect part, const uint32_t *before,
                     const uint32_t *now)
{
    uint32_t left = UINT32_MAX, top = UINT32_MAX, right = 0, low = 0;
    for (uint32_t y = 0; y < run->height; y++)
        for (uint32_t x = 0; x < run->width; x++) {
            if (before[y * run->width + x] == now[y * run->width + x])
                continue;
            left = x < left ? x : left;
            top = y < top ? y : top;
            right = x + 1 > right ? x + 1 : right;
            low = y + 1 > low ? y + 1 : low;
        }
    if (right == 0)
        return part.x == 0 && part.y == 0 && part.w == 0 && part.h == 0;
    return part.x == left && part.y == top && part.x + part.w == right && part.y + part.h == low;
}

static void look(struct run *run, int k, const uint8_t *pixels, const char *line)
{
    size_t count = (size_t)run->width * run->height;
    uint32_t *before = malloc(4 * count), *frame = run->frame[k];
    CHECK(before != NULL);
    memcpy(before, frame, 4 * count);
    struct nit_rect part = look_at(run, k);
    if (part.kind != NIT_DONE || !is_least(run, part, before, frame))
        wrong(run, line, "a look tells another part than the least that changed");
    for (size_t n = 0; n < count; n++)
        if (frame[n] != ((uint32_t)pixels[3 * n] << 16 | (uint32_t)pixels[3 * n + 1] << 8
                         | pixels[3 * n + 2]))
            wrong(run, line, "the screen shows something else");
    if (look_at(run, k).w != 0)
        wrong(run, line, "a second look tells a change");
    free(before);
}

/* The second server was looked at behind each step, and the first one is looked at now. */
static void show_the_same(struct run *run, const char *line)
{
    look_at(run, 0);
    look_at(run, 1);
    if (memcmp(run->frame[0], run->frame[1], 4 * (size_t)run->width * run->height) != 0)
        wrong(run, line, "looks behind each step miss something");
}

static void play_picture(struct run *run, const char *line)
{
    uint8_t *pixels = picture_in(line + 8, run->width, run->height);
    if (!pixels)
        wrong(run, line, "no picture of this screen");
    show_the_same(run, line);
    for (int k = 0; k < 2; k++) {
        refresh_all(run, k, line);
        look(run, k, pixels, line);
    }
    free(pixels);
}

/* ---- Opening, and the whole run. */

static void open_by_text(struct run *run, const char *line, const char *name)
{
    static char text[1 << 20];
    FILE *file = fopen(name, "rb");
    if (!file)
        wrong(run, line, "no configuration");
    size_t length = fread(text, 1, sizeof text, file);
    if (ferror(file) || fgetc(file) != EOF)
        wrong(run, line, "the configuration cannot be read, or is too long");
    fclose(file);
    if (nit_open_config(&run->server[0], text, length) != NIT_DONE)
        wrong(run, line, "the configuration is refused");
}

static void add_seat(struct run *run, const char *line)
{
    struct nit_seat_plan *seat = &run->plan[run->count];
    if (run->count == SEATS
        || sscanf(line, "seat %u %u %u %31s", &seat->donation, &seat->layer, &seat->clicks,
                  run->label[run->count]) != 4)
        wrong(run, line, "no seat");
    struct drawing *d = &run->drawing[run->count++];
    d->room = room_of(seat->donation) / 8;
    d->words = guarded_words(d->room);
}

/* Opens a server by so many seats, and all clients sit down. */
static void open_by_seats(struct run *run, int k, uint32_t seats)
{
    const struct nit_plan plan = { .width = run->width, .height = run->height, .bar = run->bar,
                                   .count = seats, .seats = run->plan, .glyphs = run->glyphs,
                                   .scale = run->scale };
    for (uint32_t seat = run->count; seat < seats; seat++)
        run->plan[seat] = (struct nit_seat_plan){ .donation = NIT_LEAST_UNITS };
    CHECK(nit_open(&run->server[k], &plan) == NIT_DONE);
    for (uint32_t seat = 0; seat < run->count; seat++) {
        const char *label = run->label[seat];
        SEATED(nit_seat_for(&run->server[k], label, strlen(label), run->plan[seat].layer),
               .kind = NIT_DONE, .seat = seat);
        run->client[k][seat] = sits_on(&run->server[k], seat, label);
    }
}

/* Opens by seats what no configuration has opened already. */
static void begin(struct run *run)
{
    for (uint32_t seat = 0; seat < run->count; seat++)
        run->client[0][seat] = seat;
    if (nit_state(&run->server[0]).kind == NIT_NO_SERVER)
        open_by_seats(run, 0, run->count);
    open_by_seats(run, 1, NIT_MOST_SEATS);
    for (int k = 0; k < 2; k++) {
        run->frame[k] = guarded_words((size_t)run->width * run->height);
        struct nit_state state = nit_state(&run->server[k]);
        CHECK(state.width == run->width && state.height == run->height);
        CHECK(state.seats == (k == 0 ? run->count : NIT_MOST_SEATS));
    }
}

static bool read_screen(struct run *run, const char *line)
{
    return sscanf(line, "screen %u %u %u %u %u", &run->width, &run->height, &run->bar,
                  &run->glyphs, &run->scale) == 5;
}

static void play(struct run *run, const char *line)
{
    if (begins(line, "config "))
        open_by_text(run, line, line + 7);
    else if (read_screen(run, line))
        return;
    else if (begins(line, "seat "))
        add_seat(run, line);
    else if (begins(line, "begin"))
        begin(run);
    else if (begins(line, "call "))
        play_call(run, line);
    else if (begins(line, "input "))
        play_input(run, line);
    else if (begins(line, "stroke "))
        play_stroke(run, line);
    else if (begins(line, "picture "))
        play_picture(run, line);
    else
        wrong(run, line, "no line of a play");
}

int main(int count, char **words)
{
    static struct run run;
    char line[LINE];
    FILE *file = count == 2 ? fopen(words[1], "r") : NULL;
    if (!file) {
        fputs("usage: replay PLAY\n", stderr);
        return 2;
    }
    name_of_play = words[1];
    while (fgets(line, sizeof line, file)) {
        run.line++;
        line[strcspn(line, "\n")] = '\0';
        play(&run, line);
    }
    if (ferror(file))
        wrong(&run, words[1], "it cannot be read");
    fclose(file);
    close_plain(&run.server[0]);
    close_plain(&run.server[1]);
    return 0;
}

/* Wrong bodies of the library, for the test of its tests (planted.py). A test that is linked with
 * this calls the library through it (-Wl,--wrap): PLANTED in the environment names one wrong body,
 * and each other answer is the library's. The file that PLANTED_DONE names is made where an answer
 * became another one. Screens, damage, looks and copies are here, calls and readers in
 * planted_calls.c. */
#include "planted.h"

enum { SERVERS = 4, MOST = 1 << 18 };

/* What is known of a server: what its screen shows, whether there was a look, and the pixel that
 * the next look misses. */
struct screen {
    const void *at;
    uint32_t width, height, x, y;
    uint32_t *now, *next;
    bool is_looked_at, is_missed;
};

static struct screen screens[SERVERS];

/* ---- Which body is wrong. */

bool is_planted(const char *name)
{
    const char *planted = getenv("PLANTED");
    return planted && strcmp(planted, name) == 0;
}

void happens(void)
{
    const char *path = getenv("PLANTED_DONE");
    FILE *file = path ? fopen(path, "w") : NULL;
    if (file)
        fclose(file);
}

/* Whether a look of this form misses what a step of this kind changes, in this mode. */
static bool is_missing(const char *form, const char *kind, uint32_t mode)
{
    static const char *const modes[] = { "flat", "xray", "kill" };
    char name[100];
    snprintf(name, sizeof name, "%s %s %s", form, kind, modes[mode]);
    return is_planted(name);
}

/* Whether the wrong body is of this form. */
static bool is_form(const char *form)
{
    const char *planted = getenv("PLANTED");
    return planted && strncmp(planted, form, strlen(form)) == 0;
}

static bool misses(const char *kind, uint32_t mode)
{
    return is_missing("damage", kind, mode) || is_missing("look", kind, mode);
}

/* ---- Screens. */

static void read_screen(struct nit_server *server, const struct screen *s, uint32_t *out)
{
    __real_nit_copy(server, 0, 0, s->width, s->height, out, (size_t)s->width * s->height,
                    s->width);
}

/* What is known of an open server with a screen that is not too large; or NULL. */
static struct screen *screen_of(struct nit_server *server)
{
    struct nit_state state = __real_nit_state(server);
    struct screen *free_one = NULL;
    if (state.kind != NIT_DONE || (size_t)state.width * state.height > MOST)
        return NULL;
    for (int k = 0; k < SERVERS; k++) {
        if (screens[k].at == server->at)
            return &screens[k];
        free_one = screens[k].at ? free_one : &screens[k];
    }
    if (!free_one)
        return NULL;
    *free_one = (struct screen){ server->at, state.width, state.height, 0, 0,
                                 malloc(4 * MOST), malloc(4 * MOST), false, false };
    read_screen(server, free_one, free_one->now);
    return free_one;
}

uint32_t __wrap_nit_close(struct nit_server *server)
{
    for (int k = 0; k < SERVERS; k++)
        if (server->at && screens[k].at == server->at) {
            free(screens[k].now);
            free(screens[k].next);
            screens[k] = (struct screen){ 0 };
        }
    return __real_nit_close(server);
}

/* ---- Steps: the last pixel that one changes is missed. */

/* Only where a step may be one that is missed is the screen read. */
struct before before_step(struct nit_server *server)
{
    bool is = is_form("damage ") || is_form("look ");
    struct before before = { is ? screen_of(server) : NULL, NIT_MODE_FLAT };
    if (before.screen)
        before.mode = __real_nit_state(server).mode;
    return before;
}

void after_step(struct nit_server *server, struct before before, const char *kind)
{
    struct screen *s = before.screen;
    if (!s)
        return;
    read_screen(server, s, s->next);
    size_t at = (size_t)s->width * s->height;
    while (at > 0 && s->now[at - 1] == s->next[at - 1])
        at--;
    if (at > 0 && misses(kind, before.mode)) {
        s->is_missed = true;
        s->x = (uint32_t)((at - 1) % s->width);
        s->y = (uint32_t)((at - 1) / s->width);
    }
    uint32_t *now = s->now;
    s->now = s->next;
    s->next = now;
}

/* Behind the first look of a server something was shown. */
static struct screen *looked_at(struct nit_server *server)
{
    struct screen *s = before_step(server).screen;
    if (s && !s->is_looked_at && misses("opening", NIT_MODE_FLAT)) {
        s->is_missed = true;
        s->x = s->width - 1;
        s->y = s->height - 1;
    }
    if (s)
        s->is_looked_at = true;
    return s;
}

/* ---- Damage. */

static void put(struct nit_damage *damage, uint32_t x, uint32_t y, uint32_t w, uint32_t h)
{
    if (w > 0 && h > 0 && damage->count < 16)
        damage->part[damage->count++] = (struct nit_part){ x, y, w, h };
}

/* The same parts without a pixel. */
static struct nit_damage without(const struct nit_damage *damage, uint32_t x, uint32_t y)
{
    struct nit_damage rest = { .kind = damage->kind };
    for (uint32_t k = 0; k < damage->count; k++) {
        struct nit_part p = damage->part[k];
        if (x - p.x >= p.w || y - p.y >= p.h) {
            put(&rest, p.x, p.y, p.w, p.h);
            continue;
        }
        happens();
        put(&rest, p.x, p.y, p.w, y - p.y);
        put(&rest, p.x, y + 1, p.w, p.y + p.h - y - 1);
        put(&rest, p.x, y, x - p.x, 1);
        put(&rest, x + 1, y, p.x + p.w - x - 1, 1);
    }
    return rest;
}

/* Parts of another form: `one` is the first. */
static void other_parts(struct nit_damage *damage, struct nit_part one, const struct nit_state *s)
{
    struct nit_damage was = *damage;
    if (is_planted("parts meet") && one.h > 1)
        put(damage, one.x, one.y + one.h - 1, one.w, 1);
    if (is_planted("parts stand twice"))
        put(damage, one.x, one.y, one.w, one.h);
    if (is_planted("a part is empty") && damage->count < 16)
        damage->part[damage->count++] = (struct nit_part){ one.x, one.y, 0, one.h };
    if (is_planted("a part ends beyond the screen") && one.x + one.w == s->width)
        damage->part[0].w++;
    if (is_planted("the rest of the parts is not 0") && damage->count < 16)
        damage->part[15].x = 1;
    if (is_planted("damage is the whole screen")) {
        *damage = (struct nit_damage){ .kind = NIT_DONE };
        put(damage, 0, 0, s->width, s->height);
    }
    if (memcmp(&was, damage, sizeof was) != 0)
        happens();
}

struct nit_damage __wrap_nit_damage(struct nit_server *server)
{
    static struct nit_damage last;
    struct screen *s = looked_at(server);
    struct nit_state state = __real_nit_state(server);
    struct nit_damage damage = __real_nit_damage(server);
    if (is_planted("damage is told twice") && damage.kind == NIT_DONE && damage.count == 0) {
        happens();
        return last;
    }
    if (damage.count > 0)
        other_parts(&damage, damage.part[0], &state);
    if (s && s->is_missed && is_form("damage "))
        damage = without(&damage, s->x, s->y);
    if (s)
        s->is_missed = false;
    last = damage;
    return damage;
}

/* ---- Looks: a word stays as it was, or the part is too small. */

static struct nit_rect look(struct nit_server *server, uint32_t *out, size_t count,
                            struct nit_rect (*real)(struct nit_server *, uint32_t *, size_t))
{
    struct screen *s = looked_at(server);
    bool is_missed = s && s->is_missed && is_form("look ") && count == (size_t)s->width * s->height;
    size_t at = is_missed ? (size_t)s->y * s->width + s->x : 0;
    uint32_t word = is_missed ? out[at] : 0;
    struct nit_rect rect = real(server, out, count);
    if (is_missed) {
        if (out[at] != word)
            happens();
        out[at] = word;
        s->is_missed = false;
    }
    if (is_planted("the part of a look is too narrow") && rect.w > 1) {
        happens();
        rect.w--;
    }
    if (is_planted("the part of a look is too wide") && rect.w > 0 && rect.x > 0) {
        happens();
        rect.x--;
        rect.w++;
    }
    return rect;
}

struct nit_rect __wrap_nit_look(struct nit_server *server, uint32_t *out, size_t count)
{
    return look(server, out, count, __real_nit_look);
}

struct nit_rect __wrap_nit_look_anew(struct nit_server *server, uint32_t *out, size_t count)
{
    return look(server, out, count, __real_nit_look_anew);
}

/* ---- Copies. */

struct copy {
    uint32_t x, y, w, h;
    uint32_t *out;
    size_t count, pitch;
};

/* Whether a copy has pixels, and is done. */
static bool puts_pixels(const struct nit_state *state, const struct copy *c)
{
    if (c->w == 0 || c->h == 0 || c->x > state->width || c->w > state->width - c->x
        || c->y > state->height || c->h > state->height - c->y || c->w > c->count)
        return false;
    return c->h == 1 || (c->w <= c->pitch && c->pitch <= (c->count - c->w) / (c->h - 1));
}

/* Another place, size or pitch of a copy that is done. */
static void turn_aside(const struct nit_state *state, struct copy *c)
{
    if (is_planted("a copy takes the width as the pitch"))
        c->pitch = c->w;
    if (is_planted("a copy takes the screen's width as the pitch"))
        c->pitch = state->width;
    if (is_planted("a copy is one column to the right"))
        c->x++;
    if (is_planted("a copy is one row down"))
        c->y++;
    if (is_planted("a copy has a row more"))
        c->h++;
    if (is_planted("a copy has a column more"))
        c->w++;
}

/* What becomes of the words of a copy that was done. */
static void spoil(const struct copy *c)
{
    size_t last = (c->h - 1) * c->pitch + c->w;
    uint32_t was = c->out[last - 1];
    if (is_planted("a copy writes behind a row") && c->h > 1 && c->pitch > c->w) {
        happens();
        c->out[c->w] = was;
    }
    if (is_planted("a copy writes behind the last row") && last < c->count) {
        happens();
        c->out[last] = was;
    }
    if (is_planted("a copy misses the last word") && c->w > 1)
        c->out[last - 1] = c->out[last - 2];
    if (is_planted("a copy has the highest byte"))
        c->out[last - 1] |= 0xFF000000;
    if (was != c->out[last - 1])
        happens();
}

static uint32_t real_copy(struct nit_server *server, const struct copy *c)
{
    return __real_nit_copy(server, c->x, c->y, c->w, c->h, c->out, c->count, c->pitch);
}

uint32_t __wrap_nit_copy(struct nit_server *server, uint32_t x, uint32_t y, uint32_t w, uint32_t h,
                         uint32_t *out, size_t count, size_t pitch)
{
    struct nit_state state = __real_nit_state(server);
    struct copy right = { x, y, w, h, out, count, pitch }, wrong = right;
    bool is_done = puts_pixels(&state, &right);
    if (is_done)
        turn_aside(&state, &wrong);
    if (memcmp(&right, &wrong, sizeof right) != 0 && puts_pixels(&state, &wrong)) {
        happens();
        return real_copy(server, &wrong);
    }
    uint32_t answer = real_copy(server, &right);
    if (is_done)
        spoil(&right);
    if (is_planted("a copy that is refused writes") && answer > NIT_DONE && count > 0) {
        happens();
        out[0] = 0;
    }
    if (is_planted("a copy is a look") && answer == NIT_DONE) {
        happens();
        __real_nit_damage((struct nit_server *)(uintptr_t)server);
    }
    return answer;
}

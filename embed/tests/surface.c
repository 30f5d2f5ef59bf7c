/* What surface.h says. */
#include "surface.h"

enum { BEHIND = 0x7EADBEEF };

struct surface surface_of(const struct nit_server *server)
{
    struct nit_state state = nit_state(server);
    struct surface s = { state.width, state.height, state.width + 1, NULL, NULL };
    size_t count = (size_t)s.pitch * s.height;
    s.words = guarded_words(count);
    s.whole = guarded_words((size_t)s.width * s.height);
    for (size_t k = 0; k < count; k++)
        s.words[k] = BEHIND;
    return s;
}

static bool meet(const struct nit_part *a, const struct nit_part *b)
{
    return a->x < b->x + b->w && b->x < a->x + a->w && a->y < b->y + b->h && b->y < a->y + a->h;
}

static void are_parts(const struct nit_damage *damage, const struct surface *s)
{
    const struct nit_part none = { 0, 0, 0, 0 };
    CHECK(damage->kind == NIT_DONE && damage->count <= 16);
    for (uint32_t k = 0; k < 16; k++) {
        const struct nit_part *part = &damage->part[k];
        if (k >= damage->count) {
            CHECK(memcmp(part, &none, sizeof none) == 0);
            continue;
        }
        CHECK(part->w >= 1 && part->w <= s->width && part->x <= s->width - part->w);
        CHECK(part->h >= 1 && part->h <= s->height && part->y <= s->height - part->h);
        for (uint32_t other = 0; other < k; other++)
            CHECK(!meet(part, &damage->part[other]));
    }
}

static bool is_hurt(const struct nit_damage *damage, uint32_t x, uint32_t y)
{
    bool is = false;
    for (uint32_t k = 0; k < damage->count; k++) {
        const struct nit_part *part = &damage->part[k];
        is = is || (x - part->x < part->w && y - part->y < part->h);
    }
    return is;
}

/* Each word of the surface outside of the parts is what the screen shows. */
static void is_all(const struct nit_damage *damage, const struct surface *s)
{
    for (uint32_t y = 0; y < s->height; y++) {
        const uint32_t *row = s->words + (size_t)y * s->pitch;
        const uint32_t *now = s->whole + (size_t)y * s->width;
        for (uint32_t x = 0; x < s->width; x++)
            CHECK(row[x] == now[x] || is_hurt(damage, x, y));
    }
}

static void copy_parts(struct nit_server *server, const struct nit_damage *damage,
                       struct surface *s)
{
    size_t count = (size_t)s->pitch * s->height;
    for (uint32_t k = 0; k < damage->count; k++) {
        const struct nit_part *part = &damage->part[k];
        size_t at = (size_t)part->y * s->pitch + part->x;
        CHECK(nit_copy(server, part->x, part->y, part->w, part->h, s->words + at, count - at,
                       s->pitch) == NIT_DONE);
    }
}

static void is_shown(const struct surface *s)
{
    for (uint32_t y = 0; y < s->height; y++) {
        const uint32_t *row = s->words + (size_t)y * s->pitch;
        CHECK(memcmp(row, s->whole + (size_t)y * s->width, 4 * (size_t)s->width) == 0);
        CHECK(s->pitch == s->width || row[s->width] == BEHIND);
    }
}

struct nit_damage damaged(struct nit_server *server, struct surface *s)
{
    struct nit_damage damage = nit_damage(server);
    are_parts(&damage, s);
    CHECK(nit_copy(server, 0, 0, s->width, s->height, s->whole, (size_t)s->width * s->height,
                   s->width) == NIT_DONE);
    is_all(&damage, s);
    copy_parts(server, &damage, s);
    is_shown(s);
    return damage;
}

uint64_t area_of(const struct nit_damage *damage)
{
    uint64_t area = 0;
    for (uint32_t k = 0; k < damage->count; k++)
        area += (uint64_t)damage->part[k].w * damage->part[k].h;
    return area;
}

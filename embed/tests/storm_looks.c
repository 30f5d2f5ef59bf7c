/* The looks and copies of the test `storm`. */
#include "storm.h"

enum { KEPT = 0x7EADBEEF };

/* Outside of the part each word is as it was; and all are below 2^24. */
static void is_outside_the_same(const struct storm *s, struct nit_rect part, const uint32_t *was)
{
    uint32_t bits = 0;
    for (uint32_t y = 0; y < s->height; y++) {
        const uint32_t *now = s->frame + (size_t)y * s->width;
        uint32_t left = y - part.y < part.h ? part.x : s->width;
        uint32_t right = y - part.y < part.h ? part.x + part.w : s->width;
        CHECK(memcmp(now, was, 4 * (size_t)left) == 0);
        CHECK(memcmp(now + right, was + right, 4 * (size_t)(s->width - right)) == 0);
        for (uint32_t x = 0; x < s->width; x++)
            bits |= now[x];
        was += s->width;
    }
    CHECK(bits <= 0xFFFFFF);
}

/* The whole screen is copied beside the words of looks. */
static void copy_whole(struct storm *s)
{
    CHECK(nit_copy(&s->server, 0, 0, s->width, s->height, s->other,
                   (size_t)s->width * s->height, s->width) == NIT_DONE);
}

/* A look leaves the words of a copy of the screen. */
void whole_look(struct storm *s)
{
    shown_look(s);
    copy_whole(s);
    CHECK(memcmp(s->frame, s->other, 4 * (size_t)s->width * s->height) == 0);
}

/* A look tells where something changed, and leaves the words of a copy of the screen, at which a
 * second look finds nothing, and which have the texts of the screen. One at a wrong number of words
 * is none. */
void looks(struct storm *s)
{
    size_t count = (size_t)s->width * s->height;
    uint32_t *frame = s->frame, *other = s->other;
    if (below(s, 4) == 0) {
        CHECK(nit_look(&s->server, frame, any(s) + count + 1).kind == NIT_WRONG_FRAME);
        return;
    }
    memcpy(other, frame, 4 * count);
    struct nit_rect part = shown_look(s);
    CHECK(part.x + part.w <= s->width && part.y + part.h <= s->height);
    is_outside_the_same(s, part, other);
    copy_whole(s);
    part = shown_look(s);
    CHECK(part.w == 0 && part.h == 0);
    CHECK(memcmp(frame, other, 4 * count) == 0);
    shows_texts(s);
}

/* ---- Copies. */

struct copy {
    uint32_t x, y, w, h;
    size_t count, pitch;
};

static struct copy any_copy(struct storm *s)
{
    struct copy c = { any(s), any(s), any(s), any(s), below(s, SCRATCH + 1), any(s) };
    if (below(s, 4) != 0) {
        c.x = below(s, s->width);
        c.y = below(s, s->height);
        c.w = below(s, s->width - c.x + 1);
        c.h = below(s, s->height - c.y + 1);
        c.pitch = c.w + below(s, 9);
    }
    if (below(s, 2) == 0 && c.h > 0 && c.w > 0
        && (c.h - 1) * (uint64_t)c.pitch + c.w <= SCRATCH)
        c.count = (c.h - 1) * c.pitch + c.w - below(s, 2);
    if (below(s, 8) == 0)
        c.pitch = below(s, 8);
    if (below(s, 16) == 0)
        c.pitch = SIZE_MAX - below(s, 4) * (SIZE_MAX / 4) - below(s, 4);
    return c;
}

/* What the copy answers. A count of rows that does not fit is found without a product. */
static uint32_t answer_of(const struct storm *s, struct copy c)
{
    if (c.x > s->width || c.w > s->width - c.x || c.y > s->height || c.h > s->height - c.y)
        return NIT_BAD_RECT;
    if (c.w == 0 || c.h == 0)
        return NIT_DONE;
    if (c.w > c.count || (c.h > 1 && c.w > c.pitch))
        return NIT_WRONG_FRAME;
    return c.h > 1 && c.pitch > (c.count - c.w) / (c.h - 1) ? NIT_WRONG_FRAME : NIT_DONE;
}

/* The words of the part are those of the whole screen, and each other word is kept. */
static void has_copied(const struct storm *s, struct copy c, uint32_t answer)
{
    const uint32_t *out = s->scratch - c.count;
    size_t words = answer == NIT_DONE ? (size_t)c.w * c.h : 0;
    for (size_t k = 0; k < c.count; k++) {
        size_t row = c.h > 1 && c.pitch > 0 ? k / c.pitch : 0, column = k - row * c.pitch;
        bool is_in = words > 0 && row < c.h && (c.h == 1 ? k : column) < c.w;
        size_t at = (c.y + row) * s->width + c.x + (c.h == 1 ? k : column);
        CHECK(out[k] == (is_in ? s->other[at] : KEPT));
        words -= is_in;
    }
    CHECK(words == 0);
}

/* A part is copied to words that end where memory ends. The whole screen was copied before, and a
 * look that follows puts what was copied. */
void copies(struct storm *s)
{
    struct copy c = any_copy(s);
    uint32_t *out = s->scratch - c.count, answer = answer_of(s, c);
    copy_whole(s);
    for (size_t k = 0; k < c.count; k++)
        out[k] = KEPT;
    CHECK(nit_copy(&s->server, c.x, c.y, c.w, c.h, out, c.count, c.pitch) == answer);
    has_copied(s, c, answer);
    told(s, false, "");
    if (below(s, 2) == 0)
        whole_look(s);
}

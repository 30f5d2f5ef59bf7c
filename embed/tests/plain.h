/* The views of the plain compositor, its clients, its damage and how it composites, for plain.c
 * alone. */
#ifndef PLAIN_H
#define PLAIN_H

#include <nitpicker.h>
#include <stdbool.h>
#include <stdlib.h>
#include <string.h>

/* Whether a screen is kept between the seats' words and the host's. */
#ifndef KEPT
#define KEPT 0
#endif

/* There is one server, and no text is kept. */
#pragma GCC diagnostic ignored "-Wunused-parameter"

enum { SEATS = NIT_MOST_SEATS, VIEWS = SEATS * NIT_MOST_VIEWS, QUEUE = 64, BARE = 0x20 };

struct view {
    uint32_t seat, handle, w, h;
    int32_t x, y, across, down;
};

struct seat {
    bool taken;
    uint32_t w, h, handles, first, waiting;
    struct nit_event events[QUEUE];
    uint32_t *words;
    size_t most; /* words that the donation pays for */
};

/* What was changed: columns and rows from the first to before the last. */
struct damage {
    int32_t left, top, right, bottom;
};

static struct seat seats[SEATS];
static struct view views[VIEWS];
static uint32_t count, width, height, column, row, focus = NIT_NONE, hover = NIT_NONE;
static struct damage damage; /* since the last look */
static struct damage stale; /* by this call, of the kept screen */
static uint32_t *screen; /* the kept one, where there is one */

/* ---- Views */

static int32_t least(int32_t a, int32_t b)
{
    return a < b ? a : b;
}

static int32_t most(int32_t a, int32_t b)
{
    return a > b ? a : b;
}

static void join(struct damage *all, const struct damage *part)
{
    if (all->left >= all->right)
        *all = *part;
    *all = (struct damage){ least(all->left, part->left), least(all->top, part->top),
                            most(all->right, part->right), most(all->bottom, part->bottom) };
}

static void hurt(int32_t x, int32_t y, int32_t w, int32_t h)
{
    struct damage part = { most(x, 0), most(y, 0), least(x + w, (int32_t)width),
                           least(y + h, (int32_t)height) };
    if (part.left >= part.right || part.top >= part.bottom)
        return;
    join(&damage, &part);
    if (KEPT)
        join(&stale, &part);
}

static void hurt_view(const struct view *view)
{
    hurt(view->x, view->y, (int32_t)view->w, (int32_t)view->h);
}

static uint32_t find(nit_client client, uint32_t handle)
{
    for (uint32_t at = 0; at < count; at++)
        if (views[at].seat == nit_seat_of(client) && views[at].handle == handle)
            return at;
    return NIT_NONE;
}

static void move(uint32_t from, uint32_t to)
{
    struct view view = views[from];
    memmove(views + from, views + from + 1, (count - from - 1) * sizeof view);
    memmove(views + to + 1, views + to, (count - to - 1) * sizeof view);
    views[to] = view;
    hurt_view(&view);
}

static void drop(uint32_t at)
{
    hurt_view(&views[at]);
    memmove(views + at, views + at + 1, (--count - at) * sizeof *views);
}

/* ---- Compositing */

/* Where the words of a part go: the first one to `out`, and rows `pitch` apart. */
struct target {
    uint32_t *out;
    size_t pitch;
    struct damage part;
};

static uint32_t *word_at(const struct target *to, int32_t x, int32_t y)
{
    return to->out + (size_t)(y - to->part.top) * to->pitch + (size_t)(x - to->part.left);
}

static uint32_t *kept_word(int32_t x, int32_t y)
{
    return screen + (size_t)y * width + (size_t)x;
}

static void paint(const struct target *to, const struct view *view)
{
    const struct seat *of = &seats[view->seat];
    int32_t x = view->x + view->across, y = view->y + view->down;
    int32_t left = most(to->part.left, most(view->x, x));
    int32_t top = most(to->part.top, most(view->y, y));
    int32_t right = least(to->part.right, least(view->x + (int32_t)view->w, x + (int32_t)of->w));
    int32_t bottom = least(to->part.bottom, least(view->y + (int32_t)view->h, y + (int32_t)of->h));
    for (int32_t at = top; at < bottom && left < right; at++)
        memcpy(word_at(to, left, at),
               of->words + (at - y) * (int32_t)of->w + left - x,
               (size_t)(right - left) * sizeof *to->out);
}

/* Whether the words of a view are shown at each pixel of the part, but for views in front. */
static bool fills(const struct damage *part, const struct view *view)
{
    int32_t x = view->x + view->across, y = view->y + view->down;
    const struct seat *of = &seats[view->seat];
    return part->left >= most(view->x, x) && part->top >= most(view->y, y) &&
           part->right <= least(view->x + (int32_t)view->w, x + (int32_t)of->w) &&
           part->bottom <= least(view->y + (int32_t)view->h, y + (int32_t)of->h);
}

static void clear(const struct target *to)
{
    int32_t wide = to->part.right - to->part.left;
    for (int32_t y = to->part.top; y < to->part.bottom; y++) {
        uint32_t *first = word_at(to, to->part.left, y);
        for (int32_t x = 0; x < wide; x++)
            first[x] = BARE;
    }
}

static void draw(const struct target *to)
{
    uint32_t behind = 0;
    while (behind < count && !fills(&to->part, &views[behind]))
        behind++;
    if (behind == count)
        clear(to);
    for (uint32_t at = behind < count ? behind + 1 : count; at-- > 0;)
        paint(to, &views[at]);
}

/* What a call changed, where a screen is kept. */
static void composite(void)
{
    if (stale.left >= stale.right)
        return;
    draw(&(struct target){ kept_word(stale.left, stale.top), width, stale });
    stale = (struct damage){ 0, 0, 0, 0 };
}

/* A part for the host: from the kept screen, where there is one. */
static void put(const struct target *to)
{
    if (!KEPT) {
        draw(to);
        return;
    }
    for (int32_t y = to->part.top; y < to->part.bottom; y++)
        memcpy(word_at(to, to->part.left, y), kept_word(to->part.left, y),
               (size_t)(to->part.right - to->part.left) * sizeof *to->out);
}

#endif

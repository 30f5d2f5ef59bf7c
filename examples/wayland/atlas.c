/* The atlas of a client: its one buffer, in which each surface that is shown has a room. It is not
 * proved.
 *
 * So a surface is one view, which shows just its room. The atlas never changes its shape, and a
 * room moves only where its surface has another size. */
#include "desk.h"
#include <string.h>

/* ---- Rooms */

static bool is_free(const struct surface *surface, struct box room)
{
    const struct surface *other;
    wl_list_for_each(other, &surface->client->surfaces, link)
        if (other != surface && box_both(other->room, room).w > 0)
            return false;
    return room.x + room.w <= desk.atlas_w && room.y + room.h <= desk.atlas_h;
}

/* The surface has a room of the size that it needs: its old one, or one at the right of another or
 * below it, the top-most. False where there is none. */
bool atlas_take(struct surface *surface)
{
    const int32_t w = surface->need_w, h = surface->need_h;
    const struct surface *other;
    if (surface->room.w == w && surface->room.h == h)
        return true;
    struct box found = { 0, 0, w, h };
    bool any = is_free(surface, found);
    wl_list_for_each(other, &surface->client->surfaces, link) {
        const struct box by = other->room;
        const struct box beside[] = { { by.x + by.w, by.y, w, h }, { by.x, by.y + by.h, w, h } };
        for (int at = 0; at < 2 && by.w > 0 && other != surface; at++)
            if ((!any || beside[at].y < found.y) && is_free(surface, beside[at])) {
                found = beside[at];
                any = true;
            }
    }
    surface->room = any ? found : (struct box){ 0 };
    return any;
}

/* ---- Words */

static void refresh(const struct client *client, struct box part)
{
    nit_refresh(&host.server, client->name, part.x, part.y, (uint32_t)part.w, (uint32_t)part.h,
                client->words, (size_t)desk.atlas_w * (size_t)desk.atlas_h);
}

/* What stands below a row of a surface: the parent's words, and else the bare screen. */
static void under(const struct surface *surface, struct box row, uint32_t *words)
{
    const struct surface *parent = surface->parent;
    for (int32_t at = 0; at < row.w; at++)
        words[at] = BARE;
    if (!parent)
        return;
    struct box own = surface_origin(surface), its = surface_origin(parent), room = parent->room;
    row.x += own.x - its.x - parent->crop.x;
    row.y += own.y - its.y - parent->crop.y;
    struct box both = box_both(row, (struct box){ 0, 0, room.w, room.h });
    if (both.w > 0)
        memcpy(words + (both.x - row.x), surface->client->words + (size_t)(room.y + both.y) *
               (size_t)desk.atlas_w + room.x + both.x, 4 * (size_t)both.w);
}

/* A row of words over what stands below it. The core knows no alpha, so this is done once, when the
 * words are copied: they are as they come where they are premultiplied rightly. */
static void blend(uint32_t *to, const uint32_t *from, const uint32_t *below, int32_t count)
{
    for (int32_t at = 0; at < count; at++) {
        uint32_t word = from[at], rest = 255 - (word >> 24);
        if (rest > 0)
            word += ((((below[at] & 0xFF00FF) * rest + 0x800080) >> 8) & 0xFF00FF) +
                    ((((below[at] >> 8 & 0xFF) * rest + 0x80) >> 8) << 8);
        to[at] = word;
    }
}

/* A window that is too small for a label is filled up with grey: the focus comes by a click. */
void atlas_fill(struct surface *surface)
{
    const struct box room = surface->room;
    for (int32_t row = room.y; row < room.y + room.h; row++) {
        uint32_t *to = surface->client->words + (size_t)row * (size_t)desk.atlas_w + room.x;
        SDL_memset4(to, 0x607080, (size_t)room.w);
    }
    refresh(surface->client, room);
}

/* Copies what is stale from the client's memory to the room, and shows it. */
void atlas_copy(struct surface *surface)
{
    static uint32_t own[NIT_MOST_WIDTH], below[NIT_MOST_WIDTH];
    const struct buffer *buffer = object_data(surface->held.buffer);
    const struct box crop = surface->crop, room = surface->room;
    const struct box kept = { crop.x, crop.y, room.w, room.h };
    struct box part = box_both(surface->stale, box_both(crop, kept));
    int32_t x = room.x + part.x - crop.x, y = room.y + part.y - crop.y;
    for (int32_t row = 0; row < part.h; row++) {
        uint32_t *to = surface->client->words + (size_t)(y + row) * (size_t)desk.atlas_w + x;
        if (!buffer_read(buffer, part.x, part.y + row, part.w, buffer->opaque ? to : own)) {
            wl_resource_post_error(surface->held.buffer, WL_SHM_ERROR_INVALID_FD, "no such words");
            return;
        }
        if (buffer->opaque)
            continue;
        under(surface, (struct box){ part.x, part.y + row, part.w, 1 }, below);
        blend(to, own, below, part.w);
    }
    if (part.h > 0)
        refresh(surface->client, (struct box){ x, y, part.w, part.h });
}

/* Popups: menus and the like, and where they stand. Not proved. */
#include "desk.h"

enum { SLIDE = 1, FLIP = 4, WAYS = 2 }; /* across, and down by the next bit */

struct positioner {
    int32_t size[WAYS], offset[WAYS]; /* of the popup */
    int32_t begin[WAYS], length[WAYS]; /* of its anchor */
    uint32_t from, to, adjust;
};

/* The sides of an anchor or a gravity, by their numbers. */
static const int8_t SIDES[9][WAYS] = { { 0, 0 }, { 0, -1 }, { 0, 1 }, { -1, 0 }, { 1, 0 },
                                       { -1, -1 }, { -1, 1 }, { 1, -1 }, { 1, 1 } };

/* The place one way, as it is asked for, or turned over. */
static int32_t along(const struct positioner *by, int way, int turn)
{
    int from = turn * SIDES[by->from][way], to = turn * SIDES[by->to][way];
    return by->begin[way] + turn * by->offset[way] + (1 + from) * by->length[way] / 2 -
           (1 - to) * by->size[way] / 2;
}

/* The place, turned over or moved where it would not be within the limits. */
static int32_t within(const struct positioner *by, int way, int32_t low, int32_t high)
{
    int32_t at = along(by, way, 1), other = along(by, way, -1), size = by->size[way];
    if (at >= low && at + size <= high)
        return at;
    if ((by->adjust & FLIP << way) != 0 && other >= low && other + size <= high)
        return other;
    return (by->adjust & SLIDE << way) != 0 ? SDL_max(low, SDL_min(at, high - size)) : at;
}

/* Where a popup stands in the geometry of its parent, so that it is within the screen if it can. */
static void popup_place(struct surface *surface, const struct positioner *by)
{
    struct box corner = surface_origin(surface->parent);
    int32_t x = corner.x + surface->parent->geometry.x, y = corner.y + surface->parent->geometry.y;
    surface->x = box_clamp(within(by, 0, -x, host.width - x));
    surface->y = box_clamp(within(by, 1, BAR - y, host.height - y));
    surface->asked_w = by->size[0];
    surface->asked_h = by->size[1];
}

/* ---- Positioners */

static void set(int32_t *numbers, const union wl_argument *with)
{
    for (int way = 0; way < WAYS; way++)
        numbers[way] = box_clamp(with[way].i);
}

static void positioner_request(struct wl_resource *self, uint32_t number, union wl_argument *with)
{
    struct positioner *by = object_data(self);
    switch (number) {
    case XDG_POSITIONER_SET_SIZE:
        set(by->size, with);
        break;
    case XDG_POSITIONER_SET_ANCHOR_RECT:
        set(by->begin, with);
        set(by->length, with + WAYS);
        break;
    case XDG_POSITIONER_SET_OFFSET:
        set(by->offset, with);
        break;
    case XDG_POSITIONER_SET_ANCHOR:
        by->from = with[0].u < 9 ? with[0].u : 0;
        break;
    case XDG_POSITIONER_SET_GRAVITY:
        by->to = with[0].u < 9 ? with[0].u : 0;
        break;
    case XDG_POSITIONER_SET_CONSTRAINT_ADJUSTMENT:
        by->adjust = with[0].u;
        break;
    }
}

const struct kind POSITIONER = { &xdg_positioner_interface, .request = positioner_request,
                                 .size = sizeof(struct positioner) };

/* ---- Popups */

/* A popup holds the input where its client has the focus, and is over at once where it has not. */
static void popup_request(struct wl_resource *self, uint32_t number, union wl_argument *with)
{
    struct surface *surface = object_data(self);
    (void)with;
    if (number != XDG_POPUP_GRAB)
        return;
    surface->grabs = surface->client->focused;
    if (!surface->grabs)
        xdg_popup_send_popup_done(self);
}

static const struct kind POPUP_KIND = { &xdg_popup_interface, .request = popup_request,
                                        .gone = role_gone };

void popup_new(struct surface *surface, union wl_argument *with)
{
    struct wl_resource *shell = (struct wl_resource *)with[1].o;
    struct surface *parent = shell ? object_data(shell) : NULL;
    const struct positioner *by = object_data((struct wl_resource *)with[2].o);
    if (!parent || surface_descends(parent, surface)) {
        wl_resource_post_error(surface->shell, XDG_WM_BASE_ERROR_INVALID_POPUP_PARENT, "no parent");
        return;
    }
    if (SDL_min(by->size[0], by->size[1]) <= 0 || SDL_min(by->length[0], by->length[1]) < 0) {
        wl_resource_post_error(surface->shell, XDG_WM_BASE_ERROR_INVALID_POSITIONER, "no size");
        return;
    }
    surface->as = object_new(surface->shell, &POPUP_KIND, with[0].n, surface);
    if (!surface->as)
        return;
    surface->role = POPUP;
    surface_adopt(surface, parent);
    popup_place(surface, by);
}

/* Popups that hold the input end. */
void popups_dismiss(struct client *client)
{
    struct surface *surface;
    wl_list_for_each(surface, &client->surfaces, link)
        if (surface->role == POPUP && surface->grabs && surface->as) {
            surface->grabs = false;
            xdg_popup_send_popup_done(surface->as);
        }
}

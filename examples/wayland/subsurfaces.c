/* Subsurfaces. Not proved.
 *
 * Where one stands is its parent's: it changes with the next state of that. What it shows is its
 * own; while it is synchronized, or a parent is, what it commits is kept until the state of its
 * parent holds. */
#include "desk.h"

/* True where what a subsurface commits waits for its parent. */
bool surface_is_synced(const struct surface *surface)
{
    for (; surface && surface->role == SUBSURFACE; surface = surface->parent)
        if (!surface->desynced)
            return true;
    return false;
}

/* A state of the parent holds now: its subsurfaces stand where they were put last, behind its
 * popups, and then what they have committed holds too. */
void subsurfaces_settle(struct surface *parent)
{
    struct surface *child;
    wl_list_for_each_reverse(child, &parent->order, place) {
        wl_list_remove(&child->sibling);
        wl_list_insert(&parent->children, &child->sibling);
        child->x = child->next_x;
        child->y = child->next_y;
    }
    wl_list_for_each(child, &parent->order, place)
        if (child->waits)
            surface_apply(child);
}

/* The subsurface is to stand in front of or behind another one of its parent. Behind the parent
 * itself there is no place: it stands directly in front of that. */
static void restack(struct surface *surface, struct surface *other, bool above)
{
    bool beside = other->role == SUBSURFACE && other->parent == surface->parent;
    if (other == surface || (other != surface->parent && !beside)) {
        wl_resource_post_error(surface->as, WL_SUBSURFACE_ERROR_BAD_SURFACE, "it is not beside it");
        return;
    }
    wl_list_remove(&surface->place);
    wl_list_insert(other == surface->parent ? &other->order :
                   above ? &other->place : other->place.prev, &surface->place);
}

static void subsurface_request(struct wl_resource *self, uint32_t number, union wl_argument *with)
{
    struct surface *surface = object_data(self);
    if (!surface->parent)
        return;
    switch (number) {
    case WL_SUBSURFACE_SET_POSITION:
        surface->next_x = box_clamp(with[0].i);
        surface->next_y = box_clamp(with[1].i);
        break;
    case WL_SUBSURFACE_PLACE_ABOVE:
    case WL_SUBSURFACE_PLACE_BELOW:
        restack(surface, object_data((struct wl_resource *)with[0].o),
                number == WL_SUBSURFACE_PLACE_ABOVE);
        break;
    case WL_SUBSURFACE_SET_SYNC:
    case WL_SUBSURFACE_SET_DESYNC:
        surface->desynced = number == WL_SUBSURFACE_SET_DESYNC;
        if (surface->waits && !surface_is_synced(surface))
            surface_apply(surface);
        break;
    }
}

static const struct kind KIND = { &wl_subsurface_interface, .request = subsurface_request,
                                  .gone = role_gone };

static void subcompositor_request(struct wl_resource *self, uint32_t number,
                                  union wl_argument *with)
{
    if (number != WL_SUBCOMPOSITOR_GET_SUBSURFACE)
        return;
    struct surface *surface = object_data((struct wl_resource *)with[1].o);
    struct surface *parent = object_data((struct wl_resource *)with[2].o);
    if (surface_descends(parent, surface) || surface->as || surface->shell ||
        (surface->role != NO_ROLE && surface->role != SUBSURFACE)) {
        wl_resource_post_error(self, WL_SUBCOMPOSITOR_ERROR_BAD_SURFACE, "it has a role");
        return;
    }
    surface->as = object_new(self, &KIND, with[0].n, surface);
    if (!surface->as)
        return;
    surface->role = SUBSURFACE;
    surface->desynced = false;
    surface->next_x = surface->next_y = 0;
    surface_adopt(surface, parent);
}

const struct kind SUBCOMPOSITOR = { &wl_subcompositor_interface, .request = subcompositor_request };

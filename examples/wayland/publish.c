/* What the library is told of clients, before a look. Not proved.
 *
 * The client with the focus is what the user works with: what it draws may have a look of its own
 * between two others, so that nobody else's drawing makes it late.
 *
 * Whatever a client asks for and however often, a look has at most its 64 views and its atlas from
 * it. Of all clients a look has what can be told in half of its time; those that wait longest come
 * first, and the others at the next look. */
#include "desk.h"
#include <stdio.h>
#include <string.h>

static bool is_shown(const struct surface *surface)
{
    for (; surface; surface = surface->parent)
        if (!surface->mapped || (!surface->parent && surface->role != TOPLEVEL))
            return false;
    return true;
}

static void open_view(struct surface *surface)
{
    surface->view = nit_view(&host.server, surface->client->name).handle;
    surface->shown = surface->from = (struct box){ 0, 0, -1, -1 };
    surface->below = 0;
    surface->retitled = true;
}

/* Puts the view of a surface where it belongs, or takes it away. */
static void place(struct surface *surface)
{
    const nit_client name = surface->client->name;
    struct box at = surface_origin(surface), from = surface->room;
    at = (struct box){ box_clamp((int64_t)at.x + surface->crop.x),
                       box_clamp((int64_t)at.y + surface->crop.y), from.w, from.h };
    if (!is_shown(surface) || from.w == 0) {
        if (surface->view)
            nit_destroy(&host.server, name, surface->view);
        surface->view = 0;
        return;
    }
    if (!surface->view)
        open_view(surface);
    if (surface->retitled)
        nit_title(&host.server, name, surface->view, surface->title, strlen(surface->title));
    if (!box_same(from, surface->from))
        nit_offset(&host.server, name, surface->view, -from.x, -from.y);
    if (!box_same(at, surface->shown))
        nit_place(&host.server, name, surface->view, at.x, at.y, (uint32_t)at.w, (uint32_t)at.h);
    surface->retitled = false;
    surface->shown = at;
    surface->from = from;
}

/* Puts the views of a tree where they belong, as far as they have a room already. */
void publish_places(struct surface *surface)
{
    struct surface *child;
    if (surface->view || is_shown(surface))
        place(surface);
    wl_list_for_each(child, &surface->children, sibling)
        publish_places(child);
}

/* The user wants a window in front: it, and what belongs to it, in their order. */
void publish_raise(struct surface *root)
{
    struct surface *child;
    if (root->view)
        nit_raise(&host.server, root->client->name, root->view);
    wl_list_for_each(child, &root->children, sibling)
        publish_raise(child);
    host.changed = true;
}

/* Where a surface finds no room, the user is told once. */
static void take_room(struct surface *surface)
{
    bool cramped = is_shown(surface) && !atlas_take(surface);
    if (cramped && !surface->cramped)
        notice("%s: no room for a window of %d by %d", surface->client->label, surface->need_w,
               surface->need_h);
    surface->cramped = cramped;
}

/* Publishes a tree. Each view stands directly in front of the one before. */
static void publish_tree(struct surface *surface, uint32_t *below)
{
    struct surface *child;
    bool fresh = surface->view == 0;
    take_room(surface);
    place(surface);
    if (surface->view && *below && surface->below != *below)
        nit_above(&host.server, surface->client->name, surface->view, *below);
    surface->below = *below;
    *below = surface->view ? surface->view : *below;
    if (surface->view && surface->filled)
        atlas_fill(surface);
    if (surface->view && surface->held.buffer)
        atlas_copy(surface);
    if (surface->held.buffer) {
        wl_buffer_send_release(surface->held.buffer);
        hold(&surface->held, NULL);
    }
    surface->stale = (struct box){ 0 };
    surface->filled = false;
    if (fresh && surface->view)
        keyboard_choose(surface->client);
    wl_list_for_each(child, &surface->children, sibling)
        publish_tree(child, below);
}

/* The client that waits longest, of those that this look has not had yet. */
static struct client *longest(uint64_t begin)
{
    struct client *found = NULL;
    for (struct client *client = desk.clients; client < desk.clients + SEATS; client++)
        if (client->wl && client->changed && client->published < begin &&
            (!found || client->published < found->published))
            found = client;
    return found;
}

/* The client with the focus, where it has something to show, or NULL. */
struct client *client_with_focus(void)
{
    uint32_t seat = nit_state(&host.server).focus;
    return seat != NIT_NONE && desk.clients[seat].changed ? &desk.clients[seat] : NULL;
}

static void publish_client(struct client *client)
{
    struct surface *root;
    client->changed = false;
    wl_list_for_each_reverse(root, &client->surfaces, link) {
        uint32_t below = 0;
        if (root->role == TOPLEVEL && !root->parent)
            publish_tree(root, &below);
    }
    client->published = now();
}

/* Tells the library what clients have changed, or what the one with the focus has. Never called
 * while the host is frozen. */
void publish(bool focused)
{
    const uint64_t begin = now();
    struct client *client = focused ? client_with_focus() : longest(begin);
    while (client && now() < begin + host.period / 2) {
        publish_client(client);
        client = focused ? NULL : longest(begin);
    }
    host.changed |= longest(begin) != NULL;
}

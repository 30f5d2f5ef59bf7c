/* Moving windows by the pointer, and pulling at their edges and corners. Not proved.
 *
 * A client answers late, if at all, and has the size that it likes. So an edge that is pulled moves
 * as its window's size does, and the other side stays where it is. */
#include "desk.h"

enum { TOP = XDG_TOPLEVEL_RESIZE_EDGE_TOP, BOTTOM = XDG_TOPLEVEL_RESIZE_EDGE_BOTTOM,
       LEFT = XDG_TOPLEVEL_RESIZE_EDGE_LEFT, RIGHT = XDG_TOPLEVEL_RESIZE_EDGE_RIGHT };

static void drag(struct surface *surface, uint32_t edges)
{
    struct client *client = surface->client;
    if (surface->state)
        return;
    client->dragged = surface;
    client->edges = surface->pulled = edges;
    client->drag = (struct box){ client->press_x - surface->x, client->press_y - surface->y,
                                 surface->crop.w, surface->crop.h };
    if (edges)
        shell_configure(surface, surface->crop.w, surface->crop.h);
    input_leave(client);
}

/* A client wants its window to go with the pointer, or these edges of it: while a button that went
 * down in it is held. */
void drag_begin(struct surface *surface, uint32_t edges)
{
    if (surface->client->buttons > 0 && !desk.mover)
        drag(surface, edges);
}

/* At which end of a length a place is: in its first third -1, in its last one 1, else 0. */
static int end_at(int32_t place, int32_t length)
{
    return place < length / 3 ? -1 : place >= length - length / 3;
}

/* The edges that the pointer is at; in the middle of the window its right lower corner. */
static uint32_t edges_at(const struct surface *root, int32_t x, int32_t y)
{
    static const uint32_t edges[3][3] = {
        { TOP | LEFT, TOP, TOP | RIGHT },
        { LEFT, BOTTOM | RIGHT, RIGHT },
        { BOTTOM | LEFT, BOTTOM, BOTTOM | RIGHT } };
    return edges[1 + end_at(y - root->y, root->need_h)][1 + end_at(x - root->x, root->need_w)];
}

/* The window that the user sees under the pointer, in each mode, or NULL. */
static struct surface *under_pointer(int32_t x, int32_t y)
{
    struct nit_view_state seen = nit_shown(&host.server, (uint32_t)x, (uint32_t)y);
    struct surface *surface = input_surface(&seen);
    return surface ? surface_root(surface) : NULL;
}

/* The user moves the window under the pointer, or pulls at the edges that the pointer is at. */
static void grab(bool pulls)
{
    struct nit_state state = nit_state(&host.server);
    int32_t x = (int32_t)state.x, y = (int32_t)state.y;
    struct surface *root = under_pointer(x, y);
    if (!root || desk.mover)
        return;
    desk.mover = root->client;
    desk.mover->press_x = x;
    desk.mover->press_y = y;
    publish_raise(root);
    drag(root, pulls ? edges_at(root, x, y) : 0);
}

/* The move key is the host's own, and so is a button while it is held: the left one drags the
 * window under the pointer, another one the edge or the corner that the pointer is at. In kill mode
 * nothing moves. */
bool host_takes(uint32_t code, bool down)
{
    if (code == MOVE_KEY)
        desk.moves = down;
    else if (code >= FIRST_BUTTON && down && desk.moves && !frozen())
        grab(code != LEFT_BUTTON);
    else if (code >= FIRST_BUTTON && !down && desk.mover)
        drag_end(desk.mover);
    else
        return false;
    return true;
}

void host_moved(int32_t x, int32_t y)
{
    if (desk.mover && desk.mover->dragged && !frozen())
        drag_to(desk.mover, x, y);
}

/* The pointer is here now. */
void drag_to(struct client *client, int32_t x, int32_t y)
{
    struct surface *surface = client->dragged;
    const struct box drag = client->drag;
    const uint32_t edges = client->edges;
    if (edges == 0) {
        surface->x = box_clamp((int64_t)x - drag.x);
        surface->y = box_clamp((int64_t)y - drag.y);
        surface_changed(surface);
        return;
    }
    int32_t dx = x - client->press_x, dy = y - client->press_y;
    shell_configure(surface,
                    SDL_max(drag.w + (edges & RIGHT ? dx : edges & LEFT ? -dx : 0), 1),
                    SDL_max(drag.h + (edges & BOTTOM ? dy : edges & TOP ? -dy : 0), 1));
}

/* The pointer lets go of the client's window. That is told so, and may still come to its size. */
void drag_end(struct client *client)
{
    struct surface *surface = client->dragged;
    client->dragged = NULL;
    desk.mover = desk.mover == client ? NULL : desk.mover;
    if (surface && surface->pulled)
        shell_configure(surface, surface->asked_w, surface->asked_h);
}

/* A window has another size, by this. */
void drag_resized(struct surface *surface, int32_t w, int32_t h)
{
    if (!surface->mapped)
        return;
    surface->x = box_clamp((int64_t)surface->x - (surface->pulled & LEFT ? w : 0));
    surface->y = box_clamp((int64_t)surface->y - (surface->pulled & TOP ? h : 0));
}

/* A state of a window holds. Where nobody pulls at it any more, and it has answered to all that it
 * was asked for, its next size is its own affair. */
void drag_settle(struct surface *surface)
{
    if (surface->client->dragged != surface && surface->heard == surface->asked)
        surface->pulled = 0;
}

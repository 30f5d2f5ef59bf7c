/* What clients are told of the user's input. Not proved.
 *
 * The library says which client an event goes to, and each client is told just what it takes from
 * its seat. Whose pixel the pointer is on says the library too; which of its surfaces that is, the
 * client's own views. */
#include "desk.h"

/* The surface that a view of the library's shows, or NULL where nobody has it any more. */
struct surface *input_surface(const struct nit_view_state *view)
{
    struct surface *surface;
    if (view->kind != NIT_DONE || !desk.clients[view->seat].wl)
        return NULL;
    wl_list_for_each(surface, &desk.clients[view->seat].surfaces, link)
        if (surface->view == view->view)
            return surface;
    return NULL;
}

/* The surface of a client that takes the pointer at its place, or NULL: the one whose pixel this
 * is, or where that takes no input there, what it belongs to. */
static struct surface *surface_at(const struct client *client)
{
    struct nit_view_state view = nit_owner(&host.server, (uint32_t)client->x, (uint32_t)client->y);
    struct surface *surface = input_surface(&view);
    if (!surface || surface->client != client)
        return NULL;
    for (; surface; surface = surface->parent) {
        struct box at = surface_origin(surface);
        struct box point = { client->x - at.x, client->y - at.y, 1, 1 };
        if (box_both(surface->input, point).w > 0)
            return surface;
    }
    return NULL;
}

/* ---- The pointer */

static void frame(struct wl_resource *pointer)
{
    if (wl_resource_get_version(pointer) >= WL_POINTER_FRAME_SINCE_VERSION)
        wl_pointer_send_frame(pointer);
}

/* The pointer is in this surface of the client, or in none. */
static void point_at(struct client *client, struct surface *surface)
{
    struct surface *old = client->pointed;
    struct wl_resource *pointer;
    if (surface == old)
        return;
    client->pointed = surface;
    struct box at = surface ? surface_origin(surface) : (struct box){ 0 };
    wl_resource_for_each(pointer, &client->pointers) {
        if (old)
            wl_pointer_send_leave(pointer, serial(client), old->self);
        if (surface)
            wl_pointer_send_enter(pointer, serial(client), surface->self,
                                  wl_fixed_from_int(client->x - at.x),
                                  wl_fixed_from_int(client->y - at.y));
        frame(pointer);
    }
}

void input_leave(struct client *client)
{
    point_at(client, NULL);
}

static bool has_grab(const struct client *client)
{
    const struct surface *surface;
    wl_list_for_each(surface, &client->surfaces, link)
        if (surface->role == POPUP && surface->grabs)
            return true;
    return false;
}

/* The pointer stays in the surface in which a button went down, but for popups that hold it. */
static void point(struct client *client)
{
    if (client->buttons == 0 || has_grab(client))
        point_at(client, surface_at(client));
}

static void motion(struct client *client, int32_t x, int32_t y)
{
    struct wl_resource *pointer;
    struct surface *old = client->pointed;
    client->x = x;
    client->y = y;
    if (client->dragged && !desk.mover)
        drag_to(client, x, y);
    if (client->dragged)
        return;
    point(client);
    if (!client->pointed || client->pointed != old)
        return;
    struct box at = surface_origin(client->pointed);
    wl_resource_for_each(pointer, &client->pointers) {
        wl_pointer_send_motion(pointer, milliseconds(), wl_fixed_from_int(x - at.x),
                               wl_fixed_from_int(y - at.y));
        frame(pointer);
    }
}

/* A click raises the window: that is the user's act, and the client is told nothing of it. */
static void pressed(struct client *client)
{
    struct nit_state state = nit_state(&host.server);
    client->x = client->press_x = (int32_t)state.x;
    client->y = client->press_y = (int32_t)state.y;
    point(client);
    if (!client->pointed)
        return;
    publish_raise(surface_root(client->pointed));
    keyboard_choose(client);
}

static void button(struct client *client, uint32_t code, bool down)
{
    struct wl_resource *pointer;
    uint32_t less = client->buttons > 0 ? client->buttons - 1 : 0;
    if (down && client->buttons == 0)
        pressed(client);
    client->buttons = down ? client->buttons + 1 : less;
    if (client->dragged && client->buttons == 0) {
        drag_end(client);
        point(client);
        return;
    }
    if (client->pointed)
        wl_resource_for_each(pointer, &client->pointers) {
            wl_pointer_send_button(pointer, serial(client), milliseconds(), code, down);
            frame(pointer);
        }
    if (client->buttons == 0)
        point(client);
}

static void wheel(struct client *client, int32_t turn)
{
    struct wl_resource *pointer;
    uint32_t axis = host.sideways ? WL_POINTER_AXIS_HORIZONTAL_SCROLL :
                    WL_POINTER_AXIS_VERTICAL_SCROLL;
    if (!client->pointed)
        return;
    wl_resource_for_each(pointer, &client->pointers) {
        if (wl_resource_get_version(pointer) >= WL_POINTER_AXIS_DISCRETE_SINCE_VERSION) {
            wl_pointer_send_axis_source(pointer, WL_POINTER_AXIS_SOURCE_WHEEL);
            wl_pointer_send_axis_discrete(pointer, axis, -turn);
        }
        wl_pointer_send_axis(pointer, milliseconds(), axis, wl_fixed_from_int(-10 * turn));
        frame(pointer);
    }
}

/* A surface is shown no more. */
void input_forget(struct surface *surface)
{
    struct client *client = surface->client;
    if (client->dragged == surface)
        client->dragged = NULL;
    if (client->pointed == surface)
        point_at(client, NULL);
    if (client->typed == surface) {
        keyboard_into(client, NULL);
        keyboard_choose(client);
    }
}

/* ---- Deliveries */

static void focus(struct client *client, bool focused)
{
    client->focused = focused;
    if (focused)
        clip_tell(client);
    else
        popups_dismiss(client);
    keyboard_choose(client);
}

static void tell(struct client *client, const struct nit_event *event)
{
    bool down = event->kind == NIT_PRESS;
    switch (event->kind) {
    case NIT_PRESS:
    case NIT_RELEASE:
        if (event->code < FIRST_BUTTON)
            keyboard_key(client, event->code, down);
        else
            button(client, event->code, down);
        break;
    case NIT_MOTION:
        motion(client, event->x, event->y);
        break;
    case NIT_WHEEL:
        wheel(client, event->turn);
        break;
    case NIT_LEAVE:
        point_at(client, NULL);
        break;
    case NIT_FOCUS_ENTER:
    case NIT_FOCUS_LEAVE:
        focus(client, event->kind == NIT_FOCUS_ENTER);
        break;
    }
}

/* Tells a client what waits for it. */
static void take(struct client *client)
{
    struct nit_reply reply;
    while (client->wl && (reply = nit_take(&host.server, client->name)).kind == NIT_EVENT)
        tell(client, &reply.event);
}

void host_delivers(const struct nit_routed *routed)
{
    for (uint32_t at = 0; at < routed->count; at++) {
        struct client *client = &desk.clients[routed->to[at].seat];
        if (routed->to[at].event.kind != NIT_KILL)
            take(client);
        else if (client->wl)
            client_end(client);
    }
}

/* ---- The seat of Wayland */

static void cursor_request(struct wl_resource *self, uint32_t number, union wl_argument *with)
{
    if (number != WL_POINTER_SET_CURSOR || !with[1].o)
        return;
    struct surface *surface = object_data((struct wl_resource *)with[1].o);
    if (surface->shell || (surface->role != NO_ROLE && surface->role != CURSOR))
        wl_resource_post_error(self, WL_POINTER_ERROR_ROLE, "it has a role");
    else
        surface->role = CURSOR;
}

static const struct kind POINTER = { &wl_pointer_interface, .request = cursor_request,
                                     .list = offsetof(struct client, pointers) };

static void seat_begun(struct wl_resource *self)
{
    wl_seat_send_capabilities(self, WL_SEAT_CAPABILITY_POINTER | WL_SEAT_CAPABILITY_KEYBOARD);
    if (wl_resource_get_version(self) >= WL_SEAT_NAME_SINCE_VERSION)
        wl_seat_send_name(self, "seat0");
}

static void seat_request(struct wl_resource *self, uint32_t number, union wl_argument *with)
{
    if (number == WL_SEAT_GET_POINTER)
        object_new(self, &POINTER, with[0].n, NULL);
    else if (number == WL_SEAT_GET_KEYBOARD)
        object_new(self, &KEYBOARD, with[0].n, NULL);
    else if (number == WL_SEAT_GET_TOUCH)
        wl_resource_post_error(self, WL_SEAT_ERROR_MISSING_CAPABILITY, "no touch");
}

const struct kind SEAT = { &wl_seat_interface, .request = seat_request, .begun = seat_begun };

/* Windows: what they are told, and where they stand. Not proved.
 *
 * A client does not know where on the screen it stands, and asks for no place. */
#include "desk.h"
#include <string.h>

enum { BY_SERVER = ZXDG_TOPLEVEL_DECORATION_V1_MODE_SERVER_SIDE, STEP = 32 };

/* ---- What windows are told */

static bool is_active(const struct surface *surface)
{
    struct surface *typed = surface->client->typed;
    return surface->client->focused && typed && surface_root(typed) == surface;
}

void shell_configure(struct surface *surface, int32_t w, int32_t h)
{
    const struct client *client = surface->client;
    uint32_t list[3], count = 0;
    if (!surface->shell || !surface->as)
        return;
    if (surface->role == TOPLEVEL) {
        if (client->dragged == surface && client->edges)
            list[count++] = XDG_TOPLEVEL_STATE_RESIZING;
        if (surface->state)
            list[count++] = surface->state;
        if (is_active(surface))
            list[count++] = XDG_TOPLEVEL_STATE_ACTIVATED;
        struct wl_array states = { count * sizeof *list, sizeof list, list };
        xdg_toplevel_send_configure(surface->as, w, h, &states);
    } else {
        xdg_popup_send_configure(surface->as, surface->x, surface->y, w, h);
    }
    surface->asked_w = w;
    surface->asked_h = h;
    surface->asked = serial(surface->client);
    xdg_surface_send_configure(surface->shell, surface->asked);
}

/* Before a commit of a window. False where it is the first one, or breaks the protocol. */
bool shell_commit(struct surface *surface)
{
    if (!surface->shell)
        return true;
    if (!surface->as) {
        wl_resource_post_error(surface->shell, XDG_SURFACE_ERROR_NOT_CONSTRUCTED, "no role");
        return false;
    }
    if (surface->configured)
        return true;
    if (surface->next.attached && surface->next.buffer.buffer) {
        wl_resource_post_error(surface->shell, XDG_SURFACE_ERROR_UNCONFIGURED_BUFFER, "too soon");
        return false;
    }
    surface->configured = true;
    bool popup = surface->role == POPUP, full = surface->state != 0;
    shell_configure(surface, popup ? surface->asked_w : full ? host.width : 0,
                    popup ? surface->asked_h : full ? host.height - BAR : 0);
    return true;
}

/* The window takes the screen, by a state, or goes back to its place. */
static void fill(struct surface *surface, uint32_t state)
{
    bool was = surface->state && surface->home.w, is = state != 0;
    if (is && !was)
        surface->home = (struct box){ surface->x, surface->y, surface->crop.w, surface->crop.h };
    surface->state = state;
    surface->pulled = 0;
    if (surface->client->dragged == surface)
        surface->client->dragged = NULL;
    surface->x = is ? 0 : surface->home.x;
    surface->y = is ? BAR : surface->home.y;
    if (surface->configured)
        shell_configure(surface, is ? host.width : surface->home.w,
                        is ? host.height - BAR : surface->home.h);
    if (surface->mapped)
        surface_changed(surface);
}

static int32_t count_windows(const struct client *client)
{
    const struct surface *surface;
    int32_t count = 0;
    wl_list_for_each(surface, &client->surfaces, link)
        count += surface->role == TOPLEVEL && surface->mapped;
    return count;
}

/* A new window begins where its program's windows do, each a little farther than the last, and
 * within the screen where it fits there. */
void shell_place(struct surface *surface)
{
    const struct client *client = surface->client;
    int32_t by = STEP * ((int32_t)client->turn + count_windows(client) - 2);
    int32_t x = client->program->x + by, y = client->program->y + by;
    surface->x = SDL_max(0, SDL_min(x, host.width - surface->crop.w));
    surface->y = SDL_max(BAR, SDL_min(y, host.height - surface->crop.h));
    if (surface->state)
        fill(surface, surface->state);
}

/* ---- Toplevels */

/* A title is a word of the client's own. What no title of the core has is left out. */
static void title(struct surface *surface, const char *text)
{
    size_t length = 0;
    for (; *text && length < sizeof surface->title - 1; text++) {
        char letter = (char)(*text >= 'A' && *text <= 'Z' ? *text + 32 : *text);
        if ((letter >= 'a' && letter <= 'z') || (letter >= '0' && letter <= '9') ||
            strchr("-._ ", letter))
            surface->title[length++] = letter;
    }
    surface->title[length] = 0;
    surface->retitled = true;
    surface_changed(surface);
}

/* The client wants one of its four edges pulled at, or a corner. */
static void pull(struct surface *surface, uint32_t edges)
{
    if (edges > XDG_TOPLEVEL_RESIZE_EDGE_BOTTOM_RIGHT || edges % 4 == 3)
        wl_resource_post_error(surface->as, XDG_TOPLEVEL_ERROR_INVALID_RESIZE_EDGE, "no edge");
    else if (edges > 0)
        drag_begin(surface, edges);
}

static void toplevel_request(struct wl_resource *self, uint32_t number, union wl_argument *with)
{
    struct surface *surface = object_data(self);
    switch (number) {
    case XDG_TOPLEVEL_SET_TITLE:
        title(surface, with[0].s);
        break;
    case XDG_TOPLEVEL_MOVE:
        drag_begin(surface, 0);
        break;
    case XDG_TOPLEVEL_RESIZE:
        pull(surface, with[2].u);
        break;
    case XDG_TOPLEVEL_SET_MAXIMIZED:
        fill(surface, XDG_TOPLEVEL_STATE_MAXIMIZED);
        break;
    case XDG_TOPLEVEL_SET_FULLSCREEN:
        fill(surface, XDG_TOPLEVEL_STATE_FULLSCREEN);
        break;
    case XDG_TOPLEVEL_UNSET_MAXIMIZED:
    case XDG_TOPLEVEL_UNSET_FULLSCREEN:
        fill(surface, 0);
        break;
    }
}

/* The role is gone, and the surface may get it again. */
void role_gone(struct wl_resource *self)
{
    struct surface *surface = object_data(self);
    surface->as = NULL;
    surface->grabs = false;
    surface->state = 0;
    surface->title[0] = 0;
    surface_unmap(surface);
    surface_adopt(surface, NULL);
    keyboard_choose(surface->client);
}

static const struct kind TOPLEVEL_KIND = { &xdg_toplevel_interface, .request = toplevel_request,
                                           .gone = role_gone };

/* ---- The surfaces of windows */

static void role_new(struct surface *surface, enum role role, union wl_argument *with)
{
    if (surface->as || (surface->role != NO_ROLE && surface->role != role)) {
        wl_resource_post_error(surface->shell, XDG_SURFACE_ERROR_ALREADY_CONSTRUCTED,
                               "it has a role");
    } else if (role == POPUP) {
        popup_new(surface, with);
    } else {
        surface->as = object_new(surface->shell, &TOPLEVEL_KIND, with[0].n, surface);
        surface->role = TOPLEVEL;
    }
}

static void shell_surface_request(struct wl_resource *self, uint32_t number,
                                  union wl_argument *with)
{
    struct surface *surface = object_data(self);
    if (number == XDG_SURFACE_GET_TOPLEVEL)
        role_new(surface, TOPLEVEL, with);
    else if (number == XDG_SURFACE_GET_POPUP)
        role_new(surface, POPUP, with);
    else if (number == XDG_SURFACE_ACK_CONFIGURE)
        surface->heard = with[0].u;
    else if (number == XDG_SURFACE_SET_WINDOW_GEOMETRY && with[2].i > 0 && with[3].i > 0)
        surface->next.geometry = (struct box){ box_clamp(with[0].i), box_clamp(with[1].i),
                                               box_clamp(with[2].i), box_clamp(with[3].i) };
}

static void shell_surface_gone(struct wl_resource *self)
{
    struct surface *surface = object_data(self);
    surface->shell = NULL;
    surface->next.geometry = surface->geometry = (struct box){ 0 };
    surface_unmap(surface);
}

static const struct kind SHELL_SURFACE = { &xdg_surface_interface, .request = shell_surface_request,
                                           .gone = shell_surface_gone };

/* The surface goes, before the objects that speak of it. */
void shell_drop(struct surface *surface)
{
    if (surface->as)
        object_forget(surface->as);
    if (surface->shell)
        object_forget(surface->shell);
    surface->as = surface->shell = NULL;
}

/* ---- The shell */

static void shell_surface_new(struct wl_resource *shell, uint32_t id, struct surface *surface)
{
    bool window = surface->role == TOPLEVEL || surface->role == POPUP;
    if (surface->shell || surface->as || (surface->role != NO_ROLE && !window))
        wl_resource_post_error(shell, XDG_WM_BASE_ERROR_ROLE, "it has a role");
    else
        surface->shell = object_new(shell, &SHELL_SURFACE, id, surface);
}

static void shell_request(struct wl_resource *self, uint32_t number, union wl_argument *with)
{
    if (number == XDG_WM_BASE_CREATE_POSITIONER)
        object_new(self, &POSITIONER, with[0].n, NULL);
    else if (number == XDG_WM_BASE_GET_XDG_SURFACE)
        shell_surface_new(self, with[0].n, object_data((struct wl_resource *)with[1].o));
}

const struct kind SHELL = { &xdg_wm_base_interface, .request = shell_request };

/* ---- Decorations: there are none but the labels of X-ray mode. */

static void decoration_begun(struct wl_resource *self)
{
    zxdg_toplevel_decoration_v1_send_configure(self, BY_SERVER);
}

static void decoration_request(struct wl_resource *self, uint32_t number, union wl_argument *with)
{
    (void)with;
    if (number != ZXDG_TOPLEVEL_DECORATION_V1_DESTROY)
        decoration_begun(self);
}

static const struct kind DECORATION = { &zxdg_toplevel_decoration_v1_interface,
                                        .request = decoration_request, .begun = decoration_begun };

static void decorations_request(struct wl_resource *self, uint32_t number, union wl_argument *with)
{
    if (number == ZXDG_DECORATION_MANAGER_V1_GET_TOPLEVEL_DECORATION)
        object_new(self, &DECORATION, with[0].n, NULL);
}

const struct kind DECORATIONS = { &zxdg_decoration_manager_v1_interface,
                                  .request = decorations_request };

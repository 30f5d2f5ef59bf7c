/* Surfaces and their commits. Not proved.
 *
 * A request changes only what stands here, and costs little. The library is told of it before a
 * look (publish.c). */
#include "desk.h"

/* ---- Buffers */

static void held_gone(struct wl_listener *listener, void *data)
{
    struct held *held = wl_container_of(listener, held, gone);
    (void)data;
    wl_list_remove(&held->gone.link);
    held->buffer = NULL;
}

/* Keeps a buffer in mind as long as it is there. */
void hold(struct held *held, struct wl_resource *buffer)
{
    if (held->buffer)
        wl_list_remove(&held->gone.link);
    held->buffer = buffer;
    held->gone.notify = held_gone;
    if (buffer)
        wl_resource_add_destroy_listener(buffer, &held->gone);
}

/* ---- Trees: a window, its subsurfaces and its popups */

struct surface *surface_root(struct surface *surface)
{
    while (surface->parent)
        surface = surface->parent;
    return surface;
}

bool surface_descends(const struct surface *surface, const struct surface *from)
{
    while (surface && surface != from)
        surface = surface->parent;
    return surface != NULL;
}

/* Where the first word of the surface stands on the screen; its size is that of the surface. */
struct box surface_origin(const struct surface *surface)
{
    struct box at = { 0, 0, surface->w, surface->h };
    for (; surface; surface = surface->parent) {
        at.x = box_clamp((int64_t)at.x + surface->x - surface->geometry.x);
        at.y = box_clamp((int64_t)at.y + surface->y - surface->geometry.y);
        if (surface->role == POPUP && surface->parent) {
            at.x = box_clamp((int64_t)at.x + surface->parent->geometry.x);
            at.y = box_clamp((int64_t)at.y + surface->parent->geometry.y);
        }
    }
    return at;
}

static void unlist(struct wl_list *link)
{
    wl_list_remove(link);
    wl_list_init(link);
}

/* The surface belongs to this parent, or to none. A subsurface is seen from the parent's next state
 * on. */
void surface_adopt(struct surface *surface, struct surface *parent)
{
    surface->parent = parent;
    unlist(&surface->sibling);
    unlist(&surface->place);
    if (!parent)
        publish_places(surface);
    else if (surface->role == SUBSURFACE)
        wl_list_insert(parent->order.prev, &surface->place);
    else
        wl_list_insert(parent->children.prev, &surface->sibling);
}

/* ---- Commits */

void surface_changed(struct surface *surface)
{
    surface->client->changed = host.changed = true;
}

/* Takes the view away at once: the surface may be gone before the next look. */
void surface_unmap(struct surface *surface)
{
    surface->mapped = surface->configured = false;
    surface->room = surface->stale = (struct box){ 0 };
    surface->w = surface->h = 0;
    if (surface->held.buffer)
        wl_buffer_send_release(surface->held.buffer);
    hold(&surface->held, NULL);
    publish_places(surface);
    surface_changed(surface);
    input_forget(surface);
}

/* The surface has this size, and so much of it is shown: never more than a screen, and of a window
 * with a geometry that part. True where all of it is to be copied. */
static bool resize(struct surface *surface, int32_t w, int32_t h)
{
    struct box crop = { 0, 0, w, h }, old = surface->crop;
    bool window = surface->role == TOPLEVEL;
    surface->w = w;
    surface->h = h;
    if (surface->geometry.w > 0)
        crop = box_both(crop, surface->geometry);
    crop.w = SDL_min(crop.w, host.width);
    crop.h = SDL_min(crop.h, host.height);
    surface->crop = crop;
    surface->need_w = window ? SDL_max(crop.w, LEAST_W) : crop.w;
    surface->need_h = window ? SDL_max(crop.h, LEAST_H) : crop.h;
    surface->filled |= surface->need_w != crop.w || surface->need_h != crop.h;
    drag_resized(surface, crop.w - old.w, crop.h - old.h);
    return !box_same(crop, old) || surface->room.w == 0;
}

static void outputs_enter(struct surface *surface)
{
    struct wl_resource *output;
    wl_resource_for_each(output, &surface->client->outputs)
        wl_surface_send_enter(surface->self, output);
}

/* Takes over the committed buffer. One that was never published is the client's again. */
static void show(struct surface *surface)
{
    struct wl_resource *buffer = surface->committed.buffer.buffer;
    if (!buffer) {
        if (surface->mapped)
            surface_unmap(surface);
        return;
    }
    const struct buffer *like = object_data(buffer);
    if (surface->role != TOPLEVEL && surface->role != POPUP && surface->role != SUBSURFACE) {
        wl_buffer_send_release(buffer);
        return;
    }
    bool first = !surface->mapped, all = resize(surface, like->w, like->h) || first;
    surface->mapped = true;
    surface->stale = all ? (struct box){ 0, 0, like->w, like->h } :
                     box_around(surface->stale, surface->committed.damage);
    if (surface->held.buffer && surface->held.buffer != buffer)
        wl_buffer_send_release(surface->held.buffer);
    hold(&surface->held, buffer);
    if (first && surface->role == TOPLEVEL)
        shell_place(surface);
    if (first)
        outputs_enter(surface);
}

/* The callbacks of a surface wait for the next tick of the host's clock, and for nothing else. */
static void take_frames(struct surface *surface)
{
    if (wl_list_empty(&surface->committed.frames))
        return;
    if (wl_list_empty(&desk.frames))
        desk.tick = (now() / host.period + 1) * host.period;
    wl_list_insert_list(&desk.frames, &surface->committed.frames);
    wl_list_init(&surface->committed.frames);
}

/* What is committed holds from now on, and then what its subsurfaces have committed before. The
 * depth of a tree is bounded by the number of surfaces. */
void surface_apply(struct surface *surface)
{
    bool was = surface->mapped;
    surface->geometry = surface->committed.geometry;
    surface->input = surface->committed.input;
    take_frames(surface);
    if (surface->committed.attached)
        show(surface);
    hold(&surface->committed.buffer, NULL);
    surface->committed.attached = surface->waits = false;
    surface->committed.damage = (struct box){ 0 };
    drag_settle(surface);
    subsurfaces_settle(surface);
    if (was != surface->mapped)
        keyboard_choose(surface->client);
    surface_changed(surface);
}

/* The buffer that is attached takes the place of one that was committed and has never held. */
static void join_buffer(struct surface *surface)
{
    struct wl_resource *buffer = surface->next.buffer.buffer;
    struct wl_resource *old = surface->committed.buffer.buffer;
    if (old && old != buffer && old != surface->held.buffer)
        wl_buffer_send_release(old);
    hold(&surface->committed.buffer, buffer);
    hold(&surface->next.buffer, NULL);
    surface->committed.attached = true;
    surface->next.attached = false;
}

/* What is set joins what is committed. That holds at once, but of a surface that goes with its
 * parent. */
static void commit(struct surface *surface)
{
    struct state *from = &surface->next, *to = &surface->committed;
    bool synced = surface_is_synced(surface);
    if (!synced && !shell_commit(surface))
        return;
    if (from->attached)
        join_buffer(surface);
    to->damage = box_around(to->damage, from->damage);
    to->geometry = from->geometry;
    to->input = from->input;
    wl_list_insert_list(to->frames.prev, &from->frames);
    wl_list_init(&from->frames);
    from->damage = (struct box){ 0 };
    surface->waits = true;
    if (!synced)
        surface_apply(surface);
}

/* ---- Regions: the least box around what was added, which for input is enough. */

static void region_request(struct wl_resource *self, uint32_t number, union wl_argument *with)
{
    struct box *box = object_data(self);
    if (number == WL_REGION_ADD)
        *box = box_around(*box, (struct box){ box_clamp(with[0].i), box_clamp(with[1].i),
                                              box_clamp(with[2].i), box_clamp(with[3].i) });
}

static const struct kind REGION = { &wl_region_interface, .request = region_request,
                                    .size = sizeof(struct box) };

/* ---- Requests */

static const struct box EVERYWHERE = { -32768, -32768, 65535, 65535 };

static const struct kind CALLBACK = { .interface = &wl_callback_interface };

static void frame(struct surface *surface, uint32_t id)
{
    struct wl_resource *callback = object_new(surface->self, &CALLBACK, id, NULL);
    if (callback)
        wl_list_insert(&surface->next.frames, wl_resource_get_link(callback));
}

static void surface_request(struct wl_resource *self, uint32_t number, union wl_argument *with)
{
    struct surface *surface = object_data(self);
    struct state *next = &surface->next;
    switch (number) {
    case WL_SURFACE_ATTACH:
        hold(&next->buffer, (struct wl_resource *)with[0].o);
        next->attached = true;
        break;
    case WL_SURFACE_DAMAGE:
    case WL_SURFACE_DAMAGE_BUFFER:
        next->damage = box_around(next->damage,
            box_both((struct box){ with[0].i, with[1].i, with[2].i, with[3].i },
                     (struct box){ 0, 0, 32767, 32767 }));
        break;
    case WL_SURFACE_FRAME:
        frame(surface, with[0].n);
        break;
    case WL_SURFACE_SET_INPUT_REGION:
        next->input = with[0].o ?
            *(struct box *)object_data((struct wl_resource *)with[0].o) : EVERYWHERE;
        break;
    case WL_SURFACE_SET_BUFFER_SCALE:
        if (with[0].i != 1)
            wl_resource_post_error(self, WL_SURFACE_ERROR_INVALID_SCALE, "the scale is 1");
        break;
    case WL_SURFACE_SET_BUFFER_TRANSFORM:
        if (with[0].i != 0)
            wl_resource_post_error(self, WL_SURFACE_ERROR_INVALID_TRANSFORM, "nothing is turned");
        break;
    case WL_SURFACE_COMMIT:
        commit(surface);
        break;
    }
}

static void leave_children(struct surface *surface)
{
    struct surface *child, *next;
    wl_list_for_each_safe(child, next, &surface->children, sibling)
        surface_adopt(child, NULL);
    wl_list_for_each_safe(child, next, &surface->order, place)
        surface_adopt(child, NULL);
}

static void drop(struct state *state)
{
    hold(&state->buffer, NULL);
    while (!wl_list_empty(&state->frames))
        wl_resource_destroy(wl_resource_from_link(state->frames.next));
}

static void surface_gone(struct wl_resource *self)
{
    struct surface *surface = object_data(self);
    surface_unmap(surface);
    shell_drop(surface);
    leave_children(surface);
    surface_adopt(surface, NULL);
    drop(&surface->next);
    drop(&surface->committed);
    wl_list_remove(&surface->link);
}

static void surface_begun(struct wl_resource *self)
{
    struct surface *surface = object_data(self);
    surface->self = self;
    surface->client = client_of(self);
    surface->next.input = surface->committed.input = EVERYWHERE;
    struct wl_list *lists[] = { &surface->children, &surface->sibling, &surface->order,
                                &surface->place, &surface->next.frames,
                                &surface->committed.frames };
    for (size_t at = 0; at < sizeof lists / sizeof *lists; at++)
        wl_list_init(lists[at]);
    wl_list_insert(&surface->client->surfaces, &surface->link);
}

static const struct kind SURFACE = { &wl_surface_interface, .request = surface_request,
                                     .begun = surface_begun, .gone = surface_gone,
                                     .size = sizeof(struct surface) };

/* ---- The compositor */

static void compositor_request(struct wl_resource *self, uint32_t number, union wl_argument *with)
{
    struct client *client = client_of(self);
    if (number == WL_COMPOSITOR_CREATE_REGION)
        object_new(self, &REGION, with[0].n, NULL);
    else if (wl_list_length(&client->surfaces) < SURFACES)
        object_new(self, &SURFACE, with[0].n, NULL);
    else
        wl_client_post_no_memory(client->wl);
}

const struct kind COMPOSITOR = { &wl_compositor_interface, .request = compositor_request };

/* What the test `storm` knows of views: how they stand, and how the last look showed them. By that
 * it says of each press of a button whether it is a click on a client that the user saw. */
#include "storm.h"
#include "surface.h"

/* ---- A stack of views, front first. */

static void put_in(struct stack *stack, uint32_t at, struct placed view)
{
    CHECK(at <= stack->count && stack->count < STANDING);
    memmove(stack->views + at + 1, stack->views + at, (stack->count - at) * sizeof view);
    stack->views[at] = view;
    stack->count++;
}

static struct placed take_out(struct stack *stack, uint32_t at)
{
    struct placed view = stack->views[at];
    stack->count--;
    memmove(stack->views + at, stack->views + at + 1, (stack->count - at) * sizeof view);
    return view;
}

/* Where a view stands that a client has. */
static uint32_t place_of(const struct stack *stack, nit_client client, uint32_t handle)
{
    uint32_t at = 0;
    while (at < stack->count
           && (stack->views[at].client != client || stack->views[at].handle != handle))
        at++;
    CHECK(at < stack->count);
    return at;
}

static struct placed *view_of(struct storm *s, nit_client client, uint32_t handle)
{
    return &s->standing.views[place_of(&s->standing, client, handle)];
}

static uint32_t layer_of(const struct storm *s, nit_client client)
{
    return s->layer[nit_seat_of(client)];
}

/* How many views stand in front of a layer. */
static uint32_t before_layer(const struct storm *s, uint32_t layer)
{
    uint32_t at = 0;
    while (at < s->standing.count && layer_of(s, s->standing.views[at].client) < layer)
        at++;
    return at;
}

/* The view that has a pixel by a stack, or none. */
static const struct placed *owner(const struct storm *s, const struct stack *stack, uint32_t x,
                                  uint32_t y)
{
    if (x >= s->width || y >= s->height || y < s->bar)
        return NULL;
    for (uint32_t at = 0; at < stack->count; at++) {
        const struct placed *view = &stack->views[at];
        int64_t column = (int64_t)x - view->x, row = (int64_t)y - view->y;
        if (column >= 0 && row >= 0 && column < view->w && row < view->h)
            return view;
    }
    return NULL;
}

/* ---- Calls, each with what becomes of the stack where it is done. */

struct nit_reply shown_view(struct storm *s, nit_client client)
{
    struct nit_reply reply = nit_view(&s->server, client);
    if (reply.kind == NIT_HANDLE)
        put_in(&s->standing, before_layer(s, layer_of(s, client)),
               (struct placed){ .client = client, .handle = reply.handle });
    return reply;
}

struct nit_reply shown_place(struct storm *s, struct placed to)
{
    struct nit_reply reply = nit_place(&s->server, to.client, to.handle, to.x, to.y, to.w, to.h);
    if (reply.kind == NIT_DONE) {
        struct placed *view = view_of(s, to.client, to.handle);
        to.across = view->across;
        to.down = view->down;
        *view = to;
    }
    return reply;
}

struct nit_reply shown_offset(struct storm *s, struct placed to)
{
    struct nit_reply reply = nit_offset(&s->server, to.client, to.handle, to.across, to.down);
    if (reply.kind == NIT_DONE) {
        struct placed *view = view_of(s, to.client, to.handle);
        view->across = to.across;
        view->down = to.down;
    }
    return reply;
}

/* The view goes in front of its layer, or behind it. */
static void moves(struct storm *s, nit_client client, uint32_t handle, bool is_front)
{
    struct placed view = take_out(&s->standing, place_of(&s->standing, client, handle));
    put_in(&s->standing, before_layer(s, layer_of(s, client) + (is_front ? 0 : 1)), view);
}

struct nit_reply shown_moved(struct storm *s, nit_client client, uint32_t handle, bool is_front)
{
    struct nit_reply reply = is_front ? nit_front(&s->server, client, handle)
                                      : nit_back(&s->server, client, handle);
    if (reply.kind == NIT_DONE)
        moves(s, client, handle, is_front);
    return reply;
}

uint32_t shown_restacked(struct storm *s, nit_client client, uint32_t handle, bool is_front)
{
    uint32_t kind = is_front ? nit_raise(&s->server, client, handle)
                             : nit_lower(&s->server, client, handle);
    if (kind == NIT_DONE)
        moves(s, client, handle, is_front);
    return kind;
}

struct nit_reply shown_above(struct storm *s, nit_client client, uint32_t handle, uint32_t other)
{
    struct nit_reply reply = nit_above(&s->server, client, handle, other);
    if (reply.kind == NIT_DONE && handle != other) {
        struct placed view = take_out(&s->standing, place_of(&s->standing, client, handle));
        put_in(&s->standing, place_of(&s->standing, client, other), view);
    }
    return reply;
}

struct nit_reply shown_destroy(struct storm *s, nit_client client, uint32_t handle)
{
    struct nit_reply reply = nit_destroy(&s->server, client, handle);
    if (reply.kind == NIT_DONE)
        take_out(&s->standing, place_of(&s->standing, client, handle));
    return reply;
}

/* A client has left, or is locked out. */
void shown_gone(struct storm *s, nit_client client)
{
    for (uint32_t at = s->standing.count; at-- > 0;)
        if (s->standing.views[at].client == client)
            take_out(&s->standing, at);
}

/* ---- Looks and clicks. */

/* No view stands, nothing was shown, and nothing is held. */
void shown_opens(struct storm *s)
{
    s->standing.count = 0;
    s->shown.count = 0;
    memset(s->is_held, 0, sizeof s->is_held);
}

/* A view that can be read is this one. */
static void is_view(struct nit_view_state got, const struct placed *view)
{
    struct nit_view_state want = { .kind = NIT_NO_SUCH_VIEW };
    if (view)
        want = (struct nit_view_state){ NIT_DONE, nit_seat_of(view->client), view->handle, view->x,
                                        view->y, view->w, view->h, view->across, view->down };
    same_view(got, want, __FILE__, __LINE__);
}

/* The views that can be read are those that stand. */
static void reads_views(struct storm *s)
{
    for (uint32_t at = 0; at < s->standing.count; at++)
        is_view(nit_view_at(&s->server, at), &s->standing.views[at]);
    is_view(nit_view_at(&s->server, s->standing.count), NULL);
}

/* So are the owner of a pixel, also beyond the screen, and the one that the last look showed. */
static void reads_owner(struct storm *s)
{
    uint32_t x = below(s, s->width + 1), y = below(s, s->height + 1);
    is_view(nit_owner(&s->server, x, y), owner(s, &s->standing, x, y));
    is_view(nit_shown(&s->server, x, y), owner(s, &s->shown, x, y));
}

/* The codes that can be read are those that are held, each once. */
static void reads_held(struct storm *s)
{
    uint32_t count = 0, held = 0;
    for (uint32_t code; (code = nit_held(&s->server, count)) != NIT_NONE; count++) {
        CHECK(code < CODES && s->is_held[code]);
        for (uint32_t at = 0; at < count; at++)
            CHECK(nit_held(&s->server, at) != code);
    }
    for (uint32_t code = 0; code < CODES; code++)
        held += s->is_held[code];
    CHECK(count == held);
}

/* What was shown is what stands; both were read before. */
static void is_looked_at(struct storm *s)
{
    reads_views(s);
    reads_held(s);
    s->shown = s->standing;
    reads_owner(s);
}

struct nit_rect shown_look(struct storm *s)
{
    size_t count = (size_t)s->width * s->height;
    reads_owner(s);
    struct nit_rect part = below(s, 8) == 0 ? nit_look_anew(&s->server, s->frame, count)
                                            : nit_look(&s->server, s->frame, count);
    CHECK(part.kind == NIT_DONE);
    is_looked_at(s);
    return part;
}

/* A look by damage and copies. */
void shown_damage(struct storm *s)
{
    struct surface surface = { s->width, s->height, s->width, s->frame, s->other };
    reads_owner(s);
    damaged(&s->server, &surface);
    is_looked_at(s);
}

/* The view under the pointer, or none. */
const struct placed *shown_owner(const struct storm *s, struct nit_state state)
{
    return owner(s, &s->standing, state.x, state.y);
}

/* Whether the client under the pointer is the one that the last look showed there. */
static bool is_as_shown(const struct storm *s, struct nit_state state)
{
    const struct placed *now = shown_owner(s, state);
    const struct placed *then = owner(s, &s->shown, state.x, state.y);
    return now && then ? now->client == then->client : now == then;
}

/* The first code that is held, or CODES. */
uint32_t shown_held(const struct storm *s)
{
    uint32_t code = 0;
    while (code < CODES && !s->is_held[code])
        code++;
    return code;
}

static bool is_click(const struct storm *s, uint32_t code)
{
    return code >= 272 && code <= 279 && shown_held(s) == CODES;
}

struct nit_routed shown_press(struct storm *s, uint32_t code)
{
    struct nit_state before = nit_state(&s->server);
    struct nit_routed routed;
    bool is_refused = is_click(s, code) && !is_as_shown(s, before);
    routed = nit_press(&s->server, code);
    CHECK(routed.kind == (code >= CODES ? NIT_BAD_DEVICE : is_refused ? NIT_MOVED : NIT_DONE));
    if (routed.kind == NIT_DONE && code != 70 && code != 99)
        s->is_held[code] = true;
    if (is_refused) {
        struct nit_state after = nit_state(&s->server);
        CHECK(memcmp(&before, &after, sizeof after) == 0);
        s->seen |= 1ull << NIT_MOVED;
    }
    return routed;
}

struct nit_routed shown_release(struct storm *s, uint32_t code)
{
    if (code < CODES)
        s->is_held[code] = false;
    return nit_release(&s->server, code);
}

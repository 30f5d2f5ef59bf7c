/* A plain compositor behind the library's header, for measures alone: the host over this is what
 * the host over the library is measured beside. It has views, a focus and damage, and nothing of
 * what the library is for: no modes, no labels, no quotas, no layers.
 *
 * A word goes from the client's words to the seat's, and at a look or a copy from there to the
 * host's. Made with -DKEPT it has a screen of its own between, as the library has: each call
 * composites there what it changed, and a look or a copy takes it from there. */
#include "plain.h"

/* ---- Opening and seats */

uint32_t nit_open_seats_3(struct nit_server *server, uint32_t w, uint32_t h, uint32_t bar,
                          uint32_t glyphs, uint32_t scale, const uint32_t *plan, size_t words)
{
    for (size_t seat = 0; seat < words / 3 && seat < SEATS; seat++) {
        seats[seat].most = plan[3 * seat] / 8;
        if (!(seats[seat].words = calloc(seats[seat].most, sizeof(uint32_t))))
            return NIT_NO_MEMORY;
    }
    if (KEPT && !(screen = malloc((size_t)w * h * sizeof *screen)))
        return NIT_NO_MEMORY;
    width = w;
    height = h;
    hurt(0, 0, (int32_t)w, (int32_t)h);
    composite();
    return NIT_DONE;
}

uint32_t nit_close(struct nit_server *server)
{
    for (int seat = 0; seat < SEATS; seat++) {
        free(seats[seat].words);
        seats[seat] = (struct seat){ 0 };
    }
    free(screen);
    screen = NULL;
    count = 0;
    focus = hover = NIT_NONE;
    damage = (struct damage){ 0, 0, 0, 0 };
    return NIT_DONE;
}

struct nit_seated nit_seat_for(const struct nit_server *server, const char *label, size_t length,
                               uint32_t layer)
{
    for (uint32_t seat = 0; seat < SEATS; seat++)
        if (!seats[seat].taken && seats[seat].most > 0)
            return (struct nit_seated){ .kind = NIT_DONE, .seat = seat };
    return (struct nit_seated){ .kind = NIT_NO_FREE_SEAT };
}

struct nit_seated nit_seat(struct nit_server *server, uint32_t seat, const char *label,
                           size_t length)
{
    if (seats[seat].taken)
        return (struct nit_seated){ .kind = NIT_SEAT_TAKEN };
    uint32_t *words = seats[seat].words;
    seats[seat] = (struct seat){ .taken = true, .words = words, .most = seats[seat].most };
    return (struct nit_seated){ .kind = NIT_DONE, .seat = seat, .client = seat };
}

static struct nit_reply reply(uint32_t kind)
{
    return (struct nit_reply){ .kind = kind };
}

struct nit_reply nit_leave(struct nit_server *server, nit_client client)
{
    uint32_t seat = nit_seat_of(client);
    for (uint32_t at = count; at-- > 0;)
        if (views[at].seat == seat)
            drop(at);
    composite();
    seats[seat].taken = false;
    focus = focus == seat ? NIT_NONE : focus;
    hover = hover == seat ? NIT_NONE : hover;
    return reply(NIT_DONE);
}

/* ---- Calls */

struct nit_reply nit_buffer(struct nit_server *server, nit_client client, uint32_t w, uint32_t h)
{
    struct seat *of = &seats[nit_seat_of(client)];
    if (w == 0 || h == 0 || (uint64_t)w * h > of->most)
        return reply(NIT_BAD_SIZE);
    of->w = w;
    of->h = h;
    return reply(NIT_DONE);
}

struct nit_reply nit_view(struct nit_server *server, nit_client client)
{
    if (count == VIEWS)
        return reply(NIT_TOO_MANY_VIEWS);
    memmove(views + 1, views, count++ * sizeof *views);
    uint32_t seat = nit_seat_of(client);
    views[0] = (struct view){ .seat = seat, .handle = ++seats[seat].handles };
    return (struct nit_reply){ .kind = NIT_HANDLE, .handle = views[0].handle };
}

struct nit_reply nit_place(struct nit_server *server, nit_client client, uint32_t view, int32_t x,
                           int32_t y, uint32_t w, uint32_t h)
{
    uint32_t at = find(client, view);
    if (at == NIT_NONE)
        return reply(NIT_NO_SUCH_VIEW);
    hurt_view(&views[at]);
    views[at].x = x;
    views[at].y = y;
    views[at].w = w & 0x7FFF;
    views[at].h = h & 0x7FFF;
    hurt_view(&views[at]);
    composite();
    return reply(NIT_DONE);
}

struct nit_reply nit_offset(struct nit_server *server, nit_client client, uint32_t view, int32_t x,
                            int32_t y)
{
    uint32_t at = find(client, view);
    if (at == NIT_NONE)
        return reply(NIT_NO_SUCH_VIEW);
    views[at].across = x;
    views[at].down = y;
    hurt_view(&views[at]);
    composite();
    return reply(NIT_DONE);
}

static struct nit_reply restack(nit_client client, uint32_t view, uint32_t to)
{
    uint32_t at = find(client, view);
    if (at == NIT_NONE || to == NIT_NONE)
        return reply(NIT_NO_SUCH_VIEW);
    move(at, to);
    composite();
    return reply(NIT_DONE);
}

struct nit_reply nit_front(struct nit_server *server, nit_client client, uint32_t view)
{
    return restack(client, view, 0);
}

struct nit_reply nit_back(struct nit_server *server, nit_client client, uint32_t view)
{
    return restack(client, view, count - 1);
}

uint32_t nit_raise(struct nit_server *server, nit_client client, uint32_t view)
{
    return restack(client, view, 0).kind;
}

uint32_t nit_lower(struct nit_server *server, nit_client client, uint32_t view)
{
    return restack(client, view, count - 1).kind;
}

struct nit_reply nit_above(struct nit_server *server, nit_client client, uint32_t view,
                           uint32_t other)
{
    uint32_t at = find(client, view), to = find(client, other);
    /* Where the view stood in front, the other one moves up into its place. */
    return restack(client, view, to != NIT_NONE && at < to ? to - 1 : to);
}

struct nit_reply nit_title(struct nit_server *server, nit_client client, uint32_t view,
                           const char *text, size_t length)
{
    return reply(NIT_DONE);
}

struct nit_reply nit_destroy(struct nit_server *server, nit_client client, uint32_t view)
{
    uint32_t at = find(client, view);
    if (at == NIT_NONE)
        return reply(NIT_NO_SUCH_VIEW);
    drop(at);
    composite();
    return reply(NIT_DONE);
}

struct nit_reply nit_take(struct nit_server *server, nit_client client)
{
    struct seat *from = &seats[nit_seat_of(client)];
    if (from->waiting == 0)
        return reply(NIT_NO_EVENT);
    struct nit_reply told = { .kind = NIT_EVENT, .event = from->events[from->first] };
    from->first = (from->first + 1) % QUEUE;
    from->waiting--;
    return told;
}

struct nit_reply nit_upgrade(struct nit_server *server, nit_client client, uint32_t units)
{
    return reply(NIT_DONE);
}

struct nit_reply nit_refresh(struct nit_server *server, nit_client client, int32_t x, int32_t y,
                             uint32_t w, uint32_t h, const uint32_t *words, size_t size)
{
    struct seat *of = &seats[nit_seat_of(client)];
    int32_t left = most(x, 0), right = least(x + (int32_t)(w & 0x7FFF), (int32_t)of->w);
    int32_t bottom = least(y + (int32_t)(h & 0x7FFF), (int32_t)of->h);
    for (int32_t at = most(y, 0); at < bottom && left < right; at++)
        memcpy(of->words + at * (int32_t)of->w + left, words + at * (int32_t)of->w + left,
               (size_t)(right - left) * sizeof *words);
    for (uint32_t at = 0; at < count; at++)
        if (views[at].seat == nit_seat_of(client))
            hurt(views[at].x + views[at].across + x, views[at].y + views[at].down + y,
                 (int32_t)(w & 0x7FFF), (int32_t)(h & 0x7FFF));
    composite();
    return reply(NIT_DONE);
}

/* ---- The user */

static void tell(struct nit_routed *routed, uint32_t seat, struct nit_event event)
{
    if (seat == NIT_NONE)
        return;
    struct seat *to = &seats[seat];
    if (to->waiting < QUEUE)
        to->events[(to->first + to->waiting++) % QUEUE] = event;
    routed->to[routed->count++] = (struct nit_delivery){ seat, event };
}

struct nit_view_state nit_owner(const struct nit_server *server, uint32_t x, uint32_t y)
{
    for (uint32_t at = 0; at < count; at++) {
        const struct view *v = &views[at];
        if ((int32_t)x >= v->x && (int32_t)y >= v->y && (int32_t)x < v->x + (int32_t)v->w
            && (int32_t)y < v->y + (int32_t)v->h)
            return (struct nit_view_state){ NIT_DONE, v->seat, v->handle, v->x, v->y, v->w, v->h,
                                            v->across, v->down };
    }
    return (struct nit_view_state){ .kind = NIT_NO_SUCH_VIEW };
}

struct nit_view_state nit_shown(const struct nit_server *server, uint32_t x, uint32_t y)
{
    return nit_owner(server, x, y);
}

static uint32_t pointed(void)
{
    struct nit_view_state view = nit_owner(NULL, column, row);
    return view.kind == NIT_DONE ? view.seat : NIT_NONE;
}

struct nit_routed nit_press(struct nit_server *server, uint32_t code)
{
    struct nit_routed routed = { .kind = NIT_DONE };
    if (code >= 272)
        focus = pointed();
    tell(&routed, focus, (struct nit_event){ .kind = NIT_PRESS, .code = code });
    return routed;
}

struct nit_routed nit_release(struct nit_server *server, uint32_t code)
{
    struct nit_routed routed = { .kind = NIT_DONE };
    tell(&routed, focus, (struct nit_event){ .kind = NIT_RELEASE, .code = code });
    return routed;
}

struct nit_routed nit_motion(struct nit_server *server, uint32_t x, uint32_t y)
{
    struct nit_routed routed = { .kind = NIT_DONE };
    column = x;
    row = y;
    tell(&routed, pointed(),
         (struct nit_event){ .kind = NIT_MOTION, .x = (uint16_t)x, .y = (uint16_t)y });
    return routed;
}

struct nit_routed nit_wheel(struct nit_server *server, int32_t turn)
{
    struct nit_routed routed = { .kind = NIT_DONE };
    tell(&routed, pointed(), (struct nit_event){ .kind = NIT_WHEEL, .turn = turn });
    return routed;
}

/* ---- Looking */

struct nit_damage nit_damage(struct nit_server *server)
{
    struct nit_damage told = { .kind = NIT_DONE, .count = damage.left < damage.right };
    if (told.count)
        told.part[0] = (struct nit_part){ (uint32_t)damage.left, (uint32_t)damage.top,
                                          (uint32_t)(damage.right - damage.left),
                                          (uint32_t)(damage.bottom - damage.top) };
    damage = (struct damage){ 0, 0, 0, 0 };
    return told;
}

uint32_t nit_copy(struct nit_server *server, uint32_t x, uint32_t y, uint32_t w, uint32_t h,
                  uint32_t *out, size_t size, size_t pitch)
{
    struct damage part = { (int32_t)x, (int32_t)y, (int32_t)(x + w), (int32_t)(y + h) };
    put(&(struct target){ out, pitch, part });
    return NIT_DONE;
}

struct nit_rect nit_look(struct nit_server *server, uint32_t *out, size_t size)
{
    size_t first = (size_t)damage.top * width + (size_t)damage.left;
    put(&(struct target){ out + first, width, damage });
    struct nit_part part = nit_damage(server).part[0];
    return (struct nit_rect){ NIT_DONE, part.x, part.y, part.w, part.h };
}

struct nit_state nit_state(const struct nit_server *server)
{
    return (struct nit_state){ .kind = NIT_DONE, .width = width, .height = height,
                               .seats = SEATS, .focus = focus, .x = column, .y = row,
                               .receiver = NIT_NONE };
}

size_t nit_label(const struct nit_server *server, uint32_t seat, char *out, size_t room)
{
    return 0;
}

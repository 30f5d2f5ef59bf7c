/* The random calls and the random user of the test `storm`. */
#include "storm.h"

/* ---- Numbers of all sizes. */

uint32_t below(struct storm *s, uint32_t most)
{
    return (uint32_t)draw(&s->random, most);
}

uint32_t any(struct storm *s)
{
    static const uint32_t edges[] = { 0, 1, 255, 256, 272, 767, 768, 4096, 4097, 32767, 32768,
                                      65535, 65536, 8388608, 8388609, NIT_MOST_UNITS, INT32_MAX,
                                      1u << 31, UINT32_MAX };
    switch (below(s, 16)) {
    case 0: return edges[below(s, sizeof edges / sizeof *edges)];
    case 1: return (uint32_t)(draw(&s->random, 1ull << 32) >> below(s, 32));
    case 2: return 0 - below(s, 70000);
    default: return below(s, s->side);
    }
}

static int32_t any_place(struct storm *s)
{
    uint32_t number = below(s, 4) == 0 ? 0 - below(s, s->side) : any(s);
    return (int32_t)number;
}

/* Mostly one of the last views that the seat's client made. */
uint32_t any_view(struct storm *s, nit_client client)
{
    uint32_t seat = nit_seat_of(client);
    if (seat >= s->seats || below(s, 20) == 0)
        return any(s);
    return s->handle[seat] - below(s, below(s, 4) == 0 ? 64 : 6);
}

bool is_its_own(const struct storm *s, nit_client client)
{
    uint32_t seat = nit_seat_of(client);
    return seat < s->seats && s->client[seat] == client;
}

/* One call in a hundred is for no seat, and one in forty for another client of the seat: mostly
 * for one before, or one that is still to come. */
nit_client any_client(struct storm *s)
{
    uint32_t seat = below(s, s->seats);
    uint64_t turn = s->client[seat] >> 16;
    if (below(s, 100) == 0)
        return draw(&s->random, 1 + turn) * 65536 + s->seats + below(s, 65536 - s->seats);
    if (below(s, 40) == 0)
        turn = below(s, 4) == 0 ? draw(&s->random, 1ull << 48) : draw(&s->random, s->turns + 2);
    return turn * 65536 + seat;
}

/* ---- What a reply may be. */

/* A set of kinds, which are below 64. */
#define KIND(kind) (1ull << (kind))
#define OF_VIEW (KIND(NIT_DONE) | KIND(NIT_NO_SUCH_VIEW))
#define OF_RECT (OF_VIEW | KIND(NIT_BAD_RECT))

static void has_no_event(struct nit_event e)
{
    CHECK(e.kind == NIT_NOTHING && e.code == 0 && e.x == 0 && e.y == 0 && e.turn == 0);
}

static void is_event(const struct storm *s, struct nit_event e)
{
    bool code = e.kind == NIT_PRESS || e.kind == NIT_RELEASE;
    CHECK(e.kind >= NIT_PRESS && e.kind <= NIT_FOCUS_LEAVE);
    CHECK(code ? e.code <= 767 : e.code == 0);
    CHECK(e.kind == NIT_MOTION ? e.x < s->width && e.y < s->height : e.x == 0 && e.y == 0);
    CHECK(e.kind == NIT_WHEEL ? e.turn >= -127 && e.turn <= 127 : e.turn == 0);
}

static void has_fields(const struct storm *s, struct nit_reply r)
{
    bool handle = r.kind == NIT_HANDLE || r.kind == NIT_NO_SUCH_VIEW;
    bool needs = r.kind == NIT_OUT_OF_QUOTA || r.kind == NIT_NO_RESERVE;
    CHECK(handle || r.handle == 0);
    CHECK(r.kind != NIT_HANDLE || r.handle != 0);
    CHECK(needs ? r.need > r.left : r.need == 0 && r.left == 0);
    if (r.kind == NIT_EVENT)
        is_event(s, r.event);
    else
        has_no_event(r.event);
}

/* The text of the last step: another one that begins so, or the same as before. */
void told(struct storm *s, bool is_served, const char *begins)
{
    char line[NIT_LINE];
    size_t length = nit_entry(&s->server, line, sizeof line);
    CHECK(length <= sizeof line);
    if (is_served)
        CHECK(length > strlen(begins) && memcmp(line, begins, strlen(begins)) == 0);
    else
        CHECK(length == s->length && memcmp(line, s->line, length) == 0);
    CHECK(length == 0 || memchr(line, '\n', length) == line + length - 1);
    memcpy(s->line, line, length);
    s->length = length;
}

/* What a reply is to a client whose seat has this status, where a live one may answer these
 * kinds. */
static void is_reply(struct storm *s, nit_client client, uint32_t status, struct nit_reply r,
                     uint64_t kinds)
{
    const uint64_t unserved = KIND(NIT_BAD_TEXT) | KIND(NIT_SHORT_WORDS);
    uint32_t seat = nit_seat_of(client);
    char begins[20];
    if (seat >= s->seats)
        kinds = KIND(NIT_NO_SEAT);
    else if (!is_its_own(s, client))
        kinds = KIND(NIT_OTHER_CLIENT);
    else if (status == NIT_SEAT_CLOSED)
        kinds = (kinds & unserved) | KIND(NIT_SESSION_CLOSED);
    else if (status == NIT_SEAT_KILLED)
        kinds = (kinds & unserved) | KIND(NIT_SESSION_KILLED);
    CHECK(r.kind < 64 && (kinds & KIND(r.kind)) != 0);
    s->seen |= KIND(r.kind);
    if (r.kind == NIT_HANDLE)
        s->handle[seat] = r.handle;
    has_fields(s, r);
    snprintf(begins, sizeof begins, "call %u ", seat);
    told(s, r.kind < NIT_NO_SEAT, begins);
}

/* ---- Calls. */

static struct nit_reply refresh(struct storm *s, nit_client client)
{
    size_t count = below(s, 3) == 0 ? below(s, s->room + 1) : s->room;
    s->words[-1 - (ptrdiff_t)below(s, s->room)] = (uint32_t)draw(&s->random, 1ull << 32);
    return nit_refresh(&s->server, client, any_place(s), any_place(s), any(s), any(s),
                       s->words - count, count);
}

static struct nit_reply title(struct storm *s, nit_client client)
{
    char text[64];
    size_t length = below(s, 4) == 0 ? below(s, sizeof text) : below(s, 13);
    for (size_t k = 0; k < length; k++)
        text[k] = (char)(below(s, 20) == 0 ? below(s, 256) : 'a' + below(s, 26));
    return nit_title(&s->server, client, any_view(s, client), text, length);
}

static struct nit_reply leave(struct storm *s, nit_client client, uint64_t *kinds)
{
    struct nit_reply reply = nit_leave(&s->server, client);
    *kinds = KIND(NIT_DONE);
    if (reply.kind == NIT_DONE)
        shown_gone(s, client);
    return reply;
}

static struct nit_reply rare(struct storm *s, nit_client client, uint64_t *kinds)
{
    struct nit_server *server = &s->server;
    switch (below(s, 8)) {
    case 0:
        if (below(s, 16) == 0)
            return leave(s, client, kinds);
        /* fall through */
    case 1:
    case 2:
        *kinds = KIND(NIT_DONE) | KIND(NIT_NO_RESERVE);
        return nit_upgrade(server, client, any(s));
    case 3:
    case 4:
        *kinds = OF_VIEW;
        return shown_destroy(s, client, any_view(s, client));
    default:
        *kinds = KIND(NIT_DONE) | KIND(NIT_BAD_SIZE) | KIND(NIT_OUT_OF_QUOTA);
        return nit_buffer(server, client, any(s), any(s));
    }
}

static struct placed any_placed(struct storm *s, nit_client client)
{
    return (struct placed){ .client = client, .handle = any_view(s, client), .x = any_place(s),
                            .y = any_place(s), .w = any(s), .h = any(s), .across = any_place(s),
                            .down = any_place(s) };
}

static struct nit_reply usual(struct storm *s, nit_client client, uint64_t *kinds)
{
    struct nit_server *server = &s->server;
    *kinds = OF_VIEW;
    switch (below(s, 8)) {
    case 0:
    case 1: return shown_moved(s, client, any_view(s, client), below(s, 2) == 0);
    case 2: return shown_above(s, client, any_view(s, client), any_view(s, client));
    case 3:
        *kinds = KIND(NIT_HANDLE) | KIND(NIT_TOO_MANY_VIEWS) | KIND(NIT_OUT_OF_QUOTA);
        return shown_view(s, client);
    case 4:
        *kinds = OF_VIEW | KIND(NIT_BAD_TITLE) | KIND(NIT_BAD_TEXT);
        return title(s, client);
    case 5:
        *kinds = KIND(NIT_EVENT) | KIND(NIT_NO_EVENT);
        return nit_take(server, client);
    case 6:
        *kinds = OF_RECT;
        return shown_offset(s, any_placed(s, client));
    default:
        *kinds = OF_RECT;
        return shown_place(s, any_placed(s, client));
    }
}

void client_calls(struct storm *s)
{
    nit_client client = any_client(s);
    uint32_t status = nit_seat_state(&s->server, nit_seat_of(client)).status;
    uint64_t kinds = KIND(NIT_DONE) | KIND(NIT_BAD_RECT) | KIND(NIT_SHORT_WORDS);
    struct nit_reply reply;
    if (below(s, 4) == 0)
        reply = refresh(s, client);
    else if (below(s, 8) == 0)
        reply = rare(s, client, &kinds);
    else
        reply = usual(s, client, &kinds);
    is_reply(s, client, status, reply, kinds);
}

/* ---- The user. */

static uint32_t any_code(struct storm *s)
{
    static const uint32_t codes[] = { 272, 272, 273, 30, 70, 99 };
    return below(s, 20) == 0 ? any(s) : codes[below(s, sizeof codes / sizeof *codes)];
}

/* A press, or the release of what is held, so that mostly nothing is. Of the presses half are right
 * behind a look. */
static struct nit_routed press_or_release(struct storm *s, bool *is_served)
{
    uint32_t code = shown_held(s);
    *is_served = true;
    if (code < CODES && below(s, 4) != 0)
        return shown_release(s, code);
    code = any_code(s);
    *is_served = code < CODES;
    if (below(s, 8) == 0)
        return shown_release(s, code);
    if (below(s, 2) == 0 && below(s, 2) == 0)
        shown_damage(s);
    else if (below(s, 2) == 0)
        whole_look(s);
    struct nit_routed routed = shown_press(s, code);
    *is_served = routed.kind == NIT_DONE;
    return routed;
}

void user_does(struct storm *s)
{
    uint32_t x = any(s), y = any(s);
    int32_t turn = (int32_t)(any(s) - SIDE / 2);
    uint64_t live = 0;
    bool is_served;
    struct nit_routed r;
    for (uint32_t seat = 0; seat < s->seats; seat++)
        live |= (uint64_t)(nit_seat_state(&s->server, seat).status == NIT_SEAT_LIVE) << seat;
    switch (below(s, 4)) {
    case 0:
    case 1: r = press_or_release(s, &is_served); break;
    case 2: r = nit_motion(&s->server, x, y); is_served = x <= 65535 && y <= 65535; break;
    default: r = nit_wheel(&s->server, turn); is_served = turn >= -127 && turn <= 127;
    }
    CHECK(is_served ? r.kind == NIT_DONE : r.kind == NIT_BAD_DEVICE || r.kind == NIT_MOVED);
    CHECK(r.count <= (is_served ? 3 : 0));
    for (uint32_t k = 0; k < r.count; k++) {
        CHECK(r.to[k].seat < s->seats && (live >> r.to[k].seat & 1) == 1);
        if (r.to[k].event.kind != NIT_KILL) {
            is_event(s, r.to[k].event);
            continue;
        }
        CHECK(nit_seat_state(&s->server, r.to[k].seat).status == NIT_SEAT_KILLED);
        shown_gone(s, s->client[r.to[k].seat]);
    }
    for (uint32_t k = r.count; k < 3; k++)
        has_no_event(r.to[k].event);
    told(s, is_served, "input ");
}

/* What the user restacks is told to nobody: no event waits anywhere, and the focus, the pointer and
 * what is held stay. */
void user_restacks(struct storm *s)
{
    struct nit_state state = nit_state(&s->server), now;
    struct nit_seat_state seats[NIT_MOST_SEATS];
    nit_client client = any_client(s);
    for (uint32_t seat = 0; seat < s->seats; seat++)
        seats[seat] = nit_seat_state(&s->server, seat);
    uint32_t kind = shown_restacked(s, client, any_view(s, client), below(s, 2) == 0);
    bool is_done = kind == NIT_DONE;
    if (nit_seat_of(client) >= s->seats)
        CHECK(kind == NIT_NO_SEAT);
    else if (!is_its_own(s, client))
        CHECK(kind == NIT_OTHER_CLIENT);
    else
        CHECK(is_done || kind == NIT_NO_SUCH_VIEW);
    now = nit_state(&s->server);
    CHECK(memcmp(&state, &now, sizeof now) == 0);
    for (uint32_t seat = 0; seat < s->seats; seat++)
        same_seat(nit_seat_state(&s->server, seat), seats[seat], __FILE__, __LINE__);
    s->length = is_done ? 0 : s->length;
    told(s, false, "");
}

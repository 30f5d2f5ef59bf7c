/* The steps of planted.c, and wrong readers: those that tell another seat's. */
#include "planted.h"

/* ---- Steps. */

#define STEP(kind, answer, name, parameters, arguments) \
    answer __real_##name parameters; \
    answer __wrap_##name parameters \
    { \
        struct before before = before_step(server); \
        answer told = __real_##name arguments; \
        after_step(server, before, kind); \
        return told; \
    }

typedef struct nit_reply reply;
typedef struct nit_seated seated;
typedef struct nit_routed routed;

STEP("buffer", reply, nit_buffer,
     (struct nit_server *server, nit_client client, uint32_t w, uint32_t h), (server, client, w, h))
STEP("view", reply, nit_view, (struct nit_server *server, nit_client client), (server, client))
STEP("place", reply, nit_place,
     (struct nit_server *server, nit_client client, uint32_t view, int32_t x, int32_t y,
      uint32_t w, uint32_t h), (server, client, view, x, y, w, h))
STEP("offset", reply, nit_offset,
     (struct nit_server *server, nit_client client, uint32_t view, int32_t x, int32_t y),
     (server, client, view, x, y))
STEP("front", reply, nit_front, (struct nit_server *server, nit_client client, uint32_t view),
     (server, client, view))
STEP("back", reply, nit_back, (struct nit_server *server, nit_client client, uint32_t view),
     (server, client, view))
STEP("above", reply, nit_above,
     (struct nit_server *server, nit_client client, uint32_t view, uint32_t other),
     (server, client, view, other))
STEP("title", reply, nit_title,
     (struct nit_server *server, nit_client client, uint32_t view, const char *text,
      size_t length), (server, client, view, text, length))
STEP("destroy", reply, nit_destroy, (struct nit_server *server, nit_client client, uint32_t view),
     (server, client, view))
STEP("upgrade", reply, nit_upgrade, (struct nit_server *server, nit_client client, uint32_t units),
     (server, client, units))
STEP("leave", reply, nit_leave, (struct nit_server *server, nit_client client), (server, client))
STEP("refresh", reply, nit_refresh,
     (struct nit_server *server, nit_client client, int32_t x, int32_t y, uint32_t w, uint32_t h,
      const uint32_t *words, size_t count), (server, client, x, y, w, h, words, count))
STEP("seat", seated, nit_seat,
     (struct nit_server *server, uint32_t seat, const char *label, size_t length),
     (server, seat, label, length))
STEP("raise", uint32_t, nit_raise, (struct nit_server *server, nit_client client, uint32_t view),
     (server, client, view))
STEP("lower", uint32_t, nit_lower, (struct nit_server *server, nit_client client, uint32_t view),
     (server, client, view))
STEP("release", routed, nit_release, (struct nit_server *server, uint32_t code), (server, code))
STEP("motion", routed, nit_motion, (struct nit_server *server, uint32_t x, uint32_t y),
     (server, x, y))
STEP("wheel", routed, nit_wheel, (struct nit_server *server, int32_t turn), (server, turn))

routed __real_nit_press(struct nit_server *server, uint32_t code);

routed __wrap_nit_press(struct nit_server *server, uint32_t code)
{
    struct before before = before_step(server);
    routed told = __real_nit_press(server, code);
    bool is_kill = told.count > 0 && told.to[0].event.kind == NIT_KILL;
    after_step(server, before, code == 70 ? "xray-key" : code == 99 ? "kill-key"
               : is_kill ? "kill" : "press");
    return told;
}

/* ---- Other seats. */

/* The seat behind this one, where a server has it. */
static uint32_t other_seat(const struct nit_server *server, uint32_t seat)
{
    uint32_t seats = __real_nit_state(server).seats;
    return seat < seats ? (seat + 1) % seats : seat;
}

/* What is told in the place of the library's answer. */
#define TELL(told, right) \
    do { \
        if (memcmp(&(told), &(right), sizeof(told)) != 0) \
            happens(); \
        return told; \
    } while (0)

reply __real_nit_take(struct nit_server *server, nit_client client);

reply __wrap_nit_take(struct nit_server *server, nit_client client)
{
    struct before before = before_step(server);
    nit_client asked = client;
    uint32_t other = other_seat(server, nit_seat_of(client));
    if (is_planted("nit_take has another client's event"))
        client = __real_nit_seat_state(server, other).client;
    if (client != asked)
        happens();
    reply told = __real_nit_take(server, client);
    after_step(server, before, "take");
    return told;
}

seated __real_nit_seat_for(const struct nit_server *server, const char *label, size_t length,
                           uint32_t layer);

seated __wrap_nit_seat_for(const struct nit_server *server, const char *label, size_t length,
                           uint32_t layer)
{
    seated right = __real_nit_seat_for(server, label, length, layer), told = right;
    if (is_planted("nit_seat_for tells another seat") && told.kind == NIT_DONE)
        told.seat = other_seat(server, told.seat);
    TELL(told, right);
}

struct nit_state __wrap_nit_state(const struct nit_server *server)
{
    struct nit_state right = __real_nit_state(server), told = right;
    if (is_planted("nit_state has another focus"))
        told.focus = other_seat(server, told.focus);
    if (is_planted("nit_state has another hover"))
        told.hover = other_seat(server, told.hover);
    if (is_planted("nit_state has another receiver"))
        told.receiver = other_seat(server, told.receiver);
    if (is_planted("nit_state has the focus as the receiver"))
        told.receiver = told.focus;
    TELL(told, right);
}

struct nit_seat_state __wrap_nit_seat_state(const struct nit_server *server, uint32_t seat)
{
    struct nit_seat_state right = __real_nit_seat_state(server, seat), told = right;
    struct nit_seat_state other = __real_nit_seat_state(server, other_seat(server, seat));
    if (is_planted("nit_seat_state tells another seat's"))
        told = other;
    if (is_planted("nit_seat_state has another status"))
        told.status = other.status;
    if (is_planted("nit_seat_state counts another's events"))
        told.waiting = other.waiting;
    if (is_planted("nit_seat_state counts another's lost events"))
        told.lost = other.lost;
    if (is_planted("nit_seat_state has another client"))
        told.client = other.client;
    TELL(told, right);
}

struct nit_account __wrap_nit_account(const struct nit_server *server, uint32_t seat)
{
    struct nit_account right = __real_nit_account(server, seat), told = right;
    struct nit_account other = __real_nit_account(server, other_seat(server, seat));
    if (is_planted("nit_account tells another seat's"))
        told = other;
    if (is_planted("nit_account has another layer"))
        told.layer = other.layer;
    if (is_planted("nit_account has another donation"))
        told.donation = other.donation;
    if (is_planted("nit_account has another reserve"))
        told.reserve = other.reserve;
    if (is_planted("nit_account has another buffer")) {
        told.width = other.width;
        told.height = other.height;
    }
    TELL(told, right);
}

size_t __wrap_nit_label(const struct nit_server *server, uint32_t seat, char *out, size_t room)
{
    uint32_t other = other_seat(server, seat);
    if (!is_planted("nit_label tells another seat's") || other == seat)
        return __real_nit_label(server, seat, out, room);
    happens();
    return __real_nit_label(server, other, out, room);
}

/* ---- Views. */

/* The place of another view, where there is one. */
static uint32_t other_place(const struct nit_server *server, uint32_t place)
{
    bool is = __real_nit_view_at(server, place ^ 1).kind == NIT_DONE;
    return is && __real_nit_view_at(server, place).kind == NIT_DONE ? place ^ 1 : place;
}

struct nit_view_state __wrap_nit_view_at(const struct nit_server *server, uint32_t place)
{
    struct nit_view_state right = __real_nit_view_at(server, place), told = right;
    if (is_planted("nit_view_at tells another view"))
        told = __real_nit_view_at(server, other_place(server, place));
    if (is_planted("nit_view_at has another seat") && told.kind == NIT_DONE)
        told.seat = other_seat(server, told.seat);
    TELL(told, right);
}

size_t __wrap_nit_title_at(const struct nit_server *server, uint32_t place, char *out, size_t room)
{
    uint32_t other = other_place(server, place);
    if (!is_planted("nit_title_at tells another view's") || other == place)
        return __real_nit_title_at(server, place, out, room);
    happens();
    return __real_nit_title_at(server, other, out, room);
}

struct nit_view_state __wrap_nit_owner(const struct nit_server *server, uint32_t x, uint32_t y)
{
    struct nit_view_state right = __real_nit_owner(server, x, y), told = right;
    if (is_planted("nit_owner has another seat") && told.kind == NIT_DONE)
        told.seat = other_seat(server, told.seat);
    if (is_planted("nit_owner tells what was shown"))
        told = __real_nit_shown(server, x, y);
    TELL(told, right);
}

struct nit_view_state __wrap_nit_shown(const struct nit_server *server, uint32_t x, uint32_t y)
{
    struct nit_view_state right = __real_nit_shown(server, x, y), told = right;
    if (is_planted("nit_shown has another seat") && told.kind == NIT_DONE)
        told.seat = other_seat(server, told.seat);
    if (is_planted("nit_shown tells what stands there"))
        told = __real_nit_owner(server, x, y);
    TELL(told, right);
}

/* ---- Codes and texts. */

uint32_t __wrap_nit_held(const struct nit_server *server, uint32_t place)
{
    bool is = __real_nit_held(server, 1) != NIT_NONE && place < 2;
    if (!is_planted("nit_held tells another code") || !is)
        return __real_nit_held(server, place);
    happens();
    return __real_nit_held(server, place ^ 1);
}

/* `call 0 ..` is `call 1 ..`, and the other way round. */
size_t __wrap_nit_entry(const struct nit_server *server, char *out, size_t room)
{
    size_t length = __real_nit_entry(server, out, room);
    bool is = length > 6 && length <= room && memcmp(out, "call ", 5) == 0
              && (out[5] == '0' || out[5] == '1');
    if (is_planted("nit_entry names another seat") && is) {
        happens();
        out[5] ^= 1;
    }
    return length;
}

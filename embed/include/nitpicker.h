/* Nitpicker as a library: the proved core of a display server, which a host program drives.
 *
 * The host owns the window, the devices and whatever its clients speak. Each thing that it does is
 * one call of this header. No call waits, none calls back, none keeps a pointer, and none but
 * nit_open, nit_open_config, nit_config_line and nit_entry takes memory. There is no global state:
 * servers that stand beside each other know nothing of each other. A call that takes the server as
 * const is a reader: it changes nothing.
 *
 * Words. A word of a pixel is 0x00RRGGBB; the highest byte of a word that a client hands in is
 * ignored, and it is 0 in each word that the screen shows. A server has 1 to 64 seats, numbered
 * from 0, and a client sits on each that is taken; its name says which of the seat's clients it is
 * (nit_client). The rules by which calls and input go are in docs/RULES.md, with seats in the place
 * of sessions: the session of a client is what its seat does from nit_seat to its end.
 *
 * Duties of the host. Nothing tests these; all else that a host can get wrong is answered by name.
 *   1. A handle begins as NIT_CLOSED, and none but this library changes it from then on. It is
 *      never copied; between two calls it may be moved. It is not defined const, nor does it lie
 *      where nothing can be written: a reader leaves its bytes as they are, but may write them.
 *   2. A pointer is not null, also where its count is 0, and is aligned for what it points to.
 *      Behind it lie as many words or bytes as the count says, and those that are read are set.
 *      While a call runs no other thread and no other process writes what it reads, nor reads or
 *      writes what it writes to (`server`, `out`), and that overlaps nothing else that the call
 *      gets. So memory that a client shares is copied first.
 *   3. All calls for one server come from the thread that opened it, and never from a signal
 *      handler or from the child of a fork. Several servers may each have a thread of their own,
 *      where malloc, realloc and free may be called from several threads.
 *   4. malloc, realloc and free are of one allocator, which aligns a block to each power of two
 *      up to 16 that divides its size, as each C library's does. They return, and make no call
 *      of this header.
 *   5. A call has stack enough. Nothing bounds it by proof; by measure (embed/tests/stack.c) an
 *      opening needs less than 64 KB, and any other call less than 16 KB.
 *   6. The header and the archive are of one version: two versions do not link, as long as the
 *      host opens by this header. The machine is an x86-64 one.
 *   7. The words of nit_look are what the screen showed at the last look: as nit_look or
 *      nit_look_anew left them, or with the parts of nit_damage copied to them. Before the first
 *      look, and those of nit_look_anew, they may be any.
 *   8. What a look tells is shown to the user before the next nit_press of a button: a click goes
 *      to the client that the last look showed under the pointer, or is refused (NIT_MOVED). The
 *      parts of nit_damage are copied (nit_copy) and shown before the next call of a client, and
 *      before all else that is no reader. While nit_state says NIT_MODE_KILL it is well to serve no
 *      call of a client but nit_take, to seat none, and to raise and lower nothing: then no click
 *      there is refused behind a look.
 *   9. What speaks for a client calls by the name that nit_seat answered for this client, and by no
 *      other: the host keeps the name, and takes none from a client. What is still under way as the
 *      client leaves or is locked out may come late: a call that names a former client of the seat
 *      is answered NIT_OTHER_CLIENT, and reaches nobody.
 *  10. Each press has its release. The release of a key or a button that the host has lost sight of
 *      (its window lost the keyboard, a device went) is made up; that of a code which is not held
 *      does nothing. nit_held tells what is held, and nit_release_all lets go of it.
 * Where one of 1 to 6 is not kept, anything may happen. Where one of the others is not, each call
 * does what it says, but: without 7 the words are not what the screen shows; without 8 a click may
 * go to another client than the user saw, or lock it out; without 9 a client calls as another one,
 * and is told what is that one's; without 10 all keys, clicks and motions go on to whoever got the
 * press, the focus stays, and the mode keys do nothing.
 */
#ifndef NITPICKER_H
#define NITPICKER_H

#include <stddef.h>
#include <stdint.h>

#ifdef __cplusplus
extern "C" {
#endif

/* The version of this header. The names of the two exports that open end in it. */
#define NIT_VERSION 3

/* ---- The handle */

/* A server, or none. Where `mark` is not the library's own, it is none. Then each call but the two
 * that open leaves it as it is, and answers NIT_NO_SERVER; nit_held answers NIT_NONE, and
 * nit_entry, nit_label and nit_title_at 0. */
struct nit_server {
    void *at;
    uint64_t mark;
};

/* A handle of no server: `struct nit_server server = NIT_CLOSED;` */
#define NIT_CLOSED { NULL, 0 }

/* No seat, where a number of one is answered, and no code. */
#define NIT_NONE UINT32_MAX

/* So many bytes hold the line that nit_entry puts, whatever the step was. */
#define NIT_LINE 128

/* ---- Limits. Those of a configuration's text are lower: docs/FORMATS.md. */

/* The columns and the rows of a screen: 1 to so many. */
#define NIT_MOST_WIDTH 4096
#define NIT_MOST_HEIGHT 4096

/* The seats of a server: 1 to so many. */
#define NIT_MOST_SEATS 64

/* The units of a donation. */
#define NIT_LEAST_UNITS 256
#define NIT_MOST_UNITS 268435456

/* The views of a client. */
#define NIT_MOST_VIEWS 64

/* ---- Clients */

/* The name of a client: turn * 65,536 + seat. The turn counts the clients that have come to the
 * server since it opened, on all its seats, 1 for the first one. Who sat on a seat as it opened, or
 * nobody, has the turn 0, so the seat's number is the name. So a server gives each name once. */
typedef uint64_t nit_client;

/* The seat on which this client sits, or sat. */
static inline uint32_t nit_seat_of(nit_client client)
{
    return (uint32_t)(client & 0xFFFF);
}

/* ---- Answers */

/* What a call answers, in the field `kind` or by itself. But nit_held answers a code, and
 * nit_entry, nit_label and nit_title_at a length. */
enum nit_answer {
    NIT_NO_SERVER = 0,        /* the handle is closed, or was never one of a server */

    /* Served: replies of a client's session. Each is a step, also a refusal. The other calls with
     * an answer of this kind say NIT_DONE where they are done. */
    NIT_DONE = 1,
    NIT_HANDLE = 2,           /* the new view has the handle `handle` */
    NIT_EVENT = 3,            /* `event` was the oldest that waited, and waits no more */
    NIT_NO_EVENT = 4,         /* none waits */
    NIT_NO_SUCH_VIEW = 5,     /* the client has no view of the handle `handle` */
    NIT_BAD_RECT = 6,         /* a number of a rectangle or an offset is out of range; of nit_copy:
                                 it reaches beyond the screen */
    NIT_BAD_SIZE = 7,         /* a side of a buffer is 0 or over 4,096 */
    NIT_BAD_TITLE = 8,        /* over 12 characters, or one that no title has */
    NIT_TOO_MANY_VIEWS = 9,   /* the client has 64 */
    NIT_OUT_OF_QUOTA = 10,    /* `need` units, and `left` are left of the donation */
    NIT_NO_RESERVE = 11,      /* `need` units, and `left` are left of the reserve */
    NIT_SESSION_CLOSED = 12,  /* the client has left, or the seat was never taken */
    NIT_SESSION_KILLED = 13,  /* the user has locked the client out */

    /* Not served: no step, and nothing changed. */
    NIT_NO_SEAT = 32,         /* the server has no seat of this number */
    NIT_SEAT_TAKEN = 33,      /* a client sits there */
    NIT_LABEL_TAKEN = 34,     /* another seat has this label, or had it last; of nit_seat_for: a
                                 client has it, or a free seat of another layer had it last */
    NIT_BAD_LABEL = 35,       /* no label: 1 to 20 of a..z, 0..9, '-', '.', '_' */
    NIT_BAD_TEXT = 36,        /* over 40 bytes, or one that is not 0x20..0x7E */
    NIT_BAD_DEVICE = 37,      /* a code over 767, a place over 65,535, a turn beyond 127 */
    NIT_SHORT_WORDS = 38,     /* fewer words than the client's buffer has */
    NIT_WRONG_FRAME = 39,     /* another number of words than the screen has pixels; of nit_copy:
                                 the words do not hold the part */
    NIT_HANDLES_USED_UP = 40, /* nit_view alone: the client has made 4,294,967,293 views */
    NIT_WORN_OUT = 41,        /* the server has done its 2^62 steps; of nit_seat and nit_seat_for:
                                 it has had its 2^48 - 1 clients */
    NIT_NO_MEMORY = 42,       /* malloc answered NULL */
    NIT_IS_OPEN = 43,         /* the handle has a server */
    NIT_BAD_PLAN = 44,        /* a number of the plan is out of range */
    NIT_MOVED = 45,           /* nit_press alone: the last look showed another client there */
    NIT_OTHER_CLIENT = 46,    /* the seat has another client than this one, or had one last */
    NIT_NO_FREE_SEAT = 47,    /* nit_seat_for alone: no seat of this layer is free */

    /* Refusals of the text of a configuration, in the order of docs/FORMATS.md. */
    NIT_CONFIG_TOO_LONG = 64, /* over 1,048,576 bytes */
    NIT_CONFIG_SYNTAX = 65,
    NIT_CONFIG_KIND = 66,
    NIT_CONFIG_MISSING = 67,
    NIT_CONFIG_UNKNOWN = 68,
    NIT_CONFIG_TOO_MANY = 69,
    NIT_CONFIG_RANGE = 70,
    NIT_CONFIG_LABEL = 71,
    NIT_CONFIG_TWICE = 72
};

/* The name of an answer as text: "NIT_DONE" of NIT_DONE; "unknown" of another number. */
#define NIT_TEXT(name) case name: return #name
static inline const char *nit_text(uint32_t kind)
{
    switch (kind) {
    NIT_TEXT(NIT_NO_SERVER); NIT_TEXT(NIT_DONE); NIT_TEXT(NIT_HANDLE); NIT_TEXT(NIT_EVENT);
    NIT_TEXT(NIT_NO_EVENT); NIT_TEXT(NIT_NO_SUCH_VIEW); NIT_TEXT(NIT_BAD_RECT);
    NIT_TEXT(NIT_BAD_SIZE); NIT_TEXT(NIT_BAD_TITLE); NIT_TEXT(NIT_TOO_MANY_VIEWS);
    NIT_TEXT(NIT_OUT_OF_QUOTA); NIT_TEXT(NIT_NO_RESERVE); NIT_TEXT(NIT_SESSION_CLOSED);
    NIT_TEXT(NIT_SESSION_KILLED); NIT_TEXT(NIT_NO_SEAT); NIT_TEXT(NIT_SEAT_TAKEN);
    NIT_TEXT(NIT_LABEL_TAKEN); NIT_TEXT(NIT_BAD_LABEL); NIT_TEXT(NIT_BAD_TEXT);
    NIT_TEXT(NIT_BAD_DEVICE); NIT_TEXT(NIT_SHORT_WORDS); NIT_TEXT(NIT_WRONG_FRAME);
    NIT_TEXT(NIT_HANDLES_USED_UP); NIT_TEXT(NIT_WORN_OUT); NIT_TEXT(NIT_NO_MEMORY);
    NIT_TEXT(NIT_IS_OPEN); NIT_TEXT(NIT_BAD_PLAN); NIT_TEXT(NIT_MOVED); NIT_TEXT(NIT_OTHER_CLIENT);
    NIT_TEXT(NIT_NO_FREE_SEAT); NIT_TEXT(NIT_CONFIG_TOO_LONG); NIT_TEXT(NIT_CONFIG_SYNTAX);
    NIT_TEXT(NIT_CONFIG_KIND); NIT_TEXT(NIT_CONFIG_MISSING); NIT_TEXT(NIT_CONFIG_UNKNOWN);
    NIT_TEXT(NIT_CONFIG_TOO_MANY); NIT_TEXT(NIT_CONFIG_RANGE); NIT_TEXT(NIT_CONFIG_LABEL);
    NIT_TEXT(NIT_CONFIG_TWICE);
    default: return "unknown";
    }
}
#undef NIT_TEXT

/* What a client is told, or what becomes of it. */
enum nit_event_kind {
    NIT_NOTHING = 0,
    NIT_PRESS = 1,            /* `code` */
    NIT_RELEASE = 2,          /* `code` */
    NIT_MOTION = 3,           /* `x`, `y`: the pointer's place on the screen */
    NIT_WHEEL = 4,            /* `turn` */
    NIT_LEAVE = 5,            /* at a motion or a turn the pointer is elsewhere, or a mode began */
    NIT_FOCUS_ENTER = 6,
    NIT_FOCUS_LEAVE = 7,
    NIT_KILL = 8              /* in a delivery alone: the user has locked the client out */
};

/* An event. A field that its kind does not name is 0. */
struct nit_event {
    uint32_t kind;            /* enum nit_event_kind */
    uint32_t code;            /* a key's or button's, 0..767, as in Linux's input-event-codes.h */
    uint16_t x, y;            /* a column and a row of the screen, from 0 */
    int32_t turn;             /* -127..127 */
};

/* The answer where a client sits down. All but `kind` is 0 where it says another than NIT_DONE. */
struct nit_seated {
    uint32_t kind;            /* enum nit_answer */
    uint32_t seat;
    nit_client client;        /* who sits there now; 0 of nit_seat_for */
    uint64_t zero;            /* 0 */
};

/* The answer to a client's call. A field that its kind does not name is 0. */
struct nit_reply {
    uint32_t kind;            /* enum nit_answer */
    uint32_t handle;          /* of a view, from 1 */
    struct nit_event event;
    uint64_t need, left;      /* in units: a view costs 256, a word of a buffer 8 */
};

/* Whom one thing that the user did went to: the client that sits on this seat, or that the user
 * has just locked out there. */
struct nit_delivery {
    uint32_t seat;
    struct nit_event event;
};

/* The answer to what the user did. It went to the first `count` of `to`, in their order; the
 * others are 0. An event waits at its seat until nit_take, or until its client leaves or is locked
 * out; unless 64 wait there already: then it is lost, and stands here all the same. Behind NIT_KILL
 * the seat is free: what speaks for its client speaks for nobody any more. A lock-out is no ban: a
 * client of the same label may sit down again. A host that wants a ban keeps the label. */
struct nit_routed {
    uint32_t kind;            /* NIT_DONE, NIT_NO_SERVER, NIT_BAD_DEVICE, NIT_MOVED, NIT_WORN_OUT */
    uint32_t count;           /* 0..3 */
    struct nit_delivery to[3];
};

/* The part of the screen that a look changed: x <= column < x + w, y <= row < y + h. */
struct nit_rect {
    uint32_t kind;            /* NIT_DONE, NIT_NO_SERVER, NIT_WRONG_FRAME */
    uint32_t x, y, w, h;      /* all 0 where nothing changed */
};

/* A part of the screen. */
struct nit_part {
    uint32_t x, y, w, h;      /* x <= column < x + w, y <= row < y + h */
};

/* What may have changed on the screen: the first `count` of `part`; the others are 0. */
struct nit_damage {
    uint32_t kind;            /* NIT_DONE, NIT_NO_SERVER */
    uint32_t count;           /* 0..16 */
    struct nit_part part[16];
};

/* How the screen is shown. */
enum nit_mode { NIT_MODE_FLAT = 0, NIT_MODE_XRAY = 1, NIT_MODE_KILL = 2 };

/* What can be read of a server. All but `kind` is 0 where there is none. */
struct nit_state {
    uint32_t kind;            /* NIT_DONE, NIT_NO_SERVER */
    uint32_t width, height;   /* of the screen, in pixels */
    uint32_t seats;           /* how many, 1..64 */
    uint32_t mode;            /* enum nit_mode */
    uint32_t focus;           /* the seat that has the focus, or NIT_NONE */
    uint32_t hover;           /* the seat that gets `leave` when the pointer goes, or NIT_NONE */
    uint32_t x, y;            /* the pointer's place on the screen */
    uint32_t receiver;        /* the seat that gets what goes down and up while a code is held, or
                                 NIT_NONE */
};

/* Whether a client sits on a seat. */
enum nit_status { NIT_SEAT_NONE = 0, NIT_SEAT_LIVE = 1, NIT_SEAT_CLOSED = 2, NIT_SEAT_KILLED = 3 };

/* What can be read of a seat. All but `kind` is 0 where there is none. A seat that was never taken
 * is closed. */
struct nit_seat_state {
    uint32_t kind;            /* NIT_DONE, NIT_NO_SERVER, NIT_NO_SEAT */
    uint32_t status;          /* enum nit_status: taken where it is live, and free else */
    uint32_t waiting;         /* how many events wait, 0..64 */
    uint32_t zero;            /* 0 */
    uint64_t lost;            /* how many were lost since the seat was taken */
    nit_client client;        /* who sits there, or sat there last */
};

/* What a seat's client has. All but `kind` is 0 where there is none. */
struct nit_account {
    uint32_t kind;            /* NIT_DONE, NIT_NO_SERVER, NIT_NO_SEAT */
    uint32_t layer;           /* of its views, 0..7 */
    uint32_t donation;        /* in units: 256 go to each view, 8 to each word of the buffer */
    uint32_t reserve;         /* in units: what nit_upgrade may still add */
    uint32_t width, height;   /* of its buffer, in words: 0 before it has one */
};

/* A view. All but `kind` is 0 where there is none. */
struct nit_view_state {
    uint32_t kind;            /* NIT_DONE, NIT_NO_SERVER, NIT_NO_SUCH_VIEW */
    uint32_t seat, view;      /* whose it is, and its handle */
    int32_t x, y;             /* its rectangle, which may reach beyond the screen */
    uint32_t w, h;
    int32_t offset_x, offset_y;
};

/* ---- Opening and closing a server */

/* A seat, as long as the server stands. Whoever sits there may use `donation` units, and as many
 * again by nit_upgrade, but in all never more than 8,388,608, or 268,435,456 where the donation is
 * over 8,388,608 itself: so a donation of just 8,388,608 cannot be upgraded. A buffer of W by H
 * costs 8 * W * H units. Its views stand in `layer`. */
struct nit_seat_plan {
    uint32_t donation;        /* 256..268,435,456 units */
    uint32_t layer;           /* 0..7; 0 is the front-most */
    uint32_t clicks;          /* 1: a click on a view gives its client the focus; 0: none does */
};

/* A server. A field that is not named in an initializer is 0, so texts are small and plain there.
 *
 * The picture of a text of n characters is scale * (4 * n + 1) pixels wide and scale * 7 high in
 * small glyphs, and scale * (6 * n + 1) wide and scale * 9 high in large ones. A label is such a
 * picture; the status bar is as high, and as wide as the screen. */
struct nit_plan {
    uint32_t width, height;   /* of the screen: 1..4096 pixels each */
    uint32_t bar;             /* 1: the topmost rows are a status bar, and one is left; or 0 */
    uint32_t count;           /* of the seats, 1..64 */
    const struct nit_seat_plan *seats;
    uint32_t glyphs;          /* 0: small ones, of 3 by 5 dots; 1: large ones, of 5 by 7 dots, any
                                 two of which differ in at least five dots */
    uint32_t scale;           /* a dot is so many pixels wide and high: 1..8; 0 is as 1 */
};

/* The exports behind the next two calls. A host calls those. Of the first, `seats` has three words
 * for each seat, donation, layer and clicks, and a scale of 0 is refused. */
uint32_t nit_open_seats_3(struct nit_server *server, uint32_t width, uint32_t height, uint32_t bar,
                          uint32_t glyphs, uint32_t scale, const uint32_t *seats, size_t words);
uint32_t nit_open_config_3(struct nit_server *server, const char *text, size_t length);

/* Opens a server by a plan. Its seats are all free.
 *
 * All memory that the server will ever use is taken here, but for nit_entry's: up to 770 KB; for
 * each pixel of the screen 10 bytes, of which 4 are written at once, 4 where X-ray or kill mode is
 * first shown, and 2 where that has more than 16 views; and for each seat as many as its donation
 * has units, at most 4 MiB, or 128 MiB where that is over 8,388,608: these are written as far as
 * clients hand in words. So it is at most 8,352 MiB and these 770 KB.
 *
 * Answers NIT_DONE; and the first that applies of NIT_IS_OPEN, NIT_BAD_PLAN, NIT_NO_MEMORY: then
 * the handle is as it was before. */
static inline uint32_t nit_open(struct nit_server *server, const struct nit_plan *plan)
{
    uint32_t seats[3 * NIT_MOST_SEATS] = { 0 };
    uint32_t count = plan->count <= NIT_MOST_SEATS ? plan->count : 0;
    uint32_t scale = plan->scale == 0 ? 1 : plan->scale;
    for (uint32_t k = 0; k < count; k++) {
        seats[3 * k] = plan->seats[k].donation;
        seats[3 * k + 1] = plan->seats[k].layer;
        seats[3 * k + 2] = plan->seats[k].clicks;
    }
    return nit_open_seats_3(server, plan->width, plan->height, plan->bar, plan->glyphs, scale,
                            seats, 3 * (size_t)count);
}

/* Opens a server by the text of a configuration (docs/FORMATS.md), which is UTF-8 and ends by its
 * length. Its clients sit on the seats from the start, in their order, so each has its seat's
 * number as its name; the names of scripts are read, and stand for nothing. Its texts have small
 * glyphs, and dots of one pixel.
 * Answers NIT_DONE; and the first that applies of NIT_IS_OPEN, NIT_CONFIG_TOO_LONG, NIT_NO_MEMORY
 * at any point of reading, the other refusals of a configuration, NIT_NO_MEMORY: then the handle
 * is as it was before. */
static inline uint32_t nit_open_config(struct nit_server *server, const char *text, size_t length)
{
    return nit_open_config_3(server, text, length);
}

/* The line, counted from 1, in which a text of at most 1,048,576 bytes stops being TOML: where
 * nit_open_config answers NIT_CONFIG_SYNTAX, a person looks there first. 0 where the text is TOML,
 * whatever else refuses it; NIT_NONE where it is longer or memory runs out. What memory it takes it
 * frees again. */
uint32_t nit_config_line(const char *text, size_t length);

/* Frees all of a server, whoever sits there. The handle is NIT_CLOSED then, and may be opened
 * again.
 * Answers NIT_DONE, NIT_NO_SERVER. */
uint32_t nit_close(struct nit_server *server);

/* ---- Seats */

/* A new client sits down on a free seat, and gets its name. Its label is written where the user has
 * to know whom a view belongs to. It has no view, no buffer and no event, and has lost none; the
 * donation of the seat is as in the plan, its next view has the handle 1, and all words that it has
 * not handed in yet are 0. Nothing of an earlier client of the seat is left. A seat of a plan that
 * was never taken has its number as a label, by two digits to the base 16: `.00` to `.3f`.
 * Answers NIT_DONE with the seat and the client; and the first that applies of NIT_NO_SERVER,
 * NIT_NO_SEAT, NIT_BAD_LABEL, NIT_SEAT_TAKEN, NIT_LABEL_TAKEN, NIT_WORN_OUT (it has had its
 * 2^48 - 1 clients). */
struct nit_seated nit_seat(struct nit_server *server, uint32_t seat, const char *label,
                           size_t length);

/* The seat that takes a new client of this label in this layer: the free one of the layer that had
 * the label last, else the first free one of the layer, whatever its donation and clicks are. So
 * nit_seat on the answer is done, and where there is none, it is done on no seat of this layer.
 * Answers NIT_DONE with the seat, and no client; and the first that applies of NIT_NO_SERVER,
 * NIT_BAD_LABEL, NIT_LABEL_TAKEN (a client that sits has the label, or a free seat of another layer
 * had it last: no other seat takes it), NIT_NO_FREE_SEAT (no seat of this layer is free; none has a
 * layer over 7), NIT_WORN_OUT. A client that the user has locked out gets its seat again so: a host
 * that wants a ban keeps the label. */
struct nit_seated nit_seat_for(const struct nit_server *server, const char *label, size_t length,
                               uint32_t layer);

/* ---- Calls of a client
 *
 * The client `client` asks for this. Where one of these applies, the first of them is answered, and
 * its session is not asked: NIT_NO_SERVER, NIT_NO_SEAT, NIT_OTHER_CLIENT, NIT_HANDLES_USED_UP (of
 * nit_view), NIT_SHORT_WORDS (of nit_refresh), NIT_WORN_OUT, NIT_BAD_TEXT (of nit_title). Else it
 * is a step, and the answer is the reply of docs/RULES.md; for a refusal the first that applies of
 * NIT_SESSION_CLOSED or NIT_SESSION_KILLED, NIT_NO_SUCH_VIEW, NIT_BAD_RECT, NIT_BAD_SIZE,
 * NIT_BAD_TITLE, NIT_TOO_MANY_VIEWS, NIT_OUT_OF_QUOTA, NIT_NO_RESERVE. Any number may be handed
 * in. A client that left or was locked out keeps its name until the next one sits down there: until
 * then its calls answer NIT_SESSION_CLOSED or NIT_SESSION_KILLED, and NIT_OTHER_CLIENT from then
 * on. Where nobody sat down yet, the seat's number is a name that answers NIT_SESSION_CLOSED. */

/* The client's buffer has this width and height, in words, each 1..4096. A word stays by its
 * index, which is row * w + column, whatever w was before, and is 0 until it is handed in. So a
 * client refreshes all of its buffer next. (The line `buffer` of a script sets its words to 0.) */
struct nit_reply nit_buffer(struct nit_server *server, nit_client client, uint32_t w, uint32_t h);

/* A new view, in front of its layer, with the rectangle (0, 0, 0, 0). Answers NIT_HANDLE, or
 * NIT_HANDLES_USED_UP where no more can be made: nit_leave and nit_seat begin anew. */
struct nit_reply nit_view(struct nit_server *server, nit_client client);

/* The view has this rectangle of the screen; x and y -32768..32767, w and h 0..32767. */
struct nit_reply nit_place(struct nit_server *server, nit_client client, uint32_t view,
                           int32_t x, int32_t y, uint32_t w, uint32_t h);

/* The view shows the buffer moved by this many columns and rows, each -32768..32767. */
struct nit_reply nit_offset(struct nit_server *server, nit_client client, uint32_t view,
                            int32_t x, int32_t y);

/* The view stands in front of all of its layer. */
struct nit_reply nit_front(struct nit_server *server, nit_client client, uint32_t view);

/* The view stands behind all of its layer. */
struct nit_reply nit_back(struct nit_server *server, nit_client client, uint32_t view);

/* The view stands directly in front of `other`, which is one of the client's too. Nothing changes
 * where the two are the same. */
struct nit_reply nit_above(struct nit_server *server, nit_client client, uint32_t view,
                           uint32_t other);

/* The view has this title, 0 to 12 of a..z, 0..9, '-', '.', '_' and the space.
 * NIT_BAD_TEXT: the bytes are no text, so its session is not asked. */
struct nit_reply nit_title(struct nit_server *server, nit_client client, uint32_t view,
                           const char *text, size_t length);

/* The view is gone. */
struct nit_reply nit_destroy(struct nit_server *server, nit_client client, uint32_t view);

/* Takes the oldest event that waits. Answers NIT_EVENT, NIT_NO_EVENT. */
struct nit_reply nit_take(struct nit_server *server, nit_client client);

/* So many units of the client's reserve become donation. */
struct nit_reply nit_upgrade(struct nit_server *server, nit_client client, uint32_t units);

/* The client leaves. Its views, its buffer and the events that wait for it are gone, and its seat
 * is free. */
struct nit_reply nit_leave(struct nit_server *server, nit_client client);

/* What the client has drawn in this part of its buffer is shown: x and y -32768..32767, w and h
 * 0..32767. `words` has the words of its whole buffer, row by row from the top, each row as wide as
 * the buffer, and `count` is at least their number. Those of the part are read, during the call
 * alone, and kept: each by its index is what the screen shows of this client, whoever moves or
 * closes a view above, until it refreshes that index again or leaves. No other word is read. A
 * reply but NIT_DONE keeps nothing.
 * NIT_SHORT_WORDS: `count` is below the number of words of the buffer, so its session is not asked.
 */
struct nit_reply nit_refresh(struct nit_server *server, nit_client client, int32_t x, int32_t y,
                             uint32_t w, uint32_t h, const uint32_t *words, size_t count);

/* ---- The user
 *
 * Each of the first four, which are the devices, answers the first that applies of NIT_NO_SERVER,
 * NIT_BAD_DEVICE, NIT_MOVED (of nit_press), NIT_WORN_OUT; else it is a step, NIT_DONE. 70 is the
 * X-ray key and 99 the kill key; codes 272..279 are buttons. */

/* A key or a button goes down; 0..767.
 * NIT_MOVED: a button, while nothing is held, where the client under the pointer is not the one
 * that the last look showed there; before the first look none was shown. So a click goes to the
 * client that the user saw, in each mode. Look again and show that, and let the user click again;
 * the release of the first click does nothing. A client that may stand in front of another can
 * have the clicks on that one refused again and again, but not while no client is served. */
struct nit_routed nit_press(struct nit_server *server, uint32_t code);

/* It goes up. */
struct nit_routed nit_release(struct nit_server *server, uint32_t code);

/* The pointer moves to this column and row, each 0..65535, or to the last one of the screen where
 * that is past the edge. */
struct nit_routed nit_motion(struct nit_server *server, uint32_t x, uint32_t y);

/* The wheel turns by -127..127. */
struct nit_routed nit_wheel(struct nit_server *server, int32_t turn);

/* The user wants this view in front of all of its layer, as by a click on its frame. It is no call
 * of the client: this is told nothing, and its replies and events are as they would be without it.
 * No view changes its layer. nit_entry tells nothing behind it.
 * Answers NIT_DONE; and the first that applies of NIT_NO_SERVER, NIT_NO_SEAT, NIT_OTHER_CLIENT,
 * NIT_NO_SUCH_VIEW, NIT_WORN_OUT: then nothing changed. */
uint32_t nit_raise(struct nit_server *server, nit_client client, uint32_t view);

/* The user wants it behind all of its layer. It answers, and is, as nit_raise. */
uint32_t nit_lower(struct nit_server *server, nit_client client, uint32_t view);

/* ---- Looking */

/* Brings `out`, which has `count` words, width times height, row by row from the top, up to date
 * with what the screen shows, and answers the least rectangle outside of which no word changed.
 *
 * The words have to be as the last look left them; before the first look they may be any. Then they
 * are what the screen shows, and the rectangle has just what changed since. That of the first look
 * has what was not so by chance, and may be empty: show all words after it. Of other words only
 * those in the rectangle are surely so, for what cannot have changed is not looked at: a host that
 * shows its frame in two places copies it there. A look at a wrong number of words is none. */
struct nit_rect nit_look(struct nit_server *server, uint32_t *out, size_t count);

/* A look at words that may be any: of a host that has lost what the last look left. They are what
 * the screen shows then, and the rectangle is the least outside of which none was another. */
struct nit_rect nit_look_anew(struct nit_server *server, uint32_t *out, size_t count);

/* A look without the copying: the parts of the screen in which pixels may have changed since the
 * last look, of whichever kind. Each has a pixel and is within the screen, no two of them meet, and
 * all that changed lies in them; those of the first look hold the whole screen. It is a look as
 * nit_look is: a click goes by it from now on (NIT_MOVED), and the next look tells what changed
 * since. So the host copies the parts with nit_copy, and shows them, as duties 7 and 8 say. */
struct nit_damage nit_damage(struct nit_server *server);

/* Puts the words of this part of the screen, as it is now: that of column x + c and row y + r at
 * out[r * pitch + c]. No other word of `out` changes, whatever is answered. It is no look, and
 * nothing that a call answers changes by it. But where the frame has to be made it is made here,
 * so the server is not const.
 * Answers NIT_DONE, also where w or h is 0: then nothing is put; and the first that applies of
 * NIT_NO_SERVER, NIT_BAD_RECT (x + w is over the screen's width, or y + h over its height),
 * NIT_WRONG_FRAME (the part has pixels, and w is over `pitch` where h is over 1, or
 * (h - 1) * pitch + w is over `count`). */
uint32_t nit_copy(struct nit_server *server, uint32_t x, uint32_t y, uint32_t w, uint32_t h,
                  uint32_t *out, size_t count, size_t pitch);

/* ---- Reading */

/* What can be read of the server. */
struct nit_state nit_state(const struct nit_server *server);

/* What can be read of a seat. */
struct nit_seat_state nit_seat_state(const struct nit_server *server, uint32_t seat);

/* What a seat's client has, and what is left. What it has of the donation is
 * donation - 256 * views - 8 * width * height. */
struct nit_account nit_account(const struct nit_server *server, uint32_t seat);

/* Puts the label of a seat's client, or at a free seat the one that waits there, at the head of
 * `out`, where its `room` bytes hold it, and answers how many bytes it has, 1..20. Where they do
 * not, nothing is put. 0 where there is no server or no seat. */
size_t nit_label(const struct nit_server *server, uint32_t seat, char *out, size_t room);

/* The view at a place among all, 0 the front-most one. So a host that asks until it is told
 * NIT_NO_SUCH_VIEW has the views of each client, from front to rear. */
struct nit_view_state nit_view_at(const struct nit_server *server, uint32_t place);

/* The title of that view, put and counted as a label is: 0..12 bytes, 0 where there is no view. */
size_t nit_title_at(const struct nit_server *server, uint32_t place, char *out, size_t room);

/* The view that owns the pixel in this column and row, as the server stands: the front-most one
 * that covers it. None has a pixel of the bar, or one that is not on the screen. It shows the word
 * of its client's buffer in column x - view.x - offset_x and row y - view.y - offset_y. */
struct nit_view_state nit_owner(const struct nit_server *server, uint32_t x, uint32_t y);

/* The view that owned this pixel as the last look had it, of whichever kind: with the seat, the
 * handle, the rectangle and the offset of then, whoever sits there now. None before the first look,
 * and none has a pixel of the bar, or one that is not on the screen. */
struct nit_view_state nit_shown(const struct nit_server *server, uint32_t x, uint32_t y);

/* The code at a place among those that are held, 0 the one that went down first; NIT_NONE where no
 * more are held. */
uint32_t nit_held(const struct nit_server *server, uint32_t place);

/* Lets go of all that is held, each by a step of its own: when the host has lost sight of them. */
static inline void nit_release_all(struct nit_server *server)
{
    uint32_t code;
    while ((code = nit_held(server, 0)) != NIT_NONE
           && nit_release(server, code).kind == NIT_DONE) {
    }
}

/* Puts the last step as a line of docs/FORMATS.md's journal, with its line feed, at the head of
 * `out`, where its `room` bytes hold it, and answers how many bytes the line has. Where they do
 * not, nothing is put. 0 where there is no step to tell: no server, none done yet, or a client sat
 * down or the user restacked since. SIZE_MAX where memory ran out: this call takes some for its
 * time. */
size_t nit_entry(const struct nit_server *server, char *out, size_t room);

/* ---- How many bytes the structs have: those of their fields, and no other */

#ifdef __cplusplus
#define NIT_BYTES(type, bytes) static_assert(sizeof(type) == (bytes), #type)
#else
#define NIT_BYTES(type, bytes) _Static_assert(sizeof(type) == (bytes), #type)
#endif
NIT_BYTES(struct nit_server, 16);
NIT_BYTES(struct nit_event, 16);
NIT_BYTES(struct nit_seated, 24);
NIT_BYTES(struct nit_reply, 40);
NIT_BYTES(struct nit_delivery, 20);
NIT_BYTES(struct nit_routed, 68);
NIT_BYTES(struct nit_rect, 20);
NIT_BYTES(struct nit_state, 40);
NIT_BYTES(struct nit_part, 16);
NIT_BYTES(struct nit_damage, 264);
NIT_BYTES(struct nit_seat_state, 32);
NIT_BYTES(struct nit_account, 24);
NIT_BYTES(struct nit_view_state, 36);
NIT_BYTES(struct nit_seat_plan, 12);
NIT_BYTES(struct nit_plan, 32);
#undef NIT_BYTES

#ifdef __cplusplus
}
#endif
#endif

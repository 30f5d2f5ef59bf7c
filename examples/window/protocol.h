/* What a client and the host say to each other: PROTOCOL.md as C. Numbers are the machine's own. */
#ifndef PROTOCOL_H
#define PROTOCOL_H

#include <stdint.h>

/* A client begins with these descriptors. */
enum {
    PROTOCOL_SOCKET = 3, /* what the host says is read here; nothing can be sent */
    PROTOCOL_BELL = 4,   /* an eventfd: 1 is added for each call */
    PROTOCOL_MEMORY = 5  /* a memfd of PROTOCOL_BYTES bytes */
};

/* The memory: the calls, each in its turn at the place behind the one before, the next after the
 * last place in the first one; and from PROTOCOL_PIXELS on the words of the buffer. */
enum {
    PROTOCOL_CALLS = 64,
    PROTOCOL_PIXELS = 4096,
    PROTOCOL_WORDS = 16777216,
    PROTOCOL_BYTES = PROTOCOL_PIXELS + 4 * PROTOCOL_WORDS
};

/* What a client may ask for. */
enum protocol_call {
    CALL_BUFFER = 1,   /* w, h */
    CALL_VIEW = 2,
    CALL_PLACE = 3,    /* view, x, y, w, h */
    CALL_OFFSET = 4,   /* view, x, y */
    CALL_FRONT = 5,    /* view */
    CALL_BACK = 6,     /* view */
    CALL_ABOVE = 7,    /* view; number is the other view */
    CALL_TITLE = 8,    /* view, title */
    CALL_DESTROY = 9,  /* view */
    CALL_REFRESH = 10, /* x, y, w, h */
    CALL_TAKE = 11,
    CALL_UPGRADE = 12, /* number is that of units */
    CALL_LAST = CALL_UPGRADE
};

/* The kind of a message that replies to no call: events wait, so take them. */
enum { PROTOCOL_WOKEN = 128 };

/* From a client: 48 bytes. */
struct call {
    uint32_t call;
    uint32_t view;
    int32_t x, y;
    uint32_t w, h;
    uint32_t number;
    char title[20]; /* ends at its first 0 */
};

/* From the host: a message of 48 bytes. */
struct reply {
    uint32_t kind; /* enum nit_answer of nitpicker.h, or PROTOCOL_WOKEN */
    uint32_t handle;
    uint32_t event; /* enum nit_event_kind */
    uint32_t code;
    uint32_t x, y;
    int32_t turn;
    uint32_t unused; /* 0 */
    uint64_t need, left;
};

#endif

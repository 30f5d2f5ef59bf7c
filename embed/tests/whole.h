/* All that can be read of a small server, to be compared. */
#ifndef WHOLE_H
#define WHOLE_H

#include "parts.h"

/* The screen has at most 64 by 32 pixels, 32 views stand at most, and 7 codes are held at most. */
struct whole {
    struct nit_state state;
    struct nit_seat_state seat[NIT_MOST_SEATS];
    struct nit_account account[NIT_MOST_SEATS];
    char label[NIT_MOST_SEATS][20], title[33][12], line[NIT_LINE];
    struct nit_view_state view[33];
    uint32_t held[8], frame[64 * 32];
    size_t length;
};

/* Reads it; nothing changes by that. */
void read_whole(struct nit_server *server, struct whole *whole);

/* That all is as it was. */
#define UNCHANGED(server, was) is_unchanged((server), (was), __FILE__, __LINE__)
void is_unchanged(struct nit_server *server, const struct whole *was, const char *file, int line);

#endif

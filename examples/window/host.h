/* The parts of this host beside those that each has (shared.h). It is an example and not proved:
 * see window.c. */
#ifndef HOST_H
#define HOST_H

#include "shared.h"

enum {
    LABEL = 20,              /* bytes of the longest label */
    FRONT = 0, REST = 1,     /* the layers: that of the mark ^, and that of all others */
    DONATION = 4194304,      /* units of each seat at least */
    MOST_WORDS = 16777216,   /* of a buffer, whatever is donated: a side has at most 4096 */
    SLICE = 1000             /* microseconds for the calls of a client, which rests then */
};

/* Who sits on a seat. Nobody does where `socket` is 0. */
struct client {
    nit_client name;         /* which client of its seat it is: each of its calls says so */
    int socket;              /* takes replies away, and brings nothing */
    int bell;                /* an eventfd: as many calls wait */
    int memory;              /* a memfd: the client's calls and pixels */
    uint32_t call;           /* the number of the next call */
    pid_t process;           /* 0 where it has ended already */
    uint32_t w, h;           /* of its buffer */
    bool woken;              /* it was told that events wait, and has not found none since */
    char gone[40];           /* where not empty: why it is closed as soon as calls are served */
    bool stirred;            /* since the last look it has called what the next may cost all for */
    uint64_t rest;           /* it has used up its slice, and is not served before */
};

extern struct client clients[SEATS];

/* In seats.c and calls.c. */
const char *seats_start(const char *word, uint32_t layer);
void seats_close(uint32_t seat, const char *why);
void seats_left(struct client *client);
void seats_reap(void);
void calls_serve(void);
void calls_pay(uint64_t used);

#endif

/* What the parts of the test `storm` share. */
#ifndef STORM_H
#define STORM_H

#include "letters.h"
#include "parts.h"

/* The sides of most screens, those of the largest one, and the words of the largest buffer. */
enum { SIDE = 64, MOST_SIDE = 4096, MOST_WORDS = MOST_SIDE * MOST_SIDE };

/* The views of as many clients as there are labels, and the codes of keys and buttons. */
enum { STANDING = 5 * NIT_MOST_VIEWS, CODES = 768 };

/* The most words that a part is copied to. */
enum { SCRATCH = 1 << 14 };

/* A view's rectangle and offset, and whose it is. */
struct placed {
    nit_client client;
    uint32_t handle;
    int32_t x, y;
    uint32_t w, h;
    int32_t across, down;
};

/* Views, front first. */
struct stack {
    uint32_t count;
    struct placed views[STANDING];
};

/* The server, what the host remembers of it, and the memory that it lends: its size, below what
 * most numbers are, and how many words are lent; how many servers there were; the label of each
 * seat as a number, the name of its client and this one's last view; how many clients have come;
 * which kinds of replies there were; the text of the last step; for clicks, how views stand, how
 * the last look showed them, and which codes are held; and for texts, how they are drawn, how many
 * rows the status bar has, and how many labels were found. */
struct storm {
    struct random random;
    struct nit_server server;
    uint32_t width, height, seats, side, room, servers;
    int label[NIT_MOST_SEATS];
    nit_client client[NIT_MOST_SEATS];
    uint64_t turns;
    uint32_t handle[NIT_MOST_SEATS];
    uint64_t seen;
    uint32_t *words, *frame, *other, *scratch; /* but for `other` they end where memory ends */
    char line[NIT_LINE];
    size_t length;
    struct stack standing, shown;
    uint32_t layer[NIT_MOST_SEATS], bar;
    bool is_held[CODES];
    struct letters letters;
    uint64_t labels;
};

/* Random numbers: below `most`, one of any size, and a client that mostly sits there. */
uint32_t below(struct storm *s, uint32_t most);
uint32_t any(struct storm *s);
nit_client any_client(struct storm *s);

/* Mostly one of the last views that the client made. */
uint32_t any_view(struct storm *s, nit_client client);

/* Whether the seat has this client, or had it last. */
bool is_its_own(const struct storm *s, nit_client client);

/* Looks that the text of the last step is another one that begins so, or the same as before. */
void told(struct storm *s, bool is_served, const char *begins);

/* A random call of a client, and something random that the user does: storm_calls.c. */
void client_calls(struct storm *s);
void user_does(struct storm *s);

/* The user raises or lowers a view: storm_calls.c. */
void user_restacks(struct storm *s);

/* Random looks and copies, and what has to hold of them: storm_looks.c. */
void looks(struct storm *s);
void copies(struct storm *s);

/* The status bar and the labels are on the screen, which was looked at: storm_texts.c. */
void shows_texts(struct storm *s);

/* Calls whose effect on clicks is followed, and what else has one: storm_shown.c. `to` of a place
 * names its view by the handle. It is checked that a press is refused where it has to be. */
void shown_opens(struct storm *s);
struct nit_reply shown_view(struct storm *s, nit_client client);
struct nit_reply shown_place(struct storm *s, struct placed to);
struct nit_reply shown_offset(struct storm *s, struct placed to);
struct nit_reply shown_moved(struct storm *s, nit_client client, uint32_t handle, bool is_front);
uint32_t shown_restacked(struct storm *s, nit_client client, uint32_t handle, bool is_front);
struct nit_reply shown_above(struct storm *s, nit_client client, uint32_t handle, uint32_t other);
struct nit_reply shown_destroy(struct storm *s, nit_client client, uint32_t handle);
void shown_gone(struct storm *s, nit_client client);
struct nit_rect shown_look(struct storm *s);
void whole_look(struct storm *s);
void shown_damage(struct storm *s);
uint32_t shown_held(const struct storm *s);
const struct placed *shown_owner(const struct storm *s, struct nit_state state);
struct nit_routed shown_press(struct storm *s, uint32_t code);
struct nit_routed shown_release(struct storm *s, uint32_t code);

#endif

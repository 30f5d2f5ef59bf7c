/* The parts of the host, which is an example and not proved: see desk.c. */
#ifndef DESK_H
#define DESK_H

#include "shared.h"
#include <wayland-server.h>
#include <xdg-shell.h>
#include <xdg-decoration.h>
#include <xkbcommon/xkbcommon.h>
#include <requests.h>

enum {
    PROGRAMS = 16,
    LABEL = 21,               /* a label and its 0 */
    LAYER = 1,
    BAR = 7,                  /* rows of the status bar */
    SURFACES = NIT_MOST_VIEWS, /* of a client */
    LEAST_W = 136,            /* of a window: its label has room, and a click finds it */
    LEAST_H = 24,
    BARE = 0x20,              /* the bare screen's word */
    LEFT_BUTTON = 272,
    MOVE_KEY = 125            /* the left logo key: with a button held it moves a window */
};

/* What an interface of Wayland does: its requests by their numbers, the beginning and the end of an
 * object. What is 0 is nothing. */
struct kind {
    const struct wl_interface *interface;
    void (*request)(struct wl_resource *self, uint32_t number, union wl_argument *with);
    void (*begun)(struct wl_resource *self), (*gone)(struct wl_resource *self);
    size_t size;              /* of data that each object has for itself, which are 0 at first */
    size_t list;              /* where the client has its list of such objects */
};

struct box {
    int32_t x, y, w, h;
};

/* A buffer of a client, as long as it is there. */
struct held {
    struct wl_resource *buffer;
    struct wl_listener gone;
};

/* The words of a client: rows in a file. */
struct buffer {
    struct pool *pool;
    int32_t offset, w, h, stride;
    bool opaque;
};

enum role { NO_ROLE, TOPLEVEL, POPUP, SUBSURFACE, CURSOR };

/* What requests have set, and does not hold yet. */
struct state {
    struct held buffer;
    bool attached;
    struct box damage, geometry, input;
    struct wl_list frames;
};

struct surface {
    struct wl_resource *self, *shell, *as; /* wl_surface, xdg_surface, and the object of the role */
    struct client *client;
    struct wl_list link;      /* in the client's surfaces, the newest first */
    enum role role;
    struct state next, committed; /* until it is committed, and until it holds from then on */

    int32_t w, h;             /* of its last buffer; 0 where it has none */
    struct box geometry, input;
    struct box crop;          /* the part that is shown, in its own places */
    int32_t need_w, need_h;   /* the room that this needs in the client's atlas, */
    struct box room;          /* and the room that it has, or none */
    struct held held;         /* its last buffer, until it is published */
    struct box stale;         /* the part that is to be copied from it */
    bool filled, retitled;    /* what is to be done besides */
    bool cramped;             /* it has found no room */
    uint32_t view;            /* its handle, or 0 */
    struct box shown, from;   /* as the view was placed last */
    uint32_t below;           /* the view that it was put in front of last */

    struct surface *parent;   /* of a popup or a subsurface */
    struct wl_list children, sibling; /* the rear-most first */
    struct wl_list order, place; /* its subsurfaces, as they stand from its next state on */
    int32_t x, y;             /* on the screen, or in the parent */
    int32_t next_x, next_y;   /* of a subsurface: from the next state of its parent on */
    int32_t asked_w, asked_h; /* the size that it was asked to have last */
    uint32_t asked, heard;    /* the serial of that, and the one that it has answered */
    uint32_t pulled;          /* edges of a toplevel that move with its size, until it has that */
    bool desynced, waits;     /* of a subsurface; something is committed and does not hold yet */
    bool configured, mapped, grabs;
    uint32_t state;           /* of a toplevel: maximized, fullscreen, or 0 */
    struct box home;          /* where it stands when it is neither */
    char title[13];
};

/* Who sits on a seat. Nobody does where `wl` is NULL. */
struct client {
    struct wl_client *wl;
    struct wl_listener left, made;
    nit_client name;          /* by which the library knows it */
    uint32_t serial, turn;
    uint32_t pools, objects, registries;
    char label[LABEL];
    struct program *program;
    pid_t porter;             /* the process between its connection and the host */
    int bell;                 /* an eventfd: the porter may hand on some bytes */
    uint64_t rest;            /* it may not before */
    uint32_t *words;          /* its atlas */
    struct wl_list surfaces;
    struct wl_list keyboards, pointers, devices, outputs; /* its objects */
    struct xkb_state *keys;   /* by the keys that went to this client, and no others */
    bool focused, changed;    /* it has the keys; it is to be published */
    uint64_t published;
    struct surface *typed, *pointed, *dragged;
    uint32_t edges, buttons;
    int32_t x, y;             /* the pointer's place, as it was told last */
    int32_t press_x, press_y; /* where the first button went down */
    struct box drag;          /* the pointer in the window, and its size, when the drag began */
};

/* A program that the host has started. Who connects to its socket bears its name. */
struct program {
    pid_t process;            /* 0 where it has ended */
    int socket, door;         /* where it connects; a porter that has not answered yet, or -1 */
    pid_t porter;
    int bell;
    struct wl_event_source *source, *arrival, *timer;
    int32_t x, y;             /* where its windows begin */
    char name[LABEL], path[108];
};

/* What this host has beside what each has (shared.h). */
struct desk {
    struct wl_display *display;
    struct client clients[SEATS];
    struct program programs[PROGRAMS];
    uint32_t porters;         /* processes that have not ended yet */
    struct wl_list frames;    /* callbacks that wait for the next tick */
    uint64_t tick;
    struct xkb_keymap *keymap;
    int32_t atlas_w, atlas_h; /* of each client */
    uint64_t soon;            /* when the next look may be for the client with the focus */
    char folder[64];
    bool sandboxes;
    bool moves;               /* the move key is held */
    struct client *mover;     /* whose window the user moves by it */
};

extern struct desk desk;

/* desk.c */
uint32_t milliseconds(void);
void notice(const char *format, ...) __attribute__((format(printf, 1, 2)));

/* box.c */
struct box box_both(struct box a, struct box b);
struct box box_around(struct box a, struct box b);
bool box_same(struct box a, struct box b);
int32_t box_clamp(int64_t value);

/* objects.c: objects of Wayland, and who they belong to */
struct client *client_of(struct wl_resource *any);
void *object_data(struct wl_resource *any);
void object_forget(struct wl_resource *any);
struct wl_resource *object_new(struct wl_resource *from, const struct kind *kind, uint32_t id,
                               void *data);
void objects_start(void);
void objects_watch(struct client *client);
static inline uint32_t serial(struct client *client) { return ++client->serial; }

/* shm.c */
extern const struct kind SHM;
bool shm_start(void);
bool buffer_read(const struct buffer *buffer, int32_t x, int32_t y, int32_t w, uint32_t *words);

/* surfaces.c, subsurfaces.c */
extern const struct kind COMPOSITOR, SUBCOMPOSITOR;
void hold(struct held *held, struct wl_resource *buffer);
void surface_apply(struct surface *surface);
void surface_unmap(struct surface *surface);
void surface_changed(struct surface *surface);
bool surface_is_synced(const struct surface *surface);
void surface_adopt(struct surface *surface, struct surface *parent);
void subsurfaces_settle(struct surface *parent);
bool surface_descends(const struct surface *surface, const struct surface *from);
struct surface *surface_root(struct surface *surface);
struct box surface_origin(const struct surface *surface);

/* publish.c, atlas.c */
void publish(bool focused);
struct client *client_with_focus(void);
void publish_places(struct surface *surface);
void publish_raise(struct surface *root);
bool atlas_take(struct surface *surface);
void atlas_fill(struct surface *surface);
void atlas_copy(struct surface *surface);

/* shell.c, popups.c, drag.c */
extern const struct kind SHELL, DECORATIONS, POSITIONER;
bool shell_commit(struct surface *surface);
void shell_configure(struct surface *surface, int32_t w, int32_t h);
void shell_place(struct surface *surface);
void shell_drop(struct surface *surface);
void role_gone(struct wl_resource *self);
void popup_new(struct surface *surface, union wl_argument *with);
void popups_dismiss(struct client *client);
void drag_begin(struct surface *surface, uint32_t edges);
void drag_to(struct client *client, int32_t x, int32_t y);
void drag_end(struct client *client);
void drag_resized(struct surface *surface, int32_t w, int32_t h);
void drag_settle(struct surface *surface);

/* input.c, keyboard.c */
extern const struct kind SEAT, KEYBOARD;
void input_forget(struct surface *surface);
void input_leave(struct client *client);
struct surface *input_surface(const struct nit_view_state *view);
bool keyboard_start(void);
void keyboard_key(struct client *client, uint32_t code, bool down);
void keyboard_choose(struct client *client);
void keyboard_into(struct client *client, struct surface *surface);

/* clip.c */
extern const struct kind CLIPBOARD;
void clip_tell(struct client *client);

/* clients.c, programs.c, sandbox.c */
int client_knocked(int socket, uint32_t mask, void *data);
int client_rested(void *data);
void client_end(struct client *client);
void clients_credit(uint64_t *next);
void program_forget(struct program *program);
void program_end(struct program *program);
void programs_reap(void);
bool sandbox_is_there(void);
pid_t sandbox_spawn(struct program *program, const char *words, const char *command);

#endif

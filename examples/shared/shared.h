/* What the example hosts have in common: a window on X11 that shows one server, what the user does
 * there, and the processes around it. Not proved, as the hosts are not. */
#ifndef SHARED_H
#define SHARED_H

#include <SDL.h>
#include <nitpicker.h>
#include <poll.h>
#include <stdbool.h>
#include <sys/types.h>

enum {
    SEATS = 16,               /* each costs what a client may use */
    FIRST_BUTTON = 272,       /* Linux's codes: of buttons, from here on, */
    XRAY_KEY = 70,            /* and of the keys of modes */
    KILL_KEY = 99
};

/* What each host has. */
struct host {
    struct nit_server server;
    int32_t width, height;    /* of the screen */
    uint32_t glyphs, dots;    /* how its texts are drawn, as in a plan */
    SDL_Window *window;
    int32_t scale;            /* so many pixels of the window, each way, are one of the screen */
    int x11, signals;         /* descriptors that tell of devices and of signals */
    bool changed, whole;      /* a look may find something; the window lacks more than it finds */
    uint64_t period, next;    /* microseconds between two looks; when the next may be */
    bool both_ways, sideways; /* the wheel turns sideways too; it did so last */
    bool listens, over;       /* to the control line; the host is to end */
};

extern struct host host;

/* ---- What a host has of its own, which these files call */

/* A code goes down or up. True where it is the host's, and the library is not told. */
bool host_takes(uint32_t code, bool down);

/* The pointer is at this place of the screen, which may be beyond its edge. */
void host_moved(int32_t x, int32_t y);

/* Something that the user did went to these. */
void host_delivers(const struct nit_routed *routed);

/* Starts a program by a word of the control line. Answers why it does not start, or NULL. */
const char *host_starts(const char *word);

/* ---- process.c: the host's process, and those that it starts */

/* Microseconds of a clock that only goes forward. */
uint64_t now(void);

/* Microseconds that the host has had of a processor: what others do meanwhile is not in it. */
uint64_t spent(void);

/* Before all else. No descriptor that is opened behind this has one of the first numbers, of which
 * there are `lent`. */
void process_open(int lent);

/* Reads what signals came. */
void process_signals(void);

/* A process to start. Of the host's descriptors it has those in `files`, as its 0, 1, 2 ..; each is
 * itself or behind all of them, or is -1, which stands for /dev/null. */
struct start {
    const char *program;
    char *const *words, *const *environment;
    const int *files;
    int count;
};

/* Starts it in a session of its own. Answers 0, or the number of what is wrong. */
int process_start(const struct start *start, pid_t *process);

/* ---- words.c: what the user is told, and what the user says in words */

/* Says something on the standard output. */
void say(const char *format, ...) __attribute__((format(printf, 1, 2)));

/* Says what is wrong with a word. Answers 2, the status of wrong words. */
int refuse(const char *word, const char *why);

/* Takes one of the words --size=, --scale=, --glyphs=, --xray= and --kill=. Answers why not, or
 * NULL. */
const char *option(const char *word, const char **size);

/* Reads what stands on the control line, which is the standard input. */
void control_read(void);

/* ---- server.c: the server */

/* The screen has this size, by a word of the user, or the usual one. */
void server_size(const char *size);

/* Opens it with these seats. Answers why not, or NULL. */
const char *server_open(const struct nit_seat_plan *seats);

/* A new client sits down on the seat that the library has for its label in this layer. */
struct nit_seated server_seat(const char *label, size_t length, uint32_t layer);

/* True where no client is served: what the user points at stays where it is. */
bool frozen(void);

/* ---- keys.c, devices.c: what the user does */

/* The key that SDL calls so has this code. False where there is no such key. */
bool keys_name(const char *key, uint16_t code);

/* The code of a key or a button, or 0. */
uint32_t keys_code(const SDL_KeyboardEvent *event);
uint32_t keys_button(const SDL_MouseButtonEvent *event);

/* Waits for one of these, for a device, or until this time. */
void devices_wait(struct pollfd *any, nfds_t count, uint64_t end);

/* Hands in all that the user did since the last time, in its order. */
void devices_read(void);

/* ---- screen.c: the window */

bool screen_open(void);

/* Looks, and shows that. False where there is nothing to show it in; then it is no look. */
bool screen_look(void);

#endif

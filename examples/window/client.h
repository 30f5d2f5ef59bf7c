/* A small library for clients of the host in this folder. It speaks PROTOCOL.md, and ends the
 * program with status 0 once the host has closed the socket. */
#ifndef CLIENT_H
#define CLIENT_H

#include <nitpicker.h>
#include <stdbool.h>

/* A client: its buffer of w by h words, row by row. Begins as all 0. */
struct client {
    uint32_t *words;
    uint32_t w, h;
    struct nit_event event;   /* the last one that was taken */
};

/* A buffer of this size, all 0, in place of the old one. False where the host refuses it. */
bool client_buffer(struct client *client, uint32_t w, uint32_t h);

/* A new view: its handle, from 1, or 0 where it is refused. */
uint32_t client_view(void);

/* Each is true where it is done. */
bool client_place(uint32_t view, int32_t x, int32_t y, uint32_t w, uint32_t h);
bool client_offset(uint32_t view, int32_t x, int32_t y);
bool client_front(uint32_t view);
bool client_title(uint32_t view, const char *title);
bool client_destroy(uint32_t view);

/* Shows what was drawn in this part of the buffer. */
bool client_refresh(int32_t x, int32_t y, uint32_t w, uint32_t h);

/* Waits for an event so many milliseconds at most, or for ever below 0. True where there is one,
 * in `event`. */
bool client_wait(struct client *client, int milliseconds);

/* Sends a call of protocol.h, and leaves the reply to who reads the socket. */
struct call;
void client_send(const struct call *call);

/* Milliseconds of a clock that only goes forward. */
int64_t client_time(void);

/* Draws a rectangle, of which only the part in the buffer is drawn. */
void client_fill(struct client *client, int32_t x, int32_t y, int32_t w, int32_t h,
                 uint32_t word);

/* Draws characters, each dot `size` by `size` words, so that each takes 4 by 6 dots. What is none
 * of a..z, 0..9, '-', '.', '_' and ':' is a space. */
void client_text(struct client *client, int32_t x, int32_t y, int32_t size, const char *text,
                 uint32_t word);

/* The character of a key, or 0. Capitals are small letters. */
char client_letter(uint32_t code);

#endif

/* What the tests share: checks that say where they fail, answers that are compared whole, random
 * numbers, and memory that ends where the next page may not be touched. */
#ifndef PARTS_H
#define PARTS_H

#include "nitpicker.h"
#include <stdbool.h>
#include <stdio.h>
#include <stdlib.h>
#include <string.h>

/* ---- Checks. The first that fails ends the test with status 1. */

#define CHECK(holds) check((holds), __FILE__, __LINE__, #holds)

void check(bool holds, const char *file, int line, const char *what);

/* That an answer has these fields, and that each other one is 0. */
#define REPLY(got, ...) same_reply((got), (struct nit_reply){ __VA_ARGS__ }, __FILE__, __LINE__)
#define ROUTED(got, ...) \
    same_routed((got), (struct nit_delivery[4]){ __VA_ARGS__ }, __FILE__, __LINE__)
#define RECT(got, ...) same_rect((got), (struct nit_rect){ __VA_ARGS__ }, __FILE__, __LINE__)
#define STATE(got, ...) same_state((got), (struct nit_state){ __VA_ARGS__ }, __FILE__, __LINE__)
#define SEAT(got, ...) \
    same_seat((got), (struct nit_seat_state){ __VA_ARGS__ }, __FILE__, __LINE__)
#define SEATED(got, ...) \
    same_seated((got), (struct nit_seated){ __VA_ARGS__ }, __FILE__, __LINE__)
#define VIEW(got, ...) same_view((got), (struct nit_view_state){ __VA_ARGS__ }, __FILE__, __LINE__)

void same_reply(struct nit_reply got, struct nit_reply want, const char *file, int line);
void same_rect(struct nit_rect got, struct nit_rect want, const char *file, int line);
void same_state(struct nit_state got, struct nit_state want, const char *file, int line);
void same_seat(struct nit_seat_state got, struct nit_seat_state want, const char *file, int line);
void same_seated(struct nit_seated got, struct nit_seated want, const char *file, int line);
void same_view(struct nit_view_state got, struct nit_view_state want, const char *file, int line);

/* The deliveries that are wanted end where a kind is 0; the answer is NIT_DONE. */
void same_routed(struct nit_routed got, const struct nit_delivery *want, const char *file,
                 int line);

/* Deliveries to a seat, as ROUTED has them. */
#define PRESS(to, number) { (to), { .kind = NIT_PRESS, .code = (number) } }
#define RELEASE(to, number) { (to), { .kind = NIT_RELEASE, .code = (number) } }
#define MOTION(to, column, row) { (to), { .kind = NIT_MOTION, .x = (column), .y = (row) } }
#define WHEEL(to, by) { (to), { .kind = NIT_WHEEL, .turn = (by) } }
#define TOLD(to, what) { (to), { .kind = (what) } }
#define NOBODY { 0, { .kind = NIT_NOTHING } }

/* A text and its length, as two arguments. */
#define TEXT(literal) (literal), sizeof(literal) - 1

/* The number that a word of the command line is; another word ends the test. */
uint64_t number_in(const char *word);

/* ---- Random numbers, the same for the same start. */

struct random { uint64_t at; };

/* A number below `below`, which is not 0. */
uint64_t draw(struct random *random, uint64_t below);

/* ---- Memory. */

/* So many words or bytes that end where a page begins that may not be touched, all 0. Never freed:
 * a test takes few. */
uint32_t *guarded_words(size_t count);
char *guarded_text(size_t count);

/* ---- Servers. */

/* Opens a server by a plan; its seats all have the donation, layer 0 and clicks. */
void open_plain(struct nit_server *server, uint32_t width, uint32_t height, uint32_t seats,
                uint32_t donation);

/* The name of a client that sits down on this seat, which has to be done. */
nit_client sits_on(struct nit_server *server, uint32_t seat, const char *label);

/* The most units that a client may ever have on a seat of this donation. */
uint32_t room_of(uint32_t donation);

/* Closes it, which has to be done. */
void close_plain(struct nit_server *server);

/* A look, which leaves the words of a copy of the screen, and the part that changed. */
struct nit_rect look_whole(struct nit_server *server, uint32_t *frame, uint32_t width,
                           uint32_t height);

#endif

/* The parts of the wrong bodies that planted.py plants. */
#ifndef PLANTED_H
#define PLANTED_H

#include "nitpicker.h"
#include <stdbool.h>
#include <stdio.h>
#include <stdlib.h>
#include <string.h>

/* Whether this is the wrong body that is planted. */
bool is_planted(const char *name);

/* An answer became another one. */
void happens(void);

/* A step, with its mode before; and that it is done. Both are in planted.c. */
struct before {
    struct screen *screen;
    uint32_t mode;
};
struct before before_step(struct nit_server *server);
void after_step(struct nit_server *server, struct before before, const char *kind);

/* ---- The library's own bodies. */

uint32_t __real_nit_close(struct nit_server *server);
struct nit_damage __real_nit_damage(struct nit_server *server);
struct nit_rect __real_nit_look(struct nit_server *server, uint32_t *out, size_t count);
struct nit_rect __real_nit_look_anew(struct nit_server *server, uint32_t *out, size_t count);
uint32_t __real_nit_copy(struct nit_server *server, uint32_t x, uint32_t y, uint32_t w, uint32_t h,
                         uint32_t *out, size_t count, size_t pitch);
struct nit_state __real_nit_state(const struct nit_server *server);
struct nit_seat_state __real_nit_seat_state(const struct nit_server *server, uint32_t seat);
struct nit_account __real_nit_account(const struct nit_server *server, uint32_t seat);
size_t __real_nit_label(const struct nit_server *server, uint32_t seat, char *out, size_t room);
struct nit_view_state __real_nit_view_at(const struct nit_server *server, uint32_t place);
size_t __real_nit_title_at(const struct nit_server *server, uint32_t place, char *out, size_t room);
struct nit_view_state __real_nit_owner(const struct nit_server *server, uint32_t x, uint32_t y);
struct nit_view_state __real_nit_shown(const struct nit_server *server, uint32_t x, uint32_t y);
uint32_t __real_nit_held(const struct nit_server *server, uint32_t place);
size_t __real_nit_entry(const struct nit_server *server, char *out, size_t room);

#endif

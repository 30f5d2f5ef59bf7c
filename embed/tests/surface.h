/* A host's own surface, which gets the parts of nit_damage by nit_copy, and what has to hold of
 * each. */
#ifndef SURFACE_H
#define SURFACE_H

#include "parts.h"

/* What the surface has, `pitch` words for each of its rows; and the whole screen as it was copied
 * last. */
struct surface {
    uint32_t width, height, pitch;
    uint32_t *words, *whole;
};

/* A surface for a server's screen; its memory is never freed. Nothing was copied to it yet. Each of
 * its rows has one word more, which nobody may write. */
struct surface surface_of(const struct nit_server *server);

/* Damage, which is right for what the surface has: at most 16 parts, each with a pixel and within
 * the screen, no two meet, the rest is 0, and all that differs from the surface lies in them. Then
 * they are copied to the surface, which shows the screen from then on. */
struct nit_damage damaged(struct nit_server *server, struct surface *surface);

/* How many pixels the parts have. */
uint64_t area_of(const struct nit_damage *damage);

#endif

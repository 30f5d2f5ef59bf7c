/* Replies, deliveries and pictures by their form in docs/FORMATS.md. */
#ifndef REPLAY_READ_H
#define REPLAY_READ_H

#include "parts.h"

bool begins(const char *line, const char *word);

/* The reply that a text begins with; its kind is NIT_NO_SERVER where it begins with none. */
struct nit_reply reply_in(const char *text);

/* The deliveries behind the line of a device event. */
struct nit_routed routed_in(const char *line);

/* The bytes of the pixels of a picture file of this size, to be freed, or NULL where it is none. */
uint8_t *picture_in(const char *name, uint32_t width, uint32_t height);

#endif

/* Watches each request for memory of a program that is linked with
 * -Wl,--wrap=malloc,--wrap=realloc,--wrap=calloc,--wrap=free. */
#ifndef MEMORY_H
#define MEMORY_H

#include <stdbool.h>
#include <stddef.h>

/* How many requests there were, and how many blocks are held. */
extern size_t memory_requests, memory_held;

/* The request of this number from now on, counted from 1, is refused, and no other; 0 refuses
 * none. */
void memory_refuse(size_t number);

/* Whether that request came. */
bool memory_was_refused(void);

#endif

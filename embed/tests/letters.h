/* How texts are drawn, by pictures of the glyphs of the tests' own. */
#ifndef LETTERS_H
#define LETTERS_H

#include <stdbool.h>
#include <stddef.h>
#include <stdint.h>

/* Glyphs and scale as `struct nit_plan` has them, but the scale is 1 to 8. */
struct letters {
    uint32_t glyphs, scale;
};

/* The width of the picture of a text of this length, and the height of each picture, in pixels. */
uint32_t letters_width(struct letters letters, size_t length);
uint32_t letters_height(struct letters letters);

/* Whether the picture of a text has a dot at this pixel of the picture. */
bool letters_dot(struct letters letters, const char *text, uint32_t x, uint32_t y);

#endif

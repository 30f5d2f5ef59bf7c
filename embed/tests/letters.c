/* The pictures of texts: a dot of margin on every side, and one between two glyphs. */
#include "letters.h"
#include "glyphs.h"
#include <string.h>

static uint32_t columns(struct letters letters)
{
    return letters.glyphs == 1 ? 5 : 3;
}

static uint32_t rows(struct letters letters)
{
    return letters.glyphs == 1 ? 7 : 5;
}

uint32_t letters_width(struct letters letters, size_t length)
{
    return letters.scale * ((columns(letters) + 1) * (uint32_t)length + 1);
}

uint32_t letters_height(struct letters letters)
{
    return letters.scale * (rows(letters) + 2);
}

/* Whether the glyph of a character has a dot there. */
static bool glyph_dot(struct letters letters, char character, uint32_t column, uint32_t row)
{
    const char *const *band = letters.glyphs == 1 ? large_glyphs : small_glyphs;
    const char *at;
    if (character == ' ')
        return false;
    while ((at = strchr(*band, character)) == NULL)
        band += 1 + rows(letters);
    return band[1 + row][(uint32_t)(at - *band) + column] == '#';
}

bool letters_dot(struct letters letters, const char *text, uint32_t x, uint32_t y)
{
    const uint32_t column = x / letters.scale, row = y / letters.scale;
    const uint32_t step = columns(letters) + 1;
    return column % step != 0 && row >= 1 && row <= rows(letters) && column / step < strlen(text)
           && glyph_dot(letters, text[column / step], column % step - 1, row - 1);
}

/* The picture of the login prompt, which is no secret: login draws it, and game copies it. */
#ifndef PROMPT_H
#define PROMPT_H

#include "client.h"

enum { PROMPT_WIDTH = 192, PROMPT_HEIGHT = 112, PROMPT_FIELD = 64 };

/* The field for the password, with so many dots. */
static inline void prompt_field(struct client *client, int32_t y, int32_t dots)
{
    client_fill(client, 16, y + PROMPT_FIELD, 160, 20, 0xFFFFFF);
    for (int32_t dot = 0; dot < dots; dot++)
        client_fill(client, 24 + 8 * dot, y + PROMPT_FIELD + 8, 4, 4, 0x303030);
}

/* The whole prompt, its topmost row in the row y of the buffer. */
static inline void prompt_draw(struct client *client, int32_t y)
{
    client_fill(client, 0, y, PROMPT_WIDTH, PROMPT_HEIGHT, 0xD8D8D0);
    client_fill(client, 0, y, PROMPT_WIDTH, 24, 0x304878);
    client_text(client, 8, y + 7, 2, "log in", 0xF0C040);
    client_text(client, 16, y + 32, 2, "user: ann", 0x303030);
    client_text(client, 16, y + 48, 2, "password", 0x303030);
    client_fill(client, 112, y + 92, 64, 14, 0x304878);
    client_text(client, 136, y + 94, 2, "ok", 0xFFFFFF);
    prompt_field(client, y, 0);
}

#endif

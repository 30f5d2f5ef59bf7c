/* Three notes, each a view on a part of one buffer. A click brings a note to the front and lets
 * keys go to it; its title bar drags it. Backspace takes a character away. */
#include "client.h"
#include <string.h>

enum { NOTES = 3, WIDTH = 220, HEIGHT = 120, BAR = 20, COLUMNS = 26, ROWS = 7 };

struct note {
    uint32_t view;
    int32_t x, y;
    char text[ROWS * COLUMNS + 1];
};

struct pad {
    struct client client;
    struct note notes[NOTES];
    int32_t typed;           /* keys go to this note */
    int32_t order[NOTES];    /* the notes, the front-most first */
    bool drags;
    int32_t x, y;            /* the pointer, as it was told last */
};

static void draw(struct pad *pad, int32_t number)
{
    static const char *const titles[NOTES] = { "one", "two", "three" };
    const struct note *note = &pad->notes[number];
    struct client *client = &pad->client;
    int32_t top = number * HEIGHT;
    client_fill(client, 0, top, WIDTH, HEIGHT, 0xF8F0C0);
    client_fill(client, 0, top, WIDTH, BAR, pad->typed == number ? 0xC08020 : 0x807860);
    client_text(client, 6, top + 5, 2, titles[number], 0xFFFFFF);
    for (size_t at = 0; at <= strlen(note->text); at++) {
        char letter[2] = { note->text[at] ? note->text[at] : '_', 0 };
        client_text(client, 6 + (int32_t)(at % COLUMNS) * 8,
                    top + BAR + 4 + (int32_t)(at / COLUMNS) * 14, 2, letter, 0x202020);
    }
    client_refresh(0, top, WIDTH, HEIGHT);
}

static void place(struct note *note)
{
    client_place(note->view, note->x, note->y, WIDTH, HEIGHT);
}

/* Begins: each note at its place, the first one in front. */
static bool begin(struct pad *pad)
{
    if (!client_buffer(&pad->client, WIDTH, NOTES * HEIGHT))
        return false;
    for (int32_t number = NOTES - 1; number >= 0; number--) {
        struct note *note = &pad->notes[number];
        note->view = client_view();
        note->x = 600 + 40 * number;
        note->y = 80 + 150 * number;
        pad->order[number] = number;
        draw(pad, number);
        client_offset(note->view, 0, -number * HEIGHT);
        place(note);
    }
    return true;
}

/* The note under the pointer is in front from now on, and is typed into. */
static void choose(struct pad *pad)
{
    for (int32_t at = 0; at < NOTES; at++) {
        int32_t number = pad->order[at];
        const struct note *note = &pad->notes[number];
        if (pad->x < note->x || pad->x >= note->x + WIDTH || pad->y < note->y ||
            pad->y >= note->y + HEIGHT)
            continue;
        memmove(pad->order + 1, pad->order, (size_t)at * sizeof *pad->order);
        pad->order[0] = number;
        int32_t before = pad->typed;
        pad->typed = number;
        pad->drags = pad->y < note->y + BAR;
        client_front(note->view);
        draw(pad, before);
        draw(pad, number);
        return;
    }
}

static void motion(struct pad *pad, int32_t x, int32_t y)
{
    if (pad->drags) {
        struct note *note = &pad->notes[pad->typed];
        note->x += x - pad->x;
        note->y += y - pad->y;
        place(note);
    }
    pad->x = x;
    pad->y = y;
}

static void type(struct pad *pad, uint32_t code)
{
    struct note *note = &pad->notes[pad->typed];
    size_t length = strlen(note->text);
    char letter = client_letter(code);
    if (code == 14 && length > 0)
        note->text[length - 1] = 0;
    if (letter && length + 2 < sizeof note->text)
        note->text[length] = letter;
    draw(pad, pad->typed);
}

int main(void)
{
    static struct pad pad;
    const struct nit_event *event = &pad.client.event;
    if (!begin(&pad))
        return 1;
    while (client_wait(&pad.client, -1)) {
        if (event->kind == NIT_MOTION)
            motion(&pad, event->x, event->y);
        else if (event->kind == NIT_PRESS && event->code == 272)
            choose(&pad);
        else if (event->kind == NIT_PRESS && event->code < 272)
            type(&pad, event->code);
        else if (event->kind == NIT_RELEASE && event->code == 272)
            pad.drags = false;
    }
    return 0;
}

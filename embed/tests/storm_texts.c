/* The texts that the test `storm` finds on the screen: the status bar, and in X-ray and kill mode
 * the label of each view. Whether a label has a place, and where, is worked out here. */
#include "storm.h"

enum { BLACK = 0, WHITE = 0xFFFFFF, TEXT_ROOM = 40 };

/* A picture of a text is black, and white at its dots. It is cut off at the right. */
static void has_picture(const struct storm *s, const char *text, uint32_t left, uint32_t top,
                        uint32_t width)
{
    for (uint32_t y = 0; y < letters_height(s->letters); y++)
        for (uint32_t x = 0; x < width; x++) {
            uint32_t word = s->frame[(size_t)(top + y) * s->width + left + x];
            CHECK(word == (letters_dot(s->letters, text, x, y) ? WHITE : BLACK));
        }
}

/* Puts the label of a seat behind a text. */
static void put_label(const struct storm *s, uint32_t seat, char *text)
{
    size_t length = strlen(text);
    length += nit_label(&s->server, seat, text + length, TEXT_ROOM - 1 - length);
    text[length] = '\0';
}

static void has_bar(const struct storm *s, struct nit_state state)
{
    static const char *const modes[] = { "flat", "xray", "kill" };
    char text[TEXT_ROOM];
    strcpy(text, modes[state.mode]);
    if (state.focus != NIT_NONE) {
        strcat(text, ":");
        put_label(s, state.focus, text);
    }
    if (s->bar > 0)
        has_picture(s, text, 0, 0, s->width);
}

/* The pixels that a view covers: columns and rows from the first to before the last. */
struct area {
    uint32_t left, top, right, low;
};

static uint32_t within(int64_t place, uint32_t least, uint32_t most)
{
    return place < least ? least : place > most ? most : (uint32_t)place;
}

static struct area area_of_view(const struct storm *s, const struct placed *view)
{
    return (struct area){ within(view->x, 0, s->width), within(view->y, s->bar, s->height),
                          within((int64_t)view->x + view->w, 0, s->width),
                          within((int64_t)view->y + view->h, s->bar, s->height) };
}

/* Writes down in `other` whose each pixel is: the place of the view in the stack. */
static void map_owners(const struct storm *s)
{
    for (uint32_t at = s->standing.count; at-- > 0;) {
        const struct area area = area_of_view(s, &s->standing.views[at]);
        for (uint32_t y = area.top; y < area.low; y++)
            for (uint32_t x = area.left; x < area.right; x++)
                s->other[(size_t)y * s->width + x] = at;
    }
}

/* The first place, row by row, where so many columns and rows are all this view's. There may be
 * none. */
static bool has_place(const struct storm *s, uint32_t at, uint32_t width, uint32_t *left,
                      uint32_t *top)
{
    static uint32_t above[MOST_SIDE]; /* so many rows that end here are the view's */
    const struct area area = area_of_view(s, &s->standing.views[at]);
    const uint32_t height = letters_height(s->letters);
    memset(above, 0, sizeof above);
    for (uint32_t y = area.top; y < area.low; y++)
        for (uint32_t x = area.left, columns = 0; x < area.right; x++) {
            above[x] = s->other[(size_t)y * s->width + x] == at ? above[x] + 1 : 0;
            columns = above[x] >= height ? columns + 1 : 0;
            *left = x + 1 - width;
            *top = y + 1 - height;
            if (columns == width)
                return true;
        }
    return false;
}

/* A view's label, and its title where it has one, stand where there is a place for both. */
static void has_label(struct storm *s, uint32_t at)
{
    char text[TEXT_ROOM] = "", title[NIT_LINE];
    uint32_t left, top;
    size_t length = nit_title_at(&s->server, at, title, sizeof title);
    put_label(s, nit_seat_of(s->standing.views[at].client), text);
    if (length > 0)
        strcat(text, ":");
    strncat(text, title, length);
    uint32_t width = letters_width(s->letters, strlen(text));
    if (has_place(s, at, width, &left, &top)) {
        has_picture(s, text, left, top, width);
        s->labels++;
    }
}

void shows_texts(struct storm *s)
{
    const struct nit_state state = nit_state(&s->server);
    has_bar(s, state);
    if (state.mode == NIT_MODE_FLAT)
        return;
    map_owners(s);
    for (uint32_t at = 0; at < s->standing.count; at++)
        has_label(s, at);
}

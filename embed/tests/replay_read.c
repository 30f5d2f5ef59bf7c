/* What replay_read.h says. */
#include "replay_read.h"
#include <inttypes.h>

bool begins(const char *line, const char *word)
{
    return strncmp(line, word, strlen(word)) == 0;
}

static struct nit_event event_in(const char *text)
{
    struct nit_event event = { .kind = NIT_NOTHING };
    if (sscanf(text, "press %u", &event.code) == 1)
        event.kind = NIT_PRESS;
    else if (sscanf(text, "release %u", &event.code) == 1)
        event.kind = NIT_RELEASE;
    else if (sscanf(text, "motion %" SCNu16 " %" SCNu16, &event.x, &event.y) == 2)
        event.kind = NIT_MOTION;
    else if (sscanf(text, "wheel %d", &event.turn) == 1)
        event.kind = NIT_WHEEL;
    else if (begins(text, "leave"))
        event.kind = NIT_LEAVE;
    else if (begins(text, "focus-enter"))
        event.kind = NIT_FOCUS_ENTER;
    else if (begins(text, "focus-leave"))
        event.kind = NIT_FOCUS_LEAVE;
    else if (begins(text, "kill"))
        event.kind = NIT_KILL;
    return event;
}

struct nit_reply reply_in(const char *text)
{
    static const struct { const char *word; uint32_t kind; } words[] = {
        { "done", NIT_DONE }, { "no-event", NIT_NO_EVENT }, { "bad-rect", NIT_BAD_RECT },
        { "bad-size", NIT_BAD_SIZE }, { "bad-title", NIT_BAD_TITLE },
        { "too-many-views", NIT_TOO_MANY_VIEWS }, { "closed", NIT_SESSION_CLOSED },
        { "killed", NIT_SESSION_KILLED } };
    struct nit_reply reply = { .kind = NIT_NO_SERVER };
    for (size_t k = 0; k < sizeof words / sizeof *words; k++)
        if (begins(text, words[k].word))
            reply.kind = words[k].kind;
    if (sscanf(text, "handle %u", &reply.handle) == 1)
        reply.kind = NIT_HANDLE;
    else if (sscanf(text, "no-such-view %u", &reply.handle) == 1)
        reply.kind = NIT_NO_SUCH_VIEW;
    else if (sscanf(text, "out-of-quota %" SCNu64 " %" SCNu64, &reply.need, &reply.left) == 2)
        reply.kind = NIT_OUT_OF_QUOTA;
    else if (sscanf(text, "no-reserve %" SCNu64 " %" SCNu64, &reply.need, &reply.left) == 2)
        reply.kind = NIT_NO_RESERVE;
    else if (begins(text, "event "))
        reply = (struct nit_reply){ .kind = NIT_EVENT, .event = event_in(text + 6) };
    return reply;
}

struct nit_routed routed_in(const char *line)
{
    struct nit_routed routed = { .kind = NIT_DONE };
    for (const char *at = strstr(line, " > "); at && routed.count < 3; at = strstr(at, " > ")) {
        struct nit_delivery *to = &routed.to[routed.count++];
        char *behind;
        to->seat = (uint32_t)strtoul(at + 3, &behind, 10);
        to->event = event_in(*behind == ' ' ? behind + 1 : behind);
        at = behind;
    }
    return routed;
}

uint8_t *picture_in(const char *name, uint32_t width, uint32_t height)
{
    uint32_t w = 0, h = 0;
    size_t size = 3 * (size_t)width * height;
    FILE *file = fopen(name, "rb");
    uint8_t *pixels = file ? malloc(size) : NULL;
    bool is_one = pixels && fscanf(file, "P6 %u %u 255", &w, &h) == 2 && fgetc(file) == '\n'
                  && w == width && h == height && fread(pixels, 1, size, file) == size;
    if (file)
        fclose(file);
    if (is_one)
        return pixels;
    free(pixels);
    return NULL;
}

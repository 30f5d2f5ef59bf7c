/* The client library: see client.h. */
#include "client.h"
#include "protocol.h"
#include <poll.h>
#include <stdlib.h>
#include <string.h>
#include <sys/mman.h>
#include <sys/socket.h>
#include <time.h>
#include <unistd.h>

/* ---- Messages */

/* The next message of the host. */
static struct reply receive(void)
{
    struct reply reply;
    if (recv(PROTOCOL_SOCKET, &reply, sizeof reply, 0) != sizeof reply)
        exit(0);
    return reply;
}

/* What the host and this client have both. */
static unsigned char *memory(void)
{
    static unsigned char *shared;
    if (!shared)
        shared = mmap(NULL, PROTOCOL_BYTES, PROT_READ | PROT_WRITE, MAP_SHARED, PROTOCOL_MEMORY, 0);
    if (shared == MAP_FAILED)
        exit(1);
    return shared;
}

/* Set where the host has said so while a reply was waited for. */
static bool woken;

void client_send(const struct call *call)
{
    static uint32_t calls;
    const uint64_t one = 1;
    memcpy(memory() + calls++ % PROTOCOL_CALLS * sizeof *call, call, sizeof *call);
    if (write(PROTOCOL_BELL, &one, sizeof one) != sizeof one)
        exit(1);
}

/* Makes a call, and waits for the reply. */
static struct reply ask(const struct call *call)
{
    client_send(call);
    struct reply reply = receive();
    while (reply.kind == PROTOCOL_WOKEN) {
        woken = true;
        reply = receive();
    }
    return reply;
}

static bool done(struct call call)
{
    return ask(&call).kind == NIT_DONE;
}

/* ---- Calls */

bool client_buffer(struct client *client, uint32_t w, uint32_t h)
{
    if ((uint64_t)w * h > PROTOCOL_WORDS || !done((struct call){ CALL_BUFFER, .w = w, .h = h }))
        return false;
    client->words = (uint32_t *)(memory() + PROTOCOL_PIXELS);
    client->w = w;
    client->h = h;
    client_fill(client, 0, 0, (int32_t)w, (int32_t)h, 0);
    return true;
}

uint32_t client_view(void)
{
    struct reply reply = ask(&(struct call){ .call = CALL_VIEW });
    return reply.kind == NIT_HANDLE ? reply.handle : 0;
}

bool client_place(uint32_t view, int32_t x, int32_t y, uint32_t w, uint32_t h)
{
    return done((struct call){ CALL_PLACE, view, x, y, w, h, 0, "" });
}

bool client_offset(uint32_t view, int32_t x, int32_t y)
{
    return done((struct call){ .call = CALL_OFFSET, .view = view, .x = x, .y = y });
}

bool client_front(uint32_t view)
{
    return done((struct call){ .call = CALL_FRONT, .view = view });
}

bool client_title(uint32_t view, const char *title)
{
    struct call call = { .call = CALL_TITLE, .view = view };
    strncpy(call.title, title, sizeof call.title - 1);
    return done(call);
}

bool client_destroy(uint32_t view)
{
    return done((struct call){ .call = CALL_DESTROY, .view = view });
}

bool client_refresh(int32_t x, int32_t y, uint32_t w, uint32_t h)
{
    return done((struct call){ CALL_REFRESH, 0, x, y, w, h, 0, "" });
}

/* ---- Events */

bool client_wait(struct client *client, int milliseconds)
{
    struct pollfd host = { .fd = PROTOCOL_SOCKET, .events = POLLIN };
    while (!woken) {
        if (poll(&host, 1, milliseconds) == 0)
            return false;
        woken = receive().kind == PROTOCOL_WOKEN;
    }
    struct reply reply = ask(&(struct call){ .call = CALL_TAKE });
    client->event = (struct nit_event){ reply.event, reply.code, (uint16_t)reply.x,
                                        (uint16_t)reply.y, reply.turn };
    if (reply.kind == NIT_EVENT)
        return true;
    woken = false;
    return client_wait(client, milliseconds);
}

int64_t client_time(void)
{
    struct timespec time;
    clock_gettime(CLOCK_MONOTONIC, &time);
    return (int64_t)time.tv_sec * 1000 + time.tv_nsec / 1000000;
}

/* ---- Drawing */

void client_fill(struct client *client, int32_t x, int32_t y, int32_t w, int32_t h, uint32_t word)
{
    for (int32_t row = y < 0 ? 0 : y; row < y + h && row < (int32_t)client->h; row++)
        for (int32_t at = x < 0 ? 0 : x; at < x + w && at < (int32_t)client->w; at++)
            client->words[(size_t)row * client->w + (size_t)at] = word;
}

/* Each character's five rows of three dots, as docs/FORMATS.md has them. */
static const char SIGNS[] = "0123456789abcdefghijklmnopqrstuvwxyz-._:";
static const char GLYPHS[][6] = {
    "75557", "26227", "71747", "71717", "55711", "74717", "74757", "71111", "75757", "75717",
    "25755", "65656", "34443", "65556", "74647", "74644", "34553", "55755", "72227", "11152",
    "55655", "44447", "57755", "65555", "25552", "65644", "25563", "65665", "34216", "72222",
    "55557", "55552", "55775", "55255", "55222", "71247", "00700", "00002", "00007", "02020"
};

void client_text(struct client *client, int32_t x, int32_t y, int32_t size, const char *text,
                 uint32_t word)
{
    for (; *text; text++, x += 4 * size) {
        const char *sign = strchr(SIGNS, *text);
        for (int32_t dot = 0; sign && dot < 15; dot++)
            if ((GLYPHS[sign - SIGNS][dot / 3] - '0') & (4 >> dot % 3))
                client_fill(client, x + dot % 3 * size, y + dot / 3 * size, size, size, word);
    }
}

char client_letter(uint32_t code)
{
    static const char letters[] = "..1234567890-...qwertyuiop....asdfghjkl.....zxcvbnm";
    if (code == 52)
        return '.';
    if (code == 57)
        return ' ';
    return code < sizeof letters - 1 && letters[code] != '.' ? letters[code] : 0;
}

/* How much stack calls need. A thread paints the stack below it, makes some calls, and looks how
 * deep the paint is gone: openings may take 64 KB, and the other calls 16 KB. */
#include "parts.h"
#include <pthread.h>
#include <sys/mman.h>

enum { WIDTH = 1024, HEIGHT = 768, SEATS = 16, VIEWS = 64, SIZE = 1 << 20, NEAR = 256,
       DEEP = 1 << 20, OPENING = 64 << 10, CALL = 16 << 10 };

static struct nit_server server = NIT_CLOSED;
static nit_client client[SEATS];
static unsigned char *lowest;
static uint32_t words[64 * 64], frame[WIDTH * HEIGHT];
static char text[DEEP];

/* ---- What is measured. */

static void opens(void)
{
    open_plain(&server, WIDTH, HEIGHT, SEATS, 65536);
}

/* A text that nests as deep as one may, which is refused. */
static void opens_deep(void)
{
    static const char begin[] = "a = ";
    for (size_t k = 0; k < DEEP; k++)
        text[k] = k + 1 < sizeof begin ? begin[k] : '[';
    CHECK(nit_open_config(&server, text, DEEP) == NIT_CONFIG_SYNTAX);
    for (size_t k = sizeof begin - 1; k + 3 <= DEEP; k += 3)
        memcpy(text + k, "{a=", 3);
    CHECK(nit_open_config(&server, text, DEEP) == NIT_CONFIG_SYNTAX);
}

static void client_comes(uint32_t seat)
{
    char label[1] = { (char)('a' + seat) };
    SEATED(nit_seat_for(&server, label, 1, 0), .kind = NIT_DONE, .seat = seat);
    struct nit_seated seated = nit_seat(&server, seat, label, 1);
    CHECK(seated.kind == NIT_DONE);
    nit_client name = client[seat] = seated.client;
    REPLY(nit_buffer(&server, name, 64, 64), .kind = NIT_DONE);
    for (uint32_t k = 1; k <= VIEWS; k++) {
        REPLY(nit_view(&server, name), .kind = NIT_HANDLE, .handle = k);
        REPLY(nit_place(&server, name, k, (int32_t)(16 * k), (int32_t)(40 * seat), 64, 5 * k),
              .kind = NIT_DONE);
    }
}

static void clients_come(void)
{
    for (uint32_t seat = 0; seat < SEATS; seat++)
        client_comes(seat);
}

static void client_calls(void)
{
    nit_client a = client[0];
    REPLY(nit_refresh(&server, a, 0, 0, 64, 64, words, 64 * 64), .kind = NIT_DONE);
    REPLY(nit_offset(&server, a, 1, 3, 3), .kind = NIT_DONE);
    REPLY(nit_title(&server, a, 1, TEXT("title")), .kind = NIT_DONE);
    REPLY(nit_front(&server, a, 1), .kind = NIT_DONE);
    REPLY(nit_back(&server, a, 1), .kind = NIT_DONE);
    REPLY(nit_above(&server, a, 1, 2), .kind = NIT_DONE);
    REPLY(nit_upgrade(&server, a, 1), .kind = NIT_DONE);
    CHECK(nit_take(&server, a).kind >= NIT_EVENT);
    CHECK(nit_lower(&server, a, 2) == NIT_DONE && nit_raise(&server, a, 1) == NIT_DONE);
    REPLY(nit_destroy(&server, a, 1), .kind = NIT_DONE);
    REPLY(nit_leave(&server, a), .kind = NIT_DONE);
    client_comes(0);
}

static void user_does(void)
{
    CHECK(nit_motion(&server, 100, 100).kind == NIT_DONE);
    CHECK(nit_wheel(&server, 1).kind == NIT_DONE);
    CHECK(nit_press(&server, 30).kind == NIT_DONE && nit_release(&server, 30).kind == NIT_DONE);
}

static void looks(void)
{
    char line[NIT_LINE];
    CHECK(nit_look(&server, frame, WIDTH * HEIGHT).kind == NIT_DONE);
    CHECK(nit_state(&server).kind == NIT_DONE && nit_seat_state(&server, 0).kind == NIT_DONE);
    CHECK(nit_damage(&server).kind == NIT_DONE);
    CHECK(nit_copy(&server, 1, 1, 9, 9, frame, WIDTH * HEIGHT, WIDTH) == NIT_DONE);
    CHECK(nit_shown(&server, 100, 100).kind == NIT_DONE);
    CHECK(nit_owner(&server, 100, 100).kind == NIT_DONE && nit_label(&server, 0, line, 20) == 1);
    CHECK(nit_entry(&server, line, sizeof line) > 0);
}

static void xray_key(void)
{
    CHECK(nit_press(&server, 70).kind == NIT_DONE);
}

static void kill_key_and_click(void)
{
    CHECK(nit_press(&server, 99).kind == NIT_DONE);
    CHECK(nit_look(&server, frame, WIDTH * HEIGHT).kind == NIT_DONE);
    CHECK(nit_press(&server, 272).kind == NIT_DONE);
}

static void closes(void)
{
    close_plain(&server);
}

/* ---- Measuring. */

/* Paints what lies below the frame of this function, but for some bytes that it needs itself; or
 * counts the bytes that are painted no more, from the deepest one on. */
static __attribute__((noinline)) size_t paint(bool is_new)
{
    unsigned char *here = __builtin_frame_address(0);
    size_t room = (size_t)(here - lowest), deep = 0;
    if (is_new)
        memset(lowest, 0xA5, room - NEAR);
    while (deep < room && lowest[deep] == 0xA5)
        deep++;
    return room - deep;
}

static void measure(const char *name, void (*calls)(void), size_t most)
{
    paint(true);
    calls();
    size_t used = paint(false);
    printf("stack: %s, %zu bytes\n", name, used);
    CHECK(used <= most);
}

static void *measures(void *none)
{
    measure("a text that nests", opens_deep, OPENING);
    measure("opening", opens, OPENING);
    measure("clients that come", clients_come, CALL);
    for (uint32_t mode = NIT_MODE_FLAT; mode <= NIT_MODE_XRAY; mode++) {
        measure("calls of a client", client_calls, CALL);
        measure("the user", user_does, CALL);
        measure("looks", looks, CALL);
        measure("the X-ray key", xray_key, CALL);
    }
    measure("kill mode", kill_key_and_click, CALL);
    measure("closing", closes, CALL);
    return none;
}

int main(void)
{
    pthread_attr_t where;
    pthread_t thread;
    lowest = mmap(NULL, SIZE, PROT_READ | PROT_WRITE, MAP_PRIVATE | MAP_ANONYMOUS, -1, 0);
    CHECK(lowest != MAP_FAILED);
    CHECK(pthread_attr_init(&where) == 0 && pthread_attr_setstack(&where, lowest, SIZE) == 0);
    CHECK(pthread_create(&thread, &where, measures, NULL) == 0 && pthread_join(thread, NULL) == 0);
    return 0;
}

/* Each request for memory is refused once: what opens says so and has kept nothing, and what does
 * not open makes none, but for the text of a step. */
#include "memory.h"
#include "parts.h"

#define CLIENT(label) "[[client]]\nlabel = \"" label "\"\ndonation = 65536\nscript = \"s\"\n"

static const char TEXT_OF_TWO[] = "[screen]\nwidth = 64\nheight = 32\nbar = true\n\n"
    "[input]\nscript = \"i\"\n\n" CLIENT("a") CLIENT("b");

static uint32_t open_by_text(struct nit_server *server)
{
    return nit_open_config(server, TEXT(TEXT_OF_TWO));
}

static uint32_t open_by_seats(struct nit_server *server)
{
    uint32_t seats[48];
    for (size_t k = 0; k < 48; k++)
        seats[k] = (const uint32_t[]){ 4096, 0, 1 }[k % 3];
    return nit_open_seats_3(server, 64, 32, 1, 1, 2, seats, 48);
}

/* Closes a server that was opened, after which nothing is held that was not held before. */
static void close_opened(struct nit_server *server, size_t held)
{
    CHECK(memory_held > held);
    close_plain(server);
    CHECK(memory_held == held);
}

/* Refuses the first request, then the second and so on, until none is left to refuse. An opening
 * may do without what is refused; else it answers so, and leaves nothing. */
static void refuse_each(const char *name, uint32_t (*open)(struct nit_server *))
{
    struct nit_server server = NIT_CLOSED;
    size_t held = memory_held, number = 0;
    for (bool refused = true; refused;) {
        memory_refuse(++number);
        uint32_t answer = open(&server);
        refused = memory_was_refused();
        memory_refuse(0);
        if (answer == NIT_DONE) {
            close_opened(&server, held);
            continue;
        }
        CHECK(refused && answer == NIT_NO_MEMORY);
        CHECK(server.at == NULL && server.mark == 0 && memory_held == held);
        CHECK(nit_close(&server) == NIT_NO_SERVER);
    }
    CHECK(number > 1);
    printf("refused_memory: %s, %zu requests\n", name, number - 1);
}

/* ---- No other call makes a request. */

static void client_calls(struct nit_server *server, nit_client a)
{
    static uint32_t words[64];
    REPLY(nit_view(server, a), .kind = NIT_HANDLE, .handle = 1);
    REPLY(nit_buffer(server, a, 8, 8), .kind = NIT_DONE);
    REPLY(nit_place(server, a, 1, 0, 0, 64, 32), .kind = NIT_DONE);
    REPLY(nit_offset(server, a, 1, 1, 1), .kind = NIT_DONE);
    REPLY(nit_title(server, a, 1, TEXT("t")), .kind = NIT_DONE);
    REPLY(nit_front(server, a, 1), .kind = NIT_DONE);
    REPLY(nit_back(server, a, 1), .kind = NIT_DONE);
    REPLY(nit_above(server, a, 1, 1), .kind = NIT_DONE);
    REPLY(nit_refresh(server, a, 0, 0, 8, 8, words, 64), .kind = NIT_DONE);
    REPLY(nit_upgrade(server, a, 4096), .kind = NIT_DONE);
    REPLY(nit_take(server, a + 65536), .kind = NIT_OTHER_CLIENT);
}

static void looks(struct nit_server *server)
{
    static uint32_t frame[64 * 32];
    char text[20];
    CHECK(nit_look(server, frame, 64 * 32).kind == NIT_DONE);
    CHECK(nit_look_anew(server, frame, 64 * 32).w == 0);
    CHECK(nit_damage(server).count == 0);
    CHECK(nit_copy(server, 0, 0, 64, 32, frame, 64 * 32, 64) == NIT_DONE);
    CHECK(nit_shown(server, 9, 20).view == 1 && nit_owner(server, 9, 20).view == 1);
    CHECK(nit_view_at(server, 0).view == 1 && nit_title_at(server, 0, text, 20) == 1);
    CHECK(nit_label(server, 0, text, 20) == 1 && nit_account(server, 0).width == 8);
}

static void calls(struct nit_server *server)
{
    SEATED(nit_seat_for(server, TEXT("a"), 0), .kind = NIT_DONE);
    nit_client a = sits_on(server, 0, "a");
    client_calls(server, a);
    CHECK(nit_raise(server, a, 1) == NIT_DONE && nit_lower(server, a, 1) == NIT_DONE);
    CHECK(nit_motion(server, 9, 20).count == 1 && nit_wheel(server, 1).count == 1);
    looks(server);
    CHECK(nit_press(server, 272).count == 2 && nit_held(server, 0) == 272);
    CHECK(nit_release(server, 272).count == 1);
    CHECK(nit_press(server, 70).count == 1 && nit_damage(server).count > 0);
    CHECK(nit_press(server, 70).count == 0 && nit_take(server, a).kind == NIT_EVENT);
    CHECK(nit_state(server).seats == 16 && nit_seat_state(server, 0).waiting == 5);
    REPLY(nit_destroy(server, a, 1), .kind = NIT_DONE);
    REPLY(nit_leave(server, a), .kind = NIT_DONE);
    sits_on(server, 0, "b");
}

static void calls_make_none(struct nit_server *server)
{
    size_t requests = memory_requests, held = memory_held;
    calls(server);
    CHECK(memory_requests == requests && memory_held == held);
}

/* ---- The text of a step takes memory for its time, or says that there is none. */

static void refuse_text(struct nit_server *server)
{
    static const char line[] = "call 0 handle 1 < view\n";
    size_t number = 0, held = memory_held, length;
    char out[NIT_LINE];
    nit_client client = nit_seat_state(server, 0).client;
    REPLY(nit_view(server, client), .kind = NIT_HANDLE, .handle = 1);
    do {
        memset(out, 'x', sizeof out);
        memory_refuse(++number);
        length = nit_entry(server, out, sizeof out);
        CHECK(length == (memory_was_refused() ? SIZE_MAX : sizeof line - 1));
        CHECK(length != SIZE_MAX || out[0] == 'x');
        memory_refuse(0);
        CHECK(memory_held == held);
    } while (length == SIZE_MAX);
    CHECK(memcmp(out, line, length) == 0 && out[length] == 'x');
    printf("refused_memory: the text of a step, %zu requests\n", number - 1);
}

/* ---- So does the line in which a text stops being TOML. */

static void refuse_line(void)
{
    size_t number = 0, held = memory_held;
    for (bool refused = true; refused;) {
        memory_refuse(++number);
        uint32_t line = nit_config_line(TEXT("a = [ 1, 2 ]\nb = { c = \"d\" }\n=\n"));
        refused = memory_was_refused();
        memory_refuse(0);
        CHECK(line == (refused ? NIT_NONE : 3) && memory_held == held);
    }
    printf("refused_memory: the line of a text, %zu requests\n", number - 1);
}

int main(void)
{
    struct nit_server server = NIT_CLOSED;
    refuse_each("a configuration", open_by_text);
    refuse_each("a plan", open_by_seats);
    CHECK(open_by_seats(&server) == NIT_DONE);
    calls_make_none(&server);
    refuse_text(&server);
    refuse_line();
    close_plain(&server);
    return 0;
}

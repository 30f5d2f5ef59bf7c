// A C++ program that uses each kind of thing of the header.
#include "nitpicker.h"

static_assert(NIT_VERSION == 3, "another header");

namespace {

class Screen {
public:
    Screen()
    {
        const struct nit_seat_plan seats[] = {{65536, 0, 1}};
        const struct nit_plan plan = {8, 8, 0, 1, seats, 1, 2};
        if (nit_open(&server, &plan) == NIT_DONE)
            client = nit_seat(&server, 0, "a", 1).client;
    }

    Screen(const Screen &) = delete;

    ~Screen()
    {
        nit_close(&server);
    }

    // What reads takes a const server.
    size_t read() const
    {
        char text[NIT_LINE];
        const struct nit_state state = nit_state(&server);
        const struct nit_seat_state seat = nit_seat_state(&server, nit_seat_of(client));
        const struct nit_view_state views[] = {nit_view_at(&server, 0), nit_owner(&server, 0, 0),
                                               nit_shown(&server, 0, 0)};
        const bool is_there = state.kind == NIT_DONE && seat.client == client
            && views[0].kind == NIT_DONE && nit_account(&server, 0).kind == NIT_DONE
            && nit_seat_for(&server, "b", 1, 0).kind == NIT_NO_FREE_SEAT;
        return is_there ? nit_label(&server, 0, text, sizeof text)
                + nit_title_at(&server, 0, text, sizeof text) + nit_held(&server, 0)
                + nit_entry(&server, text, sizeof text)
                        : 0;
    }

    bool copies(uint32_t *frame)
    {
        return nit_copy(&server, 0, 0, 8, 8, frame, 64, 8) == NIT_DONE;
    }

    nit_server server = NIT_CLOSED;
    nit_client client = 0;
};

} // namespace

int main()
{
    Screen screen;
    uint32_t frame[64];
    struct nit_reply reply = nit_view(&screen.server, screen.client);
    struct nit_damage damage = nit_damage(&screen.server);
    struct nit_routed routed = nit_press(&screen.server, 272);
    return reply.kind == NIT_HANDLE && routed.kind == NIT_DONE && damage.count == 1
            && nit_raise(&screen.server, screen.client, 1) == NIT_DONE && screen.copies(frame)
            && screen.read() > 0 && nit_text(NIT_DONE)[0] == 'N'
        ? 0
        : 1;
}

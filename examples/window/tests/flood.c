/* A client of the test that does nothing but refresh, as fast as it is let: it keeps 64 calls under
 * way, and reads each reply. So it floods by the rules, and the host serves it by slices. Linux
 * counts what it reads in /proc/PID/io, where the test finds how many calls were served. */
#include "client.h"
#include "protocol.h"
#include <unistd.h>

enum { SIDE = 256 };

int main(void)
{
    const struct call refresh = { .call = CALL_REFRESH, .w = 16, .h = 16 };
    struct client client = { 0 };
    struct reply reply;
    uint32_t view = client_view();
    if (view == 0 || !client_buffer(&client, SIDE, SIDE))
        return 1;
    client_place(view, 500, 500, SIDE, SIDE);
    client_fill(&client, 0, 0, SIDE, SIDE, 0xA02020);
    client_refresh(0, 0, SIDE, SIDE);
    for (uint32_t sent = 0;; sent++) {
        if (sent >= PROTOCOL_CALLS && read(PROTOCOL_SOCKET, &reply, sizeof reply) <= 0)
            return 0;
        client_fill(&client, 0, 0, 16, 16, sent);
        client_send(&refresh);
    }
}

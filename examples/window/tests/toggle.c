/* A client of the test: its view is of one colour, and of the other one after each key. So a
 * pixel tells when a key has come, and has been shown. */
#include "client.h"

int main(void)
{
    static const uint32_t colours[2] = { 0x0000F0, 0x00F000 };
    struct client client = { 0 };
    uint32_t keys = 0, view = client_view();
    if (view == 0 || !client_buffer(&client, 64, 64))
        return 1;
    client_place(view, 10, 700, 64, 64);
    for (;;) {
        client_fill(&client, 0, 0, 64, 64, colours[keys % 2]);
        client_refresh(0, 0, 64, 64);
        while (!client_wait(&client, -1) || client.event.kind != NIT_PRESS ||
               client.event.code >= 272)
            continue;
        keys++;
    }
}

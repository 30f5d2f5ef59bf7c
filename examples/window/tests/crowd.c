/* A client of the test that makes each call as dear as it can: 64 views of a few columns, one over
 * the other, and all the time another one in front. In X-ray mode the labels of all are placed anew
 * each time. It keeps 64 calls under way, and reads each reply. Where it is started by the name
 * `still` it makes no more calls once its views stand. */
#include "client.h"
#include "protocol.h"
#include <string.h>
#include <unistd.h>

enum { VIEWS = 64, COLUMNS = 1024, TOP = 7, HEIGHT = 680 };

int main(int count, char **words)
{
    struct client client = { 0 };
    struct reply reply;
    uint32_t views[VIEWS];
    if (!client_buffer(&client, 64, 64))
        return 1;
    for (uint32_t at = 0; at < VIEWS; at++) {
        uint32_t column = ((uint32_t)getpid() * VIEWS + at) % COLUMNS;
        views[at] = client_view();
        client_title(views[at], "a");
        client_place(views[at], (int32_t)(column & ~1u), TOP, column % 2 ? 1 : 3, HEIGHT);
    }
    while (count > 0 && strstr(words[0], "still"))
        client_wait(&client, -1);
    for (uint32_t sent = 0;; sent++) {
        if (sent >= PROTOCOL_CALLS && read(PROTOCOL_SOCKET, &reply, sizeof reply) <= 0)
            return 0;
        client_send(&(struct call){ .call = CALL_FRONT, .view = views[sent * 17 % VIEWS] });
    }
}

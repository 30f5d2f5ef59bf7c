/* A host in a shared object, over the archive, that another program loads: plugin_load.c. */
#include "nitpicker.h"

uint32_t plugin_serves(void);

/* A server with a client whose one word is shown: that word, or 0 where something is refused. */
uint32_t plugin_serves(void)
{
    const struct nit_seat_plan seat = { 65536, 0, 1 };
    const struct nit_plan plan = { .width = 16, .height = 16, .bar = 1,
                                   .count = 1, .seats = &seat };
    struct nit_server server = NIT_CLOSED;
    uint32_t word = 0xABCDEF, shown = 0;
    if (nit_open(&server, &plan) != NIT_DONE)
        return 0;
    nit_client client = nit_seat(&server, 0, "plugin", 6).client;
    uint32_t view = nit_view(&server, client).handle;
    nit_buffer(&server, client, 1, 1);
    nit_place(&server, client, view, 9, 9, 1, 1);
    nit_refresh(&server, client, 0, 0, 1, 1, &word, 1);
    nit_copy(&server, 9, 9, 1, 1, &shown, 1, 1);
    return nit_close(&server) == NIT_DONE ? shown : 0;
}

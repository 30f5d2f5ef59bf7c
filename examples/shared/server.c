/* The server. Not proved; what it is asked for is. */
#include "shared.h"
#include <stdio.h>

struct host host = { .server = NIT_CLOSED, .scale = 1 };

/* What is no size is none that the library takes. */
void server_size(const char *size)
{
    char more;
    host.width = 1024;
    host.height = 768;
    if (size && sscanf(size, "%5dx%5d%c", &host.width, &host.height, &more) != 2)
        host.width = 0;
}

const char *server_open(const struct nit_seat_plan *seats)
{
    const struct nit_plan plan = {
        .width = (uint32_t)host.width, .height = (uint32_t)host.height, .bar = 1, .count = SEATS,
        .seats = seats, .glyphs = host.glyphs, .scale = host.dots,
    };
    uint32_t answer = nit_open(&host.server, &plan);
    if (answer == NIT_BAD_PLAN)
        return "a screen has up to 4096x4096 pixels, and a row below the bar";
    return answer == NIT_DONE ? NULL : "there is not so much memory";
}

struct nit_seated server_seat(const char *label, size_t length, uint32_t layer)
{
    struct nit_seated there = nit_seat_for(&host.server, label, length, layer);
    return there.kind == NIT_DONE ? nit_seat(&host.server, there.seat, label, length) : there;
}

bool frozen(void)
{
    return nit_state(&host.server).mode == NIT_MODE_KILL;
}

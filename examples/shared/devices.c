/* What the user does with mouse and keys, as the library's device events. Not proved. */
#include "shared.h"

/* A key or a button goes down or up. Only buttons and the two keys of modes change the picture.
 * Where another client has come under the pointer than the picture shows, a click is nobody's: the
 * new picture comes at once, and the user clicks again. */
static struct nit_routed code_event(uint32_t code, bool down)
{
    if (code == 0 || host_takes(code, down))
        return (struct nit_routed){ 0 };
    if (!down)
        return nit_release(&host.server, code);
    struct nit_routed routed = nit_press(&host.server, code);
    host.changed |= code >= FIRST_BUTTON || code == XRAY_KEY || code == KILL_KEY;
    host.next = routed.kind == NIT_MOVED ? 0 : host.next;
    return routed;
}

static struct nit_routed motion_event(const SDL_MouseMotionEvent *event)
{
    int32_t x = event->x / host.scale, y = event->y / host.scale;
    host_moved(x, y);
    return nit_motion(&host.server, (uint32_t)SDL_clamp(x, 0, 65535),
                      (uint32_t)SDL_clamp(y, 0, 65535));
}

/* The library knows one wheel. Which way it turns is the host's word to whom the turn goes; a host
 * that has no such word takes no turn sideways. */
static struct nit_routed wheel_event(const SDL_MouseWheelEvent *event)
{
    int turn = event->y != 0 || !host.both_ways ? event->y : -event->x;
    host.sideways = event->y == 0;
    if (turn == 0)
        return (struct nit_routed){ 0 };
    return nit_wheel(&host.server, SDL_clamp(turn, -127, 127));
}

/* Tells the library, and answers to whom the event went: to nobody where it is none of a device. */
static struct nit_routed device_event(const SDL_Event *event)
{
    switch (event->type) {
    case SDL_KEYDOWN:
    case SDL_KEYUP:
        return code_event(keys_code(&event->key), event->type == SDL_KEYDOWN);
    case SDL_MOUSEBUTTONDOWN:
    case SDL_MOUSEBUTTONUP:
        return code_event(keys_button(&event->button), event->type == SDL_MOUSEBUTTONDOWN);
    case SDL_MOUSEMOTION:
        return motion_event(&event->motion);
    case SDL_MOUSEWHEEL:
        return wheel_event(&event->wheel);
    case SDL_WINDOWEVENT:
        if (event->window.event == SDL_WINDOWEVENT_EXPOSED ||
            event->window.event == SDL_WINDOWEVENT_SIZE_CHANGED)
            host.changed = host.whole = true;
        break;
    case SDL_QUIT:
        host.over = true;
        break;
    }
    return (struct nit_routed){ 0 };
}

void devices_wait(struct pollfd *any, nfds_t count, uint64_t end)
{
    uint64_t time = now();
    int wait = end == UINT64_MAX ? -1 : (int)((SDL_max(end, time) - time + 999) / 1000);
    SDL_PumpEvents();
    poll(any, count, SDL_HasEvents(SDL_FIRSTEVENT, SDL_LASTEVENT) ? 0 : wait);
}

void devices_read(void)
{
    SDL_Event event;
    while (SDL_PollEvent(&event)) {
        struct nit_routed routed = device_event(&event);
        host_delivers(&routed);
    }
}

/* The window, and what it shows. Not proved. */
#include "shared.h"
#include <SDL_syswm.h>

static SDL_Surface *picture;  /* of the screen, where the window shows it larger */

/* The window system is X11, whose descriptor can be waited for. The library's words are those of
 * the window, as they are on each screen of 24 bits. */
bool screen_open(void)
{
    SDL_DisplayMode mode = { 0 };
    SDL_SysWMinfo system;
    SDL_VERSION(&system.version);
    SDL_SetHint(SDL_HINT_VIDEODRIVER, "x11");
    SDL_SetHint(SDL_HINT_FRAMEBUFFER_ACCELERATION, "0");
    SDL_SetHint(SDL_HINT_NO_SIGNAL_HANDLERS, "1");
    if (SDL_Init(SDL_INIT_VIDEO) < 0)
        return false;
    SDL_EnableScreenSaver();
    SDL_StopTextInput();
    host.window = SDL_CreateWindow("Nitpicker", 0, 0, host.scale * host.width,
                                   host.scale * host.height, 0);
    SDL_Surface *surface = host.window ? SDL_GetWindowSurface(host.window) : NULL;
    if (!surface || !SDL_GetWindowWMInfo(host.window, &system))
        return false;
    host.x11 = ConnectionNumber(system.info.x11.display);
    SDL_GetCurrentDisplayMode(0, &mode);
    host.period = 1000000 / (uint64_t)(mode.refresh_rate > 0 ? mode.refresh_rate : 60);
    host.changed = host.whole = true;
    if (surface->format->format != SDL_PIXELFORMAT_RGB888)
        return SDL_SetError("the screen has other colours than those of 24 bits") == 0;
    if (host.scale > 1)
        picture = SDL_CreateRGBSurfaceWithFormat(0, host.width, host.height, 32,
                                                 SDL_PIXELFORMAT_RGB888);
    return picture || host.scale == 1;
}

/* Puts a part of the screen to its place in a surface, as far as that reaches. */
static SDL_Rect copy(SDL_Surface *surface, const struct nit_part *part)
{
    const SDL_Rect all = { 0, 0, surface->w, surface->h };
    SDL_Rect to = { (int)part->x, (int)part->y, (int)part->w, (int)part->h };
    size_t pitch = (size_t)surface->pitch / sizeof(uint32_t);
    if (!SDL_IntersectRect(&to, &all, &to))
        return (SDL_Rect){ 0 };
    size_t first = (size_t)to.y * pitch + (size_t)to.x, count = (size_t)surface->h * pitch;
    nit_copy(&host.server, part->x, part->y, (uint32_t)to.w, (uint32_t)to.h,
             (uint32_t *)surface->pixels + first, count - first, pitch);
    return to;
}

/* Puts it into the window, and answers where it is there. */
static SDL_Rect put(SDL_Surface *surface, const struct nit_part *part)
{
    if (!picture)
        return copy(surface, part);
    SDL_Rect from = copy(picture, part);
    SDL_Rect to = { host.scale * from.x, host.scale * from.y, host.scale * from.w,
                    host.scale * from.h };
    SDL_BlitScaled(picture, &from, surface, &to);
    return to;
}

/* A window that is new or that others have changed is shown whole, the others by the parts that
 * have changed. */
bool screen_look(void)
{
    SDL_Surface *surface = SDL_GetWindowSurface(host.window);
    if (!surface || (host.whole && SDL_FillRect(surface, NULL, 0) != 0))
        return false;
    struct nit_damage damage = nit_damage(&host.server);
    SDL_Rect places[sizeof damage.part / sizeof *damage.part];
    if (host.whole) {
        damage.count = 1;
        damage.part[0] = (struct nit_part){ 0, 0, (uint32_t)host.width, (uint32_t)host.height };
    }
    for (uint32_t at = 0; at < damage.count; at++)
        places[at] = put(surface, &damage.part[at]);
    if (host.whole)
        SDL_UpdateWindowSurface(host.window);
    else if (damage.count > 0)
        SDL_UpdateWindowSurfaceRects(host.window, places, (int)damage.count);
    host.changed = host.whole = false;
    return true;
}

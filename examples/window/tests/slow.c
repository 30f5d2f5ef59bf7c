/* A display of one picture a second, and a call that takes a third of one: so the test has time for
 * what it does between two pictures, or while the host is at a call. Each function stands in the
 * place of the one that it calls. */
#include <SDL.h>
#include <nitpicker.h>

int __real_SDL_GetCurrentDisplayMode(int display, SDL_DisplayMode *mode);
int __wrap_SDL_GetCurrentDisplayMode(int display, SDL_DisplayMode *mode);
struct nit_reply __real_nit_back(struct nit_server *server, nit_client client, uint32_t view);
struct nit_reply __wrap_nit_back(struct nit_server *server, nit_client client, uint32_t view);

int __wrap_SDL_GetCurrentDisplayMode(int display, SDL_DisplayMode *mode)
{
    int answer = __real_SDL_GetCurrentDisplayMode(display, mode);
    mode->refresh_rate = 1;
    return answer;
}

struct nit_reply __wrap_nit_back(struct nit_server *server, nit_client client, uint32_t view)
{
    SDL_Delay(333);
    return __real_nit_back(server, client, view);
}

/* A client of random requests: random SEED REQUESTS. Their order, objects and numbers are by
 * chance, mostly such as might do something. It connects again where the host ends it, and says how
 * many requests it made. */
#include "client.h"
#include <stdbool.h>

enum { OBJECTS = 200, KINDS = 21 };

static const struct wl_interface *const kinds[KINDS] = {
    &wl_compositor_interface, &wl_subcompositor_interface, &wl_shm_interface, &wl_seat_interface,
    &wl_data_device_manager_interface, &xdg_wm_base_interface, &wl_surface_interface,
    &wl_region_interface, &wl_shm_pool_interface, &wl_buffer_interface, &wl_subsurface_interface,
    &wl_pointer_interface, &wl_keyboard_interface, &wl_data_device_interface,
    &wl_data_source_interface, &wl_data_offer_interface, &xdg_positioner_interface,
    &xdg_surface_interface, &xdg_toplevel_interface, &xdg_popup_interface, &wl_callback_interface
};

static struct wl_proxy *proxies[OBJECTS];
static const struct wl_interface *kind_of[OBJECTS];
static int memories[4];

static uint32_t chance(uint32_t below)
{
    return (uint32_t)(((uint64_t)(uint32_t)mrand48() * below) >> 32);
}

static int32_t number(void)
{
    static const int32_t ends[] = { 0, -1, INT32_MAX, INT32_MIN, 32767, -32768, 65536, 4096 };
    return chance(12) == 0 ? ends[chance(8)] : (int32_t)chance(chance(2) ? 8 : 600);
}

static int keep(struct wl_proxy *proxy, const struct wl_interface *kind)
{
    for (int at = 0; at < OBJECTS; at++)
        if (!proxies[at]) {
            proxies[at] = proxy;
            kind_of[at] = kind;
            return at;
        }
    return -1;
}

/* One of the objects of this kind, or -1. */
static int some(const struct wl_interface *kind)
{
    int start = (int)chance(OBJECTS);
    for (int at = 0; at < OBJECTS; at++)
        if (proxies[(start + at) % OBJECTS] && (!kind || kind_of[(start + at) % OBJECTS] == kind))
            return (start + at) % OBJECTS;
    return -1;
}

static void forget(int at)
{
    proxies[at] = NULL;
}

/* The size and the place of a buffer fit its memory, mostly. */
static void fit(const struct wl_interface *kind, uint32_t code, union wl_argument *with)
{
    static const uint32_t formats[] = { 0, 1, 0, 1, 7 };
    if (kind == &wl_shm_pool_interface && code == 0 && chance(20) > 0) {
        int32_t w = 1 + (int32_t)chance(300), h = 1 + (int32_t)chance(200);
        with[1].i = 0;
        with[2].i = w;
        with[3].i = h;
        with[4].i = 4 * w;
        with[5].u = formats[chance(50) == 0 ? 4 : chance(4)];
    }
    if (kind == &wl_shm_interface)
        with[2].i = 1 << 20;
    if (kind == &wl_surface_interface && (code == 7 || code == 8) && chance(30) > 0)
        with[0].i = code == 8;
}

/* Fills in what a request is given, by its signature. False where there is nothing to give. */
static bool fill(const struct wl_message *message, union wl_argument *with)
{
    int at = 0;
    bool may_lack = false, good = true;
    for (const char *sign = message->signature; *sign && good; sign++) {
        int found = *sign == 'o' ? some(message->types[at]) : -1;
        with[at] = (union wl_argument){ .u = (uint32_t)number() };
        if (*sign == 'o') {
            with[at].o = found < 0 || (may_lack && chance(4) == 0) ? NULL :
                         (struct wl_object *)proxies[found];
            good = with[at].o || may_lack;
        } else if (*sign == 's') {
            with[at].s = chance(2) ? "text/plain" : "Title 1";
        } else if (*sign == 'h') {
            with[at].h = dup(memories[chance(4)]);
        } else if (*sign == 'n') {
            with[at].o = NULL;
        }
        may_lack = *sign == '?';
        at += strchr("iufsonah", *sign) != NULL;
    }
    return good;
}

static bool destroys(const struct wl_message *message)
{
    return !strcmp(message->name, "destroy") || !strcmp(message->name, "release");
}

static void ignore(void) { }

static int dispatch(const void *none, void *target, uint32_t code, const struct wl_message *message,
                    union wl_argument *with)
{
    struct wl_proxy *proxy = target;
    (void)none;
    if (!strcmp(wl_proxy_get_class(proxy), "xdg_surface") && code == 0 && chance(8) > 0)
        xdg_surface_ack_configure((struct xdg_surface *)proxy, with[0].u);
    if (!strcmp(message->name, "keymap"))
        close(with[1].h);
    if (!strcmp(message->name, "send"))
        close(with[1].h);
    if (!strcmp(message->name, "data_offer") && with[0].o) {
        struct wl_proxy *made = (struct wl_proxy *)with[0].o;
        wl_proxy_add_dispatcher(made, dispatch, ignore, NULL);
        keep(made, &wl_data_offer_interface);
    }
    return 0;
}

/* Requests that mostly end the client come seldom, and those of later versions never. */
static bool is_left_out(const struct wl_message *message, uint32_t version)
{
    bool seldom = destroys(message) || !strcmp(message->name, "get_subsurface") ||
                  !strcmp(message->name, "get_xdg_surface") ||
                  !strcmp(message->name, "set_cursor") || !strcmp(message->name, "get_touch");
    uint32_t since = (uint32_t)atoi(message->signature);
    return (seldom && chance(30) > 0) || since > version || !strcmp(message->name, "start_drag");
}

/* What a request makes, or NULL. */
static const struct wl_interface *makes(const struct wl_message *message)
{
    const char *sign = message->signature;
    int place = 0;
    for (; *sign && *sign != 'n'; sign++)
        place += strchr("iufsonah", *sign) != NULL;
    return *sign == 'n' ? message->types[place] : NULL;
}

/* One request. False where there is none to make. */
static bool ask(void)
{
    union wl_argument with[20];
    int at = some(chance(3) ? NULL : kinds[chance(KINDS)]);
    if (at < 0 || kind_of[at]->method_count == 0)
        return false;
    const struct wl_interface *kind = kind_of[at];
    uint32_t code = chance((uint32_t)kind->method_count);
    const struct wl_message *message = &kind->methods[code];
    uint32_t version = wl_proxy_get_version(proxies[at]);
    if (is_left_out(message, version) || !fill(message, with))
        return false;
    fit(kind, code, with);
    const struct wl_interface *made = makes(message);
    struct wl_proxy *proxy = wl_proxy_marshal_array_flags(
        proxies[at], code, made, version, destroys(message) ? WL_MARSHAL_FLAG_DESTROY : 0, with);
    if (destroys(message))
        forget(at);
    if (proxy && keep(proxy, made) < 0)
        wl_proxy_destroy(proxy);
    else if (proxy)
        wl_proxy_add_dispatcher(proxy, dispatch, ignore, NULL);
    return true;
}

/* The globals, to begin with. */
static void start(void)
{
    struct wl_proxy *const all[] = { (struct wl_proxy *)compositor,
        (struct wl_proxy *)subcompositor, (struct wl_proxy *)shm, (struct wl_proxy *)seat,
        (struct wl_proxy *)manager, (struct wl_proxy *)shell };
    memset(proxies, 0, sizeof proxies);
    for (int at = 0; at < 6; at++) {
        wl_proxy_add_dispatcher(all[at], dispatch, ignore, NULL);
        keep(all[at], kinds[at]);
    }
}

static void say_nothing(const char *format, va_list more)
{
    (void)format, (void)more;
}

/* So many requests at most by one connection. Answers how many. */
static long connection(long most)
{
    long asked = 0;
    start();
    for (int k = 0; k < 3000 && asked < most && !wl_display_get_error(display); k++) {
        asked += ask();
        if (k % 10 == 9)
            wl_display_roundtrip(display);
    }
    wl_display_disconnect(display);
    return asked;
}

/* Pieces of memory, of which one is too small for each buffer. */
static void remember(void)
{
    for (int at = 0; at < 4; at++) {
        memories[at] = memfd_create("random", 0);
        if (ftruncate(memories[at], at < 3 ? 1 << 20 : 0) < 0)
            exit(9);
    }
}

int main(int count, char **words)
{
    long asked = 0, wanted = count == 3 ? atol(words[2]) : 0;
    int connections = 0;
    if (wanted == 0)
        return 1;
    srand48(atol(words[1]));
    wl_log_set_handler_client(say_nothing);
    setvbuf(stdout, NULL, _IOLBF, 0);
    remember();
    for (; asked < wanted && begin(); connections++)
        asked += connection(wanted - asked);
    printf("random: %ld requests by %d connections\n", asked, connections);
    return 0;
}

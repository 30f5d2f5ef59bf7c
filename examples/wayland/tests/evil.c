/* A client that breaks the protocol or strains it: evil MISDEED. It says what became of it. */
#include "client.h"
#include <errno.h>
#include <stdbool.h>

static int cancelled, popup_over;

/* ---- What it hears */

static void target(void *none, struct wl_data_source *self, const char *type)
{
    (void)none, (void)self, (void)type;
}

static void sent(void *none, struct wl_data_source *self, const char *type, int file)
{
    (void)none, (void)self, (void)type;
    close(file);
}

static void cancel(void *none, struct wl_data_source *self)
{
    (void)none, (void)self;
    cancelled = 1;
}

static const struct wl_data_source_listener on_source = { .target = target, .send = sent,
                                                          .cancelled = cancel };

static void popup_configured(void *none, struct xdg_popup *self, int32_t x, int32_t y, int32_t w,
                             int32_t h)
{
    (void)none, (void)self, (void)x, (void)y, (void)w, (void)h;
}

static void popup_done(void *none, struct xdg_popup *self)
{
    (void)none, (void)self;
    popup_over = 1;
}

static const struct xdg_popup_listener on_popup = { .configure = popup_configured,
                                                   .popup_done = popup_done };

/* ---- Misdeeds */

/* Rows that overlap each other. */
static void stride(void)
{
    show(buffer(1000, 1000, 1000, 1000000, 0xFF00C000), 1000, 1000);
}

/* Memory that shrinks before it is read. */
static void shrink(void)
{
    struct wl_buffer *words = plain(500, 500, 0xFF00C000);
    wl_display_roundtrip(display);
    if (ftruncate(memory, 0) == 0)
        show(words, 500, 500);
}

/* A buffer that reaches beyond its memory. */
static void beyond(void)
{
    struct wl_shm_pool *pool = wl_shm_create_pool(shm, memfd_create("small", 0), 4096);
    show(wl_shm_pool_create_buffer(pool, INT32_MAX - 4, 30000, 30000, 120000,
                                   WL_SHM_FORMAT_XRGB8888), 30000, 30000);
}

/* Words that are no memory. */
static void file(void)
{
    wl_shm_create_pool(shm, STDOUT_FILENO, 4096);
}

/* More surfaces than a client may have, and fewer than objects. */
static void surfaces(void)
{
    for (int k = 0; k < 300; k++)
        wl_compositor_create_surface(compositor);
}

static void registries(void)
{
    for (int k = 0; k < 10000; k++)
        wl_display_get_registry(display);
}

static void keyboards(void)
{
    for (int k = 0; k < 1000; k++)
        wl_seat_get_keyboard(seat);
}

/* Numbers of objects that are never used again. */
static void numbers_up(void)
{
    for (int k = 0; k < 200000 && !wl_display_get_error(display); k++) {
        wl_display_sync(display);
        if (k % 64 == 0)
            wl_display_roundtrip(display);
    }
}

/* It asks and never listens. */
static void deaf(void)
{
    for (int k = 0; k < 1000000 && !wl_display_get_error(display); k++) {
        wl_display_sync(display);
        if (k % 64 == 0 && wl_display_flush(display) < 0 && errno == EAGAIN)
            usleep(1000);
    }
}

/* Words before the window is told its size. */
static void early(void)
{
    struct wl_surface *other = wl_compositor_create_surface(compositor);
    xdg_surface_get_toplevel(xdg_wm_base_get_xdg_surface(shell, other));
    wl_surface_attach(other, plain(10, 10, 0), 0, 0);
    wl_surface_commit(other);
}

/* The clipboard without the focus. */
static void steal(void)
{
    struct wl_data_source *source = wl_data_device_manager_create_data_source(manager);
    wl_data_source_add_listener(source, &on_source, NULL);
    wl_data_source_offer(source, "text/plain");
    wl_data_device_set_selection(wl_data_device_manager_get_data_device(manager, seat), source,
                                 last_serial);
    wl_display_roundtrip(display);
    printf("evil: cancelled %d\n", cancelled);
}

/* Surfaces that are each other's parents. */
static void loop(void)
{
    struct wl_surface *one = wl_compositor_create_surface(compositor);
    struct wl_surface *two = wl_compositor_create_surface(compositor);
    wl_subcompositor_get_subsurface(subcompositor, one, surface);
    struct wl_subsurface *child = wl_subcompositor_get_subsurface(subcompositor, two, one);
    wl_subsurface_place_above(child, one);
    wl_subsurface_place_below(child, two);
    wl_display_roundtrip(display);
    wl_subcompositor_get_subsurface(subcompositor, surface, two);
}

static void far_surface(void)
{
    struct wl_region *region = wl_compositor_create_region(compositor);
    wl_region_add(region, INT32_MIN, INT32_MIN, INT32_MAX, INT32_MAX);
    wl_region_add(region, INT32_MAX, INT32_MAX, INT32_MAX, INT32_MAX);
    wl_surface_set_input_region(surface, region);
    xdg_surface_set_window_geometry(as_window, INT32_MIN, INT32_MAX, INT32_MAX, INT32_MAX);
    wl_surface_attach(surface, plain(500, 500, 0xFF00C000), INT32_MAX, INT32_MIN);
    wl_surface_damage(surface, INT32_MIN, INT32_MIN, INT32_MAX, INT32_MAX);
    wl_surface_damage_buffer(surface, INT32_MAX, INT32_MAX, INT32_MAX, -5);
    wl_surface_damage_buffer(surface, 10, 10, INT32_MAX, INT32_MAX);
    wl_surface_commit(surface);
    xdg_surface_set_window_geometry(as_window, 10, 10, 100, 100);
    show(plain(500, 500, 0xFF00C000), INT32_MAX, INT32_MAX);
}

/* Numbers at the ends of what fits, and a popup without the focus. */
static void numbers(void)
{
    far_surface();
    struct wl_surface *child = wl_compositor_create_surface(compositor);
    struct wl_subsurface *sub = wl_subcompositor_get_subsurface(subcompositor, child, surface);
    wl_subsurface_set_position(sub, INT32_MAX, INT32_MIN);
    wl_subsurface_set_desync(sub);
    wl_surface_attach(child, plain(20, 20, 0), 0, 0);
    wl_surface_commit(child);
    wl_surface_commit(surface);
    struct xdg_positioner *by = xdg_wm_base_create_positioner(shell);
    xdg_positioner_set_size(by, INT32_MAX, INT32_MAX);
    xdg_positioner_set_anchor_rect(by, INT32_MAX, INT32_MIN, INT32_MAX, INT32_MAX);
    xdg_positioner_set_anchor(by, 99);
    xdg_positioner_set_gravity(by, 0xFFFFFFFF);
    xdg_positioner_set_constraint_adjustment(by, 0xFFFFFFFF);
    xdg_positioner_set_offset(by, INT32_MIN, INT32_MAX);
    struct wl_surface *over = wl_compositor_create_surface(compositor);
    struct xdg_surface *as = xdg_wm_base_get_xdg_surface(shell, over);
    struct xdg_popup *popup = xdg_surface_get_popup(as, as_window, by);
    xdg_popup_add_listener(popup, &on_popup, NULL);
    xdg_popup_grab(popup, seat, last_serial);
    wl_surface_commit(over);
    wl_display_roundtrip(display);
    printf("evil: popup without the focus is over %d\n", popup_over);
}

/* Objects that end in a wrong order. */
static void order(void)
{
    show(plain(100, 100, 0), 100, 100);
    wl_display_roundtrip(display);
    wl_surface_destroy(surface);
    xdg_toplevel_set_title(top, "after");
    xdg_toplevel_set_maximized(top);
    xdg_surface_set_window_geometry(as_window, 0, 0, 5, 5);
    xdg_surface_destroy(as_window);
    xdg_toplevel_set_fullscreen(top, NULL);
    xdg_toplevel_destroy(top);
    window("again");
    struct wl_buffer *words = plain(100, 100, 0);
    wl_surface_attach(surface, words, 0, 0);
    wl_buffer_destroy(words);
    wl_surface_commit(surface);
    xdg_surface_destroy(as_window);
    wl_surface_commit(surface);
    xdg_toplevel_destroy(top);
    wl_surface_commit(surface);
}

static void objects(void)
{
    for (int k = 0; k < 300000 && !wl_display_get_error(display); k++) {
        wl_compositor_create_region(compositor);
        if (k % 20 == 0)
            wl_display_roundtrip(display);
    }
}

static void pools(void)
{
    for (int k = 0; k < 3000 && !wl_display_get_error(display); k++) {
        int small = memfd_create("small", 0);
        wl_shm_create_pool(shm, small, 4096);
        close(small);
        if (k % 10 == 0)
            wl_display_roundtrip(display);
    }
}

/* A window of 1000 by 700 all the time, for a minute. */
static void flood(void)
{
    struct wl_buffer *words = plain(1000, 700, 0xFF00C000);
    for (double end = seconds() + 60; seconds() < end && !wl_display_get_error(display);) {
        show(words, 1000, 700);
        wl_display_roundtrip(display);
    }
}

/* Small requests without end, for a minute. */
static void chatter(void)
{
    show(plain(200, 100, 0xFF00C000), 200, 100);
    double end = seconds() + 60;
    for (int k = 0; seconds() < end && !wl_display_get_error(display); k++) {
        wl_surface_commit(surface);
        if (k % 100 == 99)
            wl_display_roundtrip(display);
    }
}

/* More windows than the client's memory has room for. */
static void windows(void)
{
    for (int k = 0; k < 12; k++) {
        window("big");
        show(plain(1000, 700, 0xFF00C000 + 16 * (uint32_t)k), 1000, 700);
        wl_display_roundtrip(display);
    }
    sleep(3);
}

int main(int count, char **words)
{
    static const struct {
        const char *name;
        void (*do_it)(void);
    } all[] = { { "stride", stride }, { "shrink", shrink }, { "beyond", beyond }, { "file", file },
                { "surfaces", surfaces }, { "registries", registries }, { "keyboards", keyboards },
                { "numbers-up", numbers_up }, { "deaf", deaf }, { "early", early },
                { "steal", steal }, { "loop", loop }, { "numbers", numbers }, { "order", order },
                { "objects", objects }, { "pools", pools }, { "flood", flood },
                { "chatter", chatter }, { "windows", windows } };
    size_t at = 0;
    setvbuf(stdout, NULL, _IOLBF, 0);
    while (count == 2 && at < sizeof all / sizeof *all && strcmp(all[at].name, words[1]))
        at++;
    if (count != 2 || at == sizeof all / sizeof *all || !begin())
        return 1;
    window("evil");
    all[at].do_it();
    if (!wl_display_get_error(display))
        wl_display_roundtrip(display);
    usleep(300000);           /* a look has come by then */
    bool over = wl_display_get_error(display) || wl_display_roundtrip(display) < 0;
    puts(over ? "evil: disconnected" : "evil: lives");
    return 0;
}

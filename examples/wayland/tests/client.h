/* What the clients of the test stand on: the globals, a window, a buffer. */
#ifndef CLIENT_H
#define CLIENT_H

#include <stdint.h>
#include <stdio.h>
#include <stdlib.h>
#include <string.h>
#include <sys/mman.h>
#include <time.h>
#include <unistd.h>
#include <wayland-client.h>
#include <xdg-client.h>

static struct wl_display *display;
static struct wl_registry *registry;
static struct wl_compositor *compositor;
static struct wl_subcompositor *subcompositor;
static struct wl_shm *shm;
static struct wl_seat *seat;
static struct wl_data_device_manager *manager;
static struct xdg_wm_base *shell;
static struct wl_surface *surface;
static struct xdg_surface *as_window;
static struct xdg_toplevel *top;
static uint32_t last_serial;
static int memory;            /* of the last buffer */

static void *bound(uint32_t name, const struct wl_interface *interface, uint32_t version)
{
    return wl_registry_bind(registry, name, interface, version);
}

static void global(void *none, struct wl_registry *from, uint32_t name, const char *interface,
                   uint32_t version)
{
    (void)none, (void)from, (void)version;
    if (!strcmp(interface, wl_compositor_interface.name))
        compositor = bound(name, &wl_compositor_interface, 4);
    else if (!strcmp(interface, wl_subcompositor_interface.name))
        subcompositor = bound(name, &wl_subcompositor_interface, 1);
    else if (!strcmp(interface, wl_shm_interface.name))
        shm = bound(name, &wl_shm_interface, 1);
    else if (!strcmp(interface, wl_seat_interface.name))
        seat = bound(name, &wl_seat_interface, 5);
    else if (!strcmp(interface, wl_data_device_manager_interface.name))
        manager = bound(name, &wl_data_device_manager_interface, 3);
    else if (!strcmp(interface, xdg_wm_base_interface.name))
        shell = bound(name, &xdg_wm_base_interface, 2);
}

static void gone(void *none, struct wl_registry *from, uint32_t name)
{
    (void)none, (void)from, (void)name;
}

static const struct wl_registry_listener on_registry = { global, gone };

static void configured(void *none, struct xdg_surface *self, uint32_t serial)
{
    (void)none;
    last_serial = serial;
    xdg_surface_ack_configure(self, serial);
}

static const struct xdg_surface_listener on_surface = { configured };

/* Connects. False where nobody answers. */
static inline int begin(void)
{
    display = wl_display_connect(NULL);
    if (!display)
        return 0;
    registry = wl_display_get_registry(display);
    wl_registry_add_listener(registry, &on_registry, NULL);
    return wl_display_roundtrip(display) >= 0 && compositor && shm && shell && seat;
}

/* A buffer of this size in memory of its own, which is filled with a word. */
static inline struct wl_buffer *buffer(int w, int h, int stride, size_t size, uint32_t word)
{
    memory = memfd_create("test", 0);
    if (ftruncate(memory, (off_t)size) < 0)
        exit(9);
    uint32_t *at = mmap(NULL, size, PROT_READ | PROT_WRITE, MAP_SHARED, memory, 0);
    for (size_t k = 0; k < size / 4; k++)
        at[k] = word;
    munmap(at, size);
    struct wl_shm_pool *pool = wl_shm_create_pool(shm, memory, (int)size);
    struct wl_buffer *it = wl_shm_pool_create_buffer(pool, 0, w, h, stride,
                                                     WL_SHM_FORMAT_ARGB8888);
    wl_shm_pool_destroy(pool);
    return it;
}

static inline struct wl_buffer *plain(int w, int h, uint32_t word)
{
    return buffer(w, h, 4 * w, 4 * (size_t)w * (size_t)h, word);
}

/* A window without words yet. */
static inline void window(const char *title)
{
    surface = wl_compositor_create_surface(compositor);
    as_window = xdg_wm_base_get_xdg_surface(shell, surface);
    xdg_surface_add_listener(as_window, &on_surface, NULL);
    top = xdg_surface_get_toplevel(as_window);
    xdg_toplevel_set_title(top, title);
    wl_surface_commit(surface);
    wl_display_roundtrip(display);
}

/* The window shows these words. */
static inline void show(struct wl_buffer *words, int w, int h)
{
    wl_surface_attach(surface, words, 0, 0);
    wl_surface_damage(surface, 0, 0, w, h);
    wl_surface_commit(surface);
}

static inline double seconds(void)
{
    struct timespec time;
    clock_gettime(CLOCK_MONOTONIC, &time);
    return (double)time.tv_sec + 1e-9 * (double)time.tv_nsec;
}

#endif

/* A client with subsurfaces, which takes its next step when a file of the step's number is there.
 * It prints `step N` when it is done, and each buffer that it gets back and each frame. */
#include "client.h"

enum { RED = 0xF00000, GREEN = 0x00F000, BLUE = 0x0000F0, YELLOW = 0xF0F000, WHITE = 0xF0F0F0 };

struct sub {
    struct wl_surface *surface;
    struct wl_subsurface *as;
};

static struct sub first, second, inner;

/* ---- What the host says */

static void released(void *color, struct wl_buffer *self)
{
    (void)self;
    printf("released %06x\n", *(uint32_t *)color);
}

static const struct wl_buffer_listener on_buffer = { released };

static void frame(void *none, struct wl_callback *self, uint32_t time)
{
    (void)none, (void)time;
    printf("frame\n");
    wl_callback_destroy(self);
}

static const struct wl_callback_listener on_frame = { frame };

/* ---- What the client does */

static void next(void)
{
    static int number;
    char path[16];
    wl_display_roundtrip(display);
    printf("step %d\n", number);
    snprintf(path, sizeof path, "step%d", ++number);
    while (access(path, F_OK) != 0 && wl_display_roundtrip(display) >= 0)
        usleep(5000);
}

static struct sub sub_of(struct wl_surface *parent, int x, int y)
{
    struct sub it = { .surface = wl_compositor_create_surface(compositor) };
    it.as = wl_subcompositor_get_subsurface(subcompositor, it.surface, parent);
    wl_subsurface_set_position(it.as, x, y);
    return it;
}

static void attach(struct sub it, int size, uint32_t color)
{
    uint32_t *kept = malloc(sizeof *kept);
    struct wl_buffer *words = plain(size, size, 0xFF000000 | color);
    *kept = color;
    wl_buffer_add_listener(words, &on_buffer, kept);
    wl_surface_attach(it.surface, words, 0, 0);
    wl_surface_damage(it.surface, 0, 0, size, size);
}

static void put(struct sub it, int size, uint32_t color)
{
    attach(it, size, color);
    wl_surface_commit(it.surface);
}

/* What is committed waits for the parent, and what is not committed for more than that. */
static void keep(void)
{
    first = sub_of(surface, 20, 20);
    wl_callback_add_listener(wl_surface_frame(first.surface), &on_frame, NULL);
    put(first, 100, GREEN);
    next();
    wl_surface_commit(surface);
    next();
    put(first, 100, BLUE);
    attach(first, 100, YELLOW);
    next();
    wl_surface_commit(surface);
    next();
    wl_surface_commit(first.surface);
    put(first, 100, WHITE);
    next();
    wl_surface_commit(surface);
    next();
}

/* Where a subsurface stands waits for the parent in each way. */
static void stand(void)
{
    wl_subsurface_set_desync(first.as);
    put(first, 100, GREEN);
    next();
    wl_subsurface_set_position(first.as, 160, 20);
    wl_surface_commit(first.surface);
    next();
    wl_surface_commit(surface);
    next();
    second = sub_of(surface, 160, 20);
    put(second, 100, BLUE);
    wl_surface_commit(surface);
    next();
    wl_subsurface_place_below(second.as, first.surface);
    wl_surface_commit(second.surface);
    next();
    wl_surface_commit(surface);
    next();
}

/* One in another one goes with that while it is synchronized. */
static void nest(void)
{
    wl_subsurface_set_sync(first.as);
    inner = sub_of(first.surface, 0, 0);
    wl_subsurface_set_desync(inner.as);
    put(inner, 50, YELLOW);
    wl_surface_commit(first.surface);
    next();
    wl_surface_commit(surface);
    next();
    put(first, 100, WHITE);
    next();
    wl_subsurface_set_desync(first.as);
    next();
}

int main(void)
{
    setvbuf(stdout, NULL, _IOLBF, 0);
    if (!begin() || !subcompositor)
        return 1;
    window("subs");
    show(plain(300, 200, 0xFF000000 | RED), 300, 200);
    keep();
    stand();
    nest();
    wl_subsurface_place_above(second.as, inner.surface);
    printf("%s\n", wl_display_roundtrip(display) < 0 ? "disconnected" : "lives");
    return 0;
}

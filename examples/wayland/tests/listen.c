/* A client that writes down all that it is told: listen COLOR [drags | late | pulls | slow]. A line
 * is a word and numbers. It draws 300 by 200, and a frame whenever it may. With `drags` it asks to
 * be moved at each press, with `late` at each release, with `pulls` it asks at each press that the
 * edges are pulled which the pointer is at, and with `slow` it takes its time to have a new size,
 * and shows each. */
#include "client.h"

static struct wl_data_device *device;
static int drags, late, pulls, slow, width = 300, height = 200, place_x, place_y;
static uint32_t color;

/* ---- The keyboard */

static void keymap(void *none, struct wl_keyboard *self, uint32_t format, int file, uint32_t size)
{
    (void)none, (void)self, (void)format, (void)size;
    close(file);
}

static void key_enter(void *none, struct wl_keyboard *self, uint32_t serial,
                      struct wl_surface *where, struct wl_array *keys)
{
    (void)none, (void)self, (void)where;
    printf("keys %u held %zu\n", serial, keys->size / 4);
}

static void key_leave(void *none, struct wl_keyboard *self, uint32_t serial,
                      struct wl_surface *where)
{
    (void)none, (void)self, (void)where;
    printf("nokeys %u\n", serial);
}

static void key(void *none, struct wl_keyboard *self, uint32_t serial, uint32_t time,
                uint32_t code, uint32_t state)
{
    (void)none, (void)self, (void)time;
    printf("key %u %u %u\n", serial, code, state);
}

static void modifiers(void *none, struct wl_keyboard *self, uint32_t serial, uint32_t depressed,
                      uint32_t latched, uint32_t locked, uint32_t group)
{
    (void)none, (void)self;
    printf("modifiers %u %u %u %u %u\n", serial, depressed, latched, locked, group);
}

static void repeats(void *none, struct wl_keyboard *self, int32_t rate, int32_t delay)
{
    (void)none, (void)self, (void)rate, (void)delay;
}

static const struct wl_keyboard_listener on_keyboard = { keymap, key_enter, key_leave, key,
                                                         modifiers, repeats };

/* ---- The pointer */

static void enter(void *none, struct wl_pointer *self, uint32_t serial, struct wl_surface *where,
                  wl_fixed_t x, wl_fixed_t y)
{
    (void)none, (void)self, (void)where;
    place_x = wl_fixed_to_int(x);
    place_y = wl_fixed_to_int(y);
    printf("enter %u %d %d\n", serial, place_x, place_y);
}

static void leave(void *none, struct wl_pointer *self, uint32_t serial, struct wl_surface *where)
{
    (void)none, (void)self, (void)where;
    printf("leave %u\n", serial);
}

static void motion(void *none, struct wl_pointer *self, uint32_t time, wl_fixed_t x, wl_fixed_t y)
{
    (void)none, (void)self, (void)time;
    place_x = wl_fixed_to_int(x);
    place_y = wl_fixed_to_int(y);
    printf("motion %d %d\n", place_x, place_y);
}

/* The edges of the third of the window, across and down, that the pointer is in. */
static uint32_t edges(void)
{
    return (3 * place_x < width ? 4u : 3 * place_x > 2 * width ? 8u : 0u) |
           (3 * place_y < height ? 1u : 3 * place_y > 2 * height ? 2u : 0u);
}

static void button(void *none, struct wl_pointer *self, uint32_t serial, uint32_t time,
                   uint32_t code, uint32_t state)
{
    (void)none, (void)self, (void)time;
    printf("button %u %u %u\n", serial, code, state);
    if (state == 1 ? drags : late)
        xdg_toplevel_move(top, seat, serial);
    if (state == 1 && pulls)
        xdg_toplevel_resize(top, seat, serial, edges());
}

static void axis(void *none, struct wl_pointer *self, uint32_t time, uint32_t which, wl_fixed_t by)
{
    (void)none, (void)self, (void)time;
    printf("axis %u %d\n", which, wl_fixed_to_int(by));
}

static void over(void *none, struct wl_pointer *self)
{
    (void)none, (void)self;
}

static void source(void *none, struct wl_pointer *self, uint32_t which)
{
    (void)none, (void)self, (void)which;
}

static void stop(void *none, struct wl_pointer *self, uint32_t time, uint32_t which)
{
    (void)none, (void)self, (void)time, (void)which;
}

static void discrete(void *none, struct wl_pointer *self, uint32_t which, int32_t steps)
{
    (void)none, (void)self;
    printf("steps %u %d\n", which, steps);
}

static const struct wl_pointer_listener on_pointer = {
    .enter = enter, .leave = leave, .motion = motion, .button = button, .axis = axis,
    .frame = over, .axis_source = source, .axis_stop = stop, .axis_discrete = discrete
};

/* ---- The clipboard */

static void offered(void *none, struct wl_data_device *self, struct wl_data_offer *offer)
{
    (void)none, (void)self, (void)offer;
}

static void selection(void *none, struct wl_data_device *self, struct wl_data_offer *offer)
{
    (void)none, (void)self;
    printf("selection %d\n", offer != NULL);
}

static const struct wl_data_device_listener on_device = { .data_offer = offered,
                                                          .selection = selection };

/* ---- The window */

static const struct wl_callback_listener on_frame;

static void draw(void)
{
    static struct wl_buffer *words;
    static int w, h;
    if (!words || w != width || h != height)
        words = plain(w = width, h = height, 0xFF000000 | color);
    wl_callback_add_listener(wl_surface_frame(surface), &on_frame, NULL);
    show(words, w, h);
}

static void frame(void *none, struct wl_callback *self, uint32_t time)
{
    (void)none;
    printf("frame %u at %.6f\n", time, seconds());
    wl_callback_destroy(self);
    draw();
}

static const struct wl_callback_listener on_frame = { frame };

static void toplevel(void *none, struct xdg_toplevel *self, int32_t w, int32_t h,
                     struct wl_array *states)
{
    (void)none, (void)self;
    printf("size %d %d states %zu\n", w, h, states->size / 4);
    if (slow)
        usleep(200000);
    if (w > 0 && h > 0) {
        width = w;
        height = h;
    }
    if (slow)
        show(plain(width, height, 0xFF000000 | color), width, height);
}

static void closes(void *none, struct xdg_toplevel *self)
{
    (void)none, (void)self;
}

static const struct xdg_toplevel_listener on_top = { .configure = toplevel, .close = closes };

int main(int count, char **words)
{
    color = count > 1 ? (uint32_t)strtoul(words[1], NULL, 16) : 0;
    drags = count > 2 && !strcmp(words[2], "drags");
    late = count > 2 && !strcmp(words[2], "late");
    pulls = count > 2 && !strcmp(words[2], "pulls");
    slow = count > 2 && !strcmp(words[2], "slow");
    setvbuf(stdout, NULL, _IOLBF, 0);
    if (!begin())
        return 1;
    wl_keyboard_add_listener(wl_seat_get_keyboard(seat), &on_keyboard, NULL);
    wl_pointer_add_listener(wl_seat_get_pointer(seat), &on_pointer, NULL);
    device = wl_data_device_manager_get_data_device(manager, seat);
    wl_data_device_add_listener(device, &on_device, NULL);
    window("listen");
    xdg_toplevel_add_listener(top, &on_top, NULL);
    draw();
    while (wl_display_dispatch(display) >= 0) {
    }
    return 0;
}

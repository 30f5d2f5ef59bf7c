/* Keys: which of a client's surfaces is told of them, and its modifiers. Not proved.
 *
 * Modifiers come from the keys that went to this client, and no others. */
#include "desk.h"
#include <string.h>
#include <sys/mman.h>
#include <unistd.h>

static void modifiers(struct client *client)
{
    struct xkb_state *keys = client->keys;
    struct wl_resource *keyboard;
    if (!keys)
        return;
    wl_resource_for_each(keyboard, &client->keyboards)
        wl_keyboard_send_modifiers(keyboard, serial(client),
                                   xkb_state_serialize_mods(keys, XKB_STATE_MODS_DEPRESSED),
                                   xkb_state_serialize_mods(keys, XKB_STATE_MODS_LATCHED),
                                   xkb_state_serialize_mods(keys, XKB_STATE_MODS_LOCKED),
                                   xkb_state_serialize_layout(keys, XKB_STATE_LAYOUT_EFFECTIVE));
}

/* The keys of a client go to this surface from now on, or to none. */
void keyboard_into(struct client *client, struct surface *surface)
{
    struct surface *old = client->typed;
    struct wl_resource *keyboard;
    struct wl_array none = { 0 };
    if (surface == old)
        return;
    client->typed = surface;
    wl_resource_for_each(keyboard, &client->keyboards) {
        if (old)
            wl_keyboard_send_leave(keyboard, serial(client), old->self);
        if (surface)
            wl_keyboard_send_enter(keyboard, serial(client), surface->self, &none);
    }
    if (surface)
        modifiers(client);
    struct surface *root = surface ? surface_root(surface) : NULL;
    struct surface *before = old ? surface_root(old) : NULL;
    if (before && before != root && before->mapped)
        shell_configure(before, before->crop.w, before->crop.h);
    if (root && before != root)
        shell_configure(root, root->crop.w, root->crop.h);
}

/* The newest popup of a client that holds the input, or NULL. */
static struct surface *holder(const struct client *client)
{
    struct surface *surface;
    wl_list_for_each(surface, &client->surfaces, link)
        if (surface->role == POPUP && surface->grabs && surface->view)
            return surface;
    return NULL;
}

/* The window of a client whose view is the front-most of its views, or NULL: the library says. */
static struct surface *front_most(const struct client *client)
{
    struct nit_view_state view;
    for (uint32_t at = 0; (view = nit_view_at(&host.server, at)).kind == NIT_DONE; at++) {
        struct surface *surface = input_surface(&view);
        if (surface && surface->client == client)
            return surface_root(surface);
    }
    return NULL;
}

/* The keys of a client with the focus go to its popup that holds the input, else to its foremost
 * window. One that found no room has no view, and gets none. */
void keyboard_choose(struct client *client)
{
    struct surface *found = NULL;
    if (client->focused)
        found = holder(client) ? holder(client) : front_most(client);
    keyboard_into(client, found);
}

void keyboard_key(struct client *client, uint32_t code, bool down)
{
    struct wl_resource *keyboard;
    int changed = xkb_state_update_key(client->keys, code + 8, down ? XKB_KEY_DOWN : XKB_KEY_UP);
    if (client->typed)
        wl_resource_for_each(keyboard, &client->keyboards)
            wl_keyboard_send_key(keyboard, serial(client), milliseconds(), code, down);
    if (client->typed && changed)
        modifiers(client);
}

/* ---- Keyboards */

/* The map as text. */
static char *map;

/* Each keyboard has a copy of the map, so that no two clients have memory in common. */
static void map_tell(struct wl_resource *keyboard)
{
    size_t size = strlen(map) + 1;
    int file = memfd_create("keymap", MFD_CLOEXEC | MFD_ALLOW_SEALING);
    if (file >= 0 && write(file, map, size) == (ssize_t)size)
        wl_keyboard_send_keymap(keyboard, WL_KEYBOARD_KEYMAP_FORMAT_XKB_V1, file, (uint32_t)size);
    if (file >= 0)
        close(file);
}

static void keyboard_begun(struct wl_resource *keyboard)
{
    struct client *client = client_of(keyboard);
    struct wl_array none = { 0 };
    map_tell(keyboard);
    if (wl_resource_get_version(keyboard) >= WL_KEYBOARD_REPEAT_INFO_SINCE_VERSION)
        wl_keyboard_send_repeat_info(keyboard, 25, 500);
    if (client->typed) {
        wl_keyboard_send_enter(keyboard, serial(client), client->typed->self, &none);
        modifiers(client);
    }
}

const struct kind KEYBOARD = { &wl_keyboard_interface, .begun = keyboard_begun,
                               .list = offsetof(struct client, keyboards) };

bool keyboard_start(void)
{
    struct xkb_context *context = xkb_context_new(XKB_CONTEXT_NO_FLAGS);
    if (context)
        desk.keymap = xkb_keymap_new_from_names(context, NULL, XKB_KEYMAP_COMPILE_NO_FLAGS);
    xkb_context_unref(context);
    if (desk.keymap)
        map = xkb_keymap_get_as_string(desk.keymap, XKB_KEYMAP_FORMAT_TEXT_V1);
    return map != NULL;
}

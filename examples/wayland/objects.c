/* Objects of Wayland: one dispatcher for all of them, the globals, and the output. Not proved.
 *
 * Each interface is a function over the numbers of its requests. What it does not name does
 * nothing; a request `destroy` or `release` ends the object. A client that wants more objects than
 * it may have is told so by the protocol's own error, which ends it. */
#include "desk.h"
#include <string.h>

enum { OBJECTS = 4096, LISTENERS = 16, REGISTRIES = 16, NUMBERS = 65536 };
static const uint32_t SERVERS = 0xFF000000; /* from here on numbers are the server's */

struct object {
    const struct kind *kind;
    struct client *client;
    void *data;
    max_align_t own[];
};

struct client *client_of(struct wl_resource *any)
{
    return ((struct object *)wl_resource_get_user_data(any))->client;
}

void *object_data(struct wl_resource *any)
{
    return ((struct object *)wl_resource_get_user_data(any))->data;
}

/* What the object stands for is gone. It does nothing any more, and its end does nothing. */
void object_forget(struct wl_resource *any)
{
    ((struct object *)wl_resource_get_user_data(any))->data = NULL;
}

static int dispatch(const void *implementation, void *target, uint32_t number,
                    const struct wl_message *message, union wl_argument *with)
{
    const struct object *object = implementation;
    if (object->data && object->kind->request)
        object->kind->request(target, number, with);
    if (!strcmp(message->name, "destroy") || !strcmp(message->name, "release"))
        wl_resource_destroy(target);
    return 0;
}

static void gone(struct wl_resource *any)
{
    struct object *object = wl_resource_get_user_data(any);
    if (object->data && object->kind->gone)
        object->kind->gone(any);
    wl_list_remove(wl_resource_get_link(any));
    object->client->objects--;
    free(object);
}

/* A new object of a client, or NULL and the end of the client where it has too many. It has few of
 * those that are told of what happens, since each costs something whenever something happens. */
static struct wl_resource *make(struct client *client, const struct kind *kind, int version,
                                uint32_t id, void *data)
{
    struct wl_list *list = kind->list ? (struct wl_list *)((char *)client + kind->list) : NULL;
    bool many = client->objects >= OBJECTS || (list && wl_list_length(list) >= LISTENERS);
    struct object *object = many ? NULL : calloc(1, sizeof *object + kind->size);
    struct wl_resource *any = object ?
        wl_resource_create(client->wl, kind->interface, version, id) : NULL;
    if (!any) {
        free(object);
        wl_client_post_no_memory(client->wl);
        return NULL;
    }
    object->kind = kind;
    object->client = client;
    object->data = kind->size ? object->own : data ? data : client;
    client->objects++;
    wl_resource_set_dispatcher(any, dispatch, object, object, gone);
    if (list)
        wl_list_insert(list, wl_resource_get_link(any));
    else
        wl_list_init(wl_resource_get_link(any));
    if (kind->begun)
        kind->begun(any);
    return any;
}

/* The same by a request to another object, whose version it has. */
struct wl_resource *object_new(struct wl_resource *from, const struct kind *kind, uint32_t id,
                               void *data)
{
    return make(client_of(from), kind, wl_resource_get_version(from), id, data);
}

/* What libwayland makes by itself is bounded too: registries, which nothing ends, and the numbers
 * of objects, for each of which it keeps a place. */
static void made(struct wl_listener *listener, void *data)
{
    struct client *client = wl_container_of(listener, client, made);
    uint32_t id = wl_resource_get_id(data);
    if (!strcmp(wl_resource_get_class(data), wl_registry_interface.name))
        client->registries++;
    if (client->registries > REGISTRIES || (id > NUMBERS && id < SERVERS))
        wl_client_post_no_memory(client->wl);
}

void objects_watch(struct client *client)
{
    client->made.notify = made;
    wl_client_add_resource_created_listener(client->wl, &client->made);
}

/* ---- The output */

static void output_begun(struct wl_resource *output)
{
    wl_output_send_geometry(output, 0, 0, host.width / 4, host.height / 4, 0, "nitpicker", "screen",
                            WL_OUTPUT_TRANSFORM_NORMAL);
    wl_output_send_mode(output, WL_OUTPUT_MODE_CURRENT | WL_OUTPUT_MODE_PREFERRED, host.width,
                        host.height, 60000);
    if (wl_resource_get_version(output) >= 2) {
        wl_output_send_scale(output, 1);
        wl_output_send_done(output);
    }
}

static const struct kind OUTPUT = { &wl_output_interface, .begun = output_begun,
                                    .list = offsetof(struct client, outputs) };

/* ---- The globals */

static void bind(struct wl_client *wl, void *data, uint32_t version, uint32_t id)
{
    struct client *client = desk.clients;
    while (client->wl != wl)
        client++;
    make(client, data, (int)version, id, NULL);
}

void objects_start(void)
{
    static const struct {
        const struct kind *kind;
        int version;
    } globals[] = { { &COMPOSITOR, 4 }, { &SUBCOMPOSITOR, 1 }, { &CLIPBOARD, 3 }, { &SHELL, 2 },
                    { &DECORATIONS, 1 }, { &OUTPUT, 2 }, { &SEAT, 5 }, { &SHM, 1 } };
    for (size_t at = 0; at < sizeof globals / sizeof *globals; at++)
        wl_global_create(desk.display, globals[at].kind->interface, globals[at].version,
                         (void *)globals[at].kind, bind);
}

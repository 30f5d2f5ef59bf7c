/* The clipboard: the client with the focus sets it and reads it. Not proved.
 *
 * What a client puts there is copied to the host at once, within bounds, and its source is told
 * that it is over. So no descriptor of one client reaches another, who copied learns nothing of who
 * pastes, and what was copied outlives it. All pipes here are those of porters. */
#include "desk.h"
#include <errno.h>
#include <fcntl.h>
#include <string.h>
#include <unistd.h>

enum { TYPES = 8, TYPE = 128, MOST = 1 << 20, PATIENCE = 1000, PASTES = 32 };

/* What a client offers, until it is copied. */
struct source {
    char types[TYPES][TYPE];
    int count;
};

/* One form of what is copied. */
struct form {
    char type[TYPE];
    char *bytes;
    size_t length;
    int file;                 /* where it comes from, or -1 */
    bool whole;
    struct wl_event_source *from;
};

struct copied {
    struct form forms[TYPES];
    int count;
};

/* A client that reads the clipboard. */
struct paste {
    int file;                 /* -1 where there is none */
    const struct form *form;
    size_t at;
    struct wl_event_source *to;
};

static struct copied here, coming;
static struct wl_resource *origin; /* of what is coming: its source, while that is there */
static const struct client *copier; /* whose that is, or NULL where nothing comes */
static struct wl_event_source *patience;
static uintptr_t turns = 1;   /* how often the clipboard was set */
static struct paste pastes[PASTES];

/* ---- Pasting */

static void paste_end(struct paste *paste)
{
    wl_event_source_remove(paste->to);
    close(paste->file);
    paste->to = NULL;
}

static void paste_end_all(void)
{
    for (struct paste *paste = pastes; paste < pastes + PASTES; paste++)
        if (paste->to)
            paste_end(paste);
}

static int paste_on(int file, uint32_t mask, void *data)
{
    struct paste *paste = data;
    ssize_t put = write(file, paste->form->bytes + paste->at, paste->form->length - paste->at);
    (void)mask;
    if (put > 0)
        paste->at += (size_t)put;
    if (paste->at == paste->form->length || (put < 0 && errno != EAGAIN))
        paste_end(paste);
    return 0;
}

static void paste_begin(const struct form *form, int file)
{
    struct paste *paste = pastes;
    while (paste < pastes + PASTES && paste->to)
        paste++;
    if (paste == pastes + PASTES || fcntl(file, F_SETFL, O_NONBLOCK) < 0) {
        close(file);
        return;
    }
    *paste = (struct paste){ file, form, 0, NULL };
    paste->to = wl_event_loop_add_fd(wl_display_get_event_loop(desk.display), file,
                                     WL_EVENT_WRITABLE, paste_on, paste);
    if (!paste->to)
        close(file);
}

/* ---- Offers */

static const struct form *form_of(const char *type)
{
    for (int at = 0; at < here.count; at++)
        if (here.forms[at].whole && !strcmp(here.forms[at].type, type))
            return &here.forms[at];
    return NULL;
}

static void offer_request(struct wl_resource *self, uint32_t number, union wl_argument *with)
{
    if (number != WL_DATA_OFFER_RECEIVE)
        return;
    bool current = (uintptr_t)object_data(self) == turns && client_of(self)->focused;
    const struct form *form = current ? form_of(with[0].s) : NULL;
    if (form)
        paste_begin(form, with[1].h);
    else
        close(with[1].h);
}

static const struct kind OFFER = { &wl_data_offer_interface, .request = offer_request };

static void offer(struct wl_resource *device)
{
    struct wl_resource *it = here.count > 0 ?
        object_new(device, &OFFER, 0, (void *)turns) : NULL;
    if (it)
        wl_data_device_send_data_offer(device, it);
    for (int at = 0; it && at < here.count; at++)
        if (here.forms[at].whole)
            wl_data_offer_send_offer(it, here.forms[at].type);
    wl_data_device_send_selection(device, it);
}

/* A client with the focus learns what the clipboard has. */
void clip_tell(struct client *client)
{
    struct wl_resource *device;
    wl_resource_for_each(device, &client->devices)
        offer(device);
}

/* ---- Copying */

/* A form comes no more. */
static void arrived(struct form *form)
{
    if (!form->from)
        return;
    wl_event_source_remove(form->from);
    close(form->file);
    form->from = NULL;
    form->file = -1;
}

static void forget(struct copied *copied)
{
    for (int at = 0; at < copied->count; at++) {
        arrived(&copied->forms[at]);
        free(copied->forms[at].bytes);
    }
    copied->count = 0;
}

static void tell_all(void)
{
    for (struct client *client = desk.clients; client < desk.clients + SEATS; client++)
        if (client->wl && client->focused)
            clip_tell(client);
}

/* What was copied is the clipboard now. Who still reads what was there reads no more. */
static void settle(void)
{
    paste_end_all();
    for (int at = 0; at < coming.count; at++)
        arrived(&coming.forms[at]);
    forget(&here);
    here = coming;
    coming.count = 0;
    turns++;
    if (origin)
        wl_data_source_send_cancelled(origin);
    origin = NULL;
    copier = NULL;
    wl_event_source_timer_update(patience, 0);
    tell_all();
}

static int impatient(void *data)
{
    (void)data;
    settle();
    return 0;
}

static bool all_done(void)
{
    int at = 0;
    while (at < coming.count && !coming.forms[at].from)
        at++;
    return at == coming.count;
}

/* One form comes. One that is too long is none. */
static int comes(int file, uint32_t mask, void *data)
{
    struct form *form = data;
    ssize_t got = read(file, form->bytes + form->length, MOST - form->length);
    (void)mask;
    if (got < 0 && errno == EAGAIN)
        return 0;
    if (got > 0)
        form->length += (size_t)got;
    if (got > 0 && form->length < MOST)
        return 0;
    form->whole = got == 0;
    arrived(form);
    if (all_done())
        settle();
    return 0;
}

/* Asks for one form. */
static void ask(struct wl_resource *from, struct form *form)
{
    int pair[2];
    form->bytes = malloc(MOST);
    if (!form->bytes || pipe2(pair, O_CLOEXEC) < 0)
        return;
    wl_data_source_send_send(from, form->type, pair[1]);
    close(pair[1]);
    fcntl(pair[0], F_SETFL, O_NONBLOCK);
    form->file = pair[0];
    form->from = wl_event_loop_add_fd(wl_display_get_event_loop(desk.display), pair[0],
                                      WL_EVENT_READABLE, comes, form);
}

/* The client with the focus sets the clipboard, or empties it. */
static void choose(struct wl_resource *from)
{
    const struct source *source = from ? object_data(from) : NULL;
    if (!patience)
        patience = wl_event_loop_add_timer(wl_display_get_event_loop(desk.display), impatient,
                                           NULL);
    if (origin)
        wl_data_source_send_cancelled(origin);
    forget(&coming);
    origin = from;
    copier = from ? client_of(from) : NULL;
    for (int at = 0; source && at < source->count; at++) {
        struct form *form = &coming.forms[coming.count++];
        *form = (struct form){ .file = -1 };
        memcpy(form->type, source->types[at], TYPE);
        ask(from, form);
    }
    wl_event_source_timer_update(patience, PATIENCE);
    if (all_done())
        settle();
}

/* ---- Sources */

static void source_request(struct wl_resource *self, uint32_t number, union wl_argument *with)
{
    struct source *source = object_data(self);
    if (number == WL_DATA_SOURCE_OFFER && source->count < TYPES && strlen(with[0].s) < TYPE)
        strcpy(source->types[source->count++], with[0].s);
}

static void source_gone(struct wl_resource *self)
{
    if (origin == self)
        origin = NULL;
}

static const struct kind SOURCE = { &wl_data_source_interface, .request = source_request,
                                    .gone = source_gone, .size = sizeof(struct source) };

/* ---- Devices. Nothing is dragged from one client to another, and what a client sets while what it
 * set before still comes is refused. */

static void device_request(struct wl_resource *self, uint32_t number, union wl_argument *with)
{
    if (number != WL_DATA_DEVICE_START_DRAG && number != WL_DATA_DEVICE_SET_SELECTION)
        return;
    struct wl_resource *source = (struct wl_resource *)with[0].o;
    const struct client *client = client_of(self);
    bool set = number == WL_DATA_DEVICE_SET_SELECTION && client->focused;
    if (set && copier != client)
        choose(source);
    else if (source)
        wl_data_source_send_cancelled(source);
}

static void device_begun(struct wl_resource *self)
{
    if (client_of(self)->focused)
        offer(self);
}

static const struct kind DEVICE = { &wl_data_device_interface, .request = device_request,
                                    .begun = device_begun,
                                    .list = offsetof(struct client, devices) };

static void clipboard_request(struct wl_resource *self, uint32_t number, union wl_argument *with)
{
    if (number == WL_DATA_DEVICE_MANAGER_CREATE_DATA_SOURCE)
        object_new(self, &SOURCE, with[0].n, NULL);
    else if (number == WL_DATA_DEVICE_MANAGER_GET_DATA_DEVICE)
        object_new(self, &DEVICE, with[0].n, NULL);
}

const struct kind CLIPBOARD = { &wl_data_device_manager_interface, .request = clipboard_request };

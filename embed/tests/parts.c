/* What parts.h says. */
#include "parts.h"
#include <sys/mman.h>
#include <unistd.h>

static void failed(const char *file, int line, const char *what)
{
    fflush(stdout);
    fprintf(stderr, "%s:%d: %s\n", file, line, what);
    exit(1);
}

void check(bool holds, const char *file, int line, const char *what)
{
    if (!holds)
        failed(file, line, what);
}

static int event_text(char *out, size_t room, const struct nit_event *e)
{
    return snprintf(out, room, "(kind %u, code %u, x %u, y %u, turn %d)", e->kind, e->code, e->x,
                    e->y, e->turn);
}

static void reply_text(char *out, size_t room, const struct nit_reply *r)
{
    char event[100];
    event_text(event, sizeof event, &r->event);
    snprintf(out, room, "kind %u, handle %u, event %s, need %llu, left %llu", r->kind, r->handle,
             event, (unsigned long long)r->need, (unsigned long long)r->left);
}

void same_reply(struct nit_reply got, struct nit_reply want, const char *file, int line)
{
    char is[250], was[250], both[600];
    if (memcmp(&got, &want, sizeof got) == 0)
        return;
    reply_text(was, sizeof was, &got);
    reply_text(is, sizeof is, &want);
    snprintf(both, sizeof both, "the reply is\n  %s\nand not\n  %s", was, is);
    failed(file, line, both);
}

static void routed_text(char *out, size_t room, const struct nit_routed *r)
{
    size_t at = (size_t)snprintf(out, room, "kind %u, count %u", r->kind, r->count);
    for (int k = 0; k < 3; k++) {
        at += (size_t)snprintf(out + at, room - at, ", to %u ", r->to[k].seat);
        at += (size_t)event_text(out + at, room - at, &r->to[k].event);
    }
}

void same_routed(struct nit_routed got, const struct nit_delivery *want, const char *file,
                 int line)
{
    struct nit_routed whole = { .kind = NIT_DONE };
    char is[500], was[500], both[1100];
    while (whole.count < 3 && want[whole.count].event.kind != NIT_NOTHING) {
        whole.to[whole.count] = want[whole.count];
        whole.count++;
    }
    if (memcmp(&got, &whole, sizeof got) == 0)
        return;
    routed_text(was, sizeof was, &got);
    routed_text(is, sizeof is, &whole);
    snprintf(both, sizeof both, "it goes to\n  %s\nand not to\n  %s", was, is);
    failed(file, line, both);
}

void same_rect(struct nit_rect got, struct nit_rect want, const char *file, int line)
{
    char both[200];
    if (memcmp(&got, &want, sizeof got) == 0)
        return;
    snprintf(both, sizeof both, "the part is kind %u: %u %u %u %u, and not kind %u: %u %u %u %u",
             got.kind, got.x, got.y, got.w, got.h, want.kind, want.x, want.y, want.w, want.h);
    failed(file, line, both);
}

static void state_text(char *out, size_t room, const struct nit_state *s)
{
    snprintf(out, room,
             "kind %u, %u by %u, seats %u, mode %u, focus %u, hover %u, at %u %u, receiver %u",
             s->kind, s->width, s->height, s->seats, s->mode, s->focus, s->hover, s->x, s->y,
             s->receiver);
}

void same_state(struct nit_state got, struct nit_state want, const char *file, int line)
{
    char is[200], was[200], both[500];
    if (memcmp(&got, &want, sizeof got) == 0)
        return;
    state_text(was, sizeof was, &got);
    state_text(is, sizeof is, &want);
    snprintf(both, sizeof both, "the state is\n  %s\nand not\n  %s", was, is);
    failed(file, line, both);
}

void same_seat(struct nit_seat_state got, struct nit_seat_state want, const char *file, int line)
{
    char both[300];
    if (memcmp(&got, &want, sizeof got) == 0)
        return;
    snprintf(both, sizeof both,
             "the seat has kind %u, status %u, waiting %u, zero %u, lost %llu, client %llx, "
             "and not %u, %u, %u, %u, %llu, %llx",
             got.kind, got.status, got.waiting, got.zero, (unsigned long long)got.lost,
             (unsigned long long)got.client, want.kind, want.status, want.waiting, want.zero,
             (unsigned long long)want.lost, (unsigned long long)want.client);
    failed(file, line, both);
}

void same_seated(struct nit_seated got, struct nit_seated want, const char *file, int line)
{
    char both[200];
    if (memcmp(&got, &want, sizeof got) == 0)
        return;
    snprintf(both, sizeof both, "it is kind %u, seat %u, client %llx, zero %llx, and not "
             "%u, %u, %llx, %llx", got.kind, got.seat, (unsigned long long)got.client,
             (unsigned long long)got.zero, want.kind, want.seat,
             (unsigned long long)want.client, (unsigned long long)want.zero);
    failed(file, line, both);
}

static int view_text(char *out, size_t room, const struct nit_view_state *v)
{
    return snprintf(out, room, "kind %u, seat %u, view %u: %d %d %u %u, offset %d %d", v->kind,
                    v->seat, v->view, v->x, v->y, v->w, v->h, v->offset_x, v->offset_y);
}

void same_view(struct nit_view_state got, struct nit_view_state want, const char *file, int line)
{
    char is[150], was[150], both[400];
    if (memcmp(&got, &want, sizeof got) == 0)
        return;
    view_text(was, sizeof was, &got);
    view_text(is, sizeof is, &want);
    snprintf(both, sizeof both, "the view is\n  %s\nand not\n  %s", was, is);
    failed(file, line, both);
}

uint64_t number_in(const char *word)
{
    char *end;
    uint64_t number = strtoull(word, &end, 10);
    CHECK(*word >= '0' && *word <= '9' && *end == '\0');
    return number;
}

uint64_t draw(struct random *random, uint64_t below)
{
    random->at += 0x9E3779B97F4A7C15u;
    uint64_t z = random->at;
    z = (z ^ (z >> 30)) * 0xBF58476D1CE4E5B9u;
    z = (z ^ (z >> 27)) * 0x94D049BB133111EBu;
    return (z ^ (z >> 31)) % below;
}

static char *guarded(size_t bytes)
{
    size_t page = (size_t)sysconf(_SC_PAGESIZE), whole = (bytes + page - 1) / page * page;
    char *at = mmap(NULL, whole + page, PROT_READ | PROT_WRITE, MAP_PRIVATE | MAP_ANONYMOUS, -1, 0);
    CHECK(at != MAP_FAILED);
    CHECK(mprotect(at + whole, page, PROT_NONE) == 0);
    return at + whole - bytes;
}

uint32_t *guarded_words(size_t count)
{
    return (uint32_t *)(void *)guarded(4 * count);
}

char *guarded_text(size_t count)
{
    return guarded(count);
}

void open_plain(struct nit_server *server, uint32_t width, uint32_t height, uint32_t seats,
                uint32_t donation)
{
    struct nit_seat_plan each[NIT_MOST_SEATS];
    for (uint32_t k = 0; k < NIT_MOST_SEATS; k++)
        each[k] = (struct nit_seat_plan){ .donation = donation, .layer = 0, .clicks = 1 };
    struct nit_plan plan = { .width = width, .height = height, .count = seats, .seats = each };
    CHECK(nit_open(server, &plan) == NIT_DONE);
}

nit_client sits_on(struct nit_server *server, uint32_t seat, const char *label)
{
    struct nit_seated seated = nit_seat(server, seat, label, strlen(label));
    SEATED(seated, .kind = NIT_DONE, .seat = seat, .client = seated.client);
    CHECK(nit_seat_of(seated.client) == seat && seated.client > UINT16_MAX);
    return seated.client;
}

uint32_t room_of(uint32_t donation)
{
    uint32_t most = donation <= 8388608 ? 8388608 : 268435456;
    return donation <= most / 2 ? 2 * donation : most;
}

void close_plain(struct nit_server *server)
{
    CHECK(nit_close(server) == NIT_DONE);
    CHECK(server->at == NULL && server->mark == 0);
    CHECK(nit_close(server) == NIT_NO_SERVER);
}

struct nit_rect look_whole(struct nit_server *server, uint32_t *frame, uint32_t width,
                           uint32_t height)
{
    size_t count = (size_t)width * height;
    uint32_t *copied = calloc(count, sizeof *copied);
    struct nit_rect part = nit_look(server, frame, count);
    CHECK(copied && part.kind == NIT_DONE);
    CHECK(nit_copy(server, 0, 0, width, height, copied, count, width) == NIT_DONE);
    CHECK(memcmp(frame, copied, count * sizeof *copied) == 0);
    free(copied);
    return part;
}

/* What a coalition of clients makes one call cost, and the look after it, for which the frame is
 * made: sixteen clients with 64 views each, or 64 of them. The rear 64 views are as large as the
 * screen, the others columns of different heights, columns in front of rows, or narrow strips all
 * over the screen. And beside it a desk of eight windows. One line for each call and mode, the
 * worst of five by the processor's time: `CALL<tab>MODE<tab>MILLISECONDS<tab>THOSE OF THE LOOK`.
 *
 * usage: hostile */
#include "nitpicker.h"
#include <stdio.h>
#include <stdlib.h>
#include <time.h>

enum {
    WIDTH = 1024, HEIGHT = 768, BAR = 7, SIDE = 64, SEATS = 64, EACH = 64, LARGE = 64, TIMES = 5
};
enum layout { COLUMNS, CROSSES, STRIPS };

static struct nit_server server;
static nit_client client[SEATS], asker;
static uint32_t words[SIDE * SIDE], frame[WIDTH * HEIGHT];

static void must(int holds, const char *what)
{
    if (holds)
        return;
    fprintf(stderr, "hostile: %s\n", what);
    exit(1);
}

static double now(void)
{
    struct timespec at;
    must(clock_gettime(CLOCK_PROCESS_CPUTIME_ID, &at) == 0, "no clock");
    return 1e3 * (double)at.tv_sec + 1e-6 * (double)at.tv_nsec;
}

/* ---- The scene */

static void open_server(void)
{
    struct nit_seat_plan seats[SEATS];
    for (uint32_t k = 0; k < SEATS; k++)
        seats[k] = (struct nit_seat_plan){ 65536, 3, 1 };
    struct nit_plan plan = { .width = WIDTH, .height = HEIGHT, .bar = 1,
                             .count = SEATS, .seats = seats };
    must(nit_open(&server, &plan) == NIT_DONE, "not opened");
}

static void sit(uint32_t seat)
{
    char label[2] = { (char)('a' + seat % 26), (char)('a' + seat / 26) };
    client[seat] = nit_seat(&server, seat, label, 2).client;
    must(nit_buffer(&server, client[seat], SIDE, SIDE).kind == NIT_DONE, "no buffer");
}

struct scene {
    const char *name;
    uint32_t all, large; /* how many views, and how many of them are as large as the screen */
    enum layout others;
};

static void place(nit_client of, uint32_t x, uint32_t y, uint32_t w, uint32_t h)
{
    uint32_t view = nit_view(&server, of).handle;
    must(nit_place(&server, of, view, (int32_t)x, (int32_t)y, w, h).kind == NIT_DONE, "not placed");
}

/* The small view `k` of so many. */
static void place_small(nit_client of, enum layout layout, uint32_t k, uint32_t small)
{
    if (layout == COLUMNS)
        place(of, k * WIDTH / small, BAR, 1, 8 + k * 7919 % 700);
    else if (layout == STRIPS)
        place(of, k * 7919 % WIDTH, BAR + k * 104729 % 760, 1 + k % 3, 40 + k * 31 % 400);
    else if (k < small / 2)
        place(of, 0, BAR + 2 * (k % 380), WIDTH, 1);
    else
        place(of, 2 * (k - small / 2) % WIDTH, BAR, 1, HEIGHT - BAR);
}

static void place_one(const struct scene *scene, uint32_t n)
{
    nit_client of = client[SEATS - 1 - n / EACH];
    if (n < scene->large)
        place(of, 0, BAR, WIDTH, HEIGHT - BAR);
    else
        place_small(of, scene->others, n - scene->large, scene->all - scene->large);
}

static void begin(const struct scene *scene)
{
    open_server();
    for (uint32_t seat = 0; seat < SEATS; seat++)
        sit(seat);
    for (uint32_t n = 0; n < scene->all; n++)
        place_one(scene, n);
    asker = client[SEATS - 1 - (scene->all - 1) / EACH];
}

/* ---- The calls, of the client whose view was placed last */

static void refresh(void)
{
    (void)nit_refresh(&server, asker, 0, 0, 1, 1, words, SIDE * SIDE);
}

static void title(void)
{
    (void)nit_title(&server, asker, 1, "x", 1);
}

static void front(void)
{
    (void)nit_front(&server, asker, 1);
}

static void mode_key(void)
{
    (void)nit_press(&server, 70);
    (void)nit_release(&server, 70);
}

static void look(void)
{
    must(nit_look(&server, frame, WIDTH * HEIGHT).kind == NIT_DONE, "no look");
}

static void keep_worst(double *worst, void (*work)(void))
{
    double began = now();
    work();
    double took = now() - began;
    *worst = took > *worst ? took : *worst;
}

static void tell(const char *call, const char *mode, void (*work)(void))
{
    double worst = 0, worst_look = 0;
    for (int k = 0; k < TIMES; k++) {
        keep_worst(&worst, work);
        keep_worst(&worst_look, look);
    }
    printf("%s\t%s\t%.3f\t%.3f\n", call, mode, worst, worst_look);
}

static void tell_all(const char *mode)
{
    tell("a refresh of one pixel", mode, refresh);
    tell("a title", mode, title);
    tell("a view to the front", mode, front);
}

static void tell_scene(const struct scene *scene)
{
    printf("%s\n", scene->name);
    begin(scene);
    look();
    tell_all("flat");
    tell("the X-ray key", "both ways", mode_key);
    tell_all("X-ray");
    must(nit_close(&server) == NIT_DONE, "not closed");
}

int main(void)
{
    static const struct scene scenes[] = {
        { "1,024 views, columns", 1024, LARGE, COLUMNS },
        { "1,024 views, columns in front of rows", 1024, LARGE, CROSSES },
        { "4,096 views, columns", SEATS * EACH, LARGE, COLUMNS },
        { "4,096 views, columns in front of rows", SEATS * EACH, LARGE, CROSSES },
        { "4,096 views, strips", SEATS * EACH, LARGE, STRIPS },
        { "eight views", 8, 4, COLUMNS },
    };
    for (size_t k = 0; k < sizeof scenes / sizeof *scenes; k++)
        tell_scene(scenes + k);
    return 0;
}

/* How long what a host does takes: the processor's time in nanoseconds, one line for each kind of
 * work, `NAME<tab>NANOSECONDS`, the least of many times; and for an opening one more field, the
 * kilobytes that are resident then, of which each program has some 2,000 by itself. Linked with
 * plain.c in the place of the archive it times a plain compositor instead.
 *
 * A work is done again and again for LONG nanoseconds or more, TIMES times.
 *
 * With `moves` the moves of a word are works by themselves: it is handed in, where no view shows it
 * and where one does, and it is copied to the host's words. Given STEPS, each work is done as many
 * times in one call of `steps_take`, to be counted there by valgrind, and its name is printed.
 *
 * usage: speed [moves [STEPS]] */
#include "nitpicker.h"
#include <stdio.h>
#include <stdlib.h>
#include <string.h>
#include <time.h>

enum { MOST = 3840 * 2160, TIMES = 20, LONG = 2000000, VIEWS = 64 };

static struct nit_server server;
static nit_client client[2];
static uint32_t width, height, frame[MOST];
/* What a client draws by turns, so that each refresh changes each pixel. */
static uint32_t words[2][MOST];
static uint32_t turn;
/* How many steps of a work are counted, where it is not timed. */
static uint32_t counted;

static void must(int holds, const char *what)
{
    if (holds)
        return;
    fprintf(stderr, "speed: %s\n", what);
    exit(1);
}

static double now(void)
{
    struct timespec at;
    must(clock_gettime(CLOCK_PROCESS_CPUTIME_ID, &at) == 0, "no clock");
    return 1e9 * (double)at.tv_sec + (double)at.tv_nsec;
}

/* ---- Looks. */

/* A look at words of the whole screen, which changes this part. */
static void look(uint32_t w, uint32_t h)
{
    struct nit_rect part = nit_look(&server, frame, (size_t)width * height);
    must(part.kind == NIT_DONE && part.w == w && part.h == h, "another part changed");
}

/* A look by damage, whose parts are copied to these words. */
static void copy(void)
{
    struct nit_damage damage = nit_damage(&server);
    must(damage.kind == NIT_DONE && damage.count > 0, "nothing changed");
    for (uint32_t k = 0; k < damage.count; k++) {
        const struct nit_part *part = &damage.part[k];
        size_t at = (size_t)part->y * width + part->x;
        must(nit_copy(&server, part->x, part->y, part->w, part->h, frame + at,
                      (size_t)width * height - at, width) == NIT_DONE, "not copied");
    }
}

/* ---- The works. Each is one step of a host, with what follows it. */

static void hand_in(uint32_t seat, uint32_t x, uint32_t y, uint32_t w, uint32_t h)
{
    must(nit_refresh(&server, client[seat], (int32_t)x, (int32_t)y, w, h, words[turn % 2],
                     (size_t)width * height).kind == NIT_DONE, "refused");
}

static void refresh(uint32_t w, uint32_t h)
{
    turn++;
    hand_in(0, 0, 0, w, h);
}

static void small_look(void)
{
    refresh(200, 200);
    look(200, 200);
}

static void small_copy(void)
{
    refresh(200, 200);
    copy();
}

static void large_look(void)
{
    refresh(1000, 700);
    look(1000, 700);
}

static void large_copy(void)
{
    refresh(1000, 700);
    copy();
}

static void whole_look(void)
{
    refresh(width, height);
    look(width, height);
}

static void whole_copy(void)
{
    refresh(width, height);
    copy();
}

static void small_refresh(void)
{
    refresh(200, 200);
}

static void whole_refresh(void)
{
    refresh(width, height);
}

static void copy_part(uint32_t w, uint32_t h)
{
    must(nit_copy(&server, 0, 0, w, h, frame, (size_t)width * height, width) == NIT_DONE,
         "not copied");
}

static void small_part(void)
{
    copy_part(200, 200);
}

static void whole_part(void)
{
    copy_part(width, height);
}

/* The first pixel changes. */
static void one_corner(void)
{
    refresh(1, 1);
    copy();
}

/* The first and the last pixel change, and nothing between. */
static void corners(void)
{
    refresh(1, 1);
    hand_in(0, width - 1, height - 1, 1, 1);
}

static void corners_look(void)
{
    corners();
    look(width, height);
}

static void corners_copy(void)
{
    corners();
    copy();
}

static void no_event(void)
{
    must(nit_take(&server, client[0]).kind == NIT_NO_EVENT, "an event");
}

/* One of 64 views goes one column to the right, or back. */
static void move(void)
{
    uint32_t at = turn++ % VIEWS, by = turn / VIEWS % 2;
    must(nit_place(&server, client[1], at + 1, (int32_t)(at % 8 * 120 + by),
                   (int32_t)(at / 8 * 90 + 8), 60, 60).kind == NIT_DONE, "not placed");
}

static void move_look(void)
{
    move();
    must(nit_look(&server, frame, (size_t)width * height).kind == NIT_DONE, "no look");
}

static void move_copy(void)
{
    move();
    copy();
}

/* ---- Timing. */

/* It is a function of its own also in what valgrind sees. */
__attribute__((noinline)) static double steps_take(void (*step)(void), uint32_t steps)
{
    double begun = now();
    for (uint32_t at = 0; at < steps; at++)
        step();
    return now() - begun;
}

static void time_steps(const char *name, void (*step)(void))
{
    double least = 1e18;
    uint32_t steps = 1;
    while (steps_take(step, steps) < LONG)
        steps *= 2;
    for (int k = 0; k < TIMES; k++) {
        double took = steps_take(step, steps) / steps;
        least = took < least ? took : least;
    }
    printf("%s\t%.1f\n", name, least);
}

static void tell(const char *name, void (*step)(void))
{
    step();
    if (counted == 0) {
        time_steps(name, step);
        return;
    }
    steps_take(step, counted);
    printf("%s\n", name);
}

/* ---- Screens: one client's large view, and another one's 64 small ones behind it. */

static void close_screen(void)
{
    must(nit_close(&server) == NIT_DONE, "not closed");
}

static void sit(uint32_t seat, const char *label)
{
    struct nit_seated seated = nit_seat(&server, seat, label, 5);
    must(seated.kind == NIT_DONE, "not seated");
    client[seat] = seated.client;
}

static void open_screen(uint32_t w, uint32_t h, uint32_t bar)
{
    uint32_t donation = w * h > 1048576 ? 1u << 26 : 1u << 23;
    struct nit_seat_plan seats[] = { { donation, 0, 1 }, { donation, 1, 1 } };
    struct nit_plan plan = { .width = w, .height = h, .bar = bar, .count = 2, .seats = seats };
    width = w;
    height = h;
    must(nit_open(&server, &plan) == NIT_DONE, "not opened");
    sit(0, "large");
    sit(1, "small");
    must(nit_buffer(&server, client[0], w, h).kind == NIT_DONE, "no buffer");
    must(nit_buffer(&server, client[1], 60, 60).kind == NIT_DONE, "no buffer");
}

static void open_views(void)
{
    for (uint32_t at = 0; at < VIEWS; at++)
        must(nit_view(&server, client[1]).handle == at + 1, "no view");
    hand_in(1, 0, 0, 60, 60);
    for (uint32_t at = 0; at < VIEWS; at++)
        move();
}

/* All words of the large view are of one turn, so that the next one changes each. */
static void settle(void)
{
    turn++;
    hand_in(0, 0, 0, width, height);
    must(nit_look(&server, frame, (size_t)width * height).kind == NIT_DONE, "no look");
}

static void open_large_view(int32_t x, int32_t y, uint32_t w, uint32_t h)
{
    must(nit_view(&server, client[0]).handle == 1, "no view");
    must(nit_place(&server, client[0], 1, x, y, w, h).kind == NIT_DONE, "not placed");
    settle();
}

static void draw_words(void)
{
    for (size_t at = 0; at < MOST; at++) {
        words[0][at] = (uint32_t)(at * 2654435761u) & 0xFFFFFF;
        words[1][at] = words[0][at] ^ 0x010101;
    }
}

/* ---- What is timed on a screen of each size. */

static void plain_screen(void)
{
    open_screen(1024, 768, 1);
    open_views();
    tell("one of 64 views moved, and a look", move_look);
    tell("one of 64 views moved, and damage copied", move_copy);
    open_large_view(10, 20, 1000, 700);
    tell("a refresh of 1000 by 700, and a look", large_look);
    tell("a refresh of 1000 by 700, and damage copied", large_copy);
    tell("a refresh of 200 by 200, and a look", small_look);
    tell("a refresh of 200 by 200, and damage copied", small_copy);
    tell("a call that changes nothing", no_event);
    close_screen();
}

/* A work by its name behind the size of the screen. */
static void tell_there(const char *name, void (*step)(void))
{
    char whole[100];
    snprintf(whole, sizeof whole, "%u by %u: %s", width, height, name);
    settle();
    tell(whole, step);
}

/* One view has the whole of a larger screen, and 64 stand behind it. */
static void large_screen(uint32_t w, uint32_t h)
{
    open_screen(w, h, 0);
    open_views();
    open_large_view(0, 0, w, h);
    tell_there("all refreshed, and a look", whole_look);
    tell_there("all refreshed, and damage copied", whole_copy);
    tell_there("a refresh of 200 by 200, and a look", small_look);
    tell_there("a refresh of 200 by 200, and damage copied", small_copy);
    tell_there("a corner refreshed, and damage copied", one_corner);
    tell_there("two corners refreshed, and a look", corners_look);
    tell_there("two corners refreshed, and damage copied", corners_copy);
    close_screen();
}

/* No view shows what is handed in before there is the large one. */
static void moves(void)
{
    open_screen(3840, 2160, 0);
    tell("200 by 200 handed in", small_refresh);
    tell("3840 by 2160 handed in", whole_refresh);
    open_large_view(0, 0, width, height);
    tell("200 by 200 handed in and shown", small_refresh);
    tell("3840 by 2160 handed in and shown", whole_refresh);
    tell("200 by 200 copied", small_part);
    tell("3840 by 2160 copied", whole_part);
    close_screen();
}

/* ---- Opening, before anything else has touched memory. */

static long resident(void)
{
    char line[200];
    long kilobytes = -1;
    FILE *status = fopen("/proc/self/status", "r");
    must(status != NULL, "no /proc/self/status");
    while (kilobytes < 0 && fgets(line, sizeof line, status))
        if (sscanf(line, "VmRSS: %ld kB", &kilobytes) != 1)
            kilobytes = -1;
    fclose(status);
    must(kilobytes > 0, "no VmRSS");
    return kilobytes;
}

static void opening(void)
{
    struct nit_seat_plan seats[8];
    struct nit_plan plan = { .width = 3840, .height = 2160, .bar = 1, .count = 8, .seats = seats };
    double least = 1e18;
    long kilobytes = 0;
    for (int seat = 0; seat < 8; seat++)
        seats[seat] = (struct nit_seat_plan){ 1u << 26, 1, 1 };
    for (int k = 0; k < 5; k++) {
        double begun = now();
        must(nit_open(&server, &plan) == NIT_DONE, "not opened");
        double took = now() - begun;
        least = took < least ? took : least;
        kilobytes = k == 0 ? resident() : kilobytes;
        close_screen();
    }
    printf("3840 by 2160 opened, with eight seats of 2^26 units\t%.1f\t%ld\n", least, kilobytes);
}

int main(int argc, char **argv)
{
    if (argc > 1) {
        must(strcmp(argv[1], "moves") == 0, "usage: speed [moves [STEPS]]");
        counted = argc > 2 ? (uint32_t)strtoul(argv[2], NULL, 10) : 0;
        draw_words();
        moves();
        return 0;
    }
    opening();
    draw_words();
    plain_screen();
    large_screen(1920, 1080);
    large_screen(3840, 2160);
    return 0;
}

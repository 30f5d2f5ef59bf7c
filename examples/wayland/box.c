/* Rectangles. */
#include "desk.h"

/* What both have, or nothing. */
struct box box_both(struct box a, struct box b)
{
    int32_t x = SDL_max(a.x, b.x), y = SDL_max(a.y, b.y);
    int64_t right = SDL_min((int64_t)a.x + a.w, (int64_t)b.x + b.w);
    int64_t bottom = SDL_min((int64_t)a.y + a.h, (int64_t)b.y + b.h);
    if (right <= x || bottom <= y)
        return (struct box){ 0 };
    return (struct box){ x, y, (int32_t)(right - x), (int32_t)(bottom - y) };
}

/* A place that the library takes, the nearest one. */
int32_t box_clamp(int64_t value)
{
    return (int32_t)SDL_clamp(value, -32768, 32767);
}

/* The least box around both, where neither is empty. */
struct box box_around(struct box a, struct box b)
{
    if (a.w <= 0 || a.h <= 0)
        return b;
    if (b.w <= 0 || b.h <= 0)
        return a;
    int32_t x = box_clamp(SDL_min(a.x, b.x)), y = box_clamp(SDL_min(a.y, b.y));
    int32_t right = box_clamp(SDL_max((int64_t)a.x + a.w, (int64_t)b.x + b.w));
    int32_t bottom = box_clamp(SDL_max((int64_t)a.y + a.h, (int64_t)b.y + b.h));
    return (struct box){ x, y, right - x, bottom - y };
}

bool box_same(struct box a, struct box b)
{
    return a.x == b.x && a.y == b.y && a.w == b.w && a.h == b.h;
}

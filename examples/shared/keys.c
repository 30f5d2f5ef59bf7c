/* Keys and buttons as Linux numbers them. Not proved. */
#include "shared.h"

enum { CODES = 256 };

/* Linux's codes of keys by USB's, which are SDL's. */
static uint16_t codes[CODES] = {
    0, 0, 0, 0, 30, 48, 46, 32, 18, 33, 34, 35, 23, 36, 37, 38, 50, 49, 24, 25, 16, 19, 31, 20,
    22, 47, 17, 45, 21, 44, 2, 3, 4, 5, 6, 7, 8, 9, 10, 11, 28, 1, 14, 15, 57, 12, 13, 26,
    27, 43, 43, 39, 40, 41, 51, 52, 53, 58, 59, 60, 61, 62, 63, 64, 65, 66, 67, 68, 87, 88,
    KILL_KEY, XRAY_KEY, 119, 110, 102, 104, 111, 107, 109, 106, 105, 108, 103, 69, 98, 55, 74,
    78, 96, 79, 80, 81, 75, 76, 77, 71, 72, 73, 82, 83, 86, 127, 116, 117,
    [224] = 29, 42, 56, 125, 97, 54, 100, 126
};

bool keys_name(const char *key, uint16_t code)
{
    int scancode = SDL_GetScancodeFromName(key);
    if (scancode == SDL_SCANCODE_UNKNOWN || scancode >= CODES)
        return false;
    codes[scancode] = code;
    return true;
}

/* A key that repeats itself does nothing. */
uint32_t keys_code(const SDL_KeyboardEvent *event)
{
    int scancode = event->keysym.scancode;
    return event->repeat || scancode >= CODES ? 0 : codes[scancode];
}

uint32_t keys_button(const SDL_MouseButtonEvent *event)
{
    static const uint16_t buttons[] = { 0, 272, 274, 273, 275, 276 };
    return event->button < sizeof buttons / sizeof *buttons ? buttons[event->button] : 0;
}

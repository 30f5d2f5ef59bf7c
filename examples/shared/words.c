/* What the user is told, and what the user says in words. Not proved. */
#include "shared.h"
#include <errno.h>
#include <stdarg.h>
#include <stdio.h>
#include <string.h>
#include <unistd.h>

enum { LINE = 2048 };

void say(const char *format, ...)
{
    char text[LINE + 256];
    va_list more;
    va_start(more, format);
    vsnprintf(text, sizeof text, format, more);
    va_end(more);
    printf("%s: %s\n", program_invocation_short_name, text);
}

int refuse(const char *word, const char *why)
{
    fprintf(stderr, "%s: %s: %s\n", program_invocation_short_name, word, why);
    return 2;
}

/* How texts are drawn. Answers why not so, or NULL. */
static const char *letters(const char *scale, const char *glyphs)
{
    if (scale && (scale[0] < '1' || scale[0] > '8' || scale[1]))
        return "a scale is 1 to 8";
    if (glyphs && strcmp(glyphs, "small") && strcmp(glyphs, "large"))
        return "glyphs are small or large";
    if (scale)
        host.dots = (uint32_t)(scale[0] - '0');
    if (glyphs)
        host.glyphs = !strcmp(glyphs, "large");
    return NULL;
}

const char *option(const char *word, const char **size)
{
    const bool xray = !strncmp(word, "--xray=", 7);
    if (!strncmp(word, "--scale=", 8))
        return letters(word + 8, NULL);
    if (!strncmp(word, "--glyphs=", 9))
        return letters(NULL, word + 9);
    if (!strncmp(word, "--size=", 7))
        *size = word + 7;
    else if (!xray && strncmp(word, "--kill=", 7))
        return "there is no such word, see --help";
    else if (!keys_name(word + 7, xray ? XRAY_KEY : KILL_KEY))
        return "there is no such key";
    return NULL;
}

static void control(const char *line)
{
    const char *why = line[0] == '+' ? host_starts(line + 1) : "+NAME=PROGRAM or quit";
    if (!strcmp(line, "quit"))
        host.over = true;
    else if (why)
        say("%s: %s", line, why);
}

/* A line that is too long ends the control line, as its end does. */
void control_read(void)
{
    static char line[LINE];
    static size_t length;
    ssize_t got = read(STDIN_FILENO, line + length, LINE - 1 - length);
    host.listens = got > 0 || (got < 0 && errno == EAGAIN);
    if (length == LINE - 1)
        say("a line has at most %d bytes, so no more is read", LINE - 2);
    length += got > 0 ? (size_t)got : 0;
    line[length] = 0;
    for (char *end; (end = strchr(line, '\n')) != NULL;) {
        *end = 0;
        control(line);
        length -= (size_t)(end + 1 - line);
        memmove(line, end + 1, length + 1);
    }
}

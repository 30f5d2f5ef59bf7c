/* A clock, which tells the time of day in UTC twice a second. */
#include "client.h"
#include <stdio.h>
#include <time.h>

enum { WIDTH = 112, HEIGHT = 32 };

static void draw(struct client *client)
{
    char text[16];
    time_t second = time(NULL);
    struct tm parts;
    gmtime_r(&second, &parts);
    strftime(text, sizeof text, "%H:%M:%S", &parts);
    client_fill(client, 0, 0, WIDTH, HEIGHT, 0x101820);
    client_text(client, 8, 8, 3, text, 0x60D0FF);
    client_refresh(0, 0, WIDTH, HEIGHT);
}

int main(void)
{
    struct client client = { 0 };
    uint32_t view = client_view();
    if (view == 0 || !client_buffer(&client, WIDTH, HEIGHT))
        return 1;
    client_place(view, 8, 12, WIDTH, HEIGHT);
    for (int64_t next = client_time();;) {
        int64_t left = next - client_time();
        if (left <= 0) {
            draw(&client);
            next = client_time() + 500;
        } else {
            client_wait(&client, (int)left);
        }
    }
}

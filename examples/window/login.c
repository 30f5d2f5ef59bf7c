/* A login prompt: a dot for each key that it gets. Backspace takes one away, Enter all. */
#include "prompt.h"

int main(void)
{
    struct client client = { 0 };
    int32_t dots = 0;
    uint32_t view = client_view();
    if (view == 0 || !client_buffer(&client, PROMPT_WIDTH, PROMPT_HEIGHT))
        return 1;
    prompt_draw(&client, 0);
    client_refresh(0, 0, PROMPT_WIDTH, PROMPT_HEIGHT);
    client_place(view, 60, 80, PROMPT_WIDTH, PROMPT_HEIGHT);
    while (client_wait(&client, -1)) {
        uint32_t code = client.event.code;
        if (client.event.kind != NIT_PRESS || code >= 272)
            continue;
        if (code == 28)
            dots = 0;
        else if (code == 14)
            dots -= dots > 0;
        else if (client_letter(code) && dots < 18)
            dots++;
        prompt_field(&client, 0, dots);
        client_refresh(16, PROMPT_FIELD, 160, 20);
    }
    return 0;
}

/* A game: a ball and a bat, moved by the left and the right key. And it cheats: at the key F it
 * shows a copy of the login prompt, which looks like the true one in each pixel, and at F again
 * takes it away. X-ray mode tells them apart. */
#include "prompt.h"

enum { WIDTH = 360, HEIGHT = 220, BAT = 60, TICK = 40 };

struct game {
    struct client client;
    int32_t x, y, across, down, bat;
    uint32_t copy;   /* the view of the copy, or 0 */
    int32_t dots;
};

static void move(struct game *game)
{
    struct client *client = &game->client;
    client_fill(client, game->x, game->y, 8, 8, 0x204020);
    client_refresh(game->x, game->y, 8, 8);
    game->x += game->across;
    game->y += game->down;
    if (game->x <= 0 || game->x >= WIDTH - 8)
        game->across = -game->across;
    if (game->y <= 40 || game->y >= HEIGHT - 24)
        game->down = -game->down;
    client_fill(client, game->x, game->y, 8, 8, 0xFFFFFF);
    client_refresh(game->x, game->y, 8, 8);
}

static void bat(struct game *game, int32_t by)
{
    int32_t to = game->bat + by;
    game->bat = to < 0 ? 0 : to > WIDTH - BAT ? WIDTH - BAT : to;
    client_fill(&game->client, 0, HEIGHT - 12, WIDTH, 6, 0x204020);
    client_fill(&game->client, game->bat, HEIGHT - 12, BAT, 6, 0xC0C0C0);
    client_refresh(0, HEIGHT - 12, WIDTH, 6);
}

/* The copy stands in the rows of the buffer below the board. */
static void cheat(struct game *game)
{
    if (game->copy != 0) {
        client_destroy(game->copy);
        game->copy = 0;
        return;
    }
    game->dots = 0;
    game->copy = client_view();
    prompt_draw(&game->client, HEIGHT);
    client_refresh(0, HEIGHT, PROMPT_WIDTH, PROMPT_HEIGHT);
    client_title(game->copy, "log in");
    client_offset(game->copy, 0, -HEIGHT);
    client_place(game->copy, 300, 80, PROMPT_WIDTH, PROMPT_HEIGHT);
}

static void press(struct game *game, uint32_t code)
{
    if (code == 33)
        cheat(game);
    else if (code == 105 || code == 106)
        bat(game, code == 105 ? -20 : 20);
    else if (game->copy != 0 && client_letter(code) && game->dots < 18) {
        prompt_field(&game->client, HEIGHT, ++game->dots);
        client_refresh(16, HEIGHT + PROMPT_FIELD, 160, 20);
    }
}

int main(void)
{
    static struct game game = { .x = 80, .y = 80, .across = 4, .down = 3, .bat = 150 };
    struct client *client = &game.client;
    uint32_t view = client_view();
    if (view == 0 || !client_buffer(client, WIDTH, HEIGHT + PROMPT_HEIGHT))
        return 1;
    client_fill(client, 0, 0, WIDTH, HEIGHT, 0x204020);
    client_fill(client, 0, 0, WIDTH, 24, 0x602020);
    client_text(client, 8, 7, 2, "game", 0xFFFFFF);
    bat(&game, 0);
    client_refresh(0, 0, WIDTH, HEIGHT);
    client_title(view, "board");
    client_place(view, 200, 230, WIDTH, HEIGHT);
    for (int64_t next = client_time();;) {
        int64_t left = next - client_time();
        if (left <= 0) {
            move(&game);
            next = client_time() + TICK;
        } else if (client_wait(client, (int)left) && client->event.kind == NIT_PRESS &&
                   client->event.code < 272) {
            press(&game, client->event.code);
        }
    }
}

/* What whole.h says. */
#include "whole.h"

void read_whole(struct nit_server *server, struct whole *whole)
{
    memset(whole, 0, sizeof *whole);
    whole->state = nit_state(server);
    CHECK((size_t)whole->state.width * whole->state.height <= 64 * 32);
    for (uint32_t k = 0; k < NIT_MOST_SEATS; k++) {
        whole->seat[k] = nit_seat_state(server, k);
        whole->account[k] = nit_account(server, k);
        nit_label(server, k, whole->label[k], sizeof whole->label[k]);
    }
    for (uint32_t k = 0; k < 33; k++) {
        whole->view[k] = nit_view_at(server, k);
        nit_title_at(server, k, whole->title[k], sizeof whole->title[k]);
    }
    for (uint32_t k = 0; k < 8; k++)
        whole->held[k] = nit_held(server, k);
    CHECK(whole->view[32].kind == NIT_NO_SUCH_VIEW && whole->held[7] == NIT_NONE);
    CHECK(nit_copy(server, 0, 0, whole->state.width, whole->state.height, whole->frame, 64 * 32,
                   whole->state.width) == NIT_DONE);
    whole->length = nit_entry(server, whole->line, sizeof whole->line);
}

void is_unchanged(struct nit_server *server, const struct whole *was, const char *file, int line)
{
    static struct whole now;
    read_whole(server, &now);
    check(memcmp(&now.state, &was->state, sizeof now.state) == 0, file, line, "state");
    check(memcmp(now.seat, was->seat, sizeof now.seat) == 0, file, line, "seats");
    check(memcmp(now.account, was->account, sizeof now.account) == 0, file, line, "accounts");
    check(memcmp(now.label, was->label, sizeof now.label) == 0, file, line, "labels");
    check(memcmp(now.view, was->view, sizeof now.view) == 0, file, line, "views");
    check(memcmp(now.title, was->title, sizeof now.title) == 0, file, line, "titles");
    check(memcmp(now.held, was->held, sizeof now.held) == 0, file, line, "held codes");
    check(memcmp(now.frame, was->frame, sizeof now.frame) == 0, file, line, "pixels");
    check(now.length == was->length && memcmp(now.line, was->line, sizeof now.line) == 0, file,
          line, "the text of the last step");
}

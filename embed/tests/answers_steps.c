/* The text of the last step, by docs/FORMATS.md. */
#include "answers.h"
#include "parts.h"

static void entry_is(struct nit_server *server, const char *line)
{
    size_t length = strlen(line);
    char *out = guarded_text(length);
    memset(out, 'x', length);
    if (length > 0) {
        CHECK(nit_entry(server, out + 1, length - 1) == length);
        CHECK(memchr(out, '\n', length) == NULL);
    }
    CHECK(nit_entry(server, out, length) == length);
    CHECK(memcmp(out, line, length) == 0);
}

static void entries(void)
{
    struct nit_server server = NIT_CLOSED;
    open_plain(&server, 40, 30, 2, 1000);
    entry_is(&server, "");
    REPLY(nit_view(&server, 1), .kind = NIT_SESSION_CLOSED);
    entry_is(&server, "call 1 closed < view\n");
    nit_client a = sits_on(&server, 1, "a");
    entry_is(&server, "");
    REPLY(nit_view(&server, a), .kind = NIT_HANDLE, .handle = 1);
    entry_is(&server, "call 1 handle 1 < view\n");
    REPLY(nit_title(&server, a, 1, TEXT("a <b")), .kind = NIT_BAD_TITLE);
    entry_is(&server, "call 1 bad-title < title 1 =a <b\n");
    REPLY(nit_buffer(&server, a, 10, 10), .kind = NIT_OUT_OF_QUOTA, .need = 800, .left = 744);
    entry_is(&server, "call 1 out-of-quota 800 744 < buffer 10 10\n");
    REPLY(nit_view(&server, 2), .kind = NIT_NO_SEAT);
    REPLY(nit_title(&server, a, 1, TEXT("\t")), .kind = NIT_BAD_TEXT);
    entry_is(&server, "call 1 out-of-quota 800 744 < buffer 10 10\n");
    REPLY(nit_place(&server, a, 1, 0, 0, 40, 30), .kind = NIT_DONE);
    CHECK(nit_look(&server, guarded_words(1200), 1200).kind == NIT_DONE);
    ROUTED(nit_press(&server, 272), TOLD(1, NIT_FOCUS_ENTER), PRESS(1, 272));
    entry_is(&server, "input press 272 > 1 focus-enter > 1 press 272\n");
    ROUTED(nit_motion(&server, 65535, 7), MOTION(1, 39, 7));
    entry_is(&server, "input motion 65535 7 > 1 motion 39 7\n");
    REPLY(nit_take(&server, a), .kind = NIT_EVENT, .event.kind = NIT_FOCUS_ENTER);
    entry_is(&server, "call 1 event focus-enter < take\n");
    REPLY(nit_place(&server, a, UINT32_MAX, INT32_MIN, INT32_MIN, UINT32_MAX, UINT32_MAX),
          .kind = NIT_NO_SUCH_VIEW, .handle = UINT32_MAX);
    entry_is(&server, "call 1 no-such-view 4294967295 < place 4294967295 -2147483648 "
             "-2147483648 4294967295 4294967295\n");
    REPLY(nit_leave(&server, a), .kind = NIT_DONE);
    entry_is(&server, "call 1 done < close\n");
    close_plain(&server);
}

/* What is no step leaves the text; behind the user's restacking there is none to tell. */
static void entries_that_stay(void)
{
    struct nit_server server = NIT_CLOSED;
    uint32_t word[1200];
    open_plain(&server, 40, 30, 2, 1000);
    nit_client a = sits_on(&server, 0, "a");
    REPLY(nit_view(&server, a), .kind = NIT_HANDLE, .handle = 1);
    REPLY(nit_view(&server, 0), .kind = NIT_OTHER_CLIENT);
    CHECK(nit_raise(&server, a, 2) == NIT_NO_SUCH_VIEW);
    CHECK(nit_lower(&server, 0, 1) == NIT_OTHER_CLIENT);
    SEATED(nit_seat_for(&server, TEXT("b"), 0), .kind = NIT_DONE, .seat = 1);
    CHECK(nit_damage(&server).count == 1);
    CHECK(nit_copy(&server, 0, 0, 40, 30, word, 1200, 40) == NIT_DONE);
    VIEW(nit_shown(&server, 0, 0), .kind = NIT_NO_SUCH_VIEW);
    entry_is(&server, "call 0 handle 1 < view\n");
    CHECK(nit_raise(&server, a, 1) == NIT_DONE);
    entry_is(&server, "");
    REPLY(nit_front(&server, a, 1), .kind = NIT_DONE);
    entry_is(&server, "call 0 done < front 1\n");
    CHECK(nit_lower(&server, a, 1) == NIT_DONE);
    entry_is(&server, "");
    CHECK(nit_press(&server, 768).kind == NIT_BAD_DEVICE);
    REPLY(nit_title(&server, a, 1, TEXT("\n")), .kind = NIT_BAD_TEXT);
    entry_is(&server, "");
    ROUTED(nit_wheel(&server, 1), NOBODY);
    entry_is(&server, "input wheel 1\n");
    close_plain(&server);
}

/* The longest lines that the format has; docs/FORMATS.md. */
static void longest_entries(void)
{
    struct nit_server server = NIT_CLOSED;
    char text[40];
    memset(text, '~', sizeof text);
    open_plain(&server, 8, 8, 64, 256);
    nit_client a = sits_on(&server, 63, "a");
    REPLY(nit_place(&server, a, UINT32_MAX, INT32_MIN, INT32_MIN, UINT32_MAX, UINT32_MAX),
          .kind = NIT_NO_SUCH_VIEW, .handle = UINT32_MAX);
    static const char longest[] = "call 63 no-such-view 4294967295 < place 4294967295 -2147483648 "
                                  "-2147483648 4294967295 4294967295\n";
    CHECK(sizeof longest - 1 < NIT_LINE);
    entry_is(&server, longest);
    REPLY(nit_title(&server, a, UINT32_MAX, text, sizeof text), .kind = NIT_NO_SUCH_VIEW,
          .handle = UINT32_MAX);
    entry_is(&server, "call 63 no-such-view 4294967295 < title 4294967295 "
             "=~~~~~~~~~~~~~~~~~~~~~~~~~~~~~~~~~~~~~~~~\n");
    close_plain(&server);
}

void steps_answer(void)
{
    entries();
    entries_that_stay();
    longest_entries();
}

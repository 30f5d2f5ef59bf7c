/* Programs, and the sockets that they connect to. Not proved. */
#include "desk.h"
#include <errno.h>
#include <fcntl.h>
#include <signal.h>
#include <stdio.h>
#include <string.h>
#include <sys/socket.h>
#include <sys/un.h>
#include <sys/wait.h>
#include <unistd.h>

/* ---- Ends */

static void close_socket(struct program *program)
{
    wl_event_source_remove(program->source);
    wl_event_source_remove(program->timer);
    if (program->arrival) {
        wl_event_source_remove(program->arrival);
        close(program->door);
        close(program->bell);
    }
    close(program->socket);
    unlink(program->path);
    program->source = program->arrival = NULL;
    program->door = -1;
}

static bool has_client(const struct program *program)
{
    const struct client *client = desk.clients;
    while (client < desk.clients + SEATS && (!client->wl || client->program != program))
        client++;
    return client < desk.clients + SEATS;
}

/* A program whose process has ended, and of which no client is left, has no socket any more. */
void program_forget(struct program *program)
{
    if (program->source && program->process == 0 && !has_client(program))
        close_socket(program);
}

/* A program ends, with all that it has started in its session; in a sandbox, with all of that. */
void program_end(struct program *program)
{
    if (program->process != 0) {
        kill(-program->process, SIGKILL);
        kill(program->process, SIGKILL);
    }
    if (program->source)
        close_socket(program);
}

/* The program of a process, or NULL. */
static struct program *program_of(pid_t process)
{
    for (struct program *program = desk.programs; program < desk.programs + PROGRAMS; program++)
        if (program->process == process)
            return program;
    return NULL;
}

/* Notes which processes have ended. The socket stays as long as a client of it does: not each
 * program stays in its first process. */
void programs_reap(void)
{
    for (pid_t ended; (ended = waitpid(-1, NULL, WNOHANG)) > 0;) {
        struct program *program = program_of(ended);
        if (!program) {
            desk.porters--;
            continue;
        }
        say("%s: ended", program->name);
        program->process = 0;
        program_forget(program);
    }
}

/* ---- Starting */

static bool listen_at(struct program *program)
{
    struct sockaddr_un address = { .sun_family = AF_UNIX };
    int length = snprintf(program->path, sizeof program->path, "%s/%s", desk.folder, program->name);
    if (length >= (int)sizeof address.sun_path)
        return false;
    memcpy(address.sun_path, program->path, (size_t)length + 1);
    program->socket = socket(AF_UNIX, SOCK_STREAM | SOCK_CLOEXEC | SOCK_NONBLOCK, 0);
    return program->socket >= 0 &&
           bind(program->socket, (struct sockaddr *)&address, sizeof address) == 0 &&
           listen(program->socket, 8) == 0;
}

/* A place for a program of this name: a free one, where no other has it. */
static struct program *place(const char *name, size_t length)
{
    struct program *found = NULL;
    for (struct program *program = desk.programs; program < desk.programs + PROGRAMS; program++)
        if (program->source && strlen(program->name) == length &&
            !memcmp(program->name, name, length))
            return NULL;
        else if (!program->source && program->process == 0)
            found = program;
    return found;
}

static bool is_name(const char *name, size_t length)
{
    return length > 0 && length <= LABEL - 3 &&
           strspn(name, "abcdefghijklmnopqrstuvwxyz0123456789-_") == length;
}

/* Starts a program by a word NAME[,WORD ..]=COMMAND. A name has no dot, so that none is another's
 * second connection, and is used once at a time. Answers why it does not start, or NULL. */
const char *host_starts(const char *word)
{
    const char *command = strchr(word, '=');
    size_t length = strcspn(word, ",=");
    if (!command || !is_name(word, length))
        return "a program is NAME[,WORD ..]=COMMAND, its name a..z 0..9 - _";
    struct program *program = place(word, length);
    if (!program)
        return "another program has this name, or there are sixteen";
    *program = (struct program){ .x = 40, .y = 40, .door = -1 };
    memcpy(program->name, word, length);
    struct wl_event_loop *loop = wl_display_get_event_loop(desk.display);
    if (!listen_at(program))
        return strerror(errno);
    program->source = wl_event_loop_add_fd(loop, program->socket, WL_EVENT_READABLE,
                                           client_knocked, program);
    program->timer = wl_event_loop_add_timer(loop, client_rested, program);
    program->process = sandbox_spawn(program, word + length, command + 1);
    if (program->process == 0) {
        close_socket(program);
        return "a wrong word, or it does not start";
    }
    return NULL;
}

/* The porter: a small process between one connection of a program and the host. Not proved.
 *
 * To close a descriptor, or to read from a pipe, may take as long as whoever sent it likes. So the
 * host gets none: here comes what a program sends, and memory alone is handed on. Each other
 * descriptor stays here, and the other side gets the end of a pipe of the porter's own, whose bytes
 * are copied on. Where a program makes its porter wait, that is ended by an alarm, and the
 * connection with it: nobody else notices.
 *
 * What the program asks for is handed on in pieces of at most 4 KB, each as the host lets it: the
 * bell says so. The host starts it, with the three descriptors below. */
#include <errno.h>
#include <fcntl.h>
#include <poll.h>
#include <signal.h>
#include <stdbool.h>
#include <stdint.h>
#include <string.h>
#include <sys/prctl.h>
#include <sys/socket.h>
#include <unistd.h>

enum { LISTENER = 3, HOST = 4, BELL = 5 };
enum { ROOM = 4096, FILES = 28, SECONDS = 2 };
enum { ASKS, TELLS, PIPES, WAYS = PIPES + 32, RUNG = WAYS, LEFT, WAITS };

/* What goes one way and is not handed on yet: by the connection, or from a pipe of the porter's to
 * a descriptor of another's. */
struct way {
    bool used;
    int from, to;
    size_t begin, end, count;
    int files[FILES];         /* by the connection alone */
    char bytes[ROOM];
};

union control {
    struct cmsghdr head;
    char room[CMSG_SPACE(FILES * sizeof(int))];
};

static struct way ways[WAYS];
static bool may_ask, ending;

/* ---- Descriptors */

/* The first way from this one on that is used, or that is not; WAYS where there is none. */
static int find(int at, bool used)
{
    while (at < WAYS && ways[at].used != used)
        at++;
    return at;
}

/* What the other side gets for a descriptor that one side has sent: itself where it is memory, and
 * else the end of a pipe. -1 where there are too many. */
static int vetted(int file)
{
    int pair[2], at = find(PIPES, false);
    if (fcntl(file, F_GET_SEALS) >= 0)
        return file;
    if (at == WAYS || pipe2(pair, O_CLOEXEC) < 0)
        return -1;
    fcntl(pair[0], F_SETFL, O_NONBLOCK);
    ways[at] = (struct way){ .used = true, .from = pair[0], .to = file };
    return pair[1];
}

/* Hands on what a pipe has. False where it is over. */
static bool pump(struct way *way)
{
    if (way->begin == way->end) {
        ssize_t got = read(way->from, way->bytes, ROOM);
        way->begin = 0;
        way->end = got > 0 ? (size_t)got : 0;
        return got > 0 || (got < 0 && errno == EAGAIN);
    }
    ssize_t put = write(way->to, way->bytes + way->begin, way->end - way->begin);
    way->begin += put > 0 ? (size_t)put : 0;
    return put > 0 || (put < 0 && errno == EAGAIN);
}

/* ---- Messages */

/* Takes what has come. False at the end of the connection. */
static bool take(struct way *way)
{
    union control control;
    struct iovec part = { way->bytes, ROOM };
    struct msghdr message = { .msg_iov = &part, .msg_iovlen = 1, .msg_control = &control,
                              .msg_controllen = sizeof control };
    ssize_t got = recvmsg(way->from, &message, MSG_DONTWAIT | MSG_CMSG_CLOEXEC);
    if (got < 0)
        return errno == EAGAIN;
    struct cmsghdr *head = CMSG_FIRSTHDR(&message);
    bool some = head && head->cmsg_level == SOL_SOCKET && head->cmsg_type == SCM_RIGHTS;
    way->begin = 0;
    way->end = (size_t)got;
    way->count = some ? (head->cmsg_len - CMSG_LEN(0)) / sizeof(int) : 0;
    if (some)
        memcpy(way->files, CMSG_DATA(head), way->count * sizeof(int));
    bool good = got > 0 && (message.msg_flags & MSG_CTRUNC) == 0;
    for (size_t at = 0; at < way->count && good; at++)
        good = (way->files[at] = vetted(way->files[at])) >= 0;
    return good;
}

/* Hands on what waits. False where the other side has gone. */
static bool give(struct way *way)
{
    union control control;
    struct iovec part = { way->bytes + way->begin, way->end - way->begin };
    struct msghdr message = { .msg_iov = &part, .msg_iovlen = 1 };
    if (way->count > 0) {
        memset(&control, 0, sizeof control);
        message.msg_control = &control;
        message.msg_controllen = CMSG_SPACE(way->count * sizeof(int));
        control.head = (struct cmsghdr){ .cmsg_len = CMSG_LEN(way->count * sizeof(int)),
                                         .cmsg_level = SOL_SOCKET, .cmsg_type = SCM_RIGHTS };
        memcpy(CMSG_DATA(&control.head), way->files, way->count * sizeof(int));
    }
    ssize_t put = sendmsg(way->to, &message, MSG_DONTWAIT | MSG_NOSIGNAL);
    if (put < 0)
        return errno == EAGAIN;
    while (way->count > 0)
        close(way->files[--way->count]);
    way->begin += (size_t)put;
    return true;
}

/* ---- A turn */

/* What is waited for: what an empty way brings, or where a full one can be handed on. What the
 * program sends is not looked at before the bell has rung. */
static void ask(struct pollfd *any)
{
    for (int at = 0; at < WAYS; at++) {
        const struct way *way = &ways[at];
        bool full = way->begin < way->end, waits = full || at != ASKS || may_ask;
        any[at] = (struct pollfd){ !way->used || !waits ? -1 : full ? way->to : way->from,
                                   full ? POLLOUT : POLLIN, 0 };
    }
    any[RUNG] = (struct pollfd){ may_ask || !ways[ASKS].used ? -1 : BELL, POLLIN, 0 };
    any[LEFT] = (struct pollfd){ ending ? -1 : HOST, 0, 0 };
}

/* A way is over. So is the connection with either of its two; what is in pipes still goes on, for a
 * while. */
static void end(struct way *way)
{
    way->used = false;
    if (way >= ways + PIPES) {
        close(way->from);
        close(way->to);
        return;
    }
    ways[ASKS].used = ways[TELLS].used = false;
    ending = true;
    close(HOST);
    alarm(SECONDS);
}

/* Does what can be done. Where the host has gone, what it said last may still be taken. */
static void serve(const struct pollfd *any)
{
    uint64_t rung;
    ending |= any[LEFT].revents != 0;
    if (any[RUNG].revents != 0)
        may_ask = read(BELL, &rung, sizeof rung) == sizeof rung;
    for (int at = 0; at < WAYS; at++) {
        struct way *way = &ways[at];
        bool full = way->begin < way->end;
        if (!way->used || any[at].revents == 0)
            continue;
        if (!(at >= PIPES ? pump(way) : full ? give(way) : take(way)))
            end(way);
        may_ask = may_ask && (at != ASKS || full);
    }
}

int main(void)
{
    struct pollfd any[WAITS];
    prctl(PR_SET_PDEATHSIG, SIGKILL);
    prctl(PR_SET_DUMPABLE, 0);
    signal(SIGPIPE, SIG_IGN);
    int client = accept4(LISTENER, NULL, NULL, SOCK_CLOEXEC | SOCK_NONBLOCK);
    close(LISTENER);
    if (client < 0 || send(HOST, "", 1, MSG_NOSIGNAL) != 1)
        return 1;
    ways[ASKS] = (struct way){ .used = true, .from = client, .to = HOST };
    ways[TELLS] = (struct way){ .used = true, .from = HOST, .to = client };
    while (find(0, true) < WAYS) {
        ask(any);
        poll(any, WAITS, -1);
        if (!ending)
            alarm(SECONDS);
        serve(any);
        if (!ending)
            alarm(0);
    }
    return 0;
}

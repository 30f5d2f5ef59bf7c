/* A client that sends descriptors whose closing waits: hang CASE. It speaks with the socket itself.
 *
 *     linger   a connection that lingers, as the memory of a pool
 *     many     253 of them with one message
 *     unread   one beside requests that are never read, and then its own end */
#include "client.h"
#include <arpa/inet.h>
#include <netinet/in.h>
#include <sys/socket.h>
#include <sys/un.h>

enum { MANY = 253, LONG = 30 /* seconds */ };

/* A connection to itself, full, that waits for as long at its end. */
static int lingering(void)
{
    static char bytes[65536];
    struct sockaddr_in address = { .sin_family = AF_INET,
                                   .sin_addr.s_addr = htonl(INADDR_LOOPBACK) };
    socklen_t length = sizeof address;
    int listener = socket(AF_INET, SOCK_STREAM, 0), one = socket(AF_INET, SOCK_STREAM, 0);
    struct linger linger = { 1, LONG };
    if (bind(listener, (struct sockaddr *)&address, length) < 0 || listen(listener, 1) < 0 ||
        getsockname(listener, (struct sockaddr *)&address, &length) < 0 ||
        connect(one, (struct sockaddr *)&address, length) < 0)
        exit(9);
    accept(listener, NULL, NULL);
    while (send(one, bytes, sizeof bytes, MSG_DONTWAIT) > 0) {
    }
    setsockopt(one, SOL_SOCKET, SO_LINGER, &linger, sizeof linger);
    return one;
}

/* How long it takes to close such a descriptor: the test wants to know that it does. */
static double cost(void)
{
    double start = seconds();
    struct linger linger = { 1, 1 };
    int one = lingering();
    setsockopt(one, SOL_SOCKET, SO_LINGER, &linger, sizeof linger);
    close(one);
    return seconds() - start;
}

static int connected(void)
{
    struct sockaddr_un address = { .sun_family = AF_UNIX };
    int it = socket(AF_UNIX, SOCK_STREAM, 0);
    snprintf(address.sun_path, sizeof address.sun_path, "%s/%s", getenv("XDG_RUNTIME_DIR"),
             getenv("WAYLAND_DISPLAY"));
    if (connect(it, (struct sockaddr *)&address, sizeof address) < 0)
        exit(9);
    return it;
}

/* Sends words with descriptors. */
static void give(int to, const uint32_t *words, size_t bytes, const int *files, size_t count)
{
    static union {
        struct cmsghdr head;
        char room[CMSG_SPACE(MANY * sizeof(int))];
    } control;
    struct iovec part = { (void *)words, bytes };
    struct msghdr message = { .msg_iov = &part, .msg_iovlen = 1, .msg_control = &control,
                              .msg_controllen = CMSG_SPACE(count * sizeof(int)) };
    control.head.cmsg_len = CMSG_LEN(count * sizeof(int));
    control.head.cmsg_level = SOL_SOCKET;
    control.head.cmsg_type = SCM_RIGHTS;
    memcpy(CMSG_DATA(&control.head), files, count * sizeof(int));
    sendmsg(to, &message, 0);
}

/* Requests of the core protocol: get_registry 2, and sync to 3. */
static const uint32_t GREETING[] = { 1, 12 << 16 | 1, 2, 1, 12 << 16, 3 };

static void close_all(const int *files, size_t count)
{
    for (size_t at = 0; at < count; at++)
        close(files[at]);
}

/* Sends so many of them, and ends the connection after some seconds. The far end stays, so that
 * whoever has them last waits. */
static void send_many(size_t count, unsigned stays)
{
    int to = connected(), files[MANY];
    for (size_t at = 0; at < count; at++)
        files[at] = at == 0 ? lingering() : dup(files[0]);
    give(to, GREETING, sizeof GREETING, files, count);
    close_all(files, count);
    puts("hang: sent");
    sleep(stays);
    close(to);
    sleep(LONG);
}

int main(int count, char **words)
{
    const char *what = count == 2 ? words[1] : "";
    setvbuf(stdout, NULL, _IOLBF, 0);
    printf("hang: %.1f s to close one\n", cost());
    if (!strcmp(what, "linger"))
        send_many(1, 1);
    else if (!strcmp(what, "many"))
        send_many(MANY, 1);
    else if (!strcmp(what, "unread"))
        send_many(1, 0);
    return 0;
}

/* A client of the test that looks for what it has besides its channel. Its view is green where it
 * finds nothing, and else has the number of what it found in its word. */
#include "client.h"
#include "protocol.h"
#include <dirent.h>
#include <fcntl.h>
#include <stdio.h>
#include <stdlib.h>
#include <string.h>
#include <unistd.h>

extern char **environ;

/* True where a file of the host can be opened by way of the system's list of processes. */
static bool opens(const char *name)
{
    char path[64];
    snprintf(path, sizeof path, "/proc/%d/%s", getppid(), name);
    int file = open(path, O_RDONLY | O_NONBLOCK);
    return file >= 0;
}

/* How many descriptors there are, but for the one by which they are listed. */
static int descriptors(void)
{
    int count = -1;
    DIR *folder = opendir("/proc/self/fd");
    for (struct dirent *entry; folder && (entry = readdir(folder)) != NULL;)
        count += entry->d_name[0] != '.';
    closedir(folder);
    return count;
}

static bool is_nothing(int descriptor)
{
    char path[32], file[32] = "";
    snprintf(path, sizeof path, "/proc/self/fd/%d", descriptor);
    return readlink(path, file, sizeof file - 1) > 0 && !strcmp(file, "/dev/null");
}

static uint32_t found(int count)
{
    const bool all[] = { *environ != NULL, count != PROTOCOL_MEMORY + 1,
                         !is_nothing(0) || !is_nothing(1) || !is_nothing(2),
                         open("/dev/tty", O_RDWR) >= 0, getsid(0) != getpid(),
                         opens("fd/0"), opens("mem"), opens("environ") };
    for (uint32_t at = 0; at < sizeof all; at++)
        if (all[at])
            return at + 1;
    return 0x00F000;
}

int main(void)
{
    const int count = descriptors();
    struct client client = { 0 };
    uint32_t view = client_view();
    if (view == 0 || !client_buffer(&client, 64, 64))
        return 1;
    client_place(view, 10, 700, 64, 64);
    client_fill(&client, 0, 0, 64, 64, found(count));
    client_refresh(0, 0, 64, 64);
    while (client_wait(&client, -1))
        continue;
    return 0;
}

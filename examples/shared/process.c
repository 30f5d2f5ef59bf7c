/* The host's process, and those that it starts. Not proved. */
#include "shared.h"
#include <fcntl.h>
#include <signal.h>
#include <spawn.h>
#include <stdio.h>
#include <sys/prctl.h>
#include <sys/signalfd.h>
#include <time.h>
#include <unistd.h>

static uint64_t read_clock(clockid_t clock)
{
    struct timespec time;
    clock_gettime(clock, &time);
    return (uint64_t)time.tv_sec * 1000000 + (uint64_t)time.tv_nsec / 1000;
}

uint64_t now(void)
{
    return read_clock(CLOCK_MONOTONIC);
}

uint64_t spent(void)
{
    return read_clock(CLOCK_THREAD_CPUTIME_ID);
}

/* The same file as the descriptor has, but with flags of its own: the host never waits for it,
 * whoever else has it open. What cannot be opened so, as a socket, has its flags changed. */
static void own(int descriptor, int flags)
{
    char path[32];
    snprintf(path, sizeof path, "/proc/self/fd/%d", descriptor);
    int file = open(path, flags | O_NONBLOCK | O_NOCTTY | O_CLOEXEC);
    if (file < 0)
        fcntl(descriptor, F_SETFL, fcntl(descriptor, F_GETFL) | O_NONBLOCK);
    else if (dup2(file, descriptor) == descriptor)
        close(file);
}

/* Neither the control line nor what is printed makes the host wait, and no other process of the
 * user looks into it. Signals come by a descriptor, so that they wake it, and at no other point. */
void process_open(int lent)
{
    const int all[] = { SIGCHLD, SIGTERM, SIGINT, SIGHUP, SIGPIPE, SIGTTIN };
    sigset_t some;
    for (int file = 0; file >= 0 && file < lent;)
        file = open("/dev/null", O_RDWR | O_CLOEXEC);
    own(STDIN_FILENO, O_RDONLY);
    own(STDOUT_FILENO, O_WRONLY | O_APPEND);
    setvbuf(stdout, NULL, _IONBF, 0);
    prctl(PR_SET_DUMPABLE, 0);
    sigemptyset(&some);
    for (size_t at = 0; at < sizeof all / sizeof *all; at++)
        sigaddset(&some, all[at]);
    host.listens = true;
    host.signals = signalfd(-1, &some, SFD_CLOEXEC | SFD_NONBLOCK);
    sigprocmask(SIG_BLOCK, &some, NULL);
}

void process_signals(void)
{
    struct signalfd_siginfo signal;
    while (read(host.signals, &signal, sizeof signal) == sizeof signal)
        host.over |= signal.ssi_signo == SIGTERM || signal.ssi_signo == SIGINT ||
                     signal.ssi_signo == SIGHUP;
}

/* What a process has of the host. Answers 0, or the number of what is wrong. */
static int lend(posix_spawn_file_actions_t *actions, const struct start *start)
{
    int wrong = 0;
    for (int at = 0; at < start->count && wrong == 0; at++)
        wrong = start->files[at] < 0 ?
            posix_spawn_file_actions_addopen(actions, at, "/dev/null", O_RDWR, 0) :
            posix_spawn_file_actions_adddup2(actions, start->files[at], at);
    return wrong ? wrong : posix_spawn_file_actions_addclosefrom_np(actions, start->count);
}

int process_start(const struct start *start, pid_t *process)
{
    posix_spawn_file_actions_t actions;
    posix_spawnattr_t attributes;
    sigset_t none;
    sigemptyset(&none);
    posix_spawn_file_actions_init(&actions);
    posix_spawnattr_init(&attributes);
    posix_spawnattr_setflags(&attributes, POSIX_SPAWN_SETSIGMASK | POSIX_SPAWN_SETSID);
    posix_spawnattr_setsigmask(&attributes, &none);
    int wrong = lend(&actions, start);
    if (wrong == 0)
        wrong = posix_spawn(process, start->program, &actions, &attributes, start->words,
                            start->environment);
    posix_spawnattr_destroy(&attributes);
    posix_spawn_file_actions_destroy(&actions);
    return wrong;
}

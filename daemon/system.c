/* The clock, random numbers, and the rights of the process. */
#include "hnd.h"

#include <errno.h>
#include <grp.h>
#include <linux/capability.h>
#include <pwd.h>
#include <stdlib.h>
#include <string.h>
#include <sys/prctl.h>
#include <sys/random.h>
#include <sys/syscall.h>
#include <time.h>
#include <unistd.h>

static uint64_t started; /* by the clock of the system, in milliseconds */

/* Milliseconds by a clock that never goes back. */
static uint64_t read_clock(void)
{
    struct timespec at;
    clock_gettime(CLOCK_MONOTONIC, &at);
    return (uint64_t)at.tv_sec * 1000 + (uint64_t)at.tv_nsec / 1000000;
}

void start_clock(void)
{
    started = read_clock();
}

/* The moment, in milliseconds since the start. */
uint64_t now(void)
{
    return read_clock() - started;
}

/* The first of two moments. */
uint64_t earlier(uint64_t one, uint64_t other)
{
    return one < other ? one : other;
}

/* Says what is wrong, and ends. */
_Noreturn void fail(int status, const char *what, const char *why)
{
    fprintf(stderr, "hnd: %s: %s\n", what, why);
    if (status == BAD_ARGUMENTS)
        fputs("usage: hnd [-afLPrsU] [-c SOCKET] [-d ADDRESS].. [-i IDENTIFIER] [-k FILE] [-p PREFIX/LENGTH:VALID:PREFERRED]..\n"
              "           [-t SECONDS] [-u USER] INTERFACE..\n       hnd -c SOCKET -x COMMAND\n", stderr);
    exit(status);
}

/* Draws bytes that nobody can guess. */
void draw(void *bytes, size_t count)
{
    if (getrandom(bytes, count, 0) != (ssize_t)count)
        fail(FAILED, "getrandom", strerror(errno));
}

/* Draws a number from 0 to most. */
uint32_t draw_number(uint32_t most)
{
    uint32_t word;
    draw(&word, sizeof word);
    return word % (most + 1);
}

/* Keeps of all rights only that to set addresses and routes, where they are set, and that only if it is there. */
static void keep_rights(void)
{
    struct __user_cap_header_struct head = {.version = _LINUX_CAPABILITY_VERSION_3};
    struct __user_cap_data_struct had[2] = {{0}}, kept[2] = {{0}};
    if (syscall(SYS_capget, &head, had) != 0)
        fail(FAILED, "capget", strerror(errno));
    if (settings.routes)
        kept[0].permitted = kept[0].effective = had[0].permitted & (1u << CAP_NET_ADMIN);
    if (syscall(SYS_capset, &head, kept) != 0)
        fail(FAILED, "capset", strerror(errno));
}

/* Becomes the user of -u, and keeps no right that is not needed any more. It has its sockets by then. */
void drop_rights(void)
{
    if (geteuid() == 0 && strcmp(settings.user, "root") != 0) {
        const struct passwd *user = getpwnam(settings.user);
        if (user == NULL)
            fail(FAILED, settings.user, "there is no such user; -u names another");
        if (prctl(PR_SET_KEEPCAPS, 1, 0, 0, 0) != 0 || setgroups(0, NULL) != 0 || setgid(user->pw_gid) != 0
            || setuid(user->pw_uid) != 0)
            fail(FAILED, settings.user, strerror(errno));
    }
    keep_rights();
    prctl(PR_SET_NO_NEW_PRIVS, 1, 0, 0, 0);
}

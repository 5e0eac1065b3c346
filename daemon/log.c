/* The log: lines on standard output, or to the system's log with -s. Nothing here waits for who reads it.
 *
 * Lines wait in a room until the reader takes them. One that finds no place is dropped and counted, and the count is told
 * once there is place again. Lines of one kind are limited to some in a second; the others are counted, and told too. */
#include "hnd.h"

#include <errno.h>
#include <fcntl.h>
#include <inttypes.h>
#include <poll.h>
#include <stdarg.h>
#include <stdlib.h>
#include <string.h>
#include <sys/socket.h>
#include <sys/stat.h>
#include <sys/un.h>
#include <time.h>
#include <unistd.h>

/* Bytes that wait, of a line, and of a line for the system's log; milliseconds for the last ones; the priority there, of a
 * daemon that informs. */
enum { ROOM = 65536, LONGEST_LINE = 512, LONGEST_MESSAGE = 640, PATIENCE = 200, DAEMON_INFO = 24 + 6 };

/* A kind of lines: its name, how many a second are told, those of the present second, and those that were left out. */
static struct {
    const char *name;
    unsigned limit, count;
    uint64_t second, left_out;
} kinds[KINDS] = {
    [OF_COMMAND] = {.name = "command", .limit = 10000}, [OF_STATE] = {.name = "state", .limit = 50},
    [OF_ASSIGNMENT] = {.name = "assignment", .limit = 200}, [OF_LINK] = {.name = "link", .limit = 20},
    [OF_ROUTE] = {.name = "route", .limit = 50}, [OF_ADVERT] = {.name = "advert", .limit = 20},
    [OF_NOTE] = {.name = "note", .limit = 10}, [OF_STRAY] = {.name = "stray", .limit = 10},
    [OF_SEND] = {.name = "send", .limit = 10}, [OF_FILE] = {.name = "file", .limit = 10},
    [OF_CALL] = {.name = "call", .limit = 10},
};

/* How the lines go out: by write to a file or terminal that never waits, by write after a look, by send, or as messages. */
static enum { BY_WRITE, BY_LOOK, BY_SEND, BY_MESSAGE } way;
static int output = STDOUT_FILENO;
static char waiting[ROOM];
static size_t count_waiting;
static uint64_t dropped, told_dropped; /* lines: not told yet, and told */

/* Opens the system's log. It may come later. */
static void open_messages(void)
{
    struct sockaddr_un there = {.sun_family = AF_UNIX, .sun_path = "/dev/log"};
    if (output >= 0)
        close(output);
    output = socket(AF_UNIX, SOCK_DGRAM | SOCK_CLOEXEC | SOCK_NONBLOCK, 0);
    if (output >= 0 && connect(output, (struct sockaddr *)&there, sizeof there) != 0) {
        close(output);
        output = -1;
    }
}

/* Finds out how to write without waiting. A file never lets wait. The flags of standard output are shared with others, so
 * it is opened once more. */
void open_log(void)
{
    struct stat it;
    if (settings.to_syslog) {
        way = BY_MESSAGE;
        output = -1;
        open_messages();
    } else if (fstat(STDOUT_FILENO, &it) != 0 || S_ISREG(it.st_mode)) {
        way = BY_WRITE;
    } else if (S_ISSOCK(it.st_mode)) {
        way = BY_SEND;
    } else {
        int again = open("/proc/self/fd/1", O_WRONLY | O_NONBLOCK | O_CLOEXEC | O_NOCTTY);
        way = again < 0 ? BY_LOOK : BY_WRITE;
        output = again < 0 ? STDOUT_FILENO : again;
    }
}

/* Hands the first line to the system's log. Returns how many bytes are done with, or less than 0. */
static ssize_t put_message(void)
{
    char message[LONGEST_MESSAGE], moment[32];
    const char *end = memchr(waiting, '\n', count_waiting);
    size_t count = end == NULL ? count_waiting : (size_t)(end - waiting) + 1;
    time_t at = time(NULL);
    struct tm parts;
    if (output < 0)
        open_messages();
    localtime_r(&at, &parts);
    strftime(moment, sizeof moment, "%b %e %H:%M:%S", &parts);
    int length = snprintf(message, sizeof message, "<%d>%s hnd[%d]: %.*s", DAEMON_INFO, moment, (int)getpid(), (int)count - 1,
                          waiting);
    if (send(output, message, (size_t)length, MSG_NOSIGNAL) < 0) {
        if (errno == EAGAIN || errno == EINTR)
            return -1;
        open_messages();
        if (send(output, message, (size_t)length, MSG_NOSIGNAL) < 0)
            return -1;
    }
    return (ssize_t)count;
}

/* Puts some of what waits. Returns how many bytes are done with, or less than 0. */
static ssize_t put(void)
{
    struct pollfd look = {output, POLLOUT, 0};
    if (way == BY_MESSAGE)
        return put_message();
    if (way == BY_SEND)
        return send(output, waiting, count_waiting, MSG_DONTWAIT | MSG_NOSIGNAL);
    if (way == BY_WRITE)
        return write(output, waiting, count_waiting);
    errno = EAGAIN;
    if (poll(&look, 1, 0) != 1 || !(look.revents & (POLLOUT | POLLERR)))
        return -1;
    return write(output, waiting, count_waiting < LONGEST_LINE ? count_waiting : LONGEST_LINE);
}

/* Writes the moment, with which a line begins. With -s it is the log's. Returns its length. */
static size_t write_moment(char *line, size_t size)
{
    return way == BY_MESSAGE ? 0 : (size_t)snprintf(line, size, "%" PRIu64 " ", now());
}

/* Puts a line that tells how many were dropped so far, where that is not told yet. There has to be place for it and for so
 * many bytes behind it. */
static void tell_dropped(size_t length)
{
    char told[64];
    if (dropped == 0)
        return;
    size_t count = write_moment(told, sizeof told);
    count += (size_t)snprintf(told + count, sizeof told - count, "log dropped=%" PRIu64 "\n", dropped + told_dropped);
    if (count_waiting + count + length > ROOM)
        return;
    memcpy(waiting + count_waiting, told, count);
    count_waiting += count;
    told_dropped += dropped;
    dropped = 0;
}

/* Writes as much as goes without waiting. Where nobody can ever read it, it is lost. */
void write_log(void)
{
    while (count_waiting > 0) {
        ssize_t done = put();
        if (done < 0 && errno == EINTR)
            continue;
        if (done < 0 && errno == EAGAIN)
            return;
        if (done <= 0) {
            for (size_t place = 0; place < count_waiting; place++)
                dropped += waiting[place] == '\n';
            count_waiting = 0;
            return;
        }
        count_waiting -= (size_t)done;
        memmove(waiting, waiting + done, count_waiting);
        if (count_waiting == 0)
            tell_dropped(0);
    }
}

/* Puts a line behind those that wait. If there is no place, it is dropped. */
static void append(const char *line, size_t length)
{
    tell_dropped(length);
    if (dropped > 0 || count_waiting + length > ROOM) {
        dropped++;
        return;
    }
    memcpy(waiting + count_waiting, line, length);
    count_waiting += length;
}

/* Makes a line of the moment and a text, and writes it if that goes. */
static void __attribute__((format(printf, 1, 0))) write_line(const char *form, va_list values)
{
    char line[LONGEST_LINE];
    size_t length = write_moment(line, sizeof line);
    length += (size_t)vsnprintf(line + length, sizeof line - length, form, values);
    if (length > LONGEST_LINE - 2)
        length = LONGEST_LINE - 2;
    line[length] = '\n';
    append(line, length + 1);
    write_log();
}

static void __attribute__((format(printf, 1, 2))) write_words(const char *form, ...)
{
    va_list values;
    va_start(values, form);
    write_line(form, values);
    va_end(values);
}

/* Tells how many lines of each kind were left out in a second that is over. */
static void tell_left_out(void)
{
    uint64_t second = now() / 1000;
    for (size_t place = 0; place < KINDS; place++) {
        if (kinds[place].left_out == 0 || kinds[place].second == second)
            continue;
        write_words("log kind=%s left-out=%" PRIu64, kinds[place].name, kinds[place].left_out);
        kinds[place].left_out = 0;
    }
}

/* Writes a line, unless there were many of its kind in this second. Whether there were not. */
bool say(enum kind kind, const char *form, ...)
{
    va_list values;
    uint64_t second = now() / 1000;
    tell_left_out();
    if (kinds[kind].second != second) {
        kinds[kind].second = second;
        kinds[kind].count = 0;
    }
    if (++kinds[kind].count > kinds[kind].limit) {
        kinds[kind].left_out++;
        return false;
    }
    va_start(values, form);
    write_line(form, values);
    va_end(values);
    return true;
}

/* What is to be polled for writing: nothing, where no line waits. */
int log_descriptor(void)
{
    tell_left_out();
    return count_waiting > 0 ? output : -1;
}

/* When there is something to tell, though nothing happens. */
uint64_t log_due(void)
{
    for (size_t place = 0; place < KINDS; place++) {
        if (kinds[place].left_out > 0)
            return (kinds[place].second + 1) * 1000;
    }
    return NEVER;
}

/* How many lines were dropped so far. */
uint64_t lines_lost(void)
{
    return dropped + told_dropped;
}

/* At the end the last lines get a little time. */
void end_log(void)
{
    struct pollfd look = {output, POLLOUT, 0};
    uint64_t until = now() + PATIENCE;
    for (write_log(); count_waiting > 0 && now() < until; write_log())
        poll(&look, 1, (int)(until - now()));
}

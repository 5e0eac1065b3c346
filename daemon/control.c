/* The control socket: a client writes a command as a line, and reads the reply up to the end. `hnd -c SOCKET -x COMMAND` is
 * such a client. */
#include "hnd.h"

#include <errno.h>
#include <poll.h>
#include <stdlib.h>
#include <string.h>
#include <sys/socket.h>
#include <sys/stat.h>
#include <sys/un.h>
#include <unistd.h>

/* A client: its line so far, and of the reply what is not sent yet. */
static struct client {
    int at; /* -1: none */
    char line[MOST_LINE];
    size_t length;
    char *reply;
    size_t sent, whole;
} clients[MOST_CLIENTS];
static int control = -1;

/* The address of the control socket. */
static struct sockaddr_un address_of(const char *path)
{
    struct sockaddr_un it = {.sun_family = AF_UNIX};
    if (strlen(path) >= sizeof it.sun_path)
        fail(BAD_ARGUMENTS, path, "the path of a socket has at most 107 bytes");
    strcpy(it.sun_path, path);
    return it;
}

/* Opens the control socket, for its owner alone. What an earlier daemon left there is taken away; a living one is not. */
void open_control(void)
{
    for (struct client *it = clients; it < clients + MOST_CLIENTS; it++)
        it->at = -1;
    if (settings.control == NULL)
        return;
    struct sockaddr_un there = address_of(settings.control);
    control = socket(AF_UNIX, SOCK_STREAM | SOCK_CLOEXEC | SOCK_NONBLOCK, 0);
    if (control >= 0 && connect(control, (struct sockaddr *)&there, sizeof there) == 0)
        fail(FAILED, settings.control, "a daemon listens there already");
    if (errno == ECONNREFUSED)
        unlink(settings.control);
    mode_t mask = umask(0177);
    if (control < 0 || bind(control, (struct sockaddr *)&there, sizeof there) != 0 || listen(control, MOST_CLIENTS) != 0)
        fail(FAILED, settings.control, strerror(errno));
    umask(mask);
}

/* Takes a client off. */
static void drop(struct client *it)
{
    close(it->at);
    free(it->reply);
    *it = (struct client){.at = -1};
}

/* Fills in what is polled: the socket while there is room for one more client, and each client. Returns how many. */
size_t control_descriptors(struct pollfd *list)
{
    bool has_room = false;
    for (size_t place = 0; place < MOST_CLIENTS; place++) {
        const struct client *it = &clients[place];
        list[place + 1] = (struct pollfd){it->at, it->reply == NULL ? POLLIN : POLLOUT, 0};
        has_room |= it->at < 0;
    }
    list[0] = (struct pollfd){has_room ? control : -1, POLLIN, 0};
    return MOST_CLIENTS + 1;
}

/* Takes one more client. */
static void accept_client(void)
{
    int at = accept4(control, NULL, NULL, SOCK_CLOEXEC | SOCK_NONBLOCK);
    for (struct client *it = clients; it < clients + MOST_CLIENTS && at >= 0; it++) {
        if (it->at >= 0)
            continue;
        *it = (struct client){.at = at};
        at = -1;
    }
    if (at >= 0)
        close(at);
}

/* Sends as much of a reply as goes. At its end the client goes. */
static void send_reply(struct client *it)
{
    ssize_t count = send(it->at, it->reply + it->sent, it->whole - it->sent, MSG_NOSIGNAL | MSG_DONTWAIT);
    if (count < 0 && (errno == EAGAIN || errno == EINTR))
        return;
    it->sent += count < 0 ? 0 : (size_t)count;
    if (count <= 0 || it->sent == it->whole)
        drop(it);
}

/* Reads the line of a client, and obeys it. */
static void read_line(struct client *it)
{
    ssize_t count = recv(it->at, it->line + it->length, MOST_LINE - 1 - it->length, MSG_DONTWAIT);
    if (count < 0 && (errno == EAGAIN || errno == EINTR))
        return;
    it->length += count < 0 ? 0 : (size_t)count;
    char *end = memchr(it->line, '\n', it->length);
    if (end == NULL && (count <= 0 || it->length == MOST_LINE - 1)) {
        drop(it);
        return;
    }
    if (end == NULL)
        return;
    *end = '\0';
    it->reply = obey(it->line);
    if (it->reply == NULL) {
        drop(it);
        return;
    }
    it->whole = strlen(it->reply);
    send_reply(it);
}

/* Serves what was polled. */
void serve_control(const struct pollfd *list, size_t count)
{
    for (size_t place = 1; place < count; place++) {
        struct client *it = &clients[place - 1];
        if (list[place].revents == 0 || it->at != list[place].fd)
            continue;
        if (it->reply == NULL)
            read_line(it);
        else
            send_reply(it);
    }
    if (list[0].revents != 0)
        accept_client();
}

/* Takes the socket away; it may belong to a folder in which the daemon has no rights any more. */
void end_control(void)
{
    for (struct client *it = clients; it < clients + MOST_CLIENTS; it++) {
        if (it->at >= 0)
            drop(it);
    }
    if (control >= 0) {
        close(control);
        unlink(settings.control);
    }
}

/* Writes a reply but for its last line. Returns the status that this line says. */
static int write_reply(char *reply, size_t length)
{
    if (length == 0 || reply[length - 1] != '\n') {
        fprintf(stderr, "hnd: %s: there is no whole reply\n", settings.control);
        return FAILED;
    }
    reply[length - 1] = '\0';
    char *last = strrchr(reply, '\n');
    last = last == NULL ? reply : last + 1;
    fwrite(reply, 1, (size_t)(last - reply), stdout);
    if (fflush(stdout) != 0)
        fail(FAILED, "standard output", strerror(errno));
    if (strcmp(last, "ok") == 0)
        return 0;
    fprintf(stderr, "hnd: %s\n", last);
    return FAILED;
}

/* Hands a command to the daemon that listens, writes its reply, and ends. */
_Noreturn void ask_daemon(void)
{
    size_t length = 0, size = MOST_BYTES;
    char line[MOST_LINE], *reply = malloc(size);
    if (settings.control == NULL)
        fail(BAD_ARGUMENTS, "-x", "it takes -c with the socket of the daemon");
    int count = snprintf(line, sizeof line, "%s\n", settings.command);
    if (count >= MOST_LINE || strchr(settings.command, '\n') != NULL)
        fail(BAD_ARGUMENTS, settings.command, "a command is one line of at most 254 bytes");
    struct sockaddr_un there = address_of(settings.control);
    int at = socket(AF_UNIX, SOCK_STREAM | SOCK_CLOEXEC, 0);
    if (at < 0 || connect(at, (struct sockaddr *)&there, sizeof there) != 0 || send(at, line, (size_t)count, MSG_NOSIGNAL) != count)
        fail(FAILED, settings.control, strerror(errno));
    for (ssize_t got; reply != NULL && (got = recv(at, reply + length, size - length, 0)) > 0;) {
        length += (size_t)got;
        if (length < size)
            continue;
        char *more = realloc(reply, size *= 2);
        if (more == NULL)
            free(reply);
        reply = more;
    }
    if (reply == NULL)
        fail(FAILED, settings.control, "out of memory");
    int status = write_reply(reply, length);
    free(reply);
    exit(status);
}

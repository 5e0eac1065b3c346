/* The file of -k: lines between one that names it and one with a sum of them.
 *
 * It is written by a process of its own, to a new file beside it that then takes its name. So a disk that is slow or full, and a
 * power cut, do no harm to the router. */
#include "hnd.h"

#include <errno.h>
#include <fcntl.h>
#include <inttypes.h>
#include <limits.h>
#include <stdlib.h>
#include <string.h>
#include <sys/wait.h>
#include <unistd.h>

/* The version of the file, and how many bytes it has at most; the daemon opens no descriptor from this one on. */
enum { VERSION = 1, MOST_FILE = 524288, MOST_OPEN = 64 };

static pid_t writer; /* the process that writes, or 0 */

/* A sum over a text, by which a torn one is known (FNV-1a). */
static uint64_t sum_of(const char *text, size_t size)
{
    uint64_t sum = 0xcbf29ce484222325;
    for (size_t place = 0; place < size; place++)
        sum = (sum ^ (uint8_t)text[place]) * 0x100000001b3;
    return sum;
}

/* Hands each line of the text of a file to a taker. Returns nothing, or why the file is not used. */
static const char *take_text(char *text, size_t size, bool (*take)(const char *line))
{
    unsigned version;
    uint64_t sum;
    int head = 0, tail = 0;
    char *end = NULL;
    if (sscanf(text, "hnd-state %9u%n", &version, &head) != 1 || text[head] != '\n')
        return "it is foreign";
    if (version != VERSION)
        return "it is of another version";
    for (char *at = text; (at = strstr(at, "\nend ")) != NULL;)
        end = ++at;
    if (strlen(text) != size || end == NULL || sscanf(end, "end %16" SCNx64 "%n", &sum, &tail) != 1
        || strcmp(end + tail, "\n") != 0 || sum != sum_of(text, (size_t)(end - text)))
        return "it is torn";
    for (char *line = text + head + 1, *next; line < end; line = next) {
        next = strchr(line, '\n') + 1;
        next[-1] = '\0';
        if (!take(line))
            return "it is foreign";
    }
    return NULL;
}

/* Hands each line of the file to a taker. Returns nothing, or why the file is not used: then it may have been handed some. */
const char *read_file(bool (*take)(const char *line))
{
    int file = open(settings.kept, O_RDONLY | O_CLOEXEC);
    char *text = malloc(MOST_FILE + 1);
    const char *why = "out of memory";
    size_t size = 0;
    ssize_t count = 0;
    while (file >= 0 && text != NULL && size <= MOST_FILE && (count = read(file, text + size, MOST_FILE + 1 - size)) > 0)
        size += (size_t)count;
    if (file < 0 || count < 0)
        why = strerror(errno);
    else if (size > MOST_FILE)
        why = "it is foreign";
    else if (text != NULL) {
        text[size] = '\0';
        why = take_text(text, size, take);
    }
    if (file >= 0)
        close(file);
    free(text);
    return why;
}

/* Makes the text of the file, which is to be freed. */
static char *make_text(size_t *size, void (*write_lines)(FILE *))
{
    char *text = NULL;
    FILE *to = open_memstream(&text, size);
    if (to == NULL)
        return NULL;
    fprintf(to, "hnd-state %d\n", VERSION);
    write_lines(to);
    if (fflush(to) == 0)
        fprintf(to, "end %016" PRIx64 "\n", sum_of(text, *size));
    if (fclose(to) == 0)
        return text;
    free(text);
    return NULL;
}

/* Has the system write the folder of the file to the disk. */
static int keep_folder(void)
{
    char folder[PATH_MAX];
    const char *slash = strrchr(settings.kept, '/');
    if (slash == NULL)
        snprintf(folder, sizeof folder, ".");
    else
        snprintf(folder, sizeof folder, "%.*s", (int)(slash - settings.kept) + 1, settings.kept);
    int opened = open(folder, O_RDONLY | O_DIRECTORY | O_CLOEXEC);
    return opened < 0 || fsync(opened) != 0 ? errno : 0;
}

/* Writes a text to a new file, which then takes the name of the file. Returns 0, or the number of an error. */
static int write_text(const char *text, size_t size)
{
    char made[PATH_MAX];
    if (snprintf(made, sizeof made, "%s.new", settings.kept) >= (int)sizeof made)
        return ENAMETOOLONG;
    int file = open(made, O_WRONLY | O_CREAT | O_TRUNC | O_NOFOLLOW | O_CLOEXEC, 0600);
    if (file < 0)
        return errno;
    for (ssize_t count; size > 0; text += count, size -= (size_t)count) {
        if ((count = write(file, text, size)) < 0)
            return errno;
    }
    return fsync(file) != 0 || close(file) != 0 || rename(made, settings.kept) != 0 ? errno : keep_folder();
}

bool is_writing(void)
{
    return writer != 0;
}

/* Has the file written by a process of its own, which keeps no socket open. Returns nothing, or why it cannot begin. */
const char *begin_writing(void (*write_lines)(FILE *))
{
    size_t size;
    char *text = make_text(&size, write_lines);
    const char *why = NULL;
    if (text == NULL)
        return "out of memory";
    writer = fork();
    if (writer == 0) {
        for (int open = STDERR_FILENO + 1; open < MOST_OPEN; open++)
            close(open);
        _exit(write_text(text, size));
    }
    if (writer < 0) {
        writer = 0;
        why = strerror(errno);
    }
    free(text);
    return why;
}

/* Whether the process that writes has ended; if so, whether it is done, or why not. */
bool has_written(const char **why)
{
    int status = 0;
    pid_t ended = writer == 0 ? 0 : waitpid(writer, &status, WNOHANG);
    if (ended == 0)
        return false;
    writer = 0;
    if (ended < 0)
        *why = strerror(errno);
    else if (!WIFEXITED(status))
        *why = "its process was killed";
    else
        *why = WEXITSTATUS(status) == 0 ? NULL : strerror(WEXITSTATUS(status));
    return true;
}

/* Commands, each a line of standard input or of the control socket. */
#include "hnd.h"

#include <fcntl.h>
#include <stdlib.h>
#include <string.h>
#include <unistd.h>

bool is_told_to_end;
static int input = -1;

/* Obeys a command, and writes what it gives. Returns nothing, or why it is not done. */
static const char *obey_to(const char *line, FILE *to)
{
    struct delegation given;
    if (strncmp(line, "delegate ", 9) == 0)
        return read_delegation(line + 9, &given) ? add_uplink(&given) : "delegate takes PREFIX/LENGTH VALID PREFERRED";
    if (strncmp(line, "withdraw ", 9) == 0)
        return read_prefix(line + 9, &given.prefix) ? remove_uplink(&given.prefix) : "withdraw takes PREFIX/LENGTH";
    if (strncmp(line, "ula ", 4) == 0) {
        bool is_on = strcmp(line + 4, "on") == 0;
        return is_on || strcmp(line + 4, "off") == 0 ? set_ula(is_on) : "ula takes on or off";
    }
    if (strcmp(line, "show") == 0 || strcmp(line, "show json") == 0) {
        tick();
        report();
        (line[4] == '\0' ? show : show_json)(to);
        return NULL;
    }
    if (strcmp(line, "quit") != 0)
        return "no command; there are delegate, withdraw, ula, show, show json and quit";
    is_told_to_end = true;
    return NULL;
}

/* Obeys a command. The reply is lines, of which the last one is `ok`, or `error` and why. Without memory there is none. */
char *obey(const char *line)
{
    char *text = NULL;
    size_t size;
    FILE *to = open_memstream(&text, &size);
    if (to == NULL)
        return NULL;
    const char *why = obey_to(line, to);
    if (why == NULL)
        fputs("ok\n", to);
    else
        fprintf(to, "error %s\n", why);
    if (fclose(to) == 0)
        return text;
    free(text);
    return NULL;
}

/* Standard input may be closed, and then a socket may get its number. */
void open_input(void)
{
    if (fcntl(STDIN_FILENO, F_GETFD) >= 0)
        input = STDIN_FILENO;
}

int input_descriptor(void)
{
    return input;
}

/* Obeys a line of standard input. The reply goes to the log, but for its `ok`. */
static void obey_input(const char *line)
{
    char *reply = obey(line);
    if (reply == NULL) {
        say(OF_CALL, "undone command why=memory");
        return;
    }
    for (char *at = reply, *end; (end = strchr(at, '\n')) != NULL; at = end + 1) {
        *end = '\0';
        if (strcmp(at, "ok") != 0)
            say(OF_COMMAND, "%s", at);
    }
    free(reply);
}

/* Takes what standard input has, and obeys each line at its end. What a line has past MOST_LINE is left out. The end of the
 * input ends nothing. */
void take_input(void)
{
    static char line[MOST_LINE];
    static size_t length;
    char bytes[MOST_LINE];
    ssize_t count = read(input, bytes, sizeof bytes);
    if (count <= 0)
        input = -1;
    for (ssize_t place = 0; place < count; place++) {
        if (bytes[place] != '\n') {
            line[length] = bytes[place];
            length += length < MOST_LINE - 1;
            continue;
        }
        line[length] = '\0';
        length = 0;
        obey_input(line);
    }
}

/* The options of the command line. */
#include "hnd.h"

#include <arpa/inet.h>
#include <stdlib.h>
#include <string.h>
#include <unistd.h>

struct settings settings = {.ends = NEVER, .user = "nobody"};

/* Reads PREFIX/LENGTH:VALID:PREFERRED. The lifetimes are parted off from the right, since a prefix has colons. */
static bool read_uplink(const char *argument, struct delegation *it)
{
    char text[MOST_LINE], *colon;
    snprintf(text, sizeof text, "%s", argument);
    for (int parted = 0; parted < 2 && (colon = strrchr(text, ':')) != NULL; parted++)
        *colon = ' ';
    return read_delegation(text, it);
}

/* What an option takes. */
static const char *wanted(int option)
{
    switch (option) {
    case 'd': return "-d takes an address of a server of names, and may be given 3 times";
    case 'i': return "-i takes 8 hexadecimal digits";
    case 'p': return "-p takes PREFIX/LENGTH:VALID:PREFERRED, and may be given 8 times";
    case 't': return "-t takes a number of seconds";
    default: return "no option, or it lacks its value";
    }
}

/* Takes an option without a value. Whether it is one. */
static bool take_flag(int option)
{
    switch (option) {
    case 'a': return settings.advertises = true;
    case 'f': return settings.forwards = true;
    case 'L': return settings.keeps_lifetimes = true;
    case 'P': return settings.answers_own_port = true;
    case 'r': return settings.routes = true;
    case 's': return settings.to_syslog = true;
    case 'U': return settings.makes_ula = true;
    default: return false;
    }
}

/* Takes an option with a value. Whether it is one. */
static bool take_value(int option)
{
    uint32_t number;
    switch (option) {
    case 'c': settings.control = optarg; return true;
    case 'k': settings.kept = optarg; return true;
    case 'u': settings.user = optarg; return true;
    case 'x': settings.command = optarg; return true;
    case 'd':
        return settings.server_count < MOST_SERVERS
            && inet_pton(AF_INET6, optarg, &settings.servers[settings.server_count++]) == 1;
    case 'i':
        settings.id = (uint32_t)strtoul(optarg, NULL, 16);
        settings.has_id = true;
        return strlen(optarg) == 8 && strspn(optarg, "0123456789abcdefABCDEF") == 8;
    case 'p':
        return settings.uplink_count < MOST_PREFIXES && read_uplink(optarg, &settings.uplinks[settings.uplink_count++]);
    case 't':
        if (!read_number(optarg, UINT32_MAX, &number))
            return false;
        settings.ends = (uint64_t)number * 1000;
        return true;
    default: return false;
    }
}

/* Reads the options. What is left are interfaces. */
void read_options(int count, char **words)
{
    opterr = 0;
    for (int option; (option = getopt(count, words, "+ac:d:fi:k:Lp:Prst:u:Ux:")) != -1;) {
        const char unknown[] = {'-', (char)optopt, '\0'};
        if (option == '?' || (!take_flag(option) && !take_value(option)))
            fail(BAD_ARGUMENTS, option == '?' ? unknown : optarg, wanted(option));
    }
}

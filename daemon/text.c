/* Prefixes, addresses and numbers as text. */
#include "hnd.h"

#include <arpa/inet.h>
#include <stdlib.h>
#include <string.h>

enum { TEXTS = 4 };

/* A prefix as text. The text of a call stays until the fourth call after it. */
const char *text_of(const uint8_t prefix[16], unsigned length)
{
    static char texts[TEXTS][INET6_ADDRSTRLEN + sizeof "/128"];
    static unsigned turn;
    char *text = texts[turn++ % TEXTS], bits[INET6_ADDRSTRLEN];
    snprintf(text, sizeof texts[0], "%s/%u", inet_ntop(AF_INET6, prefix, bits, sizeof bits), length % 1000);
    return text;
}

/* An address as text, which stays as long. */
const char *address_text(const uint8_t address[16])
{
    static char texts[TEXTS][INET6_ADDRSTRLEN];
    static unsigned turn;
    return inet_ntop(AF_INET6, address, texts[turn++ % TEXTS], INET6_ADDRSTRLEN);
}

/* Reads a number of decimal digits. */
bool read_number(const char *text, uint32_t most, uint32_t *number)
{
    size_t digits = strspn(text, "0123456789");
    uint64_t value = strtoull(text, NULL, 10);
    *number = (uint32_t)value;
    return digits > 0 && digits <= 10 && text[digits] == '\0' && value <= most;
}

/* Reads PREFIX/LENGTH. No bit may be set past the length. */
bool read_prefix(const char *text, struct prefix *it)
{
    char address[INET6_ADDRSTRLEN] = "";
    const char *slash = strchr(text, '/');
    uint32_t length;
    if (slash == NULL || (size_t)(slash - text) >= sizeof address || !read_number(slash + 1, 128, &length))
        return false;
    memcpy(address, text, (size_t)(slash - text));
    if (inet_pton(AF_INET6, address, it->bits) != 1)
        return false;
    it->length = (uint8_t)length;
    for (unsigned bit = it->length; bit < 128; bit++) {
        if (it->bits[bit / 8] & 0x80 >> bit % 8)
            return false;
    }
    return true;
}

/* Reads PREFIX/LENGTH VALID PREFERRED. A prefix may not be preferred for longer than it is valid. */
bool read_delegation(const char *text, struct delegation *it)
{
    char words[3][64], more;
    return sscanf(text, "%63s %63s %63s %c", words[0], words[1], words[2], &more) == 3 && read_prefix(words[0], &it->prefix)
        && read_number(words[1], UINT32_MAX, &it->valid) && read_number(words[2], it->valid, &it->preferred);
}

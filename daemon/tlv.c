/* How numbers and TLVs are read. */
#include "hnd.h"

#include <arpa/inet.h>
#include <string.h>

/* A number of 32 bits in the order of the network. */
uint32_t number_at(const uint8_t *at)
{
    uint32_t number;
    memcpy(&number, at, sizeof number);
    return ntohl(number);
}

/* Reads the next TLV of a list, and steps past it. Whether there is a whole one; the bytes that fill up the last one may be
 * missing. */
bool next_tlv(const uint8_t **at, const uint8_t *end, struct tlv *it)
{
    size_t left = (size_t)(end - *at), step;
    if (left < 4)
        return false;
    it->kind = (unsigned)((*at)[0] << 8 | (*at)[1]);
    it->length = (size_t)((*at)[2] << 8 | (*at)[3]);
    it->value = *at + 4;
    if (it->length > left - 4)
        return false;
    step = 4 + (it->length + 3) / 4 * 4;
    *at = step < left ? *at + step : end;
    return true;
}

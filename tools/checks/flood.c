/* Sends garbage to ff02::11 and port 8231 of an interface, from its link-local address: flood INTERFACE A_SECOND SECONDS
 *
 * A quarter of the datagrams are random bytes, a quarter are lists of TLVs with random values, a quarter begin with a Node
 * Endpoint, and a quarter carry the states of nodes with hashes that are wrong. It sends A_SECOND times SECONDS datagrams,
 * says how many went out, and ends. The bytes are the same each time. It runs before all else where it may (SCHED_FIFO), so that a
 * busy machine makes no flood slower. */
#define _GNU_SOURCE
#include <arpa/inet.h>
#include <net/if.h>
#include <sched.h>
#include <stdint.h>
#include <stdio.h>
#include <stdlib.h>
#include <string.h>
#include <sys/socket.h>
#include <time.h>

enum { PORT = 8231, MOST = 400, BATCH = 64, KINDS = 4 };

static uint64_t word = 8231;

/* The next random number (xorshift64). */
static uint64_t next(void)
{
    word ^= word << 13;
    word ^= word >> 7;
    word ^= word << 17;
    return word;
}

/* Writes a TLV with a random value, and returns its length. */
static size_t write_tlv(uint8_t *at, unsigned kind, size_t length)
{
    const uint8_t head[4] = {(uint8_t)(kind >> 8), (uint8_t)kind, (uint8_t)(length >> 8), (uint8_t)length};
    memcpy(at, head, sizeof head);
    for (size_t place = 0; place < length; place++)
        at[4 + place] = (uint8_t)next();
    size_t whole = 4 + length;
    while (whole % 4 != 0)
        at[whole++] = 0;
    return whole;
}

/* Makes a datagram, and returns its length. */
static size_t make(uint8_t bytes[MOST + 512])
{
    size_t length = 0, wanted = next() % MOST;
    switch (next() % KINDS) {
    case 0:
        for (; length < wanted; length++)
            bytes[length] = (uint8_t)next();
        return length;
    case 1: break;
    case 2: length = write_tlv(bytes, 3, 8); break;
    default:
        length = write_tlv(bytes, 3, 8);
        while (length < wanted)
            length += write_tlv(bytes + length, 5, 20 + 4 * (next() % 8));
        return length;
    }
    while (length < wanted)
        length += write_tlv(bytes + length, (unsigned)(next() % 48), next() % 64);
    return length;
}

int main(int count, char **words)
{
    static uint8_t bytes[MOST + 512];
    struct sockaddr_in6 there = {.sin6_family = AF_INET6, .sin6_port = htons(PORT)};
    struct timespec begun, at;
    int out = socket(AF_INET6, SOCK_DGRAM, 0);
    if (count != 4 || out < 0 || (there.sin6_scope_id = if_nametoindex(words[1])) == 0)
        return 1;
    inet_pton(AF_INET6, "ff02::11", &there.sin6_addr);
    sched_setscheduler(0, SCHED_FIFO, &(struct sched_param){.sched_priority = 1});
    double rate = atof(words[2]);
    unsigned long all = (unsigned long)(rate * atof(words[3])), sent = 0;
    clock_gettime(CLOCK_MONOTONIC, &begun);
    for (unsigned long made = 0; made < all; made++) {
        size_t length = make(bytes);
        sent += sendto(out, bytes, length, 0, (struct sockaddr *)&there, sizeof there) >= 0;
        if (made % BATCH != 0)
            continue;
        clock_gettime(CLOCK_MONOTONIC, &at);
        double due = (double)made / rate - (double)(at.tv_sec - begun.tv_sec) - (double)(at.tv_nsec - begun.tv_nsec) / 1e9;
        if (due > 0)
            nanosleep(&(struct timespec){.tv_sec = (time_t)due, .tv_nsec = (long)((due - (double)(time_t)due) * 1e9)}, NULL);
    }
    clock_gettime(CLOCK_MONOTONIC, &at);
    printf("%lu %.1f\n", sent, (double)(at.tv_sec - begun.tv_sec) + (double)(at.tv_nsec - begun.tv_nsec) / 1e9);
    return 0;
}

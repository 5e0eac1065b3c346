/* Homes of HNCP routers (RFC 7788) that are played, as a library for testers: libhn_lab_c.a, made by `rt lib` in
 * crates/hn_lab_c and linked with include/hn_heap.c. `rt lib --cpu x86-64` makes it for any x86-64 processor; without that it
 * asks for one of x86-64-v2.
 *
 * A play is that of `hncp lab`, one line at a time: routers on links, and the copies of the datagrams that they send. Its
 * moment is its own, and nothing but lines makes it pass. docs/FORMATS.md has the language of the lines. What the lines write
 * is the text, and the lines that were played are a script: `hncp lab` reads that script and writes that text, byte for byte.
 * This is proved of each play, whatever lines were refused.
 *
 * A play is held by a struct hn_lab, the handle. Set it to zero, and hand it to hn_lab_new. A handle has no play while it is
 * zero, after hn_lab_free, and after hn_lab_new did not answer 0. Each call with such a handle that has a status answers 2,
 * each count, number and code is 0, hn_lab_is_open is false, and nothing else is written; hn_lab_free does nothing.
 *
 * What is the caller's: the handle holds zeros before the first call, and later what the last call left there. Never copy it:
 * a second copy does not see that the play was given up. Use it in one thread at a time; two plays may be used in two
 * threads. No pointer may be null, also where a length is 0; pointers of one call may not overlap, unless both are only read.
 * The library is proved, and this file is not: checks/embed compares its names, their order and types with the source.
 *
 * A call that returns uint8_t returns
 *
 *     0   done
 *     1   out of memory: nothing changed, but `count` says nothing; of a line see hn_lab_line
 *     2   it is refused, what is asked for is not there, there is no room, or the handle has no play: nothing changed
 *     3   the play is over: no line is added any more, and the reports are still there
 *
 * A text or a list of bytes is written to the front of `room`, which has `room_length` bytes, and `count` is how many there
 * are. Where they are more than the room has, the status is 2 and nothing is written to the room: `count` tells how much is
 * wanted. Where there is nothing to write, the status is 2 and `count` is 0. A text has no zero at its end.
 *
 * Moments are in milliseconds, from 0 to 2^48. A name is 1 to 16 ASCII letters, digits, `_` and `-`, the first of them a
 * letter. Names in structs have 16 bytes, with zeros after a shorter one. */
#ifndef HN_LAB_H
#define HN_LAB_H

#include <stdbool.h>
#include <stddef.h>
#include <stdint.h>

#ifdef __cplusplus
extern "C" {
#endif

/* The version, as the programs name it, and as a number of two digits a part. */
#define HN_LAB_VERSION "1.0.0"
#define HN_LAB_VERSION_NUMBER 10000

/* What a call answers; and the codes of refusals (docs/FORMATS.md, "Codes"). */
enum hn_lab_status { HN_LAB_DONE = 0, HN_LAB_NO_MEMORY = 1, HN_LAB_REFUSED = 2, HN_LAB_OVER = 3 };

enum hn_refusal {
    HN_REFUSAL_WORD = 2,       /* the first word is unknown in this version of the language */
    HN_REFUSAL_COUNT = 3,      /* too few or too many words */
    HN_REFUSAL_VALUE = 4,      /* a value is malformed or out of range */
    HN_REFUSAL_LONG = 5,       /* the line has more than 16,384 bytes */
    HN_REFUSAL_BYTE = 6,       /* it has a byte outside of 20 to 7E in hexadecimal */
    HN_REFUSAL_UNKNOWN = 7,    /* a name is unknown, or names the other kind */
    HN_REFUSAL_TAKEN = 8,      /* the name of a new router or link is taken */
    HN_REFUSAL_FULL = 9,       /* one router, link, endpoint, delegated prefix or event too many */
    HN_REFUSAL_PAST = 10,      /* the moment would fall */
    HN_REFUSAL_ENDPOINT = 11,  /* attach: the endpoint is in use; else it is not attached */
    HN_REFUSAL_STOPPED = 12,   /* the router is stopped */
    HN_REFUSAL_COPY = 13,      /* there is no copy of that number */
    HN_REFUSAL_TWICE = 14,     /* the router already has an endpoint on that link */
    HN_REFUSAL_LARGE = 15,     /* the script would have more than 2^24 bytes */
    HN_REFUSAL_MAIL = 16,      /* too many copies, or too many bytes of them */
    HN_REFUSAL_APART = 18,     /* sync: no endpoints of the two routers are joined */
    HN_REFUSAL_ADDRESSES = 19  /* address: the router would have more than 64 addresses */
};

typedef struct {
    void *at;
} hn_lab;

/* A copy of a datagram that a router sent, for one receiver. */
typedef struct {
    uint8_t sender[16]; /* the names of the two routers */
    uint8_t receiver[16];
    uint32_t sender_endpoint;
    uint32_t receiver_endpoint;
    uint8_t unicast; /* 1: to the receiver alone; 0: to the group ff02::11 */
    uint8_t waiting; /* 1: it was neither delivered nor dropped */
} hn_mail_copy;

/* A router. */
typedef struct {
    uint64_t reach; /* how many routers it reaches, itself among them */
    uint32_t id;
    uint32_t number; /* its sequence number */
    uint8_t running; /* 0: it is stopped, and the next three are 0 */
    uint8_t settled; /* 1: it and those that it reaches know each other as they are */
    uint8_t quiet; /* 1: none of them would make, change or destroy an assignment */
    uint8_t sound; /* 1: it is settled and quiet, and so each link is served with one prefix of each delegated one */
    uint8_t hash[8]; /* its network state hash */
} hn_state;

/* Makes a play of a version of the language, 1 or 2, at the moment 0 with nothing in it. Refused: another version, or the
 * handle has a play, which stays. */
uint8_t hn_lab_new(hn_lab *lab, uint8_t version);

/* Gives the play up, with its memory. The handle has none then. */
void hn_lab_free(hn_lab *lab);

/* Plays a line, which is given without its LF. The first line of the script is there already.
 *
 *     0   It is done, and added to the script. An empty line and a comment are done, and not added. The code is 0.
 *     1   Out of memory; the code is 0. A line that is a report changed nothing. Of others hn_lab_is_open tells whether
 *         nothing changed, or the play is over: then neither its text nor what is reported of it counts.
 *     2   It is refused with this code, and nothing changed.
 *     3   It is refused with this code when a part of it may have happened, and is the last of the script; the text ends with
 *         the refusal, as that of `hncp lab` does. Only `run`, `flow`, `sync`, `address` and `ula` are refused so. Or the
 *         play was over before; then the code is 0. */
uint8_t hn_lab_line(hn_lab *lab, const uint8_t *text, size_t text_length, uint8_t *code);

/* Reports. The play stays as it is. */

/* Whether lines may be added. */
bool hn_lab_is_open(hn_lab *lab);

/* The text so far, from the byte `from` on; nothing where it has no more bytes. Never out of memory. */
uint8_t hn_lab_text(hn_lab *lab, size_t from, size_t *count, uint8_t *room, size_t room_length);

/* The script of the lines that were played: its first line, and each line as it came. Never out of memory. */
uint8_t hn_lab_script(hn_lab *lab, size_t *count, uint8_t *room, size_t room_length);

/* The moment. */
uint64_t hn_lab_moment(hn_lab *lab);

/* How many copies were made, which are numbered from 1 on; how many of them wait; and the least number of one that waits, 0
 * where none does. */
uint64_t hn_lab_copies(hn_lab *lab);
uint64_t hn_lab_waiting(hn_lab *lab);
uint64_t hn_lab_next(hn_lab *lab);

/* The copy of a number, and its bytes. Refused: there is none, and `copy` stays; or no room, and `copy` tells of it. Never
 * out of memory. */
uint8_t hn_lab_copy(hn_lab *lab, uint64_t number, hn_mail_copy *copy, size_t *count, uint8_t *room, size_t room_length);

/* The router of a name. Refused: there is none; `state` stays then, and where memory ends. */
uint8_t hn_lab_state(hn_lab *lab, const uint8_t *name, size_t name_length, hn_state *state);

/* What `hnlook why`, `hnlook calm` and `hnlook table` write of the router of a name. Refused: there is none; for the first
 * two, it is stopped; no room. */
uint8_t hn_lab_why(hn_lab *lab, const uint8_t *name, size_t name_length, size_t *count, uint8_t *room, size_t room_length);
uint8_t hn_lab_calm(hn_lab *lab, const uint8_t *name, size_t name_length, size_t *count, uint8_t *room, size_t room_length);
uint8_t hn_lab_table(hn_lab *lab, const uint8_t *name, size_t name_length, size_t *count, uint8_t *room, size_t room_length);

/* What `hnlook log` writes: what happened, event by event. It is made anew by each call, in the time that the play took. */
uint8_t hn_lab_log(hn_lab *lab, size_t *count, uint8_t *room, size_t room_length);

/* Without a play. */

/* The version of the library, HN_LAB_VERSION_NUMBER of its own header: for who loads it when a program runs. */
uint32_t hn_lab_version(void);

/* What `hncp decode` writes of a datagram: a line `tlvs N` and a line for each TLV, or the line `malformed ..` of bytes that
 * are no list of TLVs. The bytes are given as they are, and not as hexadecimal text. */
uint8_t hn_decode(const uint8_t *datagram, size_t datagram_length, size_t *count, uint8_t *room, size_t room_length);

/* What `hncp watch` writes of a capture, which has a line in hexadecimal for each datagram: what the nodes claim, or the line
 * `refused N CODE` of the first line with a fault. */
uint8_t hn_watch(const uint8_t *capture, size_t capture_length, size_t *count, uint8_t *room, size_t room_length);

#ifdef __cplusplus
}
#endif

#endif

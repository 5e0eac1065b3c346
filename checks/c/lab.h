/* A play of lines, and what the tests of the laboratory share. */
#ifndef LAB_H
#define LAB_H

#include "check.h"
#include "hn_lab.h"

#include <string.h>

enum { MOST_TEXT = 1 << 22, NAME_BYTES = 16 };

/* The code of the last line. */
static uint8_t code_of;

static inline uint8_t play(hn_lab *lab, const char *line)
{
    return hn_lab_line(lab, (const uint8_t *)line, strlen(line), &code_of);
}

/* Plays a line that is done. */
static inline void done(hn_lab *lab, const char *line)
{
    if (play(lab, line) != HN_LAB_DONE) {
        printf("refused by code %u: %s\n", code_of, line);
        exit(1);
    }
}

/* Plays a line that is refused by a code, and changes nothing. */
static inline void refused(hn_lab *lab, const char *line, uint8_t code)
{
    if (play(lab, line) != HN_LAB_REFUSED || code_of != code) {
        printf("not refused by code %u: %s\n", code, line);
        exit(1);
    }
}

static inline void begin(hn_lab *lab, uint8_t version)
{
    memset(lab, 0, sizeof *lab);
    CHECK(hn_lab_new(lab, version) == HN_LAB_DONE);
}

/* Two routers on a link, of which the first has a delegated prefix. */
static inline void begin_two(hn_lab *lab)
{
    begin(lab, 2);
    done(lab, "seed 7");
    done(lab, "link lan");
    done(lab, "router gateway 00000001");
    done(lab, "router annex 00000002");
    done(lab, "attach gateway 1 lan");
    done(lab, "attach annex 1 lan");
    done(lab, "external gateway 2001:db8:0:100::/56 7200 3600");
}

static inline void end(hn_lab *lab)
{
    hn_lab_free(lab);
    CHECK(lab->at == NULL);
}

static inline hn_state state_of(hn_lab *lab, const char *name)
{
    hn_state state;
    CHECK(hn_lab_state(lab, (const uint8_t *)name, strlen(name), &state) == HN_LAB_DONE);
    return state;
}

/* The text and the script so far, with a zero after them. */
static inline const char *text_of(hn_lab *lab)
{
    static uint8_t room[MOST_TEXT];
    size_t count;
    CHECK(hn_lab_text(lab, 0, &count, room, sizeof room - 1) == HN_LAB_DONE);
    room[count] = 0;
    return (const char *)room;
}

static inline const char *script_of(hn_lab *lab)
{
    static uint8_t room[MOST_TEXT];
    size_t count;
    CHECK(hn_lab_script(lab, &count, room, sizeof room - 1) == HN_LAB_DONE);
    room[count] = 0;
    return (const char *)room;
}

static inline bool is_named(const uint8_t bytes[NAME_BYTES], const char *name)
{
    char padded[NAME_BYTES] = {0};
    memcpy(padded, name, strlen(name));
    return memcmp(bytes, padded, NAME_BYTES) == 0;
}

#endif

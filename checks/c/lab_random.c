/* Random lines: `lab_random N` plays N of them, and asks for a report after each. A home has two hundred lines, or five after its
 * end. Memory is refused at one in thirty. Each status is held to what the header says of the play. The last word is a sum of all texts. */
#include "lab.h"

extern long refuse_at;

enum { LINES = 200, LINES_AFTER = 5, MOST_LINE = 128, STATUSES = 4, SMALL_ROOM = 64, LARGE_ROOM = 1 << 14, UNTOUCHED = 77 };

/* All that is seen of a play. */
struct seen {
    char *text, *script;
    uint64_t moment, copies, waiting;
    bool is_open;
};

static uint64_t state = 88172645463325252u, sum = 14695981039346656037u;
static long answered[STATUSES], told[STATUSES], refusals;
/* What the last line left. */
static struct seen last;

/* The next number below a limit, by xorshift. */
static unsigned below(unsigned limit)
{
    state ^= state << 13;
    state ^= state >> 7;
    state ^= state << 17;
    return (unsigned)(state % limit);
}

static const char *one_of(const char *const *words, unsigned count)
{
    return words[below(count)];
}

static const char *router(void)
{
    static const char *const names[] = {"a", "b", "c", "d", "lan", "nobody"};
    return one_of(names, 6);
}

static const char *link_name(void)
{
    static const char *const names[] = {"lan", "wan", "far", "a"};
    return one_of(names, 4);
}

/* A line of the language, most of them such as are done. */
static void write_line(char *line, hn_lab *lab)
{
    static const char *const plain[] = {"tick", "stop", "start", "show", "hash", "used", "prefixes",
                                        "audit", "address", "ula", "addresses", "addressed", "ulas"};
    static const char *const wrong[] = {"", "# nothing", "hncp 2", "link", "tick a b", "time 1x", "run 5", "\xff", "drop -1",
                                        "inject a 1 multi 0", "caps a 0 0 0 16", "attach a 0 lan"};
    unsigned long long now = hn_lab_moment(lab), copy = 1 + below((unsigned)hn_lab_copies(lab) + 2);
    switch (below(20)) {
    case 0: snprintf(line, MOST_LINE, "link %s", link_name()); break;
    case 1: snprintf(line, MOST_LINE, "router %s %08x", router(), below(6)); break;
    case 2: case 3: snprintf(line, MOST_LINE, "attach %s %u %s", router(), below(4), link_name()); break;
    case 4: snprintf(line, MOST_LINE, "detach %s %u", router(), below(4)); break;
    case 5:
        snprintf(line, MOST_LINE, "external %s 2001:db8:%x::/%u %u %u", router(), below(9), 48 + below(3) * 8, 600 + below(9), below(700));
        break;
    case 6: snprintf(line, MOST_LINE, "withdraw %s 2001:db8:%x::/48", router(), below(9)); break;
    case 7: snprintf(line, MOST_LINE, "caps %s %u %u %u %u", router(), below(8), below(8), below(8), below(8)); break;
    case 8: snprintf(line, MOST_LINE, "private %s %u", router(), below(65)); break;
    case 9: snprintf(line, MOST_LINE, "time %llu", now + below(2000)); break;
    case 10: snprintf(line, MOST_LINE, "deliver %llu", copy); break;
    case 11: snprintf(line, MOST_LINE, "drop %llu", copy); break;
    case 12: snprintf(line, MOST_LINE, "flow"); break;
    case 13: snprintf(line, MOST_LINE, "run %llu %u", now + below(3000) - (now > 9 ? below(9) : 0), 100 + below(900)); break;
    case 14: snprintf(line, MOST_LINE, "sync %s %s", router(), router()); break;
    case 15: snprintf(line, MOST_LINE, "compare %s %s", router(), router()); break;
    case 16:
        snprintf(line, MOST_LINE, "inject %s %u %s 00030008%08x%08x", router(), below(4), below(2) ? "multi" : "uni", below(6), below(3));
        break;
    case 17: snprintf(line, MOST_LINE, "%s %s %u", below(2) ? "radv" : "advert", router(), below(4)); break;
    case 18: snprintf(line, MOST_LINE, "%s", one_of(wrong, 12)); break;
    default: snprintf(line, MOST_LINE, "%s %s", one_of(plain, 13), router());
    }
}

/* One byte of a line becomes another one. */
static void spoil(char *line)
{
    if (*line != 0)
        line[below((unsigned)strlen(line))] = (char)(1 + below(255));
}

static char *copy_of(const char *text)
{
    char *copy = malloc(strlen(text) + 1);
    CHECK(copy != NULL);
    return strcpy(copy, text);
}

static struct seen look(hn_lab *lab)
{
    return (struct seen){
        .text = copy_of(text_of(lab)),
        .script = copy_of(script_of(lab)),
        .moment = hn_lab_moment(lab),
        .copies = hn_lab_copies(lab),
        .waiting = hn_lab_waiting(lab),
        .is_open = hn_lab_is_open(lab),
    };
}

static void forget(struct seen *seen)
{
    free(seen->text);
    free(seen->script);
}

static bool is_same(const struct seen *a, const struct seen *b)
{
    return strcmp(a->text, b->text) == 0 && strcmp(a->script, b->script) == 0 && a->moment == b->moment && a->copies == b->copies
           && a->waiting == b->waiting && a->is_open == b->is_open;
}

/* Whether a text has another one at its front. */
static bool goes_on(const char *after, const char *before)
{
    return strncmp(after, before, strlen(before)) == 0;
}

/* Whether the script has the line more, or is as before where the line is skipped. */
static bool has_line(const struct seen *before, const struct seen *after, const char *line)
{
    const char *more = after->script + strlen(before->script);
    size_t length = strlen(line);
    if (line[strspn(line, " ")] == 0 || line[strspn(line, " ")] == '#')
        return is_same(before, after);
    return goes_on(after->script, before->script) && strncmp(more, line, length) == 0 && strcmp(more + length, "\n") == 0;
}

/* Whether a status says of the play what is so. */
static bool is_so(uint8_t status, const struct seen *before, const struct seen *after, const char *line)
{
    if (!before->is_open)
        return status == HN_LAB_OVER && code_of == 0 && is_same(before, after);
    switch (status) {
    case HN_LAB_DONE: return after->is_open && code_of == 0 && goes_on(after->text, before->text) && has_line(before, after, line);
    case HN_LAB_NO_MEMORY: return code_of == 0 && (is_same(before, after) || !after->is_open);
    case HN_LAB_REFUSED: return code_of != 0 && is_same(before, after);
    default: return status == HN_LAB_OVER && code_of != 0 && !after->is_open && has_line(before, after, line);
    }
}

/* From now on an allocation is refused, at one call in thirty. Returns whether one is to be. */
static bool begin_refusing(void)
{
    refuse_at = below(30) == 0 ? 1 + (long)below(40) : 0;
    return refuse_at != 0;
}

static void end_refusing(bool began)
{
    refusals += began && refuse_at == 0;
    refuse_at = 0;
}

static void play_one(hn_lab *lab)
{
    char line[MOST_LINE];
    write_line(line, lab);
    if (below(20) == 0)
        spoil(line);
    struct seen before = look(lab);
    CHECK(is_same(&before, &last));
    bool refusing = begin_refusing();
    uint8_t status = play(lab, line);
    end_refusing(refusing);
    forget(&last);
    last = look(lab);
    if (!is_so(status, &before, &last, line)) {
        printf("status %u and code %u are not so of this line: %s\n", status, code_of, line);
        exit(1);
    }
    answered[status]++;
    forget(&before);
}

/* A report of some kind; one of forty is the log, which is made anew from the whole play. */
static uint8_t report(hn_lab *lab, size_t *count, uint8_t *room, size_t length)
{
    char bytes[MOST_LINE];
    const uint8_t *at = (const uint8_t *)bytes;
    hn_mail_copy copy;
    unsigned kind = below(40);
    write_line(bytes, lab);
    if (kind == 0)
        return hn_lab_log(lab, count, room, length);
    if (kind % 6 == 1)
        return hn_decode(at, strlen(bytes), count, room, length);
    if (kind % 6 == 2)
        return hn_watch(at, strlen(bytes), count, room, length);
    if (kind % 6 == 3)
        return hn_lab_copy(lab, below((unsigned)hn_lab_copies(lab) + 2), &copy, count, room, length);
    const char *name = below(4) != 0 ? router() : bytes;
    if (kind % 6 == 4)
        return hn_lab_why(lab, (const uint8_t *)name, strlen(name), count, room, length);
    if (kind % 6 == 5)
        return hn_lab_table(lab, (const uint8_t *)name, strlen(name), count, room, length);
    return hn_lab_calm(lab, (const uint8_t *)name, strlen(name), count, room, length);
}

/* Asks for a report, in a room of any size. What fits there is written, and else nothing. */
static void ask(hn_lab *lab)
{
    size_t count = 0, length = below(2) ? 1 + below(SMALL_ROOM) : LARGE_ROOM;
    uint8_t *room = malloc(length);
    CHECK(room != NULL);
    memset(room, UNTOUCHED, length);
    bool refusing = begin_refusing();
    uint8_t status = report(lab, &count, room, length);
    end_refusing(refusing);
    CHECK(status == HN_LAB_DONE ? count <= length : status == HN_LAB_NO_MEMORY ? refusing : count == 0 || count > length);
    for (size_t place = status == HN_LAB_DONE ? count : 0; place < length; place++)
        CHECK(room[place] == UNTOUCHED);
    told[status]++;
    free(room);
}

/* A home of three routers on two links. */
static void begin_home(hn_lab *lab)
{
    static const char *const lines[] = {"link lan", "link wan", "router a 00000001", "router b 00000002", "router c 00000003",
                                        "attach a 1 lan", "attach b 1 lan", "attach b 2 wan", "attach c 1 wan",
                                        "external a 2001:db8::/48 900 600", "run 9000 300"};
    begin(lab, (uint8_t)(1 + below(2)));
    for (size_t line = 0; line < sizeof lines / sizeof lines[0]; line++)
        done(lab, lines[line]);
    last = look(lab);
}

/* Lines are played in a home. Returns how many. */
static int live(hn_lab *lab)
{
    int played = 0, after = 0;
    while (played < LINES && after < LINES_AFTER) {
        play_one(lab);
        ask(lab);
        played++;
        after += !hn_lab_is_open(lab);
    }
    return played;
}

int main(int count, char **words)
{
    long lines = count == 2 ? atol(words[1]) : 20000, homes = 0;
    static hn_lab lab;
    for (long played = 0; played < lines; homes++) {
        begin_home(&lab);
        played += live(&lab);
        for (const char *at = text_of(&lab); *at != 0; at++)
            sum = (sum ^ (uint8_t)*at) * 1099511628211u;
        forget(&last);
        end(&lab);
    }
    printf("lab_random: in %ld homes %ld lines done, %ld out of memory, %ld refused, %ld after or at an end; %ld reports, %ld out of "
           "memory, %ld of nothing or without room; memory was refused %ld times; sum %016llx\n",
           homes, answered[0], answered[1], answered[2], answered[3], told[0], told[1], told[2], refusals, (unsigned long long)sum);
    return 0;
}

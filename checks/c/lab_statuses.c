/* What each status of a line says of the play, and how each report answers where there is nothing, no room, and just enough. */
#include "lab.h"

enum { NAMED = 3 };

typedef uint8_t named(hn_lab *, const uint8_t *, size_t, size_t *, uint8_t *, size_t);

/* All that is seen of a play. */
struct seen {
    char text[1 << 16], script[1 << 16];
    uint64_t moment, copies, waiting;
    bool is_open;
};

static void look(hn_lab *lab, struct seen *seen)
{
    memset(seen, 0, sizeof *seen);
    snprintf(seen->text, sizeof seen->text, "%s", text_of(lab));
    snprintf(seen->script, sizeof seen->script, "%s", script_of(lab));
    seen->moment = hn_lab_moment(lab);
    seen->copies = hn_lab_copies(lab);
    seen->waiting = hn_lab_waiting(lab);
    seen->is_open = hn_lab_is_open(lab);
}

/* A line that is refused by a code changes nothing that is seen. */
static void stays(hn_lab *lab, const char *line, uint8_t code)
{
    static struct seen before, after;
    look(lab, &before);
    refused(lab, line, code);
    look(lab, &after);
    CHECK(memcmp(&before, &after, sizeof before) == 0 && after.is_open);
}

static void lines_are_refused(hn_lab *lab)
{
    static char long_line[16386];
    stays(lab, "hncp 2", HN_REFUSAL_WORD);
    stays(lab, "link", HN_REFUSAL_COUNT);
    stays(lab, "router annex 2", HN_REFUSAL_VALUE);
    stays(lab, "link l\tn", HN_REFUSAL_BYTE);
    memset(long_line, ' ', 16385);
    stays(lab, long_line, HN_REFUSAL_LONG);
    stays(lab, "tick attic", HN_REFUSAL_UNKNOWN);
    stays(lab, "link lan", HN_REFUSAL_TAKEN);
    stays(lab, "time 0", HN_REFUSAL_PAST);
    stays(lab, "run 0 100", HN_REFUSAL_PAST);
    stays(lab, "attach annex 1 lan", HN_REFUSAL_ENDPOINT);
    stays(lab, "deliver 1000000", HN_REFUSAL_COPY);
    stays(lab, "attach annex 2 lan", HN_REFUSAL_TWICE);
    stays(lab, "address attic", HN_REFUSAL_UNKNOWN);
    stays(lab, "ula attic", HN_REFUSAL_UNKNOWN);
    stays(lab, "sync annex attic", HN_REFUSAL_UNKNOWN);
    done(lab, "router attic 00000003");
    stays(lab, "sync annex attic", HN_REFUSAL_APART);
    done(lab, "stop attic");
    stays(lab, "audit attic", HN_REFUSAL_STOPPED);
}

/* Lines that are skipped are done, and not in the script. */
static void lines_are_skipped(hn_lab *lab)
{
    static struct seen before, after;
    look(lab, &before);
    done(lab, "");
    done(lab, "  # nothing");
    look(lab, &after);
    CHECK(memcmp(&before, &after, sizeof before) == 0);
    CHECK(hn_lab_line(lab, (const uint8_t *)"mail", 4, &code_of) == HN_LAB_DONE && code_of == 0);
    CHECK(strstr(text_of(lab), "mail ") != NULL);
}

/* A report of a name: where there is none, and with less room than it wants, and with as much. */
static void tells_of(hn_lab *lab, named *report, const char *nobody, const char *name)
{
    static uint8_t room[1 << 16], again[1 << 16];
    size_t count = 77, wanted;
    room[0] = 77;
    CHECK(report(lab, (const uint8_t *)nobody, strlen(nobody), &count, room, sizeof room) == HN_LAB_REFUSED && count == 0);
    CHECK(report(lab, (const uint8_t *)"", 0, &count, room, sizeof room) == HN_LAB_REFUSED && count == 0);
    CHECK(report(lab, (const uint8_t *)name, strlen(name), &wanted, room, 0) == HN_LAB_REFUSED && wanted > 0);
    CHECK(report(lab, (const uint8_t *)name, strlen(name), &count, room, wanted - 1) == HN_LAB_REFUSED && count == wanted);
    CHECK(room[0] == 77);
    memset(room, 77, sizeof room);
    CHECK(report(lab, (const uint8_t *)name, strlen(name), &count, room, wanted) == HN_LAB_DONE && count == wanted && room[wanted] == 77);
    CHECK(report(lab, (const uint8_t *)name, strlen(name), &count, again, sizeof again) == HN_LAB_DONE && memcmp(room, again, wanted) == 0);
    CHECK(room[wanted - 1] == '\n');
}

static void reports_answer(hn_lab *lab)
{
    static named *reports[NAMED] = {hn_lab_why, hn_lab_calm, hn_lab_table};
    static const char *nobodies[NAMED] = {"attic", "attic", "cellar"};
    static uint8_t room[1 << 20];
    hn_mail_copy copy = {.sender_endpoint = 77};
    size_t count, wanted;
    for (int report = 0; report < NAMED; report++)
        tells_of(lab, reports[report], nobodies[report], "annex");
    CHECK(state_of(lab, "attic").running == 0 && state_of(lab, "attic").settled == 0 && state_of(lab, "annex").running == 1);
    CHECK(hn_lab_log(lab, &wanted, room, 0) == HN_LAB_REFUSED && wanted > 0);
    CHECK(hn_lab_log(lab, &count, room, wanted) == HN_LAB_DONE && count == wanted && memcmp(room, "0 link lan\n", 11) == 0);
    CHECK(hn_lab_copy(lab, 0, &copy, &count, room, sizeof room) == HN_LAB_REFUSED && count == 0 && copy.sender_endpoint == 77);
    CHECK(hn_lab_copy(lab, hn_lab_copies(lab) + 1, &copy, &count, room, sizeof room) == HN_LAB_REFUSED && count == 0);
    CHECK(hn_lab_copy(lab, 1, &copy, &wanted, room, 0) == HN_LAB_REFUSED && wanted > 0 && copy.sender_endpoint == 1);
    CHECK(hn_lab_copy(lab, 1, &copy, &count, room, wanted) == HN_LAB_DONE && count == wanted);
    CHECK(hn_lab_text(lab, SIZE_MAX, &count, room, 0) == HN_LAB_DONE && count == 0);
    CHECK(hn_lab_text(lab, 0, &wanted, room, 0) == HN_LAB_REFUSED && wanted == strlen(text_of(lab)));
    CHECK(hn_lab_text(lab, wanted - 1, &count, room, 1) == HN_LAB_DONE && count == 1 && room[0] == '\n');
    CHECK(hn_lab_script(lab, &wanted, room, 0) == HN_LAB_REFUSED && wanted == strlen(script_of(lab)));
}

/* The 65th address of a router ends the play when a part of the line has happened. */
static void plays_end(void)
{
    static hn_lab lab;
    static struct seen before, after;
    begin(&lab, 2);
    done(&lab, "link lan");
    done(&lab, "router gateway 00000001");
    char line[64];
    for (int endpoint = 1; endpoint <= 16; endpoint++) {
        snprintf(line, sizeof line, "link l%d", endpoint);
        done(&lab, line);
        snprintf(line, sizeof line, "attach gateway %d l%d", endpoint, endpoint);
        done(&lab, line);
    }
    for (int prefix = 1; prefix <= 5; prefix++) {
        snprintf(line, sizeof line, "external gateway 2001:db8:%d::/48 7200 3600", prefix);
        done(&lab, line);
    }
    done(&lab, "run 60000 1000");
    CHECK(play(&lab, "address gateway") == HN_LAB_OVER && code_of == HN_REFUSAL_ADDRESSES);
    look(&lab, &before);
    CHECK(!before.is_open && strstr(before.script, "run 60000 1000\naddress gateway\n") != NULL);
    CHECK(strstr(before.text, "refused 42 19\n") != NULL && state_of(&lab, "gateway").running == 1);
    CHECK(play(&lab, "mail") == HN_LAB_OVER && code_of == 0);
    CHECK(play(&lab, "no line") == HN_LAB_OVER && code_of == 0);
    look(&lab, &after);
    CHECK(memcmp(&before, &after, sizeof before) == 0);
    end(&lab);
}

static void datagrams_are_told(void)
{
    static const uint8_t datagram[] = {0, 3, 0, 8, 0, 0, 0, 1, 0, 0, 0, 1}, cut[] = {0, 3, 0};
    static const char malformed[] = "malformed place=0 why=1\n", refusal[] = "refused 2 4\n";
    static uint8_t room[256];
    static const char capture[] = "000300080000000100000001\n000300\n", no_capture[] = "0003\n0\n";
    size_t count;
    CHECK(hn_decode(datagram, sizeof datagram, &count, room, sizeof room) == HN_LAB_DONE && memcmp(room, "tlvs 1\n", 7) == 0);
    CHECK(hn_decode(datagram, sizeof datagram, &count, room, 7) == HN_LAB_REFUSED && count > 7);
    CHECK(hn_decode(cut, sizeof cut, &count, room, sizeof room) == HN_LAB_DONE);
    CHECK(count == strlen(malformed) && memcmp(room, malformed, count) == 0);
    CHECK(hn_watch((const uint8_t *)capture, strlen(capture), &count, room, sizeof room) == HN_LAB_DONE);
    CHECK(memcmp(room, "watch datagrams=2 malformed=1\n", 30) == 0);
    CHECK(hn_watch((const uint8_t *)no_capture, strlen(no_capture), &count, room, sizeof room) == HN_LAB_DONE);
    CHECK(count == strlen(refusal) && memcmp(room, refusal, count) == 0);
}

int main(void)
{
    static hn_lab lab;
    CHECK(hn_lab_version() == HN_LAB_VERSION_NUMBER);
    begin_two(&lab);
    done(&lab, "run 30000 100");
    lines_are_refused(&lab);
    lines_are_skipped(&lab);
    reports_answer(&lab);
    end(&lab);
    plays_end();
    datagrams_are_told();
    puts("lab_statuses: each status says of the play what the header says");
    return 0;
}

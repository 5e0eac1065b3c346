/* Each allocation of each line and of each report is refused in turn. A line that is out of memory changed nothing, or ended the
 * play, in which no line is played any more; a report changed nothing. */
#include "lab.h"

extern long refuse_at;

enum { LINES = 18, REPORTS = 7 };

static const char *const lines[LINES] = {
    "seed 7", "link lan", "router gateway 00000001", "router annex 00000002", "attach gateway 1 lan", "attach annex 1 lan",
    "external gateway 2001:db8:0:100::/56 7200 3600", "run 12000 500", "audit gateway", "inject annex 1 multi 00030008", "show nobody",
    "address gateway", "sync gateway annex", "stop annex", "start annex", "time 12500", "tick annex", "mail",
};

static long kept, ended, reports;

/* The play of the first lines. */
static void begin_with(hn_lab *lab, int count)
{
    begin(lab, 2);
    for (int line = 0; line < count; line++)
        CHECK(play(lab, lines[line]) == HN_LAB_DONE || code_of == HN_REFUSAL_UNKNOWN);
}

/* What a line that was out of memory left: all as before, or a play that is over. */
static void is_left(hn_lab *lab, int line, const char *text, const char *script)
{
    CHECK(code_of == 0);
    if (hn_lab_is_open(lab)) {
        kept++;
        CHECK(strcmp(text, text_of(lab)) == 0 && strcmp(script, script_of(lab)) == 0);
        CHECK(play(lab, lines[line]) == HN_LAB_DONE || code_of == HN_REFUSAL_UNKNOWN);
        return;
    }
    ended++;
    for (int again = 0; again < LINES; again++)
        CHECK(play(lab, lines[again]) == HN_LAB_OVER && code_of == 0);
    CHECK(!hn_lab_is_open(lab));
}

/* An allocation of a line is refused; returns whether there was one. */
static bool starves(int line, long at)
{
    static char text[MOST_TEXT], script[MOST_TEXT];
    static hn_lab lab;
    begin_with(&lab, line);
    strcpy(text, text_of(&lab));
    strcpy(script, script_of(&lab));
    refuse_at = at;
    uint8_t status = play(&lab, lines[line]);
    bool was_refused = refuse_at == 0;
    refuse_at = 0;
    if (was_refused && status == HN_LAB_NO_MEMORY)
        is_left(&lab, line, text, script);
    else
        CHECK(status == HN_LAB_DONE || code_of == HN_REFUSAL_UNKNOWN);
    end(&lab);
    return was_refused;
}

/* A report, by its number. */
static uint8_t report_of(hn_lab *lab, int report, size_t *count, uint8_t *room, size_t length)
{
    static const uint8_t name[] = "annex", datagram[] = {0, 3, 0, 8, 0, 0, 0, 1, 0, 0, 0, 1}, capture[] = "000300080000000100000001\n";
    static hn_state state;
    switch (report) {
    case 0: return hn_lab_state(lab, name, 5, &state);
    case 1: return hn_lab_why(lab, name, 5, count, room, length);
    case 2: return hn_lab_calm(lab, name, 5, count, room, length);
    case 3: return hn_lab_table(lab, name, 5, count, room, length);
    case 4: return hn_lab_log(lab, count, room, length);
    case 5: return hn_decode(datagram, sizeof datagram, count, room, length);
    default: return hn_watch(capture, sizeof capture - 1, count, room, length);
    }
}

static void each_report_starves(void)
{
    static uint8_t room[1 << 20];
    static char text[MOST_TEXT];
    static hn_lab lab;
    size_t count;
    begin_with(&lab, LINES);
    strcpy(text, text_of(&lab));
    for (int report = 0; report < REPORTS; report++)
        for (long at = 1;; at++) {
            room[0] = 0;
            refuse_at = at;
            uint8_t status = report_of(&lab, report, &count, room, sizeof room);
            bool was_refused = refuse_at == 0;
            refuse_at = 0;
            if (!was_refused) {
                CHECK(status == HN_LAB_DONE);
                break;
            }
            CHECK(status == HN_LAB_NO_MEMORY ? room[0] == 0 : status == HN_LAB_DONE);
            CHECK(hn_lab_is_open(&lab) && strcmp(text, text_of(&lab)) == 0);
            reports++;
        }
    end(&lab);
}

int main(void)
{
    static hn_lab lab;
    for (long at = 1; at < 100; at++) {
        refuse_at = at;
        if (hn_lab_new(&lab, 2) == HN_LAB_DONE)
            break;
        CHECK(refuse_at == 0 && lab.at == NULL);
    }
    refuse_at = 0;
    end(&lab);
    for (int line = 0; line < LINES; line++)
        for (long at = 1; starves(line, at); at++)
            continue;
    each_report_starves();
    printf("lab_starved: memory refused at a line changed nothing %ld times and ended the play %ld times; at a report it changed "
           "nothing, %ld times\n",
           kept, ended, reports);
    return 0;
}

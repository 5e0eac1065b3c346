/* A home that is driven by hand: what one router says is lost, until it is no longer. `lab_driven SCRIPT TEXT` writes the script
 * that was played, and the text, into two files: `hncp lab` writes that text of that script. */
#include "lab.h"

static uint64_t lost, delivered;

/* A line of a word and a number. */
static void done_with(hn_lab *lab, const char *word, uint64_t number)
{
    char line[64];
    snprintf(line, sizeof line, "%s %llu", word, (unsigned long long)number);
    done(lab, line);
}

/* The copy that waits is lost if it is from a router, and else delivered. */
static void decide(hn_lab *lab, uint64_t number, const char *mute)
{
    static uint8_t room[65507], text[1 << 19];
    hn_mail_copy copy;
    size_t count, lines;
    CHECK(hn_lab_copy(lab, number, &copy, &count, room, sizeof room) == HN_LAB_DONE);
    CHECK(copy.waiting == 1 && copy.sender_endpoint == 1 && copy.receiver_endpoint == 1);
    CHECK(is_named(copy.sender, "gateway") != is_named(copy.receiver, "gateway"));
    CHECK(is_named(copy.sender, "annex") != is_named(copy.receiver, "annex"));
    CHECK(hn_decode(room, count, &lines, text, sizeof text) == HN_LAB_DONE && memcmp(text, "tlvs ", 5) == 0);
    bool is_lost = mute != NULL && is_named(copy.sender, mute);
    *(is_lost ? &lost : &delivered) += 1;
    done_with(lab, is_lost ? "drop" : "deliver", number);
    CHECK(hn_lab_copy(lab, number, &copy, &count, room, sizeof room) == HN_LAB_DONE && copy.waiting == 0);
}

/* Time passes by a round: both routers look at their clocks, and the mail comes. */
static void pass(hn_lab *lab, uint64_t step, const char *mute)
{
    done_with(lab, "time", hn_lab_moment(lab) + step);
    done(lab, "tick gateway");
    done(lab, "tick annex");
    for (uint64_t number; (number = hn_lab_next(lab)) != 0;)
        decide(lab, number, mute);
    CHECK(hn_lab_waiting(lab) == 0);
}

static void live(hn_lab *lab, uint64_t until, const char *mute)
{
    while (hn_lab_moment(lab) < until)
        pass(lab, 100, mute);
}

static void write_to(const char *path, const char *text)
{
    FILE *file = fopen(path, "wb");
    CHECK(file != NULL && fputs(text, file) >= 0 && fclose(file) == 0);
}

int main(int count, char **words)
{
    static hn_lab lab;
    begin_two(&lab);
    live(&lab, 60 * 1000, "annex");
    CHECK(lost > 0 && delivered > 0 && lost + delivered == hn_lab_copies(&lab));
    CHECK(!state_of(&lab, "gateway").settled && !state_of(&lab, "gateway").sound);
    CHECK(state_of(&lab, "gateway").reach == 1);
    while (!state_of(&lab, "gateway").sound || !state_of(&lab, "annex").sound) {
        CHECK(hn_lab_moment(&lab) < 120 * 1000);
        pass(&lab, 100, NULL);
    }
    hn_state gateway = state_of(&lab, "gateway"), annex = state_of(&lab, "annex");
    CHECK(gateway.running && gateway.settled && gateway.quiet && gateway.reach == 2 && annex.reach == 2);
    CHECK(memcmp(gateway.hash, annex.hash, sizeof gateway.hash) == 0 && gateway.id == 1 && annex.id == 2);
    done(&lab, "audit gateway");
    done(&lab, "prefixes annex");
    CHECK(strstr(text_of(&lab), "audit gateway settled=yes quiet=yes sound=yes\n") != NULL);
    if (count == 3) {
        write_to(words[1], script_of(&lab));
        write_to(words[2], text_of(&lab));
    }
    printf("lab_driven: %llu copies one way were lost, and the home is sound %llu ms after\n", (unsigned long long)lost,
           (unsigned long long)(hn_lab_moment(&lab) - 60 * 1000));
    end(&lab);
    return 0;
}

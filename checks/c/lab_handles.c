/* Each call of the laboratory with a handle that has no play: one that is zero, one of a play that was given up, and one of a play
 * that was not made. */
#include "lab.h"

static uint8_t room[64];
static const uint8_t name[] = "annex";

static void nothing_is_counted(hn_lab *lab)
{
    CHECK(!hn_lab_is_open(lab) && hn_lab_moment(lab) == 0);
    CHECK(hn_lab_copies(lab) == 0 && hn_lab_waiting(lab) == 0 && hn_lab_next(lab) == 0);
}

static void nothing_is_written(hn_lab *lab)
{
    hn_mail_copy copy = {.sender_endpoint = 77};
    hn_state state = {.id = 77};
    size_t count[7] = {77, 77, 77, 77, 77, 77, 77};
    room[0] = 77;
    CHECK(hn_lab_text(lab, 0, &count[0], room, sizeof room) == HN_LAB_REFUSED);
    CHECK(hn_lab_script(lab, &count[1], room, sizeof room) == HN_LAB_REFUSED);
    CHECK(hn_lab_copy(lab, 1, &copy, &count[2], room, sizeof room) == HN_LAB_REFUSED && copy.sender_endpoint == 77);
    CHECK(hn_lab_state(lab, name, 5, &state) == HN_LAB_REFUSED && state.id == 77);
    CHECK(hn_lab_why(lab, name, 5, &count[3], room, sizeof room) == HN_LAB_REFUSED);
    CHECK(hn_lab_calm(lab, name, 5, &count[4], room, sizeof room) == HN_LAB_REFUSED);
    CHECK(hn_lab_table(lab, name, 5, &count[5], room, sizeof room) == HN_LAB_REFUSED);
    CHECK(hn_lab_log(lab, &count[6], room, sizeof room) == HN_LAB_REFUSED);
    for (size_t call = 0; call < 7; call++)
        CHECK(count[call] == 0);
    CHECK(room[0] == 77);
}

static void has_no_play(hn_lab *lab)
{
    CHECK(lab->at == NULL);
    CHECK(play(lab, "link lan") == HN_LAB_REFUSED && code_of == 0);
    nothing_is_counted(lab);
    nothing_is_written(lab);
    hn_lab_free(lab);
    CHECK(lab->at == NULL);
}

int main(void)
{
    static hn_lab lab, never_made;
    has_no_play(&lab);
    CHECK(hn_lab_new(&never_made, 0) == HN_LAB_REFUSED && hn_lab_new(&never_made, 3) == HN_LAB_REFUSED);
    has_no_play(&never_made);
    CHECK(hn_lab_new(&lab, 1) == HN_LAB_DONE);
    done(&lab, "link lan");
    CHECK(hn_lab_new(&lab, 2) == HN_LAB_REFUSED && strcmp(script_of(&lab), "hncp 1\nlink lan\n") == 0);
    hn_lab_free(&lab);
    hn_lab_free(&lab);
    has_no_play(&lab);
    CHECK(hn_lab_new(&lab, 2) == HN_LAB_DONE && strcmp(script_of(&lab), "hncp 2\n") == 0);
    end(&lab);
    puts("lab_handles: each call with a handle that has no play answers so");
    return 0;
}

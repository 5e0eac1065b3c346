/* Scripts with their transcripts: `lab_scripts FILE..` plays each script FILE.script line by line, up to one that is refused, and
 * compares the text with FILE.transcript. A script with a fault of its text is not played by `hncp lab`; of such a one only the
 * refusal is compared. */
#include "lab.h"

static long whole, cut, faulty;

static char *read_all(const char *path)
{
    FILE *file = fopen(path, "rb");
    CHECK(file != NULL && fseek(file, 0, SEEK_END) == 0);
    long length = ftell(file);
    rewind(file);
    char *bytes = malloc((size_t)length + 1);
    CHECK(length >= 0 && bytes != NULL && fread(bytes, 1, (size_t)length, file) == (size_t)length && fclose(file) == 0);
    bytes[length] = 0;
    return bytes;
}

static char *read_with(const char *path, const char *ending)
{
    char name[1024];
    CHECK(snprintf(name, sizeof name, "%s%s", path, ending) < (int)sizeof name);
    return read_all(name);
}

/* Where the last line of a text begins. */
static size_t last_line(const char *text)
{
    size_t at = strlen(text);
    do
        at = at > 0 ? at - 1 : 0;
    while (at > 0 && text[at - 1] != '\n');
    return at;
}

/* Plays the lines after the first, up to one that is refused; returns its number, or 0. */
static unsigned play_lines(hn_lab *lab, const char *script, uint8_t *status)
{
    const char *at = strchr(script, '\n') + 1;
    for (unsigned number = 2; *at != 0; number++) {
        const char *end = strchr(at, '\n');
        size_t length = end != NULL ? (size_t)(end - at) : strlen(at);
        *status = hn_lab_line(lab, (const uint8_t *)at, length, &code_of);
        CHECK(*status != HN_LAB_NO_MEMORY);
        if (*status != HN_LAB_DONE)
            return number;
        at += length + (end != NULL);
    }
    *status = HN_LAB_DONE;
    return 0;
}

/* Whether the transcript is the text, and the refusal of a line after it, if there is one. The text of a play that is over ends
 * with its own refusal, which has the line's number in the script that was kept. */
static bool is_transcript(const char *transcript, const char *text, unsigned number, uint8_t status)
{
    char refusal[32] = "";
    size_t length = status == HN_LAB_OVER ? last_line(text) : strlen(text);
    if (number != 0)
        snprintf(refusal, sizeof refusal, "refused %u %u\n", number, code_of);
    return strlen(transcript) == length + strlen(refusal) && memcmp(transcript, text, length) == 0
           && strcmp(transcript + length, refusal) == 0;
}

static void compare(const char *path)
{
    static hn_lab lab;
    char *script = read_with(path, ".script"), *transcript = read_with(path, ".transcript");
    uint8_t version = strncmp(script, "hncp 1\n", 7) == 0 ? 1 : strncmp(script, "hncp 2\n", 7) == 0 ? 2 : 0, status;
    if (version != 0) {
        begin(&lab, version);
        unsigned number = play_lines(&lab, script, &status);
        const char *text = text_of(&lab);
        bool is_same = is_transcript(transcript, text, number, status);
        if (!is_same && strncmp(transcript, "refused ", 8) == 0 && strchr(transcript, '\n')[1] == 0) {
            faulty++;
        } else if (!is_same) {
            printf("%s: another text\n", path);
            exit(1);
        } else {
            *(number == 0 ? &whole : &cut) += 1;
        }
        end(&lab);
    }
    free(script);
    free(transcript);
}

int main(int count, char **words)
{
    for (int word = 1; word < count; word++)
        compare(words[word]);
    printf("lab_scripts: %ld scripts are played to their transcripts, %ld to their refusals, and %ld have a fault of the text\n",
           whole, cut, faulty);
    return 0;
}

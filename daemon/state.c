/* What is kept over a restart: the identifier, the ULA prefix and whether it was made, the prefix that each link had in each
 * delegated prefix, and the prefixes that hosts were told of, each with the moment at which they forget it. It stands in the
 * file of -k (file.c). */
#include "hnd.h"

#include <inttypes.h>
#include <string.h>
#include <time.h>

/* How many prefixes hosts were told of at most: on each of 16 links 64 that have departed, and 64 that have not. */
enum { MOST_TOLD = 2048 };

/* Milliseconds until a link has its prefixes, and hosts are told of those that it has no more; and until a file that could not
 * be written is tried again. Seconds by which a moment has to differ from that in the file. */
enum { PATIENCE = 15000, AGAIN = 60000, DRIFT = 1800 };

/* The prefix of a link in a delegated prefix. The one that was applied first is the first. */
static struct {
    const struct link *link;
    struct prefix delegated, prefix;
} remembered[MOST_ASSIGNED];
static size_t remembered_count;

/* A prefix that hosts of a link were told of, and the moment at which they forget it, in seconds of the wall clock. */
struct told {
    struct link *link;
    struct prefix prefix;
    uint64_t end;
};

/* Those that stand in the file, and those of an earlier daemon that the router has not been handed yet. */
static struct told kept[MOST_TOLD], waiting[MOST_TOLD];
static size_t kept_count, waiting_count;

static uint32_t kept_id;        /* the identifier in the file */
static uint64_t written;        /* when the file that was read was written, by the wall clock */
static bool is_news, is_unseen; /* the file has to be written; what hosts were told of may have changed */
static uint64_t again;          /* no try before */

/* Seconds of the wall clock. */
static uint64_t wall(void)
{
    time_t at = time(NULL);
    return at < 0 ? 0 : (uint64_t)at;
}

/* The place of what is remembered of a link in a delegated prefix; one past the last one where there is nothing. */
static size_t place_of(const struct link *link, const struct prefix *delegated)
{
    size_t place = 0;
    while (place < remembered_count
           && (remembered[place].link != link || memcmp(&remembered[place].delegated, delegated, sizeof *delegated) != 0))
        place++;
    return place;
}

/* The first place of something that no link has now. */
static size_t least_wanted(void)
{
    for (size_t place = 0; place < remembered_count; place++) {
        if (!is_assigned(remembered[place].link, &remembered[place].prefix))
            return place;
    }
    return 0;
}

/* Remembers the prefix of a link in a delegated one, instead of the one before. */
static void put(const struct link *link, const struct prefix *delegated, const struct prefix *prefix)
{
    size_t place = place_of(link, delegated);
    if (place < remembered_count && memcmp(&remembered[place].prefix, prefix, sizeof *prefix) == 0)
        return;
    if (place == MOST_ASSIGNED)
        place = least_wanted();
    if (place < remembered_count) {
        remembered_count--;
        memmove(&remembered[place], &remembered[place + 1], (remembered_count - place) * sizeof remembered[0]);
    }
    remembered[remembered_count].link = link;
    remembered[remembered_count].delegated = *delegated;
    remembered[remembered_count++].prefix = *prefix;
    is_news = true;
}

/* Has the router prefer a prefix. It takes none where it has no room for one more, nor in a delegated prefix of less than 32
 * bits. */
static void prefer(const struct link *link, const struct prefix *delegated, const struct prefix *prefix)
{
    if (hn_router_prefer(&router, link->endpoint, delegated->bits, delegated->length, prefix->bits, prefix->length) == 1)
        say(OF_CALL, "undone prefer why=memory");
}

/* An assignment is applied: the link has this prefix again, whatever happens to it. */
void remember(const hn_assigned *it)
{
    struct prefix delegated = {.length = it->delegated_length}, prefix = {.length = it->length};
    const struct link *link = link_of_endpoint(it->endpoint);
    memcpy(delegated.bits, it->delegated, sizeof delegated.bits);
    memcpy(prefix.bits, it->prefix, sizeof prefix.bits);
    put(link, &delegated, &prefix);
    prefer(link, &delegated, &prefix);
}

static struct link *link_of_name(const char *name)
{
    for (struct link *link = links; link < links + link_count; link++) {
        if (strcmp(link->name, name) == 0)
            return link;
    }
    return NULL;
}

/* Takes a prefix of a link that hosts were told of. If the wall clock is behind the file, no time has passed. */
static void take_told(struct link *link, const struct prefix *prefix, uint64_t end)
{
    uint64_t at = wall();
    if (at < written && end != NEVER)
        end -= earlier(end, written - at);
    if (link != NULL && end > at && waiting_count < MOST_TOLD)
        waiting[waiting_count++] = (struct told){link, *prefix, end};
}

/* Takes a line of the file. Those of interfaces that are not named now are left out. Whether it is a line of the file. */
static bool take_line(const char *line)
{
    char name[IF_NAMESIZE], first[64], second[64], more;
    struct prefix delegated, prefix;
    struct link *link;
    uint64_t end;
    unsigned made;
    if (sscanf(line, "written %20" SCNu64 " %c", &written, &more) == 1 || sscanf(line, "identifier %8" SCNx32 " %c", &kept_id, &more) == 1)
        return true;
    if (sscanf(line, "ula %63s %1u %c", first, &made, &more) == 2)
        return read_prefix(first, &prefix) && take_ula(&prefix, made != 0);
    if (sscanf(line, "prefix %15s %63s %63s %c", name, first, second, &more) == 3) {
        if (!read_prefix(first, &delegated) || !read_prefix(second, &prefix))
            return false;
        if ((link = link_of_name(name)) != NULL)
            put(link, &delegated, &prefix);
        return true;
    }
    if (sscanf(line, "told %15s %63s %20" SCNu64 " %c", name, first, &end, &more) != 3 || !read_prefix(first, &prefix))
        return false;
    take_told(link_of_name(name), &prefix, end);
    return true;
}

/* Reads what an earlier daemon kept. A file that is not used is told, and changes nothing. */
void read_state(void)
{
    if (settings.kept == NULL)
        return;
    const char *why = read_file(take_line);
    if (why != NULL) {
        remembered_count = waiting_count = 0;
        forget_ula();
        say(OF_FILE, "unused %s why=\"%s\"", settings.kept, why);
    } else {
        say(OF_FILE, "used %s prefixes=%zu told=%zu", settings.kept, remembered_count, waiting_count);
        if (!settings.has_id)
            settings.id = kept_id;
    }
    is_news = why != NULL;
}

/* Hands what is remembered to the router, before it has a link. */
void begin_state(void)
{
    for (size_t place = 0; place < remembered_count; place++)
        prefer(remembered[place].link, &remembered[place].delegated, &remembered[place].prefix);
}

/* What hosts were told of may have changed. */
void look_at_state(void)
{
    is_unseen = true;
}

/* The file has to be written. */
void keep_state(void)
{
    is_news = true;
}

/* What stands in the file of a prefix of a link, or nothing. */
static const struct told *find_kept(const struct told *wanted)
{
    for (const struct told *it = kept; it < kept + kept_count; it++) {
        if (it->link == wanted->link && memcmp(&it->prefix, &wanted->prefix, sizeof it->prefix) == 0)
            return it;
    }
    return NULL;
}

/* Whether two moments are about the same. */
static bool are_close(uint64_t one, uint64_t other)
{
    return one == other || (one < other ? other - one : one - other) < DRIFT;
}

/* Sees what hosts were told of by now, and whether the file tells something else. */
static void see_told(void)
{
    static struct told seen[MOST_TOLD];
    size_t there = hn_router_departures(&router), count = 0;
    const struct told *before;
    bool is_same = true;
    hn_departed it;
    for (size_t place = 0; place < there && count < MOST_TOLD; place++) {
        if (!is_done(hn_router_departed(&router, place, &it), "departed") || it.valid == 0)
            continue;
        struct told *made = &seen[count++];
        *made = (struct told){.link = link_of_endpoint(it.endpoint), .prefix.length = it.length};
        memcpy(made->prefix.bits, it.prefix, sizeof made->prefix.bits);
        made->end = it.valid == UINT32_MAX ? NEVER : wall() + it.valid;
        before = find_kept(made);
        is_same &= before != NULL && are_close(before->end, made->end);
    }
    is_unseen = false;
    if (is_same && count == kept_count)
        return;
    memcpy(kept, seen, count * sizeof seen[0]);
    kept_count = count;
    is_news = true;
}

/* Hands prefixes of an earlier daemon to the router, once it knows what their links have: hosts are told that they are not
 * preferred any more. One that is assigned to its link again is not handed on. */
static void hand_on(bool is_end)
{
    size_t left = 0;
    for (const struct told *it = waiting; it < waiting + waiting_count; it++) {
        uint64_t at = wall(), valid = it->end == NEVER ? UINT32_MAX : it->end - earlier(at, it->end);
        if (!is_end && (!it->link->is_attached || now() < it->link->adverts.begun + PATIENCE))
            waiting[left++] = *it;
        else if (valid > 0)
            tell_departed(it->link, &it->prefix, (uint32_t)earlier(valid, UINT32_MAX));
    }
    is_unseen |= left != waiting_count;
    waiting_count = left;
}

/* Writes a line of a prefix that hosts were told of. */
static void write_told(FILE *to, const struct told *it)
{
    fprintf(to, "told %s %s %" PRIu64 "\n", it->link->name, text_of(it->prefix.bits, it->prefix.length), it->end);
}

/* Writes the lines of the file. */
static void write_lines(FILE *to)
{
    bool is_made;
    const struct prefix *ula = own_ula(&is_made);
    fprintf(to, "written %" PRIu64 "\nidentifier %08" PRIx32 "\n", wall(), kept_id);
    if (ula != NULL)
        fprintf(to, "ula %s %d\n", text_of(ula->bits, ula->length), is_made);
    for (size_t place = 0; place < remembered_count; place++)
        fprintf(to, "prefix %s %s %s\n", remembered[place].link->name,
                text_of(remembered[place].delegated.bits, remembered[place].delegated.length),
                text_of(remembered[place].prefix.bits, remembered[place].prefix.length));
    for (const struct told *it = kept; it < kept + kept_count; it++)
        write_told(to, it);
    for (const struct told *it = waiting; it < waiting + waiting_count; it++) {
        if (find_kept(it) == NULL)
            write_told(to, it);
    }
}

/* Tells whether the file was written. If not, it is tried again later. */
static void tell_written(const char *why)
{
    if (why == NULL) {
        say(OF_FILE, "kept %s", settings.kept);
        return;
    }
    say(OF_FILE, "unkept %s why=\"%s\"", settings.kept, why);
    is_news = true;
    again = now() + AGAIN;
}

/* Keeps what has changed. */
void follow_state(void)
{
    const char *why;
    hand_on(false);
    if (settings.kept == NULL)
        return;
    if (has_written(&why))
        tell_written(why);
    is_news |= hn_router_identifier(&router) != kept_id;
    kept_id = hn_router_identifier(&router);
    if (is_unseen)
        see_told();
    if (!is_news || is_writing() || now() < again)
        return;
    is_news = false;
    if ((why = begin_writing(write_lines)) != NULL)
        tell_written(why);
}

/* When something is to be done here. */
uint64_t state_due(void)
{
    uint64_t due = is_news && settings.kept != NULL && !is_writing() ? again : NEVER;
    for (const struct told *it = waiting; it < waiting + waiting_count; it++) {
        if (it->link->is_attached)
            due = earlier(due, it->link->adverts.begun + PATIENCE);
    }
    return due;
}

/* It is the end: what waits is told with the last advertisements. */
void end_state(void)
{
    hand_on(true);
}

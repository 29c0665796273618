/* The first items of the scope document's worked night, and then a coordinator that tells the store
 * of a snapshot, through the C header. At this folder, once
 * `tools/staticlib` has built the library; the program goes to `target` too:
 *
 *     cc -std=c99 -Wall example.c ../../target/staticlib/librepository.a -o ../../target/example
 *     ../../target/example
 */
#include "jibcradle.h"

#include <inttypes.h>
#include <stdio.h>

static jibcradle_store store;
static jibcradle_coordinator coordinator;
static uint8_t journal[4096];

/* Prints what a change answered, and hands its place on. */
static size_t tell(const char *call, jibcradle_moved moved)
{
    printf("%-26s code %2" PRIu64 ", number %3" PRIu64 ", place %3zu: %s\n", call, moved.code,
           moved.number, moved.place, jibcradle_code_name(moved.code));
    return moved.place;
}

/* Prints what a coordinator, or a request, was answered, and hands its number on. */
static size_t told(const char *call, jibcradle_reply reply)
{
    printf("%-26s code %2" PRIu64 ", number %3" PRIu64 ": %s\n", call, reply.code, reply.number,
           jibcradle_code_name(reply.code));
    return (size_t)reply.number;
}

/* Hears a message. */
static size_t hear(const char *call, size_t used, const uint8_t *message, size_t length)
{
    return tell(call, jibcradle_hear(&store, journal, sizeof journal, used, message, length));
}

/* Commits one object. */
static jibcradle_moved commit_one(size_t used, uint64_t stamp, uint64_t object, uint64_t value)
{
    return jibcradle_commit(&store, journal, sizeof journal, used, stamp, &object, 1, &value, 1);
}

/* Reads a page at a time, and prints what it shows. */
static void show(uint64_t time, uint64_t page)
{
    uint64_t values[JIBCRADLE_SLOTS];
    jibcradle_reply reply = jibcradle_snapshot_read(&store, time, page, values, JIBCRADLE_SLOTS);
    printf("read at time %-13" PRIu64 " code %2" PRIu64 ", number %3" PRIu64 ": %s", time,
           reply.code, reply.number, jibcradle_code_name(reply.code));
    if (reply.code == JIBCRADLE_DONE) {
        printf(", page %" PRIu64 ":", page);
        for (size_t slot = 0; slot < JIBCRADLE_SLOTS; slot++) {
            printf(" %" PRIu64, values[slot]);
        }
    }
    printf("\n");
}

/* Prints the journal's used bytes. */
static void dump(size_t used)
{
    printf("journal:");
    for (size_t place = 0; place < used; place++) {
        printf(" %02x", journal[place]);
    }
    printf("\n");
}

/* Prints how the store stands. */
static void stand(void)
{
    jibcradle_report report = jibcradle_standing(&store);
    printf("standing: code %" PRIu64 ", %" PRIu64 " pending, %" PRIu64 " past, %" PRIu64
           " snapshots, %" PRIu64 " copies, lag %" PRId64 "\n",
           report.code, report.pending, report.past, report.snapshots, report.copies, report.lag);
}

/* Prints what the store knows. */
static void know(void)
{
    jibcradle_knowledge known = jibcradle_known(&store);
    printf("known: code %" PRIu64 ", horizon %" PRIu64 ", last commit %" PRIu64 ", snapshots:",
           known.code, known.horizon, known.last);
    for (size_t number = 0; number < known.count; number++) {
        printf(" %" PRIu64, known.stamps[number]);
    }
    printf("\n");
}

/* A snapshot is granted and told of. The first message is lost, so that the second leaves a gap, and
 * the store asks for what it missed. */
static void coordinate(void)
{
    uint8_t message[JIBCRADLE_MESSAGE];
    uint8_t request[JIBCRADLE_REQUEST];
    size_t length;
    size_t used = tell("fresh", jibcradle_fresh(&store));

    told("a fresh coordinator", jibcradle_coordinator_fresh(&coordinator));
    told("grant tick 1, node 5", jibcradle_grant(&coordinator, 1, 5));
    told("message 0 to 300, lost", jibcradle_message(&coordinator, 0, 300, message, sizeof message));
    told("grant the same again", jibcradle_grant(&coordinator, 1, 5));
    length = told("message 300 to 600", jibcradle_message(&coordinator, 300, 600, message,
                                                          sizeof message));
    used = hear("hear it", used, message, length);
    told("ask up to 600", jibcradle_ask(&store, 600, request, sizeof request));
    length = told("serve the request", jibcradle_serve(&coordinator, request, sizeof request,
                                                       message, sizeof message));
    used = hear("hear the reply", used, message, length);
    used = hear("hear it again", used, message, length);
    know();
    dump(used);
}

int main(void)
{
    const uint64_t snapshot = 105;
    size_t used = tell("fresh", jibcradle_fresh(&store));

    used = tell("commit 100, object 0 = 7", commit_one(used, 100, 0, 7));
    dump(used);
    used = tell("commit 100 again", commit_one(used, 100, 0, 7));
    used = tell("commit 120, object 0 = 9", commit_one(used, 120, 0, 9));
    used = tell("gossip 0 to 110 of 105", jibcradle_gossip(&store, journal, sizeof journal, used,
                                                           0, 110, &snapshot, 1));
    show(107, 0);
    show(104, 0);
    show(111, 0);
    used = tell("flush page 0", jibcradle_flush(&store, journal, sizeof journal, used, 0));
    used = tell("flush page 0 again", jibcradle_flush(&store, journal, sizeof journal, used, 0));
    stand();
    know();
    tell("restart", jibcradle_restart(&store, journal, used));
    show(107, 0);
    coordinate();
    return 0;
}

/* The proved store, for C and C++: one struct that holds the whole store, and twelve calls on it;
 * and the coordinator that tells the stores of snapshots, a struct and six calls.
 *
 * Link with librepository.a, which `tools/staticlib` writes at the repository's top to
 * target/staticlib. x86-64 Linux.
 *
 * Every call takes every input: any number for a number, any bytes in a store, a journal or a
 * list. A call touches no memory but what it is lent, and keeps none of it. The caller sees to
 * this alone:
 *   - each pointer points to what the call's comment says, as many elements as the length says.
 *     With length 0 nothing is read or written; the pointer should still not be null.
 *   - what is lent for writing overlaps nothing else that is lent in the same call, and no other
 *     thread uses it during the call.
 *
 * A stamp is a clock tick (milliseconds) x 256 + a node number; 0 is before everything. An
 * object's number is 16 x page + slot.
 */
#ifndef JIBCRADLE_H
#define JIBCRADLE_H

#include <stddef.h>
#include <stdint.h>

#ifdef __cplusplus
extern "C" {
#endif

enum {
    JIBCRADLE_PAGES = 32,
    JIBCRADLE_SLOTS = 16,     /* objects in a page */
    JIBCRADLE_OBJECTS = 512,
    JIBCRADLE_WRITES = 16,    /* most writes in a commit */
    JIBCRADLE_STAMPS = 16,    /* most stamps in a message */
    JIBCRADLE_PENDING = 128,
    JIBCRADLE_PAST = 256,
    JIBCRADLE_SNAPSHOTS = 64,
    JIBCRADLE_COPIES = 128,
    JIBCRADLE_JOURNAL = 65535, /* longest journal, in bytes */
    JIBCRADLE_GRANTED = 64,   /* most snapshots of a coordinator */
    JIBCRADLE_MESSAGE = 148,  /* longest message, in bytes */
    JIBCRADLE_REQUEST = 19,   /* a request, in bytes */
    JIBCRADLE_KEPT = 522      /* longest coordinator kept as bytes */
};

/* The codes. Those from JIBCRADLE_DAMAGED up are refusals: nothing has changed, but that a refused
 * restart leaves a fresh store. In brackets the number that comes with each; 0 where none is. */
enum {
    JIBCRADLE_DONE = 0,             /* [changes and restart: the journal's new used length;
                                       snapshot and clock read: the snapshot's stamp; a grant: its
                                       stamp; what writes bytes: how many] */
    JIBCRADLE_NOTHING = 1,          /* there was nothing to do [used length] */
    JIBCRADLE_DAMAGED = 2,          /* the tables aren't those of a store */
    JIBCRADLE_SHAPE = 3,            /* an argument is out of range */
    JIBCRADLE_TWICE = 4,            /* a commit names one object twice */
    JIBCRADLE_LATE = 5,             /* a commit isn't after the last commit and the horizon, a
                                       grant not after all granted and sent [the largest] */
    JIBCRADLE_GAP = 6,              /* a message starts beyond the horizon [horizon] */
    JIBCRADLE_CONFLICT = 7,         /* a message disagrees with the known snapshots
                                       [the smallest differing stamp] */
    JIBCRADLE_PENDING_FULL = 8,
    JIBCRADLE_PAST_FULL = 9,
    JIBCRADLE_SNAPSHOTS_FULL = 10,
    JIBCRADLE_ARCHIVE_FULL = 11,
    JIBCRADLE_NO_JOURNAL_ROOM = 12, /* [the used length it would have reached] */
    JIBCRADLE_AHEAD = 13,           /* the time read lies beyond the horizon [horizon] */
    JIBCRADLE_NO_SNAPSHOT = 14,     /* no known snapshot at or before the time read */
    JIBCRADLE_VERSION = 15,         /* the journal has another version [the byte found] */
    JIBCRADLE_MALFORMED = 16,       /* a record isn't well formed [offset of its length], or a
                                       field of a kept coordinator [its offset] */
    JIBCRADLE_CONTRADICTION = 17    /* a record isn't one that the rebuilt store would have
                                       written [offset of its length] */
};

/* The name of a code, as the command prints it; "Unknown" where no code has this number. */
static inline const char *jibcradle_code_name(uint64_t code)
{
    switch (code) {
    case JIBCRADLE_DONE: return "Done";
    case JIBCRADLE_NOTHING: return "Nothing";
    case JIBCRADLE_DAMAGED: return "Damaged";
    case JIBCRADLE_SHAPE: return "Shape";
    case JIBCRADLE_TWICE: return "Twice";
    case JIBCRADLE_LATE: return "Late";
    case JIBCRADLE_GAP: return "Gap";
    case JIBCRADLE_CONFLICT: return "Conflict";
    case JIBCRADLE_PENDING_FULL: return "Pending full";
    case JIBCRADLE_PAST_FULL: return "Past full";
    case JIBCRADLE_SNAPSHOTS_FULL: return "Snapshots full";
    case JIBCRADLE_ARCHIVE_FULL: return "Archive full";
    case JIBCRADLE_NO_JOURNAL_ROOM: return "No journal room";
    case JIBCRADLE_AHEAD: return "Ahead";
    case JIBCRADLE_NO_SNAPSHOT: return "No snapshot";
    case JIBCRADLE_VERSION: return "Version";
    case JIBCRADLE_MALFORMED: return "Malformed";
    case JIBCRADLE_CONTRADICTION: return "Contradiction";
    default: return "Unknown";
    }
}

/* A modified object that hasn't gone to disk yet. */
typedef struct {
    uint64_t object;
    uint64_t first;  /* stamp of its first commit since the last flush */
    uint64_t latest; /* stamp of its latest commit */
    uint64_t value;
} jibcradle_pending;

/* A value that an object had at each stamp s with from <= s < until. */
typedef struct {
    uint64_t object;
    uint64_t from;
    uint64_t until;
    uint64_t value;
} jibcradle_past;

/* An archived copy of a page, but for its values. */
typedef struct {
    uint64_t page;
    uint64_t stamp; /* the snapshot it was taken for */
} jibcradle_copy;

/* The numbers of rows, the horizon and the last commit. */
typedef struct {
    size_t pending;
    size_t past;
    size_t snapshots;
    size_t copies;
    uint64_t horizon; /* all snapshots up to here are known */
    uint64_t last;    /* stamp of the last commit */
} jibcradle_heads;

/* The whole store, 39,472 bytes. Only the rows below a table's count (in heads) are contents. It
 * holds no pointers and needs no release: it may be static, on the heap, or copied as it is. */
typedef struct {
    uint64_t disk[JIBCRADLE_OBJECTS];           /* disk value of each object */
    uint64_t dated[JIBCRADLE_OBJECTS];          /* stamp of the commit that wrote it */
    jibcradle_pending pending[JIBCRADLE_PENDING];
    jibcradle_past past[JIBCRADLE_PAST];
    uint64_t snapshots[JIBCRADLE_SNAPSHOTS];    /* strictly ascending */
    jibcradle_copy copies[JIBCRADLE_COPIES];
    uint64_t copied[JIBCRADLE_COPIES * JIBCRADLE_SLOTS]; /* 16 values for each copy */
    jibcradle_heads heads;
} jibcradle_store;

/* A coordinator, 528 bytes: the snapshots that it has granted, of which the first `count` are
 * contents, and the largest curr that it has sent. */
typedef struct {
    uint64_t count;
    uint64_t sent;
    uint64_t granted[JIBCRADLE_GRANTED]; /* strictly ascending */
} jibcradle_coordinator;

/* What a change, a fresh start or a restart answers. */
typedef struct {
    uint64_t code;
    uint64_t number;
    size_t place; /* the used length to give to the next call */
} jibcradle_moved;

/* What a read answers, and each call of a coordinator. */
typedef struct {
    uint64_t code;
    uint64_t number;
} jibcradle_reply;

/* What standing answers; all figures are 0 where the code isn't. */
typedef struct {
    uint64_t code;
    uint64_t number;
    uint64_t pending;
    uint64_t past;
    uint64_t snapshots;
    uint64_t copies;
    int64_t lag; /* tick of the last commit minus tick of the horizon */
} jibcradle_report;

/* What known answers; all of it is 0 where the code isn't. */
typedef struct {
    uint64_t code;
    uint64_t number;
    uint64_t horizon; /* all snapshots up to here are known */
    uint64_t last;    /* stamp of the last commit */
    uint64_t count;   /* how many snapshots are known */
    uint64_t stamps[JIBCRADLE_SNAPSHOTS]; /* they, ascending; 0 from count on */
} jibcradle_knowledge;

/* The layout that the library was compiled with: an array of -1 bytes, which no compiler takes,
 * says that a size or an offset is another here. */
#define JIBCRADLE_LAID(name, holds) typedef char jibcradle_laid_##name[(holds) ? 1 : -1]
JIBCRADLE_LAID(word, sizeof(size_t) == 8);
JIBCRADLE_LAID(pending, sizeof(jibcradle_pending) == 32);
JIBCRADLE_LAID(past, sizeof(jibcradle_past) == 32);
JIBCRADLE_LAID(copy, sizeof(jibcradle_copy) == 16);
JIBCRADLE_LAID(heads, sizeof(jibcradle_heads) == 48);
JIBCRADLE_LAID(heads_horizon, offsetof(jibcradle_heads, horizon) == 32);
JIBCRADLE_LAID(store, sizeof(jibcradle_store) == 39472);
JIBCRADLE_LAID(store_disk, offsetof(jibcradle_store, disk) == 0);
JIBCRADLE_LAID(store_dated, offsetof(jibcradle_store, dated) == 4096);
JIBCRADLE_LAID(store_pending, offsetof(jibcradle_store, pending) == 8192);
JIBCRADLE_LAID(store_past, offsetof(jibcradle_store, past) == 12288);
JIBCRADLE_LAID(store_snapshots, offsetof(jibcradle_store, snapshots) == 20480);
JIBCRADLE_LAID(store_copies, offsetof(jibcradle_store, copies) == 20992);
JIBCRADLE_LAID(store_copied, offsetof(jibcradle_store, copied) == 23040);
JIBCRADLE_LAID(store_heads, offsetof(jibcradle_store, heads) == 39424);
JIBCRADLE_LAID(coordinator, sizeof(jibcradle_coordinator) == 528);
JIBCRADLE_LAID(coordinator_sent, offsetof(jibcradle_coordinator, sent) == 8);
JIBCRADLE_LAID(coordinator_granted, offsetof(jibcradle_coordinator, granted) == 16);
JIBCRADLE_LAID(moved, sizeof(jibcradle_moved) == 24);
JIBCRADLE_LAID(moved_number, offsetof(jibcradle_moved, number) == 8);
JIBCRADLE_LAID(moved_place, offsetof(jibcradle_moved, place) == 16);
JIBCRADLE_LAID(reply, sizeof(jibcradle_reply) == 16);
JIBCRADLE_LAID(reply_number, offsetof(jibcradle_reply, number) == 8);
JIBCRADLE_LAID(report, sizeof(jibcradle_report) == 56);
JIBCRADLE_LAID(report_lag, offsetof(jibcradle_report, lag) == 48);
JIBCRADLE_LAID(knowledge, sizeof(jibcradle_knowledge) == 552);
JIBCRADLE_LAID(knowledge_stamps, offsetof(jibcradle_knowledge, stamps) == 40);
#undef JIBCRADLE_LAID

/* Makes this a fresh store, whatever its bytes were. The place is 0: the journal counts as empty
 * from here. */
jibcradle_moved jibcradle_fresh(jibcradle_store *store);

/* Rebuilds the store from the `length` surviving bytes of its journal, whatever its own bytes
 * were. The number and the place are the journal's used length; a last record that isn't whole
 * is left out. */
jibcradle_moved jibcradle_restart(jibcradle_store *store, const uint8_t *journal, size_t length);

/* Commits the writes at stamp t: objects[i] takes values[i]. Writes the record to the journal,
 * which has `length` bytes, of them `used` in use. Both lists have to have the same length, 1 to
 * 16. */
jibcradle_moved jibcradle_commit(jibcradle_store *store, uint8_t *journal, size_t length,
                                 size_t used, uint64_t t, const uint64_t *objects,
                                 size_t object_count, const uint64_t *values, size_t value_count);

/* Takes in a message: the snapshots beyond prev up to curr are exactly these stamps, at most 16.
 * Writes the record to the journal. */
jibcradle_moved jibcradle_gossip(jibcradle_store *store, uint8_t *journal, size_t length,
                                 size_t used, uint64_t prev, uint64_t curr, const uint64_t *stamps,
                                 size_t stamp_count);

/* Archives the page's due snapshots and brings its pending entries to disk. Writes the record to
 * the journal. */
jibcradle_moved jibcradle_flush(jibcradle_store *store, uint8_t *journal, size_t length,
                                size_t used, uint64_t page);

/* Reads the page as of the largest known snapshot at or before `time` into the buffer, whose
 * length has to be 16. Refused, it leaves the buffer as it was. */
jibcradle_reply jibcradle_snapshot_read(const jibcradle_store *store, uint64_t time, uint64_t page,
                                        uint64_t *buffer, size_t length);

/* The same at time 256 x tick; a tick is at most 2^56 - 1. */
jibcradle_reply jibcradle_clock_read(const jibcradle_store *store, uint64_t tick, uint64_t page,
                                     uint64_t *buffer, size_t length);

/* Reads the page's current values into the buffer, whose length has to be 16. */
jibcradle_reply jibcradle_current_read(const jibcradle_store *store, uint64_t page,
                                       uint64_t *buffer, size_t length);

/* Counts the rows of the tables, and the lag. */
jibcradle_report jibcradle_standing(const jibcradle_store *store);

/* Tells the horizon, the last commit and all known snapshots. */
jibcradle_knowledge jibcradle_known(const jibcradle_store *store);

/* Takes in a message as a coordinator wrote it, as gossip takes its numbers. Bytes that aren't
 * exactly one message are malformed. Writes the record to the journal. */
jibcradle_moved jibcradle_hear(jibcradle_store *store, uint8_t *journal, size_t length, size_t used,
                               const uint8_t *message, size_t message_length);

/* After a gap: writes the request for all snapshots from the horizon up to `to`, which is the
 * refused message's curr and has to be at or beyond the horizon, to the front of the buffer, whose
 * length has to be 19 or more. The number is 19. */
jibcradle_reply jibcradle_ask(const jibcradle_store *store, uint64_t to, uint8_t *buffer,
                              size_t length);

/* Makes this a fresh coordinator, whatever its bytes were. All stores that hear of snapshots hear
 * of one coordinator: one that is made anew knows nothing of what another has granted. */
jibcradle_reply jibcradle_coordinator_fresh(jibcradle_coordinator *coordinator);

/* Grants the snapshot of stamp 256 x tick + node, which is the number, if it lies beyond every
 * stamp granted and every curr sent. A tick is at most 2^56 - 1, a node at most 255. */
jibcradle_reply jibcradle_grant(jibcradle_coordinator *coordinator, uint64_t tick, uint64_t node);

/* Writes the message with all granted snapshots after prev up to the stamp `clock`, or the first
 * sixteen of them, to the front of the buffer, whose length has to be 148 or more. The number is
 * the message's length. No later grant lies within what it told. */
jibcradle_reply jibcradle_message(jibcradle_coordinator *coordinator, uint64_t prev, uint64_t clock,
                                  uint8_t *buffer, size_t length);

/* Writes the message that a request asks for, as above. Bytes that aren't exactly one request are
 * malformed. */
jibcradle_reply jibcradle_serve(jibcradle_coordinator *coordinator, const uint8_t *request,
                                size_t request_length, uint8_t *buffer, size_t length);

/* Writes the coordinator as bytes to the front of the buffer, whose length has to be 522 or more.
 * The number is how many they are. They have to last before anybody is told of a grant or given a
 * message: see jibcradle_coordinator_restart. */
jibcradle_reply jibcradle_coordinator_keep(const jibcradle_coordinator *coordinator,
                                           uint8_t *buffer, size_t length);

/* Makes this the coordinator that was kept in the bytes; none at all are a fresh one. The number is
 * their length. Refused, it leaves a fresh coordinator. */
jibcradle_reply jibcradle_coordinator_restart(jibcradle_coordinator *coordinator,
                                              const uint8_t *bytes, size_t length);

#ifdef __cplusplus
}
#endif

#endif

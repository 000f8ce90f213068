/*
 * CORE: finds complex events in a stream of typed events.
 *
 * An engine is opened with a query text, takes the lines of events, and gives the answers that end at
 * the last event as numbers. All of it is in the memory that it takes from malloc; it opens no file,
 * starts no thread and reads no clock. What each call promises is in docs/LIBRARY.md.
 *
 *     core_engine engine = {0};
 *     if (core_open(&engine, text, len, &fault, words, sizeof words) == CORE_OK) {
 *         ... core_feed, core_next ...
 *         core_close(&engine);
 *     }
 *
 * What a caller owes:
 * - A core_engine begins as zeros but for its seed, and only these calls change its handle. It may be
 *   moved; a copy of an open one is not to be used.
 * - One call at a time is made on an engine, and all of them on the thread that opened it. Engines do
 *   not know of each other.
 * - A pointer is not NULL, not even where the length beside it is 0, and what two pointers of one call
 *   lead to does not overlap, unless both are only read.
 * - No call is made in a signal handler, nor in the child of a fork in a process with threads.
 */
#ifndef CORE_H
#define CORE_H

#include <stdbool.h>
#include <stddef.h>
#include <stdint.h>

#ifdef __cplusplus
extern "C" {
#endif

/* The version of these calls. core_version() gives that of the library. */
#define CORE_VERSION 1

/* What a call says of how it went. */
enum core_status {
    CORE_OK = 0,     /* What was asked is done. */
    CORE_NONE = 1,   /* There is nothing: an empty line, no whole line, no answer, no such query. */
    CORE_ROOM = 2,   /* The answer has more positions than there is room for, and is kept; or 64 cursors
                        are held. */
    CORE_QUERY = 3,  /* The query text is refused. */
    CORE_EVENT = 4,  /* A line is refused, which has changed nothing. */
    CORE_MEMORY = 5, /* Memory ran out, which has changed nothing: the call may be made again. */
    CORE_MISUSE = 6  /* The engine is closed; or it is open, and was to be opened; or no cursor of this
                        number is held. Nothing has changed. */
};

/* Where an engine has its service. */
typedef struct core_handle {
    void *at;
    bool full; /* whether the engine is open */
} core_handle;

/*
 * An engine. The seed is two numbers that are set before the engine is opened. No answer depends on
 * them: where strangers choose the values that queries are parted by (PARTITION BY), numbers that
 * nobody can guess keep them from choosing such as make the engine slow; else zeros serve.
 */
typedef struct core_engine {
    core_handle handle;
    uint64_t seed[2];
} core_engine;

/*
 * Why a text or a line is refused: the line of the text, from 1, and the column in bytes, from 1; or the
 * number of the line that was fed, and 0. A buffer beside it takes the first bytes of a note in words,
 * which ends with a line feed and has no byte 0 behind it; `words` says how many bytes the note has,
 * also where there was not room for all. Nothing is written where nothing is refused.
 */
typedef struct core_fault {
    uint64_t line;
    uint64_t column;
    size_t words;
} core_fault;

/* An answer: its query, from 1 in the order of the text, the positions, from 0, at which the complex
 * event starts and ends, and how many positions are marked. */
typedef struct core_answer {
    uint64_t query;
    uint64_t start;
    uint64_t end;
    size_t count;
} core_answer;

/* What is kept: the events that were taken and the queries that there are; and of one query the nodes,
 * the most nodes that there were after an event, and the states that were found. */
typedef struct core_sizes_of {
    uint64_t events;
    uint64_t queries;
    uint64_t nodes;
    uint64_t peak;
    uint64_t states;
} core_sizes_of;

/* The version of the library's calls. */
uint32_t core_version(void);

/*
 * Opens a closed engine for the queries of a text.
 * CORE_OK, or CORE_QUERY with the text's first fault, CORE_MEMORY, or CORE_MISUSE where it is open.
 * After all but CORE_OK it is as before.
 */
int32_t core_open(core_engine *engine, const uint8_t *text, size_t len,
                  core_fault *fault, uint8_t *words, size_t room);

/*
 * Feeds one line, which is given without its line feed.
 * CORE_OK: its event was taken, and what was left of the answers before is dropped. CORE_NONE: the line
 * is empty, and is counted. CORE_EVENT: it is refused, and is not counted. CORE_MEMORY. CORE_MISUSE.
 */
int32_t core_feed(core_engine *engine, const uint8_t *line, size_t len,
                  core_fault *fault, uint8_t *words, size_t room);

/*
 * Feeds whole lines of the bytes, up to and with the first event that may have an answer, and tells in
 * `used` how many bytes they are, whatever the status. What was not used is to be given again, with more
 * behind it.
 * CORE_OK: the last event may have an answer. CORE_NONE: no whole line is left. CORE_EVENT: what was not
 * used begins with a line that is refused. CORE_MEMORY. CORE_MISUSE, and `used` is 0.
 */
int32_t core_feed_some(core_engine *engine, const uint8_t *bytes, size_t len, size_t *used,
                       core_fault *fault, uint8_t *words, size_t room);

/*
 * Gives the next answer that ends at the last event, and puts its positions, rising, into the buffer,
 * which has room for so many.
 * CORE_OK: it is given. CORE_ROOM: `count` says how many positions it has, and it is the next one still.
 * CORE_NONE: no answer is left. CORE_MEMORY. CORE_MISUSE.
 */
int32_t core_next(core_engine *engine, core_answer *answer, uint64_t *positions, size_t room);

/*
 * Holds a cursor over all answers of the query with this number, from 1, that end at the last event,
 * whatever ANY says, and tells the cursor's number, which is from 1 and is given once. What it has left
 * stays, whatever is fed and asked, until it has given it or is dropped, or the engine is closed.
 * CORE_OK. CORE_NONE: there is no such query, or no event yet. CORE_ROOM: 64 cursors are held.
 * CORE_MEMORY. CORE_MISUSE.
 */
int32_t core_hold(core_engine *engine, uint64_t query, uint64_t *cursor);

/*
 * Gives the next answer of a held cursor as core_next does; what is left at the last event stays left.
 * CORE_NONE: the cursor has none left, and is held still. CORE_MISUSE: no cursor of this number is held.
 */
int32_t core_pull(core_engine *engine, uint64_t cursor, core_answer *answer,
                  uint64_t *positions, size_t room);

/* Lets a held cursor go, with what it has left. CORE_OK, or CORE_MISUSE where none of this number is held. */
int32_t core_drop(core_engine *engine, uint64_t cursor);

/* Gives up what no window reaches any more; the same answers are left. CORE_OK, CORE_MEMORY, CORE_MISUSE. */
int32_t core_compact(core_engine *engine);

/* Tells what is kept of the query with this number, from 1. CORE_OK, CORE_NONE, CORE_MISUSE. */
int32_t core_sizes(core_engine *engine, uint64_t query, core_sizes_of *sizes);

/* Closes an open engine, and frees its memory. CORE_OK, or CORE_MISUSE where it is closed. */
int32_t core_close(core_engine *engine);

#ifdef __cplusplus
}
#endif

#endif

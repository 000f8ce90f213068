/*
 * Makes the calls that a careful caller does not make, and says what comes of each: closed engines, an
 * open one opened again, texts and lines that are refused, buffers without room.
 */
#include "core.h"

#include <inttypes.h>
#include <stdio.h>
#include <string.h>

static const char *const STATUS[] = {"OK", "NONE", "ROOM", "QUERY", "EVENT", "MEMORY", "MISUSE"};

static core_engine engine;
static core_fault fault;
static core_answer answer;
static core_sizes_of sizes;
static uint64_t positions[8];
static uint8_t words[200];
static size_t room = sizeof words;
static size_t used;
static uint64_t cursor;

static void say(const char *what, int32_t status)
{
    printf("%s: %s\n", what, STATUS[status]);
}

/* What is told of a refusal, and then that no further byte of the buffer was written. */
static void say_fault(void)
{
    size_t told = fault.words < room ? fault.words : room;

    printf("  %" PRIu64 ":%" PRIu64 ", %zu bytes: %.*s", fault.line, fault.column, fault.words, (int)told,
           words);
    if (told < fault.words)
        printf("...\n");
    for (size_t i = told; i < sizeof words; i++)
        if (words[i] != '#')
            printf("  byte %zu was written\n", i);
}

static int32_t open_with(const char *text)
{
    memset(words, '#', sizeof words);
    return core_open(&engine, (const uint8_t *)text, strlen(text), &fault, words, room);
}

static int32_t feed(const char *line)
{
    memset(words, '#', sizeof words);
    return core_feed(&engine, (const uint8_t *)line, strlen(line), &fault, words, room);
}

static int32_t feed_some(const char *bytes)
{
    memset(words, '#', sizeof words);
    return core_feed_some(&engine, (const uint8_t *)bytes, strlen(bytes), &used, &fault, words, room);
}

static void next(size_t places)
{
    int32_t status;

    memset(positions, 0, sizeof positions);
    status = core_next(&engine, &answer, positions, places);
    say("next", status);
    if (status == CORE_OK || status == CORE_ROOM)
        printf("  query %" PRIu64 ", %" PRIu64 " to %" PRIu64 ", %zu positions, the first of them %" PRIu64
               " %" PRIu64 "\n",
               answer.query, answer.start, answer.end, answer.count, positions[0], positions[1]);
}

/* Asks for the next answer, whichever it is, and adds where it starts. */
static void gather(size_t places, uint64_t *starts)
{
    int32_t status = core_next(&engine, &answer, positions, places);

    say("next", status);
    if (status == CORE_OK)
        *starts += answer.start;
}

/* The same of a held cursor. */
static void pull(uint64_t cursor, size_t places, uint64_t *starts)
{
    int32_t status = core_pull(&engine, cursor, &answer, positions, places);

    say("pull", status);
    if (status == CORE_OK)
        *starts += answer.start;
}

static void all_on_closed(void)
{
    say("feed", feed("A,1"));
    say("feed_some", feed_some("A,1\n"));
    printf("  %zu used\n", used);
    next(8);
    say("hold", core_hold(&engine, 1, &cursor));
    pull(1, 8, &answer.start);
    say("drop", core_drop(&engine, 1));
    say("compact", core_compact(&engine));
    say("sizes", core_sizes(&engine, 1, &sizes));
    say("close", core_close(&engine));
}

int main(void)
{
    const char *text = "DECLARE EVENT A(x INT)\nDECLARE EVENT B(x INT)\nDECLARE STREAM S(A, B)\n"
                       "SELECT * FROM S WHERE A ; B\n";
    uint64_t starts = 0;

    printf("version %s\n", core_version() == CORE_VERSION ? "fits" : "does not fit");

    puts("-- closed from the beginning");
    used = 7;
    all_on_closed();

    puts("-- texts that are refused");
    say("open", open_with("DECLARE EVENT A(x INT)\nSELECT * FROM T WHERE A\n"));
    say_fault();
    room = 10;
    say("open", open_with("DECLARE EVENT A(x INT)\nSELECT * FROM T WHERE A\n"));
    say_fault();
    room = 0;
    say("open", open_with("DECLARE EVENT A(x INT)\nSELECT * FROM T WHERE A\n"));
    say_fault();
    room = sizeof words;
    say("close", core_close(&engine));

    puts("-- open, and opened again");
    engine.seed[0] = 12345;
    engine.seed[1] = 67890;
    say("open", open_with(text));
    say("feed", feed("A,1"));
    say("open", open_with(text));
    say("open", open_with("nothing"));

    puts("-- lines");
    next(8);
    say("hold", core_hold(&engine, 2, &cursor));
    say("feed", feed("B,2"));
    say("feed", feed("C,3"));
    say_fault();
    say("feed", feed("A,three"));
    say_fault();
    say("feed", feed("A,1\nB,2"));
    say_fault();
    room = 4;
    say("feed", feed("A"));
    say_fault();
    room = sizeof words;
    say("feed", feed(""));
    say("feed", feed("C,3"));
    say_fault();

    puts("-- an answer, without room and with it");
    next(0);
    next(1);
    next(2);
    next(2);

    puts("-- many lines");
    say("feed_some", feed_some("A,4\nA,5\n\nB,6\nB,7\n"));
    printf("  %zu used\n", used);
    gather(8, &starts);
    gather(8, &starts);
    gather(1, &starts);
    say("compact", core_compact(&engine));
    gather(8, &starts);
    gather(8, &starts);
    printf("  the starts add up to %" PRIu64 "\n", starts);
    say("feed_some", feed_some("A,8\nC,9\nB,10\n"));
    printf("  %zu used\n", used);
    say_fault();
    say("feed_some", feed_some("B,1"));
    printf("  %zu used\n", used);
    say("feed_some", feed_some(""));
    printf("  %zu used\n", used);

    puts("-- a held cursor, over four answers and later lines");
    starts = 0;
    say("feed", feed("B,11"));
    say("hold", core_hold(&engine, 1, &cursor));
    printf("  cursor %" PRIu64 "\n", cursor);
    pull(cursor, 1, &starts);
    pull(cursor, 2, &starts);
    say("feed", feed("A,12"));
    say("compact", core_compact(&engine));
    next(8);
    for (int i = 0; i < 3; i++)
        pull(cursor, 2, &starts);
    pull(cursor, 2, &starts);
    printf("  the starts add up to %" PRIu64 "\n", starts);
    pull(cursor + 1, 2, &starts);
    say("drop", core_drop(&engine, cursor));
    say("drop", core_drop(&engine, cursor));
    pull(cursor, 2, &starts);
    for (int i = 0; i < 64; i++)
        if (core_hold(&engine, 1, &cursor) != CORE_OK)
            printf("  %d was not held\n", i);
    printf("  cursor %" PRIu64 "\n", cursor);
    say("hold", core_hold(&engine, 1, &cursor));
    printf("  cursor %" PRIu64 "\n", cursor);

    puts("-- sizes");
    say("sizes", core_sizes(&engine, 1, &sizes));
    printf("  %" PRIu64 " events, %" PRIu64 " queries\n", sizes.events, sizes.queries);
    say("sizes", core_sizes(&engine, 0, &sizes));
    say("sizes", core_sizes(&engine, 2, &sizes));

    puts("-- closed, and closed again");
    say("close", core_close(&engine));
    all_on_closed();

    puts("-- opened anew");
    say("open", open_with(text));
    say("hold", core_hold(&engine, 1, &cursor));
    say("feed", feed("B,1"));
    next(8);
    say("close", core_close(&engine));
    return 0;
}

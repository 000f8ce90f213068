/*
 * Refuses each allocation of a run in turn, alone and with all after it until a call says so, and makes the
 * call that said it again: each run must come to the same answers and the same refusals.
 *
 * Linked with -Wl,--wrap=malloc,--wrap=realloc.
 */
#include "core.h"

#include <inttypes.h>
#include <stdio.h>
#include <stdlib.h>
#include <string.h>

void *__real_malloc(size_t size);
void *__real_realloc(void *at, size_t size);
void *__wrap_malloc(size_t size);
void *__wrap_realloc(void *at, size_t size);

/* How many allocations are granted before the one that is refused, and whether all after it are too. */
static unsigned long granted;
static bool refusing, all_after;
static unsigned long refused;

static bool grants(void)
{
    if (!refusing)
        return true;
    if (granted > 0) {
        granted--;
        return true;
    }
    refusing = all_after;
    refused++;
    return false;
}

void *__wrap_malloc(size_t size)
{
    return grants() ? __real_malloc(size) : NULL;
}

void *__wrap_realloc(void *at, size_t size)
{
    return grants() ? __real_realloc(at, size) : NULL;
}

static const char TEXT[] =
    "DECLARE EVENT Login(user STRING, country STRING, granted BOOL, at INT)\n"
    "DECLARE EVENT Transfer(user STRING, amount DECIMAL(2), at INT)\n"
    "DECLARE STREAM Bank(Login, Transfer)\n"
    "SELECT * FROM Bank WHERE Login AS missed ; Login AS again ; Login AS entered ; Transfer\n"
    "FILTER missed[granted = FALSE] AND again[granted = FALSE] AND entered[granted = TRUE]\n"
    "AND Transfer[amount >= 1000] PARTITION BY [user] WITHIN 10 MINUTES [at]\n";

/* README's events, with a line that is refused between them. */
static const char EVENTS[] =
    "Login,ann,DE,true,0\nLogin,bob,FR,false,5\nLogin,bob,FR,false,20\nTransfer,ann,19.90,30\n"
    "Login,bob,US,true,65\nTransfer,bob,250.00,80\nLogin,eve,US,false,100\nTransfer,bob,much,110\n"
    "Transfer,bob,4999.00,120\nLogin,eve,US,true,130\nTransfer,eve,3000.00,140\nTransfer,bob,1200.00,700\n";

static core_engine engine;
static core_fault fault;
static uint8_t words[256];
static char log_of_run[1024];

/* Whether the call is to be made again; from then on nothing more is refused. */
static bool again(int32_t status)
{
    if (status == CORE_MEMORY)
        refusing = false;
    return status == CORE_MEMORY;
}

static void note(const char *what, uint64_t number)
{
    size_t len = strlen(log_of_run);

    snprintf(log_of_run + len, sizeof log_of_run - len, "%s %" PRIu64 "\n", what, number);
}

/* The answers at the last event, and once more from a cursor that is held over them. */
static void note_answers(void)
{
    core_answer answer;
    uint64_t positions[8], cursor = 0;
    int32_t status;

    do
        status = core_hold(&engine, 1, &cursor);
    while (again(status));
    while ((status = core_next(&engine, &answer, positions, 8)) != CORE_NONE) {
        if (again(status))
            continue;
        if (status != CORE_OK) {
            note("status", (uint64_t)status);
            return;
        }
        note("answer to", answer.end);
        for (size_t i = 0; i < answer.count; i++)
            note("  marks", positions[i]);
    }
    while ((status = core_pull(&engine, cursor, &answer, positions, 8)) != CORE_NONE) {
        if (again(status))
            continue;
        if (status != CORE_OK) {
            note("held: status", (uint64_t)status);
            return;
        }
        note("held answer to", answer.end);
    }
    core_drop(&engine, cursor);
}

static void run(void)
{
    const uint8_t *at = (const uint8_t *)EVENTS;
    size_t left = sizeof EVENTS - 1, used;
    int32_t status;

    log_of_run[0] = '\0';
    do
        status = core_open(&engine, (const uint8_t *)"SELECT", 6, &fault, words, sizeof words);
    while (again(status));
    note("text: status", (uint64_t)status);
    do
        status = core_open(&engine, (const uint8_t *)TEXT, sizeof TEXT - 1, &fault, words, sizeof words);
    while (again(status));
    note("text: status", (uint64_t)status);
    do {
        status = core_feed_some(&engine, at, left, &used, &fault, words, sizeof words);
        at += used;
        left -= used;
        if (status == CORE_EVENT) {
            const uint8_t *end = memchr(at, '\n', left);

            note("refused: line", fault.line);
            left -= (size_t)(end + 1 - at);
            at = end + 1;
        } else if (!again(status)) {
            note_answers();
        }
    } while (status != CORE_NONE);
    do
        status = core_compact(&engine);
    while (again(status));
    note("compact: status", (uint64_t)status);
    core_close(&engine);
}

int main(void)
{
    char wanted[sizeof log_of_run];
    unsigned long runs = 0, tried = 0;

    run();
    strcpy(wanted, log_of_run);
    fputs(wanted, stdout);
    for (int mode = 0; mode < 2; mode++) {
        for (unsigned long n = 0;; n++) {
            granted = n;
            refusing = true;
            all_after = mode == 1;
            refused = 0;
            run();
            if (refused == 0)
                break;
            runs++;
            tried += refused;
            if (strcmp(log_of_run, wanted) != 0) {
                printf("other answers where allocation %lu was refused:\n%s", n, log_of_run);
                return 1;
            }
        }
    }
    refusing = false;
    printf("%s runs with refusals: the same\n",
           runs > 100 && tried >= runs ? "more than a hundred" : "too few");
    return 0;
}

/*
 * Answers a query text over a file of events, a line an answer, as `core_cli run --order walk` does.
 *
 *     bank QUERIES EVENTS
 */
#include "core.h"

#include <inttypes.h>
#include <stdio.h>
#include <stdlib.h>
#include <string.h>

static core_fault fault;
static uint8_t words[512];

/* All bytes of the file, and a line feed behind them where the last line has none. */
static uint8_t *read_file(const char *path, size_t *len)
{
    FILE *file = fopen(path, "rb");
    size_t room = 4096, got;
    uint8_t *bytes = malloc(room);

    *len = 0;
    if (file == NULL || bytes == NULL) {
        fprintf(stderr, "bank: cannot open %s\n", path);
        exit(2);
    }
    while ((got = fread(bytes + *len, 1, room - 1 - *len, file)) > 0) {
        *len += got;
        if (*len == room - 1) {
            room *= 2;
            bytes = realloc(bytes, room);
            if (bytes == NULL)
                exit(2);
        }
    }
    fclose(file);
    if (*len > 0 && bytes[*len - 1] != '\n')
        bytes[(*len)++] = '\n';
    return bytes;
}

/* Says why the last call did not do what it was asked. */
static void complain(int32_t status)
{
    if (status == CORE_QUERY || status == CORE_EVENT)
        fwrite(words, 1, fault.words < sizeof words ? fault.words : sizeof words, stderr);
    else
        fprintf(stderr, "bank: status %" PRId32 "\n", status);
}

/* Prints the answers that are left; the buffer grows to what an answer needs. */
static int32_t print_answers(core_engine *engine, uint64_t **positions, size_t *room)
{
    core_answer answer;
    int32_t status;

    while ((status = core_next(engine, &answer, *positions, *room)) != CORE_NONE) {
        if (status == CORE_ROOM) {
            uint64_t *more = realloc(*positions, answer.count * sizeof **positions);
            if (more == NULL)
                return CORE_MEMORY;
            *positions = more;
            *room = answer.count;
            continue;
        }
        if (status != CORE_OK)
            return status;
        printf("%" PRIu64 " [%" PRIu64 ",%" PRIu64 "] {", answer.query, answer.start, answer.end);
        for (size_t i = 0; i < answer.count; i++)
            printf("%s%" PRIu64, i == 0 ? "" : ",", (*positions)[i]);
        printf("}\n");
    }
    return CORE_OK;
}

int main(int argc, char **argv)
{
    core_engine engine = {0};
    size_t text_len, len, used, at = 0, room = 1;
    uint64_t *positions = malloc(sizeof *positions);
    int32_t status;

    if (argc != 3 || positions == NULL || core_version() != CORE_VERSION)
        return 2;
    uint8_t *text = read_file(argv[1], &text_len);
    uint8_t *events = read_file(argv[2], &len);

    status = core_open(&engine, text, text_len, &fault, words, sizeof words);
    if (status == CORE_OK) {
        do {
            status = core_feed_some(&engine, events + at, len - at, &used, &fault, words, sizeof words);
            at += used;
            if (status == CORE_OK)
                status = print_answers(&engine, &positions, &room);
        } while (status == CORE_OK);
        core_close(&engine);
    }
    if (status != CORE_NONE)
        complain(status);
    free(text);
    free(events);
    free(positions);
    return status == CORE_NONE ? 0 : 1;
}

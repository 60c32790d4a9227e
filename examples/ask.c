/* ask FILE contains|rank|select|next NUMBER: a question to the file of an optional index, and a reply for people. */
#include <errno.h>
#include <inttypes.h>
#include <stdio.h>
#include <stdlib.h>
#include <string.h>

#include "optional_index.h"

static const char *refusal(uint64_t number)
{
    switch (number) {
    case OPTIONAL_INDEX_ROWS: return "its row count is above the limit";
    case OPTIONAL_INDEX_HEADER: return "it does not begin with a row count";
    case OPTIONAL_INDEX_ENTRIES: return "its block entries are wrong";
    case OPTIONAL_INDEX_LENGTH: return "its length is not what the entries call for";
    case OPTIONAL_INDEX_CONTENT: return "the contents of a block are wrong";
    case OPTIONAL_INDEX_RANK: return "it has no row with that rank";
    default: return "for a reason that this program does not know";
    }
}

/* The whole file, in memory of its own. */
static uint8_t *contents(const char *name, size_t *length)
{
    FILE *file = fopen(name, "rb");
    uint8_t *bytes = NULL;
    size_t room = 0;
    *length = 0;
    while (file && !feof(file) && !ferror(file)) {
        if (*length == room) {
            uint8_t *more = realloc(bytes, room = 2 * room + 4096);
            if (!more) {
                errno = ENOMEM;
                break;
            }
            bytes = more;
        }
        *length += fread(bytes + *length, 1, room - *length, file);
    }
    if (!file || ferror(file) || !feof(file)) {
        fprintf(stderr, "%s: %s\n", name, strerror(errno));
        exit(2);
    }
    fclose(file);
    return bytes;
}

int main(int argc, char **argv)
{
    char *end = "";
    errno = 0;
    unsigned long long number = argc == 4 ? strtoull(argv[3], &end, 10) : 0;
    if (argc != 4 || argv[3][0] < '0' || argv[3][0] > '9' || *end || errno || number > UINT32_MAX) {
        fprintf(stderr, "usage: ask FILE contains|rank|select|next NUMBER\n");
        return 2;
    }
    size_t length;
    uint8_t *bytes = contents(argv[1], &length);
    uint32_t x = (uint32_t)number;
    uint64_t answer;
    const char *says;
    if (!strcmp(argv[2], "contains")) {
        answer = optional_index_contains(bytes, length, x);
        says = answer ? "row %" PRIu32 " is populated\n" : "row %" PRIu32 " is not populated\n";
    } else if (!strcmp(argv[2], "rank")) {
        answer = optional_index_rank(bytes, length, x);
        says = "below row %" PRIu32 ", so many rows are populated: %" PRIu64 "\n";
    } else if (!strcmp(argv[2], "select")) {
        answer = optional_index_select(bytes, length, x);
        says = "with %" PRIu32 " populated rows below it: row %" PRIu64 "\n";
    } else if (!strcmp(argv[2], "next")) {
        answer = optional_index_next(bytes, length, x);
        says = "the first populated row at or after row %" PRIu32 ": %" PRIu64 "\n";
    } else {
        fprintf(stderr, "ask: no such question: %s\n", argv[2]);
        return 2;
    }
    free(bytes);
    if (answer > OPTIONAL_INDEX_NONE) {
        printf("refused: %s (%" PRIu64 ")\n", refusal(answer - OPTIONAL_INDEX_NONE), answer - OPTIONAL_INDEX_NONE);
        return 1;
    }
    if (answer == OPTIONAL_INDEX_NONE)
        printf("no row at or after row %" PRIu32 " is populated\n", x);
    else
        printf(says, x, answer);
    return 0;
}

/* The optional index for C and C++: which rows of a column are populated, asked of the bytes of its file.
 *
 * Each call first checks the whole file, so nothing has to be checked before, and answers one 64-bit number:
 *
 *   below OPTIONAL_INDEX_NONE    the value: 0 or 1, a rank, or a row
 *   OPTIONAL_INDEX_NONE          there is none (next only)
 *   above it                     refused: OPTIONAL_INDEX_NONE plus one of the numbers below
 *
 * The caller owes a valid address for as many bytes as it says, with no writer beside the call. NULL with length 0 is answered like
 * the empty file. Nothing is allocated, kept or written. */
#ifndef OPTIONAL_INDEX_H
#define OPTIONAL_INDEX_H

#include <stddef.h>
#include <stdint.h>

#ifdef __cplusplus
extern "C" {
#endif

#define OPTIONAL_INDEX_NONE UINT64_C(4294967296)

/* Refusals. These calls give 1 and 5 to 9; the others belong to writing, opening and questions over an opened file. */
#define OPTIONAL_INDEX_ROWS 1    /* row count above 4,294,901,760 */
#define OPTIONAL_INDEX_ORDER 2   /* writing: a row is not larger than the one before */
#define OPTIONAL_INDEX_RANGE 3   /* writing: a row is at or past the row count */
#define OPTIONAL_INDEX_ROOM 4    /* an output or a directory is too short */
#define OPTIONAL_INDEX_HEADER 5  /* too short, or the row count does not end in time or is padded */
#define OPTIONAL_INDEX_ENTRIES 6 /* entries overlap the row count, or are not in order, or count more rows than there are */
#define OPTIONAL_INDEX_LENGTH 7  /* data length differs from what the entries call for */
#define OPTIONAL_INDEX_CONTENT 8 /* places not increasing, a row past the row count, a wrong running count or number of bits */
#define OPTIONAL_INDEX_RANK 9    /* select of a rank at or above the number of populated rows */
#define OPTIONAL_INDEX_BROKEN 10 /* record, directory and bytes cannot belong together */

/* 1 if the row is populated, otherwise 0; a row past the end is not. */
uint64_t optional_index_contains(const uint8_t *bytes, size_t length, uint32_t row);

/* The number of populated rows below a row, which is the place of its value if it is populated. */
uint64_t optional_index_rank(const uint8_t *bytes, size_t length, uint32_t row);

/* The populated row with exactly so many populated rows below it. */
uint64_t optional_index_select(const uint8_t *bytes, size_t length, uint32_t rank);

/* The first populated row at or after a row, or none. */
uint64_t optional_index_next(const uint8_t *bytes, size_t length, uint32_t row);

/* The library wants a valid address even for no bytes. */
static inline const uint8_t *optional_index_at(const uint8_t *bytes)
{
    static const uint8_t nothing[1] = {0};
    return bytes ? bytes : nothing;
}

#define optional_index_contains(bytes, length, row) optional_index_contains(optional_index_at(bytes), length, row)
#define optional_index_rank(bytes, length, row) optional_index_rank(optional_index_at(bytes), length, row)
#define optional_index_select(bytes, length, rank) optional_index_select(optional_index_at(bytes), length, rank)
#define optional_index_next(bytes, length, row) optional_index_next(optional_index_at(bytes), length, row)

#ifdef __cplusplus
}
#endif

#endif

/* The C calls against a plain model of the file, on good files and on damaged copies of them. Prints the first differences, and how
 * many files were asked; exits with 1 if there was a difference. */
#include <inttypes.h>
#include <stdio.h>
#include <stdlib.h>
#include <string.h>

#include "optional_index.h"

#define LIMIT 4294901760u

/* ---- the model: a file's rows, or the number of its refusal */

static uint32_t rows[200000];
static size_t n;

static uint32_t u16(const uint8_t *p) { return p[0] | (uint32_t)p[1] << 8; }

static int block(const uint8_t *data, uint32_t count, uint32_t first, uint32_t end)
{
    size_t before = n;
    if (count < 5120) {
        for (uint32_t i = 0; i < count; i++) {
            uint32_t place = u16(data + 2 * i);
            if (place >= end || (i > 0 && place <= u16(data + 2 * i - 2)))
                return 8;
            rows[n++] = first + place;
        }
        return 0;
    }
    for (uint32_t m = 0; m < 1024; m++) {
        if (u16(data + 10 * m + 8) != n - before)
            return 8;
        for (uint32_t p = 0; p < 64; p++)
            if (data[10 * m + p / 8] >> p % 8 & 1) {
                if (64 * m + p >= end)
                    return 8;
                rows[n++] = first + 64 * m + p;
            }
    }
    return n - before == count ? 0 : 8;
}

static int verdict(const uint8_t *f, size_t length)
{
    uint64_t count = 0;
    size_t start = 0;
    n = 0;
    if (length < 3)
        return 5;
    do {
        if (start == 5 || start == length - 2)
            return 5;
        count |= (uint64_t)(f[start] & 127) << 7 * start;
    } while (f[start++] < 128);
    if (start > 1 && f[start - 1] == 128)
        return 5;
    if (count > LIMIT)
        return 1;
    size_t entries = u16(f + length - 2), size = 0;
    if (start + 4 * entries + 2 > length)
        return 6;
    const uint8_t *e = f + length - 2 - 4 * entries;
    int64_t last = -1;
    for (size_t i = 0; i < entries; i++) {
        uint64_t number = u16(e + 4 * i), in = u16(e + 4 * i + 2) + 1;
        if ((int64_t)number <= last || number * 65536 >= count)
            return 6;
        if (in > 65536 || in > count - number * 65536)
            return 6;
        size += in < 5120 ? 2 * in : 10240;
        last = (int64_t)number;
    }
    if (start + size + 4 * entries + 2 != length)
        return 7;
    const uint8_t *data = f + start;
    for (size_t i = 0; i < entries; i++) {
        uint32_t number = u16(e + 4 * i), in = u16(e + 4 * i + 2) + 1;
        uint64_t end = count - (uint64_t)number * 65536;
        if (block(data, in, number * 65536, end < 65536 ? (uint32_t)end : 65536))
            return 8;
        data += in < 5120 ? 2 * in : 10240;
    }
    return 0;
}

/* ---- comparing */

static unsigned long files, differences;

static void same(const char *call, uint32_t x, uint64_t came, uint64_t due, size_t length)
{
    if (came != due && differences++ < 10)
        printf("gateway: %s %" PRIu32 " of file %lu, %zu bytes: %" PRIu64 ", due %" PRIu64 "\n", call, x, files, length, came, due);
}

static void ask(const uint8_t *f, size_t length, uint32_t x)
{
    int fault = verdict(f, length);
    uint64_t refused = OPTIONAL_INDEX_NONE + (uint64_t)fault, rank = 0;
    while (rank < n && rows[rank] < x)
        rank++;
    int in = rank < n && rows[rank] == x;
    same("contains", x, optional_index_contains(f, length, x), fault ? refused : (uint64_t)in, length);
    same("rank", x, optional_index_rank(f, length, x), fault ? refused : rank, length);
    same("next", x, optional_index_next(f, length, x), fault ? refused : rank < n ? rows[rank] : OPTIONAL_INDEX_NONE, length);
    same("select", x, optional_index_select(f, length, x), fault ? refused : x < n ? rows[x] : OPTIONAL_INDEX_NONE + 9, length);
}

/* In memory of its own size, so that a read past the end is seen by a checker of memory. */
static void file(const uint8_t *from, size_t length)
{
    static const uint32_t questions[] = {0, 1, 2, 5, 6, 5119, 5120, 65535, 65536, 131071, 131072, LIMIT - 1, LIMIT, UINT32_MAX};
    uint8_t *f = malloc(length ? length : 1);
    if (!f)
        exit(2);
    memcpy(f, from, length);
    for (size_t i = 0; i < sizeof questions / sizeof *questions; i++)
        ask(f, length, questions[i]);
    free(f);
    files++;
}

/* Every byte changed, or some hundred of a long file; the file cut short, and made longer. */
static void damaged(const uint8_t *good, size_t length)
{
    static uint8_t f[60000];
    size_t step = length < 400 ? 1 : length / 101;
    file(good, length);
    for (size_t i = 0; i < length; i += step)
        for (int k = 0; k < 4; k++) {
            memcpy(f, good, length);
            f[i] = (uint8_t)(k == 0 ? f[i] ^ 1 : k == 1 ? f[i] ^ 128 : k == 2 ? f[i] + 1 : 255);
            file(f, length);
        }
    for (size_t cut = 0; cut < length; cut += step) {
        file(good, cut);
        memcpy(f, good, cut);
        memcpy(f + cut + 1, good + cut, length - cut);
        f[cut] = (uint8_t)cut;
        file(f, length + 1);
    }
}

/* The file of blocks, each of which has every k-th row from one on. */
static size_t make(uint8_t *f, uint32_t count, uint32_t blocks, uint32_t skip, uint32_t every, uint32_t in)
{
    size_t length = 0, entries = 0;
    static uint8_t e[400];
    for (uint32_t left = count;; left /= 128) {
        f[length++] = (uint8_t)(left % 128 + (left < 128 ? 128 : 0));
        if (left < 128)
            break;
    }
    for (uint32_t b = 0; b < blocks; b += skip) {
        uint32_t had = 0;
        static uint8_t bits[65536];
        memset(bits, 0, sizeof bits);
        for (uint32_t p = b; had < in && p < 65536 && (uint64_t)b * 65536 + p < count; p += every, had++)
            bits[p] = 1;
        if (!had)
            continue;
        uint32_t seen = 0;
        for (uint32_t p = 0; p < 65536; p++) {
            if (had < 5120 && bits[p]) {
                f[length++] = (uint8_t)p;
                f[length++] = (uint8_t)(p >> 8);
            }
            if (had >= 5120 && p % 64 == 0) {
                uint32_t ones = 0;
                memset(f + length, 0, 8);
                for (uint32_t q = 0; q < 64; q++)
                    if (bits[p + q])
                        f[length + q / 8] |= (uint8_t)(1 << q % 8), ones++;
                f[length + 8] = (uint8_t)seen;
                f[length + 9] = (uint8_t)(seen >> 8);
                seen += ones;
                length += 10;
            }
        }
        e[4 * entries] = (uint8_t)b;
        e[4 * entries + 1] = (uint8_t)(b >> 8);
        e[4 * entries + 2] = (uint8_t)(had - 1);
        e[4 * entries + 3] = (uint8_t)((had - 1) >> 8);
        entries++;
    }
    memcpy(f + length, e, 4 * entries);
    length += 4 * entries;
    f[length++] = (uint8_t)entries;
    f[length++] = (uint8_t)(entries >> 8);
    return length;
}

int main(void)
{
    static uint8_t f[60000];
    static const uint8_t p2[] = {0x8A, 1, 0, 5, 0, 0, 0, 1, 0, 1, 0}, p10[] = {0x2C, 0x02, 0x80, 0, 0};
    same("P1 bytes", 300, make(f, 300, 0, 1, 1, 1) == 4 && !memcmp(f, "\x2C\x82\0\0", 4), 1, 4);
    same("P5", 5, optional_index_rank(p2, sizeof p2, 5), 1, sizeof p2);
    same("P6", 10, optional_index_rank(p2, sizeof p2, 10), 2, sizeof p2);
    same("P7", 1, optional_index_select(p2, sizeof p2, 1), 5, sizeof p2);
    same("P8", 6, optional_index_next(p2, sizeof p2, 6), OPTIONAL_INDEX_NONE, sizeof p2);
    same("P10", 0, optional_index_rank(p10, sizeof p10, 0), OPTIONAL_INDEX_NONE + 5, sizeof p10);
    same("select 2 on P2", 2, optional_index_select(p2, sizeof p2, 2), OPTIONAL_INDEX_NONE + 9, sizeof p2);
    same("no bytes", 0, optional_index_next(NULL, 0, 0), OPTIONAL_INDEX_NONE + 5, 0);
    damaged(p2, sizeof p2);
    damaged(f, make(f, 300, 0, 1, 1, 1));
    damaged(f, make(f, 65537, 2, 1, 65536, 1));
    damaged(f, make(f, LIMIT, 3, 2, 1000, 7));
    damaged(f, make(f, 200000, 4, 1, 9000, 6));
    damaged(f, make(f, 5119, 1, 1, 1, 5119));
    damaged(f, make(f, 5120, 1, 1, 1, 5120));
    damaged(f, make(f, 65536, 1, 1, 1, 65536));
    damaged(f, make(f, 140000, 3, 1, 3, 6000));
    printf("gateway: %lu files, %lu differences\n", files, differences);
    return differences != 0;
}

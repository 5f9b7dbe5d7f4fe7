/* The six operations as a host written in C sees them.
 *
 *     host PAIRS
 *
 * PAIRS is a file of tests/second/pairs.py. Ends with 1 at the first difference.
 */
#include "razovinto.h"

#include <inttypes.h>
#include <stdio.h>
#include <stdlib.h>
#include <string.h>

typedef uint32_t entry(uint64_t left, uint64_t right, uint8_t *result, size_t length);

/* In the order of the recipe's kinds, from 1 on. */
static const struct { const char *name; entry *call; } entries[] = {
    {"", NULL},
    {"sum", razovinto_sum},
    {"product", razovinto_product},
    {"quotient", razovinto_quotient},
    {"remainder", razovinto_remainder},
    {"power", razovinto_power},
    {"logarithm", razovinto_logarithm},
};
enum { SUM = 1, PRODUCT, QUOTIENT, REMAINDER, POWER, LOGARITHM };

/* What an entry must give: the returned number, and what is written where that is 0. */
struct expected { uint32_t refusal; uint64_t number; uint8_t mark; };

#define GUARD 24
#define LONGEST 64
#define MOST UINT64_MAX

static void fail(const char *what, int kind, uint64_t left, uint64_t right, size_t length, size_t shift)
{
    printf("host: %s of %" PRIu64 " and %" PRIu64 ", %zu bytes lent, %zu off: %s\n", entries[kind].name, left, right,
           length, shift, what);
    exit(1);
}

/* A byte that is there before the call; each place has its own, so that a moved byte is noticed too. */
static uint8_t before(size_t place)
{
    return (uint8_t)(0xA5 ^ (place * 7));
}

/* The byte that must stand at a place of the lent bytes after the call. */
static uint8_t written(struct expected expected, size_t place)
{
    if (place < 8)
        return (uint8_t)(expected.number >> (8 * place));
    return place == 8 ? expected.mark : 0;
}

/* Calls an entry with `length` bytes that begin `shift` bytes off an aligned place, between guard bytes, and looks at
 * the returned number and at every byte. */
static void check(int kind, uint64_t left, uint64_t right, size_t length, size_t shift, struct expected expected)
{
    uint8_t bytes[GUARD + 8 + LONGEST + GUARD];
    size_t start = GUARD + shift, i;
    for (i = 0; i < sizeof bytes; i++)
        bytes[i] = before(i);
    if (entries[kind].call(left, right, bytes + start, length) != expected.refusal)
        fail("not the number that it must return", kind, left, right, length, shift);
    for (i = 0; i < sizeof bytes; i++) {
        int inside = i >= start && i < start + RAZOVINTO_RESULT_SIZE;
        if (expected.refusal == 0 && inside) {
            if (bytes[i] != written(expected, i - start))
                fail("a wrong byte was written", kind, left, right, length, shift);
        } else if (bytes[i] != before(i)) {
            fail("a byte changed that must stay", kind, left, right, length, shift);
        }
    }
    if (expected.refusal == 0 && (razovinto_number(bytes + start) != expected.number
                                  || razovinto_overflowed(bytes + start) != expected.mark))
        fail("the header's own functions read something else", kind, left, right, length, shift);
}

/* Every length from 16 to 40, at every alignment. */
static void check_lengths(int kind, uint64_t left, uint64_t right, struct expected expected)
{
    size_t length, shift;
    for (length = RAZOVINTO_RESULT_SIZE; length <= 40; length++)
        for (shift = 0; shift < 8; shift++)
            check(kind, left, right, length, shift, expected);
}

/* Too few bytes are refused before a divisor 0 or a base below 2, and none of them changes. Each length is also tried
 * with just so many bytes from the heap, so that a tool that watches memory sees a read or write past them. */
static void check_short(int kind, uint64_t left, uint64_t right)
{
    const struct expected too_short = {RAZOVINTO_RESULT_TOO_SHORT, 0, 0};
    size_t length, shift;
    for (length = 0; length < RAZOVINTO_RESULT_SIZE; length++) {
        uint8_t *lent = malloc(length ? length : 1);
        if (lent == NULL)
            fail("no memory for the test", kind, left, right, length, 0);
        memset(lent, 0xA5, length ? length : 1);
        if (entries[kind].call(left, right, lent, length) != RAZOVINTO_RESULT_TOO_SHORT)
            fail("not refused with 19", kind, left, right, length, 0);
        free(lent);
        for (shift = 0; shift < 8; shift++)
            check(kind, left, right, length, shift, too_short);
    }
    if (entries[kind].call(left, right, NULL, 0) != RAZOVINTO_RESULT_TOO_SHORT)
        fail("a null pointer with length 0 is not refused with 19", kind, left, right, 0, 0);
}

/* Sixteen bytes from the heap are enough, and a second result over the first leaves nothing of it. */
static void check_again(int kind, uint64_t left, uint64_t right, struct expected expected)
{
    size_t i;
    uint8_t *lent = malloc(RAZOVINTO_RESULT_SIZE);
    if (lent == NULL || razovinto_sum(MOST, 0, lent, RAZOVINTO_RESULT_SIZE) != 0)
        fail("no result to write over", kind, left, right, RAZOVINTO_RESULT_SIZE, 0);
    if (entries[kind].call(left, right, lent, RAZOVINTO_RESULT_SIZE) != expected.refusal)
        fail("not the number that it must return", kind, left, right, RAZOVINTO_RESULT_SIZE, 0);
    for (i = 0; i < RAZOVINTO_RESULT_SIZE; i++)
        if (lent[i] != (expected.refusal ? (i < 8 ? 0xFF : 0) : written(expected, i)))
            fail("something of an earlier result is left", kind, left, right, RAZOVINTO_RESULT_SIZE, 0);
    free(lent);
}

static void check_limits(void)
{
    static const struct { int kind; uint64_t left, right; struct expected expected; } limits[] = {
        {SUM, 0, 0, {0, 0, 0}},
        {SUM, MOST, 0, {0, MOST, 0}},
        {SUM, MOST - 1, 1, {0, MOST, 0}},
        {SUM, MOST, 1, {0, 0, 1}},
        {SUM, 1, MOST, {0, 0, 1}},
        {SUM, MOST, MOST, {0, 0, 1}},
        {SUM, 0x8000000000000000u, 0x8000000000000000u, {0, 0, 1}},
        {PRODUCT, MOST, 0, {0, 0, 0}},
        {PRODUCT, 0, MOST, {0, 0, 0}},
        {PRODUCT, MOST, 1, {0, MOST, 0}},
        {PRODUCT, 0xFFFFFFFFu, 0x100000001u, {0, MOST, 0}},
        {PRODUCT, 0x100000000u, 0x100000000u, {0, 0, 1}},
        {PRODUCT, MOST, 2, {0, 0, 1}},
        {PRODUCT, MOST, MOST, {0, 0, 1}},
        {QUOTIENT, MOST, 1, {0, MOST, 0}},
        {QUOTIENT, MOST, MOST, {0, 1, 0}},
        {QUOTIENT, MOST - 1, MOST, {0, 0, 0}},
        {QUOTIENT, 7, 2, {0, 3, 0}},
        {QUOTIENT, 0, 5, {0, 0, 0}},
        {QUOTIENT, 7, 0, {RAZOVINTO_DIVISOR_ZERO, 0, 0}},
        {QUOTIENT, 0, 0, {RAZOVINTO_DIVISOR_ZERO, 0, 0}},
        {REMAINDER, MOST, 1, {0, 0, 0}},
        {REMAINDER, MOST, MOST, {0, 0, 0}},
        {REMAINDER, MOST - 1, MOST, {0, MOST - 1, 0}},
        {REMAINDER, 7, 2, {0, 1, 0}},
        {REMAINDER, 7, 0, {RAZOVINTO_DIVISOR_ZERO, 0, 0}},
        {REMAINDER, 0, 0, {RAZOVINTO_DIVISOR_ZERO, 0, 0}},
        {POWER, 0, 0, {0, 1, 0}},
        {POWER, MOST, 0, {0, 1, 0}},
        {POWER, MOST, 1, {0, MOST, 0}},
        {POWER, 0, MOST, {0, 0, 0}},
        {POWER, 1, MOST, {0, 1, 0}},
        {POWER, 2, 63, {0, 0x8000000000000000u, 0}},
        {POWER, 2, 64, {0, 0, 1}},
        {POWER, 2, MOST, {0, 0, 1}},
        {POWER, 3, 40, {0, 12157665459056928801u, 0}},
        {POWER, 3, 41, {0, 0, 1}},
        {POWER, 0xFFFFFFFFu, 2, {0, 0xFFFFFFFE00000001u, 0}},
        {POWER, 0x100000000u, 2, {0, 0, 1}},
        {LOGARITHM, 2, 0, {0, 0, 0}},
        {LOGARITHM, 2, 1, {0, 0, 0}},
        {LOGARITHM, 2, MOST, {0, 63, 0}},
        {LOGARITHM, 3, 12157665459056928801u, {0, 40, 0}},
        {LOGARITHM, 3, 12157665459056928800u, {0, 39, 0}},
        {LOGARITHM, MOST, MOST, {0, 1, 0}},
        {LOGARITHM, MOST, MOST - 1, {0, 0, 0}},
        {LOGARITHM, 1, 5, {RAZOVINTO_BASE_BELOW_TWO, 0, 0}},
        {LOGARITHM, 0, 0, {RAZOVINTO_BASE_BELOW_TWO, 0, 0}},
    };
    size_t i;
    for (i = 0; i < sizeof limits / sizeof *limits; i++) {
        check_lengths(limits[i].kind, limits[i].left, limits[i].right, limits[i].expected);
        check_short(limits[i].kind, limits[i].left, limits[i].right);
        check_again(limits[i].kind, limits[i].left, limits[i].right, limits[i].expected);
    }
    printf("host: %zu calls at the limits, at each length and alignment\n", i);
}

static void check_pairs(const char *path)
{
    long count, i;
    FILE *pairs = fopen(path, "r");
    if (pairs == NULL || fscanf(pairs, "%ld", &count) != 1) {
        printf("host: %s can't be read\n", path);
        exit(1);
    }
    for (i = 0; i < count; i++) {
        int kind;
        uint64_t left, right;
        struct expected expected;
        if (fscanf(pairs, "%d %" SCNx64 " %" SCNx64 " %" SCNu32 " %" SCNx64 " %" SCNu8, &kind, &left, &right,
                   &expected.refusal, &expected.number, &expected.mark) != 6 || kind < SUM || kind > LOGARITHM) {
            printf("host: %s, pair %ld can't be read\n", path, i + 1);
            exit(1);
        }
        check(kind, left, right, RAZOVINTO_RESULT_SIZE + (size_t)(i % 9), (size_t)(i % 8), expected);
    }
    fclose(pairs);
    printf("host: %ld pairs agree\n", count);
}

int main(int count, char **words)
{
    if (count != 2) {
        printf("usage: host PAIRS\n");
        return 2;
    }
    check_limits();
    check_pairs(words[1]);
    return 0;
}

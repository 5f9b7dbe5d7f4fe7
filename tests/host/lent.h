/* Lists as a test lends them to an entry: with guard bytes on both sides, or with nothing around them, so that a tool
 * that watches memory sees a byte too far. A test calls with guards first: where a byte too far is written, it is said.
 */
#ifndef LENT_H
#define LENT_H

#include <stddef.h>
#include <stdint.h>
#include <stdio.h>
#include <stdlib.h>
#include <string.h>

/* How many guard bytes; a multiple of 8, so that lists of 64-bit numbers stay aligned. */
#define GUARD 64

struct lent {
    uint8_t *whole;  /* guard, list and guard */
    uint8_t *before; /* the same bytes as they were before the call */
    size_t guard, size;
};

/* A guard's byte; each place has its own, so that a moved byte is noticed too. */
static inline uint8_t guard_byte(size_t place)
{
    return (uint8_t)(0xA5 ^ (place * 7));
}

/* A list's bytes between two guards of so many bytes each; where `list` is NULL it has bytes like a guard's. An empty
 * list without guards is a null pointer. */
static inline struct lent lend(const void *list, size_t size, size_t guard)
{
    struct lent lent = {NULL, NULL, guard, size};
    size_t i, all = size + 2 * guard;
    if (all == 0)
        return lent;
    lent.whole = malloc(all);
    lent.before = malloc(all);
    if (lent.whole == NULL || lent.before == NULL) {
        fprintf(stderr, "no memory for a list of %zu bytes\n", all);
        exit(2);
    }
    for (i = 0; i < all; i++)
        lent.whole[i] = guard_byte(i);
    if (list != NULL && size != 0)
        memcpy(lent.whole + guard, list, size);
    memcpy(lent.before, lent.whole, all);
    return lent;
}

static inline void *start_of(const struct lent *lent)
{
    return lent->whole == NULL ? NULL : lent->whole + lent->guard;
}

/* Whether all bytes are as they were, but for the first `written` of the list. */
static inline int stayed(const struct lent *lent, size_t written)
{
    size_t past = lent->guard + written, all = lent->size + 2 * lent->guard;
    if (all == 0)
        return 1;
    return memcmp(lent->whole, lent->before, lent->guard) == 0
        && memcmp(lent->whole + past, lent->before + past, all - past) == 0;
}

static inline void take_back(struct lent *lent)
{
    free(lent->whole);
    free(lent->before);
}

#endif

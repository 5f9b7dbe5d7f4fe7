/* Calls of the entries whose answer is a list of numbers, at each length of that list. */
#ifndef CALLS_H
#define CALLS_H

#include "razovinto.h"

#define MOST UINT64_MAX

enum entry { RUN, SHAPE, SCAN, READ, WRITE, SEARCH, LEVEL_SCAN, LEVEL_TO_FIELD };

/* What an entry is given, and what it must give. */
struct call {
    enum entry entry;
    uint64_t width, allowance; /* of a recipe */
    uint32_t first;            /* of a write: the first block's number */
    const uint32_t *readings;  /* of a level: its floats' bits */
    size_t reading_count;
    const uint8_t *bytes; /* a recipe's kinds, a block, a run of blocks, or a level's ground; of a write as below */
    size_t byte_count;
    const uint64_t *numbers; /* of a recipe or a field; where they are written NULL, and only their count is given */
    size_t number_count;
    const uint8_t *marks;
    size_t mark_count;
    size_t extent_count; /* of a level's scan: for how many floats there is room */
    uint32_t refusal;    /* what it must return where the answer's list is long enough */
    const void *answer;  /* the struct that it must write then */
    size_t values;       /* of a read or a level's field: how many values it must write to the two lists, */
    const uint64_t *values_numbers; /* which these are */
    const uint8_t *values_marks;
    size_t written;         /* of a write: how many bytes it must write to the run, */
    const uint8_t *blocks;  /* which these are */
    size_t floats;          /* of a level's scan: how many floats it must write to the extent, */
    const uint32_t *extent; /* whose bits these are */
};

/* Ends the test with 1, saying what failed. */
void fail(const char *what, const char *why);

void expect(int holds, const char *what);

/* Calls an entry with a list for its answer of each length from 0 to two past the need; at those that are enough also
 * with lists of bytes and of floats at each alignment. Looks at what it returns and at every byte of every list. */
void expect_call(const char *what, const struct call *call);

void check_recipes(void);
void check_blocks(void);
void check_levels(void);
void check_rows(void);

#endif

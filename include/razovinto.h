/* Razovinto for hosts written in C and C++: checked arithmetic on numbers of 64 bits, recipes, rows of operations,
 * fields, blocks and levels of raw floats.
 *
 * Every entry takes any input and asks nothing of it: where something is wrong, it returns a refusal's number, and 0
 * otherwise. A lent list is a pointer and a count of elements. An entry keeps nothing from one call to the next, and
 * may be called from several threads, each with lists of its own. A pointer may be null where its count is 0.
 *
 * docs/LINKING.md says what the host must keep.
 */
#ifndef RAZOVINTO_H
#define RAZOVINTO_H

#include <stddef.h>
#include <stdint.h>

#define RAZOVINTO_VERSION "4.5.0"
#define RAZOVINTO_VERSION_MAJOR 4
#define RAZOVINTO_VERSION_MINOR 5
#define RAZOVINTO_VERSION_PATCH 0

/* The refusals. Not every one has an entry here that gives it yet. */
#define RAZOVINTO_DIVISOR_ZERO 1
#define RAZOVINTO_BASE_BELOW_TWO 2
#define RAZOVINTO_OVERFLOWED 3
#define RAZOVINTO_QUOTIENT_TOO_LARGE 4
#define RAZOVINTO_UNKNOWN_WIDTH 5
#define RAZOVINTO_LENGTHS_DIFFER 6
#define RAZOVINTO_ITEM_COUNT 7
#define RAZOVINTO_UNKNOWN_KIND 8
#define RAZOVINTO_LITERAL_TOO_LARGE 9
#define RAZOVINTO_TOO_FEW_ON_HAND 10
#define RAZOVINTO_HAND_FULL 11
#define RAZOVINTO_SEVERAL_LEFT 12
#define RAZOVINTO_NONE_LEFT 13
#define RAZOVINTO_FIELD_EMPTY 14
#define RAZOVINTO_BAD_MARK 15
#define RAZOVINTO_BLOCK_LENGTH 16
#define RAZOVINTO_WRONG_CHECK 17
#define RAZOVINTO_BAD_LAYOUT 18
#define RAZOVINTO_LIST_TOO_SHORT 19
#define RAZOVINTO_ALLOWANCE_SPENT 20
#define RAZOVINTO_BLOCK_NUMBER_TOO_LARGE 21
#define RAZOVINTO_UNUSABLE_READING 22
#define RAZOVINTO_NOT_WHOLE 23
#define RAZOVINTO_OTHER_BLOCK_NUMBER 24

/* The name under which the six operations gave 19 before there were other lists. */
#define RAZOVINTO_RESULT_TOO_SHORT RAZOVINTO_LIST_TOO_SHORT

/* A refusal in words, as `razo` prints them; of 0 that nothing was refused, and of a number that is no refusal that it
 * is none. */
static inline const char *razovinto_refusal_text(uint32_t refusal)
{
    static const char *const texts[] = {
        "not refused",
        "divisor 0",
        "base below 2",
        "overflowed value where a number is needed",
        "signed quotient that doesn't fit",
        "width not 8, 16, 32 or 64",
        "lists that differ in length",
        "recipe of 0 items or above 256, or row of 0 operations or above 4,096",
        "unknown kind, literal in a row, or operation with a number not 0",
        "literal too large for the width",
        "operation with fewer than two values on hand",
        "literal that would be the 33rd on hand",
        "recipe ends with more than one value",
        "recipe ends with no value",
        "field without a value",
        "mark not 0 or 1, or overflowed with a number not 0",
        "the block is not 512 bytes",
        "the check is wrong",
        "the edition, the count, a mark or a byte that must be zero is wrong",
        "list too short for what would be written",
        "allowance spent",
        "block number above 2^32 - 1",
        "reading is NaN or infinite",
        "reading is not a whole number from 0 to 16,777,215",
        "block has another number",
    };
    return refusal < sizeof texts / sizeof texts[0] ? texts[refusal] : "no refusal has this number";
}

#ifdef __cplusplus
extern "C" {
#endif

/* ---- Single operations
 *
 * With 0 an entry has written sixteen bytes to `result`:
 *
 *     bytes 0 to 7     the number, its lowest byte first
 *     byte 8           the mark: 0, the number fits 64 bits; 1, it is overflowed, and bytes 0 to 7 are 0
 *     bytes 9 to 15    0
 *
 * Bytes after these stay as they are. With a refusal all bytes stay as they are. `length` is how many bytes `result`
 * has, which need not be aligned; below 16 it is refused with RAZOVINTO_LIST_TOO_SHORT before anything else.
 */

/* How many bytes an entry writes. */
#define RAZOVINTO_RESULT_SIZE 16

/* left + right; overflowed from 2^64 on. */
uint32_t razovinto_sum(uint64_t left, uint64_t right, uint8_t *result, size_t length);

/* left * right; overflowed from 2^64 on. */
uint32_t razovinto_product(uint64_t left, uint64_t right, uint8_t *result, size_t length);

/* The whole part of left / right; refused with RAZOVINTO_DIVISOR_ZERO. */
uint32_t razovinto_quotient(uint64_t left, uint64_t right, uint8_t *result, size_t length);

/* What left / right leaves, from 0 to right - 1; refused with RAZOVINTO_DIVISOR_ZERO. */
uint32_t razovinto_remainder(uint64_t left, uint64_t right, uint8_t *result, size_t length);

/* base to the power of exponent; overflowed from 2^64 on. Every base to the power of 0 gives 1, the base 0 too. */
uint32_t razovinto_power(uint64_t base, uint64_t exponent, uint8_t *result, size_t length);

/* The largest e for which base to the power of e is at most argument, and 0 for the argument 0; refused with
 * RAZOVINTO_BASE_BELOW_TWO. */
uint32_t razovinto_logarithm(uint64_t base, uint64_t argument, uint8_t *result, size_t length);

/* 1 where base to the power of exponent is at most 2^64 - 1, 0 where it is above; it is not worked out. */
uint32_t razovinto_power_fits(uint64_t base, uint64_t exponent);

/* The truncating quotient of signed numbers, written to result[0]; refused with RAZOVINTO_LIST_TOO_SHORT where `length`
 * is 0, then with RAZOVINTO_DIVISOR_ZERO, then, for the smallest number by -1, with RAZOVINTO_QUOTIENT_TOO_LARGE. With
 * a refusal nothing is written, and nothing ever is past result[0]. */
uint32_t razovinto_signed_quotient(int64_t left, int64_t right, int64_t *result, size_t length);

/* What it leaves: left - right * quotient, and 0 for the smallest number by -1; refused with RAZOVINTO_LIST_TOO_SHORT,
 * then with RAZOVINTO_DIVISOR_ZERO. */
uint32_t razovinto_signed_remainder(int64_t left, int64_t right, int64_t *result, size_t length);

/* ---- Answers of several numbers
 *
 * Such an answer goes to a lent list of 64-bit numbers, for which there is a struct, so that a host reads a name and
 * no index:
 *
 *     struct razovinto_range range;
 *     if (razovinto_scan(numbers, count, marks, count, RAZOVINTO_ANSWER(range)) == 0)
 *         printf("%" PRIu64 "\n", range.least);
 *
 * Too short a list is refused with RAZOVINTO_LIST_TOO_SHORT before anything else, and nothing is written then.
 * Otherwise the whole answer is written, with a refusal too: its place, and 0 for everything else. What the list has
 * past the answer stays.
 */

/* A struct as the two parameters of a lent list. */
#define RAZOVINTO_ANSWER(answer) ((uint64_t *)&(answer)), (sizeof(answer) / sizeof(uint64_t))

/* ---- Recipes
 *
 * A recipe is two lists, kinds and numbers in postfix order. A literal is kind 0 with its number; an operation has the
 * number 0, and takes the two values on hand that come last.
 *
 * A result above the largest number of the width is overflowed, and a recipe goes on with it. Overflowed times 0 is 0. A
 * number by an overflowed right has the quotient 0 and the remainder itself; anything to the power of 0 is 1, and 0 or 1
 * to an overflowed exponent is 0 or 1; a number's logarithm in an overflowed base is 0. All else with an overflowed
 * operand is overflowed, but for an overflowed left of a quotient or a remainder and an overflowed argument of a
 * logarithm, which are refused.
 */

#define RAZOVINTO_LITERAL 0
#define RAZOVINTO_SUM 1
#define RAZOVINTO_PRODUCT 2
#define RAZOVINTO_QUOTIENT 3
#define RAZOVINTO_REMAINDER 4
#define RAZOVINTO_POWER 5
#define RAZOVINTO_LOGARITHM 6

/* The phases of a run. */
#define RAZOVINTO_BETWEEN_ITEMS 0
#define RAZOVINTO_WITHIN_POWER 1
#define RAZOVINTO_WITHIN_LOGARITHM 2

/* How many values may be on hand. */
#define RAZOVINTO_PLACES 32

/* Whether a recipe is well formed. */
struct razovinto_shape {
    uint64_t place; /* of the refusal: the item's index; how many items there are for 12 and 13 */
    uint64_t limit; /* the largest number of the width */
};

/* What a run shows. With 0 `number` is the recipe's value, or `overflowed` is 1. With RAZOVINTO_ALLOWANCE_SPENT it is
 * the state in which the run was stopped; with everything else `done`, `phase`, the phase's numbers and all places
 * are 0. */
struct razovinto_run {
    uint64_t place; /* of the refusal: the item's index; how many items there are for 12 and 13; `done` for 20 */
    uint64_t overflowed;
    uint64_t number;
    uint64_t steps; /* taken */
    uint64_t done;  /* items wholly done */
    uint64_t phase; /* and within a power or a logarithm its numbers, 0 otherwise */
    struct {
        uint64_t first_overflowed, first, second_overflowed, second, exponent;
    } power;
    struct {
        uint64_t base, left, count;
    } logarithm;
    uint8_t on_hand_overflowed[RAZOVINTO_PLACES]; /* the hand, bottom first: its marks, 1 where a place is overflowed */
    uint64_t on_hand[RAZOVINTO_PLACES];           /* and its numbers; an unused place is 0 in both */
};

/* Runs a recipe at a width of 8, 16, 32 or 64 bits, for at most `allowance` steps. Refused with 5 to 13 for its shape,
 * in this order: RAZOVINTO_UNKNOWN_WIDTH, RAZOVINTO_LENGTHS_DIFFER, RAZOVINTO_ITEM_COUNT; item by item
 * RAZOVINTO_UNKNOWN_KIND, then RAZOVINTO_LITERAL_TOO_LARGE and RAZOVINTO_HAND_FULL for a literal, or
 * RAZOVINTO_TOO_FEW_ON_HAND for an operation; RAZOVINTO_SEVERAL_LEFT, RAZOVINTO_NONE_LEFT. Then it runs, and the first
 * item that fails is the answer: RAZOVINTO_OVERFLOWED, RAZOVINTO_DIVISOR_ZERO, RAZOVINTO_BASE_BELOW_TWO; or
 * RAZOVINTO_ALLOWANCE_SPENT. */
uint32_t razovinto_run(uint64_t width, const uint8_t *kinds, size_t kind_count, const uint64_t *numbers,
                       size_t number_count, uint64_t allowance, uint64_t *answer, size_t length);

/* Whether a recipe is well formed at a width; refused as above for its shape. */
uint32_t razovinto_shape(uint64_t width, const uint8_t *kinds, size_t kind_count, const uint64_t *numbers,
                         size_t number_count, uint64_t *answer, size_t length);

/* ---- Rows
 *
 * A row is up to 4,096 single operations in one call. An operation has one of a recipe's kinds, from RAZOVINTO_SUM to
 * RAZOVINTO_LOGARITHM, and two numbers, left and right: of a power base and exponent, of a logarithm base and argument.
 *
 * What operation i comes to is element i of three lists, and equal to what its own entry gives:
 *
 *     numbers[i]    the number
 *     marks[i]      the mark: 0, the number fits 64 bits; 1, it is overflowed, and numbers[i] is 0
 *     codes[i]      0
 *
 * A refused operation has the number 0, the mark 0 and the refusal as its code: RAZOVINTO_UNKNOWN_KIND for any other
 * kind, RAZOVINTO_DIVISOR_ZERO or RAZOVINTO_BASE_BELOW_TWO. The row goes on with the next. What the three lists have
 * past the last operation stays.
 *
 * The row itself is refused for its counts alone, and then nothing is written.
 */

/* How many operations a row may have. */
#define RAZOVINTO_ROW_MOST 4096

/* An operation as the host keeps it. What stands in the seven bytes between `kind` and `left` isn't looked at. */
struct razovinto_operation {
    uint8_t kind;
    uint64_t left;
    uint64_t right;
};

/* A row of plain lists: operation i has kinds[i], lefts[i] and rights[i]. Refused with RAZOVINTO_LENGTHS_DIFFER where
 * these three lists differ in length, then with RAZOVINTO_ITEM_COUNT for 0 operations or above RAZOVINTO_ROW_MOST, then
 * with RAZOVINTO_LIST_TOO_SHORT where one of the lists that are written has fewer elements than the row. */
uint32_t razovinto_row(const uint8_t *kinds, size_t kind_count, const uint64_t *lefts, size_t left_count,
                       const uint64_t *rights, size_t right_count, uint64_t *numbers, size_t number_count,
                       uint8_t *marks, size_t mark_count, uint8_t *codes, size_t code_count);

/* The same row from a list of records, each read where it lies:
 *
 *     struct razovinto_operation operations[] = {{RAZOVINTO_SUM, 270, 11}, {RAZOVINTO_QUOTIENT, 7, 0}};
 *     uint64_t numbers[2];
 *     uint8_t marks[2], codes[2];
 *     if (razovinto_row_of_records(operations, 2, numbers, 2, marks, 2, codes, 2) == 0 && codes[1] != 0)
 *         puts(razovinto_refusal_text(codes[1]));
 *
 * Refused with RAZOVINTO_ITEM_COUNT, RAZOVINTO_LIST_TOO_SHORT. */
uint32_t razovinto_row_of_records(const struct razovinto_operation *operations, size_t operation_count,
                                  uint64_t *numbers, size_t number_count, uint8_t *marks, size_t mark_count,
                                  uint8_t *codes, size_t code_count);

/* ---- Fields
 *
 * A field is two lists, numbers and marks: 0 where the number fits, 1 where it is overflowed, and the number is 0 then.
 */

/* A field's range. */
struct razovinto_range {
    uint64_t place; /* of the refusal: the element's index for 15 and 3, 0 otherwise */
    uint64_t least;
    uint64_t greatest;
    uint64_t width; /* the packing width: the smallest w with greatest - least < 2^w; 0 for one number everywhere */
};

/* The range of a field that has no overflowed place. Refused with RAZOVINTO_LENGTHS_DIFFER, RAZOVINTO_FIELD_EMPTY; then
 * at the earliest place that has a fault with RAZOVINTO_BAD_MARK or RAZOVINTO_OVERFLOWED. */
uint32_t razovinto_scan(const uint64_t *numbers, size_t number_count, const uint8_t *marks, size_t mark_count,
                        uint64_t *answer, size_t length);

/* ---- Blocks
 *
 * A block is 512 bytes with up to 55 values of a field; a run is blocks one after the other.
 */

#define RAZOVINTO_BLOCK_SIZE 512
#define RAZOVINTO_BLOCK_VALUES 55

/* How many bytes a field of `count` values has in blocks. */
#define RAZOVINTO_WRITTEN_SIZE(count) \
    (((size_t)(count) + RAZOVINTO_BLOCK_VALUES - 1) / RAZOVINTO_BLOCK_VALUES * RAZOVINTO_BLOCK_SIZE)

/* What a block's head says. */
struct razovinto_block {
    uint64_t place; /* of the refusal: 0 */
    uint64_t number;
    uint64_t count;
};

/* What a field was written to. */
struct razovinto_written {
    uint64_t place;  /* of the refusal: the element's index for 15, 0 otherwise */
    uint64_t length; /* of the run that was written, in bytes */
};

/* The first overflowed value of a run of blocks. */
struct razovinto_found {
    uint64_t place;    /* of the refusal: the bad block's position */
    uint64_t found;    /* 1, or 0 where no value is overflowed */
    uint64_t position; /* of its block */
    uint64_t within;   /* its place in the block */
};

/* Whether a block is sound: 0, or RAZOVINTO_BLOCK_LENGTH, RAZOVINTO_WRONG_CHECK, RAZOVINTO_BAD_LAYOUT. */
uint32_t razovinto_sound(const uint8_t *block, size_t length);

/* The block's values to numbers[0] to numbers[count - 1] and marks[0] to marks[count - 1]; nothing past them is
 * written. Refused as razovinto_sound, then with RAZOVINTO_LIST_TOO_SHORT where one of the two lists has fewer than
 * count elements; the two lists stay as they are then. */
uint32_t razovinto_read(const uint8_t *block, size_t block_length, uint64_t *numbers, size_t number_count,
                        uint8_t *marks, size_t mark_count, uint64_t *answer, size_t length);

/* A field's blocks to the first bytes of a run, numbered from `first` on; each but the last has 55 values. Nothing past
 * them is written. An overflowed value is written as every other:
 *
 *     uint8_t run[RAZOVINTO_WRITTEN_SIZE(COUNT)];
 *     struct razovinto_written written;
 *     if (razovinto_write(0, numbers, COUNT, marks, COUNT, run, sizeof run, RAZOVINTO_ANSWER(written)) == 0)
 *         fwrite(run, 1, written.length, file);
 *
 * Refused with RAZOVINTO_LENGTHS_DIFFER, RAZOVINTO_FIELD_EMPTY; then with RAZOVINTO_BAD_MARK at the earliest place that
 * has it; then with RAZOVINTO_LIST_TOO_SHORT where the run is shorter than the field's blocks, and last with
 * RAZOVINTO_BLOCK_NUMBER_TOO_LARGE where a block's number would be above 2^32 - 1. The run stays as it is then. */
uint32_t razovinto_write(uint32_t first, const uint64_t *numbers, size_t number_count, const uint8_t *marks,
                         size_t mark_count, uint8_t *run, size_t run_length, uint64_t *answer, size_t length);

/* The first overflowed value of a run of blocks, each block being looked at whole before its marks count. Refused with
 * RAZOVINTO_BLOCK_LENGTH, at place 0, where the run's length is no multiple of 512; or with the first bad block's
 * refusal where no overflowed value comes before it. */
uint32_t razovinto_search(const uint8_t *run, size_t run_length, uint64_t *answer, size_t length);

/* ---- Levels
 *
 * A level is two lists, readings and ground marks: a mark is 0 in air and 1 below ground. A reading is any 32-bit
 * float; NaN and the infinities aren't usable, and readings under the ground count like the others. The order of
 * readings is that of sign and bits, the two zeros being equal.
 */

/* A level's least and greatest reading, each the earliest of those that are equal to it, with its own bits. */
struct razovinto_extent {
    float least;
    float greatest;
};

/* A struct of floats as the two parameters of a lent list. */
#define RAZOVINTO_FLOATS(floats) ((float *)&(floats)), (sizeof(floats) / sizeof(float))

/* Where a level was refused. */
struct razovinto_at {
    uint64_t place; /* of the refusal: the reading's index for 15, 22 and 23, 0 otherwise */
};

/* The least and the greatest reading of a level, to extent[0] and extent[1]:
 *
 *     struct razovinto_extent extent;
 *     struct razovinto_at at;
 *     if (razovinto_level_scan(readings, count, ground, count, RAZOVINTO_FLOATS(extent), RAZOVINTO_ANSWER(at)) == 0)
 *         printf("%g to %g\n", extent.least, extent.greatest);
 *
 * Refused with RAZOVINTO_LIST_TOO_SHORT where `extent` has fewer than two elements, RAZOVINTO_LENGTHS_DIFFER,
 * RAZOVINTO_FIELD_EMPTY; then at the earliest place that has a fault with RAZOVINTO_BAD_MARK or, where the mark is 0 or
 * 1, RAZOVINTO_UNUSABLE_READING. `extent` stays as it is then. */
uint32_t razovinto_level_scan(const float *readings, size_t reading_count, const uint8_t *ground, size_t ground_count,
                              float *extent, size_t extent_count, uint64_t *answer, size_t length);

/* A level turned into a field: the readings' values to numbers[0] to numbers[reading_count - 1], and 0 to as many
 * marks; nothing past them is written. Each reading must be a whole number from 0 to 16,777,215; negative zero gives 0.
 * Refused with RAZOVINTO_LENGTHS_DIFFER, RAZOVINTO_FIELD_EMPTY; then with RAZOVINTO_LIST_TOO_SHORT where one of the two
 * lists has fewer elements than the level; then at the earliest place that has a fault with RAZOVINTO_BAD_MARK,
 * RAZOVINTO_UNUSABLE_READING or RAZOVINTO_NOT_WHOLE, in this order at one place. The two lists stay as they are
 * then. */
uint32_t razovinto_level_to_field(const float *readings, size_t reading_count, const uint8_t *ground,
                                  size_t ground_count, uint64_t *numbers, size_t number_count, uint8_t *marks,
                                  size_t mark_count, uint64_t *answer, size_t length);

#ifdef __cplusplus
}
#endif

/* The number in the sixteen bytes of a result, on a machine of either byte order. */
static inline uint64_t razovinto_number(const uint8_t *result)
{
    uint64_t number = 0;
    int i;
    for (i = 7; i >= 0; i--)
        number = number << 8 | result[i];
    return number;
}

/* Whether the result is overflowed: 1 or 0. */
static inline int razovinto_overflowed(const uint8_t *result)
{
    return result[8];
}

#endif

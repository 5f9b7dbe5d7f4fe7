/* Times the library beside plain C and Rust, and beside an earlier library where one is linked in, in one process on the same
   inputs. Before anything is timed, all of them must give the same answers on these inputs. */
#include "../include/razovinto.h"
#include "plain.h"

#include <math.h>
#include <stdbool.h>
#include <stdio.h>
#include <stdlib.h>
#include <string.h>
#include <time.h>

/* the library, plain C and Rust, an earlier library; for products alone a division, and other forms of halves; for rows alone
   as many single entries, and for records plain lists */
enum { OURS, C, RUST, BEFORE, DIVISION, JOINED, ADDED, WHOLE, CROSSED, COLUMNS, SINGLE, LISTS, SIDES };
enum { ROUNDS = 21, PAIRS = 2048, BLOCKS = 512, VALUES = 55 * BLOCKS, FIELD = 65536, RECIPES = 64, ITEMS = 255 };
enum { ROW = RAZOVINTO_ROW_MOST };

static uint64_t state = 20261115;

/* splitmix64 */
static uint64_t any(void)
{
    uint64_t z = state += UINT64_C(0x9e3779b97f4a7c15);
    z = (z ^ (z >> 30)) * UINT64_C(0xbf58476d1ce4e5b9);
    z = (z ^ (z >> 27)) * UINT64_C(0x94d049bb133111eb);
    return z ^ (z >> 31);
}

/* of any magnitude, as often a short as a long one */
static uint64_t any_magnitude(void)
{
    return any() >> (any() % 64);
}

static double now(void)
{
    struct timespec t;
    clock_gettime(CLOCK_MONOTONIC, &t);
    return (double)t.tv_sec * 1e9 + (double)t.tv_nsec;
}

/* ---- inputs, the same for all */

static uint64_t lefts[PAIRS], rights[PAIRS];
static uint8_t run_of_blocks[BLOCKS * 512];
static uint64_t field_numbers[FIELD];
static uint8_t field_marks[FIELD];
static uint8_t kinds[RECIPES][ITEMS];
static uint64_t numbers[RECIPES][ITEMS];
static float readings[FIELD];
static uint8_t ground[FIELD];
static uint8_t row_kinds[ROW];
static uint64_t row_lefts[ROW], row_rights[ROW];
static struct razovinto_operation row_records[ROW];

static void any_pairs(void)
{
    for (int i = 0; i < PAIRS; i++) {
        lefts[i] = any_magnitude();
        rights[i] = any_magnitude();
    }
}

/* both below 2^32 */
static void low_pairs(void)
{
    for (int i = 0; i < PAIRS; i++) {
        lefts[i] = any() >> (32 + any() % 32);
        rights[i] = any() >> (32 + any() % 32);
    }
}

/* one from 2^32 on, at either side, and one from 1 on, with a product that fits or one that doesn't */
static void wide_pairs(bool fits)
{
    for (int i = 0; i < PAIRS; i++) {
        uint64_t wide = (any() | UINT64_C(1) << 63) >> (any() % 32), largest = UINT64_MAX / wide;
        uint64_t narrow = fits ? 1 + any() % largest : largest + 1 + any() % (UINT32_MAX - largest + 1);
        bool first = any() % 2;
        lefts[i] = first ? wide : narrow;
        rights[i] = first ? narrow : wide;
    }
}

static void fitting_pairs(void)
{
    wide_pairs(true);
}

static void overflowed_pairs(void)
{
    wide_pairs(false);
}

/* both from 2^32 on */
static void high_pairs(void)
{
    for (int i = 0; i < PAIRS; i++) {
        lefts[i] = (any() | UINT64_C(1) << 63) >> (any() % 32);
        rights[i] = (any() | UINT64_C(1) << 63) >> (any() % 32);
    }
}

/* bases and exponents of which about half have a power that fits */
static void power_pairs(void)
{
    for (int i = 0; i < PAIRS; i++) {
        unsigned bits = 1 + any() % 40;
        lefts[i] = any() >> (64 - bits);
        rights[i] = any() % (2 * 64 / bits + 1);
    }
}

static void logarithm_pairs(void)
{
    for (int i = 0; i < PAIRS; i++) {
        lefts[i] = 2 + (any() >> (32 + any() % 32));
        rights[i] = any_magnitude();
    }
}

static void row_element(int i, uint8_t kind, uint64_t left, uint64_t right)
{
    row_kinds[i] = row_records[i].kind = kind;
    row_lefts[i] = row_records[i].left = left;
    row_rights[i] = row_records[i].right = right;
}

static void row_of_sums(void)
{
    for (int i = 0; i < ROW; i++)
        row_element(i, RAZOVINTO_SUM, any_magnitude(), any_magnitude());
}

/* half of the sums are overflowed, at no regular places */
static void row_of_wide_sums(void)
{
    for (int i = 0; i < ROW; i++)
        row_element(i, RAZOVINTO_SUM, any(), any());
}

static void row_of_products(void)
{
    for (int i = 0; i < ROW; i++)
        row_element(i, RAZOVINTO_PRODUCT, any_magnitude(), any_magnitude());
}

/* all six kinds, at no regular places, each with numbers as its own subject has them */
static void row_of_all(void)
{
    for (int i = 0; i < ROW; i++) {
        unsigned bits = 1 + any() % 40;
        uint8_t kind = (uint8_t)(1 + any() % 6);
        if (kind == RAZOVINTO_POWER)
            row_element(i, kind, any() >> (64 - bits), any() % (2 * 64 / bits + 1));
        else if (kind == RAZOVINTO_LOGARITHM)
            row_element(i, kind, 2 + (any() >> (32 + any() % 32)), any_magnitude());
        else
            row_element(i, kind, any_magnitude(), any_magnitude());
    }
}

static void seal(uint8_t *block)
{
    uint32_t check = 0;
    for (uint32_t i = 0; i < 508; i++)
        check += (i + 1) * block[i];
    memcpy(block + 508, &check, 4);
}

/* sound blocks with no overflowed value, each with `count` values */
static void sound_blocks(unsigned count)
{
    for (uint32_t b = 0; b < BLOCKS; b++) {
        uint8_t *block = run_of_blocks + 512 * b;
        memset(block, 0, 512);
        memcpy(block, &b, 4);
        block[4] = (uint8_t)count;
        block[5] = 1;
        for (unsigned i = 0; i < count; i++) {
            uint64_t n = any_magnitude();
            memcpy(block + 8 + 8 * i, &n, 8);
        }
        seal(block);
    }
}

static void full_blocks(void)
{
    sound_blocks(55);
}

static void short_blocks(void)
{
    sound_blocks(1);
}

static void any_field(void)
{
    for (int i = 0; i < FIELD; i++)
        field_numbers[i] = any_magnitude();
    memset(field_marks, 0, sizeof field_marks);
}

/* one value of eight is overflowed, at no regular places */
static void marked_field(void)
{
    any_field();
    for (int i = 0; i < FIELD; i++)
        if (any() % 8 == 0) {
            field_numbers[i] = 0;
            field_marks[i] = 1;
        }
}

/* a level whose readings are as `reading` gives them */
static void level_of(float (*reading)(void))
{
    for (int i = 0; i < FIELD; i++) {
        readings[i] = reading();
        ground[i] = any() % 2;
    }
}

static float any_finite(void)
{
    float x;
    do {
        uint32_t bits = (uint32_t)any();
        memcpy(&x, &bits, 4);
    } while (!isfinite(x));
    return x;
}

static void any_level(void)
{
    level_of(any_finite);
}

static float rain(void)
{
    if (any() % 8 != 0)
        return any() % 2 ? -0.0f : 0.0f;
    return (float)(1 + any() % 4000) / 16;
}

/* seven readings of eight are zeros, of both signs; the others are positive */
static void rain_level(void)
{
    level_of(rain);
}

static float plateau(void)
{
    return any() % 8192 == 0 ? any_finite() : 273.15f;
}

/* all readings are equal but for about eight */
static void plateau_level(void)
{
    level_of(plateau);
}

/* the last reading isn't usable */
static void spoilt_level(void)
{
    any_level();
    readings[FIELD - 1] = NAN;
}

static float any_whole(void)
{
    return (float)(any() % 16777216);
}

static void whole_level(void)
{
    level_of(any_whole);
}

static float small_whole(void)
{
    return (float)(any() % 1001);
}

static void small_level(void)
{
    level_of(small_whole);
}

/* every recipe is a first literal, then a literal and an operation in turn, as `literal` and `kind` give them for the i-th pair */
static void recipes_of(uint64_t first, uint64_t (*literal)(int), uint8_t (*kind)(int))
{
    for (int r = 0; r < RECIPES; r++) {
        memset(numbers[r], 0, sizeof numbers[r]);
        memset(kinds[r], 0, sizeof kinds[r]);
        numbers[r][0] = first;
        for (int i = 0; 2 * i + 2 < ITEMS; i++) {
            numbers[r][2 * i + 1] = literal(i);
            kinds[r][2 * i + 2] = kind(i);
        }
    }
}

/* sums, quotients, remainders and doublings with small numbers */
static uint64_t short_literal(int i)
{
    return i % 8 == 7 ? 2 : 2 + any() % 1000;
}

static uint8_t short_kind(int i)
{
    static const uint8_t in_turn[] = {1, 3, 1, 3, 1, 4, 1, 2};
    return in_turn[i % 8];
}

static void short_items(void)
{
    recipes_of(7, short_literal, short_kind);
}

/* three products and then one by 0, with a sum after each: of the four two are of numbers below 2^32 */
static uint64_t product_literal(int i)
{
    return i % 2 == 1 ? 1 + any() % 1000 : i % 8 == 6 ? 0 : 32768 + any() % 32768;
}

static uint8_t product_kind(int i)
{
    return i % 2 == 0 ? 2 : 1;
}

static void product_items(void)
{
    recipes_of(7, product_literal, product_kind);
}

/* to the power of 3 to 20; what is left of that by 5, 6 or 7; and 2 more */
static uint64_t power_literal(int i)
{
    return i % 3 == 0 ? 3 + any() % 18 : i % 3 == 1 ? 5 + any() % 3 : 2;
}

static uint8_t power_kind(int i)
{
    static const uint8_t in_turn[] = {5, 4, 1};
    return in_turn[i % 3];
}

static void power_items(void)
{
    recipes_of(2, power_literal, power_kind);
}

/* the logarithm of a large number in what is on hand, and 2 more */
static uint64_t logarithm_literal(int i)
{
    return i % 2 == 0 ? any() | UINT64_C(1) << 63 : 2;
}

static uint8_t logarithm_kind(int i)
{
    return i % 2 == 0 ? 6 : 1;
}

static void logarithm_items(void)
{
    recipes_of(2, logarithm_literal, logarithm_kind);
}

/* ---- a pass over all inputs, by one of the sides */

typedef void function(void);
static uint64_t sink;

static void pass_operation(function *f)
{
    operation *entry = (operation *)f;
    uint8_t result[16];
    for (int i = 0; i < PAIRS; i++)
        sink += entry(lefts[i], rights[i], result, sizeof result) + result[0] + result[8];
}

static uint64_t row_numbers[ROW];
static uint8_t row_marks[ROW], row_codes[ROW];

/* a row by single entries, as a host without rows has to do it */
static uint32_t single_row(const uint8_t *kinds, size_t kind_count, const uint64_t *lefts, size_t left_count,
                           const uint64_t *rights, size_t right_count, uint64_t *numbers, size_t number_count, uint8_t *marks,
                           size_t mark_count, uint8_t *codes, size_t code_count)
{
    static operation *const entries[] = {razovinto_sum,       razovinto_product, razovinto_quotient,
                                         razovinto_remainder, razovinto_power,   razovinto_logarithm};
    if (kind_count != left_count || kind_count != right_count)
        return 6;
    if (kind_count == 0 || kind_count > ROW)
        return 7;
    if (number_count < kind_count || mark_count < kind_count || code_count < kind_count)
        return 19;
    for (size_t i = 0; i < kind_count; i++) {
        uint8_t result[16], kind = kinds[i];
        uint32_t refusal = kind < 1 || kind > 6 ? 8 : entries[kind - 1](lefts[i], rights[i], result, sizeof result);
        if (refusal != 0)
            memset(result, 0, 9);
        memcpy(&numbers[i], result, 8); /* faster than razovinto_number, which goes byte by byte */
        marks[i] = result[8];
        codes[i] = (uint8_t)refusal;
    }
    return 0;
}

/* the row of the records' fields, which stand in plain lists too */
static uint32_t row_by_lists(const struct razovinto_operation *operations, size_t operation_count, uint64_t *numbers,
                             size_t number_count, uint8_t *marks, size_t mark_count, uint8_t *codes, size_t code_count)
{
    size_t start = (size_t)(operations - row_records);
    return razovinto_row(row_kinds + start, operation_count, row_lefts + start, operation_count, row_rights + start,
                         operation_count, numbers, number_count, marks, mark_count, codes, code_count);
}

static void pass_row(function *f)
{
    sink += ((rower *)f)(row_kinds, ROW, row_lefts, ROW, row_rights, ROW, row_numbers, ROW, row_marks, ROW, row_codes, ROW);
    sink += row_numbers[0] + row_marks[ROW - 1] + row_codes[ROW / 2];
}

static void pass_records(function *f)
{
    sink += ((record_rower *)f)(row_records, ROW, row_numbers, ROW, row_marks, ROW, row_codes, ROW);
    sink += row_numbers[0] + row_marks[ROW - 1] + row_codes[ROW / 2];
}

static void pass_run(function *f)
{
    runner *entry = (runner *)f;
    struct razovinto_run run;
    for (int r = 0; r < RECIPES; r++)
        sink += entry(64, kinds[r], ITEMS, numbers[r], ITEMS, UINT64_MAX, RAZOVINTO_ANSWER(run)) + run.number + run.steps;
}

/* a recipe of five items again and again, so that the call itself counts */
static void pass_short_run(function *f)
{
    static const uint8_t short_kinds[] = {0, 0, 1, 0, 2};
    static const uint64_t short_numbers[] = {255, 1, 0, 0, 0};
    runner *entry = (runner *)f;
    struct razovinto_run run;
    for (int r = 0; r < RECIPES; r++)
        sink += entry(8, short_kinds, 5, short_numbers, 5, 100, RAZOVINTO_ANSWER(run)) + run.number + run.steps;
}

static void pass_scan(function *f)
{
    scanner *entry = (scanner *)f;
    struct razovinto_range range;
    sink += entry(field_numbers, FIELD, field_marks, FIELD, RAZOVINTO_ANSWER(range));
    sink += range.least + range.greatest + range.width;
}

/* fields of as many values as a block has, one after the other */
static void pass_scan_short(function *f)
{
    scanner *entry = (scanner *)f;
    struct razovinto_range range;
    for (int b = 0; b < BLOCKS; b++) {
        sink += entry(field_numbers + 55 * b, 55, field_marks + 55 * b, 55, RAZOVINTO_ANSWER(range));
        sink += range.least + range.greatest + range.width;
    }
}

static void pass_read(function *f)
{
    reader *entry = (reader *)f;
    struct razovinto_block head;
    uint64_t values[55];
    uint8_t marks[55];
    for (int b = 0; b < BLOCKS; b++) {
        sink += entry(run_of_blocks + 512 * b, 512, values, 55, marks, 55, RAZOVINTO_ANSWER(head));
        sink += head.number + head.count + values[0];
    }
}

/* the values of as many full blocks, in one call */
static void pass_write(function *f)
{
    writer *entry = (writer *)f;
    struct razovinto_written written;
    sink += entry(7, field_numbers, VALUES, field_marks, VALUES, run_of_blocks, sizeof run_of_blocks, RAZOVINTO_ANSWER(written));
    sink += written.length;
}

/* a field of one value, again and again */
static void pass_write_one(function *f)
{
    writer *entry = (writer *)f;
    struct razovinto_written written;
    for (uint32_t b = 0; b < BLOCKS; b++) {
        sink += entry(b, field_numbers + b, 1, field_marks + b, 1, run_of_blocks + 512 * b, 512, RAZOVINTO_ANSWER(written));
        sink += written.length;
    }
}

static void pass_search(function *f)
{
    searcher *entry = (searcher *)f;
    struct razovinto_found found;
    sink += entry(run_of_blocks, sizeof run_of_blocks, RAZOVINTO_ANSWER(found)) + found.found;
}

static void pass_level_scan(function *f)
{
    level_scanner *entry = (level_scanner *)f;
    struct razovinto_extent extent = {0, 0};
    struct razovinto_at at;
    sink += entry(readings, FIELD, ground, FIELD, RAZOVINTO_FLOATS(extent), RAZOVINTO_ANSWER(at));
    sink += at.place + (extent.least < extent.greatest);
}

static void pass_level_to_field(function *f)
{
    turner *entry = (turner *)f;
    struct razovinto_at at;
    sink += entry(readings, FIELD, ground, FIELD, field_numbers, FIELD, field_marks, FIELD, RAZOVINTO_ANSWER(at));
    sink += at.place + field_numbers[FIELD - 1] + field_marks[FIELD - 1];
}

/* ---- all sides must agree */

static void fail(const char *what, int i)
{
    fprintf(stderr, "bench: %s: the answers differ at input %d\n", what, i);
    exit(1);
}

static void same_operation(const char *what, function *f, function *g)
{
    for (int i = 0; i < PAIRS; i++) {
        uint8_t a[16] = {9}, b[16] = {9};
        uint32_t r = ((operation *)f)(lefts[i], rights[i], a, 16), s = ((operation *)g)(lefts[i], rights[i], b, 16);
        if (r != s || memcmp(a, b, 16) != 0)
            fail(what, i);
    }
}

struct row {
    uint64_t numbers[ROW + 2];
    uint8_t marks[ROW + 2], codes[ROW + 2];
};

/* Parts of the row, of these many operations, with a result list too short, just long enough or longer, whose end stays. */
enum { PARTS = 8 * 4 };

static size_t part_of_row(int i, size_t room[3])
{
    static const size_t counts[] = {0, 1, 2, 17, 1000, ROW - 1, ROW, ROW};
    size_t count = counts[i / 4];
    for (int k = 0; k < 3; k++)
        room[k] = i % 4 == 3 ? count + 2 : count - (i % 4 == k && count > 0);
    return count;
}

static void same_row(const char *what, function *f, function *g)
{
    static struct row one, other;
    for (int i = 0; i < 2 * PARTS; i++) {
        size_t room[3], count = part_of_row(i / 2, room), start = any() % (ROW - count + 1);
        size_t rights = count - (i % 2 && i % 3 == 0 && count > 0);
        const uint64_t *l = row_lefts + start, *r = row_rights + start;
        uint8_t *k = row_kinds + start, kept = *k;
        if (i % 2 && count > 0)
            *k = (uint8_t)(i % 3 == 1 ? 0 : 7 + i % 9);
        memset(&one, 9, sizeof one);
        memset(&other, 9, sizeof other);
        uint32_t x = ((rower *)f)(k, count, l, count, r, rights, one.numbers, room[0], one.marks, room[1], one.codes, room[2]);
        uint32_t y = ((rower *)g)(k, count, l, count, r, rights, other.numbers, room[0], other.marks, room[1], other.codes,
                                  room[2]);
        *k = kept;
        if (x != y || memcmp(&one, &other, sizeof one) != 0)
            fail(what, i);
    }
}

static void same_records(const char *what, function *f, function *g)
{
    static struct row one, other;
    for (int i = 0; i < PARTS; i++) {
        size_t room[3], count = part_of_row(i, room), start = any() % (ROW - count + 1);
        const struct razovinto_operation *o = row_records + start;
        memset(&one, 9, sizeof one);
        memset(&other, 9, sizeof other);
        uint32_t x = ((record_rower *)f)(o, count, one.numbers, room[0], one.marks, room[1], one.codes, room[2]);
        uint32_t y = ((record_rower *)g)(o, count, other.numbers, room[0], other.marks, room[1], other.codes, room[2]);
        if (x != y || memcmp(&one, &other, sizeof one) != 0)
            fail(what, i);
    }
}

static void same_run(const char *what, function *f, function *g)
{
    for (int r = 0; r < RECIPES; r++)
        for (uint64_t allowance = 0; allowance < 2000; allowance += 97) {
            uint64_t a[50], b[50], most = allowance == 1940 ? UINT64_MAX : allowance;
            uint32_t x = ((runner *)f)(64, kinds[r], ITEMS, numbers[r], ITEMS, most, a, 50);
            uint32_t y = ((runner *)g)(64, kinds[r], ITEMS, numbers[r], ITEMS, most, b, 50);
            if (x != y || memcmp(a, b, sizeof a) != 0)
                fail(what, r);
        }
}

static void same_scan(const char *what, function *f, function *g)
{
    uint64_t a[4], b[4];
    uint32_t x = ((scanner *)f)(field_numbers, FIELD, field_marks, FIELD, a, 4);
    uint32_t y = ((scanner *)g)(field_numbers, FIELD, field_marks, FIELD, b, 4);
    if (x != y || memcmp(a, b, sizeof a) != 0)
        fail(what, 0);
}

static void same_read(const char *what, function *f, function *g)
{
    for (int i = 0; i < BLOCKS; i++) {
        uint64_t x[55] = {0}, y[55] = {0}, a[3], b[3];
        uint8_t m[55] = {0}, n[55] = {0};
        uint32_t r = ((reader *)f)(run_of_blocks + 512 * i, 512, x, 55, m, 55, a, 3);
        uint32_t s = ((reader *)g)(run_of_blocks + 512 * i, 512, y, 55, n, 55, b, 3);
        if (r != s || memcmp(a, b, sizeof a) != 0 || memcmp(x, y, sizeof x) != 0 || memcmp(m, n, sizeof m) != 0)
            fail(what, i);
    }
}

/* as a call writes it to a run of so many bytes, and what is past them stays */
static uint32_t write_to(function *f, uint8_t *run, size_t room, uint32_t first, size_t count, size_t marks, uint64_t *answer)
{
    memset(run, 9, sizeof run_of_blocks);
    return ((writer *)f)(first, field_numbers, count, field_marks, marks, run, room, answer, 2);
}

/* with room and without, up to the largest block number and past it, with a mark too few and with a bad mark */
static void same_write(const char *what, function *f, function *g)
{
    static const size_t counts[] = {0, 1, 54, 55, 56, 110, 111, VALUES};
    static uint8_t one[sizeof run_of_blocks], other[sizeof run_of_blocks];
    for (int i = 0; i < 8 * 16; i++) {
        size_t count = counts[i / 16], blocks = (count + 54) / 55;
        size_t room = 512 * blocks - (i % 2 && count > 0), marks = count - (i / 8 % 2 && count > 0);
        uint32_t first = i / 2 % 2 ? (uint32_t)(0 - blocks) : (uint32_t)(1 - blocks);
        uint64_t a[2], b[2];
        uint8_t kept = field_marks[count / 2];
        if (i / 4 % 2)
            field_marks[count / 2] = 2;
        uint32_t x = write_to(f, one, room, first, count, marks, a), y = write_to(g, other, room, first, count, marks, b);
        field_marks[count / 2] = kept;
        if (x != y || memcmp(a, b, sizeof a) != 0 || memcmp(one, other, sizeof one) != 0)
            fail(what, i);
    }
}

static void same_search(const char *what, function *f, function *g)
{
    uint64_t a[4], b[4];
    uint32_t x = ((searcher *)f)(run_of_blocks, sizeof run_of_blocks, a, 4);
    uint32_t y = ((searcher *)g)(run_of_blocks, sizeof run_of_blocks, b, 4);
    if (x != y || memcmp(a, b, sizeof a) != 0)
        fail(what, 0);
}

enum { LEVELS = 9 * 13 };
static float odd_readings[FIELD];
static uint8_t odd_ground[FIELD];

/* A part of the level, with as many readings as it gives back. After the first nine parts an odd reading is among them, and at
   times any mark from 0 to 3 at its place or at another. */
static size_t odd_level(int i)
{
    static const size_t counts[] = {0, 1, 2, 17, 4095, 4096, 4097, FIELD - 1, FIELD};
    static const float odd[] = {NAN, -NAN, INFINITY, -INFINITY, -0.0f, 0.5f, -1, 1e-40f, 16777215, 16777216, 4294967296, -3e38f};
    size_t count = counts[i % 9], start = any() % (FIELD - count + 1);
    memcpy(odd_readings, readings + start, count * sizeof *readings);
    memcpy(odd_ground, ground + start, count);
    if (i >= 9 && count > 0) {
        size_t place = any() % count;
        odd_readings[place] = odd[i / 9 - 1];
        if (i % 3 != 0)
            odd_ground[i % 3 == 1 ? place : any() % count] = any() % 4;
    }
    return count;
}

/* with all in order; with a mark too few; and with no room. Every other level has all its signs turned, so that zeros are the
   greatest readings too. */
static void same_level_scan(const char *what, function *f, function *g)
{
    for (int i = 0; i < 3 * LEVELS; i++) {
        size_t count = odd_level(i / 3), marks = count - (i % 3 == 1 && count > 0), room = 2 - (i % 3 == 2);
        for (size_t k = 0; i / 3 % 2 && k < count; k++)
            odd_readings[k] = -odd_readings[k];
        float x[2] = {9, 9}, y[2] = {9, 9};
        uint64_t a[1], b[1];
        uint32_t r = ((level_scanner *)f)(odd_readings, count, odd_ground, marks, x, room, a, 1);
        uint32_t s = ((level_scanner *)g)(odd_readings, count, odd_ground, marks, y, room, b, 1);
        if (r != s || memcmp(a, b, sizeof a) != 0 || memcmp(x, y, sizeof x) != 0)
            fail(what, i);
    }
}

struct field {
    uint64_t numbers[FIELD];
    uint8_t marks[FIELD];
};

/* as a call with so much room writes it, and what is past the level stays */
static uint32_t turn_to(function *f, struct field *field, size_t room, size_t room_for_marks, size_t count, size_t marks,
                        uint64_t *answer)
{
    memset(field, 9, sizeof *field);
    return ((turner *)f)(odd_readings, count, odd_ground, marks, field->numbers, room, field->marks, room_for_marks, answer, 1);
}

/* with all in order; with a mark too few; and with no room for the numbers, or for the marks */
static void same_level_to_field(const char *what, function *f, function *g)
{
    static struct field one, other;
    for (int i = 0; i < 4 * LEVELS; i++) {
        size_t count = odd_level(i / 4), marks = count - (i % 4 == 1 && count > 0);
        size_t room = count - (i % 4 == 2 && count > 0), room_for_marks = count - (i % 4 == 3 && count > 0);
        uint64_t a[1], b[1];
        uint32_t r = turn_to(f, &one, room, room_for_marks, count, marks, a);
        uint32_t s = turn_to(g, &other, room, room_for_marks, count, marks, b);
        if (r != s || memcmp(a, b, sizeof a) != 0 || memcmp(&one, &other, sizeof one) != 0)
            fail(what, i);
    }
}

/* ---- the table */

struct subject {
    const char *name;
    void (*prepare)(void);
    void (*pass)(function *);
    void (*same)(const char *, function *, function *);
    function *side[SIDES];
    const char *unit;
    double units; /* in a pass; 0: the steps of the recipes */
    double wanted_of_c, wanted_of_rust, wanted_of_single, wanted_of_lists; /* 0: nothing is asked */
};

#define SIDE(name) (function *)name
#define LIBRARIES(word) [OURS] = SIDE(razovinto_##word), [BEFORE] = SIDE(before_##word)
#define BESIDE_C(word) {LIBRARIES(word), [C] = SIDE(c_##word)}
#define BESIDE_RUST(word) {LIBRARIES(word), [RUST] = SIDE(rust_##word)}
#define BESIDE_BOTH(word) {LIBRARIES(word), [C] = SIDE(c_##word), [RUST] = SIDE(rust_##word)}
#define PRODUCT                                                                                                                    \
    {LIBRARIES(product),                                                                                                           \
     [C] = SIDE(c_product),                                                                                                        \
     [RUST] = SIDE(rust_product),                                                                                                  \
     [DIVISION] = SIDE(c_divided_product),                                                                                         \
     [JOINED] = SIDE(halves_joined),                                                                                               \
     [ADDED] = SIDE(halves_added),                                                                                                 \
     [WHOLE] = SIDE(halves_whole),                                                                                                 \
     [CROSSED] = SIDE(halves_crossed),                                                                                             \
     [COLUMNS] = SIDE(halves_columns)}

#define ROW_SIDES {LIBRARIES(row), [C] = SIDE(c_row), [SINGLE] = SIDE(single_row)}
#define RECORD_SIDES {LIBRARIES(row_of_records), [C] = SIDE(c_row_of_records), [LISTS] = SIDE(row_by_lists)}

static const struct subject subjects[] = {
    {"sum", any_pairs, pass_operation, same_operation, BESIDE_BOTH(sum), "call", PAIRS, 1.25, 0, 0, 0},
    {"product", any_pairs, pass_operation, same_operation, PRODUCT, "call", PAIRS, 0, 0, 0, 0},
    {"product, below 2^32", low_pairs, pass_operation, same_operation, PRODUCT, "call", PAIRS, 0, 0, 0, 0},
    {"product, one above", fitting_pairs, pass_operation, same_operation, PRODUCT, "call", PAIRS, 0, 0, 0, 0},
    {"product, overflowed", overflowed_pairs, pass_operation, same_operation, PRODUCT, "call", PAIRS, 0, 0, 0, 0},
    {"product, both above", high_pairs, pass_operation, same_operation, PRODUCT, "call", PAIRS, 0, 0, 0, 0},
    {"quotient", any_pairs, pass_operation, same_operation, BESIDE_BOTH(quotient), "call", PAIRS, 1.25, 0, 0, 0},
    {"remainder", any_pairs, pass_operation, same_operation, BESIDE_BOTH(remainder), "call", PAIRS, 0, 0, 0, 0},
    {"power", power_pairs, pass_operation, same_operation, BESIDE_BOTH(power), "call", PAIRS, 1.05, 1, 0, 0},
    {"logarithm", logarithm_pairs, pass_operation, same_operation, BESIDE_BOTH(logarithm), "call", PAIRS, 1.1, 1, 0, 0},
    {"row, sums", row_of_sums, pass_row, same_row, ROW_SIDES, "place", ROW, 0, 0, 0.5, 0},
    {"row, half over", row_of_wide_sums, pass_row, same_row, ROW_SIDES, "place", ROW, 0, 0, 0, 0},
    {"row, products", row_of_products, pass_row, same_row, ROW_SIDES, "place", ROW, 0, 0, 0, 0},
    {"row, mixed", row_of_all, pass_row, same_row, ROW_SIDES, "place", ROW, 1.1, 0, 0, 0},
    {"records, sums", row_of_sums, pass_records, same_records, RECORD_SIDES, "place", ROW, 0, 0, 0, 1.2},
    {"records, half over", row_of_wide_sums, pass_records, same_records, RECORD_SIDES, "place", ROW, 0, 0, 0, 0},
    {"records, products", row_of_products, pass_records, same_records, RECORD_SIDES, "place", ROW, 0, 0, 0, 1.2},
    {"records, mixed", row_of_all, pass_records, same_records, RECORD_SIDES, "place", ROW, 0, 0, 0, 1.2},
    {"runner, five items", short_items, pass_short_run, same_run, BESIDE_C(run), "call", RECIPES, 0, 0, 0, 0},
    {"runner, short items", short_items, pass_run, same_run, BESIDE_C(run), "step", 0, 1.2, 0, 0, 0},
    {"runner, products", product_items, pass_run, same_run, BESIDE_C(run), "step", 0, 1.2, 0, 0, 0},
    {"runner, powers", power_items, pass_run, same_run, BESIDE_C(run), "step", 0, 1.2, 0, 0, 0},
    {"runner, logarithms", logarithm_items, pass_run, same_run, BESIDE_C(run), "step", 0, 1.2, 0, 0, 0},
    {"reader, 55 values", full_blocks, pass_read, same_read, BESIDE_RUST(read), "block", BLOCKS, 0, 0.5, 0, 0},
    {"reader, 1 value", short_blocks, pass_read, same_read, BESIDE_RUST(read), "block", BLOCKS, 0, 0.5, 0, 0},
    {"writer, 55 values", any_field, pass_write, same_write, BESIDE_BOTH(write), "block", BLOCKS, 0, 0.5, 0, 0},
    {"writer, 1 value", any_field, pass_write_one, same_write, BESIDE_BOTH(write), "block", BLOCKS, 0, 0.5, 0, 0},
    {"writer, marked", marked_field, pass_write, same_write, BESIDE_BOTH(write), "block", BLOCKS, 0, 0.5, 0, 0},
    {"search, 55 values", full_blocks, pass_search, same_search, BESIDE_RUST(search), "block", BLOCKS, 0, 0.6, 0, 0},
    {"search, 1 value", short_blocks, pass_search, same_search, BESIDE_RUST(search), "block", BLOCKS, 0, 0.6, 0, 0},
    {"scan", any_field, pass_scan, same_scan, BESIDE_RUST(scan), "value", FIELD, 0, 1.05, 0, 0},
    {"scan, 55 values", any_field, pass_scan_short, same_scan, BESIDE_RUST(scan), "field", BLOCKS, 0, 0, 0, 0},
    {"level scan, any", any_level, pass_level_scan, same_level_scan, BESIDE_BOTH(level_scan), "value", FIELD, 0, 0.8, 0, 0},
    {"level scan, rain", rain_level, pass_level_scan, same_level_scan, BESIDE_BOTH(level_scan), "value", FIELD, 0, 0.8, 0, 0},
    {"level scan, plateau", plateau_level, pass_level_scan, same_level_scan, BESIDE_BOTH(level_scan), "value", FIELD, 0, 0.8, 0, 0},
    {"level scan, NaN last", spoilt_level, pass_level_scan, same_level_scan, BESIDE_BOTH(level_scan), "value", FIELD, 0, 0, 0, 0},
    {"level to field", whole_level, pass_level_to_field, same_level_to_field, BESIDE_BOTH(level_to_field), "value", FIELD, 0, 1.2, 0, 0},
    {"level to field, low", small_level, pass_level_to_field, same_level_to_field, BESIDE_BOTH(level_to_field), "value", FIELD, 0, 1.2, 0, 0},
};

static double steps_of_recipes(void)
{
    double steps = 0;
    for (int r = 0; r < RECIPES; r++) {
        struct razovinto_run run;
        if (c_run(64, kinds[r], ITEMS, numbers[r], ITEMS, UINT64_MAX, RAZOVINTO_ANSWER(run)) != 0)
            fail("a recipe of the benchmark is refused", r);
        steps += (double)run.steps;
    }
    return steps;
}

static int ascending(const void *a, const void *b)
{
    double x = *(const double *)a, y = *(const double *)b;
    return (x > y) - (x < y);
}

/* as many passes as take two thousandths of a second */
static int passes_for(const struct subject *s, function *f)
{
    int passes = 1;
    for (;;) {
        double began = now();
        for (int i = 0; i < passes; i++)
            s->pass(f);
        if (now() - began > 2e6)
            return passes;
        passes *= 2;
    }
}

/* the sides take turns in each round, so that a slow stretch of the machine's meets them all; the middle round counts */
static void measure(const struct subject *s, double middle[SIDES])
{
    static double times[SIDES][ROUNDS];
    int passes = passes_for(s, s->side[OURS]);
    for (int round = 0; round < ROUNDS; round++)
        for (int turn = 0; turn < SIDES; turn++) {
            int side = (round + turn) % SIDES;
            if (s->side[side] == NULL)
                continue;
            double began = now();
            for (int i = 0; i < passes; i++)
                s->pass(s->side[side]);
            times[side][round] = (now() - began) / passes;
        }
    for (int side = 0; side < SIDES; side++) {
        if (s->side[side] == NULL)
            continue;
        qsort(times[side], ROUNDS, sizeof(double), ascending);
        middle[side] = times[side][ROUNDS / 2];
    }
}

/* a line for each subject, for bench/table.py: its name, its unit, nanoseconds a unit of each side (0 where there is none), and
   the ratios to C, Rust, single entries and plain lists that are wanted */
int main(void)
{
    for (size_t i = 0; i < sizeof subjects / sizeof subjects[0]; i++) {
        const struct subject *s = &subjects[i];
        double middle[SIDES] = {0};
        s->prepare();
        for (int side = C; side < SIDES; side++)
            if (s->side[side] != NULL)
                s->same(s->name, s->side[OURS], s->side[side]);
        double units = s->units == 0 ? steps_of_recipes() : s->units;
        measure(s, middle);
        printf("%s|%s", s->name, s->unit);
        for (int side = OURS; side < SIDES; side++)
            printf("|%.4f", middle[side] / units);
        printf("|%g|%g|%g|%g\n", s->wanted_of_c, s->wanted_of_rust, s->wanted_of_single, s->wanted_of_lists);
    }
    return sink == 1;
}

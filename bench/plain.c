/* The six operations and rows of them, the recipe's machine, the block writer and both functions on levels in plain C, for the benchmark alone. */
#include "../include/razovinto.h"
#include "plain.h"

#include <math.h>
#include <stdbool.h>
#include <string.h>

static uint32_t put(uint8_t *result, uint64_t number, bool overflowed)
{
    if (overflowed)
        number = 0;
    memcpy(result, &number, 8);
    result[8] = overflowed;
    memset(result + 9, 0, 7);
    return 0;
}

uint32_t c_sum(uint64_t left, uint64_t right, uint8_t *result, size_t length)
{
    uint64_t n;
    if (length < 16)
        return 19;
    bool overflowed = __builtin_add_overflow(left, right, &n);
    return put(result, n, overflowed);
}

uint32_t c_product(uint64_t left, uint64_t right, uint8_t *result, size_t length)
{
    uint64_t n;
    if (length < 16)
        return 19;
    bool overflowed = __builtin_mul_overflow(left, right, &n);
    return put(result, n, overflowed);
}

/* a compiler that knows the test makes an overflow flag of it: here the quotient is to be there, as one that doesn't know it
   leaves it */
uint32_t c_divided_product(uint64_t left, uint64_t right, uint8_t *result, size_t length)
{
    bool overflowed = false;
    if (length < 16)
        return 19;
    if (left != 0) {
        uint64_t most = UINT64_MAX / left;
        __asm__("" : "+r"(most));
        overflowed = most < right;
    }
    return put(result, left * right, overflowed);
}

uint32_t c_quotient(uint64_t left, uint64_t right, uint8_t *result, size_t length)
{
    if (length < 16)
        return 19;
    if (right == 0)
        return 1;
    return put(result, left / right, false);
}

uint32_t c_remainder(uint64_t left, uint64_t right, uint8_t *result, size_t length)
{
    if (length < 16)
        return 19;
    if (right == 0)
        return 1;
    return put(result, left % right, false);
}

/* whether base to the exponent overflows; otherwise it stands in *power */
static bool power_overflows(uint64_t base, uint64_t exponent, uint64_t *power)
{
    uint64_t first = 1, second = base;
    while (exponent > 1) {
        if (exponent & 1 && __builtin_mul_overflow(first, second, &first))
            return true;
        if (__builtin_mul_overflow(second, second, &second))
            return true;
        exponent >>= 1;
    }
    if (exponent == 1)
        return __builtin_mul_overflow(first, second, power);
    *power = first;
    return false;
}

uint32_t c_power(uint64_t base, uint64_t exponent, uint8_t *result, size_t length)
{
    uint64_t n = 0;
    if (length < 16)
        return 19;
    bool overflowed = power_overflows(base, exponent, &n);
    return put(result, n, overflowed);
}

static uint64_t floor_log(uint64_t base, uint64_t n)
{
    uint64_t power = 1, count = 0;
    while (!__builtin_mul_overflow(power, base, &power) && power <= n)
        count++;
    return count;
}

uint32_t c_logarithm(uint64_t base, uint64_t argument, uint8_t *result, size_t length)
{
    if (length < 16)
        return 19;
    if (base < 2)
        return 2;
    return put(result, floor_log(base, argument), false);
}

/* ---- rows */

/* in line in both loops, as it would be in a program that has one of them */
static inline __attribute__((always_inline)) void put_element(struct razovinto_operation operation, uint64_t *number,
                                                              uint8_t *mark, uint8_t *code)
{
    uint64_t left = operation.left, right = operation.right, n = 0;
    bool overflowed = false;
    uint8_t refusal = 0;
    switch (operation.kind) {
    case RAZOVINTO_SUM:
        overflowed = __builtin_add_overflow(left, right, &n);
        break;
    case RAZOVINTO_PRODUCT:
        overflowed = __builtin_mul_overflow(left, right, &n);
        break;
    case RAZOVINTO_QUOTIENT:
        if (right == 0)
            refusal = 1;
        else
            n = left / right;
        break;
    case RAZOVINTO_REMAINDER:
        if (right == 0)
            refusal = 1;
        else
            n = left % right;
        break;
    case RAZOVINTO_POWER:
        overflowed = power_overflows(left, right, &n);
        break;
    case RAZOVINTO_LOGARITHM:
        if (left < 2)
            refusal = 2;
        else
            n = floor_log(left, right);
        break;
    default:
        refusal = 8;
    }
    *number = overflowed ? 0 : n;
    *mark = overflowed;
    *code = refusal;
}

uint32_t c_row(const uint8_t *kinds, size_t kind_count, const uint64_t *lefts, size_t left_count, const uint64_t *rights,
               size_t right_count, uint64_t *numbers, size_t number_count, uint8_t *marks, size_t mark_count, uint8_t *codes,
               size_t code_count)
{
    if (kind_count != left_count || kind_count != right_count)
        return 6;
    if (kind_count == 0 || kind_count > RAZOVINTO_ROW_MOST)
        return 7;
    if (number_count < kind_count || mark_count < kind_count || code_count < kind_count)
        return 19;
    for (size_t i = 0; i < kind_count; i++)
        put_element((struct razovinto_operation){kinds[i], lefts[i], rights[i]}, &numbers[i], &marks[i], &codes[i]);
    return 0;
}

uint32_t c_row_of_records(const struct razovinto_operation *operations, size_t operation_count, uint64_t *numbers,
                          size_t number_count, uint8_t *marks, size_t mark_count, uint8_t *codes, size_t code_count)
{
    if (operation_count == 0 || operation_count > RAZOVINTO_ROW_MOST)
        return 7;
    if (number_count < operation_count || mark_count < operation_count || code_count < operation_count)
        return 19;
    for (size_t i = 0; i < operation_count; i++)
        put_element(operations[i], &numbers[i], &marks[i], &codes[i]);
    return 0;
}

/* ---- the machine */

struct value {
    bool overflowed;
    uint64_t number;
};

static struct value checked(uint64_t limit, bool overflowed, uint64_t n)
{
    struct value v = {overflowed || n > limit, n};
    if (v.overflowed)
        v.number = 0;
    return v;
}

static struct value sum(uint64_t limit, struct value a, struct value b)
{
    uint64_t n;
    bool overflowed = __builtin_add_overflow(a.number, b.number, &n);
    return checked(limit, overflowed || a.overflowed || b.overflowed, n);
}

static struct value product(uint64_t limit, struct value a, struct value b)
{
    uint64_t n;
    if (a.overflowed || b.overflowed) {
        bool zero = (!a.overflowed && a.number == 0) || (!b.overflowed && b.number == 0);
        struct value v = {!zero, 0};
        return v;
    }
    bool overflowed = __builtin_mul_overflow(a.number, b.number, &n);
    return checked(limit, overflowed, n);
}

static const struct value nothing = {false, 0};

/* an answer without a state: no items done, no place in use */
static uint32_t answer(struct razovinto_run *run, uint32_t code, uint64_t place, struct value v, uint64_t steps)
{
    memset(run, 0, sizeof *run);
    run->place = place;
    run->overflowed = v.overflowed;
    run->number = v.number;
    run->steps = steps;
    return code;
}

/* stopped: 20 with the items done and the hand; who stops within an operation adds its phase */
static uint32_t stopped(struct razovinto_run *run, uint64_t done, uint64_t steps, const struct value *hand, size_t held)
{
    answer(run, 20, done, nothing, steps);
    run->done = done;
    for (size_t i = 0; i < held; i++) {
        run->on_hand_overflowed[i] = hand[i].overflowed;
        run->on_hand[i] = hand[i].number;
    }
    return 20;
}

/* the refusal's number and place, or 0 */
static uint32_t shape(uint64_t width, uint64_t limit, const uint8_t *kinds, size_t kinds_length, const uint64_t *numbers,
                      size_t numbers_length, uint64_t *place)
{
    *place = 0;
    if (width != 8 && width != 16 && width != 32 && width != 64)
        return 5;
    if (kinds_length != numbers_length)
        return 6;
    if (kinds_length == 0 || kinds_length > 256)
        return 7;
    size_t held = 0;
    for (size_t i = 0; i < kinds_length; i++) {
        *place = i;
        if (kinds[i] > 6 || (kinds[i] != 0 && numbers[i] != 0))
            return 8;
        if (kinds[i] == 0) {
            if (numbers[i] > limit)
                return 9;
            if (held == 32)
                return 11;
            held++;
        } else {
            if (held < 2)
                return 10;
            held--;
        }
    }
    *place = kinds_length;
    return held > 1 ? 12 : held == 0 ? 13 : 0;
}

uint32_t c_run(uint64_t width, const uint8_t *kinds, size_t kinds_length, const uint64_t *numbers, size_t numbers_length,
               uint64_t allowance, uint64_t *lent, size_t length)
{
    struct razovinto_run *run = (struct razovinto_run *)lent;
    if (length < sizeof *run / 8)
        return 19;
    uint64_t place, limit = width == 64 ? UINT64_MAX : (UINT64_C(1) << (width & 63)) - 1;
    uint32_t code = shape(width, limit, kinds, kinds_length, numbers, numbers_length, &place);
    if (code != 0)
        return answer(run, code, place, nothing, 0);
    struct value hand[32];
    size_t held = 0;
    uint64_t steps = 0;
    for (size_t i = 0; i < kinds_length; i++) {
        if (steps == allowance)
            return stopped(run, i, steps, hand, held);
        steps++;
        if (kinds[i] == 0) {
            hand[held].overflowed = false;
            hand[held++].number = numbers[i];
            continue;
        }
        struct value r = hand[--held], l = hand[--held], v = nothing;
        if (kinds[i] > 2 && (l.overflowed || r.overflowed))
            return answer(run, 3, i, nothing, steps);
        switch (kinds[i]) {
        case 1:
            v = sum(limit, l, r);
            break;
        case 2:
            v = product(limit, l, r);
            break;
        case 3:
        case 4:
            if (r.number == 0)
                return answer(run, 1, i, nothing, steps);
            v.number = kinds[i] == 3 ? l.number / r.number : l.number % r.number;
            break;
        case 5: {
            struct value second = l;
            uint64_t exponent = r.number;
            v.number = 1;
            while (exponent > 0) {
                if (steps == allowance) {
                    stopped(run, i, steps, hand, held);
                    run->phase = RAZOVINTO_WITHIN_POWER;
                    run->power.first_overflowed = v.overflowed;
                    run->power.first = v.number;
                    run->power.second_overflowed = second.overflowed;
                    run->power.second = second.number;
                    run->power.exponent = exponent;
                    return 20;
                }
                steps++;
                if (exponent & 1)
                    v = product(limit, v, second);
                second = product(limit, second, second);
                exponent >>= 1;
            }
            break;
        }
        default: {
            uint64_t left = r.number;
            if (l.number < 2)
                return answer(run, 2, i, nothing, steps);
            while (left >= l.number) {
                if (steps == allowance) {
                    stopped(run, i, steps, hand, held);
                    run->phase = RAZOVINTO_WITHIN_LOGARITHM;
                    run->logarithm.base = l.number;
                    run->logarithm.left = left;
                    run->logarithm.count = v.number;
                    return 20;
                }
                steps++;
                left /= l.number;
                v.number++;
            }
        }
        }
        hand[held++] = v;
    }
    return answer(run, 0, 0, hand[0], steps);
}

static void lay(uint32_t number, const uint64_t *numbers, const uint8_t *marks, size_t count, uint8_t *block)
{
    memset(block, 0, 512);
    memcpy(block, &number, 4);
    block[4] = (uint8_t)count;
    block[5] = 1;
    memcpy(block + 8, numbers, 8 * count);
    memcpy(block + 448, marks, count);
    uint32_t check = 0;
    for (uint32_t i = 0; i < 508; i++)
        check += (i + 1) * block[i];
    memcpy(block + 508, &check, 4);
}

uint32_t c_write(uint32_t first, const uint64_t *numbers, size_t numbers_length, const uint8_t *marks, size_t marks_length,
                 uint8_t *run, size_t run_length, uint64_t *answer, size_t length)
{
    if (length < 2)
        return 19;
    answer[0] = answer[1] = 0;
    if (numbers_length != marks_length)
        return 6;
    if (numbers_length == 0)
        return 14;
    for (size_t i = 0; i < numbers_length; i++)
        if (marks[i] > 1 || (marks[i] == 1 && numbers[i] != 0)) {
            answer[0] = i;
            return 15;
        }
    size_t blocks = (numbers_length - 1) / 55 + 1;
    if (run_length / 512 < blocks)
        return 19;
    if ((UINT64_C(1) << 32) - first < blocks)
        return 21;
    for (size_t p = 0; p < blocks; p++) {
        size_t left = numbers_length - 55 * p;
        lay(first + (uint32_t)p, numbers + 55 * p, marks + 55 * p, left < 55 ? left : 55, run + 512 * p);
    }
    answer[1] = 512 * blocks;
    return 0;
}

/* ---- levels */

uint32_t c_level_scan(const float *readings, size_t reading_count, const uint8_t *ground, size_t ground_count, float *extent,
                      size_t extent_count, uint64_t *answer, size_t length)
{
    if (length < 1)
        return 19;
    answer[0] = 0;
    if (extent_count < 2)
        return 19;
    if (reading_count != ground_count)
        return 6;
    if (reading_count == 0)
        return 14;
    float least = readings[0], greatest = readings[0];
    for (size_t i = 0; i < reading_count; i++) {
        float x = readings[i];
        if (ground[i] > 1 || !isfinite(x)) {
            answer[0] = i;
            return ground[i] > 1 ? 15 : 22;
        }
        if (x < least)
            least = x;
        if (x > greatest)
            greatest = x;
    }
    extent[0] = least;
    extent[1] = greatest;
    return 0;
}

/* the range comes first: outside it C doesn't say what the integer would be */
static bool whole(float x)
{
    return x >= 0 && x < 16777216 && (float)(uint32_t)x == x;
}

uint32_t c_level_to_field(const float *readings, size_t reading_count, const uint8_t *ground, size_t ground_count,
                          uint64_t *numbers, size_t number_count, uint8_t *marks, size_t mark_count, uint64_t *answer,
                          size_t length)
{
    if (length < 1)
        return 19;
    answer[0] = 0;
    if (reading_count != ground_count)
        return 6;
    if (reading_count == 0)
        return 14;
    if (number_count < reading_count || mark_count < reading_count)
        return 19;
    for (size_t i = 0; i < reading_count; i++)
        if (ground[i] > 1 || !whole(readings[i])) {
            answer[0] = i;
            return ground[i] > 1 ? 15 : !isfinite(readings[i]) ? 22 : 23;
        }
    for (size_t i = 0; i < reading_count; i++) {
        numbers[i] = (uint32_t)readings[i];
        marks[i] = 0;
    }
    return 0;
}

// The header as C++ reads it, included twice as large hosts do.
#include "razovinto.h"
#include "razovinto.h"

#include <cstddef>
#include <cstdint>
#include <cstring>

static bool six()
{
    std::uint8_t result[RAZOVINTO_RESULT_SIZE];
    if (razovinto_product(UINT64_MAX, 2, result, sizeof result) != 0 || !razovinto_overflowed(result))
        return false;
    if (razovinto_quotient(7, 0, result, sizeof result) != RAZOVINTO_DIVISOR_ZERO)
        return false;
    return razovinto_power(3, 4, result, sizeof result) == 0 && razovinto_number(result) == 81;
}

static bool answers()
{
    const std::uint64_t numbers[] = {5, 2, 9};
    const std::uint8_t marks[] = {0, 0, 0};
    razovinto_range range;
    if (razovinto_scan(numbers, 3, marks, 3, RAZOVINTO_ANSWER(range)) != 0 || range.least != 2 || range.greatest != 9)
        return false;
    // A function has the struct's name too, so that C++ wants the word before it.
    struct razovinto_run ran;
    const std::uint8_t kinds[] = {RAZOVINTO_LITERAL, RAZOVINTO_LITERAL, RAZOVINTO_SUM};
    const std::uint64_t items[] = {255, 1, 0};
    return razovinto_run(8, kinds, 3, items, 3, 9, RAZOVINTO_ANSWER(ran)) == 0 && ran.overflowed == 1 && ran.steps == 3;
}

static bool blocks()
{
    const std::uint64_t numbers[] = {5, 0, 9};
    const std::uint8_t marks[] = {0, 1, 0};
    std::uint8_t run[RAZOVINTO_WRITTEN_SIZE(3)];
    razovinto_written written;
    razovinto_found found;
    if (razovinto_write(7, numbers, 3, marks, 3, run, sizeof run, RAZOVINTO_ANSWER(written)) != 0)
        return false;
    if (written.length != sizeof run || written.length != RAZOVINTO_BLOCK_SIZE)
        return false;
    return razovinto_search(run, sizeof run, RAZOVINTO_ANSWER(found)) == 0 && found.found == 1 && found.within == 1;
}

static bool levels()
{
    const float readings[] = {271.5F, -0.0F, 300.0F, 2.5F};
    const std::uint8_t ground[] = {0, 1, 0, 1};
    razovinto_extent extent;
    razovinto_at at;
    std::uint64_t numbers[4];
    std::uint8_t marks[4];
    if (razovinto_level_scan(readings, 4, ground, 4, RAZOVINTO_FLOATS(extent), RAZOVINTO_ANSWER(at)) != 0)
        return false;
    if (std::memcmp(&extent.least, readings + 1, sizeof(float)) != 0 || extent.greatest != readings[2])
        return false;
    if (razovinto_level_to_field(readings + 1, 2, ground, 2, numbers, 4, marks, 4, RAZOVINTO_ANSWER(at)) != 0)
        return false;
    if (numbers[0] != 0 || numbers[1] != 300 || marks[0] != 0 || marks[1] != 0)
        return false;
    return razovinto_level_to_field(readings + 1, 3, ground, 3, numbers, 4, marks, 4, RAZOVINTO_ANSWER(at))
        == RAZOVINTO_NOT_WHOLE && at.place == 2;
}

static_assert(offsetof(razovinto_operation, kind) == 0 && offsetof(razovinto_operation, left) == 8
                  && offsetof(razovinto_operation, right) == 16 && sizeof(razovinto_operation) == 24,
              "an operation lies as the library reads it");

static bool rows()
{
    const razovinto_operation operations[] = {{RAZOVINTO_POWER, 2, 63}, {RAZOVINTO_SUM, UINT64_MAX, 1}, {0, 7, 2}};
    const std::uint8_t kinds[] = {RAZOVINTO_POWER, RAZOVINTO_SUM, RAZOVINTO_LITERAL};
    const std::uint64_t lefts[] = {2, UINT64_MAX, 7}, rights[] = {63, 1, 2};
    std::uint64_t numbers[3], same_numbers[3];
    std::uint8_t marks[3], codes[3], same_marks[3], same_codes[3];
    if (razovinto_row_of_records(operations, 3, numbers, 3, marks, 3, codes, 3) != 0)
        return false;
    if (numbers[0] != UINT64_C(1) << 63 || marks[1] != 1 || codes[2] != RAZOVINTO_UNKNOWN_KIND)
        return false;
    if (razovinto_row(kinds, 3, lefts, 3, rights, 3, same_numbers, 3, same_marks, 3, same_codes, 3) != 0)
        return false;
    if (std::memcmp(numbers, same_numbers, sizeof numbers) != 0 || std::memcmp(marks, same_marks, 3) != 0
        || std::memcmp(codes, same_codes, 3) != 0)
        return false;
    return razovinto_row(kinds, 2, lefts, 3, rights, 3, numbers, 3, marks, 3, codes, 3) == RAZOVINTO_LENGTHS_DIFFER
        && razovinto_row_of_records(operations, 3, numbers, 3, marks, 3, codes, 2) == RAZOVINTO_LIST_TOO_SHORT;
}

int main()
{
    if (std::strcmp(razovinto_refusal_text(RAZOVINTO_OVERFLOWED), "overflowed value where a number is needed") != 0)
        return 1;
    return six() && answers() && blocks() && levels() && rows() ? 0 : 1;
}

/* Levels at their limits. Readings stand here as the bits of floats, so that no NaN and no zero changes on its way. */
#include <fenv.h>

#include "calls.h"
#include "lent.h"

#define ZERO 0u
#define MINUS_ZERO 0x80000000u
#define SIGN 0x80000000u
/* The smallest number above 0, the largest subnormal one, the smallest normal one and the largest. */
#define TINY 1u
#define SUBNORMAL 0x007FFFFFu
#define NORMAL 0x00800000u
#define HUGE_ONE 0x7F7FFFFFu
#define HALF 0x3F000000u
#define ONE 0x3F800000u
#define ONE_AND_A_HALF 0x3FC00000u
#define INFINITE 0x7F800000u
#define NAN_QUIET 0x7FC00000u
#define NAN_SIGNALLING 0x7F800001u
/* 16,777,215 is the last whole number that a field takes, and 8,388,607.5 the last number with a fraction. */
#define LAST_WHOLE 0x4B7FFFFFu
#define PAST_WHOLE 0x4B800000u
#define LAST_FRACTION 0x4AFFFFFFu

/* A level, and the field that it must become. */
enum { LONGEST = 65536 };
static uint32_t readings[LONGEST];
static uint8_t ground[LONGEST];
static uint64_t numbers[LONGEST];
static const uint8_t marks[LONGEST];

/* A level of so many readings that are all the same, in the air. */
static void make_level(size_t count, uint32_t bits)
{
    size_t i;
    for (i = 0; i < count; i++) {
        readings[i] = bits;
        ground[i] = 0;
    }
}

static void set(size_t place, uint32_t bits, uint8_t mark)
{
    readings[place] = bits;
    ground[place] = mark;
}

/* A scan of the level's first readings and marks to an extent of so many floats. */
static void expect_scan(const char *what, size_t reading_count, size_t ground_count, size_t room, uint32_t refusal,
                        uint64_t place, uint32_t least, uint32_t greatest)
{
    const uint32_t extent[] = {least, greatest};
    struct razovinto_at expected = {place};
    struct call call = {.entry = LEVEL_SCAN, .readings = readings, .reading_count = reading_count, .bytes = ground,
                        .byte_count = ground_count, .extent_count = room, .refusal = refusal, .answer = &expected,
                        .floats = refusal == 0 ? 2 : 0, .extent = extent};
    expect_call(what, &call);
}

static void expect_ranged(const char *what, size_t count, uint32_t least, uint32_t greatest)
{
    expect_scan(what, count, count, 2, 0, 0, least, greatest);
}

/* A field of the level's first readings and marks, to lists of so many elements. */
static void expect_turn(const char *what, size_t reading_count, size_t ground_count, size_t room_numbers,
                        size_t room_marks, uint32_t refusal, uint64_t place)
{
    struct razovinto_at expected = {place};
    struct call call = {.entry = LEVEL_TO_FIELD, .readings = readings, .reading_count = reading_count, .bytes = ground,
                        .byte_count = ground_count, .number_count = room_numbers, .mark_count = room_marks,
                        .refusal = refusal, .answer = &expected, .values = refusal == 0 ? reading_count : 0,
                        .values_numbers = numbers, .values_marks = marks};
    expect_call(what, &call);
}

static void expect_turned(const char *what, size_t count)
{
    expect_turn(what, count, count, count, count, 0, 0);
}

/* Neither is given: a fault that the scan and the field have in common. */
static void expect_refused(const char *what, size_t count, uint32_t refusal, uint64_t place)
{
    expect_scan(what, count, count, 2, refusal, place, 0, 0);
    expect_turn(what, count, count, count, count, refusal, place);
}

/* Each number alone is least and greatest, in air and under the ground; with a bad mark it isn't looked at. */
static void check_single_readings(void)
{
    static const uint32_t sizes[] = {ZERO, TINY, SUBNORMAL, NORMAL, HALF, ONE, LAST_FRACTION, LAST_WHOLE, PAST_WHOLE,
                                     HUGE_ONE};
    size_t i;
    for (i = 0; i < 2 * sizeof sizes / sizeof *sizes; i++) {
        uint32_t bits = sizes[i / 2] + (i % 2 ? SIGN : 0);
        set(0, bits, 0);
        expect_ranged("one reading in air", 1, bits, bits);
        set(0, bits, 1);
        expect_ranged("one reading under the ground", 1, bits, bits);
        set(0, bits, 2);
        expect_refused("one reading with a mark of 2", 1, RAZOVINTO_BAD_MARK, 0);
    }
}

static void expect_unusable(uint32_t bits)
{
    size_t place;
    for (place = 0; place < 5; place += 2) {
        make_level(5, ONE);
        set(place, bits, 0);
        expect_refused("an unusable reading in air", 5, RAZOVINTO_UNUSABLE_READING, place);
        set(place, bits, 1);
        expect_refused("an unusable reading under the ground", 5, RAZOVINTO_UNUSABLE_READING, place);
        set(place, bits, 255);
        expect_refused("an unusable reading with a bad mark", 5, RAZOVINTO_BAD_MARK, place);
    }
}

/* Infinities and NaN of both signs: quiet and signalling ones, and each digit of the payload alone. */
static void check_unusable_readings(void)
{
    static const uint32_t some[] = {INFINITE, NAN_QUIET, NAN_SIGNALLING, 0x7FBFFFFFu, 0x7FFFFFFFu, 0x7FC12345u};
    size_t i;
    int digit;
    for (i = 0; i < sizeof some / sizeof *some; i++) {
        expect_unusable(some[i]);
        expect_unusable(some[i] + SIGN);
    }
    for (digit = 0; digit < 23; digit++) {
        expect_unusable(INFINITE + (1u << digit));
        expect_unusable(INFINITE + SIGN + (1u << digit));
    }
}

/* A host may have the processor trap invalid operations, as Fortran's compilers can: an infinity gets its refusal and is none. */
static void check_infinities_are_no_invalid_operation(void)
{
    size_t count;
    for (count = 3; count < 8192; count += 4096) {
        make_level(count, ONE);
        feclearexcept(FE_INVALID);
        set(count - 1, INFINITE, 0);
        expect_refused("an infinity at the end", count, RAZOVINTO_UNUSABLE_READING, count - 1);
        set(1, INFINITE + SIGN, 0);
        expect_refused("an infinity below zero", count, RAZOVINTO_UNUSABLE_READING, 1);
        expect(fetestexcept(FE_INVALID) == 0, "an infinity is no invalid operation");
    }
}

/* The order of sign and bits, whichever way the readings stand; of the two zeros the earlier. */
static void check_order(void)
{
    static const uint32_t in_order[] = {HUGE_ONE + SIGN, ONE + SIGN, NORMAL + SIGN, TINY + SIGN, ZERO,
                                        TINY, NORMAL, ONE, HUGE_ONE};
    size_t i, j;
    for (i = 0; i < sizeof in_order / sizeof *in_order; i++)
        for (j = 0; j < i; j++) {
            set(0, in_order[i], 0);
            set(1, in_order[j], 1);
            expect_ranged("the greater first", 2, in_order[j], in_order[i]);
            set(0, in_order[j], 1);
            set(1, in_order[i], 0);
            expect_ranged("the lesser first", 2, in_order[j], in_order[i]);
        }
    make_level(4, ZERO);
    readings[1] = readings[2] = MINUS_ZERO;
    expect_ranged("0 before -0", 4, ZERO, ZERO);
    readings[0] = MINUS_ZERO;
    readings[2] = ZERO;
    expect_ranged("-0 before 0", 4, MINUS_ZERO, MINUS_ZERO);
    readings[0] = ONE;
    expect_ranged("-0 before 0, and something greater", 4, MINUS_ZERO, ONE);
    readings[0] = ONE + SIGN;
    readings[1] = ZERO;
    readings[2] = MINUS_ZERO;
    expect_ranged("0 before -0, and something less", 4, ONE + SIGN, ZERO);
}

/* Levels of each telling length: what counts at their ends is found, and what is wrong there is refused. */
static void check_lengths(void)
{
    static const size_t lengths[] = {1, 2, 4095, 4096, 4097, LONGEST};
    size_t i, count, last;
    for (i = 0; i < sizeof lengths / sizeof *lengths; i++) {
        count = lengths[i];
        last = count - 1;
        make_level(count, ONE);
        set(last, ONE + SIGN, 1);
        expect_ranged("the least is the last", count, ONE + SIGN, last ? ONE : ONE + SIGN);
        set(last, HUGE_ONE, 0);
        expect_ranged("the greatest is the last", count, last ? ONE : HUGE_ONE, HUGE_ONE);
        set(last, NAN_SIGNALLING, 1);
        expect_refused("NaN is the last", count, RAZOVINTO_UNUSABLE_READING, last);
        set(last, INFINITE, 2);
        expect_refused("the last mark is bad", count, RAZOVINTO_BAD_MARK, last);
    }
    expect_refused("no readings", 0, RAZOVINTO_FIELD_EMPTY, 0);
}

/* The accident of version two: one NaN in a plateau of 65,536 readings under the ground, all others of which are equal,
 * is named by its place. */
static void check_plateau(void)
{
    static const size_t places[] = {0, 4095, 4096, 40000, LONGEST - 1};
    size_t i;
    for (i = 0; i < LONGEST; i++)
        set(i, 0x43811000u, 1); /* 258.125 */
    expect_ranged("a plateau", LONGEST, 0x43811000u, 0x43811000u);
    for (i = 0; i < sizeof places / sizeof *places; i++) {
        set(places[i], NAN_QUIET, 1);
        expect_scan("one NaN in a plateau", LONGEST, LONGEST, 2, RAZOVINTO_UNUSABLE_READING, places[i], 0, 0);
        set(places[i], 0x43811000u, 1);
    }
}

/* An extent of no or one float is refused before the level is looked at; what a longer one has past two stays. */
static void check_extents(void)
{
    size_t room;
    make_level(3, ONE);
    set(1, HALF, 1);
    for (room = 2; room < 6; room++)
        expect_scan("an extent of enough floats", 3, 3, room, 0, 0, HALF, ONE);
    set(2, NAN_QUIET, 2);
    for (room = 0; room < 2; room++) {
        expect_scan("too short an extent", 2, 2, room, RAZOVINTO_LIST_TOO_SHORT, 0, 0, 0);
        expect_scan("too short an extent, and a fault", 3, 3, room, RAZOVINTO_LIST_TOO_SHORT, 0, 0, 0);
        expect_scan("too short an extent, and a mark too few", 3, 2, room, RAZOVINTO_LIST_TOO_SHORT, 0, 0, 0);
        expect_scan("too short an extent, and no readings", 0, 0, room, RAZOVINTO_LIST_TOO_SHORT, 0, 0, 0);
    }
}

static void check_lists(void)
{
    make_level(6, NAN_QUIET);
    ground[0] = 2;
    expect_scan("a mark too few", 6, 5, 2, RAZOVINTO_LENGTHS_DIFFER, 0, 0, 0);
    expect_scan("a mark too many", 5, 6, 2, RAZOVINTO_LENGTHS_DIFFER, 0, 0, 0);
    expect_scan("no readings but marks", 0, 6, 2, RAZOVINTO_LENGTHS_DIFFER, 0, 0, 0);
    expect_turn("a mark too few to turn", 6, 5, 0, 0, RAZOVINTO_LENGTHS_DIFFER, 0);
    expect_turn("a mark too many to turn", 5, 6, 6, 6, RAZOVINTO_LENGTHS_DIFFER, 0);
    expect_turn("no marks but readings", 6, 0, 6, 6, RAZOVINTO_LENGTHS_DIFFER, 0);
    expect_turn("nothing to turn", 0, 0, 3, 3, RAZOVINTO_FIELD_EMPTY, 0);
    expect_turn("nothing to turn, and no room", 0, 0, 0, 0, RAZOVINTO_FIELD_EMPTY, 0);
}

/* Too little room comes before what is wrong at a place; what the lists have past the level stays. */
static void check_rooms(void)
{
    static const size_t lengths[] = {1, 5, 4095, 4096, 4097, LONGEST};
    size_t i, j, count;
    for (i = 0; i < sizeof lengths / sizeof *lengths; i++) {
        count = lengths[i];
        make_level(count, ZERO);
        for (j = 0; j < count; j++) {
            readings[j] = j % 2 ? ONE : MINUS_ZERO;
            numbers[j] = j % 2;
        }
        set(count - 1, LAST_WHOLE, 1);
        numbers[count - 1] = 16777215;
        expect_turned("just as much room", count);
        expect_turn("more room", count, count, count + 3, count + 1, 0, 0);
        expect_turn("a number too few", count, count, count - 1, count, RAZOVINTO_LIST_TOO_SHORT, 0);
        expect_turn("room for a mark too few", count, count, count, count - 1, RAZOVINTO_LIST_TOO_SHORT, 0);
        set(0, NAN_QUIET, 2);
        expect_turn("no room, and a fault", count, count, 0, 0, RAZOVINTO_LIST_TOO_SHORT, 0);
        expect_turn("room, and a fault", count, count, count, count, RAZOVINTO_BAD_MARK, 0);
    }
}

static void check_whole_numbers(void)
{
    static const struct { uint32_t bits; uint64_t number; } whole[] = {
        {ZERO, 0}, {MINUS_ZERO, 0}, {ONE, 1}, {0x40000000u, 2}, {0x40400000u, 3}, {0x437F0000u, 255},
        {0x4AFFFFFEu, 8388607}, {0x4B000000u, 8388608}, {0x4B000001u, 8388609}, {0x4B7FFFFEu, 16777214},
        {LAST_WHOLE, 16777215},
    };
    static const uint32_t others[] = {
        PAST_WHOLE, PAST_WHOLE + 1, HALF, ONE - 1, ONE + 1, ONE_AND_A_HALF, LAST_FRACTION, 0x4A800001u, TINY, SUBNORMAL,
        NORMAL, TINY + SIGN, HALF + SIGN, ONE + SIGN, LAST_WHOLE + SIGN, PAST_WHOLE + SIGN, 0x4F800000u, 0x5F800000u,
        HUGE_ONE, HUGE_ONE + SIGN,
    };
    size_t i, count = sizeof whole / sizeof *whole;
    for (i = 0; i < count; i++) {
        set(i, whole[i].bits, i % 2);
        numbers[i] = whole[i].number;
    }
    expect_turned("whole numbers", count);
    for (i = 0; i < count; i++) {
        set(0, whole[i].bits, 0);
        numbers[0] = whole[i].number;
        expect_turned("one whole number", 1);
    }
    for (i = 0; i < sizeof others / sizeof *others; i++) {
        make_level(3, LAST_WHOLE);
        set(i % 3, others[i], i % 2);
        expect_turn("not a whole number from 0 to 16,777,215", 3, 3, 3, 3, RAZOVINTO_NOT_WHOLE, i % 3);
        ground[i % 3] = 2;
        expect_turn("the same with a bad mark", 3, 3, 3, 3, RAZOVINTO_BAD_MARK, i % 3);
    }
}

/* Of several faults the earliest, whichever it is. */
static void check_earliest(void)
{
    make_level(9, ONE);
    set(7, ONE, 2);
    expect_refused("a bad mark", 9, RAZOVINTO_BAD_MARK, 7);
    set(5, INFINITE + SIGN, 0);
    expect_refused("an infinity before it", 9, RAZOVINTO_UNUSABLE_READING, 5);
    set(3, HALF, 1);
    expect_scan("a half before them, which a scan takes", 9, 9, 2, RAZOVINTO_UNUSABLE_READING, 5, 0, 0);
    expect_turn("a half before them", 9, 9, 9, 9, RAZOVINTO_NOT_WHOLE, 3);
    set(2, ONE, 255);
    expect_refused("a bad mark before them", 9, RAZOVINTO_BAD_MARK, 2);
    set(0, NAN_SIGNALLING, 1);
    expect_refused("NaN before them", 9, RAZOVINTO_UNUSABLE_READING, 0);
}

/* What a host sees that doesn't set its lists before the call, as most don't: a tool that watches memory would say
 * where an entry looked at what they have. */
static void check_lists_that_nobody_set(void)
{
    static const float level[] = {3.0F, 16777215.0F, 0.0F}, wrong[] = {3.0F, 2.5F, 0.0F};
    static const uint8_t air[] = {0, 1, 0};
    struct razovinto_extent extent;
    struct razovinto_at at;
    uint64_t *own_numbers = malloc(4 * sizeof *own_numbers);
    uint8_t *own_marks = malloc(4);
    if (own_numbers == NULL || own_marks == NULL)
        fail("two lists", "no memory for them");
    expect(razovinto_level_scan(level, 3, air, 3, RAZOVINTO_FLOATS(extent), RAZOVINTO_ANSWER(at)) == 0
               && extent.least == level[2] && extent.greatest == level[1] && at.place == 0, "a level's extent");
    expect(razovinto_level_to_field(wrong, 3, air, 3, own_numbers, 4, own_marks, 4, RAZOVINTO_ANSWER(at))
               == RAZOVINTO_NOT_WHOLE && at.place == 1, "a level with a fraction");
    expect(razovinto_level_to_field(level, 3, air, 3, own_numbers, 4, own_marks, 4, RAZOVINTO_ANSWER(at)) == 0
               && own_numbers[0] == 3 && own_numbers[1] == 16777215 && own_numbers[2] == 0 && own_marks[0] == 0
               && own_marks[1] == 0 && own_marks[2] == 0, "a level's field");
    free(own_numbers);
    free(own_marks);
}

/* A level's field has its numbers, and its range the level's extent. */
static void check_round_trip(void)
{
    enum { COUNT = 5000 };
    static float level[COUNT];
    static uint64_t field[COUNT];
    static uint8_t field_marks[COUNT];
    struct razovinto_extent extent;
    struct razovinto_range range;
    struct razovinto_at at;
    size_t i;
    make_level(COUNT, ZERO);
    for (i = 0; i < COUNT; i++)
        level[i] = (float)((i * 7919 + 11) % 16777216);
    expect(razovinto_level_to_field(level, COUNT, ground, COUNT, field, COUNT, field_marks, COUNT,
                                    RAZOVINTO_ANSWER(at)) == 0, "a level is turned");
    for (i = 0; i < COUNT; i++)
        expect((float)field[i] == level[i] && field_marks[i] == 0, "each number is its reading");
    expect(razovinto_level_scan(level, COUNT, ground, COUNT, RAZOVINTO_FLOATS(extent), RAZOVINTO_ANSWER(at)) == 0
               && razovinto_scan(field, COUNT, field_marks, COUNT, RAZOVINTO_ANSWER(range)) == 0
               && extent.least == (float)range.least && extent.greatest == (float)range.greatest,
           "the field's range is the level's extent");
}

static void check_null(void)
{
    const float one = 1.0F;
    const uint8_t air = 0;
    float extent[2];
    uint64_t answer[1] = {9};
    expect(razovinto_level_scan(NULL, 0, NULL, 0, extent, 2, answer, 1) == RAZOVINTO_FIELD_EMPTY && answer[0] == 0,
           "a scan of a level of null lists");
    expect(razovinto_level_scan(NULL, 0, &air, 1, extent, 2, answer, 1) == RAZOVINTO_LENGTHS_DIFFER,
           "a scan without readings");
    expect(razovinto_level_scan(&one, 1, NULL, 0, extent, 2, answer, 1) == RAZOVINTO_LENGTHS_DIFFER,
           "a scan without marks");
    answer[0] = 9;
    expect(razovinto_level_scan(&one, 1, &air, 1, NULL, 0, answer, 1) == RAZOVINTO_LIST_TOO_SHORT && answer[0] == 0,
           "a scan without an extent");
    expect(razovinto_level_scan(NULL, 0, NULL, 0, NULL, 0, NULL, 0) == RAZOVINTO_LIST_TOO_SHORT,
           "a level's scan without an answer");
    answer[0] = 9;
    expect(razovinto_level_to_field(NULL, 0, NULL, 0, NULL, 0, NULL, 0, answer, 1) == RAZOVINTO_FIELD_EMPTY
               && answer[0] == 0, "a field of null lists");
    expect(razovinto_level_to_field(NULL, 0, &air, 1, NULL, 0, NULL, 0, answer, 1) == RAZOVINTO_LENGTHS_DIFFER,
           "a field without readings");
    expect(razovinto_level_to_field(&one, 1, &air, 1, NULL, 0, NULL, 0, answer, 1) == RAZOVINTO_LIST_TOO_SHORT,
           "a field to null lists");
    expect(razovinto_level_to_field(NULL, 0, NULL, 0, NULL, 0, NULL, 0, NULL, 0) == RAZOVINTO_LIST_TOO_SHORT,
           "a field without an answer");
}

void check_levels(void)
{
    check_single_readings();
    check_unusable_readings();
    check_infinities_are_no_invalid_operation();
    check_order();
    check_lengths();
    check_plateau();
    check_extents();
    check_lists();
    check_rooms();
    check_whole_numbers();
    check_earliest();
    check_lists_that_nobody_set();
    check_round_trip();
    check_null();
}

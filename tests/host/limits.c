/* The entries beyond the six at their limits: the structs' layout, single numbers and fields here, recipes in
 * recipes.c, blocks in blocks.c, levels in levels.c, rows in rows.c. Ends with 1 at the first thing that is not as it
 * must be.
 */
#include "calls.h"
#include "lent.h"

/* Places in a struct, counted in numbers of 64 bits; a place between two numbers is no whole one, and a float half. */
#define PLACE(answer, field) (offsetof(struct razovinto_##answer, field) / 8.0)
#define COUNT(answer) (sizeof(struct razovinto_##answer) / 8.0)

static void check_layout(void)
{
    static const struct { const char *what; double given, wanted; } places[] = {
        {"shape", COUNT(shape), 2},
        {"shape.place", PLACE(shape, place), 0},
        {"shape.limit", PLACE(shape, limit), 1},
        {"run", COUNT(run), 50},
        {"run.place", PLACE(run, place), 0},
        {"run.overflowed", PLACE(run, overflowed), 1},
        {"run.number", PLACE(run, number), 2},
        {"run.steps", PLACE(run, steps), 3},
        {"run.done", PLACE(run, done), 4},
        {"run.phase", PLACE(run, phase), 5},
        {"run.power.first_overflowed", PLACE(run, power.first_overflowed), 6},
        {"run.power.first", PLACE(run, power.first), 7},
        {"run.power.second_overflowed", PLACE(run, power.second_overflowed), 8},
        {"run.power.second", PLACE(run, power.second), 9},
        {"run.power.exponent", PLACE(run, power.exponent), 10},
        {"run.logarithm.base", PLACE(run, logarithm.base), 11},
        {"run.logarithm.left", PLACE(run, logarithm.left), 12},
        {"run.logarithm.count", PLACE(run, logarithm.count), 13},
        {"run.on_hand_overflowed", PLACE(run, on_hand_overflowed), 14},
        {"run.on_hand", PLACE(run, on_hand), 18},
        {"range", COUNT(range), 4},
        {"range.place", PLACE(range, place), 0},
        {"range.least", PLACE(range, least), 1},
        {"range.greatest", PLACE(range, greatest), 2},
        {"range.width", PLACE(range, width), 3},
        {"block", COUNT(block), 3},
        {"block.place", PLACE(block, place), 0},
        {"block.number", PLACE(block, number), 1},
        {"block.count", PLACE(block, count), 2},
        {"written", COUNT(written), 2},
        {"written.place", PLACE(written, place), 0},
        {"written.length", PLACE(written, length), 1},
        {"found", COUNT(found), 4},
        {"found.place", PLACE(found, place), 0},
        {"found.found", PLACE(found, found), 1},
        {"found.position", PLACE(found, position), 2},
        {"found.within", PLACE(found, within), 3},
        {"at", COUNT(at), 1},
        {"at.place", PLACE(at, place), 0},
        {"extent", COUNT(extent), 1},
        {"extent.least", PLACE(extent, least), 0},
        {"extent.greatest", PLACE(extent, greatest), 0.5},
        {"operation", COUNT(operation), 3},
        {"operation.kind", PLACE(operation, kind), 0},
        {"operation.left", PLACE(operation, left), 1},
        {"operation.right", PLACE(operation, right), 2},
    };
    size_t i;
    for (i = 0; i < sizeof places / sizeof *places; i++)
        if (places[i].given != places[i].wanted)
            fail(places[i].what, "another size or place than the answer's numbers have");
}

static void check_power_fits(void)
{
    static const struct { uint64_t base, exponent; uint32_t fits; } powers[] = {
        {0, 0, 1}, {0, 1, 1}, {0, MOST, 1}, {1, 0, 1}, {1, MOST, 1}, {MOST, 0, 1}, {MOST, 1, 1}, {MOST, 2, 0},
        {MOST, MOST, 0}, {4294967295u, 2, 1}, {4294967296u, 2, 0}, {2642245, 3, 1}, {2642246, 3, 0}, {3, 40, 1},
        {3, 41, 0}, {4, 31, 1}, {4, 32, 0}, {2, 63, 1}, {2, 64, 0}, {2, 65, 0}, {2, 4294967296u, 0}, {2, MOST, 0},
        {3, 64, 0},
    };
    size_t i;
    for (i = 0; i < sizeof powers / sizeof *powers; i++)
        if (razovinto_power_fits(powers[i].base, powers[i].exponent) != powers[i].fits) {
            fprintf(stderr, "limits: base %llu, exponent %llu\n", (unsigned long long)powers[i].base,
                    (unsigned long long)powers[i].exponent);
            fail("power_fits", "not the number that it must return");
        }
}

typedef uint32_t signed_entry(int64_t left, int64_t right, int64_t *result, size_t length);

/* A call with each length of the result's list from 0 to 3. */
static void expect_signed(signed_entry *entry, int64_t left, int64_t right, uint32_t refusal, int64_t number)
{
    char where[120];
    size_t length, guarded;
    for (length = 0; length <= 3; length++)
        for (guarded = 2; guarded-- > 0;) {
            struct lent lent = lend(NULL, length * sizeof number, guarded * GUARD);
            uint32_t wanted = length == 0 ? RAZOVINTO_LIST_TOO_SHORT : refusal;
            snprintf(where, sizeof where, "signed %s of %lld by %lld, with %zu numbers",
                     entry == razovinto_signed_quotient ? "quotient" : "remainder", (long long)left, (long long)right,
                     length);
            if (entry(left, right, start_of(&lent), length) != wanted)
                fail(where, "not the number that it must return");
            if (wanted == 0 && memcmp(start_of(&lent), &number, sizeof number) != 0)
                fail(where, "another number is written");
            if (!stayed(&lent, wanted == 0 ? sizeof number : 0))
                fail(where, "a byte changed that must stay");
            take_back(&lent);
        }
}

static void check_signed(void)
{
    static const struct { int64_t left, right; uint32_t refusal; int64_t quotient, remainder; } pairs[] = {
        {7, 2, 0, 3, 1}, {-7, 2, 0, -3, -1}, {7, -2, 0, -3, 1}, {-7, -2, 0, 3, -1}, {0, -5, 0, 0, 0}, {-1, 2, 0, 0, -1},
        {INT64_MIN, 1, 0, INT64_MIN, 0}, {INT64_MIN, 2, 0, INT64_MIN / 2, 0}, {INT64_MIN, INT64_MIN, 0, 1, 0},
        {INT64_MIN, INT64_MAX, 0, -1, -1}, {INT64_MAX, INT64_MIN, 0, 0, INT64_MAX}, {INT64_MAX, -1, 0, -INT64_MAX, 0},
        {INT64_MIN + 1, -1, 0, INT64_MAX, 0}, {INT64_MIN, 0, RAZOVINTO_DIVISOR_ZERO, 0, 0},
        {0, 0, RAZOVINTO_DIVISOR_ZERO, 0, 0}, {-1, 0, RAZOVINTO_DIVISOR_ZERO, 0, 0},
    };
    size_t i;
    for (i = 0; i < sizeof pairs / sizeof *pairs; i++) {
        expect_signed(razovinto_signed_quotient, pairs[i].left, pairs[i].right, pairs[i].refusal, pairs[i].quotient);
        expect_signed(razovinto_signed_remainder, pairs[i].left, pairs[i].right, pairs[i].refusal, pairs[i].remainder);
    }
    expect_signed(razovinto_signed_quotient, INT64_MIN, -1, RAZOVINTO_QUOTIENT_TOO_LARGE, 0);
    expect_signed(razovinto_signed_remainder, INT64_MIN, -1, 0, 0);
}

static void expect_scan(const char *what, const uint64_t *numbers, size_t number_count, const uint8_t *marks,
                        size_t mark_count, uint32_t refusal, struct razovinto_range expected)
{
    struct call call = {.entry = SCAN, .numbers = numbers, .number_count = number_count, .marks = marks,
                        .mark_count = mark_count, .refusal = refusal, .answer = &expected};
    expect_call(what, &call);
}

#define RANGE(least, greatest, width) 0, ((struct razovinto_range){0, least, greatest, width})
#define REFUSED(refusal, place) refusal, ((struct razovinto_range){place, 0, 0, 0})

static void check_fields(void)
{
    static const uint64_t numbers[] = {MOST, 9, 0, 256, 1, 0}, constant[] = {7, 7, 7, 7, 7};
    static const uint8_t marks[] = {0, 0, 0, 0, 0, 0}, last[] = {0, 0, 0, 0, 0, 1};
    static const uint8_t bad_first[] = {2, 0, 1, 0, 0, 1}, bad_later[] = {0, 0, 1, 255, 0, 1};
    static const uint8_t with_number[] = {0, 1, 0, 0, 0, 2};
    uint64_t answer[4];
    expect_scan("one number", numbers + 1, 1, marks, 1, RANGE(9, 9, 0));
    expect_scan("one number everywhere", constant, 5, marks, 5, RANGE(7, 7, 0));
    expect_scan("1 bit", numbers + 4, 2, marks, 2, RANGE(0, 1, 1));
    expect_scan("from 0 to the largest", numbers, 6, marks, 6, RANGE(0, MOST, 64));
    expect_scan("9 bits", numbers + 2, 3, marks, 3, RANGE(0, 256, 9));
    expect_scan("8 bits", numbers + 3, 2, marks, 2, RANGE(1, 256, 8));
    expect_scan("the largest alone", numbers, 1, marks, 1, RANGE(MOST, MOST, 0));
    expect_scan("no numbers", numbers, 0, marks, 0, REFUSED(RAZOVINTO_FIELD_EMPTY, 0));
    expect_scan("a mark too few", numbers, 6, marks, 5, REFUSED(RAZOVINTO_LENGTHS_DIFFER, 0));
    expect_scan("a mark too many", numbers, 5, marks, 6, REFUSED(RAZOVINTO_LENGTHS_DIFFER, 0));
    expect_scan("no numbers but marks", numbers, 0, bad_first, 3, REFUSED(RAZOVINTO_LENGTHS_DIFFER, 0));
    expect_scan("the last overflowed", numbers, 6, last, 6, REFUSED(RAZOVINTO_OVERFLOWED, 5));
    expect_scan("a bad mark first", numbers, 6, bad_first, 6, REFUSED(RAZOVINTO_BAD_MARK, 0));
    expect_scan("a bad mark later", numbers, 6, bad_later, 6, REFUSED(RAZOVINTO_OVERFLOWED, 2));
    expect_scan("overflowed with a number", numbers, 6, with_number, 6, REFUSED(RAZOVINTO_BAD_MARK, 1));
    expect(razovinto_scan(NULL, 0, NULL, 0, answer, 4) == RAZOVINTO_FIELD_EMPTY, "a scan of null lists");
    expect(razovinto_scan(NULL, 0, marks, 1, answer, 4) == RAZOVINTO_LENGTHS_DIFFER, "a scan without numbers");
    expect(razovinto_scan(NULL, 0, NULL, 0, NULL, 0) == RAZOVINTO_LIST_TOO_SHORT, "a scan without an answer");
}

int main(void)
{
    check_layout();
    check_power_fits();
    check_signed();
    check_fields();
    check_recipes();
    check_blocks();
    check_levels();
    check_rows();
    printf("limits: layout, power_fits, signed numbers, fields, recipes, blocks, levels and rows are as they must "
           "be\n");
    return 0;
}

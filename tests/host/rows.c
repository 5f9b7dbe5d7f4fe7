/* Rows at their limits, each by plain lists and by records. */
#include "calls.h"
#include "lent.h"

/* A struct that lies otherwise than the library reads it doesn't compile. */
typedef char kind_at_0[offsetof(struct razovinto_operation, kind) == 0 ? 1 : -1];
typedef char left_at_8[offsetof(struct razovinto_operation, left) == 8 ? 1 : -1];
typedef char right_at_16[offsetof(struct razovinto_operation, right) == 16 ? 1 : -1];
typedef char operation_of_24[sizeof(struct razovinto_operation) == 24 ? 1 : -1];

/* An operation and what it must come to. */
struct expected {
    uint8_t kind;
    uint64_t left, right, number;
    uint8_t mark, code;
};

#define FITS(number) number, 0, 0
#define TOO_LARGE 0, 1, 0
#define REFUSED(code) 0, 0, code

/* The row that is tried: its operations, and what the three lists must hold afterwards. */
enum { LONGEST = RAZOVINTO_ROW_MOST + 4 };
static uint8_t kinds[LONGEST], marks[LONGEST], codes[LONGEST];
static uint64_t lefts[LONGEST], rights[LONGEST], numbers[LONGEST];

static void set(size_t place, struct expected operation)
{
    kinds[place] = operation.kind;
    lefts[place] = operation.left;
    rights[place] = operation.right;
    numbers[place] = operation.number;
    marks[place] = operation.mark;
    codes[place] = operation.code;
}

static void set_all(size_t count, struct expected operation)
{
    size_t i;
    for (i = 0; i < count; i++)
        set(i, operation);
}

/* How many elements the three lists have that are written. */
struct rooms { size_t numbers, marks, codes; };

static struct rooms rooms_of(size_t count)
{
    return (struct rooms){count, count, count};
}

/* The three lists that are written, lent. */
struct results { struct lent numbers, marks, codes; };

static struct results lend_results(struct rooms rooms, size_t guard, size_t shift)
{
    struct results results = {lend(NULL, rooms.numbers * sizeof(uint64_t), guard),
                              lend(NULL, rooms.marks, guard + shift), lend(NULL, rooms.codes, guard + shift)};
    return results;
}

/* Looks at every byte of them: the first `count` elements of each must be the row's. */
static void expect_results(const char *where, struct results *results, size_t count)
{
    if (count != 0 && (memcmp(start_of(&results->numbers), numbers, count * sizeof(uint64_t)) != 0
                       || memcmp(start_of(&results->marks), marks, count) != 0
                       || memcmp(start_of(&results->codes), codes, count) != 0))
        fail(where, "other elements are written");
    if (!stayed(&results->numbers, count * sizeof(uint64_t)) || !stayed(&results->marks, count)
        || !stayed(&results->codes, count))
        fail(where, "a byte changed that must stay");
    take_back(&results->numbers);
    take_back(&results->marks);
    take_back(&results->codes);
}

static void say_where(char *where, size_t size, const char *what, const char *how, size_t guard, size_t shift)
{
    snprintf(where, size, "%s, %s, %zu guard bytes, lists of bytes %zu off", what, how, guard, shift);
}

static void expect_lists_once(const char *what, size_t kind_count, size_t left_count, size_t right_count,
                              struct rooms rooms, uint32_t refusal, size_t guard, size_t shift)
{
    struct lent lent_kinds = lend(kinds, kind_count, guard + shift);
    struct lent lent_lefts = lend(lefts, left_count * sizeof(uint64_t), guard);
    struct lent lent_rights = lend(rights, right_count * sizeof(uint64_t), guard);
    struct results results = lend_results(rooms, guard, shift);
    char where[256];
    say_where(where, sizeof where, what, "plain lists", guard, shift);
    if (razovinto_row(start_of(&lent_kinds), kind_count, start_of(&lent_lefts), left_count, start_of(&lent_rights),
                      right_count, start_of(&results.numbers), rooms.numbers, start_of(&results.marks), rooms.marks,
                      start_of(&results.codes), rooms.codes) != refusal)
        fail(where, "not the number that it must return");
    if (!stayed(&lent_kinds, 0) || !stayed(&lent_lefts, 0) || !stayed(&lent_rights, 0))
        fail(where, "a list changed that is only read");
    expect_results(where, &results, refusal == 0 ? kind_count : 0);
    take_back(&lent_kinds);
    take_back(&lent_lefts);
    take_back(&lent_rights);
}

/* A row of plain lists, at each alignment of its bytes between guards, and with nothing around the lists. */
static void expect_lists(const char *what, size_t kind_count, size_t left_count, size_t right_count, struct rooms rooms,
                         uint32_t refusal)
{
    size_t shift;
    for (shift = 0; shift < 8; shift++)
        expect_lists_once(what, kind_count, left_count, right_count, rooms, refusal, GUARD, shift);
    expect_lists_once(what, kind_count, left_count, right_count, rooms, refusal, 0, 0);
}

/* The bytes between kind and left are all `padding`, and must count for nothing. */
static void make_records(struct razovinto_operation *operations, size_t count, int padding)
{
    size_t i;
    if (count != 0)
        memset(operations, padding, count * sizeof *operations);
    for (i = 0; i < count; i++) {
        memcpy((uint8_t *)(operations + i) + offsetof(struct razovinto_operation, kind), kinds + i, 1);
        memcpy((uint8_t *)(operations + i) + offsetof(struct razovinto_operation, left), lefts + i, 8);
        memcpy((uint8_t *)(operations + i) + offsetof(struct razovinto_operation, right), rights + i, 8);
    }
}

static void expect_records_once(const char *what, const struct razovinto_operation *operations, size_t count,
                                struct rooms rooms, uint32_t refusal, size_t guard, size_t shift)
{
    struct lent lent = lend(operations, count * sizeof *operations, guard);
    struct results results = lend_results(rooms, guard, shift);
    char where[256];
    say_where(where, sizeof where, what, "records", guard, shift);
    if (razovinto_row_of_records(start_of(&lent), count, start_of(&results.numbers), rooms.numbers,
                                 start_of(&results.marks), rooms.marks, start_of(&results.codes), rooms.codes)
        != refusal)
        fail(where, "not the number that it must return");
    if (!stayed(&lent, 0))
        fail(where, "a record changed");
    expect_results(where, &results, refusal == 0 ? count : 0);
    take_back(&lent);
}

static void expect_records(const char *what, size_t count, struct rooms rooms, uint32_t refusal)
{
    static const int paddings[] = {0x00, 0xFF, 0x06};
    static struct razovinto_operation operations[LONGEST];
    size_t i, shift;
    for (i = 0; i < sizeof paddings / sizeof *paddings; i++) {
        make_records(operations, count, paddings[i]);
        for (shift = 0; shift < 8; shift++)
            expect_records_once(what, operations, count, rooms, refusal, GUARD, shift);
        expect_records_once(what, operations, count, rooms, refusal, 0, 0);
    }
}

/* The row's first operations, both ways. */
static void expect_row(const char *what, size_t count, struct rooms rooms, uint32_t refusal)
{
    expect_lists(what, count, count, count, rooms, refusal);
    expect_records(what, count, rooms, refusal);
}

static const struct expected telling[] = {
    {RAZOVINTO_SUM, 0, 0, FITS(0)},
    {RAZOVINTO_SUM, MOST - 1, 1, FITS(MOST)},
    {RAZOVINTO_SUM, MOST, 1, TOO_LARGE},
    {RAZOVINTO_SUM, MOST, MOST, TOO_LARGE},
    {RAZOVINTO_PRODUCT, MOST, 0, FITS(0)},
    {RAZOVINTO_PRODUCT, 0xFFFFFFFFu, 0x100000001u, FITS(MOST)},
    {RAZOVINTO_PRODUCT, 0x100000000u, 0x100000000u, TOO_LARGE},
    {RAZOVINTO_QUOTIENT, 7, 2, FITS(3)},
    {RAZOVINTO_QUOTIENT, MOST, MOST, FITS(1)},
    {RAZOVINTO_QUOTIENT, MOST - 1, MOST, FITS(0)},
    {RAZOVINTO_QUOTIENT, 7, 0, REFUSED(RAZOVINTO_DIVISOR_ZERO)},
    {RAZOVINTO_REMAINDER, 7, 2, FITS(1)},
    {RAZOVINTO_REMAINDER, MOST - 1, MOST, FITS(MOST - 1)},
    {RAZOVINTO_REMAINDER, 0, 0, REFUSED(RAZOVINTO_DIVISOR_ZERO)},
    {RAZOVINTO_POWER, 0, 0, FITS(1)},
    {RAZOVINTO_POWER, MOST, 1, FITS(MOST)},
    {RAZOVINTO_POWER, 2, 63, FITS(0x8000000000000000u)},
    {RAZOVINTO_POWER, 2, 64, TOO_LARGE},
    {RAZOVINTO_POWER, 3, 41, TOO_LARGE},
    {RAZOVINTO_POWER, 1, MOST, FITS(1)},
    {RAZOVINTO_LOGARITHM, 2, MOST, FITS(63)},
    {RAZOVINTO_LOGARITHM, 3, 12157665459056928800u, FITS(39)},
    {RAZOVINTO_LOGARITHM, MOST, MOST, FITS(1)},
    {RAZOVINTO_LOGARITHM, 2, 0, FITS(0)},
    {RAZOVINTO_LOGARITHM, 1, 5, REFUSED(RAZOVINTO_BASE_BELOW_TWO)},
    {RAZOVINTO_LOGARITHM, 0, MOST, REFUSED(RAZOVINTO_BASE_BELOW_TWO)},
    {RAZOVINTO_LITERAL, 1, 2, REFUSED(RAZOVINTO_UNKNOWN_KIND)},
    {7, MOST, MOST, REFUSED(RAZOVINTO_UNKNOWN_KIND)},
    {128, 0, 0, REFUSED(RAZOVINTO_UNKNOWN_KIND)},
    {255, 1, 1, REFUSED(RAZOVINTO_UNKNOWN_KIND)},
};
enum { TELLING = sizeof telling / sizeof *telling };

/* Each operation alone, all of them, and each in every place of five between others of every kind. */
static void check_elements(void)
{
    size_t i, j, place;
    for (i = 0; i < TELLING; i++) {
        set(0, telling[i]);
        expect_row("one operation", 1, rooms_of(1), 0);
    }
    for (i = 0; i < TELLING; i++)
        set(i, telling[i]);
    expect_row("all of them", TELLING, rooms_of(TELLING), 0);
    for (i = 0; i < TELLING; i++)
        for (place = 0; place < 5; place++) {
            for (j = 0; j < 5; j++)
                set(j, telling[(i + 11 * (j + 1)) % TELLING]);
            set(place, telling[i]);
            expect_row("an operation between others", 5, rooms_of(5), 0);
        }
}

/* Whatever a byte can be as a kind. */
static void check_kinds(void)
{
    static const uint64_t six[] = {9, 14, 3, 1, 49, 0};
    size_t kind;
    for (kind = 0; kind < 256; kind++)
        if (kind >= RAZOVINTO_SUM && kind <= RAZOVINTO_LOGARITHM)
            set(kind, (struct expected){(uint8_t)kind, 7, 2, FITS(six[kind - 1])});
        else
            set(kind, (struct expected){(uint8_t)kind, 7, 2, REFUSED(RAZOVINTO_UNKNOWN_KIND)});
    expect_row("every kind", 256, rooms_of(256), 0);
}

/* Refused operations first, last, in a row and everywhere, beside overflowed ones. */
static void check_refused(void)
{
    const struct expected fits = {RAZOVINTO_SUM, 20, 3, FITS(23)}, large = {RAZOVINTO_PRODUCT, MOST, 2, TOO_LARGE};
    const struct expected refused = {RAZOVINTO_REMAINDER, 7, 0, REFUSED(RAZOVINTO_DIVISOR_ZERO)};
    size_t i;
    set_all(9, fits);
    set(0, refused);
    expect_row("refused first", 9, rooms_of(9), 0);
    set(8, refused);
    expect_row("refused first and last", 9, rooms_of(9), 0);
    for (i = 3; i < 6; i++)
        set(i, refused);
    expect_row("refused in a row", 9, rooms_of(9), 0);
    set(2, large);
    set(6, large);
    expect_row("between overflowed ones", 9, rooms_of(9), 0);
    set_all(9, refused);
    expect_row("all refused", 9, rooms_of(9), 0);
    set(4, large);
    expect_row("all but one refused", 9, rooms_of(9), 0);
    set_all(9, large);
    expect_row("all overflowed", 9, rooms_of(9), 0);
}

/* Rows of each telling length: what is at their end is worked out, one list a place too short is refused, and what
 * longer ones have past the row stays. */
static void check_lengths(void)
{
    static const size_t lengths[] = {1, 2, 55, RAZOVINTO_ROW_MOST - 1, RAZOVINTO_ROW_MOST};
    size_t i, j, n;
    for (i = 0; i < sizeof lengths / sizeof *lengths; i++) {
        n = lengths[i];
        for (j = 0; j < n; j++)
            set(j, telling[j % TELLING]);
        expect_row("just as much room", n, rooms_of(n), 0);
        expect_row("more room", n, (struct rooms){n + 3, n + 1, n + 2}, 0);
        expect_row("a number too few", n, (struct rooms){n - 1, n, n}, RAZOVINTO_LIST_TOO_SHORT);
        expect_row("a mark too few", n, (struct rooms){n, n - 1, n}, RAZOVINTO_LIST_TOO_SHORT);
        expect_row("a code too few", n, (struct rooms){n, n, n - 1}, RAZOVINTO_LIST_TOO_SHORT);
        expect_row("much room, but none for codes", n, (struct rooms){n + 9, n + 9, 0}, RAZOVINTO_LIST_TOO_SHORT);
        expect_row("no room", n, rooms_of(0), RAZOVINTO_LIST_TOO_SHORT);
    }
    for (n = RAZOVINTO_ROW_MOST + 1; n <= LONGEST; n++) {
        for (j = 0; j < n; j++)
            set(j, telling[j % TELLING]);
        expect_row("too many operations", n, rooms_of(n), RAZOVINTO_ITEM_COUNT);
        expect_row("too many operations, and no room", n, rooms_of(0), RAZOVINTO_ITEM_COUNT);
    }
    expect_row("no operations", 0, rooms_of(0), RAZOVINTO_ITEM_COUNT);
    expect_row("no operations, but room", 0, rooms_of(3), RAZOVINTO_ITEM_COUNT);
}

/* Lists that differ in length come before everything else. */
static void check_lists(void)
{
    static const size_t lengths[] = {0, 1, 2, RAZOVINTO_ROW_MOST, RAZOVINTO_ROW_MOST + 1};
    enum { LENGTHS = sizeof lengths / sizeof *lengths };
    size_t i, kind, left, right;
    for (i = 0; i < LONGEST; i++)
        set(i, telling[i % TELLING]);
    for (i = 0; i < LENGTHS * LENGTHS * LENGTHS; i++) {
        kind = lengths[i % LENGTHS];
        left = lengths[i / LENGTHS % LENGTHS];
        right = lengths[i / LENGTHS / LENGTHS];
        if (kind == left && kind == right)
            continue;
        expect_lists_once("lists that differ", kind, left, right, rooms_of(LONGEST), RAZOVINTO_LENGTHS_DIFFER,
                          GUARD, 0);
        expect_lists_once("lists that differ", kind, left, right, rooms_of(LONGEST), RAZOVINTO_LENGTHS_DIFFER, 0, 0);
        expect_lists_once("lists that differ, and no room", kind, left, right, rooms_of(0), RAZOVINTO_LENGTHS_DIFFER,
                          GUARD, 1);
    }
}

/* What a host sees that doesn't set its lists before the call, nor the bytes between the fields, as most don't: a tool
 * that watches memory would say where an entry looked at what they have. */
static void check_memory_that_nobody_set(void)
{
    struct razovinto_operation *operations = malloc(2 * sizeof *operations);
    uint64_t *own_numbers = malloc(3 * sizeof *own_numbers);
    uint8_t *own_marks = malloc(3), *own_codes = malloc(3);
    if (operations == NULL || own_numbers == NULL || own_marks == NULL || own_codes == NULL)
        fail("a row", "no memory for it");
    operations[0].kind = RAZOVINTO_SUM;
    operations[0].left = MOST;
    operations[0].right = 1;
    operations[1].kind = RAZOVINTO_LOGARITHM;
    operations[1].left = 1;
    operations[1].right = 5;
    expect(razovinto_row_of_records(operations, 2, own_numbers, 3, own_marks, 1, own_codes, 3)
               == RAZOVINTO_LIST_TOO_SHORT, "a row with too little room");
    expect(razovinto_row_of_records(operations, 2, own_numbers, 3, own_marks, 3, own_codes, 3) == 0
               && own_numbers[0] == 0 && own_marks[0] == 1 && own_codes[0] == 0 && own_numbers[1] == 0
               && own_marks[1] == 0 && own_codes[1] == RAZOVINTO_BASE_BELOW_TWO, "a row of records");
    free(operations);
    free(own_numbers);
    free(own_marks);
    free(own_codes);
}

/* Lists that are only read may be the same memory. */
static void check_shared(void)
{
    const uint64_t both[] = {3, 10, MOST};
    const uint8_t kind[] = {RAZOVINTO_PRODUCT, RAZOVINTO_POWER, RAZOVINTO_SUM};
    uint64_t own_numbers[3];
    uint8_t own_marks[3], own_codes[3];
    expect(razovinto_row(kind, 3, both, 3, both, 3, own_numbers, 3, own_marks, 3, own_codes, 3) == 0
               && own_numbers[0] == 9 && own_numbers[1] == 10000000000u && own_numbers[2] == 0 && own_marks[0] == 0
               && own_marks[1] == 0 && own_marks[2] == 1 && own_codes[2] == 0, "left and right are one list");
}

static void check_null(void)
{
    const struct razovinto_operation operation = {RAZOVINTO_SUM, 1, 2};
    const uint64_t one = 1;
    const uint8_t sum = RAZOVINTO_SUM;
    uint64_t number = 9;
    uint8_t mark = 9, code = 9;
    expect(razovinto_row(NULL, 0, NULL, 0, NULL, 0, NULL, 0, NULL, 0, NULL, 0) == RAZOVINTO_ITEM_COUNT,
           "a row of null lists");
    expect(razovinto_row(NULL, 0, &one, 1, &one, 1, NULL, 0, NULL, 0, NULL, 0) == RAZOVINTO_LENGTHS_DIFFER,
           "a row without kinds");
    expect(razovinto_row(&sum, 1, NULL, 0, &one, 1, NULL, 0, NULL, 0, NULL, 0) == RAZOVINTO_LENGTHS_DIFFER,
           "a row without lefts");
    expect(razovinto_row(&sum, 1, &one, 1, NULL, 0, NULL, 0, NULL, 0, NULL, 0) == RAZOVINTO_LENGTHS_DIFFER,
           "a row without rights");
    expect(razovinto_row(&sum, 1, &one, 1, &one, 1, NULL, 0, &mark, 1, &code, 1) == RAZOVINTO_LIST_TOO_SHORT,
           "a row to no numbers");
    expect(razovinto_row(&sum, 1, &one, 1, &one, 1, &number, 1, NULL, 0, &code, 1) == RAZOVINTO_LIST_TOO_SHORT,
           "a row to no marks");
    expect(razovinto_row(&sum, 1, &one, 1, &one, 1, &number, 1, &mark, 1, NULL, 0) == RAZOVINTO_LIST_TOO_SHORT,
           "a row to no codes");
    expect(razovinto_row_of_records(NULL, 0, NULL, 0, NULL, 0, NULL, 0) == RAZOVINTO_ITEM_COUNT,
           "a row of no records");
    expect(razovinto_row_of_records(&operation, 1, NULL, 0, NULL, 0, NULL, 0) == RAZOVINTO_LIST_TOO_SHORT,
           "a row of records to null lists");
    expect(number == 9 && mark == 9 && code == 9, "a refused row writes nothing");
    expect(razovinto_row_of_records(&operation, 1, &number, 1, &mark, 1, &code, 1) == 0 && number == 3 && mark == 0
               && code == 0, "a row of one record");
}

void check_rows(void)
{
    check_elements();
    check_kinds();
    check_refused();
    check_lengths();
    check_lists();
    check_memory_that_nobody_set();
    check_shared();
    check_null();
}

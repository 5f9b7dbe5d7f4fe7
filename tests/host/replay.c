/* Replays cases for hosts as a host written in C: calls the entry of each and writes its line, in the forms of
 * docs/REPLAY.md.
 *
 *     replay CASES
 *
 * CASES is a file of tests/second/hosts.py. Each case is called twice, with lists between guard bytes and with lists
 * that have nothing around them, and every byte that must stay is looked at. Ends with 1 where an entry does what it
 * must not, and with 2 where CASES can't be read.
 */
#include "lent.h"
#include "razovinto.h"

#include <inttypes.h>

/* The longest line is that of row 9, with four characters for each byte of its run. */
enum { LIST = 4096, FIELD = 8192, RUN = 65536, LINE = 4 * RUN + 100 };
static const uint64_t number_before = 7777777;
static const uint8_t mark_before = 9, byte_before = 170;

static const char *path;
static FILE *cases;
static unsigned long case_number;

/* A case as it was read. */
static struct {
    int row, kind;
    uint32_t first;
    uint64_t width, allowance, left, right;
    size_t reading_count, byte_count, left_count, right_count, number_count, mark_count, code_count;
    uint32_t readings[FIELD]; /* the floats' bits: no float is ever loaded here, which might change a NaN */
    uint8_t bytes[RUN];
    uint64_t lefts[FIELD], rights[FIELD];
    uint64_t numbers[FIELD];
    uint8_t marks[FIELD], codes[FIELD];
} given;

static char line[LINE];
static size_t line_length;

static void stop(int status, const char *what)
{
    fflush(stdout);
    fprintf(stderr, "replay: %s, case %lu: %s\n", path, case_number, what);
    exit(status);
}

/* Reading a case */

static void take_bytes(uint8_t *bytes, size_t count)
{
    if (fread(bytes, 1, count, cases) != count)
        stop(2, "cut short");
}

static uint64_t take(int size)
{
    uint8_t bytes[8];
    uint64_t number = 0;
    take_bytes(bytes, (size_t)size);
    while (size-- > 0)
        number = number << 8 | bytes[size];
    return number;
}

static size_t take_count(int size, size_t most)
{
    uint64_t count = take(size);
    if (count > most)
        stop(2, "a list is too long");
    return (size_t)count;
}

static void take_numbers(void)
{
    size_t i;
    for (i = 0; i < given.number_count; i++)
        given.numbers[i] = take(8);
}

static void take_recipe(void)
{
    given.width = take(1);
    given.allowance = take(8);
    given.byte_count = take_count(2, LIST);
    given.number_count = take_count(2, LIST);
    take_bytes(given.bytes, given.byte_count);
    take_numbers();
}

static void take_field(void)
{
    given.number_count = take_count(2, LIST);
    given.mark_count = take_count(2, LIST);
    take_numbers();
    take_bytes(given.marks, given.mark_count);
}

/* What the lists that a case's values go to have before the call. */
static void fill_lists(uint8_t mark)
{
    size_t i;
    for (i = 0; i < given.number_count; i++)
        given.numbers[i] = number_before;
    memset(given.marks, mark, given.mark_count);
}

static void take_block(void)
{
    given.byte_count = take_count(2, LIST);
    given.number_count = take_count(2, LIST);
    given.mark_count = take_count(2, LIST);
    take_bytes(given.bytes, given.byte_count);
    fill_lists(mark_before);
}

static void take_operation(void)
{
    given.width = take(1);
    given.kind = (int)take(1);
    if (take(1) != 0)
        stop(2, "no entry takes an overflowed operand");
    given.left = take(8);
    if (take(1) != 0)
        stop(2, "no entry takes an overflowed operand");
    given.right = take(8);
    if (given.width != 64)
        stop(2, "no entry has this width");
    if (given.kind < RAZOVINTO_SUM || given.kind > RAZOVINTO_LOGARITHM)
        stop(2, "no entry has this kind");
}

static void take_signed(void)
{
    given.width = take(1);
    given.kind = (int)take(1);
    given.left = take(8);
    given.right = take(8);
    if (given.width != 64)
        stop(2, "no entry has this width");
    if (given.kind > 1)
        stop(2, "neither quotient nor remainder");
}

static void take_writing(void)
{
    if (take(1) != 1)
        stop(2, "no entry has this edition");
    given.first = (uint32_t)take(4);
    given.number_count = take_count(2, FIELD);
    given.mark_count = take_count(2, FIELD);
    given.byte_count = take_count(4, RUN);
    take_numbers();
    take_bytes(given.marks, given.mark_count);
    memset(given.bytes, byte_before, given.byte_count);
}

/* The readings and the ground marks, which stand in `bytes`. */
static void take_level(void)
{
    size_t i;
    for (i = 0; i < given.reading_count; i++)
        given.readings[i] = (uint32_t)take(4);
    take_bytes(given.bytes, given.byte_count);
}

static void take_level_scan(void)
{
    given.reading_count = take_count(2, FIELD);
    given.byte_count = take_count(2, FIELD);
    take_level();
}

static void take_level_to_field(void)
{
    given.reading_count = take_count(2, FIELD);
    given.byte_count = take_count(2, FIELD);
    given.number_count = take_count(2, FIELD);
    given.mark_count = take_count(2, FIELD);
    take_level();
    fill_lists(byte_before);
}

/* The operations, whose kinds stand in `bytes`. */
static void take_row(void)
{
    size_t i;
    given.byte_count = take_count(2, FIELD);
    given.left_count = take_count(2, FIELD);
    given.right_count = take_count(2, FIELD);
    given.number_count = take_count(2, FIELD);
    given.mark_count = take_count(2, FIELD);
    given.code_count = take_count(2, FIELD);
    take_bytes(given.bytes, given.byte_count);
    for (i = 0; i < given.left_count; i++)
        given.lefts[i] = take(8);
    for (i = 0; i < given.right_count; i++)
        given.rights[i] = take(8);
    fill_lists(byte_before);
    memset(given.codes, byte_before, given.code_count);
}

/* Reads a case; 0 at the end. */
static int take_case(void)
{
    given.row = fgetc(cases);
    if (given.row == EOF)
        return 0;
    case_number++;
    switch (given.row) {
    case 1:
        take_recipe();
        break;
    case 2:
        take_field();
        break;
    case 3:
        take_block();
        break;
    case 4:
        given.byte_count = take_count(4, RUN);
        take_bytes(given.bytes, given.byte_count);
        break;
    case 5:
        take_operation();
        break;
    case 6:
        take_signed();
        break;
    case 7:
        given.left = take(8);
        given.right = take(8);
        break;
    case 9:
        take_writing();
        break;
    case 10:
        take_level_scan();
        break;
    case 11:
        take_level_to_field();
        break;
    case 12:
        take_row();
        break;
    default:
        stop(2, "no entry for its first byte");
    }
    return 1;
}

/* Writing a line */

static void put(uint64_t number)
{
    int length = snprintf(line + line_length, LINE - line_length, line_length ? " %" PRIu64 : "%" PRIu64, number);
    if (length < 0 || (size_t)length >= LINE - line_length)
        stop(2, "a line is too long");
    line_length += (size_t)length;
}

/* Takes a list back of which nothing may have changed but the first `written` bytes. */
static void back(struct lent *lent, size_t written)
{
    if (!stayed(lent, written))
        stop(1, "a byte changed that must stay");
    take_back(lent);
}

/* The answer, out of its list. */
static void answer_back(struct lent *lent, void *answer)
{
    memcpy(answer, start_of(lent), lent->size);
    back(lent, lent->size);
}

/* A list of bytes; between guards it stands off an aligned place, in each case by another number of bytes. */
static struct lent lend_bytes(const void *list, size_t size, size_t guard)
{
    return lend(list, size, guard == 0 ? 0 : guard + case_number % 8);
}

/* A list of floats by their bits; between guards it stands at another multiple of four bytes in each case. */
static struct lent lend_floats(const uint32_t *bits, size_t count, size_t guard)
{
    return lend(bits, count * sizeof(float), guard == 0 ? 0 : guard + sizeof(float) * (case_number % 4));
}

static void put_numbers(const struct lent *numbers)
{
    uint64_t number;
    size_t i;
    for (i = 0; i < given.number_count; i++) {
        memcpy(&number, (uint8_t *)start_of(numbers) + 8 * i, 8);
        put(number);
    }
}

static void put_bytes(const struct lent *bytes, size_t count)
{
    size_t i;
    for (i = 0; i < count; i++)
        put(((uint8_t *)start_of(bytes))[i]);
}

/* Calling the entries */

static int is_shape(uint32_t code)
{
    return code >= RAZOVINTO_UNKNOWN_WIDTH && code <= RAZOVINTO_NONE_LEFT;
}

/* The shape alone, which must be refused as the run was. */
static void call_shape(uint32_t code, uint64_t place, size_t guard)
{
    struct lent kinds = lend_bytes(given.bytes, given.byte_count, guard);
    struct lent numbers = lend(given.numbers, given.number_count * 8, guard);
    struct lent lent = lend(NULL, sizeof(struct razovinto_shape), guard);
    struct razovinto_shape shape;
    int refused = is_shape(code);
    uint64_t limit = refused ? 0 : UINT64_MAX >> (64 - given.width);
    uint32_t shape_code = razovinto_shape(given.width, start_of(&kinds), given.byte_count, start_of(&numbers),
                                          given.number_count, start_of(&lent), sizeof shape / 8);
    answer_back(&lent, &shape);
    back(&kinds, 0);
    back(&numbers, 0);
    if (shape_code != (refused ? code : 0) || shape.place != (refused ? place : 0) || shape.limit != limit)
        stop(1, "the shape alone is another than the run's");
}

/* The phase's five numbers; those of the other phases must be 0. */
static void put_phase(const struct razovinto_run *ran)
{
    const uint64_t power[5] = {ran->power.first_overflowed, ran->power.first, ran->power.second_overflowed,
                               ran->power.second, ran->power.exponent};
    const uint64_t logarithm[5] = {ran->logarithm.base, ran->logarithm.left, ran->logarithm.count, 0, 0};
    const uint64_t *own = ran->phase == RAZOVINTO_WITHIN_LOGARITHM ? logarithm : power;
    const uint64_t *other = own == power ? logarithm : power;
    int i;
    for (i = 0; i < 5; i++) {
        put(own[i]);
        if (other[i] != 0)
            stop(1, "another phase's numbers aren't 0");
    }
}

static void call_run(size_t guard)
{
    struct lent kinds = lend_bytes(given.bytes, given.byte_count, guard);
    struct lent numbers = lend(given.numbers, given.number_count * 8, guard);
    struct lent lent = lend(NULL, sizeof(struct razovinto_run), guard);
    struct razovinto_run ran;
    uint32_t code = razovinto_run(given.width, start_of(&kinds), given.byte_count, start_of(&numbers),
                                  given.number_count, given.allowance, start_of(&lent), sizeof ran / 8);
    int i;
    answer_back(&lent, &ran);
    back(&kinds, 0);
    back(&numbers, 0);
    call_shape(code, ran.place, guard);
    put(code);
    put(ran.place);
    put(ran.overflowed);
    put(ran.number);
    put(ran.steps);
    put(ran.done);
    put(ran.phase);
    put_phase(&ran);
    for (i = 0; i < RAZOVINTO_PLACES; i++) {
        put(ran.on_hand_overflowed[i]);
        put(ran.on_hand[i]);
    }
}

static void call_scan(size_t guard)
{
    struct lent numbers = lend(given.numbers, given.number_count * 8, guard);
    struct lent marks = lend_bytes(given.marks, given.mark_count, guard);
    struct lent lent = lend(NULL, sizeof(struct razovinto_range), guard);
    struct razovinto_range range;
    put(razovinto_scan(start_of(&numbers), given.number_count, start_of(&marks), given.mark_count, start_of(&lent),
                       sizeof range / 8));
    answer_back(&lent, &range);
    back(&numbers, 0);
    back(&marks, 0);
    put(range.place);
    put(range.least);
    put(range.greatest);
    put(range.width);
}

/* Whether the block is sound, which must be as the reader said: all but short lists. */
static void call_sound(uint32_t code, size_t guard)
{
    struct lent block = lend_bytes(given.bytes, given.byte_count, guard);
    if (razovinto_sound(start_of(&block), given.byte_count) != (code == RAZOVINTO_LIST_TOO_SHORT ? 0 : code))
        stop(1, "the block is sound and can't be read, or the other way round");
    back(&block, 0);
}

static void call_read(size_t guard)
{
    struct lent block = lend_bytes(given.bytes, given.byte_count, guard);
    struct lent numbers = lend(given.numbers, given.number_count * 8, guard);
    struct lent marks = lend_bytes(given.marks, given.mark_count, guard);
    struct lent lent = lend(NULL, sizeof(struct razovinto_block), guard);
    struct razovinto_block read;
    uint32_t code = razovinto_read(start_of(&block), given.byte_count, start_of(&numbers), given.number_count,
                                   start_of(&marks), given.mark_count, start_of(&lent), sizeof read / 8);
    answer_back(&lent, &read);
    call_sound(code, guard);
    put(code);
    put(read.place);
    put(read.number);
    put(read.count);
    put_numbers(&numbers);
    put_bytes(&marks, given.mark_count);
    if (read.count > given.number_count || read.count > given.mark_count)
        stop(1, "a count above the room that there is");
    back(&block, 0);
    back(&numbers, read.count * 8);
    back(&marks, read.count);
}

static void call_search(size_t guard)
{
    struct lent run = lend_bytes(given.bytes, given.byte_count, guard);
    struct lent lent = lend(NULL, sizeof(struct razovinto_found), guard);
    struct razovinto_found found;
    put(razovinto_search(start_of(&run), given.byte_count, start_of(&lent), sizeof found / 8));
    answer_back(&lent, &found);
    back(&run, 0);
    put(found.place);
    put(found.found);
    put(found.position);
    put(found.within);
}

typedef uint32_t operation_entry(uint64_t left, uint64_t right, uint8_t *result, size_t length);

/* In the order of the kinds, from 1 on. */
static operation_entry *const entries[] = {NULL, razovinto_sum, razovinto_product, razovinto_quotient,
                                           razovinto_remainder, razovinto_power, razovinto_logarithm};

static void call_operation(size_t guard)
{
    struct lent result = lend_bytes(NULL, RAZOVINTO_RESULT_SIZE, guard);
    uint32_t code = entries[given.kind](given.left, given.right, start_of(&result), RAZOVINTO_RESULT_SIZE);
    put(code);
    put(0);
    put(code ? 0 : (uint64_t)razovinto_overflowed(start_of(&result)));
    put(code ? 0 : razovinto_number(start_of(&result)));
    back(&result, code ? 0 : RAZOVINTO_RESULT_SIZE);
}

/* Two's complement as a number of its sign, without a conversion that C leaves to the compiler. */
static int64_t as_signed(uint64_t digits)
{
    return digits <= INT64_MAX ? (int64_t)digits : -(int64_t)(UINT64_MAX - digits) - 1;
}

static void call_signed(size_t guard)
{
    struct lent result = lend(NULL, sizeof(int64_t), guard);
    int64_t left = as_signed(given.left), right = as_signed(given.right), number = 0;
    uint32_t code = given.kind ? razovinto_signed_remainder(left, right, start_of(&result), 1)
                               : razovinto_signed_quotient(left, right, start_of(&result), 1);
    if (code == 0)
        memcpy(&number, start_of(&result), sizeof number);
    put(code);
    put(0);
    put(number < 0);
    put(number < 0 ? 0 - (uint64_t)number : (uint64_t)number);
    back(&result, code ? 0 : sizeof number);
}

static void call_write(size_t guard)
{
    struct lent numbers = lend(given.numbers, given.number_count * 8, guard);
    struct lent marks = lend_bytes(given.marks, given.mark_count, guard);
    struct lent run = lend_bytes(given.bytes, given.byte_count, guard);
    struct lent lent = lend(NULL, sizeof(struct razovinto_written), guard);
    struct razovinto_written written;
    put(razovinto_write(given.first, start_of(&numbers), given.number_count, start_of(&marks), given.mark_count,
                        start_of(&run), given.byte_count, start_of(&lent), sizeof written / 8));
    answer_back(&lent, &written);
    put(written.place);
    put(written.length);
    put_bytes(&run, given.byte_count);
    if (written.length > given.byte_count)
        stop(1, "a length above the room that there is");
    back(&numbers, 0);
    back(&marks, 0);
    back(&run, written.length);
}

/* A reading that is given back must be one of the level's, by its bits. */
static void put_reading(const struct lent *extent, size_t place)
{
    uint32_t bits;
    size_t i = 0;
    memcpy(&bits, (uint8_t *)start_of(extent) + sizeof(float) * place, sizeof bits);
    while (i < given.reading_count && given.readings[i] != bits)
        i++;
    if (i == given.reading_count)
        stop(1, "bits that no reading of the level has");
    put(bits);
}

/* Whatever the level is: without room for an answer nothing is written, and without room for the extent the place 0. */
static void call_short_level_scan(size_t guard)
{
    struct lent readings = lend_floats(given.readings, given.reading_count, guard);
    struct lent ground = lend_bytes(given.bytes, given.byte_count, guard);
    size_t length, room;
    for (length = 0; length < 2; length++)
        for (room = 0; room + length < 3; room++) {
            struct lent extent = lend_floats(NULL, room, guard), lent = lend(NULL, length * 8, guard);
            uint64_t place = 0;
            if (razovinto_level_scan(start_of(&readings), given.reading_count, start_of(&ground), given.byte_count,
                                     start_of(&extent), room, start_of(&lent), length) != RAZOVINTO_LIST_TOO_SHORT)
                stop(1, "a list is too short, and not refused with 19");
            if (length != 0)
                memcpy(&place, start_of(&lent), sizeof place);
            if (place != 0)
                stop(1, "another place than 0 with too short an extent");
            back(&extent, 0);
            back(&lent, length * 8);
        }
    back(&readings, 0);
    back(&ground, 0);
}

/* The extent has room for up to two floats more than it needs. */
static void call_level_scan(size_t guard)
{
    size_t room = 2 + case_number % 3;
    struct lent readings = lend_floats(given.readings, given.reading_count, guard);
    struct lent ground = lend_bytes(given.bytes, given.byte_count, guard);
    struct lent extent = lend_floats(NULL, room, guard);
    struct lent lent = lend(NULL, sizeof(struct razovinto_at), guard);
    struct razovinto_at at;
    uint32_t code = razovinto_level_scan(start_of(&readings), given.reading_count, start_of(&ground), given.byte_count,
                                         start_of(&extent), room, start_of(&lent), sizeof at / 8);
    call_short_level_scan(guard);
    answer_back(&lent, &at);
    put(code);
    put(at.place);
    if (code == 0) {
        put_reading(&extent, 0);
        put_reading(&extent, 1);
    } else {
        put(0);
        put(0);
    }
    back(&readings, 0);
    back(&ground, 0);
    back(&extent, code ? 0 : sizeof(struct razovinto_extent));
}

/* Whatever the level is: without room for an answer nothing is written. */
static void call_unanswered_level_to_field(size_t guard)
{
    struct lent readings = lend_floats(given.readings, given.reading_count, guard);
    struct lent ground = lend_bytes(given.bytes, given.byte_count, guard);
    struct lent numbers = lend(given.numbers, given.number_count * 8, guard);
    struct lent marks = lend_bytes(given.marks, given.mark_count, guard);
    struct lent lent = lend(NULL, 0, guard);
    if (razovinto_level_to_field(start_of(&readings), given.reading_count, start_of(&ground), given.byte_count,
                                 start_of(&numbers), given.number_count, start_of(&marks), given.mark_count,
                                 start_of(&lent), 0) != RAZOVINTO_LIST_TOO_SHORT)
        stop(1, "there is no list for the answer, and it isn't refused with 19");
    back(&readings, 0);
    back(&ground, 0);
    back(&numbers, 0);
    back(&marks, 0);
    back(&lent, 0);
}

static void call_level_to_field(size_t guard)
{
    struct lent readings = lend_floats(given.readings, given.reading_count, guard);
    struct lent ground = lend_bytes(given.bytes, given.byte_count, guard);
    struct lent numbers = lend(given.numbers, given.number_count * 8, guard);
    struct lent marks = lend_bytes(given.marks, given.mark_count, guard);
    struct lent lent = lend(NULL, sizeof(struct razovinto_at), guard);
    struct razovinto_at at;
    uint32_t code = razovinto_level_to_field(start_of(&readings), given.reading_count, start_of(&ground),
                                             given.byte_count, start_of(&numbers), given.number_count,
                                             start_of(&marks), given.mark_count, start_of(&lent), sizeof at / 8);
    size_t written = code ? 0 : given.reading_count;
    call_unanswered_level_to_field(guard);
    answer_back(&lent, &at);
    put(code);
    put(at.place);
    put_numbers(&numbers);
    put_bytes(&marks, given.mark_count);
    if (written > given.number_count || written > given.mark_count)
        stop(1, "a level that there is no room for");
    back(&readings, 0);
    back(&ground, 0);
    back(&numbers, written * 8);
    back(&marks, written);
}

/* The three lists that a row is written to. */
struct results { struct lent numbers, marks, codes; };

static struct results lend_results(size_t guard)
{
    struct results results = {lend(given.numbers, given.number_count * 8, guard),
                              lend_bytes(given.marks, given.mark_count, guard),
                              lend_bytes(given.codes, given.code_count, guard)};
    return results;
}

static void results_back(struct results *results, size_t written)
{
    back(&results->numbers, written * 8);
    back(&results->marks, written);
    back(&results->codes, written);
}

static int same_list(const struct lent *one, const struct lent *other)
{
    return one->size == 0 || memcmp(start_of(one), start_of(other), one->size) == 0;
}

/* The same operations as records must give the same, whatever stands between their fields. */
static void call_row_of_records(uint32_t code, const struct results *row, size_t guard)
{
    static struct razovinto_operation operations[FIELD];
    struct results results = lend_results(guard);
    struct lent lent;
    size_t i;
    for (i = 0; i < given.byte_count; i++) {
        memset(operations + i, (int)(case_number + i) % 256, sizeof *operations);
        memcpy((uint8_t *)(operations + i) + offsetof(struct razovinto_operation, kind), given.bytes + i, 1);
        memcpy((uint8_t *)(operations + i) + offsetof(struct razovinto_operation, left), given.lefts + i, 8);
        memcpy((uint8_t *)(operations + i) + offsetof(struct razovinto_operation, right), given.rights + i, 8);
    }
    lent = lend(operations, given.byte_count * sizeof *operations, guard);
    if (razovinto_row_of_records(start_of(&lent), given.byte_count, start_of(&results.numbers), given.number_count,
                                 start_of(&results.marks), given.mark_count, start_of(&results.codes), given.code_count)
        != code)
        stop(1, "records are refused otherwise than plain lists");
    if (!same_list(&results.numbers, &row->numbers) || !same_list(&results.marks, &row->marks)
        || !same_list(&results.codes, &row->codes))
        stop(1, "records give other lists than plain lists");
    back(&lent, 0);
    results_back(&results, code ? 0 : given.byte_count);
}

/* Each element must be what the operation's own entry gives. */
static void expect_single_operations(const struct results *row)
{
    uint8_t result[RAZOVINTO_RESULT_SIZE], mark, code;
    uint64_t number;
    size_t i;
    for (i = 0; i < given.byte_count; i++) {
        int kind = given.bytes[i], known = kind >= RAZOVINTO_SUM && kind <= RAZOVINTO_LOGARITHM;
        uint32_t refusal = known ? entries[kind](given.lefts[i], given.rights[i], result, sizeof result)
                                 : RAZOVINTO_UNKNOWN_KIND;
        memcpy(&number, (uint8_t *)start_of(&row->numbers) + 8 * i, 8);
        mark = ((uint8_t *)start_of(&row->marks))[i];
        code = ((uint8_t *)start_of(&row->codes))[i];
        if (code != refusal || number != (refusal ? 0 : razovinto_number(result))
            || mark != (refusal ? 0 : razovinto_overflowed(result)))
            stop(1, "an element is another than the single operation's");
    }
}

static void call_row(size_t guard)
{
    struct lent kinds = lend_bytes(given.bytes, given.byte_count, guard);
    struct lent lefts = lend(given.lefts, given.left_count * 8, guard);
    struct lent rights = lend(given.rights, given.right_count * 8, guard);
    struct results results = lend_results(guard);
    uint32_t code = razovinto_row(start_of(&kinds), given.byte_count, start_of(&lefts), given.left_count,
                                  start_of(&rights), given.right_count, start_of(&results.numbers), given.number_count,
                                  start_of(&results.marks), given.mark_count, start_of(&results.codes),
                                  given.code_count);
    size_t written = code ? 0 : given.byte_count;
    if (written > given.number_count || written > given.mark_count || written > given.code_count)
        stop(1, "a row that there is no room for");
    put(code);
    put(0);
    put_numbers(&results.numbers);
    put_bytes(&results.marks, given.mark_count);
    put_bytes(&results.codes, given.code_count);
    if (given.byte_count == given.left_count && given.byte_count == given.right_count)
        call_row_of_records(code, &results, guard);
    if (code == 0)
        expect_single_operations(&results);
    back(&kinds, 0);
    back(&lefts, 0);
    back(&rights, 0);
    results_back(&results, written);
}

/* The case's line, from lists between guards of so many bytes. */
static void call(size_t guard)
{
    line_length = 0;
    switch (given.row) {
    case 1:
        call_run(guard);
        break;
    case 2:
        call_scan(guard);
        break;
    case 3:
        call_read(guard);
        break;
    case 4:
        call_search(guard);
        break;
    case 5:
        call_operation(guard);
        break;
    case 6:
        call_signed(guard);
        break;
    case 9:
        call_write(guard);
        break;
    case 10:
        call_level_scan(guard);
        break;
    case 11:
        call_level_to_field(guard);
        break;
    case 12:
        call_row(guard);
        break;
    default:
        put(razovinto_power_fits(given.left, given.right));
    }
}

int main(int count, char **words)
{
    static char first[LINE];
    if (count != 2) {
        fprintf(stderr, "usage: replay CASES\n");
        return 2;
    }
    path = words[1];
    cases = fopen(path, "rb");
    if (cases == NULL)
        stop(2, "the file can't be opened");
    while (take_case()) {
        call(GUARD);
        memcpy(first, line, line_length + 1);
        call(0);
        if (strcmp(first, line) != 0)
            stop(1, "another line without guard bytes");
        puts(line);
    }
    fclose(cases);
    return 0;
}

/* Blocks and runs of blocks at their limits. */
#include "calls.h"
#include "lent.h"

enum { SIZE = RAZOVINTO_BLOCK_SIZE, VALUES = RAZOVINTO_BLOCK_VALUES };
/* Where the count, the edition, the values, the marks, the last zeros and the check of a block stand. */
enum { COUNT = 4, EDITION = 5, NUMBERS = 8, MARKS = 448, ZEROS = 503, CHECK = 508 };

/* A field that fills a block: place 5 is overflowed, and place 54 where the test wants it. */
static uint64_t numbers[VALUES];
static uint8_t marks[VALUES];

static void put(uint8_t *bytes, uint64_t number, int size)
{
    int i;
    for (i = 0; i < size; i++)
        bytes[i] = (uint8_t)(number >> (8 * i));
}

/* Makes the check right. */
static void check(uint8_t *block)
{
    uint64_t sum = 0, i;
    for (i = 0; i < CHECK; i++)
        sum += (i + 1) * block[i];
    put(block + CHECK, sum, 4);
}

/* The block of so many values. */
static void make_block_of(uint8_t *block, uint32_t number, const uint64_t *from, const uint8_t *their_marks,
                          size_t count)
{
    size_t i;
    memset(block, 0, SIZE);
    put(block, number, 4);
    block[COUNT] = (uint8_t)count;
    block[EDITION] = 1;
    for (i = 0; i < count; i++)
        put(block + NUMBERS + 8 * i, from[i], 8);
    memcpy(block + MARKS, their_marks, count);
    check(block);
}

/* The block of so many of the field's values. */
static void make_block(uint8_t *block, uint32_t number, size_t count)
{
    make_block_of(block, number, numbers, marks, count);
}

static void expect_sound_once(const char *what, const uint8_t *block, size_t length, size_t guard, uint32_t refusal)
{
    struct lent lent = lend(block, length, guard);
    if (razovinto_sound(start_of(&lent), length) != refusal || !stayed(&lent, 0))
        fail(what, "razovinto_sound returns another number, or a byte changed");
    take_back(&lent);
}

/* Whether a block is sound, at each alignment, and with nothing around it. */
static void expect_sound(const char *what, const uint8_t *block, size_t length, uint32_t refusal)
{
    size_t shift;
    for (shift = 0; shift < 8; shift++)
        expect_sound_once(what, block, length, GUARD + shift, refusal);
    expect_sound_once(what, block, length, 0, refusal);
}

/* A read into so much room, and whether the block is sound. */
static void expect_read(const char *what, const uint8_t *block, size_t length, size_t room_numbers, size_t room_marks,
                        uint32_t refusal, uint64_t number, size_t count)
{
    struct razovinto_block expected = {0, number, count};
    struct call call = {.entry = READ, .bytes = block, .byte_count = length, .number_count = room_numbers,
                        .mark_count = room_marks, .refusal = refusal, .answer = &expected, .values = count,
                        .values_numbers = numbers, .values_marks = marks};
    expect_call(what, &call);
    expect_sound(what, block, length, refusal == RAZOVINTO_LIST_TOO_SHORT ? 0 : refusal);
}

static void expect_refused(const char *what, const uint8_t *block, uint32_t refusal)
{
    expect_read(what, block, SIZE, VALUES, VALUES, refusal, 0, 0);
}

/* A byte changed, with the check left as it was and with the check made right. */
static void expect_damaged(const char *what, size_t place, uint8_t byte)
{
    uint8_t block[SIZE];
    make_block(block, 77, 54);
    block[place] = byte;
    expect_refused(what, block, RAZOVINTO_WRONG_CHECK);
    check(block);
    expect_refused(what, block, RAZOVINTO_BAD_LAYOUT);
}

static void check_rooms(void)
{
    static const size_t counts[] = {0, 1, 29, VALUES};
    uint8_t block[SIZE];
    size_t i, count;
    for (i = 0; i < sizeof counts / sizeof *counts; i++) {
        count = counts[i];
        make_block(block, 0xFFFFFFFFu, count);
        expect_read("room for all", block, SIZE, count, count, 0, 0xFFFFFFFFu, count);
        expect_read("room for more", block, SIZE, count + 3, count + 1, 0, 0xFFFFFFFFu, count);
        if (count == 0)
            continue;
        expect_read("one number too few", block, SIZE, count - 1, count, RAZOVINTO_LIST_TOO_SHORT, 0, 0);
        expect_read("one mark too few", block, SIZE, count, count - 1, RAZOVINTO_LIST_TOO_SHORT, 0, 0);
        expect_read("no room", block, SIZE, 0, 0, RAZOVINTO_LIST_TOO_SHORT, 0, 0);
    }
    block[EDITION] = 2;
    expect_read("a wrong check without room", block, SIZE, 0, 0, RAZOVINTO_WRONG_CHECK, 0, 0);
    check(block);
    expect_read("edition 2 without room", block, SIZE, 0, 0, RAZOVINTO_BAD_LAYOUT, 0, 0);
}

static void check_lengths(void)
{
    static const size_t lengths[] = {0, 1, 508, 511, 513, 1024};
    uint8_t bytes[2 * SIZE];
    size_t i;
    make_block(bytes, 9, 3);
    make_block(bytes + SIZE, 10, 3);
    for (i = 0; i < sizeof lengths / sizeof *lengths; i++)
        expect_read("a block of another length", bytes, lengths[i], VALUES, VALUES, RAZOVINTO_BLOCK_LENGTH, 0, 0);
}

static void check_damages(void)
{
    expect_damaged("edition 2", EDITION, 2);
    expect_damaged("edition 0", EDITION, 0);
    expect_damaged("a count of 56", COUNT, 56);
    expect_damaged("a count of 255", COUNT, 255);
    expect_damaged("a count below the values", COUNT, 53);
    expect_damaged("byte 6", 6, 1);
    expect_damaged("byte 7", 7, 255);
    expect_damaged("a number in an unused place", NUMBERS + 8 * 54, 1);
    expect_damaged("the last byte of the numbers", MARKS - 1, 1);
    expect_damaged("a mark of 2", MARKS, 2);
    expect_damaged("an overflowed value whose number isn't 0", MARKS + 1, 1);
    expect_damaged("the mark of an unused place", MARKS + 54, 1);
    expect_damaged("byte 503", ZEROS, 1);
    expect_damaged("byte 507", CHECK - 1, 1);
}

/* Each byte of the check. */
static void check_checks(void)
{
    uint8_t block[SIZE];
    size_t i;
    for (i = CHECK; i < SIZE; i++) {
        make_block(block, 1, 2);
        block[i] ^= 128;
        expect_refused("a damaged check", block, RAZOVINTO_WRONG_CHECK);
    }
}

static void expect_search(const char *what, const uint8_t *run, size_t length, uint32_t refusal,
                          struct razovinto_found expected)
{
    struct call call = {.entry = SEARCH, .bytes = run, .byte_count = length, .refusal = refusal, .answer = &expected};
    expect_call(what, &call);
}

#define NONE ((struct razovinto_found){0, 0, 0, 0})
#define AT(place) ((struct razovinto_found){place, 0, 0, 0})
#define FOUND(position, within) ((struct razovinto_found){0, 1, position, within})

/* Runs of three blocks, of which the middle one has an overflowed value at place 5, and the others none. */
static void check_searches(void)
{
    uint8_t run[3 * SIZE];
    make_block(run, 0, 5);
    make_block(run + SIZE, 1, 6);
    make_block(run + 2 * SIZE, 2, 0);
    expect_search("no blocks", run, 0, 0, NONE);
    expect_search("one block, none found", run, SIZE, 0, NONE);
    expect_search("found in the second block", run, 3 * SIZE, 0, FOUND(1, 5));
    expect_search("found in the last block", run, 2 * SIZE, 0, FOUND(1, 5));
    expect_search("found in the first block", run + SIZE, SIZE, 0, FOUND(0, 5));
    expect_search("511 bytes", run, 511, RAZOVINTO_BLOCK_LENGTH, AT(0));
    expect_search("513 bytes", run, 513, RAZOVINTO_BLOCK_LENGTH, AT(0));
    expect_search("1023 bytes", run, 1023, RAZOVINTO_BLOCK_LENGTH, AT(0));
    expect_search("a byte too many after a found one", run, 1025, RAZOVINTO_BLOCK_LENGTH, AT(0));
    run[2 * SIZE] ^= 1;
    expect_search("a bad block after a found one", run, 3 * SIZE, 0, FOUND(1, 5));
    expect_search("a bad second block", run + SIZE, 2 * SIZE, 0, FOUND(0, 5));
    expect_search("a bad block alone", run + 2 * SIZE, SIZE, RAZOVINTO_WRONG_CHECK, AT(0));
    run[0] ^= 1;
    expect_search("a bad block before a found one", run, 3 * SIZE, RAZOVINTO_WRONG_CHECK, AT(0));
    run[EDITION] = 2;
    check(run);
    expect_search("edition 2 before a found one", run, 3 * SIZE, RAZOVINTO_BAD_LAYOUT, AT(0));
    make_block(run, 0, 5);
    run[SIZE + COUNT] = 56;
    expect_search("a bad block that has the value", run, 3 * SIZE, RAZOVINTO_WRONG_CHECK, AT(1));
    check(run + SIZE);
    expect_search("a count of 56 where the value is", run, 3 * SIZE, RAZOVINTO_BAD_LAYOUT, AT(1));
    make_block(run + SIZE, 1, 5);
    expect_search("a bad last block", run, 3 * SIZE, RAZOVINTO_WRONG_CHECK, AT(2));
}

/* The last place of a full block. */
static void check_last_place(void)
{
    uint8_t block[SIZE];
    uint64_t number = numbers[5];
    marks[5] = 0;
    marks[54] = 1;
    numbers[54] = 0;
    numbers[5] = MOST;
    make_block(block, 3, VALUES);
    expect_search("found in the last place", block, SIZE, 0, FOUND(0, 54));
    expect_read("overflowed in the last place", block, SIZE, VALUES, VALUES, 0, 3, VALUES);
    marks[5] = 1;
    marks[54] = 0;
    numbers[5] = number;
}

/* A field of three blocks, of which the last has one value; places 5, 54 and 55 are overflowed. */
enum { FIELD = 2 * VALUES + 1 };
static uint64_t field[FIELD];
static uint8_t field_marks[FIELD];

static void make_field(void)
{
    size_t i;
    for (i = 0; i < FIELD; i++) {
        field_marks[i] = i == 5 || i == 54 || i == 55;
        field[i] = field_marks[i] ? 0 : MOST - 1000 * i;
    }
}

/* A write of the field's first values to a run of so many bytes. */
static void expect_write(const char *what, uint32_t first, size_t number_count, size_t mark_count, size_t room,
                         uint32_t refusal, uint64_t place)
{
    uint8_t blocks[3 * SIZE];
    size_t at, written = refusal == 0 ? RAZOVINTO_WRITTEN_SIZE(number_count) : 0;
    struct razovinto_written expected = {place, written};
    struct call call = {.entry = WRITE, .first = first, .byte_count = room, .numbers = field,
                        .number_count = number_count, .marks = field_marks, .mark_count = mark_count,
                        .refusal = refusal, .answer = &expected, .written = written, .blocks = blocks};
    for (at = 0; SIZE * at < written; at++)
        make_block_of(blocks + SIZE * at, first + (uint32_t)at, field + VALUES * at, field_marks + VALUES * at,
                      number_count - VALUES * at < VALUES ? number_count - VALUES * at : VALUES);
    expect_call(what, &call);
}

static void expect_written(const char *what, uint32_t first, size_t count, size_t room)
{
    expect_write(what, first, count, count, room, 0, 0);
}

static void expect_unwritten(const char *what, uint32_t first, size_t count, size_t room, uint32_t refusal,
                             uint64_t place)
{
    expect_write(what, first, count, count, room, refusal, place);
}

static void check_written_rooms(void)
{
    static const struct { size_t count, blocks; } fields[] = {
        {1, 1}, {2, 1}, {54, 1}, {VALUES, 1}, {56, 2}, {109, 2}, {110, 2}, {FIELD, 3},
    };
    size_t i, count, size;
    expect(RAZOVINTO_WRITTEN_SIZE(0) == 0, "no values take no blocks");
    for (i = 0; i < sizeof fields / sizeof *fields; i++) {
        count = fields[i].count;
        size = fields[i].blocks * SIZE;
        expect(RAZOVINTO_WRITTEN_SIZE(count) == size, "how many bytes the header says");
        expect_written("a run just as long", 7, count, size);
        expect_written("a run of a byte more", 7, count, size + 1);
        expect_written("a run of a block more", 0xFFFFFFFFu - 2, count, size + SIZE);
        expect_unwritten("a run of a byte less", 7, count, size - 1, RAZOVINTO_LIST_TOO_SHORT, 0);
        expect_unwritten("a run of a block less", 7, count, size - SIZE, RAZOVINTO_LIST_TOO_SHORT, 0);
        expect_unwritten("no run", 0xFFFFFFFFu, count, 0, RAZOVINTO_LIST_TOO_SHORT, 0);
    }
}

static void check_written_numbers(void)
{
    const uint32_t last = 0xFFFFFFFFu;
    expect_written("block 0", 0, FIELD, 3 * SIZE);
    expect_written("the last number", last, VALUES, SIZE);
    expect_written("the last two numbers", last - 1, 56, 2 * SIZE);
    expect_written("the last three numbers", last - 2, FIELD, 3 * SIZE);
    expect_unwritten("a number too many", last, 56, 2 * SIZE, RAZOVINTO_BLOCK_NUMBER_TOO_LARGE, 0);
    expect_unwritten("two too many", last, FIELD, 3 * SIZE, RAZOVINTO_BLOCK_NUMBER_TOO_LARGE, 0);
    expect_unwritten("the last of three", last - 1, FIELD, 3 * SIZE, RAZOVINTO_BLOCK_NUMBER_TOO_LARGE, 0);
    expect_unwritten("no room comes before it", last, 56, 2 * SIZE - 1, RAZOVINTO_LIST_TOO_SHORT, 0);
}

static void check_written_lists(void)
{
    expect_write("a mark too few", 0, 56, 55, 2 * SIZE, RAZOVINTO_LENGTHS_DIFFER, 0);
    expect_write("a mark too many", 0, 55, 56, SIZE, RAZOVINTO_LENGTHS_DIFFER, 0);
    expect_write("no numbers but marks", 0xFFFFFFFFu, 0, 1, 0, RAZOVINTO_LENGTHS_DIFFER, 0);
    expect_write("no marks, and too little room", 0xFFFFFFFFu, 56, 0, 0, RAZOVINTO_LENGTHS_DIFFER, 0);
    expect_unwritten("no values", 0, 0, SIZE, RAZOVINTO_FIELD_EMPTY, 0);
    expect_unwritten("no values and no run", 0xFFFFFFFFu, 0, 0, RAZOVINTO_FIELD_EMPTY, 0);
}

/* A mark that is wrong at a place, with room and with everything that is looked at later wrong too. */
static void expect_bad_mark(const char *what, size_t place, uint8_t mark, uint64_t number)
{
    field[place] = number;
    field_marks[place] = mark;
    expect_unwritten(what, 0, FIELD, 3 * SIZE, RAZOVINTO_BAD_MARK, place);
    expect_unwritten(what, 0xFFFFFFFFu, FIELD, 0, RAZOVINTO_BAD_MARK, place);
    expect_write(what, 0xFFFFFFFFu, FIELD, FIELD - 1, 0, RAZOVINTO_LENGTHS_DIFFER, 0);
}

static void check_written_marks(void)
{
    size_t i;
    /* From the last place to the first, so that the earliest is always the new one. */
    expect_bad_mark("a mark of 2 at the last place", FIELD - 1, 2, 0);
    expect_bad_mark("a mark of 255", 56, 255, 9);
    expect_bad_mark("overflowed with a number", 55, 1, 1);
    expect_bad_mark("overflowed with the largest number", 54, 1, MOST);
    expect_bad_mark("a mark of 2 at the first place", 0, 2, 0);
    for (i = 0; i < FIELD; i++) {
        field[i] = 0;
        field_marks[i] = 1;
    }
    expect_written("all overflowed", 1, FIELD, 3 * SIZE);
    make_field();
}

/* What is written is found, and read back as it was. */
static void check_round_trip(void)
{
    uint8_t run[RAZOVINTO_WRITTEN_SIZE(FIELD)], read_marks[VALUES];
    uint64_t read_numbers[VALUES];
    struct razovinto_written written;
    struct razovinto_found found;
    struct razovinto_block block;
    size_t at;
    field[5] = field_marks[5] = 0;
    expect(razovinto_write(9, field, FIELD, field_marks, FIELD, run, sizeof run, RAZOVINTO_ANSWER(written)) == 0
               && written.length == sizeof run, "a field is written");
    expect(razovinto_search(run, sizeof run, RAZOVINTO_ANSWER(found)) == 0 && found.found == 1 && found.position == 0
               && found.within == 54, "its first overflowed place is found");
    for (at = 0; at < FIELD; at += VALUES) {
        expect(razovinto_read(run + at / VALUES * SIZE, SIZE, read_numbers, VALUES, read_marks, VALUES,
                              RAZOVINTO_ANSWER(block)) == 0 && block.number == 9 + at / VALUES, "a block is read back");
        expect(block.count == (FIELD - at < VALUES ? FIELD - at : VALUES), "how many values it has");
        expect(memcmp(read_numbers, field + at, block.count * sizeof *field) == 0
                   && memcmp(read_marks, field_marks + at, block.count) == 0, "which values it has");
    }
    make_field();
}

static void check_writes(void)
{
    make_field();
    check_written_rooms();
    check_written_numbers();
    check_written_lists();
    check_written_marks();
    check_round_trip();
}

static void check_null(void)
{
    uint64_t answer[4];
    uint8_t block[SIZE];
    make_block(block, 8, 0);
    expect(razovinto_sound(NULL, 0) == RAZOVINTO_BLOCK_LENGTH, "a null block");
    expect(razovinto_read(NULL, 0, NULL, 0, NULL, 0, answer, 3) == RAZOVINTO_BLOCK_LENGTH, "a read of null lists");
    expect(razovinto_read(block, SIZE, NULL, 0, NULL, 0, answer, 3) == 0 && answer[1] == 8 && answer[2] == 0,
           "a read of no values into null lists");
    expect(razovinto_read(block, SIZE, NULL, 0, NULL, 0, NULL, 0) == RAZOVINTO_LIST_TOO_SHORT, "a read, no answer");
    expect(razovinto_write(0, NULL, 0, NULL, 0, NULL, 0, answer, 2) == RAZOVINTO_FIELD_EMPTY, "a write of null lists");
    expect(razovinto_write(0, field, 1, field_marks, 1, NULL, 0, answer, 2) == RAZOVINTO_LIST_TOO_SHORT,
           "a write to a null run");
    expect(razovinto_write(0, field, 1, NULL, 0, block, SIZE, answer, 2) == RAZOVINTO_LENGTHS_DIFFER,
           "a write without marks");
    expect(razovinto_write(0, NULL, 0, NULL, 0, NULL, 0, NULL, 0) == RAZOVINTO_LIST_TOO_SHORT, "a write, no answer");
    expect(razovinto_search(NULL, 0, answer, 4) == 0 && answer[1] == 0, "a search of nothing");
    expect(razovinto_search(NULL, 0, NULL, 0) == RAZOVINTO_LIST_TOO_SHORT, "a search without an answer");
}

void check_blocks(void)
{
    size_t i;
    for (i = 0; i < VALUES; i++)
        numbers[i] = i == 5 ? 0 : MOST - 1000 * i;
    marks[5] = 1;
    check_rooms();
    check_lengths();
    check_damages();
    check_checks();
    check_searches();
    check_last_place();
    check_writes();
    check_null();
}

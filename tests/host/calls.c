#include "calls.h"
#include "lent.h"

void fail(const char *what, const char *why)
{
    fflush(stdout);
    fprintf(stderr, "limits: %s: %s\n", what, why);
    exit(1);
}

void expect(int holds, const char *what)
{
    if (!holds)
        fail(what, "it is not so");
}

static size_t need_of(enum entry entry)
{
    static const size_t needs[] = {sizeof(struct razovinto_run), sizeof(struct razovinto_shape),
                                   sizeof(struct razovinto_range), sizeof(struct razovinto_block),
                                   sizeof(struct razovinto_written), sizeof(struct razovinto_found),
                                   sizeof(struct razovinto_at), sizeof(struct razovinto_at)};
    return needs[entry] / sizeof(uint64_t);
}

/* The lists of a call, lent. */
struct lists { struct lent readings, bytes, numbers, marks, extent, answer; };

static uint32_t called(const struct call *call, const struct lists *lists, size_t length)
{
    void *bytes = start_of(&lists->bytes), *numbers = start_of(&lists->numbers);
    void *marks = start_of(&lists->marks), *answer = start_of(&lists->answer);
    void *readings = start_of(&lists->readings), *extent = start_of(&lists->extent);
    switch (call->entry) {
    case RUN:
        return razovinto_run(call->width, bytes, call->byte_count, numbers, call->number_count, call->allowance, answer,
                             length);
    case SHAPE:
        return razovinto_shape(call->width, bytes, call->byte_count, numbers, call->number_count, answer, length);
    case SCAN:
        return razovinto_scan(numbers, call->number_count, marks, call->mark_count, answer, length);
    case READ:
        return razovinto_read(bytes, call->byte_count, numbers, call->number_count, marks, call->mark_count, answer,
                              length);
    case WRITE:
        return razovinto_write(call->first, numbers, call->number_count, marks, call->mark_count, bytes,
                               call->byte_count, answer, length);
    case SEARCH:
        return razovinto_search(bytes, call->byte_count, answer, length);
    case LEVEL_SCAN:
        return razovinto_level_scan(readings, call->reading_count, bytes, call->byte_count, extent, call->extent_count,
                                    answer, length);
    default:
        return razovinto_level_to_field(readings, call->reading_count, bytes, call->byte_count, numbers,
                                        call->number_count, marks, call->mark_count, answer, length);
    }
}

/* One call, with lists between guards of so many bytes. Lists of bytes are `shift` bytes off an aligned place, and
 * lists of floats four times as many. */
static void expect_once(const char *what, const struct call *call, size_t length, size_t guard, size_t shift)
{
    struct lists lists = {
        lend(call->readings, call->reading_count * sizeof(float), guard + shift * sizeof(float)),
        lend(call->bytes, call->byte_count, guard + shift),
        lend(call->numbers, call->number_count * sizeof(uint64_t), guard),
        lend(call->marks, call->mark_count, guard + shift),
        lend(NULL, call->extent_count * sizeof(float), guard + shift * sizeof(float)),
        lend(NULL, length * sizeof(uint64_t), guard),
    };
    size_t need = need_of(call->entry), values = length < need ? 0 : call->values;
    size_t blocks = length < need ? 0 : call->written, written = length < need ? 0 : need * sizeof(uint64_t);
    size_t floats = length < need ? 0 : call->floats * sizeof(float);
    char where[256];
    snprintf(where, sizeof where, "%s, with %zu numbers for the answer, %zu guard bytes, lists of bytes %zu off", what,
             length, guard, shift);
    if (called(call, &lists, length) != (length < need ? RAZOVINTO_LIST_TOO_SHORT : call->refusal))
        fail(where, "not the number that it must return");
    if (written != 0 && memcmp(start_of(&lists.answer), call->answer, written) != 0)
        fail(where, "another answer is written");
    if (values != 0 && (memcmp(start_of(&lists.numbers), call->values_numbers, values * sizeof(uint64_t)) != 0
                        || memcmp(start_of(&lists.marks), call->values_marks, values) != 0))
        fail(where, "other values are written");
    if (blocks != 0 && memcmp(start_of(&lists.bytes), call->blocks, blocks) != 0)
        fail(where, "other blocks are written");
    if (floats != 0 && memcmp(start_of(&lists.extent), call->extent, floats) != 0)
        fail(where, "other floats are written, or their bits are others");
    if (!stayed(&lists.readings, 0) || !stayed(&lists.bytes, blocks)
        || !stayed(&lists.numbers, values * sizeof(uint64_t)) || !stayed(&lists.marks, values)
        || !stayed(&lists.extent, floats) || !stayed(&lists.answer, written))
        fail(where, "a byte changed that must stay");
    take_back(&lists.readings);
    take_back(&lists.extent);
    take_back(&lists.bytes);
    take_back(&lists.numbers);
    take_back(&lists.marks);
    take_back(&lists.answer);
}

void expect_call(const char *what, const struct call *call)
{
    size_t need = need_of(call->entry), length, shift;
    for (length = 0; length <= need + 2; length++) {
        for (shift = 0; shift < (length < need ? 1 : 8); shift++)
            expect_once(what, call, length, GUARD, shift);
        expect_once(what, call, length, 0, 0);
    }
}

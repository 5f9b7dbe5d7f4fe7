/* Recipes at their limits: widths, lengths, the shape's faults, items that fail, and the state at each allowance. */
#include "calls.h"

#include <stdio.h>
#include <stdlib.h>
#include <string.h>

enum { ITEMS = 258 };

struct recipe { uint8_t kinds[ITEMS]; uint64_t numbers[ITEMS]; size_t count; };

static void add(struct recipe *recipe, uint8_t kind, uint64_t number)
{
    if (recipe->count == ITEMS)
        fail("a recipe of the test", "too many items");
    recipe->kinds[recipe->count] = kind;
    recipe->numbers[recipe->count++] = number;
}

/* One item: an operation's name, or a literal. */
static void add_word(struct recipe *recipe, const char *word)
{
    static const char *const operations[] = {"", "sum", "product", "quotient", "remainder", "power", "logarithm"};
    uint8_t kind;
    for (kind = RAZOVINTO_SUM; kind <= RAZOVINTO_LOGARITHM; kind++)
        if (strcmp(word, operations[kind]) == 0) {
            add(recipe, kind, 0);
            return;
        }
    add(recipe, RAZOVINTO_LITERAL, strtoull(word, NULL, 10));
}

static struct recipe in_words(const char *words)
{
    struct recipe recipe = {.count = 0};
    char word[32];
    int length;
    while (sscanf(words, "%31s%n", word, &length) == 1) {
        add_word(&recipe, word);
        words += length;
    }
    return recipe;
}

/* What the shape alone must give, from what the run must. */
static void expect_shape(const char *what, struct call call, uint64_t place)
{
    int refused = call.refusal >= RAZOVINTO_UNKNOWN_WIDTH && call.refusal <= RAZOVINTO_NONE_LEFT;
    struct razovinto_shape shape = {refused ? place : 0, refused ? 0 : MOST >> (64 - call.width)};
    call.entry = SHAPE;
    call.refusal = refused ? call.refusal : 0;
    call.answer = &shape;
    expect_call(what, &call);
}

/* The first `kinds` and `numbers` of a recipe's lists, run and their shape alone. */
static void expect_lists(const char *what, uint64_t width, const struct recipe *recipe, size_t kinds, size_t numbers,
                         uint64_t allowance, uint32_t refusal, struct razovinto_run expected)
{
    struct call call = {.entry = RUN, .width = width, .allowance = allowance, .bytes = recipe->kinds,
                        .byte_count = kinds, .numbers = recipe->numbers, .number_count = numbers, .refusal = refusal,
                        .answer = &expected};
    char where[200];
    snprintf(where, sizeof where, "%s at %llu bits, allowance %llu", what, (unsigned long long)width,
             (unsigned long long)allowance);
    expect_call(where, &call);
    expect_shape(where, call, expected.place);
}

static void expect_run(uint64_t width, const char *words, uint64_t allowance, uint32_t refusal,
                       struct razovinto_run expected)
{
    struct recipe recipe = in_words(words);
    expect_lists(words, width, &recipe, recipe.count, recipe.count, allowance, refusal, expected);
}

#define ANSWER(...) ((struct razovinto_run){__VA_ARGS__})
#define STOPPED(at, of, ...) RAZOVINTO_ALLOWANCE_SPENT, ANSWER(.place = of, .steps = at, .done = of, __VA_ARGS__)

static void check_values(void)
{
    expect_run(8, "255", 1, 0, ANSWER(.number = 255, .steps = 1));
    expect_run(16, "65535", 1, 0, ANSWER(.number = 65535, .steps = 1));
    expect_run(32, "4294967295", 1, 0, ANSWER(.number = 4294967295u, .steps = 1));
    expect_run(64, "18446744073709551615", MOST, 0, ANSWER(.number = MOST, .steps = 1));
    expect_run(8, "255 1 sum", 3, 0, ANSWER(.overflowed = 1, .steps = 3));
    expect_run(8, "255 1 sum 0 product", 100, 0, ANSWER(.number = 0, .steps = 5));
    expect_run(64, "18446744073709551615 1 sum", 3, 0, ANSWER(.overflowed = 1, .steps = 3));
    expect_run(64, "18446744073709551614 1 sum", 3, 0, ANSWER(.number = MOST, .steps = 3));
    expect_run(8, "0 0 power", 3, 0, ANSWER(.number = 1, .steps = 3));
}

/* What is known with an overflowed operand takes the item's one step, and no phase is entered. */
static void check_known(void)
{
    expect_run(8, "7 255 1 sum quotient", 5, 0, ANSWER(.number = 0, .steps = 5));
    expect_run(8, "7 255 1 sum remainder", 5, 0, ANSWER(.number = 7, .steps = 5));
    expect_run(8, "255 1 sum 0 power", 5, 0, ANSWER(.number = 1, .steps = 5));
    expect_run(8, "0 255 1 sum power", 5, 0, ANSWER(.number = 0, .steps = 5));
    expect_run(8, "1 255 1 sum power", 5, 0, ANSWER(.number = 1, .steps = 5));
    expect_run(8, "2 255 1 sum power", 5, 0, ANSWER(.overflowed = 1, .steps = 5));
    expect_run(8, "255 1 sum 1 power", 5, 0, ANSWER(.overflowed = 1, .steps = 5));
    expect_run(8, "255 1 sum 255 1 sum power", 7, 0, ANSWER(.overflowed = 1, .steps = 7));
    expect_run(8, "255 1 sum 7 logarithm", 5, 0, ANSWER(.number = 0, .steps = 5));
    expect_run(64, "18446744073709551615 1 sum 0 power", 5, 0, ANSWER(.number = 1, .steps = 5));
    expect_run(8, "2 255 1 sum power", 4, STOPPED(4, 4, .on_hand_overflowed = {0, 1}, .on_hand = {2}));
}

static void check_widths(void)
{
    static const uint64_t widths[] = {0, 1, 7, 9, 15, 17, 31, 33, 63, 65, 128, 255, 256, 264, 65536 + 8,
                                      4294967296u + 64, MOST - 7, MOST};
    struct recipe recipe = in_words("1 sum");
    size_t i;
    for (i = 0; i < sizeof widths / sizeof *widths; i++) {
        expect_run(widths[i], "1 1 sum", 100, RAZOVINTO_UNKNOWN_WIDTH, ANSWER(.place = 0));
        expect_lists("lists that differ", widths[i], &recipe, 2, 1, 0, RAZOVINTO_UNKNOWN_WIDTH, ANSWER(.place = 0));
        expect_lists("no items", widths[i], &recipe, 0, 0, 0, RAZOVINTO_UNKNOWN_WIDTH, ANSWER(.place = 0));
    }
}

static void check_lengths(void)
{
    struct recipe longest = {.count = 0};
    while (longest.count < ITEMS)
        add(&longest, longest.count == 0 || longest.count % 2 == 1 ? RAZOVINTO_LITERAL : RAZOVINTO_SUM, 0);
    expect_lists("lists of 0 and 1", 8, &longest, 0, 1, 5, RAZOVINTO_LENGTHS_DIFFER, ANSWER(.place = 0));
    expect_lists("lists of 1 and 0", 8, &longest, 1, 0, 5, RAZOVINTO_LENGTHS_DIFFER, ANSWER(.place = 0));
    expect_lists("lists of 257 and 256", 8, &longest, 257, 256, 5, RAZOVINTO_LENGTHS_DIFFER, ANSWER(.place = 0));
    expect_lists("0 items", 8, &longest, 0, 0, 5, RAZOVINTO_ITEM_COUNT, ANSWER(.place = 0));
    expect_lists("257 items", 8, &longest, 257, 257, 5, RAZOVINTO_ITEM_COUNT, ANSWER(.place = 0));
    expect_lists("256 items", 8, &longest, 256, 256, MOST, RAZOVINTO_SEVERAL_LEFT, ANSWER(.place = 256));
    expect_lists("255 items", 8, &longest, 255, 255, 255, 0, ANSWER(.number = 0, .steps = 255));
    expect_lists("255 items", 8, &longest, 255, 255, 254, STOPPED(254, 254, .phase = 0));
}

/* A recipe in words with one item put at a place of it. */
static void expect_item(const char *words, size_t place, uint8_t kind, uint64_t number, uint32_t refusal)
{
    struct recipe recipe = in_words(words);
    recipe.kinds[place] = kind;
    recipe.numbers[place] = number;
    expect_lists(words, 8, &recipe, recipe.count, recipe.count, 100, refusal, ANSWER(.place = place));
}

static void check_shapes(void)
{
    expect_item("1 2 sum", 0, 7, 0, RAZOVINTO_UNKNOWN_KIND);
    expect_item("1 2 sum", 1, 255, 300, RAZOVINTO_UNKNOWN_KIND);
    expect_item("1 2 sum", 2, RAZOVINTO_LOGARITHM + 1, 0, RAZOVINTO_UNKNOWN_KIND);
    expect_item("1 2 sum", 2, RAZOVINTO_SUM, 1, RAZOVINTO_UNKNOWN_KIND);
    expect_item("1 2 sum", 0, RAZOVINTO_SUM, MOST, RAZOVINTO_UNKNOWN_KIND);
    expect_item("1 2 sum", 1, RAZOVINTO_LITERAL, 256, RAZOVINTO_LITERAL_TOO_LARGE);
    expect_item("1 2 sum", 0, RAZOVINTO_LITERAL, MOST, RAZOVINTO_LITERAL_TOO_LARGE);
    expect_run(16, "65536", 100, RAZOVINTO_LITERAL_TOO_LARGE, ANSWER(.place = 0));
    expect_run(32, "4294967296", 100, RAZOVINTO_LITERAL_TOO_LARGE, ANSWER(.place = 0));
    expect_run(8, "sum", 100, RAZOVINTO_TOO_FEW_ON_HAND, ANSWER(.place = 0));
    expect_run(8, "1 sum", 100, RAZOVINTO_TOO_FEW_ON_HAND, ANSWER(.place = 1));
    expect_run(8, "1 2 sum product", 100, RAZOVINTO_TOO_FEW_ON_HAND, ANSWER(.place = 3));
    expect_run(8, "1 2", 100, RAZOVINTO_SEVERAL_LEFT, ANSWER(.place = 2));
    expect_run(8, "1 2 3 sum", 0, RAZOVINTO_SEVERAL_LEFT, ANSWER(.place = 4));
}

/* A value beyond the hand's places, a full hand, and a hand whose places are overflowed but for the last. */
static void check_hands(void)
{
    struct razovinto_run full = ANSWER(.place = 32, .steps = 32, .done = 32);
    struct razovinto_run overflowed = ANSWER(.place = 94, .steps = 94, .done = 94);
    struct recipe recipe = {.count = 0}, large = {.count = 0}, wide = {.count = 0};
    size_t i;
    for (i = 0; i < 33; i++)
        add(&recipe, RAZOVINTO_LITERAL, MOST - i);
    expect_lists("33 literals", 64, &recipe, 33, 33, 100, RAZOVINTO_HAND_FULL, ANSWER(.place = 32));
    expect_lists("32 literals", 64, &recipe, 32, 32, 100, RAZOVINTO_SEVERAL_LEFT, ANSWER(.place = 32));
    recipe.count = 32;
    for (i = 0; i < RAZOVINTO_PLACES; i++)
        full.on_hand[i] = MOST - i;
    for (i = 0; i < 31; i++)
        add(&recipe, RAZOVINTO_SUM, 0);
    expect_lists("32 on hand", 64, &recipe, 63, 63, 32, RAZOVINTO_ALLOWANCE_SPENT, full);
    expect_lists("32 on hand", 64, &recipe, 63, 63, 63, 0, ANSWER(.overflowed = 1, .steps = 63));
    for (i = 0; i < 33; i++)
        add(&large, RAZOVINTO_LITERAL, i < 32 ? 1 : 256);
    expect_lists("the 33rd too large", 8, &large, 33, 33, 9, RAZOVINTO_LITERAL_TOO_LARGE, ANSWER(.place = 32));
    for (i = 0; i < 31; i++) {
        add(&wide, RAZOVINTO_LITERAL, 255);
        add(&wide, RAZOVINTO_LITERAL, 1);
        add(&wide, RAZOVINTO_SUM, 0);
        overflowed.on_hand_overflowed[i] = 1;
    }
    add(&wide, RAZOVINTO_LITERAL, 5);
    overflowed.on_hand[31] = 5;
    for (i = 0; i < 31; i++)
        add(&wide, RAZOVINTO_PRODUCT, 0);
    expect_lists("31 overflowed on hand", 8, &wide, wide.count, wide.count, 94, RAZOVINTO_ALLOWANCE_SPENT, overflowed);
}

static void check_failing_items(void)
{
    expect_run(8, "7 0 quotient", 100, RAZOVINTO_DIVISOR_ZERO, ANSWER(.place = 2, .steps = 3));
    expect_run(8, "7 0 remainder", 3, RAZOVINTO_DIVISOR_ZERO, ANSWER(.place = 2, .steps = 3));
    expect_run(8, "1 5 logarithm", 100, RAZOVINTO_BASE_BELOW_TWO, ANSWER(.place = 2, .steps = 3));
    expect_run(64, "3 0 0 logarithm sum", 100, RAZOVINTO_BASE_BELOW_TWO, ANSWER(.place = 3, .steps = 4));
    expect_run(8, "255 1 sum 0 quotient", 100, RAZOVINTO_OVERFLOWED, ANSWER(.place = 4, .steps = 5));
    expect_run(8, "255 1 sum 0 remainder", 100, RAZOVINTO_OVERFLOWED, ANSWER(.place = 4, .steps = 5));
    expect_run(8, "255 1 sum 1 remainder", 100, RAZOVINTO_OVERFLOWED, ANSWER(.place = 4, .steps = 5));
    expect_run(8, "1 255 1 sum logarithm", 100, RAZOVINTO_OVERFLOWED, ANSWER(.place = 4, .steps = 5));
    /* One step short of the item that would fail. */
    expect_run(8, "7 0 quotient", 2, STOPPED(2, 2, .on_hand = {7}));
}

static void check_stopped(void)
{
    expect_run(8, "2 7 power", 0, STOPPED(0, 0, .phase = 0));
    expect_run(8, "2 7 power", 1, STOPPED(1, 1, .on_hand = {2}));
    expect_run(8, "2 7 power", 2, STOPPED(2, 2, .on_hand = {2, 7}));
    expect_run(8, "2 7 power", 3, STOPPED(3, 2, .phase = 1, .power = {0, 1, 0, 2, 7}));
    expect_run(8, "2 7 power", 4, STOPPED(4, 2, .phase = 1, .power = {0, 2, 0, 4, 3}));
    expect_run(8, "2 7 power", 5, STOPPED(5, 2, .phase = 1, .power = {0, 8, 0, 16, 1}));
    expect_run(8, "2 7 power", 6, 0, ANSWER(.number = 128, .steps = 6));
    expect_run(8, "2 7 power", MOST, 0, ANSWER(.number = 128, .steps = 6));
    expect_run(8, "16 7 power", 4, STOPPED(4, 2, .phase = 1, .power = {0, 16, 1, 0, 3}));
    expect_run(8, "16 7 power", 5, STOPPED(5, 2, .phase = 1, .power = {1, 0, 1, 0, 1}));
    expect_run(8, "255 1 sum 3 2 7 power sum sum", 9,
               STOPPED(9, 6, .phase = 1, .power = {0, 8, 0, 16, 1}, .on_hand_overflowed = {1}, .on_hand = {0, 3}));
    expect_run(8, "2 255 logarithm", 2, STOPPED(2, 2, .on_hand = {2, 255}));
    expect_run(8, "2 255 logarithm", 3, STOPPED(3, 2, .phase = 2, .logarithm = {2, 255, 0}));
    expect_run(8, "2 255 logarithm", 4, STOPPED(4, 2, .phase = 2, .logarithm = {2, 127, 1}));
    expect_run(8, "2 255 logarithm", 5, STOPPED(5, 2, .phase = 2, .logarithm = {2, 63, 2}));
    expect_run(8, "2 255 logarithm", 6, STOPPED(6, 2, .phase = 2, .logarithm = {2, 31, 3}));
    expect_run(8, "2 255 logarithm", 7, STOPPED(7, 2, .phase = 2, .logarithm = {2, 15, 4}));
    expect_run(8, "2 255 logarithm", 8, STOPPED(8, 2, .phase = 2, .logarithm = {2, 7, 5}));
    expect_run(8, "2 255 logarithm", 9, STOPPED(9, 2, .phase = 2, .logarithm = {2, 3, 6}));
    expect_run(8, "2 255 logarithm", 10, 0, ANSWER(.number = 7, .steps = 10));
    expect_run(64, "18446744073709551615 18446744073709551615 logarithm", 3,
               STOPPED(3, 2, .phase = 2, .logarithm = {MOST, MOST, 0}));
}

static void check_null(void)
{
    uint64_t answer[sizeof(struct razovinto_run) / sizeof(uint64_t)];
    uint8_t kind = RAZOVINTO_LITERAL;
    uint64_t number = 5;
    expect(razovinto_run(8, NULL, 0, NULL, 0, 9, answer, 50) == RAZOVINTO_ITEM_COUNT, "a run of null lists");
    expect(razovinto_run(8, &kind, 1, NULL, 0, 9, answer, 50) == RAZOVINTO_LENGTHS_DIFFER, "a run without numbers");
    expect(razovinto_run(8, NULL, 0, &number, 1, 9, answer, 50) == RAZOVINTO_LENGTHS_DIFFER, "a run without kinds");
    expect(razovinto_run(8, &kind, 1, &number, 1, 9, NULL, 0) == RAZOVINTO_LIST_TOO_SHORT, "a run without an answer");
    expect(razovinto_run(7, NULL, 0, NULL, 0, 0, NULL, 0) == RAZOVINTO_LIST_TOO_SHORT, "a run of nothing");
    expect(razovinto_shape(8, NULL, 0, NULL, 0, answer, 2) == RAZOVINTO_ITEM_COUNT, "a shape of null lists");
    expect(razovinto_shape(8, &kind, 1, &number, 1, NULL, 0) == RAZOVINTO_LIST_TOO_SHORT, "a shape without an answer");
}

void check_recipes(void)
{
    check_values();
    check_known();
    check_widths();
    check_lengths();
    check_shapes();
    check_hands();
    check_failing_items();
    check_stopped();
    check_null();
}

/* The product from halves of 32 bits in other forms than the library's, and in its own, for the benchmark alone. bench/run has
   the kit's compiler compile them, so that what differs is the form. */
#include "plain.h"

#define TWO_TO_32 (UINT64_C(1) << 32)
#define LOW(n) ((n) % TWO_TO_32)
#define HIGH(n) ((n) / TWO_TO_32)

/* the numbers of 16 bytes that an entry writes: the value's number and its mark */
static uint32_t put(uint8_t *result, uint64_t number, uint64_t mark)
{
    __builtin_memcpy(result, &number, 8);
    __builtin_memcpy(result + 8, &mark, 8);
    return 0;
}

static uint32_t fits(uint8_t *result, uint64_t number)
{
    return put(result, number, 0);
}

static uint32_t overflowed(uint8_t *result)
{
    __asm__ volatile(""); /* so that a branch leads here, as in the library */
    return put(result, 0, 1);
}

/* Each form is a function `NAME(a, b, result)` of what is left where not both numbers are below 2^32. */
#define FORM(name)                                                                                                                 \
    static uint32_t name(uint64_t a, uint64_t b, uint8_t *result);                                                                 \
    uint32_t halves_##name(uint64_t left, uint64_t right, uint8_t *result, size_t length)                                          \
    {                                                                                                                              \
        if (length < 16)                                                                                                           \
            return 19;                                                                                                             \
        return (left | right) < TWO_TO_32 ? fits(result, left * right) : name(left, right, result);                                \
    }                                                                                                                              \
    static uint32_t name(uint64_t a, uint64_t b, uint8_t *result)

/* the greater by the lesser: one test, and the middle part and the last half joined */
FORM(joined)
{
    uint64_t greater = a < b ? b : a, lesser = a < b ? a : b;
    uint64_t low = LOW(greater) * LOW(lesser), middle = HIGH(greater) * LOW(lesser) + HIGH(low);
    return (lesser | middle) < TWO_TO_32 ? fits(result, middle * TWO_TO_32 + LOW(low)) : overflowed(result);
}

/* the same, with the two products of halves added up */
FORM(added)
{
    uint64_t greater = a < b ? b : a, lesser = a < b ? a : b;
    uint64_t low = LOW(greater) * LOW(lesser), cross = HIGH(greater) * LOW(lesser), middle = cross + HIGH(low);
    return (lesser | middle) < TWO_TO_32 ? fits(result, cross * TWO_TO_32 + low) : overflowed(result);
}

/* the same, with the halves for the test alone, and the product of the two numbers themselves */
FORM(whole)
{
    uint64_t greater = a < b ? b : a, lesser = a < b ? a : b;
    uint64_t low = LOW(greater) * LOW(lesser), middle = HIGH(greater) * LOW(lesser) + HIGH(low);
    return (lesser | middle) < TWO_TO_32 ? fits(result, a * b) : overflowed(result);
}

/* neither is the greater: a test of the high halves' product, and then both cross products */
FORM(crossed)
{
    if (HIGH(a) * HIGH(b) != 0)
        return overflowed(result);
    uint64_t low = LOW(a) * LOW(b), middle = HIGH(a) * LOW(b) + LOW(a) * HIGH(b) + HIGH(low);
    return middle < TWO_TO_32 ? fits(result, middle * TWO_TO_32 + LOW(low)) : overflowed(result);
}

/* all four products added up column by column, and one test of what is above 64 bits */
FORM(columns)
{
    uint64_t low = LOW(a) * LOW(b), first = HIGH(a) * LOW(b) + HIGH(low), second = LOW(first) + LOW(a) * HIGH(b);
    uint64_t above = HIGH(a) * HIGH(b) + HIGH(first) + HIGH(second);
    return above == 0 ? fits(result, second * TWO_TO_32 + LOW(low)) : overflowed(result);
}

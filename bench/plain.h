/* The same functions without proofs: in C (plain.c) and in Rust (plain.rs, the names with rust_); and those of an earlier
   library (the names with before_), which are there only where bench/run is given its commit. */
#ifndef PLAIN_H
#define PLAIN_H

#include <stddef.h>
#include <stdint.h>

/* one of the six operations: 0 or the refusal's number, and 16 bytes in the lent result */
typedef uint32_t operation(uint64_t left, uint64_t right, uint8_t *result, size_t length);

operation c_sum, c_product, c_quotient, c_remainder, c_power, c_logarithm;
operation rust_sum, rust_product, rust_quotient, rust_remainder, rust_power, rust_logarithm;
operation c_divided_product; /* looks for overflow by a division */
operation halves_joined, halves_added, halves_whole, halves_crossed, halves_columns; /* halves.c */

/* as the library's entries: 0 or the refusal's number, and the answer's numbers in the lent list */
typedef uint32_t runner(uint64_t width, const uint8_t *kinds, size_t kinds_length, const uint64_t *numbers, size_t numbers_length,
                        uint64_t allowance, uint64_t *answer, size_t length);
typedef uint32_t scanner(const uint64_t *numbers, size_t numbers_length, const uint8_t *marks, size_t marks_length, uint64_t *answer,
                         size_t length);
typedef uint32_t reader(const uint8_t *block, size_t block_length, uint64_t *numbers, size_t numbers_length, uint8_t *marks,
                        size_t marks_length, uint64_t *answer, size_t length);
typedef uint32_t writer(uint32_t first, const uint64_t *numbers, size_t numbers_length, const uint8_t *marks, size_t marks_length,
                        uint8_t *run, size_t run_length, uint64_t *answer, size_t length);
typedef uint32_t searcher(const uint8_t *run, size_t run_length, uint64_t *answer, size_t length);
typedef uint32_t level_scanner(const float *readings, size_t reading_count, const uint8_t *ground, size_t ground_count,
                               float *extent, size_t extent_count, uint64_t *answer, size_t length);
typedef uint32_t turner(const float *readings, size_t reading_count, const uint8_t *ground, size_t ground_count, uint64_t *numbers,
                        size_t number_count, uint8_t *marks, size_t mark_count, uint64_t *answer, size_t length);

struct razovinto_operation;
typedef uint32_t rower(const uint8_t *kinds, size_t kind_count, const uint64_t *lefts, size_t left_count, const uint64_t *rights,
                       size_t right_count, uint64_t *numbers, size_t number_count, uint8_t *marks, size_t mark_count, uint8_t *codes,
                       size_t code_count);
typedef uint32_t record_rower(const struct razovinto_operation *operations, size_t operation_count, uint64_t *numbers,
                              size_t number_count, uint8_t *marks, size_t mark_count, uint8_t *codes, size_t code_count);

runner c_run;
rower c_row;
record_rower c_row_of_records;
scanner rust_scan;
reader rust_read;
writer c_write, rust_write;
searcher rust_search;
level_scanner c_level_scan, rust_level_scan;
turner c_level_to_field, rust_level_to_field;

#define MAY_BE_MISSING __attribute__((weak))
MAY_BE_MISSING operation before_sum, before_product, before_quotient, before_remainder, before_power, before_logarithm;
MAY_BE_MISSING runner before_run;
MAY_BE_MISSING rower before_row;
MAY_BE_MISSING record_rower before_row_of_records;
MAY_BE_MISSING scanner before_scan;
MAY_BE_MISSING reader before_read;
MAY_BE_MISSING writer before_write;
MAY_BE_MISSING searcher before_search;
MAY_BE_MISSING level_scanner before_level_scan;
MAY_BE_MISSING turner before_level_to_field;

#endif

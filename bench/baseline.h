/* The calls of include/spirecloud.h once more, written in plain C: what the archive's answers and its speed are held against. They take
   and answer the same structs, refuse in the same order and go the same ways as the crates do. */
#ifndef BASELINE_H
#define BASELINE_H

#include "spirecloud.h"

spire_reply c_pattern_check(size_t size, const uint8_t *places, size_t count);
spire_reply c_pattern_number(size_t size, const uint8_t *places, size_t count);
spire_reply c_pattern_shape(size_t size, uint64_t number, uint8_t *places, size_t count);
spire_reply c_pattern_successor(size_t size, uint8_t *places, size_t count);
spire_reply c_pattern_predecessor(size_t size, uint8_t *places, size_t count);
spire_reply c_pattern_move(size_t size, int64_t distance, uint8_t *places, size_t count);
spire_reply c_pattern_depth(size_t size, const uint8_t *places, size_t count);
spire_part c_pattern_head(size_t size, const uint8_t *places, size_t count);
spire_part c_pattern_later(
    size_t size, const uint8_t *first, size_t first_count, const uint8_t *second, size_t second_count);

spire_reply c_permutation_check(size_t size, const uint16_t *entries, size_t count);
spire_reply c_permutation_number(size_t size, const uint16_t *entries, size_t count);
spire_reply c_permutation_shape(size_t size, uint64_t number, uint16_t *entries, size_t count);
spire_reply c_permutation_successor(size_t size, uint16_t *entries, size_t count);
spire_reply c_permutation_predecessor(size_t size, uint16_t *entries, size_t count);
spire_reply c_permutation_move(size_t size, int64_t distance, uint16_t *entries, size_t count);

spire_reply c_to_permutation(
    size_t size, const uint8_t *places, size_t places_count, uint16_t *entries, size_t entries_count);
spire_reply c_to_pattern(
    size_t size, const uint16_t *entries, size_t entries_count, uint8_t *places, size_t places_count);

spire_started c_run_start(size_t size, uint64_t first, uint64_t end);
spire_stepped c_run_step(spire_run run);

spire_reply c_record_write(
    size_t size, const uint8_t *places, size_t places_count, uint8_t *bytes, size_t bytes_count);
spire_reply c_record_read(const uint8_t *bytes, size_t bytes_count, uint8_t *places, size_t places_count);

spire_sheet c_sheet_open(const uint8_t *input, size_t count);
spire_filled c_sheet_fill(spire_sheet sheet, uint8_t *buffer, size_t count);

#endif

/* The work on patterns, which the calls on patterns, runs and records share. But for the check, each takes a feasible pattern. */
#ifndef WORK_PATTERNS_H
#define WORK_PATTERNS_H

#include "work.h"

/* The ways to finish, one row of them: from the row of so many zeros to the next. */
static inline void grow(size_t zeros, uint64_t *row)
{
    uint64_t below = row[0];
    #pragma GCC unroll 4
    for (size_t a = 1; a <= zeros + 1; a++)
        row[a] = below += row[a];
}

/* The way back, downward, so that no count is taken from one that is already new. Four in a turn are two wide subtractions. */
static inline void shrink(size_t zeros, uint64_t *row)
{
    size_t a = zeros;
    for (; a > 3; a -= 4) {
        row[a] -= row[a - 1];
        row[a - 1] -= row[a - 2];
        row[a - 2] -= row[a - 3];
        row[a - 3] -= row[a - 4];
    }
    for (; a > 0; a--)
        row[a] -= row[a - 1];
}

/* One pass, which asks nothing until its end: a place above 1 is the lower refusal wherever it stands, and of the excess of ones over
   zeros only the sign is wanted. */
static inline uint64_t pattern_contents(size_t size, const uint8_t *places)
{
    int ones = 0, signs = 0;
    unsigned above = 0;
    #pragma GCC unroll 2
    for (size_t i = 0; i < 2 * size; i++) {
        above |= places[i];
        ones += places[i];
        signs |= 2 * ones - (int)(i + 1);
    }
    if (above > 1)
        return REFUSED_ENTRY;
    return signs < 0 || ones != (int)size ? REFUSED_SHAPE : 0;
}

static inline uint64_t pattern_fault(size_t size, const uint8_t *places, size_t count)
{
    if (!sized(size))
        return REFUSED_SIZE;
    if (count != 2 * size)
        return REFUSED_LENGTH;
    return pattern_contents(size, places);
}

/* From the last place, which is a 0, to the first. */
static inline uint64_t pattern_number(size_t size, const uint8_t *places)
{
    uint64_t row[LARGEST_SIZE + 1] = {1};
    uint64_t number = 0;
    size_t ones = 0, zeros = 0;
    for (size_t i = 2 * size - 1; i-- > 0;) {
        if (places[i])
            number += row[++ones];
        else
            grow(zeros++, row);
    }
    return number;
}

/* The places from `start` on, by the number of their word; the row is that of one 0 fewer than are left. */
static inline void put_numbered(size_t size, uint8_t *places, size_t start, size_t ones, size_t zeros, uint64_t number, uint64_t *row)
{
    size_t i = start;
    while (ones > 0) {
        uint64_t ways = row[ones];
        if (number < ways) {
            places[i++] = 0;
            shrink(--zeros, row);
        } else {
            places[i++] = 1;
            number -= ways;
            ones--;
        }
    }
    while (i < 2 * size)
        places[i++] = 0;
}

static inline void pattern_shape(size_t size, uint64_t number, uint8_t *places)
{
    uint64_t row[LARGEST_SIZE + 1] = {1};
    for (size_t zeros = 0; zeros < size - 1; zeros++)
        grow(zeros, row);
    put_numbered(size, places, 0, size, size, number, row);
}

/* From the last place to the first, until the places passed have a word of their own at the target, which wraps where it is below 0. Those
   before them stay. */
static inline bool pattern_move(size_t size, int64_t distance, uint8_t *places)
{
    uint64_t row[LARGEST_SIZE + 1] = {1};
    uint64_t target = (uint64_t)distance;
    size_t ones = 0, zeros = 0, start = 2 * size;
    while (target >= row[ones]) {
        if (start == 0)
            return false;
        if (places[--start]) {
            target += row[ones + 1] - row[ones];
            ones++;
        } else {
            grow(zeros++, row);
        }
    }
    shrink(zeros, row);
    put_numbered(size, places, start, ones, zeros, target, row);
    return true;
}

/* Where the block of equal places that ends before `end` begins. */
static inline size_t block_start(const uint8_t *places, uint8_t place, size_t end)
{
    while (end > 0 && places[end - 1] == place)
        end--;
    return end;
}

/* Where the pairs 1, 0 at the end begin. */
static inline size_t pairs_start(const uint8_t *places, size_t end)
{
    while (end > 1 && places[end - 2] == 1)
        end -= 2;
    return end;
}

static inline void put_block(uint8_t *places, uint8_t place, size_t from, size_t to)
{
    for (size_t i = from; i < to; i++)
        places[i] = place;
}

static inline void put_every_second(uint8_t *places, uint8_t place, size_t from, size_t to)
{
    for (size_t i = from; i < to; i += 2)
        places[i] = place;
}

/* The change of the next pattern, which is put in the place of this one; 0 for the last. */
static inline uint64_t pattern_next(size_t size, uint8_t *places)
{
    size_t last = 2 * size;
    size_t end = block_start(places, 0, last);
    size_t start = block_start(places, 1, end);
    if (start == 0)
        return 0;
    places[start - 1] = 1;
    put_block(places, 0, start, end);
    put_every_second(places, 1, last - 2 * (end - start - 1), last);
    return last - start + 1;
}

/* The change that is taken back; 0 for the first. */
static inline uint64_t pattern_previous(size_t size, uint8_t *places)
{
    size_t last = 2 * size;
    size_t pairs = pairs_start(places, last);
    size_t zeros = block_start(places, 0, pairs);
    if (zeros == 0)
        return 0;
    places[zeros - 1] = 0;
    put_every_second(places, 0, pairs, last);
    put_block(places, 1, zeros, zeros + (last - pairs) / 2 + 1);
    return last - zeros + 1;
}

static inline uint64_t pattern_change(size_t size, const uint8_t *places)
{
    size_t last = 2 * size;
    size_t changed = block_start(places, 0, pairs_start(places, last));
    return changed == 0 ? last : last - changed + 1;
}

/* Two places in a turn, with one comparison for both. */
static inline uint64_t pattern_depth(size_t size, const uint8_t *places)
{
    int largest = 0, excess = 0;
    for (size_t k = 0; k < size; k++) {
        int first = places[2 * k], second = places[2 * k + 1];
        int top = excess + 2 * first + second - 1;
        excess += 2 * (first + second) - 2;
        if (top > largest)
            largest = top;
    }
    return (uint64_t)largest;
}

#endif

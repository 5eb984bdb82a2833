/* The check of tree permutations, which the calls on permutations and the conversions share. */
#ifndef WORK_PERMUTATIONS_H
#define WORK_PERMUTATIONS_H

#include "work.h"

/* An entry outside 1..n or seen earlier is the lower refusal, wherever it stands. */
static inline uint64_t unfit_or_no_tree(size_t size, const uint16_t *entries)
{
    uint64_t seen = 0;
    for (size_t k = 0; k < size; k++) {
        size_t entry = entries[k];
        if (entry - 1 >= size || (seen >> entry & 1))
            return REFUSED_ENTRY;
        seen |= UINT64_C(1) << entry;
    }
    return REFUSED_SHAPE;
}

/* A label seen is linked to the next larger one seen, 36 where there is none; `closed` is the largest entry that a larger one has
   followed. An entry below it is the last of three that a tree permutation avoids. */
static inline uint64_t permutation_contents(size_t size, const uint16_t *entries)
{
    uint8_t above[LARGEST_SIZE + 1] = {LARGEST_SIZE + 1};
    size_t closed = 0;
    for (size_t k = 0; k < size; k++) {
        size_t entry = entries[k];
        if (entry - 1 >= size || above[entry] != 0 || entry < closed)
            return unfit_or_no_tree(size, entries);
        while (above[closed] < entry)
            closed = above[closed];
        above[entry] = above[closed];
        above[closed] = (uint8_t)entry;
    }
    return 0;
}

static inline uint64_t permutation_fault(size_t size, const uint16_t *entries, size_t count)
{
    if (!sized(size))
        return REFUSED_SIZE;
    if (count != size)
        return REFUSED_LENGTH;
    return permutation_contents(size, entries);
}

#endif

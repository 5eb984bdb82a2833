/* One form written in the other, from the last place to the first: the ones stand in the order of the entries, the zeros in that of the
   labels. */
#include "work_patterns.h"
#include "work_permutations.h"

/* A 0 gives a label, which waits at the front of the slice for its node's 1. Reckoned without a branch, since none could foresee whether a
   place is 0 or 1. */
spire_reply c_to_permutation(
    size_t size, const uint8_t *places, size_t places_count, uint16_t *entries, size_t entries_count)
{
    if (!sized(size))
        return refused(REFUSED_SIZE);
    if (entries_count != size)
        return refused(REFUSED_LENGTH);
    uint64_t fault = pattern_fault(size, places, places_count);
    if (fault)
        return refused(fault);
    size_t waiting = 0, k = size;
    for (size_t i = 2 * size; i-- > 0;) {
        size_t one = places[i];
        waiting -= one;
        k -= one;
        size_t gap = k - waiting, taken = entries[waiting];
        entries[waiting + one * gap] = (uint16_t)(one * taken + (1 - one) * gap);
        waiting += 1 - one;
    }
    return answered(0);
}

/* The labels not below an entry have their zeros behind its 1. */
spire_reply c_to_pattern(
    size_t size, const uint16_t *entries, size_t entries_count, uint8_t *places, size_t places_count)
{
    if (!sized(size))
        return refused(REFUSED_SIZE);
    if (places_count != 2 * size)
        return refused(REFUSED_LENGTH);
    uint64_t fault = permutation_fault(size, entries, entries_count);
    if (fault)
        return refused(fault);
    size_t label = size, k = size;
    for (size_t i = 2 * size; i-- > 0;) {
        bool zero = label >= entries[k - 1];
        places[i] = !zero;
        label -= zero;
        k -= !zero;
    }
    return answered(0);
}

/* The calls on patterns, in the local order. */
#include <string.h>

#include "work_patterns.h"

spire_reply c_pattern_check(size_t size, const uint8_t *places, size_t count)
{
    return refused(pattern_fault(size, places, count));
}

spire_reply c_pattern_number(size_t size, const uint8_t *places, size_t count)
{
    uint64_t fault = pattern_fault(size, places, count);
    return fault ? refused(fault) : answered(pattern_number(size, places));
}

spire_reply c_pattern_shape(size_t size, uint64_t number, uint8_t *places, size_t count)
{
    if (!sized(size))
        return refused(REFUSED_SIZE);
    if (count != 2 * size)
        return refused(REFUSED_LENGTH);
    if (number >= catalans[size])
        return refused(REFUSED_NUMBER);
    pattern_shape(size, number, places);
    return answered(0);
}

spire_reply c_pattern_successor(size_t size, uint8_t *places, size_t count)
{
    uint64_t fault = pattern_fault(size, places, count);
    if (fault)
        return refused(fault);
    uint64_t change = pattern_next(size, places);
    return change ? answered(change) : refused(REFUSED_LAST);
}

spire_reply c_pattern_predecessor(size_t size, uint8_t *places, size_t count)
{
    uint64_t fault = pattern_fault(size, places, count);
    if (fault)
        return refused(fault);
    uint64_t change = pattern_previous(size, places);
    return change ? answered(change) : refused(REFUSED_FIRST);
}

spire_reply c_pattern_move(size_t size, int64_t distance, uint8_t *places, size_t count)
{
    uint64_t fault = pattern_fault(size, places, count);
    if (fault)
        return refused(fault);
    return pattern_move(size, distance, places) ? answered(0) : refused(end_past(distance));
}

spire_reply c_pattern_depth(size_t size, const uint8_t *places, size_t count)
{
    uint64_t fault = pattern_fault(size, places, count);
    return fault ? refused(fault) : answered(pattern_depth(size, places));
}

/* The head ends with the first place at which no 1 is left open. */
spire_part c_pattern_head(size_t size, const uint8_t *places, size_t count)
{
    if (pattern_fault(size, places, count))
        return (spire_part){0};
    int open = 1;
    size_t i = 1;
    while (open > 0)
        open += 2 * places[i++] - 1;
    return (spire_part){.length = i};
}

spire_part c_pattern_later(
    size_t size, const uint8_t *first, size_t first_count, const uint8_t *second, size_t second_count)
{
    if (pattern_fault(size, first, first_count) || pattern_fault(size, second, second_count))
        return (spire_part){0};
    return (spire_part){.slice = memcmp(first, second, 2 * size) < 0, .length = 2 * size};
}

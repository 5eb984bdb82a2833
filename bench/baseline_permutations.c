/* The calls on tree permutations, in the natural order, by recursion on left and right parts: a part is so many entries with the labels
   after its `base`. */
#include "work_permutations.h"

static uint64_t part_number(size_t base, const uint16_t *entries, size_t count)
{
    if (count < 2)
        return 0;
    size_t root = entries[0], right = root - base;
    if (right == 1)
        return part_number(root, entries + 1, count - 1);
    uint64_t number = 0;
    for (size_t j = 0; j < right - 1; j++)
        number += catalans[j] * catalans[count - 1 - j];
    uint64_t left = part_number(base, entries + 1, right - 1);
    if (right == count)
        return number + left;
    return number + left * catalans[count - right] + part_number(root, entries + right, count - right);
}

static void part_shape(size_t base, uint64_t number, uint16_t *entries, size_t count)
{
    if (count == 0)
        return;
    size_t left = 0, others = count - 1;
    while (left < others) {
        uint64_t trees = catalans[left] * catalans[others - left];
        if (number < trees)
            break;
        number -= trees;
        left++;
    }
    size_t root = base + left + 1;
    entries[0] = (uint16_t)root;
    if (others == 0)
        return;
    if (left == 0) {
        part_shape(root, number, entries + 1, others);
        return;
    }
    if (left == others) {
        part_shape(base, number, entries + 1, left);
        return;
    }
    uint64_t rights = catalans[others - left];
    part_shape(base, number / rights, entries + 1, left);
    part_shape(root, number % rights, entries + 1 + left, others - left);
}

/* The first tree has no left part anywhere, the last no right part. */
static void put_first(size_t base, uint16_t *entries, size_t count)
{
    for (size_t i = 0; i < count; i++)
        entries[i] = (uint16_t)(base + i + 1);
}

static void put_last(size_t base, uint16_t *entries, size_t count)
{
    for (size_t i = 0; i < count; i++)
        entries[i] = (uint16_t)(base + count - i);
}

static bool part_next(size_t base, uint16_t *entries, size_t count)
{
    if (count == 0)
        return false;
    size_t root = entries[0], right = root - base;
    if (part_next(root, entries + right, count - right))
        return true;
    if (part_next(base, entries + 1, right - 1)) {
        put_first(root, entries + right, count - right);
        return true;
    }
    if (right == count)
        return false;
    entries[0] = (uint16_t)(root + 1);
    put_first(base, entries + 1, right);
    put_first(root + 1, entries + right + 1, count - right - 1);
    return true;
}

static bool part_previous(size_t base, uint16_t *entries, size_t count)
{
    if (count == 0)
        return false;
    size_t root = entries[0], right = root - base;
    if (part_previous(root, entries + right, count - right))
        return true;
    if (part_previous(base, entries + 1, right - 1)) {
        put_last(root, entries + right, count - right);
        return true;
    }
    if (right == 1)
        return false;
    entries[0] = (uint16_t)(root - 1);
    put_last(base, entries + 1, right - 2);
    put_last(root - 1, entries + right - 1, count - right + 1);
    return true;
}

spire_reply c_permutation_check(size_t size, const uint16_t *entries, size_t count)
{
    return refused(permutation_fault(size, entries, count));
}

spire_reply c_permutation_number(size_t size, const uint16_t *entries, size_t count)
{
    uint64_t fault = permutation_fault(size, entries, count);
    return fault ? refused(fault) : answered(part_number(0, entries, size));
}

spire_reply c_permutation_shape(size_t size, uint64_t number, uint16_t *entries, size_t count)
{
    if (!sized(size))
        return refused(REFUSED_SIZE);
    if (count != size)
        return refused(REFUSED_LENGTH);
    if (number >= catalans[size])
        return refused(REFUSED_NUMBER);
    part_shape(0, number, entries, size);
    return answered(0);
}

spire_reply c_permutation_successor(size_t size, uint16_t *entries, size_t count)
{
    uint64_t fault = permutation_fault(size, entries, count);
    if (fault)
        return refused(fault);
    return part_next(0, entries, size) ? answered(0) : refused(REFUSED_LAST);
}

spire_reply c_permutation_predecessor(size_t size, uint16_t *entries, size_t count)
{
    uint64_t fault = permutation_fault(size, entries, count);
    if (fault)
        return refused(fault);
    return part_previous(0, entries, size) ? answered(0) : refused(REFUSED_FIRST);
}

/* A target below 0 wraps, and is then above any number of shapes. */
spire_reply c_permutation_move(size_t size, int64_t distance, uint16_t *entries, size_t count)
{
    uint64_t fault = permutation_fault(size, entries, count);
    if (fault)
        return refused(fault);
    uint64_t target = part_number(0, entries, size) + (uint64_t)distance;
    if (target >= catalans[size])
        return refused(end_past(distance));
    part_shape(0, target, entries, size);
    return answered(0);
}

/* Inputs, good and damaged. Good shapes are walked and grown here, apart from the calls that are compared. */
#include "inputs.h"

#include <string.h>

enum { LARGEST = 35 };

/* Marsaglia's xorshift, with a multiplication at the end. */
uint64_t draw(void)
{
    static uint64_t state = 88172645463325252;
    state ^= state >> 12;
    state ^= state << 25;
    state ^= state >> 27;
    return state * 2685821657736338717;
}

uint64_t below(uint64_t limit)
{
    return draw() % limit;
}

void noise(void *bytes, size_t count)
{
    uint8_t *at = bytes;
    for (size_t i = 0; i < count; i += sizeof(uint64_t)) {
        uint64_t word = draw();
        memcpy(at + i, &word, count - i < sizeof word ? count - i : sizeof word);
    }
}

/* By the sum over left parts, so that neither side's table is used. */
uint64_t catalan(size_t n)
{
    static uint64_t known[LARGEST + 2];
    known[0] = 1;
    if (known[n] == 0)
        for (size_t i = 0; i < n; i++)
            known[n] += catalan(i) * catalan(n - 1 - i);
    return known[n];
}

size_t any_size(size_t n)
{
    switch (below(40)) {
    case 0: return 0;
    case 1: return LARGEST + 1;
    case 2: return n + 1;
    case 3: return n - 1;
    case 4: return n + 256;
    case 5: return n + ((size_t)1 << 32);
    case 6: return n + ((size_t)1 << 63); /* twice this is twice n */
    case 7: return SIZE_MAX - below(3);
    default: return n;
    }
}

size_t any_count(size_t right)
{
    switch (below(40)) {
    case 0: return 0;
    case 1: return right - 1;
    case 2: return right + 1;
    case 3: return right / 2;
    case 4: return 2 * right;
    case 5: return below(MOST + 1);
    default: return right;
    }
}

uint64_t any_number(size_t n)
{
    uint64_t total = catalan(n);
    switch (below(20)) {
    case 0: return 0;
    case 1: return total - 1;
    case 2: return total;
    case 3: return total + 1 + below(3);
    case 4: return catalan(LARGEST + 1);
    case 5: return UINT64_MAX - below(3);
    case 6: return draw();
    case 7: return total - 1 - below(total < 100 ? total : 100);
    case 8: return below(total < 100 ? total : 100);
    default: return below(total);
    }
}

/* Mostly one that leads from some shapes to others, on as often as back. */
int64_t any_distance(size_t n)
{
    uint64_t total = catalan(n);
    int64_t direction = below(2) ? 1 : -1;
    switch (below(12)) {
    case 0: return 0;
    case 1: return direction;
    case 2: return INT64_MIN + (int64_t)below(3);
    case 3: return INT64_MAX - (int64_t)below(3);
    case 4: return direction * (int64_t)(total - 1 + below(3));
    case 5: return (int64_t)draw();
    case 6: return direction * (int64_t)below(1000);
    case 7: return direction * (int64_t)below(total < 100 ? total : 100);
    default: return direction * (int64_t)below(total);
    }
}

uint64_t any_figure(void)
{
    switch (below(4)) {
    case 0: return 0;
    case 1: return UINT64_MAX - below(80);
    case 2: return draw();
    default: return below(1000000);
    }
}

/* A pattern, place by place: the weight says how fast it rises, so that flat shapes and deep ones come. */
static void walk(size_t n, uint8_t *places)
{
    uint64_t weight = 1 + below(7);
    size_t ones = n, open = 0;
    for (size_t i = 0; i < 2 * n; i++) {
        bool one = ones > 0 && (open == 0 || below(8) < weight);
        places[i] = one;
        ones -= one;
        open += one ? 1 : (size_t)-1;
    }
}

/* A tree permutation, from the root down. */
static void grow_tree(uint64_t kind, size_t base, size_t n, uint16_t *entries)
{
    if (n == 0)
        return;
    size_t left = kind == 0 ? 0 : kind == 1 ? n - 1 : below(n);
    entries[0] = (uint16_t)(base + left + 1);
    grow_tree(kind, base, left, entries + 1);
    grow_tree(kind, base + left + 1, n - 1 - left, entries + 1 + left);
}

static void turn_round(size_t count, uint8_t *places)
{
    for (size_t i = 0; i < count / 2; i++) {
        uint8_t place = places[i];
        places[i] = places[count - 1 - i];
        places[count - 1 - i] = place;
    }
}

static void damage_places(size_t n, uint8_t *places)
{
    static const uint8_t above[] = {2, 3, 127, 128, 254, 255};
    size_t i = below(2 * n), j = below(2 * n);
    uint8_t place = places[i];
    switch (below(7)) {
    case 0: places[i] ^= 1; break;
    case 1: places[i] = places[j], places[j] = place; break;
    case 2: places[i] = above[below(sizeof above)]; break;
    case 3: places[i] ^= 1, places[j] = above[below(sizeof above)]; break;
    case 4: turn_round(2 * n, places); break;
    case 5: memset(places, place, 2 * n); break;
    default:
        for (i = 0; i < 2 * n; i++)
            places[i] = (uint8_t)below(2);
    }
}

static void good_places(size_t n, uint8_t *places)
{
    walk(n, places);
    if (below(10) == 0)
        for (size_t i = 0; i < 2 * n; i++)
            places[i] = i < n;
    if (below(10) == 0)
        for (size_t i = 0; i < 2 * n; i++)
            places[i] = i % 2 == 0;
}

void any_places(size_t n, uint8_t *places)
{
    noise(places, MOST);
    if (below(100) == 0)
        return;
    good_places(n, places);
    if (below(2) == 0)
        damage_places(n, places);
}

static void damage_entries(size_t n, uint16_t *entries)
{
    const uint16_t unfit[] = {0, (uint16_t)(n + 1), 36, 37, 64, 128, 255, 256, 32768, 65535};
    size_t i = below(n), j = below(n);
    uint16_t entry = entries[i];
    switch (below(6)) {
    case 0: entries[i] = unfit[below(sizeof unfit / sizeof *unfit)]; break;
    case 1: entries[i] = (uint16_t)(entry + 256); break;
    case 2: entries[i] = entries[j]; break;
    case 3: entries[i] = entries[j], entries[j] = entry; break;
    case 4: entries[n - 1] = (uint16_t)below(n + 2), entries[i] = entries[j], entries[j] = entry; break;
    default:
        for (i = n - 1; i > 0; i--) {
            j = below(i + 1);
            entry = entries[i], entries[i] = entries[j], entries[j] = entry;
        }
    }
}

void any_entries(size_t n, uint16_t *entries)
{
    noise(entries, MOST * sizeof *entries);
    if (below(100) == 0)
        return;
    grow_tree(below(12), 0, n, entries);
    if (below(2) == 0)
        damage_entries(n, entries);
}

/* Writes the record of a pattern that may be damaged, but has bits for places, and answers how many bytes it has. */
size_t any_record(size_t n, uint8_t *bytes)
{
    uint8_t places[MOST];
    good_places(n, places);
    if (below(4) == 0)
        damage_places(n, places);
    size_t count = 1 + (n + 3) / 4;
    noise(bytes, MOST);
    memset(bytes, 0, count);
    bytes[0] = (uint8_t)(4 * n);
    for (size_t i = 0; i < 2 * n; i++)
        bytes[1 + i / 8] |= (uint8_t)((places[i] & 1) << (7 - i % 8));
    switch (below(12)) {
    case 0: bytes[below(count)] ^= (uint8_t)(1 << below(8)); break;
    case 1: bytes[count - 1] ^= (uint8_t)(1 << below(8)); break;
    case 2: bytes[0] ^= (uint8_t)(1 + below(3)); break;
    case 3: bytes[0] = (uint8_t)below(256); break;
    case 4: noise(bytes, count); break;
    }
    return count;
}

void damage_run(size_t n, spire_run *run)
{
    switch (below(9)) {
    case 0: run->size = any_size(n); break;
    case 1: run->size = below(40); break;
    case 2: run->next += below(2) ? 1 : UINT64_MAX; break;
    case 3: run->next = any_number(n); break;
    case 4: run->end = any_number(n); break;
    case 5: run->end = run->next; break;
    case 6: damage_places(n, run->places); break;
    case 7: run->places[below(sizeof run->places)] ^= (uint8_t)(1 + below(2)); break;
    default: run->places[2 * n + below(sizeof run->places - 2 * n + 1) - 1] = (uint8_t)below(256);
    }
}

/* A state at some shape or at its end, whose places a start gave; the figure may be near the largest. */
spire_run good_run(size_t n)
{
    uint64_t total = catalan(n);
    uint64_t next = below(8) == 0 ? total - 1 : below(total);
    uint64_t end = below(4) == 0 ? next : next + 1 + below(total - next);
    if (below(4) == 0 && next + 1 < end)
        end = next + 1;
    spire_run run = spire_run_start(n, next, end).run;
    run.figure = any_figure();
    return run;
}

spire_run any_run(size_t n)
{
    spire_run run = good_run(n);
    if (below(2) == 0)
        damage_run(n, &run);
    return run;
}

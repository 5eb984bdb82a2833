/* The lines of a sheet's shapes. Number, pattern, labels and depth are carried from shape to shape, and only what a step changes is worked
   out. Nothing is written behind a line. */
#ifndef WORK_SHEETS_H
#define WORK_SHEETS_H

#include <string.h>

#include "work_patterns.h"

enum {
    DIGITS = 20, /* of the largest number of 64 bits */
    WORD = 8,
    VECTOR = 16,
    PLACES = 80, /* a whole number of words */
    DEPTHS = ROOM + VECTOR,
    LABELS = 48, /* a whole number of vectors */
};

/* A number with the comma behind it. */
struct text {
    uint8_t bytes[3];
    uint8_t length;
};

#define ONE_DIGIT(units) {{'0' + units, ','}, 2}
#define TWO_DIGITS(tens, units) {{'0' + tens, '0' + units, ','}, 3}
#define TEN(tens) \
    TWO_DIGITS(tens, 0), TWO_DIGITS(tens, 1), TWO_DIGITS(tens, 2), TWO_DIGITS(tens, 3), TWO_DIGITS(tens, 4), TWO_DIGITS(tens, 5), \
    TWO_DIGITS(tens, 6), TWO_DIGITS(tens, 7), TWO_DIGITS(tens, 8), TWO_DIGITS(tens, 9)

/* No label, depth or change is above 70. */
static const struct text texts[] = {
    ONE_DIGIT(0), ONE_DIGIT(1), ONE_DIGIT(2), ONE_DIGIT(3), ONE_DIGIT(4), ONE_DIGIT(5), ONE_DIGIT(6), ONE_DIGIT(7), ONE_DIGIT(8),
    ONE_DIGIT(9), TEN(1), TEN(2), TEN(3), TEN(4), TEN(5), TEN(6), TEN(7),
};

struct carried {
    size_t size;
    size_t digits; /* where the number's text begins, which ends at DIGITS */
    uint8_t number[DIGITS + WORD];
    uint8_t places[PLACES];
    uint8_t depths[DEPTHS]; /* of the first i places */
    int8_t labels[LABELS];
};

static inline uint8_t *put_number(uint8_t *at, uint64_t number)
{
    uint8_t digits[DIGITS];
    size_t i = DIGITS;
    do
        digits[--i] = (uint8_t)('0' + number % 10);
    while (number /= 10);
    memcpy(at, digits + i, DIGITS - i);
    return at + DIGITS - i;
}

static inline void carry_number(struct carried *carried, uint64_t number)
{
    uint8_t text[DIGITS];
    size_t length = (size_t)(put_number(text, number) - text);
    carried->digits = DIGITS - length;
    memcpy(carried->number + carried->digits, text, length);
}

static inline void carry_labels(struct carried *carried)
{
    uint16_t entries[LARGEST_SIZE];
    c_to_permutation(carried->size, carried->places, 2 * carried->size, entries, carried->size);
    for (size_t j = 0; j < carried->size; j++)
        carried->labels[j] = (int8_t)entries[j];
}

static inline void carry_depths(struct carried *carried)
{
    int depth = 0, excess = 0;
    for (size_t i = 0; i < 2 * carried->size; i++) {
        excess += 2 * carried->places[i] - 1;
        depth = excess > depth ? excess : depth;
        carried->depths[i + 1] = (uint8_t)depth;
    }
}

static inline void carry(struct carried *carried, const spire_run *run)
{
    *carried = (struct carried){.size = run->size};
    memcpy(carried->places, run->places, ROOM);
    carry_number(carried, run->next);
    carry_labels(carried);
    carry_depths(carried);
}

/* What a step makes of the labels. With m ones and z zeros before the 0 that becomes a 1, and p - 1 more ones behind it: that 0's label
   z + 1 is the new node's, its old node takes the next one, and the labels behind fall by p - 1. The last nodes have no left part. */
static inline void relabel(int8_t *labels, int8_t m, int8_t z, int8_t p)
{
    for (int8_t j = 0; j < LABELS; j++) {
        int8_t old = labels[j];
        int8_t moved = (int8_t)(old > z + 1 ? old - (p - 1) : old + (old == z + 1));
        labels[j] = (int8_t)(j < m ? moved : j == m ? z + 1 : j + 1);
    }
}

/* What it makes of the depths: behind the new 1 the path falls to 0, and rises to 1 at most. */
static inline void deepen(uint8_t *depths, size_t start, size_t last, size_t excess)
{
    size_t before = depths[start - 1];
    uint8_t depth = (uint8_t)(before > excess ? before : excess + 1);
    for (size_t i = start; i <= last; i += VECTOR)
        memset(depths + i, depth, VECTOR);
}

/* The next shape; answers its change. */
static inline uint64_t step(struct carried *carried)
{
    size_t size = carried->size, last = 2 * size;
    size_t end = block_start(carried->places, 0, last);
    size_t start = block_start(carried->places, 1, end);
    size_t p = end - start, m = size - p, z = size - (last - end) - 1;
    carried->places[start - 1] = 1;
    put_block(carried->places, 0, start, end);
    put_every_second(carried->places, 1, last - 2 * (p - 1), last);
    relabel(carried->labels, (int8_t)m, (int8_t)z, (int8_t)p);
    deepen(carried->depths, start, last, m - z);
    return last - start + 1;
}

static inline void count_up(struct carried *carried)
{
    size_t i = DIGITS - 1;
    while (i >= carried->digits && carried->number[i] == '9')
        carried->number[i--] = '0';
    if (i < carried->digits) {
        carried->number[i] = '0';
        carried->digits = i;
    }
    carried->number[i]++;
}

/* By whole words, each byte raised by as much. What is put too much is written over by the rest of the line. */
static inline uint8_t *put_words(uint8_t *at, const uint8_t *from, size_t count, uint64_t raise)
{
    for (size_t i = 0; i < count; i += WORD) {
        uint64_t word;
        memcpy(&word, from + i, WORD);
        word += raise * UINT64_C(0x0101010101010101);
        memcpy(at + i, &word, WORD);
    }
    return at + count;
}

static inline uint8_t *put_labels(uint8_t *at, const struct carried *carried)
{
    for (size_t j = 0, size = carried->size; j < size; j++) {
        const struct text *text = &texts[carried->labels[j]];
        memcpy(at, text, sizeof *text);
        at += text->length;
    }
    return at;
}

/* The line's last field is put by single bytes, and the others are at most two bytes longer than their text. */
static inline uint8_t *put_line(uint8_t *at, const struct carried *carried, uint64_t change)
{
    size_t last = 2 * carried->size;
    at = put_words(at, carried->number + carried->digits, DIGITS - carried->digits, 0);
    *at++ = ' ';
    at = put_words(at, carried->places, last, '0');
    *at++ = ' ';
    at = put_labels(at, carried);
    at[-1] = ' ';
    const struct text *text = &texts[carried->depths[last]];
    memcpy(at, text, sizeof *text);
    at += text->length;
    at[-1] = ' ';
    text = &texts[change];
    at[0] = text->bytes[0];
    at[1] = text->bytes[1];
    at += text->length;
    at[-1] = '\n';
    return at;
}

#endif

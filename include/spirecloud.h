/* Spirecloud for C: every call of the bench, each proved to answer as its Rattle call does.

   Every function takes every input and asks nothing of its caller beyond what C asks of a pointer: a slice is a pointer that is not
   null and the number of its elements, all readable, and writable where it is not const; two slices of one call do not overlap where one of
   them is written.
   A refusal is told by its number, 1 to 11, and 0 is none; a refused call alters nothing that it was lent. */
#ifndef SPIRECLOUD_H
#define SPIRECLOUD_H

#include <stdbool.h>
#include <stddef.h>
#include <stdint.h>

#ifdef __cplusplus
extern "C" {
#endif

/* The refusal's number, 0 for none, and the value that was asked for, 0 where there is none to tell. */
typedef struct {
    uint64_t refusal;
    uint64_t value;
} spire_reply;

/* A part of a lent slice: of which one, 0 the first and 1 the second, from where, and how many places. A refusal is the empty part at
   the start of the first. */
typedef struct {
    size_t slice;
    size_t offset;
    size_t length;
} spire_part;

/* A run's state, which may be kept, sent and handed in again. */
typedef struct {
    size_t size;
    uint64_t next;
    uint64_t end;
    uint64_t figure;
    uint8_t places[70];
} spire_run;

typedef struct {
    uint64_t refusal;
    spire_run run;
} spire_started;

/* handed is 1 where a shape was handed out, and 0 at the end and for a refusal. */
typedef struct {
    uint64_t refusal;
    uint64_t handed;
    spire_run run;
    uint8_t places[70];
    uint64_t change;
} spire_stepped;

/* A sheet that is being handed out, which may be kept, sent and handed in again: the refusal that its NO line tells, 0 for none, whether its
   first line and its last have been handed out, and its run, with the number of the run's first shape. */
typedef struct {
    uint64_t refusal;
    bool opened;
    bool ended;
    uint64_t first;
    spire_run run;
} spire_sheet;

/* bytes is how many bytes of the lent buffer were written, 0 once the sheet has ended. */
typedef struct {
    uint64_t refusal;
    uint64_t bytes;
    spire_sheet sheet;
} spire_filled;

/* Patterns: 2 * size places, each 0 or 1. A move goes on by a positive distance and back by a negative one, in the local order; that of a
   permutation, below, in the natural order. */
spire_reply spire_pattern_check(size_t size, const uint8_t *places, size_t count);
spire_reply spire_pattern_number(size_t size, const uint8_t *places, size_t count);
spire_reply spire_pattern_shape(size_t size, uint64_t number, uint8_t *places, size_t count);
spire_reply spire_pattern_successor(size_t size, uint8_t *places, size_t count);
spire_reply spire_pattern_predecessor(size_t size, uint8_t *places, size_t count);
spire_reply spire_pattern_move(size_t size, int64_t distance, uint8_t *places, size_t count);
spire_reply spire_pattern_depth(size_t size, const uint8_t *places, size_t count);
spire_part spire_pattern_head(size_t size, const uint8_t *places, size_t count);
spire_part spire_pattern_later(
    size_t size, const uint8_t *first, size_t first_count, const uint8_t *second, size_t second_count);

/* Tree permutations: size entries, each of 1 to size once. */
spire_reply spire_permutation_check(size_t size, const uint16_t *entries, size_t count);
spire_reply spire_permutation_number(size_t size, const uint16_t *entries, size_t count);
spire_reply spire_permutation_shape(size_t size, uint64_t number, uint16_t *entries, size_t count);
spire_reply spire_permutation_successor(size_t size, uint16_t *entries, size_t count);
spire_reply spire_permutation_predecessor(size_t size, uint16_t *entries, size_t count);
spire_reply spire_permutation_move(size_t size, int64_t distance, uint16_t *entries, size_t count);

/* One form written in the other. */
spire_reply spire_to_permutation(
    size_t size, const uint8_t *places, size_t places_count, uint16_t *entries, size_t entries_count);
spire_reply spire_to_pattern(
    size_t size, const uint16_t *entries, size_t entries_count, uint8_t *places, size_t places_count);

/* Runs. */
spire_started spire_run_start(size_t size, uint64_t first, uint64_t end);
spire_stepped spire_run_step(spire_run run);

/* Packed records: 1 + ceil(size / 4) bytes. Reading answers the size. */
spire_reply spire_record_write(
    size_t size, const uint8_t *places, size_t places_count, uint8_t *bytes, size_t bytes_count);
spire_reply spire_record_read(const uint8_t *bytes, size_t bytes_count, uint8_t *places, size_t places_count);

/* Sheets. Every input makes a sheet, a bad one that of its NO line. The buffer has at least SPIRE_LINE_ROOM bytes. */
#define SPIRE_LINE_ROOM 256
spire_sheet spire_sheet_open(const uint8_t *input, size_t count);
spire_filled spire_sheet_fill(spire_sheet sheet, uint8_t *buffer, size_t count);

#ifdef __cplusplus
}
#endif

#endif

/* Inputs for the comparison, good and damaged, from a seed of its own: every run of the program draws the same. */
#ifndef INPUTS_H
#define INPUTS_H

#include "spirecloud.h"

/* A lent slice has at most so many elements, which is more than any call asks for. */
enum { MOST = 160 };

/* A sheet's buffer has at most so many bytes, and a good line asks for at most so many shapes. */
enum { MOST_ROOM = 2000, SHORT_RUN = 40 };

uint64_t draw(void);
uint64_t below(uint64_t limit);
uint64_t catalan(size_t n);

/* Mostly what is right, given what the contents are made for; else one of the ways to be wrong. */
size_t any_size(size_t n);
size_t any_count(size_t right);
uint64_t any_number(size_t n);
int64_t any_distance(size_t n);
uint64_t any_figure(void);

/* Room for MOST elements each; what is behind the contents is noise. About half of them are damaged. */
void any_places(size_t n, uint8_t *places);
void any_entries(size_t n, uint16_t *entries);
size_t any_record(size_t n, uint8_t *bytes);
spire_run any_run(size_t n);
spire_run good_run(size_t n);
void damage_run(size_t n, spire_run *run);

/* A line that asks for a sheet, with room for MOST bytes: how many it has. The good one's run is short. */
size_t any_line(size_t n, uint8_t *line);
size_t good_line(size_t n, uint8_t *line);

/* A sheet half handed out, and room for its next piece. About half of the sheets are damaged. */
spire_sheet any_sheet(size_t n);
size_t any_room(void);
size_t good_room(void);

void noise(void *bytes, size_t count);

#endif

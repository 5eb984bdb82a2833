/* Holds the archive's answers against the baselines' on drawn inputs, good and damaged. At the first difference it shows the call and its
   input and ends with 1. Each slice is lent to both sides in a copy of its own, between guards, and compared byte for byte afterwards. */
#include <inttypes.h>
#include <stdio.h>
#include <stdlib.h>
#include <string.h>

#include "baseline.h"
#include "inputs.h"

/* Each call with its group and the refusals, 0 for none, that the inputs must have met at the end: a comparison that never gets to an
   answer has not compared it. Head and later tell a refusal, here 1, by an empty part; A is 10 and B is 11. */
#define CALLS(X) \
    X(pattern_check, PATTERNS, "01234") \
    X(pattern_number, PATTERNS, "01234") \
    X(pattern_shape, PATTERNS, "0125") \
    X(pattern_successor, PATTERNS, "012346") \
    X(pattern_predecessor, PATTERNS, "012347") \
    X(pattern_move, PATTERNS, "0123467") \
    X(pattern_depth, PATTERNS, "01234") \
    X(pattern_head, PATTERNS, "01") \
    X(pattern_later, PATTERNS, "01") \
    X(permutation_check, PERMUTATIONS, "01234") \
    X(permutation_number, PERMUTATIONS, "01234") \
    X(permutation_shape, PERMUTATIONS, "0125") \
    X(permutation_successor, PERMUTATIONS, "012346") \
    X(permutation_predecessor, PERMUTATIONS, "012347") \
    X(permutation_move, PERMUTATIONS, "0123467") \
    X(to_permutation, FORMS, "01234") \
    X(to_pattern, FORMS, "01234") \
    X(run_start, RUNS, "018") \
    X(run_step, RUNS, "09") \
    X(record_write, RECORDS, "01234") \
    X(record_read, RECORDS, "0124A") \
    X(sheet_open, SHEETS, "018B") \
    X(sheet_fill, SHEETS, "029")

enum group { PATTERNS, PERMUTATIONS, FORMS, RUNS, RECORDS, SHEETS, GROUPS };
static const char *const group_names[GROUPS] = {"patterns", "permutations", "forms", "runs", "records", "sheets"};

#define AS_ENUM(call, group, refusals) call,
enum call { CALLS(AS_ENUM) CALL_COUNT };

#define AS_FACTS(call, group, refusals) {#call, group, refusals, 0, 0},
static struct {
    const char *name;
    enum group group;
    const char *refusals;
    uint64_t met;
    uint64_t inputs;
} calls[CALL_COUNT] = {CALLS(AS_FACTS)};

enum { GUARD = 32, BYTES = GUARD + 2 * MOST + GUARD, BUFFER = GUARD + MOST_ROOM + GUARD };
enum side { RATTLE, C };

union memory {
    uint8_t bytes[BYTES];
    uint16_t entries[BYTES / 2];
};

struct slice {
    size_t count;
    size_t width;
    union memory before;
    union memory lent[2];
};

/* What the call under comparison is given. Not every call is given all of it. */
static struct {
    size_t size;
    uint64_t number;
    int64_t distance;
    uint64_t end;
    spire_run run;
    spire_sheet sheet;
    struct slice first, second;
} in;

/* What a sheet is put into: larger than any other slice, and guarded like them. */
static struct {
    size_t room;
    uint8_t before[BUFFER];
    uint8_t lent[2][BUFFER];
} buffer;

static void show_elements(const char *what, const struct slice *slice, const union memory *memory)
{
    printf("  %s:", what);
    for (size_t i = 0; i < slice->count; i++)
        printf(" %u", slice->width == 1 ? memory->bytes[GUARD + i] : memory->entries[GUARD / 2 + i]);
    printf("\n");
}

static void show_slice(const char *name, const struct slice *slice)
{
    printf("%s slice, %zu elements\n", name, slice->count);
    show_elements("lent  ", slice, &slice->before);
    show_elements("Rattle", slice, &slice->lent[RATTLE]);
    show_elements("C     ", slice, &slice->lent[C]);
}

static void show_run(const char *name, const spire_run *run)
{
    printf("%s: size %zu, next %" PRIu64 ", end %" PRIu64 ", figure %" PRIu64 ", places", name, run->size, run->next, run->end, run->figure);
    for (size_t i = 0; i < sizeof run->places; i++)
        printf(" %u", run->places[i]);
    printf("\n");
}

static void show_text(const char *name, const uint8_t *bytes, size_t count)
{
    printf("%s:\n", name);
    for (size_t i = 0; i < count; i++)
        printf(bytes[i] == '\n' || (bytes[i] >= ' ' && bytes[i] <= '~') ? "%c" : "\\%03o", bytes[i]);
    printf("\n");
}

static void show_sheet(const spire_sheet *sheet)
{
    printf("sheet: refusal %" PRIu64 ", opened %d, ended %d, first %" PRIu64 "\n", sheet->refusal, sheet->opened, sheet->ended, sheet->first);
    show_run("its run", &sheet->run);
    printf("a room of %zu bytes\n", buffer.room);
    show_text("Rattle", buffer.lent[RATTLE] + GUARD, buffer.room);
    show_text("C", buffer.lent[C] + GUARD, buffer.room);
}

static void differ(enum call call, const char *what, uint64_t rattle, uint64_t c)
{
    printf("%s: %s: Rattle %" PRIu64 ", C %" PRIu64 "\n", calls[call].name, what, rattle, c);
    printf("size %zu, number or first %" PRIu64 ", distance %" PRId64 ", end %" PRIu64 "\n", in.size, in.number, in.distance, in.end);
    if (calls[call].group == RUNS) {
        show_run("run", &in.run);
    } else if (call == sheet_fill) {
        show_sheet(&in.sheet);
    } else if (call == sheet_open) {
        show_text("input", in.first.before.bytes + GUARD, in.first.count);
    } else {
        show_slice("first", &in.first);
        show_slice("second", &in.second);
    }
    exit(1);
}

static void same(enum call call, const char *what, uint64_t rattle, uint64_t c)
{
    if (rattle != c)
        differ(call, what, rattle, c);
}

static void lend(struct slice *slice)
{
    slice->lent[RATTLE] = slice->before;
    slice->lent[C] = slice->before;
}

/* Contents that both sides are lent, and guards that hold noise. */
static void fill(struct slice *slice, size_t count, size_t width, const void *contents)
{
    slice->count = count;
    slice->width = width;
    noise(slice->before.bytes, BYTES);
    memcpy(slice->before.bytes + GUARD, contents, MOST * width);
    lend(slice);
}

/* Both sides end alike, and only what may be written has been written. The slice is then lent anew, for the next call. */
static void same_slice(enum call call, const char *name, struct slice *slice, bool may_write)
{
    const uint8_t *rattle = slice->lent[RATTLE].bytes, *c = slice->lent[C].bytes;
    union memory expected = slice->before;
    if (may_write)
        memcpy(expected.bytes + GUARD, c + GUARD, slice->count * slice->width);
    for (size_t i = 0; i < BYTES; i++) {
        if (rattle[i] != expected.bytes[i] || c[i] != expected.bytes[i])
            differ(call, name, rattle[i], c[i]);
    }
    lend(slice);
}

/* Which slice a call writes, if it does not refuse. */
enum written { NEITHER, FIRST, SECOND };

static void count(enum call call, uint64_t refusal)
{
    calls[call].met |= UINT64_C(1) << refusal;
    calls[call].inputs++;
}

static void settle(enum call call, uint64_t refusal, enum written written)
{
    same_slice(call, "first slice", &in.first, written == FIRST && refusal == 0);
    same_slice(call, "second slice", &in.second, written == SECOND && refusal == 0);
    count(call, refusal);
}

static void same_reply(enum call call, enum written written, spire_reply rattle, spire_reply c)
{
    same(call, "refusal", rattle.refusal, c.refusal);
    same(call, "value", rattle.value, c.value);
    settle(call, c.refusal, written);
}

/* A move by what it means: the refusal and the number that the target tells, worked out with room for its sign. `before` and `after` are
   what the number call says of the slice before the move and after it. */
static void same_target(enum call call, spire_reply before, spire_reply moved, spire_reply after)
{
    __int128 target = (__int128)before.value + in.distance;
    uint64_t refusal = before.refusal ? before.refusal : target < 0 ? 7 : target >= catalan(in.size) ? 6 : 0;
    same(call, "refusal and that of the target", moved.refusal, refusal);
    same(call, "number and that of the target", after.value, refusal ? before.value : (uint64_t)target);
}

static void same_part(enum call call, spire_part rattle, spire_part c)
{
    same(call, "slice", rattle.slice, c.slice);
    same(call, "offset", rattle.offset, c.offset);
    same(call, "length", rattle.length, c.length);
    settle(call, c.length == 0, NEITHER);
}

static void same_places(enum call call, const char *what, const uint8_t *rattle, const uint8_t *c)
{
    for (size_t i = 0; i < sizeof in.run.places; i++)
        same(call, what, rattle[i], c[i]);
}

static void same_run(enum call call, const spire_run *rattle, const spire_run *c)
{
    same(call, "the run's size", rattle->size, c->size);
    same(call, "the run's next", rattle->next, c->next);
    same(call, "the run's end", rattle->end, c->end);
    same(call, "the run's figure", rattle->figure, c->figure);
    same_places(call, "the run's places", rattle->places, c->places);
}

static void same_sheet(enum call call, const spire_sheet *rattle, const spire_sheet *c)
{
    same(call, "the sheet's refusal", rattle->refusal, c->refusal);
    same(call, "the sheet's opened", rattle->opened, c->opened);
    same(call, "the sheet's ended", rattle->ended, c->ended);
    same(call, "the sheet's first", rattle->first, c->first);
    same_run(call, &rattle->run, &c->run);
}

/* Both sides have put the same text, and have left all that is before it and behind it. */
static void same_buffer(uint64_t bytes)
{
    const uint8_t *rattle = buffer.lent[RATTLE], *c = buffer.lent[C];
    for (size_t i = 0; i < BUFFER; i++) {
        bool put = i >= GUARD && i - GUARD < bytes && i - GUARD < buffer.room;
        uint8_t expected = put ? c[i] : buffer.before[i];
        if (rattle[i] != expected || c[i] != expected)
            differ(sheet_fill, "buffer", rattle[i], c[i]);
    }
}

/* The arguments of a call, for one side. */
static uint8_t *bytes(struct slice *slice, enum side side)
{
    return slice->lent[side].bytes + GUARD;
}

static uint16_t *entries(struct slice *slice, enum side side)
{
    return slice->lent[side].entries + GUARD / 2;
}

#define PLACES(side) in.size, bytes(&in.first, side), in.first.count
#define MOVED_PLACES(side) in.size, in.distance, bytes(&in.first, side), in.first.count
#define NUMBERED_PLACES(side) in.size, in.number, bytes(&in.first, side), in.first.count
#define TWO_PLACES(side) PLACES(side), bytes(&in.second, side), in.second.count
#define ENTRIES(side) in.size, entries(&in.first, side), in.first.count
#define MOVED_ENTRIES(side) in.size, in.distance, entries(&in.first, side), in.first.count
#define NUMBERED_ENTRIES(side) in.size, in.number, entries(&in.first, side), in.first.count
#define PLACES_TO_ENTRIES(side) PLACES(side), entries(&in.second, side), in.second.count
#define ENTRIES_TO_PLACES(side) ENTRIES(side), bytes(&in.second, side), in.second.count
#define BYTES_TO_PLACES(side) bytes(&in.first, side), in.first.count, bytes(&in.second, side), in.second.count

#define REPLY(call, written, ARGUMENTS) same_reply(call, written, spire_##call(ARGUMENTS(RATTLE)), c_##call(ARGUMENTS(C)))
#define MOVE(call, number, ARGUMENTS, READ) \
    do { \
        spire_reply before = c_##number(READ(C)); \
        spire_reply rattle = spire_##call(ARGUMENTS(RATTLE)), c = c_##call(ARGUMENTS(C)); \
        same_target(call, before, c, c_##number(READ(C))); \
        same_reply(call, FIRST, rattle, c); \
    } while (0)
#define PART(call, ARGUMENTS) same_part(call, spire_##call(ARGUMENTS(RATTLE)), c_##call(ARGUMENTS(C)))

static void fill_places(struct slice *slice, size_t n)
{
    uint8_t places[MOST];
    any_places(n, places);
    fill(slice, any_count(2 * n), sizeof *places, places);
}

static void fill_entries(struct slice *slice, size_t n)
{
    uint16_t drawn[MOST];
    any_entries(n, drawn);
    fill(slice, any_count(n), sizeof *drawn, drawn);
}

static void compare_patterns(size_t n)
{
    fill_places(&in.first, n);
    fill_places(&in.second, n);
    REPLY(pattern_check, NEITHER, PLACES);
    REPLY(pattern_number, NEITHER, PLACES);
    REPLY(pattern_shape, FIRST, NUMBERED_PLACES);
    REPLY(pattern_successor, FIRST, PLACES);
    REPLY(pattern_predecessor, FIRST, PLACES);
    MOVE(pattern_move, pattern_number, MOVED_PLACES, PLACES);
    REPLY(pattern_depth, NEITHER, PLACES);
    PART(pattern_head, PLACES);
    PART(pattern_later, TWO_PLACES);
    if (in.first.count == in.second.count && below(4) == 0) {
        fill(&in.second, in.first.count, 1, in.first.before.bytes + GUARD);
        PART(pattern_later, TWO_PLACES);
    }
}

static void compare_permutations(size_t n)
{
    fill_entries(&in.first, n);
    REPLY(permutation_check, NEITHER, ENTRIES);
    REPLY(permutation_number, NEITHER, ENTRIES);
    REPLY(permutation_shape, FIRST, NUMBERED_ENTRIES);
    REPLY(permutation_successor, FIRST, ENTRIES);
    REPLY(permutation_predecessor, FIRST, ENTRIES);
    MOVE(permutation_move, permutation_number, MOVED_ENTRIES, ENTRIES);
}

static void compare_forms(size_t n)
{
    fill_places(&in.first, n);
    fill_entries(&in.second, n);
    REPLY(to_permutation, SECOND, PLACES_TO_ENTRIES);
    fill_entries(&in.first, n);
    fill_places(&in.second, n);
    REPLY(to_pattern, SECOND, ENTRIES_TO_PLACES);
}

static void compare_start(size_t n)
{
    in.end = any_number(n);
    spire_started rattle = spire_run_start(in.size, in.number, in.end);
    spire_started c = c_run_start(in.size, in.number, in.end);
    same(run_start, "refusal", rattle.refusal, c.refusal);
    same_run(run_start, &rattle.run, &c.run);
    settle(run_start, c.refusal, NEITHER);
}

static spire_run compare_step(void)
{
    spire_stepped rattle = spire_run_step(in.run);
    spire_stepped c = c_run_step(in.run);
    same(run_step, "refusal", rattle.refusal, c.refusal);
    same(run_step, "handed", rattle.handed, c.handed);
    same(run_step, "change", rattle.change, c.change);
    same_places(run_step, "places", rattle.places, c.places);
    same_run(run_step, &rattle.run, &c.run);
    settle(run_step, c.refusal, NEITHER);
    return c.run;
}

/* A few steps from a state: where it is refused, or at its end, it stays. */
static void compare_runs(size_t n)
{
    compare_start(n);
    in.run = any_run(n);
    for (int i = 0; i < 3; i++)
        in.run = compare_step();
}

static void compare_records(size_t n)
{
    uint8_t record[MOST];
    size_t count = any_record(n, record);
    fill_places(&in.first, n);
    fill(&in.second, any_count(count), 1, record);
    REPLY(record_write, SECOND, TWO_PLACES);
    fill(&in.first, any_count(count), 1, record);
    fill_places(&in.second, n);
    REPLY(record_read, SECOND, BYTES_TO_PLACES);
}

static spire_sheet compare_open(size_t length, const uint8_t *line)
{
    fill(&in.first, length, 1, line);
    spire_sheet rattle = spire_sheet_open(bytes(&in.first, RATTLE), in.first.count);
    spire_sheet c = c_sheet_open(bytes(&in.first, C), in.first.count);
    same_sheet(sheet_open, &rattle, &c);
    settle(sheet_open, c.refusal, NEITHER);
    return c;
}

/* The next piece of the sheet, which both sides move on alike. Answers how many bytes it has. */
static uint64_t compare_fill(size_t room)
{
    buffer.room = room;
    noise(buffer.before, BUFFER);
    memcpy(buffer.lent[RATTLE], buffer.before, BUFFER);
    memcpy(buffer.lent[C], buffer.before, BUFFER);
    spire_filled rattle = spire_sheet_fill(in.sheet, buffer.lent[RATTLE] + GUARD, room);
    spire_filled c = c_sheet_fill(in.sheet, buffer.lent[C] + GUARD, room);
    same(sheet_fill, "refusal", rattle.refusal, c.refusal);
    same(sheet_fill, "bytes", rattle.bytes, c.bytes);
    same_sheet(sheet_fill, &rattle.sheet, &c.sheet);
    same_buffer(c.bytes);
    count(sheet_fill, c.refusal);
    in.sheet = c.sheet;
    return c.bytes;
}

/* A whole sheet's text, with room for the longest that a good line asks for and one piece more. */
struct whole {
    size_t length;
    uint8_t bytes[(SHORT_RUN + 2) * SPIRE_LINE_ROOM + MOST_ROOM];
};

/* Whether one piece more would find room. */
static bool has_room(const struct whole *whole)
{
    return whole->length + MOST_ROOM <= sizeof whole->bytes;
}

static void join_compared(struct whole *whole, spire_sheet opened)
{
    in.sheet = opened;
    whole->length = 0;
    while (!in.sheet.ended && has_room(whole)) {
        uint64_t put = compare_fill(good_room());
        memcpy(whole->bytes + whole->length, buffer.lent[RATTLE] + GUARD, put);
        whole->length += put;
    }
    same(sheet_fill, "ended", in.sheet.ended, true);
    same(sheet_fill, "bytes behind the end", compare_fill(good_room()), 0);
}

static void join_again(struct whole *whole, spire_sheet sheet)
{
    whole->length = 0;
    while (!sheet.ended && has_room(whole)) {
        spire_filled filled = c_sheet_fill(sheet, whole->bytes + whole->length, good_room());
        whole->length += filled.bytes;
        sheet = filled.sheet;
    }
}

/* All pieces of a sheet, joined. They are the same text whatever the rooms, so C's are joined once more with others. */
static void compare_whole(spire_sheet opened)
{
    static struct whole rattle, c;
    join_compared(&rattle, opened);
    join_again(&c, opened);
    same(sheet_fill, "length of the whole sheet", rattle.length, c.length);
    for (size_t i = 0; i < c.length; i++)
        same(sheet_fill, "whole sheet", rattle.bytes[i], c.bytes[i]);
}

static void compare_pieces(spire_sheet sheet)
{
    in.sheet = sheet;
    for (int i = 0; i < 3; i++)
        compare_fill(any_room());
}

/* A few pieces of an opened sheet and of one half handed out; of some, which are short, all. */
static void compare_sheets(size_t n)
{
    uint8_t line[MOST];
    compare_pieces(compare_open(any_line(n, line), line));
    compare_pieces(any_sheet(n));
    if (below(8) == 0)
        compare_whole(compare_open(good_line(n, line), line));
}

static void report(void)
{
    uint64_t inputs[GROUPS] = {0}, total = 0;
    for (int call = 0; call < CALL_COUNT; call++) {
        inputs[calls[call].group] += calls[call].inputs;
        total += calls[call].inputs;
        for (const char *refusal = calls[call].refusals; *refusal; refusal++) {
            unsigned number = (unsigned)(*refusal >= 'A' ? *refusal - 'A' + 10 : *refusal - '0');
            if ((calls[call].met >> number & 1) == 0) {
                printf("%s: no input met refusal %u\n", calls[call].name, number);
                exit(1);
            }
        }
    }
    printf("compared with C, inputs:");
    for (int group = 0; group < GROUPS; group++)
        printf(" %s %" PRIu64 ",", group_names[group], inputs[group]);
    printf(" in all %" PRIu64 "; no difference\n", total);
}

int main(void)
{
    enum { ROUNDS = 1500, LARGEST = 35 };
    for (size_t n = 1; n <= LARGEST; n++) {
        for (int round = 0; round < ROUNDS; round++) {
            in.size = any_size(n);
            in.number = any_number(n);
            in.distance = any_distance(n);
            compare_patterns(n);
            compare_permutations(n);
            compare_forms(n);
            compare_runs(n);
            compare_records(n);
            compare_sheets(n);
        }
    }
    report();
}

/* How long each call takes, the archive's against the baseline's, on good inputs spread through the size.

     time                                 a table: call, size, nanoseconds of both, ratio
     time --calls                         the calls' names
     time --count rattle|c CALL SIZE      one side's call, once on each input, inside the function `counted`, for a tool that counts
                                          instructions in there

   A time is the least of many rounds, the two sides taking turns, so that what else the machine does falls on both. */
#include <inttypes.h>
#include <stdio.h>
#include <stdlib.h>
#include <string.h>
#include <time.h>

#include "baseline.h"

enum { INPUTS = 512, ROUNDS = 300, ROOM = 70 };

struct inputs {
    uint64_t third;
    uint64_t numbers[INPUTS];
    uint8_t places[INPUTS][ROOM];
    uint16_t entries[INPUTS][ROOM / 2];
    uint8_t bytes[INPUTS][10];
    spire_run runs[INPUTS];
};

/* Calls rewrite what they are lent, so each round begins with what was made. */
static struct inputs made, in;

static uint64_t of_reply(spire_reply reply)
{
    return reply.value + (reply.refusal << 32);
}

static uint64_t of_part(spire_part part)
{
    return part.length + part.slice;
}

static uint64_t of_started(spire_started started)
{
    return started.run.next + (started.refusal << 32);
}

static uint64_t of_stepped(spire_stepped stepped)
{
    return stepped.change + (stepped.refusal << 32);
}

/* Towards the middle of the list: on from the lower half of the numbers, and back from the upper. */
static int64_t towards(size_t i, uint64_t by)
{
    return i < INPUTS / 2 ? (int64_t)by : -(int64_t)by;
}

/* Each row: its name, the call, what is kept of its answer, its arguments for size n and input i. A move is long by a third of the list. */
#define CALLS(X) \
    X(pattern_check, pattern_check, of_reply, (n, in.places[i], 2 * n)) \
    X(pattern_number, pattern_number, of_reply, (n, in.places[i], 2 * n)) \
    X(pattern_shape, pattern_shape, of_reply, (n, in.numbers[i], in.places[i], 2 * n)) \
    X(pattern_successor, pattern_successor, of_reply, (n, in.places[i], 2 * n)) \
    X(pattern_predecessor, pattern_predecessor, of_reply, (n, in.places[i], 2 * n)) \
    X(pattern_move_by_40, pattern_move, of_reply, (n, towards(i, 40), in.places[i], 2 * n)) \
    X(pattern_move_by_1000, pattern_move, of_reply, (n, towards(i, 1000), in.places[i], 2 * n)) \
    X(pattern_move_long, pattern_move, of_reply, (n, towards(i, in.third), in.places[i], 2 * n)) \
    X(pattern_depth, pattern_depth, of_reply, (n, in.places[i], 2 * n)) \
    X(pattern_head, pattern_head, of_part, (n, in.places[i], 2 * n)) \
    X(pattern_later, pattern_later, of_part, (n, in.places[i], 2 * n, in.places[i / 2], 2 * n)) \
    X(permutation_check, permutation_check, of_reply, (n, in.entries[i], n)) \
    X(permutation_number, permutation_number, of_reply, (n, in.entries[i], n)) \
    X(permutation_shape, permutation_shape, of_reply, (n, in.numbers[i], in.entries[i], n)) \
    X(permutation_successor, permutation_successor, of_reply, (n, in.entries[i], n)) \
    X(permutation_predecessor, permutation_predecessor, of_reply, (n, in.entries[i], n)) \
    X(permutation_move_by_40, permutation_move, of_reply, (n, towards(i, 40), in.entries[i], n)) \
    X(permutation_move_long, permutation_move, of_reply, (n, towards(i, in.third), in.entries[i], n)) \
    X(to_permutation, to_permutation, of_reply, (n, in.places[i], 2 * n, in.entries[i], n)) \
    X(to_pattern, to_pattern, of_reply, (n, in.entries[i], n, in.places[i], 2 * n)) \
    X(run_start, run_start, of_started, (n, in.numbers[i], in.numbers[i] + 1)) \
    X(run_step, run_step, of_stepped, (in.runs[i])) \
    X(record_write, record_write, of_reply, (n, in.places[i], 2 * n, in.bytes[i], 1 + (n + 3) / 4)) \
    X(record_read, record_read, of_reply, (in.bytes[i], 1 + (n + 3) / 4, in.places[i], 2 * n))

typedef uint64_t loop(size_t n);

#define LOOP(side, row, call, kept, arguments) \
    static uint64_t side##_##row##_loop(size_t n) \
    { \
        uint64_t sum = 0; \
        for (size_t i = 0; i < INPUTS; i++) \
            sum += kept(side##_##call arguments); \
        return sum + n; \
    }
#define LOOPS(row, call, kept, arguments) LOOP(spire, row, call, kept, arguments) LOOP(c, row, call, kept, arguments)
CALLS(LOOPS)

#define AS_ROW(row, call, kept, arguments) {#row, spire_##row##_loop, c_##row##_loop},
static const struct {
    const char *name;
    loop *rattle;
    loop *c;
} calls[] = {CALLS(AS_ROW)};
enum { CALL_COUNT = sizeof calls / sizeof *calls };

/* Neither the first shape nor the last, which steps refuse. */
static void make_inputs(size_t n)
{
    uint64_t total = 1;
    for (uint64_t k = 0; k < n; k++)
        total = total / (k + 2) * (4 * k + 2) + total % (k + 2) * (4 * k + 2) / (k + 2);
    made.third = total / 3;
    for (size_t i = 0; i < INPUTS; i++) {
        uint64_t number = total / (INPUTS + 2) * (i + 1);
        made.numbers[i] = number;
        c_pattern_shape(n, number, made.places[i], 2 * n);
        c_to_permutation(n, made.places[i], 2 * n, made.entries[i], n);
        c_record_write(n, made.places[i], 2 * n, made.bytes[i], 1 + (n + 3) / 4);
        made.runs[i] = c_run_start(n, number, total).run;
    }
}

static double round_of(loop *calls_of_side, size_t n, uint64_t *sum)
{
    struct timespec start, end;
    in = made;
    clock_gettime(CLOCK_MONOTONIC, &start);
    *sum = calls_of_side(n);
    clock_gettime(CLOCK_MONOTONIC, &end);
    return (double)(end.tv_sec - start.tv_sec) * 1e9 + (double)(end.tv_nsec - start.tv_nsec);
}

static void time_call(int call, size_t n)
{
    double rattle = 1e18, c = 1e18;
    for (int round = 0; round < ROUNDS; round++) {
        uint64_t rattle_sum, c_sum;
        double rattle_took = round_of(calls[call].rattle, n, &rattle_sum);
        double c_took = round_of(calls[call].c, n, &c_sum);
        if (rattle_sum != c_sum) {
            printf("%s, size %zu: the answers differ\n", calls[call].name, n);
            exit(1);
        }
        rattle = rattle_took < rattle ? rattle_took : rattle;
        c = c_took < c ? c_took : c;
    }
    printf("%-24s %4zu %9.1f %9.1f %7.2f\n", calls[call].name, n, rattle / INPUTS, c / INPUTS, rattle / c);
}

static void time_all(void)
{
    static const size_t sizes[] = {8, 20, 35};
    printf("%-24s %4s %9s %9s %7s\n", "call", "size", "Rattle ns", "C ns", "ratio");
    for (int call = 0; call < CALL_COUNT; call++) {
        for (size_t i = 0; i < sizeof sizes / sizeof *sizes; i++) {
            make_inputs(sizes[i]);
            time_call(call, sizes[i]);
        }
    }
}

/* A function of its own, known by its name to the tool that counts. */
__attribute__((noinline)) uint64_t counted(loop *calls_of_side, size_t n);
uint64_t counted(loop *calls_of_side, size_t n)
{
    return calls_of_side(n) + 1;
}

static int count(const char *side, const char *name, size_t n)
{
    bool rattle = strcmp(side, "rattle") == 0;
    if (!rattle && strcmp(side, "c") != 0)
        return 2;
    for (int call = 0; call < CALL_COUNT; call++) {
        if (strcmp(calls[call].name, name) == 0) {
            make_inputs(n);
            in = made;
            printf("%" PRIu64 "\n", counted(rattle ? calls[call].rattle : calls[call].c, n));
            return 0;
        }
    }
    return 2;
}

int main(int argc, char **argv)
{
    if (argc == 5 && strcmp(argv[1], "--count") == 0)
        return count(argv[2], argv[3], strtoul(argv[4], NULL, 10));
    if (argc == 2 && strcmp(argv[1], "--calls") == 0) {
        for (int call = 0; call < CALL_COUNT; call++)
            printf("%s\n", calls[call].name);
        return 0;
    }
    if (argc != 1)
        return 2;
    time_all();
}

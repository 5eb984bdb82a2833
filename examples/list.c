/* Lists the shapes of size 4 in the local order: number, pattern, permutation and change of each, and the figure at the end. Built and run
   from the repository's root by

       (cd crates/exports && rt lib) && mkdir -p target
       cc -O2 -Iinclude examples/list.c crates/exports/out/libexports.a -o target/list && target/list */
#include <inttypes.h>
#include <stdio.h>

#include "spirecloud.h"

enum { SIZE = 4, SHAPES = 14 };

static int refused(uint64_t refusal) {
    fprintf(stderr, "refused: %" PRIu64 "\n", refusal);
    return 1;
}

int main(void) {
    spire_started started = spire_run_start(SIZE, 0, SHAPES);
    if (started.refusal != 0) {
        return refused(started.refusal);
    }
    spire_run run = started.run;
    for (;;) {
        spire_stepped step = spire_run_step(run);
        if (step.refusal != 0) {
            return refused(step.refusal);
        }
        if (step.handed == 0) {
            break;
        }
        uint16_t entries[SIZE];
        spire_reply reply = spire_to_permutation(SIZE, step.places, 2 * SIZE, entries, SIZE);
        if (reply.refusal != 0) {
            return refused(reply.refusal);
        }
        printf("%2" PRIu64 "  ", run.next);
        for (size_t i = 0; i < 2 * SIZE; i++) {
            printf("%d", step.places[i]);
        }
        printf("  ");
        for (size_t i = 0; i < SIZE; i++) {
            printf("%s%d", i == 0 ? "" : ",", entries[i]);
        }
        printf("  %" PRIu64 "\n", step.change);
        run = step.run;
    }
    printf("figure %" PRIu64 "\n", run.figure);
    return 0;
}

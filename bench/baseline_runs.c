/* Runs. A state handed in is checked whole, but for its figure. */
#include <string.h>

#include "work_patterns.h"

static uint64_t range_fault(size_t size, uint64_t first, uint64_t end)
{
    if (!sized(size))
        return REFUSED_SIZE;
    return first > end || end > catalans[size] ? REFUSED_RANGE : 0;
}

static bool zeros(const uint8_t *places, size_t from)
{
    uint8_t all = 0;
    for (size_t i = from; i < ROOM; i++)
        all |= places[i];
    return all == 0;
}

static bool belongs(const spire_run *run)
{
    if (range_fault(run->size, run->next, run->end))
        return false;
    if (run->next == run->end)
        return zeros(run->places, 0);
    return zeros(run->places, 2 * run->size) && pattern_contents(run->size, run->places) == 0
        && pattern_number(run->size, run->places) == run->next;
}

spire_started c_run_start(size_t size, uint64_t first, uint64_t end)
{
    spire_started started = {.refusal = range_fault(size, first, end)};
    if (started.refusal)
        return started;
    started.run.size = size;
    started.run.next = first;
    started.run.end = end;
    if (first < end)
        pattern_shape(size, first, started.run.places);
    return started;
}

spire_stepped c_run_step(spire_run run)
{
    spire_stepped stepped = {.run = run};
    if (!belongs(&run)) {
        stepped.refusal = REFUSED_STATE;
        return stepped;
    }
    if (run.next == run.end)
        return stepped;
    uint64_t change = pattern_change(run.size, run.places);
    if (run.figure > UINT64_MAX - change) {
        stepped.refusal = REFUSED_STATE;
        return stepped;
    }
    stepped.handed = 1;
    stepped.change = change;
    memcpy(stepped.places, run.places, ROOM);
    stepped.run.next++;
    stepped.run.figure += change;
    if (stepped.run.next == run.end)
        memset(stepped.run.places, 0, ROOM);
    else
        pattern_next(run.size, stepped.run.places);
    return stepped;
}

/* What the baselines share: the refusals by name, the Catalan numbers and the first thing that a call asks. */
#ifndef WORK_H
#define WORK_H

#include "baseline.h"

enum {
    LARGEST_SIZE = 35,
    ROOM = 2 * LARGEST_SIZE,
};

enum {
    REFUSED_SIZE = 1,
    REFUSED_LENGTH,
    REFUSED_ENTRY,
    REFUSED_SHAPE,
    REFUSED_NUMBER,
    REFUSED_LAST,
    REFUSED_FIRST,
    REFUSED_RANGE,
    REFUSED_STATE,
    REFUSED_RECORD,
    REFUSED_INPUT,
};

/* C(0) to C(36). */
static const uint64_t catalans[37] = {
    1, 1, 2, 5, 14, 42, 132, 429, 1430, 4862, 16796, 58786, 208012, 742900, 2674440, 9694845, 35357670, 129644790, 477638700, 1767263190,
    6564120420, 24466267020, 91482563640, 343059613650, 1289904147324, 4861946401452, 18367353072152, 69533550916004, 263747951750360,
    1002242216651368, 3814986502092304, 14544636039226909, 55534064877048198, 212336130412243110, 812944042149730764,
    3116285494907301262, 11959798385860453492u,
};

static inline spire_reply refused(uint64_t refusal)
{
    return (spire_reply){.refusal = refusal};
}

static inline spire_reply answered(uint64_t value)
{
    return (spire_reply){.value = value};
}

/* What a move tells that comes to no shape. */
static inline uint64_t end_past(int64_t distance)
{
    return distance < 0 ? REFUSED_FIRST : REFUSED_LAST;
}

/* Sizes 1 to 35 are in range: 0 wraps to the largest number. */
static inline bool sized(size_t size)
{
    return size - 1 < LARGEST_SIZE;
}

#endif

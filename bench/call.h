/* One call of a side. */
#ifndef CALL_H
#define CALL_H

#include "payload.h"
#include "sides.h"

enum call { READ, ROW, START, OPEN, CLOSE, SEQUENCE, FEED, PICTURE, TABLE };

/* What a call is given; none is given all. */
struct given {
    enum call call;
    uint64_t slot;
    uint64_t kind;
    struct payload payload;
};

enum { MOST_NUMBERS = 313 };

struct answered {
    uint64_t number;
    uint64_t count;
    uint64_t numbers[MOST_NUMBERS];
};

/* Makes the call, answers its number, and writes what else it hands out. */
uint32_t make_call(const struct side *side, void *slots, const struct given *given, struct answered *answered);

/* Does nothing. make_call calls it right before the side's function and right after it: what runs in between, in other functions than
 * these two, is what the call costs. */
void mark(void);

#endif

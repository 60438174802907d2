/* What is measured: payloads to read, and calls on slots. */
#ifndef CASES_H
#define CASES_H

#include "call.h"

/* A payload, as payload.h writes it, and the number that it is answered with. */
struct payload_case {
    uint64_t kind;
    const char *name;
    uint32_t number;
    const char *payload;
};

extern const struct payload_case payload_cases[];
extern const size_t payload_case_count;

enum { FILLED_SLOT = 3, CLOSED_SLOT = 4, NO_SLOT = 8 };

/* A message that FILLED_SLOT holds; the last of a list has kind 0. */
struct held_message {
    uint64_t kind;
    const char *payload;
};

/* A call on a slot, its number, and what FILLED_SLOT holds before it; FEED feeds `kind` and `payload`. */
struct slot_case {
    enum call call;
    const char *name;
    uint32_t number;
    uint64_t slot;
    const struct held_message *held;
    uint64_t kind;
    const char *payload;
};

extern const struct slot_case slot_cases[];
extern const size_t slot_case_count;

#endif

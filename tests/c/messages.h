/* Random payloads: what tests/c and bench/stack.c feed. */
#ifndef MESSAGES_H
#define MESSAGES_H

#include <string.h>

#include "../../host/bruskelde.h"

/* ---- random numbers */

static uint64_t state = 1;

static inline uint64_t any(unsigned bits)
{
    state = state * 6364136223846793005u + 1442695040888963407u;
    return state >> (64 - bits);
}

/* ---- a payload, bit by bit */

static struct {
    uint8_t bytes[1024];
    size_t bits;
} payload;

static inline void begin_payload(void)
{
    memset(&payload, 0, sizeof payload);
}

static inline void put(uint64_t value, unsigned width)
{
    while (width-- > 0) {
        if (value >> width & 1)
            payload.bytes[payload.bits / 8] |= (uint8_t)(0x80 >> payload.bits % 8);
        payload.bits++;
    }
}

static inline void put_any(unsigned width)
{
    put(any(width), width);
}

/* ue(v) of a number below 2^31 - 1 */
static inline void put_golomb(uint64_t value)
{
    unsigned zeros = 0;
    while ((value + 1) >> (zeros + 1) != 0)
        zeros++;
    put(0, zeros);
    put(value + 1, zeros + 1);
}

/* a one and zeros, up to a whole byte */
static inline void put_tail(void)
{
    if (payload.bits % 8 != 0)
        put(1, 1);
    while (payload.bits % 8 != 0)
        put(0, 1);
}

/* ---- a taken, uncancelled message of each held kind */

static inline void make_frame_packing(void)
{
    put_golomb(any(8));
    put(0, 1);
    put(3 + any(1), 7);
    put(0, 1);
    put(any(1), 6);
    put_any(6);
    put_any(16);
    put(0, 8);
    put_any(1);
    put_any(1);
}

static inline void make_orientation(void)
{
    put(0, 1);
    put_any(4);
    put(0, 3);
}

static inline void make_equirectangular(void)
{
    put(0, 1);
    put_any(1);
    put(1, 1);
    put(0, 2);
    put_any(3);
    put_any(16);
}

/* an angle in two's complement, of both signs and within every rule */
static inline void put_angle(void)
{
    put((uint32_t)any(23) - (1u << 22), 32);
}

static inline void make_rotation(void)
{
    put(0, 1);
    put_any(1);
    put(0, 6);
    put_angle();
    put_angle();
    put_angle();
}

static inline void make_region(void)
{
    unsigned guarded = (unsigned)any(1);
    put(0, 4);
    put_any(3);
    put(guarded, 1);
    for (int i = 0; i < 4; i++)
        put_any(32);
    for (int i = 0; i < 4; i++)
        put_any(16);
    if (!guarded)
        return;
    put_any(32);
    put(1, 1);
    put_any(12);
    put(0, 3);
}

static inline void make_packing(void)
{
    put(0, 1);
    put_any(1);
    put_any(1);
    put(0, 5);
    put(BRUSKELDE_MOST_REGIONS, 8);
    put(any(31) + 1, 32);
    put(any(31) + 1, 32);
    put(any(15) + 1, 16);
    put(any(15) + 1, 16);
    for (int i = 0; i < BRUSKELDE_MOST_REGIONS; i++)
        make_region();
}

#endif

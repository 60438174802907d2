/* The calls that are measured, and the two sides that have them. */
#ifndef SIDES_H
#define SIDES_H

#include <stddef.h>
#include <stdint.h>

/* Each call answers its number. `slots` is what `make` gave: eight slots of the side's own. */
struct side {
    uint32_t (*read)(uint64_t kind, uint64_t size, const uint8_t *bytes, size_t length);
    /* also the whole record, as a row of numbers */
    uint32_t (*row)(uint64_t kind, uint64_t size, const uint8_t *bytes, size_t length, uint64_t *row, size_t row_length);
    void *(*make)(void);
    uint32_t (*start)(void *slots);
    uint32_t (*open)(void *slots, uint64_t slot);
    uint32_t (*close)(void *slots, uint64_t slot);
    uint32_t (*sequence)(void *slots, uint64_t slot);
    /* also the count of extension bits */
    uint32_t (*feed)(void *slots, uint64_t slot, uint64_t kind, uint64_t size, const uint8_t *bytes, size_t length,
                     uint64_t *extension);
    /* also, of each of the five kinds, whether a record was held */
    uint32_t (*picture)(void *slots, uint64_t slot, uint64_t held[5]);
    /* also how many rows were written */
    uint32_t (*table)(void *slots, uint64_t slot, uint64_t *rows, size_t length, uint64_t *written);
};

extern const struct side library; /* the archive's C entries */
extern const struct side reader;  /* the plain reader in Rust */

#endif

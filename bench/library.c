/* The library's side. A slot call is made as a player makes it, on slots of its own. */
#include "bruskelde.h"
#include "sides.h"

static struct bruskelde_slots kept;

static void *player_make(void)
{
    bruskelde_start(&kept);
    return &kept;
}

static uint32_t player_start(void *slots)
{
    bruskelde_start(slots);
    return BRUSKELDE_DONE;
}

static uint32_t player_open(void *slots, uint64_t slot)
{
    return bruskelde_open(slots, slot);
}

static uint32_t player_close(void *slots, uint64_t slot)
{
    return bruskelde_close(slots, slot);
}

static uint32_t player_sequence(void *slots, uint64_t slot)
{
    return bruskelde_sequence(slots, slot);
}

static uint32_t player_feed(void *slots, uint64_t slot, uint64_t kind, uint64_t size, const uint8_t *bytes, size_t length,
                            uint64_t *extension)
{
    struct bruskelde_fed fed = bruskelde_feed(slots, slot, kind, size, bytes, length);
    *extension = fed.extension;
    return fed.number;
}

static uint32_t player_picture(void *slots, uint64_t slot, uint64_t held[5])
{
    struct bruskelde_held shown;
    uint32_t number = bruskelde_picture(slots, slot, &shown);
    held[0] = shown.frame_packing.on;
    held[1] = shown.orientation.on;
    held[2] = shown.equirectangular.on;
    held[3] = shown.rotation.on;
    held[4] = shown.regions.on;
    return number;
}

static uint32_t player_table(void *slots, uint64_t slot, uint64_t *rows, size_t length, uint64_t *written)
{
    struct bruskelde_tabled tabled = bruskelde_table(slots, slot, rows, length);
    *written = tabled.rows;
    return tabled.number;
}

const struct side library = {
    .read = bruskelde_read,
    .row = bruskelde_fields,
    .make = player_make,
    .start = player_start,
    .open = player_open,
    .close = player_close,
    .sequence = player_sequence,
    .feed = player_feed,
    .picture = player_picture,
    .table = player_table,
};

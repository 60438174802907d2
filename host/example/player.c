/*
 * An example player: slot 3 passes from one camera to another, and each picture's packing is printed. The second camera sends nothing
 * at first, and nothing of the first one is shown in its place.
 *
 * The player looks at every answer. A refused call leaves the slots as they were, so it only says so and goes on; but where a slot can't
 * be handed over, it shows nothing more.
 */
#include <inttypes.h>
#include <stdio.h>
#include <stdlib.h>

#include "../bruskelde.h"

/* Frame packing, kind 45: top and bottom from the first camera, side by side from the second, both with persistence; a message that is
 * cut off; and region-wise packing, kind 155, of one region. */
static const uint8_t top_and_bottom[] = {0x82, 0x01, 0x00, 0x00, 0x00, 0x02};
static const uint8_t side_by_side[] = {0x81, 0x81, 0x00, 0x00, 0x00, 0x02};
static const uint8_t cut_off[] = {0x81, 0x81, 0x00};
static const uint8_t one_region[] = {
    0x40, 0x01, 0x00, 0x00, 0x0f, 0x00, 0x00, 0x00, 0x07, 0x80, 0x07, 0x80, 0x03, 0xc0, 0x00, 0x00, 0x00, 0x0f, 0x00, 0x00,
    0x00, 0x07, 0x80, 0x00, 0x00, 0x00, 0x00, 0x00, 0x00, 0x00, 0x00, 0x07, 0x80, 0x03, 0xc0, 0x00, 0x00, 0x00, 0x00,
};

/* What an answered number says. */
static const char *words(uint32_t number)
{
    switch (number) {
    case BRUSKELDE_DONE:
        return "done";
    case BRUSKELDE_KIND:
        return "refused, no such kind";
    case BRUSKELDE_SIZE:
        return "refused, too large";
    case BRUSKELDE_SHORT:
        return "refused, cut off";
    case BRUSKELDE_ZEROS:
        return "refused, a number is too long";
    case BRUSKELDE_RULE:
        return "refused, a rule is broken";
    case BRUSKELDE_REGIONS:
        return "refused, too many regions";
    case BRUSKELDE_TAIL:
        return "refused, wrong tail";
    case BRUSKELDE_SLOT:
        return "refused, no such slot or it is closed";
    case BRUSKELDE_TABLE:
        return "refused, no table can be made";
    case BRUSKELDE_ROOM:
        return "refused, too little room";
    case BRUSKELDE_SET_ASIDE:
        return "set aside";
    default:
        return "unknown";
    }
}

static const char *packing(const struct bruskelde_held_frame_packing *held)
{
    if (held->on != 1)
        return "no packing: one picture for both eyes";
    switch (held->value.layout.arrangement_type) {
    case 3:
        return "side by side";
    case 4:
        return "top and bottom";
    case 5:
        return "one frame after the other";
    default: /* such a message is set aside and never held */
        return "unknown";
    }
}

/* Header and library have to be of one version: a larger struct than the header's would be written past its end. */
static int library_fits(void)
{
    uint64_t size = bruskelde_slots_size();
    if (size == BRUSKELDE_SLOTS_SIZE)
        return 1;
    fprintf(stderr, "player: the library's slots have %" PRIu64 " bytes and the header's %d: they are of different versions\n", size,
            BRUSKELDE_SLOTS_SIZE);
    return 0;
}

/* The slot is another camera's from now on. */
static void hand_over(struct bruskelde_slots *slots, uint64_t slot, const char *camera)
{
    uint32_t number = bruskelde_open(slots, slot);
    printf("slot %" PRIu64 " to %s: %s\n", slot, camera, words(number));
    if (number != BRUSKELDE_DONE)
        exit(EXIT_FAILURE); /* pictures would be shown with what the camera before has sent */
}

static void feed(struct bruskelde_slots *slots, uint64_t slot, uint64_t kind, const uint8_t *bytes, size_t length)
{
    struct bruskelde_fed fed = bruskelde_feed(slots, slot, kind, length, bytes, length);
    printf("feed %" PRIu64 ": %s\n", slot, words(fed.number));
}

static void picture(struct bruskelde_slots *slots, uint64_t slot)
{
    struct bruskelde_held shown;
    uint32_t number = bruskelde_picture(slots, slot, &shown);
    printf("picture %" PRIu64 ": %s\n", slot, number == BRUSKELDE_DONE ? packing(&shown.frame_packing) : words(number));
}

static void table(const struct bruskelde_slots *slots, uint64_t slot)
{
    uint64_t rows[2 * BRUSKELDE_MOST_REGIONS * BRUSKELDE_TABLE_ROW];
    struct bruskelde_tabled tabled = bruskelde_table(slots, slot, rows, sizeof rows / sizeof *rows);
    printf("table %" PRIu64 ": %s, rows: %" PRIu32 "\n", slot, words(tabled.number), tabled.rows);
    for (uint32_t i = 0; i < tabled.rows; i++) {
        const uint64_t *row = rows + i * BRUSKELDE_TABLE_ROW;
        printf("  packed %" PRIu64 " x %" PRIu64 ", projected %" PRIu64 " x %" PRIu64 "\n", row[6], row[7], row[2], row[3]);
    }
}

static void sequence(struct bruskelde_slots *slots, uint64_t slot)
{
    printf("sequence %" PRIu64 ": %s\n", slot, words(bruskelde_sequence(slots, slot)));
}

static void end(struct bruskelde_slots *slots, uint64_t slot)
{
    printf("close %" PRIu64 ": %s\n", slot, words(bruskelde_close(slots, slot)));
}

int main(void)
{
    struct bruskelde_slots slots;
    if (!library_fits())
        return EXIT_FAILURE;
    bruskelde_start(&slots);
    picture(&slots, 3); /* closed */

    hand_over(&slots, 3, "the first camera");
    feed(&slots, 3, BRUSKELDE_FRAME_PACKING, top_and_bottom, sizeof top_and_bottom);
    picture(&slots, 3);
    feed(&slots, 3, BRUSKELDE_FRAME_PACKING, cut_off, sizeof cut_off); /* the slot keeps what it has */
    picture(&slots, 3);

    hand_over(&slots, 3, "the second camera");
    picture(&slots, 3);
    table(&slots, 3);
    feed(&slots, 3, BRUSKELDE_FRAME_PACKING, side_by_side, sizeof side_by_side);
    feed(&slots, 3, BRUSKELDE_REGION_WISE, one_region, sizeof one_region);
    picture(&slots, 3);
    table(&slots, 3);

    sequence(&slots, 3);
    picture(&slots, 3);
    end(&slots, 3);
    picture(&slots, 3);
    return EXIT_SUCCESS;
}

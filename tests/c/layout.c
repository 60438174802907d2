/*
 * The header's structs against the library's: every field of what a slot holds is where the library puts it and looks for it.
 *
 * Outward, random messages are fed and each field of the held record is compared with its number in the row of bruskelde_fields, whose
 * layout is proved, by the header's name for its place. Inward, region tables are made of slots that were filled in here, through the
 * header. Every slot and every region has its turn, so that the sizes show too. Of the kinds that no slot holds, each name of a place
 * is tried on a payload.
 */
#include <inttypes.h>
#include <stdio.h>
#include <stdlib.h>
#include <string.h>

#include "messages.h"

static uint64_t compared;

static void same(const char *what, uint64_t held, uint64_t expected)
{
    compared++;
    if (held == expected)
        return;
    fprintf(stderr, "layout: %s is %" PRIu64 " and not %" PRIu64 "\n", what, held, expected);
    exit(1);
}

#define SAME(field, expected) same(#field, (uint64_t)(field), (expected))

/* ---- each field of a held record, against the row */

static void check_frame_packing(const struct bruskelde_held *held, const uint64_t *row)
{
    const struct bruskelde_frame_packing *value = &held->frame_packing.value;
    SAME(held->frame_packing.on, 1);
    SAME(value->id, row[BRUSKELDE_FP_ARRANGEMENT_ID]);
    SAME(value->cancel, row[BRUSKELDE_FP_ARRANGEMENT_CANCEL_FLAG]);
    SAME(value->layout.arrangement_type, row[BRUSKELDE_FP_ARRANGEMENT_TYPE]);
    SAME(value->layout.quincunx, row[BRUSKELDE_FP_QUINCUNX_SAMPLING_FLAG]);
    SAME(value->layout.content_interpretation, row[BRUSKELDE_FP_CONTENT_INTERPRETATION_TYPE]);
    SAME(value->layout.flags.spatial_flipping, row[BRUSKELDE_FP_SPATIAL_FLIPPING_FLAG]);
    SAME(value->layout.flags.frame0_flipped, row[BRUSKELDE_FP_FRAME0_FLIPPED_FLAG]);
    SAME(value->layout.flags.field_views, row[BRUSKELDE_FP_FIELD_VIEWS_FLAG]);
    SAME(value->layout.flags.current_is_frame0, row[BRUSKELDE_FP_CURRENT_FRAME_IS_FRAME0_FLAG]);
    SAME(value->layout.flags.frame0_self_contained, row[BRUSKELDE_FP_FRAME0_SELF_CONTAINED_FLAG]);
    SAME(value->layout.flags.frame1_self_contained, row[BRUSKELDE_FP_FRAME1_SELF_CONTAINED_FLAG]);
    SAME(value->layout.grid.frame0_x, row[BRUSKELDE_FP_FRAME0_GRID_POSITION_X]);
    SAME(value->layout.grid.frame0_y, row[BRUSKELDE_FP_FRAME0_GRID_POSITION_Y]);
    SAME(value->layout.grid.frame1_x, row[BRUSKELDE_FP_FRAME1_GRID_POSITION_X]);
    SAME(value->layout.grid.frame1_y, row[BRUSKELDE_FP_FRAME1_GRID_POSITION_Y]);
    SAME(value->layout.persistence, row[BRUSKELDE_FP_ARRANGEMENT_PERSISTENCE_FLAG]);
    SAME(value->upsampled_aspect_ratio, row[BRUSKELDE_FP_UPSAMPLED_ASPECT_RATIO_FLAG]);
}

static void check_orientation(const struct bruskelde_held *held, const uint64_t *row)
{
    SAME(held->orientation.on, 1);
    SAME(held->orientation.value.cancel, row[BRUSKELDE_DISPLAY_ORIENTATION_CANCEL_FLAG]);
    SAME(held->orientation.value.persistence, row[BRUSKELDE_DISPLAY_ORIENTATION_PERSISTENCE_FLAG]);
    SAME(held->orientation.value.transform, row[BRUSKELDE_DISPLAY_ORIENTATION_TRANSFORM_TYPE]);
}

static void check_equirectangular(const struct bruskelde_held *held, const uint64_t *row)
{
    const struct bruskelde_equirectangular *value = &held->equirectangular.value;
    SAME(held->equirectangular.on, 1);
    SAME(value->cancel, row[BRUSKELDE_ERP_CANCEL_FLAG]);
    SAME(value->persistence, row[BRUSKELDE_ERP_PERSISTENCE_FLAG]);
    SAME(value->guarded, row[BRUSKELDE_ERP_GUARD_BAND_FLAG]);
    SAME(value->guard_type, row[BRUSKELDE_ERP_GUARD_BAND_TYPE]);
    SAME(value->left_width, row[BRUSKELDE_ERP_LEFT_GUARD_BAND_WIDTH]);
    SAME(value->right_width, row[BRUSKELDE_ERP_RIGHT_GUARD_BAND_WIDTH]);
}

static uint64_t bits_of(double number)
{
    uint64_t bits;
    memcpy(&bits, &number, sizeof bits);
    return bits;
}

static void check_rotation(const struct bruskelde_held *held, const uint64_t *row)
{
    const struct bruskelde_rotation *value = &held->rotation.value;
    SAME(held->rotation.on, 1);
    SAME(value->cancel, row[BRUSKELDE_SPHERE_ROTATION_CANCEL_FLAG]);
    SAME(value->persistence, row[BRUSKELDE_SPHERE_ROTATION_PERSISTENCE_FLAG]);
    SAME((uint32_t)value->yaw, row[BRUSKELDE_YAW_ROTATION]);
    SAME((uint32_t)value->pitch, row[BRUSKELDE_PITCH_ROTATION]);
    SAME((uint32_t)value->roll, row[BRUSKELDE_ROLL_ROTATION]);
    SAME(bits_of(value->degrees.yaw), row[BRUSKELDE_YAW_DEGREES]);
    SAME(bits_of(value->degrees.pitch), row[BRUSKELDE_PITCH_DEGREES]);
    SAME(bits_of(value->degrees.roll), row[BRUSKELDE_ROLL_DEGREES]);
}

static void check_region(const struct bruskelde_region *region, const uint64_t *row)
{
    SAME(region->transform, row[BRUSKELDE_REGION_RWP_TRANSFORM_TYPE]);
    SAME(region->guarded, row[BRUSKELDE_REGION_RWP_GUARD_BAND_FLAG]);
    SAME(region->projected.width, row[BRUSKELDE_REGION_RWP_PROJ_REGION_WIDTH]);
    SAME(region->projected.height, row[BRUSKELDE_REGION_RWP_PROJ_REGION_HEIGHT]);
    SAME(region->projected.top, row[BRUSKELDE_REGION_RWP_PROJ_REGION_TOP]);
    SAME(region->projected.left, row[BRUSKELDE_REGION_RWP_PROJ_REGION_LEFT]);
    SAME(region->packed.width, row[BRUSKELDE_REGION_RWP_PACKED_REGION_WIDTH]);
    SAME(region->packed.height, row[BRUSKELDE_REGION_RWP_PACKED_REGION_HEIGHT]);
    SAME(region->packed.top, row[BRUSKELDE_REGION_RWP_PACKED_REGION_TOP]);
    SAME(region->packed.left, row[BRUSKELDE_REGION_RWP_PACKED_REGION_LEFT]);
    SAME(region->guard.left_width, row[BRUSKELDE_REGION_RWP_LEFT_GUARD_BAND_WIDTH]);
    SAME(region->guard.right_width, row[BRUSKELDE_REGION_RWP_RIGHT_GUARD_BAND_WIDTH]);
    SAME(region->guard.top_height, row[BRUSKELDE_REGION_RWP_TOP_GUARD_BAND_HEIGHT]);
    SAME(region->guard.bottom_height, row[BRUSKELDE_REGION_RWP_BOTTOM_GUARD_BAND_HEIGHT]);
    SAME(region->guard.not_used, row[BRUSKELDE_REGION_RWP_GUARD_BAND_NOT_USED_FOR_PRED_FLAG]);
    SAME(region->guard.types.type0, row[BRUSKELDE_REGION_RWP_GUARD_BAND_TYPE_LEFT]);
    SAME(region->guard.types.type1, row[BRUSKELDE_REGION_RWP_GUARD_BAND_TYPE_RIGHT]);
    SAME(region->guard.types.type2, row[BRUSKELDE_REGION_RWP_GUARD_BAND_TYPE_TOP]);
    SAME(region->guard.types.type3, row[BRUSKELDE_REGION_RWP_GUARD_BAND_TYPE_BOTTOM]);
}

static void check_packing(const struct bruskelde_held *held, const uint64_t *row)
{
    const struct bruskelde_packing *value = &held->regions.value;
    SAME(held->regions.on, 1);
    SAME(value->cancel, row[BRUSKELDE_RWP_CANCEL_FLAG]);
    SAME(value->persistence, row[BRUSKELDE_RWP_PERSISTENCE_FLAG]);
    SAME(value->matching, row[BRUSKELDE_RWP_CONSTITUENT_PICTURE_MATCHING_FLAG]);
    SAME(value->count, row[BRUSKELDE_RWP_NUM_PACKED_REGIONS]);
    SAME(value->projected_width, row[BRUSKELDE_RWP_PROJ_PICTURE_WIDTH]);
    SAME(value->projected_height, row[BRUSKELDE_RWP_PROJ_PICTURE_HEIGHT]);
    SAME(value->packed_width, row[BRUSKELDE_RWP_PACKED_PICTURE_WIDTH]);
    SAME(value->packed_height, row[BRUSKELDE_RWP_PACKED_PICTURE_HEIGHT]);
    for (int i = 0; i < BRUSKELDE_MOST_REGIONS; i++)
        check_region(&value->regions[i], row + BRUSKELDE_RWP_REGIONS + BRUSKELDE_REGION * i);
}

static const struct kind {
    uint64_t number;
    void (*make)(void);
    void (*check)(const struct bruskelde_held *held, const uint64_t *row);
} kinds[] = {
    {BRUSKELDE_FRAME_PACKING, make_frame_packing, check_frame_packing},
    {BRUSKELDE_ORIENTATION, make_orientation, check_orientation},
    {BRUSKELDE_EQUIRECTANGULAR, make_equirectangular, check_equirectangular},
    {BRUSKELDE_ROTATION, make_rotation, check_rotation},
    {BRUSKELDE_REGION_WISE, make_packing, check_packing},
};

/* ---- outward: what is fed, as the slots and a picture hand it back */

static void feed(struct bruskelde_slots *slots, uint64_t slot, const struct kind *kind, uint64_t *row)
{
    begin_payload();
    kind->make();
    put_tail();
    size_t size = payload.bits / 8;
    SAME(bruskelde_fields(kind->number, size, payload.bytes, size, row, BRUSKELDE_ROW_MOST), BRUSKELDE_TAKEN);
    struct bruskelde_fed fed = bruskelde_feed(slots, slot, kind->number, size, payload.bytes, size);
    SAME(fed.number, BRUSKELDE_TAKEN);
    SAME(fed.extension, row[BRUSKELDE_EXTENSION]);
}

static void outward(struct bruskelde_slots *slots, uint64_t slot)
{
    enum { KINDS = sizeof kinds / sizeof *kinds };
    static uint64_t rows[KINDS][BRUSKELDE_ROW_MOST];
    struct bruskelde_held shown;
    SAME(bruskelde_open(slots, slot), BRUSKELDE_DONE);
    for (int i = 0; i < KINDS; i++)
        feed(slots, slot, &kinds[i], rows[i]);
    for (int i = 0; i < KINDS; i++)
        kinds[i].check(&slots->slots[slot].held, rows[i]);
    SAME(bruskelde_picture(slots, slot, &shown), BRUSKELDE_DONE);
    SAME(slots->slots[slot].open, 1);
    for (int i = 0; i < KINDS; i++)
        kinds[i].check(&shown, rows[i]);
}

/* ---- inward: a table of slots that no call made */

static struct bruskelde_region any_region(void)
{
    struct bruskelde_region region = {0};
    region.transform = (uint8_t)any(3);
    region.projected.width = (uint32_t)any(32);
    region.projected.height = (uint32_t)any(32);
    region.projected.top = (uint32_t)any(32);
    region.projected.left = (uint32_t)any(32);
    region.packed.width = (uint16_t)any(16);
    region.packed.height = (uint16_t)any(16);
    region.packed.top = (uint16_t)any(16);
    region.packed.left = (uint16_t)any(16);
    return region;
}

static void fill_in(struct bruskelde_slot *slot, uint8_t arrangement_type)
{
    struct bruskelde_packing *packing = &slot->held.regions.value;
    slot->open = 1;
    slot->held.frame_packing.on = 1;
    slot->held.frame_packing.value.layout.arrangement_type = arrangement_type;
    slot->held.regions.on = 1;
    packing->matching = 1;
    packing->count = BRUSKELDE_MOST_REGIONS;
    packing->projected_width = (uint32_t)any(32);
    packing->projected_height = (uint32_t)any(32);
    packing->packed_width = (uint16_t)any(16);
    packing->packed_height = (uint16_t)any(16);
    for (int i = 0; i < BRUSKELDE_MOST_REGIONS; i++)
        packing->regions[i] = any_region();
}

/* a row with left and top increased, in the projected and in the packed picture */
static void check_row(const uint64_t *row, const struct bruskelde_region *region, const uint64_t *by)
{
    SAME(region->projected.left + by[0], row[0]);
    SAME(region->projected.top + by[1], row[1]);
    SAME(region->projected.width, row[2]);
    SAME(region->projected.height, row[3]);
    SAME(region->packed.left + by[2], row[4]);
    SAME(region->packed.top + by[3], row[5]);
    SAME(region->packed.width, row[6]);
    SAME(region->packed.height, row[7]);
    SAME(region->transform, row[8]);
}

static void inward(uint64_t slot, uint8_t arrangement_type)
{
    enum { ROWS = 2 * BRUSKELDE_MOST_REGIONS };
    static const uint64_t none[4];
    uint64_t rows[ROWS * BRUSKELDE_TABLE_ROW];
    struct bruskelde_slots slots;
    memset(&slots, 0, sizeof slots);
    fill_in(&slots.slots[slot], arrangement_type);
    const struct bruskelde_packing *packing = &slots.slots[slot].held.regions.value;
    const uint64_t beside[4] = {packing->projected_width / 2, 0, packing->packed_width / 2, 0};
    const uint64_t below[4] = {0, packing->projected_height / 2, 0, packing->packed_height / 2};
    struct bruskelde_tabled table = bruskelde_table(&slots, slot, rows, sizeof rows / sizeof *rows);
    SAME(table.number, BRUSKELDE_DONE);
    SAME(table.rows, ROWS);
    for (int i = 0; i < BRUSKELDE_MOST_REGIONS; i++) {
        const uint64_t *second = rows + BRUSKELDE_TABLE_ROW * (BRUSKELDE_MOST_REGIONS + i);
        check_row(rows + BRUSKELDE_TABLE_ROW * i, &packing->regions[i], none);
        check_row(second, &packing->regions[i], arrangement_type == 3 ? beside : below);
    }
}

/* ---- the places in the rows of the kinds that no slot holds */

static const uint64_t *row_of(uint64_t kind, const uint8_t *bytes, size_t size)
{
    static uint64_t row[BRUSKELDE_ROW_MOST];
    SAME(bruskelde_fields(kind, size, bytes, size, row, BRUSKELDE_ROW_MOST), BRUSKELDE_TAKEN);
    return row;
}

/* 0 101 111, then 65535 and 32769 in 16 bits each, then the flags 1, 1 and 0 */
static void check_alpha(void)
{
    static const uint8_t bytes[] = {0x5f, 0xff, 0xff, 0x00, 0x03, 0xa0};
    const uint64_t *row = row_of(BRUSKELDE_ALPHA, bytes, sizeof bytes);
    SAME(row[BRUSKELDE_ALPHA_CHANNEL_CANCEL_FLAG], 0);
    SAME(row[BRUSKELDE_ALPHA_CHANNEL_USE_IDC], 5);
    SAME(row[BRUSKELDE_ALPHA_CHANNEL_BIT_DEPTH_MINUS8], 7);
    SAME(row[BRUSKELDE_ALPHA_TRANSPARENT_VALUE], 65535);
    SAME(row[BRUSKELDE_ALPHA_OPAQUE_VALUE], 32769);
    SAME(row[BRUSKELDE_ALPHA_CHANNEL_INCR_FLAG], 1);
    SAME(row[BRUSKELDE_ALPHA_CHANNEL_CLIP_FLAG], 1);
    SAME(row[BRUSKELDE_ALPHA_CHANNEL_CLIP_TYPE_FLAG], 0);
}

struct value {
    uint64_t sign, exponent, length_minus1, mantissa;
};

static struct value any_value(void)
{
    struct value value = {any(1), 1 + any(6), any(5), 0};
    value.mantissa = any((unsigned)value.length_minus1 + 1);
    return value;
}

static void put_value(struct value value)
{
    put(value.sign, 1);
    put(value.exponent, 7);
    put(value.length_minus1, 5);
    put(value.mantissa, (unsigned)value.length_minus1 + 1);
}

static void check_value(const uint64_t *row, struct value value)
{
    uint64_t fraction = value.mantissa << (52 - (value.length_minus1 + 1));
    SAME(row[BRUSKELDE_VALUE_DA_SIGN_FLAG], value.sign);
    SAME(row[BRUSKELDE_VALUE_DA_EXPONENT], value.exponent);
    SAME(row[BRUSKELDE_VALUE_DA_MANTISSA_LEN_MINUS1], value.length_minus1);
    SAME(row[BRUSKELDE_VALUE_DA_MANTISSA], value.mantissa);
    SAME(row[BRUSKELDE_VALUE_STATE], 2);
    SAME(row[BRUSKELDE_VALUE_BITS], value.sign << 63 | (value.exponent + 992) << 52 | fraction);
}

/* present: a bit for each of the four, the first the highest */
static void check_depth(unsigned present)
{
    static const struct {
        int flag, place;
    } four[] = {
        {BRUSKELDE_Z_NEAR_FLAG, BRUSKELDE_Z_NEAR},
        {BRUSKELDE_Z_FAR_FLAG, BRUSKELDE_Z_FAR},
        {BRUSKELDE_D_MIN_FLAG, BRUSKELDE_D_MIN},
        {BRUSKELDE_D_MAX_FLAG, BRUSKELDE_D_MAX},
    };
    struct value values[4];
    begin_payload();
    put(present, 4);
    put_golomb(3);
    if ((present & 3) != 0)
        put_golomb(7);
    for (int i = 0; i < 4; i++)
        if ((present >> (3 - i) & 1) != 0)
            put_value(values[i] = any_value());
    put_golomb(1);
    put_golomb(11);
    put_golomb(12);
    put_tail();
    const uint64_t *row = row_of(BRUSKELDE_DEPTH, payload.bytes, payload.bits / 8);
    SAME(row[BRUSKELDE_DEPTH_REPRESENTATION_TYPE], 3);
    SAME(row[BRUSKELDE_DISPARITY_REF_VIEW_ID], (present & 3) != 0 ? 7u : 0u);
    for (int i = 0; i < 4; i++) {
        SAME(row[four[i].flag], present >> (3 - i) & 1);
        if ((present >> (3 - i) & 1) != 0)
            check_value(row + four[i].place, values[i]);
        else
            SAME(row[four[i].place + BRUSKELDE_VALUE_STATE], 0);
    }
    SAME(row[BRUSKELDE_DEPTH_COUNT], 2);
    SAME(row[BRUSKELDE_DEPTH_NONLINEAR_REPRESENTATION_MODEL], 11);
    SAME(row[BRUSKELDE_DEPTH_NONLINEAR_REPRESENTATION_MODEL + 1], 12);
    SAME(row[BRUSKELDE_DEPTH_NONLINEAR_REPRESENTATION_MODEL + BRUSKELDE_MOST_LISTED - 1], 0);
}

static void check_user_data(void)
{
    static const uint8_t registered[] = {255, 9};
    static const uint8_t unregistered[] = {21, 22, 23, 24, 25, 26, 27, 28, 29, 30, 31, 32, 33, 34, 35, 36};
    const uint64_t *row = row_of(BRUSKELDE_REGISTERED, registered, sizeof registered);
    SAME(row[BRUSKELDE_ITU_T_T35_COUNTRY_CODE], 255);
    SAME(row[BRUSKELDE_ITU_T_T35_COUNTRY_CODE_EXTENSION_BYTE], 9);
    row = row_of(BRUSKELDE_UNREGISTERED, unregistered, sizeof unregistered);
    for (int i = 0; i < 16; i++)
        SAME(row[BRUSKELDE_UUID_ISO_IEC_11578 + i], unregistered[i]);
}

/* ---- null with a length of 0 */

static void nothing_lent(void)
{
    struct bruskelde_slots slots;
    bruskelde_start(&slots);
    SAME(bruskelde_open(&slots, 0), BRUSKELDE_DONE);
    struct bruskelde_fed fed = bruskelde_feed(&slots, 0, BRUSKELDE_ORIENTATION, 0, NULL, 0);
    struct bruskelde_tabled table = bruskelde_table(&slots, 0, NULL, 0);
    struct bruskelde_part part = bruskelde_part(BRUSKELDE_REGISTERED, 0, NULL, 0);
    SAME(bruskelde_read(BRUSKELDE_ORIENTATION, 0, NULL, 0), BRUSKELDE_SHORT);
    SAME(bruskelde_fields(BRUSKELDE_ORIENTATION, 0, NULL, 0, NULL, 0), BRUSKELDE_SHORT);
    SAME(fed.number, BRUSKELDE_SHORT);
    SAME(table.number, BRUSKELDE_TABLE);
    SAME(part.offset, 0);
    SAME(part.length, 0);
}

int main(void)
{
    struct bruskelde_slots slots;
    SAME(bruskelde_slots_size(), sizeof slots);
    bruskelde_start(&slots);
    for (int turn = 0; turn < 20; turn++)
        for (uint64_t slot = 0; slot < BRUSKELDE_SLOTS; slot++) {
            outward(&slots, slot);
            inward(slot, 3);
            inward(slot, 4);
        }
    check_alpha();
    for (unsigned present = 0; present < 16; present++)
        check_depth(present);
    check_user_data();
    nothing_lent();
    printf("layout: %" PRIu64 " fields compared, no difference\n", compared);
    return 0;
}

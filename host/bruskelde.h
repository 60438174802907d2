/*
 * Bruskelde: a reader of video side messages (SEI, H.274), called from C.
 *
 * Link with the archive that `rt lib`, run in crates/host, writes: crates/host/out/libhost.a.
 *
 * The functions keep nothing between calls, no pointer either, allocate nothing and may be called from any thread. They take any kind,
 * any size, any bytes, and slots that hold any bytes. What the caller has to see to is only what C always asks of it: that `bytes`, `row`
 * and `rows` point to as many elements as the length after them says, and `slots` and `shown` to one of their struct; that what one call
 * is lent does not overlap; and that no other thread uses it during the call. Bytes, and the slots of bruskelde_table, are only read:
 * other threads may read them too. A length of 0 may come with a null pointer.
 *
 * A compiler warns where an answer is dropped: every call that has one is marked BRUSKELDE_MUST_USE.
 *
 * This file is kept by hand: the declarations are those of crates/host/src, lib.rt for the payload calls and slot.rt for the slot calls.
 * The rows are those of crates/record_row/specs/Fields.antt, which the functions are proved to follow.
 */
#ifndef BRUSKELDE_H
#define BRUSKELDE_H

#include <stddef.h>
#include <stdint.h>

#if defined(__GNUC__) /* clang too */
#define BRUSKELDE_MUST_USE __attribute__((warn_unused_result))
#elif (defined(__cplusplus) && __cplusplus >= 201703L) || (defined(__STDC_VERSION__) && __STDC_VERSION__ >= 202311L)
#define BRUSKELDE_MUST_USE [[nodiscard]]
#elif defined(_MSC_VER)
#include <sal.h>
#define BRUSKELDE_MUST_USE _Check_return_
#else
#define BRUSKELDE_MUST_USE
#endif

#ifdef __cplusplus
extern "C" {
#endif

/* The kinds of message. */
enum {
    BRUSKELDE_REGISTERED = 4,       /* user data registered by T.35 */
    BRUSKELDE_UNREGISTERED = 5,     /* unregistered user data */
    BRUSKELDE_FRAME_PACKING = 45,
    BRUSKELDE_ORIENTATION = 47,
    BRUSKELDE_EQUIRECTANGULAR = 150,
    BRUSKELDE_ROTATION = 154,
    BRUSKELDE_REGION_WISE = 155,
    BRUSKELDE_ALPHA = 165,
    BRUSKELDE_DEPTH = 177
};

/* The numbers that a call answers. Where more than one fits, the order is 8, 1, 2; then 3 to 6 at the first element where one arises;
 * then 7; then 20; and last 10. bruskelde_table: 8, 9, 10. */
enum {
    BRUSKELDE_TAKEN = 0,            /* of a read or a feed */
    BRUSKELDE_DONE = 0,             /* of any other call */
    BRUSKELDE_KIND = 1,             /* the kind is none of those above */
    BRUSKELDE_SIZE = 2,             /* the size exceeds 8192 or the lent length */
    BRUSKELDE_SHORT = 3,            /* the next element needs a bit past the payload's end */
    BRUSKELDE_ZEROS = 4,            /* an exp-Golomb number has a 32nd leading zero */
    BRUSKELDE_RULE = 5,             /* a field's value breaks a rule */
    BRUSKELDE_REGIONS = 6,          /* kind 155 with more than 16 regions */
    BRUSKELDE_TAIL = 7,             /* what follows the message is no permitted tail */
    BRUSKELDE_SLOT = 8,             /* no such slot, or, except for opening, the slot is closed */
    BRUSKELDE_TABLE = 9,            /* bruskelde_table: no region table can be made of what the slot holds */
    BRUSKELDE_ROOM = 10,            /* bruskelde_fields, bruskelde_table: what is lent is too short */
    BRUSKELDE_SET_ASIDE = 20        /* kind 45, a message that is whole and is not to be used */
};

/*
 * Reads the first `size` of the `length` bytes as a payload of `kind`, and answers the number.
 */
BRUSKELDE_MUST_USE uint32_t bruskelde_read(uint64_t kind, uint64_t size, const uint8_t *bytes, size_t length);

/*
 * Reads likewise, and hands out the record as numbers.
 *
 * Where the payload is taken (0) or set aside (20), row[0] is the count of extension bits in the payload's tail, and the record's
 * fields follow, in the places below; numbers past them stay as they were. Where the row is shorter than that, the answer is 10 in place
 * of 0 or 20. With 10, and with any other number, nothing is written.
 *
 * A field that the message does not carry is 0, and so is each list entry past its count. A flag is 0 or 1.
 */
BRUSKELDE_MUST_USE uint32_t bruskelde_fields(uint64_t kind, uint64_t size, const uint8_t *bytes, size_t length, uint64_t *row,
                                             size_t row_length);

/* The most regions of kind 155, the most numbers in the list of kind 177, the slots, and the numbers in a row of a region table. */
enum { BRUSKELDE_MOST_REGIONS = 16, BRUSKELDE_MOST_LISTED = 63, BRUSKELDE_SLOTS = 8, BRUSKELDE_TABLE_ROW = 9 };

/* How many numbers a row of each kind needs, the extension count included. BRUSKELDE_ROW_MOST is enough for any. */
enum {
    BRUSKELDE_ROW_REGISTERED = 3,
    BRUSKELDE_ROW_UNREGISTERED = 17,
    BRUSKELDE_ROW_FRAME_PACKING = 18,
    BRUSKELDE_ROW_ORIENTATION = 4,
    BRUSKELDE_ROW_EQUIRECTANGULAR = 7,
    BRUSKELDE_ROW_ROTATION = 9,
    BRUSKELDE_ROW_REGION_WISE = 9 + 19 * BRUSKELDE_MOST_REGIONS,
    BRUSKELDE_ROW_ALPHA = 9,
    BRUSKELDE_ROW_DEPTH = 32 + BRUSKELDE_MOST_LISTED,
    BRUSKELDE_ROW_MOST = BRUSKELDE_ROW_REGION_WISE
};

/*
 * The places in a row: row[BRUSKELDE_EXTENSION] for every kind, and then by kind. A field has its name in the syntax tables of H.274; the
 * extension count, degrees, where regions and depth numbers start, the depth list's count, a depth number's state and bits, and lengths
 * have names of ours.
 */
enum { BRUSKELDE_EXTENSION = 0 };

/* 45, frame packing. What type and content interpretation say stands at struct bruskelde_layout. Grid positions are in sixteenths of a
 * sample from the upper left corner; x and y both 0 are the default place of the type, both 15 an unknown one. */
enum {
    BRUSKELDE_FP_ARRANGEMENT_ID = 1,
    BRUSKELDE_FP_ARRANGEMENT_CANCEL_FLAG = 2,
    BRUSKELDE_FP_ARRANGEMENT_TYPE = 3,
    BRUSKELDE_FP_QUINCUNX_SAMPLING_FLAG = 4,
    BRUSKELDE_FP_CONTENT_INTERPRETATION_TYPE = 5,
    BRUSKELDE_FP_SPATIAL_FLIPPING_FLAG = 6,
    BRUSKELDE_FP_FRAME0_FLIPPED_FLAG = 7,
    BRUSKELDE_FP_FIELD_VIEWS_FLAG = 8,
    BRUSKELDE_FP_CURRENT_FRAME_IS_FRAME0_FLAG = 9,
    BRUSKELDE_FP_FRAME0_SELF_CONTAINED_FLAG = 10,
    BRUSKELDE_FP_FRAME1_SELF_CONTAINED_FLAG = 11,
    BRUSKELDE_FP_FRAME0_GRID_POSITION_X = 12,
    BRUSKELDE_FP_FRAME0_GRID_POSITION_Y = 13,
    BRUSKELDE_FP_FRAME1_GRID_POSITION_X = 14,
    BRUSKELDE_FP_FRAME1_GRID_POSITION_Y = 15,
    BRUSKELDE_FP_ARRANGEMENT_PERSISTENCE_FLAG = 16,
    BRUSKELDE_FP_UPSAMPLED_ASPECT_RATIO_FLAG = 17
};

/* 47, orientation. Transform types, here and of regions. 47: what to do to the picture before it is shown; 155: to the packed region, to
 * map it to the projected one. Degrees are anticlockwise, and mirroring is horizontal:
 *      0  none                             4  rotate by 90, then mirror
 *      1  mirror                           5  rotate by 90
 *      2  rotate by 180                    6  rotate by 270, then mirror
 *      3  rotate by 180, then mirror       7  rotate by 270 */
enum {
    BRUSKELDE_DISPLAY_ORIENTATION_CANCEL_FLAG = 1,
    BRUSKELDE_DISPLAY_ORIENTATION_PERSISTENCE_FLAG = 2,
    BRUSKELDE_DISPLAY_ORIENTATION_TRANSFORM_TYPE = 3
};

/* 150, equirectangular. Widths are in luma samples. Guard types, here and of regions: what a guard band contains.
 *      0  unknown or unspecified; a coded 4 to 7 is handed out as 0
 *      1  enough to interpolate between samples
 *      2  picture content whose quality changes gradually to that of the neighbour on the sphere
 *      3  picture content of like quality */
enum {
    BRUSKELDE_ERP_CANCEL_FLAG = 1,
    BRUSKELDE_ERP_PERSISTENCE_FLAG = 2,
    BRUSKELDE_ERP_GUARD_BAND_FLAG = 3,
    BRUSKELDE_ERP_GUARD_BAND_TYPE = 4,
    BRUSKELDE_ERP_LEFT_GUARD_BAND_WIDTH = 5,
    BRUSKELDE_ERP_RIGHT_GUARD_BAND_WIDTH = 6
};

/* 154, sphere rotation. The angles as coded, in 1/65536 of a degree, are 32 bits in two's complement, so
 * (int32_t)(uint32_t)row[BRUSKELDE_YAW_ROTATION]; those in degrees are the 64 bits of a double, to be copied to one by memcpy. */
enum {
    BRUSKELDE_SPHERE_ROTATION_CANCEL_FLAG = 1,
    BRUSKELDE_SPHERE_ROTATION_PERSISTENCE_FLAG = 2,
    BRUSKELDE_YAW_ROTATION = 3,
    BRUSKELDE_PITCH_ROTATION = 4,
    BRUSKELDE_ROLL_ROTATION = 5,
    BRUSKELDE_YAW_DEGREES = 6,
    BRUSKELDE_PITCH_DEGREES = 7,
    BRUSKELDE_ROLL_DEGREES = 8
};

/* 155, region-wise packing; region i is BRUSKELDE_REGION numbers from BRUSKELDE_RWP_REGIONS + i * BRUSKELDE_REGION on, for each i below
 * BRUSKELDE_MOST_REGIONS. Projected sizes and places are in relative projected picture sample units; packed ones, and guard bands, in
 * relative packed picture sample units. With the matching flag the regions hold for each of the two frames of kind 45, else for the
 * whole picture. */
enum {
    BRUSKELDE_RWP_CANCEL_FLAG = 1,
    BRUSKELDE_RWP_PERSISTENCE_FLAG = 2,
    BRUSKELDE_RWP_CONSTITUENT_PICTURE_MATCHING_FLAG = 3,
    BRUSKELDE_RWP_NUM_PACKED_REGIONS = 4,
    BRUSKELDE_RWP_PROJ_PICTURE_WIDTH = 5,
    BRUSKELDE_RWP_PROJ_PICTURE_HEIGHT = 6,
    BRUSKELDE_RWP_PACKED_PICTURE_WIDTH = 7,
    BRUSKELDE_RWP_PACKED_PICTURE_HEIGHT = 8,
    BRUSKELDE_RWP_REGIONS = 9
};

/* Places within a region, from its first number on: row[BRUSKELDE_RWP_REGIONS + i * BRUSKELDE_REGION + BRUSKELDE_REGION_RWP_TRANSFORM_TYPE]. Its
 * last four numbers are rwp_guard_band_type[i][j] for j from 0 to 3. */
enum {
    BRUSKELDE_REGION_RWP_TRANSFORM_TYPE = 0,
    BRUSKELDE_REGION_RWP_GUARD_BAND_FLAG = 1,
    BRUSKELDE_REGION_RWP_PROJ_REGION_WIDTH = 2,
    BRUSKELDE_REGION_RWP_PROJ_REGION_HEIGHT = 3,
    BRUSKELDE_REGION_RWP_PROJ_REGION_TOP = 4,
    BRUSKELDE_REGION_RWP_PROJ_REGION_LEFT = 5,
    BRUSKELDE_REGION_RWP_PACKED_REGION_WIDTH = 6,
    BRUSKELDE_REGION_RWP_PACKED_REGION_HEIGHT = 7,
    BRUSKELDE_REGION_RWP_PACKED_REGION_TOP = 8,
    BRUSKELDE_REGION_RWP_PACKED_REGION_LEFT = 9,
    BRUSKELDE_REGION_RWP_LEFT_GUARD_BAND_WIDTH = 10,
    BRUSKELDE_REGION_RWP_RIGHT_GUARD_BAND_WIDTH = 11,
    BRUSKELDE_REGION_RWP_TOP_GUARD_BAND_HEIGHT = 12,
    BRUSKELDE_REGION_RWP_BOTTOM_GUARD_BAND_HEIGHT = 13,
    BRUSKELDE_REGION_RWP_GUARD_BAND_NOT_USED_FOR_PRED_FLAG = 14,   /* not used for prediction */
    BRUSKELDE_REGION_RWP_GUARD_BAND_TYPE_LEFT = 15,
    BRUSKELDE_REGION_RWP_GUARD_BAND_TYPE_RIGHT = 16,
    BRUSKELDE_REGION_RWP_GUARD_BAND_TYPE_TOP = 17,
    BRUSKELDE_REGION_RWP_GUARD_BAND_TYPE_BOTTOM = 18,
    BRUSKELDE_REGION = 19
};

/* 165, alpha. Uses:
 *      0  blending multiplies the picture by alpha
 *      1  the picture is multiplied already
 *      2  unspecified
 *      3 to 7  reserved: H.274 has such a message ignored; here it is taken
 * Increment: samples above the lower of the two values count as one more. Clip: to the nearer of the two values (clip type 0) or to
 * the range between them (1), before the increment. */
enum {
    BRUSKELDE_ALPHA_CHANNEL_CANCEL_FLAG = 1,
    BRUSKELDE_ALPHA_CHANNEL_USE_IDC = 2,
    BRUSKELDE_ALPHA_CHANNEL_BIT_DEPTH_MINUS8 = 3,
    BRUSKELDE_ALPHA_TRANSPARENT_VALUE = 4,
    BRUSKELDE_ALPHA_OPAQUE_VALUE = 5,
    BRUSKELDE_ALPHA_CHANNEL_INCR_FLAG = 6,
    BRUSKELDE_ALPHA_CHANNEL_CLIP_FLAG = 7,
    BRUSKELDE_ALPHA_CHANNEL_CLIP_TYPE_FLAG = 8
};

/* 177, depth. Each of the four numbers is BRUSKELDE_VALUE numbers from its place on. z near and z far are the nearest and the farthest
 * distance, in a unit that H.274 leaves open; d min and d max the least and the greatest disparity, in luma sample widths. The reference
 * view is the one for which disparities are derived. The list, of BRUSKELDE_MOST_LISTED numbers, stands from
 * BRUSKELDE_DEPTH_NONLINEAR_REPRESENTATION_MODEL on, the first being depth_nonlinear_representation_model[1]: how far each node lies
 * off the straight line; its count is 0 without a list, and else depth_nonlinear_representation_num_minus1 + 1, one less than the
 * mapping's linear segments.
 * Representation types:
 *      0  samples are the inverse of the distance: 0 stands for z far, the greatest for z near
 *      1  samples are disparity: 0 stands for d min, the greatest for d max
 *      2  samples are the distance: 0 stands for z far, the greatest for z near
 *      3  samples are disparity, mapped by the list
 *      4 to 15  reserved: H.274 has what follows them ignored; here it is read */
enum {
    BRUSKELDE_Z_NEAR_FLAG = 1,
    BRUSKELDE_Z_FAR_FLAG = 2,
    BRUSKELDE_D_MIN_FLAG = 3,
    BRUSKELDE_D_MAX_FLAG = 4,
    BRUSKELDE_DEPTH_REPRESENTATION_TYPE = 5,
    BRUSKELDE_DISPARITY_REF_VIEW_ID = 6,
    BRUSKELDE_Z_NEAR = 7,
    BRUSKELDE_Z_FAR = 13,
    BRUSKELDE_D_MIN = 19,
    BRUSKELDE_D_MAX = 25,
    BRUSKELDE_DEPTH_COUNT = 31,
    BRUSKELDE_DEPTH_NONLINEAR_REPRESENTATION_MODEL = 32
};

/* Places within one of the four numbers, from its first on: row[BRUSKELDE_Z_NEAR + BRUSKELDE_VALUE_DA_SIGN_FLAG]. */
enum {
    BRUSKELDE_VALUE_DA_SIGN_FLAG = 0,
    BRUSKELDE_VALUE_DA_EXPONENT = 1,
    BRUSKELDE_VALUE_DA_MANTISSA_LEN_MINUS1 = 2,
    BRUSKELDE_VALUE_DA_MANTISSA = 3,
    BRUSKELDE_VALUE_STATE = 4,      /* 0 where it is absent, 1 where it is unspecified, 2 where it is a number */
    BRUSKELDE_VALUE_BITS = 5,       /* the 64 bits of the number as a double; 0 where there is none */
    BRUSKELDE_VALUE = 6
};

/* 4, registered user data. The extension byte is the one after the country code 255. */
enum {
    BRUSKELDE_ITU_T_T35_COUNTRY_CODE = 1,
    BRUSKELDE_ITU_T_T35_COUNTRY_CODE_EXTENSION_BYTE = 2
};

/* 5, unregistered user data: the identifier's sixteen bytes. */
enum { BRUSKELDE_UUID_ISO_IEC_11578 = 1 };

/* A part of the lent bytes: bytes[offset] to bytes[offset + length - 1]. */
struct bruskelde_part {
    uint64_t offset;
    uint64_t length;
};

/*
 * What follows the head of a payload of kind 4 or 5: from there to the payload's end, possibly nothing. It lies within the first `size`
 * bytes. For a payload that bruskelde_read does not answer with 0, and for any other kind, offset and length are 0.
 */
BRUSKELDE_MUST_USE struct bruskelde_part bruskelde_part(uint64_t kind, uint64_t size, const uint8_t *bytes, size_t length);

/*
 * ---- The slots
 *
 * Eight slots, together one value that the player owns, wherever it likes: a call changes them in place. There is nothing to free, and
 * any number of such values live side by side.
 *
 *      struct bruskelde_slots slots;
 *      bruskelde_start(&slots);
 *      if (bruskelde_open(&slots, 3) != BRUSKELDE_DONE)
 *          ..
 *
 * A call that answers another number than 0 leaves all eight as they were; one that answers 0 changes the named slot at most. Any bytes
 * in the slots are harmless, also those that no call made.
 */

/* Kind 45. Fields that it does not carry are 0, here and below. */
struct bruskelde_flags {
    uint8_t spatial_flipping; /* one frame is flipped: under type 3 sideways, under 4 upside down, under 5 to be ignored */
    uint8_t frame0_flipped; /* which one: 0 frame 1, 1 frame 0 */
    uint8_t field_views; /* to be ignored */
    uint8_t current_is_frame0; /* under type 5: this picture is frame 0 */
    uint8_t frame0_self_contained;
    uint8_t frame1_self_contained;
};

struct bruskelde_grid { /* in sixteenths of a sample from the upper left corner */
    uint8_t frame0_x;
    uint8_t frame0_y;
    uint8_t frame1_x;
    uint8_t frame1_y;
};

struct bruskelde_layout {
    uint8_t arrangement_type; /* 3 side by side, 4 top and bottom, 5 one frame after the other */
    uint8_t quincunx;
    uint8_t content_interpretation; /* 0 unspecified, 1 frame 0 is the left eye, 2 frame 0 is the right eye */
    struct bruskelde_flags flags;
    struct bruskelde_grid grid;
    uint8_t persistence;
};

struct bruskelde_frame_packing {
    uint32_t id;
    uint8_t cancel;
    struct bruskelde_layout layout;
    uint8_t upsampled_aspect_ratio;
};

/* Kind 47. */
struct bruskelde_orientation {
    uint8_t cancel;
    uint8_t persistence;
    uint8_t transform; /* 0 to 7, as for the rows above */
};

/* Kind 150. */
struct bruskelde_equirectangular {
    uint8_t cancel;
    uint8_t persistence;
    uint8_t guarded;
    uint8_t guard_type; /* 0 to 3, as for the rows above */
    uint8_t left_width; /* in luma samples */
    uint8_t right_width;
};

/* Kind 154. */
struct bruskelde_degrees {
    double yaw;
    double pitch;
    double roll;
};

struct bruskelde_rotation {
    uint8_t cancel;
    uint8_t persistence;
    int32_t yaw; /* as coded, in 1/65536 of a degree */
    int32_t pitch;
    int32_t roll;
    struct bruskelde_degrees degrees;
};

/* Kind 155. Units, transforms and guard types as for the rows above. */
struct bruskelde_projected_area {
    uint32_t width;
    uint32_t height;
    uint32_t top;
    uint32_t left;
};

struct bruskelde_packed_area {
    uint16_t width;
    uint16_t height;
    uint16_t top;
    uint16_t left;
};

struct bruskelde_guard_types {
    uint8_t type0; /* of the left edge */
    uint8_t type1; /* of the right edge */
    uint8_t type2; /* of the top edge */
    uint8_t type3; /* of the bottom edge */
};

struct bruskelde_guard_bands {
    uint8_t left_width;
    uint8_t right_width;
    uint8_t top_height;
    uint8_t bottom_height;
    uint8_t not_used; /* not used for prediction */
    struct bruskelde_guard_types types;
};

struct bruskelde_region {
    uint8_t transform;
    uint8_t guarded;
    struct bruskelde_projected_area projected;
    struct bruskelde_packed_area packed;
    struct bruskelde_guard_bands guard;
};

struct bruskelde_packing {
    uint8_t cancel;
    uint8_t persistence;
    uint8_t matching; /* 1: the regions hold for each of the two frames of kind 45 */
    uint8_t count; /* of the regions that follow; those past it are zeros */
    uint32_t projected_width;
    uint32_t projected_height;
    uint16_t packed_width;
    uint16_t packed_height;
    struct bruskelde_region regions[BRUSKELDE_MOST_REGIONS];
};

/* What a slot holds: of each kind a record where `on` is 1, and nothing where it is 0. A record of zeros is a message too: look at
 * `on`. */
struct bruskelde_held_frame_packing {
    uint8_t on;
    struct bruskelde_frame_packing value;
};

struct bruskelde_held_orientation {
    uint8_t on;
    struct bruskelde_orientation value;
};

struct bruskelde_held_equirectangular {
    uint8_t on;
    struct bruskelde_equirectangular value;
};

struct bruskelde_held_rotation {
    uint8_t on;
    struct bruskelde_rotation value;
};

struct bruskelde_held_packing {
    uint8_t on;
    struct bruskelde_packing value;
};

struct bruskelde_held {
    struct bruskelde_held_frame_packing frame_packing;
    struct bruskelde_held_orientation orientation;
    struct bruskelde_held_equirectangular equirectangular;
    struct bruskelde_held_rotation rotation;
    struct bruskelde_held_packing regions;
};

struct bruskelde_slot {
    uint8_t open; /* 1 where it is open; any other number is closed */
    struct bruskelde_held held;
};

struct bruskelde_slots {
    struct bruskelde_slot slots[BRUSKELDE_SLOTS];
};

/* How many bytes the slots are: 6,080. */
enum { BRUSKELDE_SLOT_SIZE = 760, BRUSKELDE_SLOTS_SIZE = BRUSKELDE_SLOTS * BRUSKELDE_SLOT_SIZE };

#ifdef __cplusplus
static_assert(sizeof(struct bruskelde_slots) == BRUSKELDE_SLOTS_SIZE, "struct bruskelde_slots is not as large as the library's");
#elif defined(__STDC_VERSION__) && __STDC_VERSION__ >= 201112L
_Static_assert(sizeof(struct bruskelde_slots) == BRUSKELDE_SLOTS_SIZE, "struct bruskelde_slots is not as large as the library's");
#endif

/* How many they are to the library. A player asks this first: where it is not BRUSKELDE_SLOTS_SIZE, the library is not the one that this
 * header declares, and no other call may be made. */
BRUSKELDE_MUST_USE uint64_t bruskelde_slots_size(void);

/* Eight closed slots, whatever stood there. */
void bruskelde_start(struct bruskelde_slots *slots);

/* Opens a slot, closed or open: it holds nothing. Do this whenever a slot passes to another camera. */
BRUSKELDE_MUST_USE uint32_t bruskelde_open(struct bruskelde_slots *slots, uint64_t slot);

/* Closes a slot and clears it. */
BRUSKELDE_MUST_USE uint32_t bruskelde_close(struct bruskelde_slots *slots, uint64_t slot);

/* A coded video sequence begins: the slot holds nothing. */
BRUSKELDE_MUST_USE uint32_t bruskelde_sequence(struct bruskelde_slots *slots, uint64_t slot);

/* The number, and the count of extension bits in the payload's tail: 0 without one, and with a refusal. */
struct bruskelde_fed {
    uint32_t number;
    uint32_t extension;
};

/*
 * Feeds a payload to a slot: reads it as bruskelde_read does, and, where it is taken, the slot holds a message of kind 45, 47, 150, 154
 * or 155 in place of the one before; a cancel leaves nothing of its kind. The other kinds are read and not held. What the payload says
 * is what bruskelde_fields hands out for the same bytes.
 */
BRUSKELDE_MUST_USE struct bruskelde_fed bruskelde_feed(struct bruskelde_slots *slots, uint64_t slot, uint64_t kind, uint64_t size,
                                                       const uint8_t *bytes, size_t length);

/* A picture is shown: writes what the slot holds to `shown`, and then drops each record whose persistence flag is 0. With a refusal
 * `shown` is zeros: nothing is held. */
BRUSKELDE_MUST_USE uint32_t bruskelde_picture(struct bruskelde_slots *slots, uint64_t slot, struct bruskelde_held *shown);

/* The number, and how many rows were written. */
struct bruskelde_tabled {
    uint32_t number;
    uint32_t rows;
};

/*
 * The region table of what the slot holds, in rows of nine numbers: projected left, top, width, height, packed left, top, width, height,
 * transform. One row a region, and with the matching flag as many again for the second eye. `length` counts numbers, not rows:
 * 2 * BRUSKELDE_MOST_REGIONS * BRUSKELDE_TABLE_ROW are enough for any table. Numbers past the rows stay, and with a refusal all do.
 */
BRUSKELDE_MUST_USE struct bruskelde_tabled bruskelde_table(const struct bruskelde_slots *slots, uint64_t slot, uint64_t *rows,
                                                           size_t length);

#ifdef __cplusplus
}
#endif

#endif

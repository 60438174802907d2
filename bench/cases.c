/* What is measured. Each kind has a small, a usual and a largest payload, and refused ones. */
#include "../host/bruskelde.h"
#include "cases.h"

/* The limits, as they stand in a payload's text: the most regions and listed numbers, one less, and one more. */
#define MOST_REGIONS 16
#define REGIONS_LESS_ONE 15
#define REGIONS_AND_ONE 17
#define MOST_LISTED 63
#define LISTED_LESS_ONE 62
_Static_assert(MOST_REGIONS == BRUSKELDE_MOST_REGIONS && REGIONS_LESS_ONE == MOST_REGIONS - 1 && REGIONS_AND_ONE == MOST_REGIONS + 1, "regions");
_Static_assert(MOST_LISTED == BRUSKELDE_MOST_LISTED && LISTED_LESS_ONE == MOST_LISTED - 1, "list");
#define DIGITS(number) #number
#define TEXT(number) DIGITS(number)

#define COUNT(list) (sizeof(list) / sizeof(list)[0])

#define SIDE_BY_SIDE_FOR(persistence) "ue:0 1:0 7:3 1:0 6:1 6:0 4*4:0 8:0 1:" persistence " 1:0 "
#define SIDE_BY_SIDE SIDE_BY_SIDE_FOR("1")
#define TOP_BOTTOM_WITH_ID(id) "ue:" id " 1:0 7:4 1:0 6:2 6:63 4*4:15 8:0 1:1 1:1 $"
#define TURNED_FOR(persistence) "1:0 1:" persistence " 3:2 3:0 "
#define TURNED TURNED_FOR("1")
#define GUARDED_SPHERE_FOR(persistence) "1:0 1:" persistence " 1:1 2:0 3:3 8:8 8:8 "
#define GUARDED_SPHERE GUARDED_SPHERE_FOR("1")
#define ROTATED_FOR(persistence, pitch) "1:0 1:" persistence " 6:0 32:1966080 32:" pitch " 32:4284874752 "
#define ROTATED(pitch) ROTATED_FOR("1", pitch)
#define PITCH "4294311936"

#define REGIONS_FOR(persistence, matching, count) \
    "1:0 1:" persistence " 1:" matching " 5:0 8:" count " 32:7680 32:3840 16:3840 16:1920 "
#define REGIONS(matching, count) REGIONS_FOR("1", matching, count)
#define PLACES "32:1920 32:960 32:480 32:240 16:960 16:480 16:240 16:120 "
#define REGION "4:0 3:2 1:0 " PLACES
#define GUARDED_REGION(last_type) "4:0 3:2 1:1 " PLACES "8:8 8:8 8:4 8:4 1:0 3:1 3:2 3:3 3:" last_type " 3:0 "
#define LARGEST_REGIONS_FOR(persistence, matching) \
    REGIONS_FOR(persistence, matching, TEXT(MOST_REGIONS)) TEXT(MOST_REGIONS) "*[" GUARDED_REGION("4") "]"
#define ALL_BUT_ONE_REGION REGIONS("0", TEXT(MOST_REGIONS)) TEXT(REGIONS_LESS_ONE) "*[" GUARDED_REGION("4") "]"
#define ONE_REGION REGIONS("0", "1") REGION
#define MONO LARGEST_REGIONS_FOR("1", "0")
#define STEREO_FOR(persistence) LARGEST_REGIONS_FOR(persistence, "1")
#define STEREO STEREO_FOR("1")

#define ALPHA "1:0 3:1 3:0 9:0 9:255 1:0 1:0 $"

#define FOUR_ELEMENTS "ue:5 4*[1:1 7:60 5:31 32:3735928559] "
#define FOUR_AND_LIST "4:15 ue:3 " FOUR_ELEMENTS "ue:" TEXT(LISTED_LESS_ONE) " "
#define FOUR_TINY_ELEMENTS "ue:5 4*[1:1 7:0 5:31 32:1] "

const struct payload_case payload_cases[] = {
    {4, "country code", 0, "8:181"},
    {4, "40 bytes", 0, "8:181 +40"},
    {4, "8,192 bytes", 0, "8:255 8:1 +8192"},
    {4, "empty", 3, ""},
    {5, "identifier", 0, "+16"},
    {5, "56 bytes", 0, "+56"},
    {5, "8,192 bytes", 0, "+8192"},
    {5, "15 bytes", 3, "+15"},
    {45, "cancelled", 0, "ue:0 1:1 1:0 $"},
    {45, "type 3", 0, SIDE_BY_SIDE},
    {45, "type 4, largest id", 0, TOP_BOTTOM_WITH_ID("2147483647")},
    {45, "type 3, 8,192 bytes", 0, SIDE_BY_SIDE "+8192"},
    {45, "set aside, largest id", 20, TOP_BOTTOM_WITH_ID("4294967294")},
    {45, "three zero bytes", 3, "3*8:0"},
    {45, "four zero bytes", 4, "4*8:0"},
    {45, "type 3, zero byte after", 7, SIDE_BY_SIDE "8:0"},
    {47, "cancelled", 0, "1:1 $"},
    {47, "turned", 0, TURNED},
    {47, "turned, 8,192 bytes", 0, TURNED "+8192"},
    {47, "empty", 3, ""},
    {47, "turned, zero byte after", 7, TURNED "8:0"},
    {47, "8,193 bytes", 2, "+8193"},
    {150, "cancelled", 0, "1:1 $"},
    {150, "no guard band", 0, "1:0 1:1 1:0 2:0 $"},
    {150, "guard band", 0, GUARDED_SPHERE},
    {150, "width missing", 3, "1:0 1:1 1:1 2:0 3:3 8:8"},
    {154, "cancelled", 0, "1:1 $"},
    {154, "rotated", 0, ROTATED(PITCH)},
    {154, "pitch out of range", 5, ROTATED("5898241")},
    {155, "cancelled", 0, "1:1 $"},
    {155, "1 region", 0, ONE_REGION},
    {155, "4 regions", 0, REGIONS("0", "4") "4*[" REGION "]"},
    {155, TEXT(MOST_REGIONS) " regions, guard bands", 0, MONO},
    {155, "last region missing", 3, ALL_BUT_ONE_REGION},
    {155, "last guard type 0", 5, ALL_BUT_ONE_REGION GUARDED_REGION("0")},
    {155, TEXT(REGIONS_AND_ONE) " regions", 6, REGIONS("0", TEXT(REGIONS_AND_ONE)) TEXT(REGIONS_AND_ONE) "*[" REGION "]"},
    {165, "cancelled", 0, "1:1 $"},
    {165, "8 bits", 0, ALPHA},
    {165, "15 bits, clipped", 0, "1:0 3:2 3:7 16:0 16:65535 1:1 1:1 1:1 $"},
    {165, "opaque value missing", 3, "1:0 3:2 3:7 16:0"},
    {177, "no element", 0, "4:0 ue:0 $"},
    {177, "one element", 0, "4:8 ue:0 1:0 7:31 5:0 1:1 $"},
    {177, "four elements", 0, "4:15 ue:0 " FOUR_ELEMENTS "$"},
    {177, "four of exponent 0", 0, "4:15 ue:0 " FOUR_TINY_ELEMENTS "$"},
    {177, "four, " TEXT(MOST_LISTED) " numbers", 0, FOUR_AND_LIST TEXT(MOST_LISTED) "*ue:65535 $"},
    {177, "last number too large", 5, FOUR_AND_LIST TEXT(LISTED_LESS_ONE) "*ue:65535 ue:65536 $"},
    {6, "none of the nine", 1, "8:0"},
};
const size_t payload_case_count = COUNT(payload_cases);

#define FOUR_FOR(persistence) \
    {45, SIDE_BY_SIDE_FOR(persistence)}, {47, TURNED_FOR(persistence)}, {150, GUARDED_SPHERE_FOR(persistence)}, \
        {154, ROTATED_FOR(persistence, PITCH)}
#define LAST {0, NULL}

static const struct held_message nothing[] = {LAST};
static const struct held_message four[] = {FOUR_FOR("1"), LAST};
static const struct held_message five[] = {FOUR_FOR("1"), {155, STEREO}, LAST};
static const struct held_message five_mono[] = {FOUR_FOR("1"), {155, MONO}, LAST};
static const struct held_message five_passing[] = {FOUR_FOR("0"), {155, STEREO_FOR("0")}, LAST};

const struct slot_case slot_cases[] = {
    {START, "start", 0, FILLED_SLOT, five, 0, ""},
    {OPEN, "open", 0, FILLED_SLOT, five, 0, ""},
    {OPEN, "open, no such slot", 8, NO_SLOT, five, 0, ""},
    {CLOSE, "close", 0, FILLED_SLOT, five, 0, ""},
    {CLOSE, "close, closed slot", 8, CLOSED_SLOT, five, 0, ""},
    {SEQUENCE, "sequence", 0, FILLED_SLOT, five, 0, ""},
    {SEQUENCE, "sequence, closed slot", 8, CLOSED_SLOT, five, 0, ""},
    {FEED, "feed 47", 0, FILLED_SLOT, five, 47, TURNED},
    {FEED, "feed 47, empty", 3, FILLED_SLOT, five, 47, ""},
    {FEED, "feed 47, closed slot", 8, CLOSED_SLOT, five, 47, TURNED},
    {FEED, "feed 45", 0, FILLED_SLOT, five, 45, SIDE_BY_SIDE},
    {FEED, "feed 150", 0, FILLED_SLOT, five, 150, GUARDED_SPHERE},
    {FEED, "feed 154", 0, FILLED_SLOT, five, 154, ROTATED(PITCH)},
    {FEED, "feed 155, 1 region", 0, FILLED_SLOT, five, 155, ONE_REGION},
    {FEED, "feed 155, " TEXT(MOST_REGIONS) " regions", 0, FILLED_SLOT, five, 155, STEREO},
    {FEED, "feed 165, not held", 0, FILLED_SLOT, five, 165, ALPHA},
    {FEED, "feed 6, none of the nine", 1, FILLED_SLOT, five, 6, "8:0"},
    {PICTURE, "picture, nothing held", 0, FILLED_SLOT, nothing, 0, ""},
    {PICTURE, "picture, four held", 0, FILLED_SLOT, four, 0, ""},
    {PICTURE, "picture, five held", 0, FILLED_SLOT, five, 0, ""},
    {PICTURE, "picture, five not persisting", 0, FILLED_SLOT, five_passing, 0, ""},
    {PICTURE, "picture, closed slot", 8, CLOSED_SLOT, five, 0, ""},
    {TABLE, "table, " TEXT(MOST_REGIONS) " rows", 0, FILLED_SLOT, five_mono, 0, ""},
    {TABLE, "table, twice as many", 0, FILLED_SLOT, five, 0, ""},
    {TABLE, "table, closed slot", 8, CLOSED_SLOT, five, 0, ""},
};
const size_t slot_case_count = COUNT(slot_cases);

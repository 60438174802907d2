/*
 * A million calls on slots that hold any bytes.
 *
 *   any_slots [SEED [CALLS]]
 *
 * After each call all slots but the named one, and after a refused call all eight, are byte for byte as before. So are what lies around
 * the slots, the shown records and the rows, the numbers past the rows, and the payload. The named slot and the shown records are what
 * the call promises, field by field: of what is stored the padding may be anything, and of a float that is no number the bits.
 */
#include <inttypes.h>
#include <stdio.h>
#include <stdlib.h>
#include <string.h>

#include "fields.h"
#include "messages.h"

enum { A_MILLION = 1000000, CALLS_A_FILLING = 12, MOST_NUMBERS = BRUSKELDE_ROW_MOST, GUARD = 64 };

#define COUNT(list) (sizeof(list) / sizeof *(list))

enum entry { START, OPEN, CLOSE, SEQUENCE, FEED, PICTURE, TABLE, READ, FIELDS, PART };

/* Each entry, how many of 32 calls are its, and the numbers that it has to come to in a million calls. */
static const struct {
    const char *name;
    unsigned share;
    const char *numbers;
} entries[] = {
    [START] = {"start", 1, "0"},
    [OPEN] = {"open", 3, "0 8"},
    [CLOSE] = {"close", 2, "0 8"},
    [SEQUENCE] = {"sequence", 2, "0 8"},
    [FEED] = {"feed", 11, "0 1 2 3 4 5 6 7 8 20"},
    [PICTURE] = {"picture", 5, "0 8"},
    [TABLE] = {"table", 4, "0 8 9 10"},
    [READ] = {"read", 1, "0 1 2 3 4 5 6 7 20"},
    [FIELDS] = {"fields", 2, "0 1 2 3 4 5 6 7 10 20"},
    [PART] = {"part", 1, "0"},
};

/* All that is lent, and a copy of it from before the call. */
static struct lent {
    uint8_t guard0[GUARD];
    struct bruskelde_slots slots;
    uint8_t guard1[GUARD];
    struct bruskelde_held shown;
    uint8_t guard2[GUARD];
    uint64_t rows[MOST_NUMBERS];
    uint8_t guard3[GUARD];
    uint8_t bytes[sizeof payload.bytes];
} lent, before;

/* The records that a slot holds. */
static const struct record {
    uint64_t kind;
    void (*make)(void);
    size_t offset, size, persistence;
} records[] = {
#define PLACE(record) offsetof(struct bruskelde_held, record)
#define RECORD(kind, make, record, persistence) {kind, make, PLACE(record), sizeof lent.shown.record, PLACE(record.persistence)}
    RECORD(BRUSKELDE_FRAME_PACKING, make_frame_packing, frame_packing, value.layout.persistence),
    RECORD(BRUSKELDE_ORIENTATION, make_orientation, orientation, value.persistence),
    RECORD(BRUSKELDE_EQUIRECTANGULAR, make_equirectangular, equirectangular, value.persistence),
    RECORD(BRUSKELDE_ROTATION, make_rotation, rotation, value.persistence),
    RECORD(BRUSKELDE_REGION_WISE, make_packing, regions, value.persistence),
};

/* The call, and what it answered. */
static struct {
    uint64_t index;
    enum entry entry;
    uint64_t slot, kind, size;
    size_t length, row_length;
} call;

static struct {
    uint32_t number, extension, rows;
    struct bruskelde_part part;
} answer;

static uint64_t seed = 1;
static uint64_t came_to[COUNT(entries)][BRUSKELDE_SET_ASIDE + 1];

static void must(int holds, const char *what)
{
    if (holds)
        return;
    fprintf(stderr, "any slots: seed %" PRIu64 ", call %" PRIu64 ", %s of slot %" PRIu64 ", kind %" PRIu64 ", answered %" PRIu32 ": %s\n", seed,
            call.index, entries[call.entry].name, call.slot, call.kind, answer.number, what);
    exit(1);
}

/* ---- what is lent */

static void fill_with_any_bytes(void)
{
    for (size_t i = 0; i < sizeof lent; i += sizeof(uint32_t)) {
        uint32_t four = (uint32_t)any(32);
        memcpy((uint8_t *)&lent + i, &four, sizeof four);
    }
}

static void often(uint8_t *field, uint64_t value)
{
    if (any(2) != 0)
        *field = (uint8_t)value;
}

/* Marks, flags and counts that mean something, in most of the slots. */
static void give_meaning(struct bruskelde_slot *slot)
{
    struct bruskelde_held *held = &slot->held;
    often(&slot->open, 1);
    often(&held->frame_packing.on, 1);
    often(&held->frame_packing.value.layout.arrangement_type, 3 + any(1));
    often(&held->regions.on, 1);
    often(&held->regions.value.matching, any(1));
    often(&held->regions.value.count, 1 + any(4));
    for (size_t i = 0; i < COUNT(records); i++)
        often((uint8_t *)held + records[i].persistence, any(1));
}

static void fill(void)
{
    fill_with_any_bytes();
    for (size_t i = 0; i < BRUSKELDE_SLOTS; i++)
        give_meaning(&lent.slots.slots[i]);
}

/* ---- a call */

static uint64_t one_of(const uint64_t *list, size_t count)
{
    return list[any(16) % count];
}

static enum entry any_entry(void)
{
    unsigned entry = 0;
    for (uint64_t share = any(5); share >= entries[entry].share; entry++)
        share -= entries[entry].share;
    return (enum entry)entry;
}

static uint64_t any_slot(void)
{
    static const uint64_t none[] = {8,          9,          255,        256,        259,       UINT32_MAX, 1ull << 32, (1ull << 32) + 3,
                                    1ull << 61, 1ull << 63, UINT64_MAX, UINT64_MAX - 7};
    return any(3) != 0 ? any(3) : one_of(none, COUNT(none));
}

static uint64_t any_other_kind(void)
{
    static const uint64_t others[] = {BRUSKELDE_REGISTERED, BRUSKELDE_UNREGISTERED, BRUSKELDE_ALPHA,   BRUSKELDE_DEPTH,   0, 6, 46, 255,
                                      (1ull << 32) + 45,    (1ull << 63) + 155,     UINT64_MAX};
    return one_of(others, COUNT(others));
}

static void put_any_bytes(void)
{
    for (uint64_t count = any(5); count > 0; count--)
        put_any(8);
}

static void flip(size_t bit)
{
    payload.bytes[bit / 8] ^= (uint8_t)(0x80 >> bit % 8);
}

static void damage(void)
{
    switch (any(2)) {
    case 0:
        flip(any(16) % 24); /* what decides most */
        break;
    case 1:
        flip(any(16) % (payload.bits + 1));
        break;
    case 2:
        put(0, 8);
        break;
    default:
        begin_payload();
        put(0, 40);
        break;
    }
}

static uint64_t any_size(size_t length)
{
    switch (any(4)) {
    case 0:
        return any(16) % (length + 1);
    case 1:
        return length + 1;
    case 2:
        return any(64);
    default:
        return length;
    }
}

static void draw_payload(void)
{
    const struct record *record = &records[any(16) % COUNT(records)];
    begin_payload();
    call.kind = any(3) != 0 ? record->kind : any_other_kind();
    if (call.kind == record->kind && any(3) != 0)
        record->make();
    else
        put_any_bytes();
    put_tail();
    if (any(2) == 0)
        damage();
    call.length = payload.bits / 8;
    call.size = any_size(call.length);
    memcpy(lent.bytes, payload.bytes, sizeof lent.bytes);
}

static void draw(void)
{
    call.entry = any_entry();
    call.slot = any_slot();
    call.row_length = any(1) != 0 ? MOST_NUMBERS : any(16) % (MOST_NUMBERS + 1);
    if (call.entry == FEED || call.entry >= READ)
        draw_payload();
}

static void make(void)
{
    const uint8_t *bytes = lent.bytes;
    struct bruskelde_fed fed;
    struct bruskelde_tabled tabled;
    memset(&answer, 0, sizeof answer);
    switch (call.entry) {
    case START:
        bruskelde_start(&lent.slots);
        break;
    case OPEN:
        answer.number = bruskelde_open(&lent.slots, call.slot);
        break;
    case CLOSE:
        answer.number = bruskelde_close(&lent.slots, call.slot);
        break;
    case SEQUENCE:
        answer.number = bruskelde_sequence(&lent.slots, call.slot);
        break;
    case FEED:
        fed = bruskelde_feed(&lent.slots, call.slot, call.kind, call.size, bytes, call.length);
        answer.number = fed.number;
        answer.extension = fed.extension;
        break;
    case PICTURE:
        answer.number = bruskelde_picture(&lent.slots, call.slot, &lent.shown);
        break;
    case TABLE:
        tabled = bruskelde_table(&lent.slots, call.slot, lent.rows, call.row_length);
        answer.number = tabled.number;
        answer.rows = tabled.rows;
        break;
    case READ:
        answer.number = bruskelde_read(call.kind, call.size, bytes, call.length);
        break;
    case FIELDS:
        answer.number = bruskelde_fields(call.kind, call.size, bytes, call.length, lent.rows, call.row_length);
        break;
    case PART:
        answer.part = bruskelde_part(call.kind, call.size, bytes, call.length);
        break;
    }
}

/* ---- field by field */

/* Ones where a field is, but for the three floats. */
static struct bruskelde_slot fields;

static void set_bits(void *field, size_t width)
{
    memset(field, 0xff, width);
}

static void find_fields(void)
{
    static struct bruskelde_slots all;
    each_of_slots(&all, set_bits);
    memcpy(&fields, &all.slots[0], sizeof fields);
    memset(&fields.held.rotation.value.degrees, 0, sizeof fields.held.rotation.value.degrees);
}

static int same_float(double a, double b)
{
    return memcmp(&a, &b, sizeof a) == 0 || (a != a && b != b);
}

static int same_held(const struct bruskelde_held *a, const struct bruskelde_held *b)
{
    const struct bruskelde_degrees *one = &a->rotation.value.degrees, *other = &b->rotation.value.degrees;
    const uint8_t *left = (const uint8_t *)a, *right = (const uint8_t *)b, *field = (const uint8_t *)&fields.held;
    uint8_t difference = 0;
    for (size_t i = 0; i < sizeof *a; i++)
        difference |= (left[i] ^ right[i]) & field[i];
    return difference == 0 && same_float(one->yaw, other->yaw) && same_float(one->pitch, other->pitch) &&
           same_float(one->roll, other->roll);
}

static int same_slot(const struct bruskelde_slot *a, const struct bruskelde_slot *b)
{
    return a->open == b->open && same_held(&a->held, &b->held);
}

/* ---- what the call promises */

static const struct bruskelde_slot closed, fresh = {.open = 1};

static int is_open(void)
{
    return call.slot < BRUSKELDE_SLOTS && before.slots.slots[call.slot].open == 1;
}

static int has_record(uint32_t number)
{
    return number == BRUSKELDE_TAKEN || number == BRUSKELDE_SET_ASIDE;
}

/* The number of the payload, and the count of its extension bits. */
static struct bruskelde_fed of_payload(void)
{
    static uint64_t row[BRUSKELDE_ROW_MOST];
    struct bruskelde_fed of = {bruskelde_fields(call.kind, call.size, before.bytes, call.length, row, BRUSKELDE_ROW_MOST), 0};
    if (has_record(of.number))
        of.extension = (uint32_t)row[BRUSKELDE_EXTENSION];
    return of;
}

/* What a fresh slot holds after the payload. */
static struct bruskelde_held held_by_fresh(void)
{
    static struct bruskelde_slots other;
    bruskelde_start(&other);
    must(bruskelde_open(&other, 0) == BRUSKELDE_DONE, "a fresh slot could not be opened");
    must(bruskelde_feed(&other, 0, call.kind, call.size, before.bytes, call.length).number == BRUSKELDE_TAKEN, "a fresh slot refused it");
    return other.slots[0].held;
}

static struct bruskelde_held after_feed(struct bruskelde_held held)
{
    struct bruskelde_held by_fresh = held_by_fresh();
    for (size_t i = 0; i < COUNT(records); i++)
        if (records[i].kind == call.kind)
            memcpy((uint8_t *)&held + records[i].offset, (uint8_t *)&by_fresh + records[i].offset, records[i].size);
    return held;
}

static struct bruskelde_held after_picture(struct bruskelde_held held)
{
    for (size_t i = 0; i < COUNT(records); i++)
        if (((uint8_t *)&held)[records[i].persistence] == 0)
            memset((uint8_t *)&held + records[i].offset, 0, records[i].size);
    return held;
}

/* How many rows a table has, and 0 where none can be made. */
static uint32_t rows_of(const struct bruskelde_held *held)
{
    const struct bruskelde_packing *packing = &held->regions.value;
    uint8_t type = held->frame_packing.value.layout.arrangement_type;
    if (held->regions.on != 1 || packing->count > BRUSKELDE_MOST_REGIONS)
        return 0;
    if (packing->matching == 0)
        return packing->count;
    return held->frame_packing.on == 1 && (type == 3 || type == 4) ? 2u * packing->count : 0;
}

static uint32_t table_number(void)
{
    uint32_t rows = rows_of(&before.slots.slots[call.slot].held);
    if (rows == 0)
        return BRUSKELDE_TABLE;
    return call.row_length < rows * BRUSKELDE_TABLE_ROW ? BRUSKELDE_ROOM : BRUSKELDE_DONE;
}

static uint32_t promised_number(void)
{
    switch (call.entry) {
    case OPEN:
        return call.slot < BRUSKELDE_SLOTS ? BRUSKELDE_DONE : BRUSKELDE_SLOT;
    case CLOSE:
    case SEQUENCE:
    case PICTURE:
        return is_open() ? BRUSKELDE_DONE : BRUSKELDE_SLOT;
    case FEED:
        return is_open() ? of_payload().number : BRUSKELDE_SLOT;
    case TABLE:
        return is_open() ? table_number() : BRUSKELDE_SLOT;
    case READ:
        return of_payload().number;
    case FIELDS:
        return has_record(of_payload().number) && answer.number == BRUSKELDE_ROOM ? BRUSKELDE_ROOM : of_payload().number;
    default:
        return BRUSKELDE_DONE;
    }
}

/* What is left of a slot by a call that answered 0. */
static struct bruskelde_slot promised_slot(const struct bruskelde_slot *was)
{
    struct bruskelde_slot left = *was;
    switch (call.entry) {
    case OPEN:
    case SEQUENCE:
        return fresh;
    case START:
    case CLOSE:
        return closed;
    case FEED:
        left.held = after_feed(was->held);
        return left;
    case PICTURE:
        left.held = after_picture(was->held);
        return left;
    default:
        return left;
    }
}

/* ---- whether it was kept */

static int stores(uint64_t slot)
{
    if (call.entry == START)
        return 1;
    return call.entry < TABLE && answer.number == BRUSKELDE_DONE && slot == call.slot;
}

static void check_slots(void)
{
    for (uint64_t i = 0; i < BRUSKELDE_SLOTS; i++) {
        const struct bruskelde_slot *was = &before.slots.slots[i], *is = &lent.slots.slots[i];
        if (stores(i)) {
            struct bruskelde_slot promised = promised_slot(was);
            must(same_slot(is, &promised), "the slot is not what it should be");
        } else {
            must(memcmp(is, was, sizeof *is) == 0, "a slot was changed");
        }
    }
}

static void check_shown(void)
{
    if (call.entry != PICTURE)
        must(memcmp(&lent.shown, &before.shown, sizeof lent.shown) == 0, "the shown records were changed");
    else if (answer.number == BRUSKELDE_DONE)
        must(same_held(&lent.shown, &before.slots.slots[call.slot].held), "what is shown is not what was held");
    else
        must(same_held(&lent.shown, &closed.held), "what is shown with a refusal is not zeros");
}

static uint32_t promised_rows(void)
{
    return call.entry == TABLE && answer.number == BRUSKELDE_DONE ? rows_of(&before.slots.slots[call.slot].held) : 0;
}

static void check_rows(void)
{
    size_t written = call.entry == FIELDS && has_record(answer.number) ? call.row_length : answer.rows * BRUSKELDE_TABLE_ROW;
    must(answer.rows == promised_rows(), "another count of rows was expected");
    must(memcmp(lent.rows + written, before.rows + written, sizeof lent.rows - written * sizeof *lent.rows) == 0, "rows were changed");
}

static void check_around(void)
{
    must(memcmp(lent.guard0, before.guard0, GUARD) == 0, "bytes before the slots were changed");
    must(memcmp(lent.guard1, before.guard1, GUARD) == 0, "bytes after the slots were changed");
    must(memcmp(lent.guard2, before.guard2, GUARD) == 0, "bytes after the shown records were changed");
    must(memcmp(lent.guard3, before.guard3, GUARD) == 0, "bytes after the rows were changed");
    must(memcmp(lent.bytes, before.bytes, sizeof lent.bytes) == 0, "the payload was changed");
}

static void check(void)
{
    must(answer.number == promised_number(), "another number was expected");
    must(answer.extension == (call.entry == FEED && is_open() ? of_payload().extension : 0), "another extension was expected");
    must(answer.part.offset + answer.part.length <= call.size, "the part is outside of the payload");
    check_slots();
    check_shown();
    check_rows();
    check_around();
}

/* Every number that an entry can answer has come up. */
static void check_reach(void)
{
    for (size_t i = 0; i < COUNT(entries); i++) {
        char *rest;
        for (const char *numbers = entries[i].numbers; *numbers != '\0'; numbers = rest)
            if (came_to[i][strtoul(numbers, &rest, 10)] == 0) {
                fprintf(stderr, "any slots: seed %" PRIu64 ", %s never came to one of %s\n", seed, entries[i].name, entries[i].numbers);
                exit(1);
            }
    }
}

int main(int argc, char **argv)
{
    uint64_t calls = argc > 2 ? strtoull(argv[2], NULL, 10) : A_MILLION;
    seed = argc > 1 ? strtoull(argv[1], NULL, 10) : seed;
    state = seed;
    find_fields();
    for (call.index = 0; call.index < calls; call.index++) {
        if (call.index % CALLS_A_FILLING == 0)
            fill();
        draw();
        memcpy(&before, &lent, sizeof before);
        make();
        check();
        came_to[call.entry][answer.number]++;
    }
    if (calls >= A_MILLION)
        check_reach();
    printf("any slots: seed %" PRIu64 ", %" PRIu64 " calls, each changed what it should and nothing else\n", seed, calls);
    return 0;
}

/*
 * Prints how many bytes of stack one call of each entry needs, its return address among them: the most in any case of cases.c.
 *
 * A call is made on a stack that was painted before; how far down the paint is gone tells what it needs.
 */
#define _DEFAULT_SOURCE

#include "bruskelde.h"
#include "cases.h"

#include <stdio.h>
#include <stdlib.h>
#include <string.h>
#include <ucontext.h>

enum { RETURN_ADDRESS = 8 };

/* The entries that bench/run does not count, and a function that does nothing. */
enum { PART = TABLE + 1, SLOTS_SIZE, NOTHING, ENTRIES };

static const char *const names[] = {
    [READ] = "read",
    [ROW] = "fields",
    [START] = "start",
    [OPEN] = "open",
    [CLOSE] = "close",
    [SEQUENCE] = "sequence",
    [FEED] = "feed",
    [PICTURE] = "picture",
    [TABLE] = "table",
    [PART] = "part",
    [SLOTS_SIZE] = "slots_size",
};

static size_t needed[ENTRIES];

static struct bruskelde_slots slots;
static struct bruskelde_held shown;
static uint64_t numbers[MOST_NUMBERS];

static unsigned entry;
static const struct slot_case *given;
static struct payload payload;

static void nothing(void) {}
static void (*volatile do_nothing)(void) = nothing;

static volatile uint64_t answered;

static void call_entry(void)
{
    volatile uint8_t room[1024] = {0}; /* for what runs on the stack before and after */
    uint64_t answer = room[0];
    switch (entry) {
    case READ:
        answer = bruskelde_read(given->kind, payload.size, payload.bytes, payload.size);
        break;
    case ROW:
        answer = bruskelde_fields(given->kind, payload.size, payload.bytes, payload.size, numbers, MOST_NUMBERS);
        break;
    case PART:
        answer = bruskelde_part(given->kind, payload.size, payload.bytes, payload.size).length;
        break;
    case SLOTS_SIZE:
        answer = bruskelde_slots_size();
        break;
    case START:
        bruskelde_start(&slots);
        break;
    case OPEN:
        answer = bruskelde_open(&slots, given->slot);
        break;
    case CLOSE:
        answer = bruskelde_close(&slots, given->slot);
        break;
    case SEQUENCE:
        answer = bruskelde_sequence(&slots, given->slot);
        break;
    case FEED:
        answer = bruskelde_feed(&slots, given->slot, given->kind, payload.size, payload.bytes, payload.size).number;
        break;
    case PICTURE:
        answer = bruskelde_picture(&slots, given->slot, &shown);
        break;
    case TABLE:
        answer = bruskelde_table(&slots, given->slot, numbers, MOST_NUMBERS).number;
        break;
    default:
        do_nothing();
        break;
    }
    answered = answer;
}

static uint8_t stack[1 << 18];

static void call_on_stack(void)
{
    static ucontext_t here, there;
    getcontext(&there);
    there.uc_stack.ss_sp = stack;
    there.uc_stack.ss_size = sizeof stack;
    there.uc_link = &here;
    makecontext(&there, call_entry, 0);
    swapcontext(&here, &there);
}

static size_t unpainted(uint8_t paint)
{
    size_t painted = 0;
    while (painted < sizeof stack && stack[painted] == paint)
        painted++;
    return sizeof stack - painted;
}

static void fill(const struct held_message *held)
{
    bruskelde_start(&slots);
    if (bruskelde_open(&slots, FILLED_SLOT) != BRUSKELDE_DONE)
        exit(EXIT_FAILURE);
    for (; held->kind != 0; held++) {
        write_payload(&payload, held->payload);
        if (bruskelde_feed(&slots, FILLED_SLOT, held->kind, payload.size, payload.bytes, payload.size).number != BRUSKELDE_TAKEN)
            exit(EXIT_FAILURE);
    }
}

/* Twice, since a byte of the paint's value may be written. */
static void measure(unsigned of, const struct slot_case *one)
{
    static const uint8_t paints[] = {0x5a, 0xc3};
    entry = of;
    given = one;
    for (int i = 0; i < 2; i++) {
        fill(one->held);
        write_payload(&payload, one->payload);
        memset(stack, paints[i], sizeof stack);
        call_on_stack();
        if (unpainted(paints[i]) > needed[of])
            needed[of] = unpainted(paints[i]);
    }
}

static void measure_payload(const struct payload_case *from)
{
    static const struct held_message none[] = {{0, NULL}};
    const struct slot_case one = {.slot = FILLED_SLOT, .held = none, .kind = from->kind, .payload = from->payload};
    measure(READ, &one);
    measure(ROW, &one);
    measure(PART, &one);
    measure(FEED, &one);
}

int main(void)
{
    measure(NOTHING, slot_cases);
    measure(SLOTS_SIZE, slot_cases);
    for (size_t i = 0; i < payload_case_count; i++)
        measure_payload(&payload_cases[i]);
    for (size_t i = 0; i < slot_case_count; i++)
        measure(slot_cases[i].call, &slot_cases[i]);
    printf("bytes of stack for one call, its return address among them\n");
    for (unsigned i = 0; i < sizeof names / sizeof *names; i++)
        printf("bruskelde_%-12s %8zu\n", names[i], needed[i] - needed[NOTHING] + RETURN_ADDRESS);
    return EXIT_SUCCESS;
}

/* usage: calls check    holds the library's answers to the reader's in every case
 *        calls count    makes each case's call twice on the library and on the reader, and prints the cases */
#include "cases.h"

#include <inttypes.h>
#include <stdio.h>
#include <stdlib.h>
#include <string.h>

enum { ROUNDS = 2 };

/* A case: what its call is given, what its slot holds before, and the number that it is answered with. */
struct measured {
    char group[24];
    const char *name;
    uint32_t number;
    struct given given;
    const struct held_message *held;
};

typedef void action(const struct measured *one);

/* Both sides, each with slots of its own. They stay at their place: how a copy runs depends on where it is. */
static struct {
    const struct side *side;
    void *slots;
} both[2] = {{&library, NULL}, {&reader, NULL}};

void mark(void) {}

static void feed(int which, const struct held_message *message)
{
    static struct payload payload;
    uint64_t extension;
    write_payload(&payload, message->payload);
    both[which].side->feed(both[which].slots, FILLED_SLOT, message->kind, payload.size, payload.bytes, payload.size, &extension);
}

static void fill(int which, const struct held_message *held)
{
    both[which].side->start(both[which].slots);
    both[which].side->open(both[which].slots, FILLED_SLOT);
    for (; held->kind != 0; held++)
        feed(which, held);
}

/* The case's call, on slots that it may change. */
static void answer(int which, const struct measured *one, struct answered *answered)
{
    memset(answered, 0, sizeof *answered);
    if (one->held != NULL)
        fill(which, one->held);
    answered->number = make_call(both[which].side, both[which].slots, &one->given, answered);
}

/* Both sides answer the same, which has the case's number, and the same to the picture that follows. */
static void check(const struct measured *one)
{
    static const struct given picture = {.call = PICTURE, .slot = FILLED_SLOT};
    static struct answered answered[2], after[2];
    for (int i = 0; i < 2; i++) {
        answer(i, one, &answered[i]);
        after[i].number = make_call(both[i].side, both[i].slots, &picture, &after[i]);
    }
    if (answered[0].number != one->number || memcmp(&answered[0], &answered[1], sizeof answered[0]) != 0 ||
        memcmp(&after[0], &after[1], sizeof after[0]) != 0) {
        fprintf(stderr, "%s, %s: expected %" PRIu32 ", library %" PRIu64 ", reader %" PRIu64 ", or what else they answer differs\n",
                one->group, one->name, one->number, answered[0].number, answered[1].number);
        exit(EXIT_FAILURE);
    }
}

static void count(const struct measured *one)
{
    static struct answered answered;
    for (int round = 0; round < ROUNDS; round++)
        for (int i = 0; i < 2; i++)
            answer(i, one, &answered);
    printf("%s\t%s\t%" PRIu32 "\n", one->group, one->name, one->number);
}

/* Each payload is read for its number, and then for its row. */
static void for_each_payload(action *act)
{
    static struct measured one;
    for (size_t i = 0; i < payload_case_count; i++) {
        const struct payload_case *from = &payload_cases[i];
        snprintf(one.group, sizeof one.group, "%" PRIu64, from->kind);
        one.name = from->name;
        one.number = from->number;
        one.given.kind = from->kind;
        write_payload(&one.given.payload, from->payload);
        one.given.call = READ;
        act(&one);
        one.given.call = ROW;
        act(&one);
    }
}

static void for_each_slot_call(action *act)
{
    static struct measured one = {.group = "slots"};
    for (size_t i = 0; i < slot_case_count; i++) {
        const struct slot_case *from = &slot_cases[i];
        one.name = from->name;
        one.number = from->number;
        one.given.call = from->call;
        one.given.slot = from->slot;
        one.given.kind = from->kind;
        write_payload(&one.given.payload, from->payload);
        one.held = from->held;
        act(&one);
    }
}

int main(int argc, char **argv)
{
    for (int i = 0; i < 2; i++)
        both[i].slots = both[i].side->make();
    if (argc == 2 && strcmp(argv[1], "check") == 0) {
        for_each_payload(check);
        for_each_slot_call(check);
        return EXIT_SUCCESS;
    }
    if (argc == 2 && strcmp(argv[1], "count") == 0) {
        for_each_payload(count);
        for_each_slot_call(count);
        return EXIT_SUCCESS;
    }
    fprintf(stderr, "usage: calls check | count\n");
    return 2;
}

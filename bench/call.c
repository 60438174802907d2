/* One call of a side, the same code for either. */
#include "call.h"

uint32_t make_call(const struct side *side, void *slots, const struct given *given, struct answered *answered)
{
    const uint8_t *bytes = given->payload.bytes;
    size_t size = given->payload.size;
    uint32_t number = 0;
    mark();
    switch (given->call) {
    case READ:
        number = side->read(given->kind, size, bytes, size);
        break;
    case ROW:
        number = side->row(given->kind, size, bytes, size, answered->numbers, MOST_NUMBERS);
        break;
    case START:
        number = side->start(slots);
        break;
    case OPEN:
        number = side->open(slots, given->slot);
        break;
    case CLOSE:
        number = side->close(slots, given->slot);
        break;
    case SEQUENCE:
        number = side->sequence(slots, given->slot);
        break;
    case FEED:
        number = side->feed(slots, given->slot, given->kind, size, bytes, size, &answered->count);
        break;
    case PICTURE:
        number = side->picture(slots, given->slot, answered->numbers);
        break;
    case TABLE:
        number = side->table(slots, given->slot, answered->numbers, MOST_NUMBERS, &answered->count);
        break;
    }
    mark();
    return number;
}

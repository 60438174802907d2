/* Each call of the header that answers something, with its answer dropped: a compiler has to warn of every one. */
#include "../../host/bruskelde.h"

void player(struct bruskelde_slots *slots, struct bruskelde_held *shown, const uint8_t *bytes, uint64_t *rows)
{
    bruskelde_read(45, 6, bytes, 6);
    bruskelde_fields(45, 6, bytes, 6, rows, 18);
    bruskelde_part(4, 6, bytes, 6);
    bruskelde_slots_size();
    bruskelde_open(slots, 3);
    bruskelde_close(slots, 3);
    bruskelde_sequence(slots, 3);
    bruskelde_feed(slots, 3, 45, 6, bytes, 6);
    bruskelde_picture(slots, 3, shown);
    bruskelde_table(slots, 3, rows, 9);
}

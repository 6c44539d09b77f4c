// The header in C++17: what it declares can be used and linked from C++ as from C.
#include "lischemur.h"

static LISCHEMUR_MEMORY(33) memory;
static lischemur_record record;

int main()
{
    if (!lischemur_aligned(memory.heap) || lischemur_make(&record, memory.heap, 33, 33).number != LISCHEMUR_DONE)
        return 1;
    lischemur_reply r = lischemur_hand_out(&record, memory.heap, 33, 12);
    void *payload = lischemur_pointer(memory.heap, r.value);
    if (r.number != LISCHEMUR_DONE || r.value != 4 || lischemur_offset(memory.heap, payload) != 4)
        return 1;
    if (lischemur_audit(record, memory.heap, 33) != 1 || lischemur_high_water(record) != 16)
        return 1;
    static char room[LISCHEMUR_MAP_ROOM(33)];
    lischemur_reply map = lischemur_write_map(record, memory.heap, 33, room, sizeof room);
    if (map.number != LISCHEMUR_DONE || map.value != 2 || room[2 * LISCHEMUR_MAP_LINE - 1] != '\n')
        return 1;
    return static_cast<int>(lischemur_take_back(&record, memory.heap, 33, r.value).number);
}

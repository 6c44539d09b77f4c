/*
 * Calls every function that every layout has, with whichever header HEADER names. With a header of another layout than the library's no one of
 * the calls may link: tests/c/run looks for each in what the linker says. It is never run.
 */
#include HEADER

static uint32_t heap[33];
static lischemur_record record;

int main(void)
{
    uint32_t sum = lischemur_make(&record, heap, 33, 33).number;
    sum += lischemur_hand_out(&record, heap, 33, 12).number;
    sum += lischemur_take_back(&record, heap, 33, 4).number;
    sum += lischemur_audit(record, heap, 33);
    sum += lischemur_mark(record, 0).changed;
    sum += lischemur_in_use(record) + lischemur_peak(record) + lischemur_high_water(record);
    return (int)sum;
}

/* The proved heap behind the kernel's calls: one record, one run of words, and the door of include/lischemur.h.
 *
 * With MEASURE_STACK each call is made on a painted stack; without, it is the bare call. With CALLS_ONLY the figures and the
 * map are left out, so that a library that lacks one of their functions can be counted too. */
#include "kernel.h"
#include "board.h"
#include <lischemur.h>

/* the heap begins at 4 mod 8, so that payloads lie at multiples of 8 */
static LISCHEMUR_MEMORY(WORDS) memory;
static uint32_t *const heap = memory.heap;

/* all zero is the empty record: what static memory is at reset */
static lischemur_record record;

/* how many words the heap in use has; 0 before one is made */
static uint32_t lent;

uint32_t kernel_depth;

#ifdef MEASURE_STACK
#define CALLED(call)                                                                                                     \
    paint();                                                                                                             \
    lischemur_reply reply = call;                                                                                        \
    uint32_t deep = depth();                                                                                             \
    if (kernel_depth < deep)                                                                                             \
        kernel_depth = deep;
#else
#define CALLED(call) lischemur_reply reply = call;
#endif

void kernel_reset(void)
{
    for (uint32_t w = 0; w < WORDS; w++)
        heap[w] = 0;
    record = (lischemur_record){0};
    lent = 0;
}

struct answer kernel_make(uint32_t words)
{
    if (words > WORDS)
        return (struct answer){6, 0, 0};
    CALLED(lischemur_make(&record, heap, words, words))
    if (reply.number == 0)
        lent = words;
    return (struct answer){reply.number, reply.value, reply.compared};
}

struct answer kernel_hand_out(uint32_t size)
{
    CALLED(lischemur_hand_out(&record, heap, lent, size))
    return (struct answer){reply.number, reply.value, reply.compared};
}

struct answer kernel_take_back(uint32_t payload)
{
    CALLED(lischemur_take_back(&record, heap, lent, payload))
    return (struct answer){reply.number, reply.value, reply.compared};
}

struct answer kernel_audit(void)
{
    return (struct answer){lischemur_audit(record, heap, lent) ? 0 : 5, 0, 0};
}

#ifndef CALLS_ONLY
struct figures kernel_figures(void)
{
    lischemur_marking m = lischemur_mark(record, 1);
    record = m.record;
    return (struct figures){
        lischemur_in_use(record), lischemur_committed(record), lischemur_peak(record), lischemur_high_water(record), m.changed ? m.mark : 1,
    };
}

/* how many words the sum goes over */
static uint32_t summed;

int kernel_damage(uint32_t place, uint32_t index, uint32_t number)
{
    switch (place) {
    case 0: heap[index % WORDS] = number; return 1;
    case 1: record.prev[index % 6] = (uint16_t)number; return 1;
    case 2: record.next[index % 6] = (uint16_t)number; return 1;
    case 3: record.words = number; return 1;
    case 4: record.in_use = number; return 1;
    case 5: record.committed = number; return 1;
    case 6: record.peak = number; return 1;
    case 7: record.high = number; return 1;
    case 8: record.cached[index % 4] = (uint16_t)number; return 1;
    case 9: record.fresh = number; return 1;
    case 10: lent = number; return number <= WORDS;
    case 11: kernel_reset(); summed = number; return number <= WORDS;
    default: return 0;
    }
}

/* the sum with one number more (FNV-1a, a word at a time) */
static uint32_t with(uint32_t sum, uint32_t number)
{
    return (sum ^ number) * UINT32_C(16777619);
}

uint32_t kernel_sum(void)
{
    uint32_t sum = UINT32_C(2166136261);
    for (int list = 0; list < 6; list++)
        sum = with(with(sum, record.prev[list]), record.next[list]);
    sum = with(with(with(sum, record.words), record.in_use), record.committed);
    sum = with(with(sum, record.peak), record.high);
    for (int place = 0; place < 4; place++)
        sum = with(sum, record.cached[place]);
    sum = with(with(sum, record.fresh), lent);
    for (uint32_t w = 0; w < summed; w++)
        sum = with(sum, heap[w]);
    return sum;
}

_Static_assert(MAP_LINE == LISCHEMUR_MAP_LINE, "the bytes of a map's line");

struct answer kernel_map(char *room, uint32_t bytes)
{
    CALLED(lischemur_write_map(record, heap, lent, room, bytes))
    return (struct answer){reply.number, reply.value, reply.compared};
}
#endif

uint32_t *kernel_word(uint32_t offset)
{
    return lischemur_pointer(heap, offset);
}

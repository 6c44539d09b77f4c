/* Counts the instructions of each call, with whichever heap is linked in.
 *
 * The file `calls` has a call a line, in digits: two of kind (00 make, 01 hand out, 02 take back, 03 audit), four of a slot, eight of a
 * number (words, bytes). A slot holds what was handed out until it is taken back, so that the same calls suit any heap. The
 * file `counts` gets a line a call: two digits of answer, eight of instructions.
 *
 * The timer ticks TICKS times in ten instructions. What the measuring itself takes is measured first and subtracted; then a
 * run of a thousand `nop`s must count as a thousand. */
#include "board.h"
#include "kernel.h"

static char calls[1u << 18];
static char counts[1u << 18];
static uint32_t slots[1u << 12];
static int used[1u << 12];

static uint32_t instructions(uint32_t ticks)
{
    return (uint32_t)(((uint64_t)ticks * 10 + TICKS / 2) / TICKS);
}

#define COUNTED(ticks, call)                                                                                             \
    do {                                                                                                                 \
        uint32_t before = TIMER;                                                                                         \
        __asm__ volatile("" ::: "memory");                                                                              \
        call;                                                                                                            \
        __asm__ volatile("" ::: "memory");                                                                              \
        ticks = before - TIMER;                                                                                          \
    } while (0)

int main(void)
{
    uint32_t bytes = read_file("calls", calls, sizeof calls);
    uint32_t nothing, thousand;
    start_timer();
    COUNTED(nothing, );
    COUNTED(thousand, __asm__ volatile(".rept 1000\nnop\n.endr"));
    if (instructions(thousand - nothing) != 1000) {
        say_number(instructions(thousand - nothing), " instructions counted for a thousand\n");
        return 1;
    }
    char *to = counts;
    for (uint32_t at = 0; at + 15 <= bytes; at += 15) {
        uint32_t kind, slot, number, ticks;
        struct answer a = {7, 0, 0};
        if (!get_hex(calls + at, 2, &kind) || !get_hex(calls + at + 2, 4, &slot) || !get_hex(calls + at + 6, 8, &number))
            return 2;
        if (slot >= sizeof used / sizeof *used || to + 11 > counts + sizeof counts)
            return 2;
        if (kind == 0) {
            COUNTED(ticks, a = kernel_make(number));
        } else if (kind == 1) {
            COUNTED(ticks, a = kernel_hand_out(number));
            used[slot] = a.number == 0;
            slots[slot] = a.value;
        } else if (kind == 3) {
            COUNTED(ticks, a = kernel_audit());
        } else if (used[slot]) {
            COUNTED(ticks, a = kernel_take_back(slots[slot]));
            used[slot] = 0;
        } else {
            ticks = nothing;
        }
        to = put_hex(to, a.number, 2);
        to = put_hex(to, instructions(ticks - nothing), 8);
        *to++ = '\n';
    }
    write_file("counts", counts, (uint32_t)(to - counts));
    return 0;
}

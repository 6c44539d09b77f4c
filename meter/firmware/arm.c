/* A Cortex-M board: reset, the vector table, how to ask the emulator, the timer, and the painted stack. No operating system. */
#include "board.h"

extern uint32_t data_start[], data_end[], data_load[], bss_start[], bss_end[], stack_top[];
int main(void);

/* set memory up and run */
__attribute__((noreturn, used)) void reset(void)
{
    for (uint32_t *to = data_start, *from = data_load; to < data_end;)
        *to++ = *from++;
    for (uint32_t *to = bss_start; to < bss_end;)
        *to++ = 0;
#ifdef __ARM_FP
    *(volatile uint32_t *)0xE000ED88 |= 0xFu << 20; /* the floating-point unit is off at reset */
#endif
    leave(main());
}

/* any fault ends the run */
__attribute__((noreturn, used)) static void fault(void)
{
    say("the processor reports a fault\n");
    leave(3);
}

__attribute__((section(".vectors"), used)) static void *const vectors[16] = {
    stack_top, reset, fault, fault, fault, fault, fault, 0, 0, 0, 0, fault, fault, 0, fault, fault,
};

int ask_emulator(int request, const void *arguments)
{
    register int r0 __asm__("r0") = request;
    register const void *r1 __asm__("r1") = arguments;
    __asm__ volatile("bkpt 0xab" : "+r"(r0) : "r"(r1) : "memory");
    return r0;
}

/* timer 0 of the board runs at 25 MHz: 40 ns a tick; -icount shift=8 makes an instruction last 256 ns */
void start_timer(void)
{
    *(volatile uint32_t *)0x40000008 = 0xFFFFFFFF; /* reload */
    *(volatile uint32_t *)0x40000004 = 0xFFFFFFFF; /* value */
    *(volatile uint32_t *)0x40000000 = 1;          /* count, no interrupt */
}

#ifdef MEASURE_STACK
/* both touch registers alone, so that they leave the stack as they find it */
__attribute__((naked)) void paint(void)
{
    __asm__ volatile("ldr r0, =0xA5A5A5A5\n"
                     "mov r1, sp\n"
                     "sub r2, r1, %0\n"
                     "1: cmp r2, r1\n"
                     "bhs 2f\n"
                     "str r0, [r2], #4\n"
                     "b 1b\n"
                     "2: bx lr\n" ::"i"(PAINTED));
}

__attribute__((naked)) uint32_t depth(void)
{
    __asm__ volatile("ldr r0, =0xA5A5A5A5\n"
                     "mov r1, sp\n"
                     "sub r2, r1, %0\n"
                     "1: cmp r2, r1\n"
                     "bhs 2f\n"
                     "ldr r3, [r2]\n"
                     "cmp r3, r0\n"
                     "bne 2f\n"
                     "add r2, r2, #4\n"
                     "b 1b\n"
                     "2: sub r0, r1, r2\n"
                     "bx lr\n" ::"i"(PAINTED));
}
#endif

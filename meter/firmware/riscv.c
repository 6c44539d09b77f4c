/* A 32-bit RISC-V board: reset, and how to ask the emulator. No operating system. */
#include "board.h"

extern uint32_t data_start[], data_end[], data_load[], bss_start[], bss_end[], stack_top[];
int main(void);

/* any fault ends the run */
__attribute__((noreturn, used, aligned(4))) static void fault(void)
{
    say("the processor reports a fault\n");
    leave(3);
}

/* set memory up and run */
__attribute__((noreturn, used)) static void set_up(void)
{
    __asm__ volatile(".option push\n"
                     ".option arch, +zicsr\n"
                     "csrw mtvec, %0\n"
                     ".option pop" ::"r"(fault));
    for (uint32_t *to = data_start, *from = data_load; to < data_end;)
        *to++ = *from++;
    for (uint32_t *to = bss_start; to < bss_end;)
        *to++ = 0;
    leave(main());
}

/* the first instruction: a stack, and on */
__attribute__((naked, noreturn, used, section(".vectors"))) void reset(void)
{
    __asm__ volatile("la sp, stack_top\n"
                     "j %0" ::"i"(set_up));
}

int ask_emulator(int request, const void *arguments)
{
    register int a0 __asm__("a0") = request;
    register const void *a1 __asm__("a1") = arguments;
    /* these three instructions, none of them compressed, are the sign to the emulator */
    __asm__ volatile(".balign 16\n"
                     ".option push\n"
                     ".option norvc\n"
                     "slli zero, zero, 0x1f\n"
                     "ebreak\n"
                     "srai zero, zero, 7\n"
                     ".option pop"
                     : "+r"(a0)
                     : "r"(a1)
                     : "memory");
    return a0;
}

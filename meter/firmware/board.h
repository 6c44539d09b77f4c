/* The board under the meter: files and output by way of the emulator (semihosting), a counter, the stack's depth. */
#ifndef BOARD_H
#define BOARD_H

#include <stdint.h>

/* one request to the emulator, as semihosting numbers them */
int ask_emulator(int request, const void *arguments);

/* write a text to the emulator's output */
void say(const char *text);
/* write a number in decimal, then a text */
void say_number(uint32_t number, const char *then);
/* end the run: status 0 if all is well */
void leave(int status) __attribute__((noreturn));

/* the whole of a file of the emulator's folder, at most `room` bytes; returns how many were read */
uint32_t read_file(const char *name, char *into, uint32_t room);
/* write a file of the emulator's folder */
void write_file(const char *name, const char *from, uint32_t bytes);

/* write a number's low digits in upper-case hexadecimal; returns the place behind them */
char *put_hex(char *to, uint32_t number, int digits);
/* read so many digits 0-9 A-F; returns 0 if one is none */
int get_hex(const char *from, int digits, uint32_t *number);

/* the timer: it counts down, TICKS ticks of it to ten instructions under -icount shift=8 */
#define TICKS 64u
void start_timer(void);
#define TIMER (*(volatile uint32_t *)0x40000004)

/* fill PAINTED bytes below the caller's stack with a pattern; then, how deep it was overwritten since */
#define PAINTED 4096
void paint(void);
uint32_t depth(void);

#endif

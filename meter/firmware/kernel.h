/* What the meter's kernel asks of a heap. kernel_ours.c answers with the proved one, kernel_malloc.c with newlib's. */
#ifndef KERNEL_H
#define KERNEL_H

#include <stddef.h>
#include <stdint.h>

/* the words of the meter's memory; a part with little memory gets fewer */
#ifndef WORDS
#define WORDS 16383u
#endif

struct answer {
    uint32_t number;   /* 0 to 6, or 8, as in the rules */
    uint32_t value;    /* the payload's offset for a handout, the number of lines for a map */
    uint32_t compared; /* how many free chunks were compared */
};

/* as at power-on: memory zero, no heap made */
void kernel_reset(void);

struct answer kernel_make(uint32_t words);
struct answer kernel_hand_out(uint32_t size);
struct answer kernel_take_back(uint32_t payload);

/* the audit alone: answer 0 for sound, 5 for damaged, 7 where a heap has none */
struct answer kernel_audit(void);

/* the counters: bytes in use, bytes committed, the most that were committed, high water, and the mark with one stacklet, 1 if there is none */
struct figures {
    uint32_t in_use, committed, peak, high;
    int64_t mark;
};
struct figures kernel_figures(void);

/* the heap's map, written into lent bytes: the value is the number of lines, each of MAP_LINE bytes */
#define MAP_LINE 19u
struct answer kernel_map(char *room, uint32_t bytes);

/* write a number over a field of the record, a word, or the count of words that is lent, as PLACES of meter/traces.py names them; 0 if there is
 * no such place. The last of them begins anew: as at power-on, and the sum goes over that many words. */
int kernel_damage(uint32_t place, uint32_t index, uint32_t number);
/* a sum over each field of the record, the count of words lent, and the words */
uint32_t kernel_sum(void);

/* the word at an offset that was handed out */
uint32_t *kernel_word(uint32_t offset);

/* the most stack bytes that a call took, below the kernel's own */
extern uint32_t kernel_depth;

#endif

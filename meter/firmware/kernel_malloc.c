/* newlib's malloc behind the same calls, to count its instructions beside ours. Its memory is as large as the meter's heap.
 *
 * It has no numbers for what goes wrong: 0 is a pointer that was handed out, 3 a null. A wrong free is not seen. An offset is
 * counted from address 0 here: it is the pointer. */
#include "kernel.h"
#include <stdlib.h>

static uint32_t memory[WORDS + 1] __attribute__((aligned(8)));
static char *next = (char *)memory;

uint32_t kernel_depth;

/* what malloc gets its memory from */
void *_sbrk(ptrdiff_t bytes)
{
    char *end = (char *)(memory + WORDS);
    if (bytes > end - next)
        return (void *)-1;
    char *at = next;
    next += bytes;
    return at;
}

void kernel_reset(void)
{
}

struct answer kernel_make(uint32_t words)
{
    (void)words;
    return (struct answer){0, 0, 0};
}

struct answer kernel_hand_out(uint32_t size)
{
    void *p = malloc(size);
    return p ? (struct answer){0, (uint32_t)p, 0} : (struct answer){3, 0, 0};
}

struct answer kernel_take_back(uint32_t payload)
{
    free((void *)payload);
    return (struct answer){0, 0, 0};
}

struct answer kernel_audit(void)
{
    return (struct answer){7, 0, 0};
}

uint32_t *kernel_word(uint32_t offset)
{
    return (uint32_t *)offset;
}

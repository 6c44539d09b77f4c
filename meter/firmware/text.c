/* Numbers as text, for any board. */
#include "board.h"

void say_number(uint32_t number, const char *then)
{
    char text[11];
    char *at = text + 10;
    *at = 0;
    do {
        *--at = (char)('0' + number % 10);
        number /= 10;
    } while (number);
    say(at);
    say(then);
}

char *put_hex(char *to, uint32_t number, int digits)
{
    for (int i = digits - 1; i >= 0; i--)
        *to++ = "0123456789ABCDEF"[(number >> (4 * i)) & 15];
    return to;
}

int get_hex(const char *from, int digits, uint32_t *number)
{
    uint32_t n = 0;
    for (int i = 0; i < digits; i++) {
        char c = from[i];
        if (c >= '0' && c <= '9')
            n = 16 * n + (uint32_t)(c - '0');
        else if (c >= 'A' && c <= 'F')
            n = 16 * n + (uint32_t)(c - 'A' + 10);
        else
            return 0;
    }
    *number = n;
    return 1;
}

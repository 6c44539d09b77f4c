/* The trace program of the rules over the emulator's files; see trace.h. A part with little memory gets less room by FRAMES and ANSWERS. */
#include "trace.h"
#include "board.h"
#include "kernel.h"

#ifndef FRAMES
#define FRAMES (1u << 18)
#define ANSWERS (1u << 18)
#endif

static char frames[FRAMES];
static char answers[ANSWERS];

/* whether the line is a frame: ten digits, and one of three kinds */
static int frame(const char *line, uint32_t length, uint32_t *kind, uint32_t *number)
{
    return length == 10 && get_hex(line, 2, kind) && get_hex(line + 2, 8, number) && *kind <= 2;
}

static struct answer answer_to(uint32_t kind, uint32_t number)
{
    switch (kind) {
    case 0:
        return kernel_make(number);
    case 1:
        return kernel_hand_out(number);
    default:
        return kernel_take_back(number);
    }
}

static char *put_answer(char *to, struct answer a)
{
    to = put_hex(to, a.number, 2);
    to = put_hex(to, a.value, 8);
    to = put_hex(to, a.compared, 8);
    *to++ = '\n';
    return to;
}

/* a line on the state: what the audit says, and a sum over the record and every word */
static char *put_state(char *to)
{
    to = put_hex(to, kernel_audit().number, 2);
    to = put_hex(to, kernel_sum(), 8);
    *to++ = '\n';
    return to;
}

/* fill what was handed out */
static void fill(uint32_t offset, uint32_t bytes)
{
    static const uint32_t looks[] = {0, 1, 2, 3, 16, 17, 18, 19, 24, 27, 131, 65532, 65533, 0x00060006, 0x00050005, 0xFFFFFFFF};
    static uint32_t turn;
    for (uint32_t i = 0; i < bytes / 4; i++)
        kernel_word(offset)[i] = looks[turn++ * 7 % 16];
}

/* a line of damage: ! and two digits of place, four of index, eight of number */
static void damage(const char *line, uint32_t length)
{
    uint32_t place, index, number;
    if (length != 15 || !get_hex(line + 1, 2, &place) || !get_hex(line + 3, 4, &index) || !get_hex(line + 7, 8, &number)
        || !kernel_damage(place, index, number)) {
        say("a line of damage that is not understood\n");
        leave(2);
    }
}

void trace(const char *from, const char *into, enum how how)
{
    kernel_reset();
    uint32_t bytes = read_file(from, frames, sizeof frames);
    uint32_t lines = 0;
    char *to = answers;
    for (uint32_t at = 0, end; at < bytes; at = end + 1) {
        uint32_t kind, number;
        for (end = at; end < bytes && frames[end] != '\n';)
            end++;
        if (to + 30 > answers + sizeof answers) {
            say("too many lines for the image\n");
            leave(2);
        }
        if (how == STATES && frames[at] == '!') {
            damage(frames + at, end - at);
            continue;
        }
        struct answer a = {7, 0, 0};
        /* a last line without line feed is no frame */
        if (end < bytes && frame(frames + at, end - at, &kind, &number)) {
            a = answer_to(kind, number);
            if (how == FILLED && kind == 1 && a.number == 0)
                fill(a.value, number);
        }
        to = put_answer(to, a);
        if (how == STATES)
            to = put_state(to);
        lines++;
    }
    write_file(into, answers, (uint32_t)(to - answers));
    say(from);
    say(": ");
    say_number(lines, " lines answered\n");
}

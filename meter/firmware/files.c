/* The emulator's files, output and end, by semihosting: the same requests on every board. */
#include "board.h"

static uint32_t length_of(const char *text)
{
    uint32_t n = 0;
    while (text[n])
        n++;
    return n;
}

/* modes as in semihosting: 1 read, 5 write */
static uint32_t open_file(const char *name, uint32_t mode)
{
    uint32_t a[3] = {(uint32_t)name, mode, length_of(name)};
    int handle = ask_emulator(0x01, a);
    if (handle < 0) {
        say("no file ");
        say(name);
        say("\n");
        leave(2);
    }
    return (uint32_t)handle;
}

static void close_file(uint32_t handle)
{
    ask_emulator(0x02, &handle);
}

uint32_t read_file(const char *name, char *into, uint32_t room)
{
    uint32_t handle = open_file(name, 1);
    uint32_t got = 0;
    while (got < room) {
        uint32_t a[3] = {handle, (uint32_t)(into + got), room - got};
        uint32_t left = (uint32_t)ask_emulator(0x06, a);
        if (left >= room - got)
            break;
        got = room - left;
    }
    close_file(handle);
    if (got == room) {
        say("a file is too long for the image\n");
        leave(2);
    }
    return got;
}

void write_file(const char *name, const char *from, uint32_t bytes)
{
    uint32_t handle = open_file(name, 5);
    uint32_t a[3] = {handle, (uint32_t)from, bytes};
    if (ask_emulator(0x05, a) != 0)
        leave(2);
    close_file(handle);
}

void say(const char *text)
{
    ask_emulator(0x04, text);
}

void leave(int status)
{
    uint32_t a[2] = {0x20026, (uint32_t)status};
    ask_emulator(0x20, a);
    for (;;) {
    }
}

/* This computer in the board's place: the same image, header and module on x86-64, to be compared with the board line by line. */
#include "board.h"
#include <stdio.h>
#include <stdlib.h>

void say(const char *text)
{
    fputs(text, stdout);
}

void leave(int status)
{
    exit(status);
}

uint32_t read_file(const char *name, char *into, uint32_t room)
{
    FILE *file = fopen(name, "rb");
    if (!file)
        exit(2);
    uint32_t got = (uint32_t)fread(into, 1, room, file);
    fclose(file);
    if (got == room)
        exit(2);
    return got;
}

void write_file(const char *name, const char *from, uint32_t bytes)
{
    FILE *file = fopen(name, "wb");
    if (!file || fwrite(from, 1, bytes, file) != bytes || fclose(file))
        exit(2);
}

/* The rules' whole run, and damage: what every part is run on. The files are those of meter.c. */
#include "trace.h"

int main(void)
{
    trace("whole.frames", "whole.answers", PLAIN);
    trace("damaged.frames", "damaged.answers", STATES);
    return 0;
}

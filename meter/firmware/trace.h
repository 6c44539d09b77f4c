/* The trace program of the rules over the emulator's files. */
#ifndef TRACE_H
#define TRACE_H

/* answer each line of a file into another; then the same with what the word says */
enum how {
    PLAIN,
    FILLED, /* each payload that is handed out is filled with numbers that look like headers, as a task's own data may be */
    STATES, /* lines that begin with ! do damage, and each answer is followed by a line on the whole state */
};
void trace(const char *from, const char *into, enum how how);

#endif

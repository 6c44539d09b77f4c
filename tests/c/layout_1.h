/*
 * What lischemur.h declared up to W-203, layout 1: a record of 44 bytes, and names without a number. tests/c/run compiles old.c with it and sees
 * that it does not link with the library of today, which would write past the record.
 */
#ifndef LISCHEMUR_H
#define LISCHEMUR_H

#include <stdbool.h>
#include <stdint.h>

typedef struct lischemur_record {
    uint16_t prev[6];
    uint16_t next[6];
    uint32_t words;
    uint32_t in_use;
    uint32_t peak;
    uint32_t high;
    uint16_t cached;
    bool fresh;
} lischemur_record;

typedef struct lischemur_reply {
    uint32_t number;
    uint32_t value;
    uint32_t compared;
} lischemur_reply;

typedef struct lischemur_marking {
    int64_t mark;
    uint32_t changed;
    lischemur_record record;
} lischemur_marking;

lischemur_reply lischemur_make(lischemur_record *record, uint32_t *heap, uint64_t heap_words, uint32_t words);
lischemur_reply lischemur_hand_out(lischemur_record *record, uint32_t *heap, uint64_t heap_words, uint32_t size);
lischemur_reply lischemur_take_back(lischemur_record *record, uint32_t *heap, uint64_t heap_words, uint32_t payload);
uint32_t lischemur_audit(lischemur_record record, const uint32_t *heap, uint64_t heap_words);
lischemur_marking lischemur_mark(lischemur_record record, uint32_t stacklets);
uint32_t lischemur_in_use(lischemur_record record);
uint32_t lischemur_peak(lischemur_record record);
uint32_t lischemur_high_water(lischemur_record record);

#endif

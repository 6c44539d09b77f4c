/*
 * The trace frames of document 01, answered through the door, to be compared with judges/model/model.py line by line.
 *
 *     trace [--one] [--words N] [--fill SEED] [--marks STACKLETS] < lines
 *
 * A frame gets its answer line and then the whole state: the record and all words as they are, no link named, and the map,
 * whose lines end in commas. With --one the calls are those with one cache place; the other options
 * mean what docs/ORACLE.md says of the harness's. A line that begins with ! does
 * damage: `!NAME INDEX VALUE` writes a word or a field, as `!memory 3 16`, `!prev 0 7`, `!peak 0 80`, or lends another count
 * of words, `!lent 0 35`; it gets no line.
 */
#include "lischemur.h"

#include <inttypes.h>
#include <stdio.h>
#include <stdlib.h>
#include <string.h>

#define MOST 65531

static LISCHEMUR_MEMORY(MOST) memory;
static uint32_t *const heap = memory.heap;
static lischemur_record record;

/* How many words there are, and how many of them are lent. */
static uint32_t words = 16383, lent;

/* What stands just before and just behind the words. */
static const uint32_t outside = 0xA5A5A5A5;

/* The options: a seed for misleading numbers, and whether to read the mark. */
static uint32_t seed, stacklets;
static bool filling, marking, one;

/* What a loader or a task has yet to write: all words, or the payload handed out last. */
static uint32_t unwritten, unwritten_end;

/* Lets the loader or the last task write: numbers below 256. */
static void fill(void)
{
    for (; filling && unwritten < unwritten_end; unwritten++) {
        seed = seed * UINT32_C(1664525) + UINT32_C(1013904223);
        heap[unwritten] = seed >> 24;
    }
}

/* Writes an answer line. */
static void say(lischemur_reply r)
{
    printf("%02" PRIX32 "%08" PRIX32 "%08" PRIX32 "\n", r.number, r.value, r.compared);
}

/* Asks for the map in so many bytes, at most what suffices, and stops if a byte that is no line's has changed. */
static char room[LISCHEMUR_MAP_ROOM(MOST) + 1];

static lischemur_reply map_in(uint32_t bytes)
{
    size_t whole = LISCHEMUR_MAP_ROOM(words) + 1;
    memset(room, ' ', whole);
    lischemur_reply r = (one ? lischemur_one_write_map : lischemur_write_map)(record, heap, lent, room, bytes);
    for (size_t k = LISCHEMUR_MAP_LINE * r.value; k < whole; k++)
        if (room[k] != ' ')
            exit(4);
    return r;
}

/* Writes the map, or the three numbers that refuse it. Room that just suffices is enough, and a byte less is not. */
static void show_map(void)
{
    lischemur_reply r = map_in(LISCHEMUR_MAP_ROOM(words));
    uint32_t bytes = LISCHEMUR_MAP_LINE * r.value;
    if (r.number != LISCHEMUR_DONE) {
        printf(" map=%" PRIu32 "/%" PRIu32 "/%" PRIu32, r.number, r.value, r.compared);
        return;
    }
    if (map_in(bytes - 1).number != LISCHEMUR_NO_ROOM || map_in(bytes).number != LISCHEMUR_DONE)
        exit(4);
    printf(" map=");
    for (uint32_t k = 0; k < bytes; k++)
        putchar(room[k] == '\n' ? ',' : room[k]);
}

/* Writes the whole state on one line, and stops if a word outside the memory has changed. */
static void show(void)
{
    if (memory.unused != outside || heap[words] != outside)
        exit(3);
    printf("words=%" PRIu32 " in_use=%" PRIu32 " committed=%" PRIu32 " peak=%" PRIu32 " high=%" PRIu32, record.words,
        lischemur_in_use(record), lischemur_committed(record), lischemur_peak(record), lischemur_high_water(record));
    printf(" fresh=%" PRIu32 " cached=%u,%u,%u,%u sound=%" PRIu32 " lent=%" PRIu32 " links=", record.fresh, record.cached[0], record.cached[1],
        record.cached[2], record.cached[3], (one ? lischemur_one_audit : lischemur_audit)(record, heap, lent), lent);
    for (int k = 0; k < 6; k++)
        printf("%u/%u,", record.prev[k], record.next[k]);
    printf(" memory=");
    for (uint32_t w = 0; w < words; w++)
        printf("%" PRIx32 ",", heap[w]);
    show_map();
    printf("\n");
}

/* After a handout: its task is to write the payload, and the mark is read. */
static void handed_out(uint32_t payload)
{
    unwritten = payload / 4;
    unwritten_end = unwritten - 1 + heap[unwritten - 1] / 4;
    if (marking) {
        lischemur_marking m = lischemur_mark(record, stacklets);
        record = m.record;
        if (m.changed)
            printf("mark=%" PRId64 "\n", m.mark);
        else
            printf("mark=unchanged\n");
    }
}

/* Serves a request: 0 make, 1 hand out, 2 take back. More words than there are cannot be lent, so making them is refused. */
static void serve(uint32_t kind, uint32_t number)
{
    lischemur_reply r;
    fill();
    if (kind == 0) {
        r = lischemur_make(&record, heap, number <= words ? number : words, number);
        lent = r.number == LISCHEMUR_DONE ? number : lent;
    } else if (kind == 1) {
        r = (one ? lischemur_one_hand_out : lischemur_hand_out)(&record, heap, lent, number);
    } else {
        r = (one ? lischemur_one_take_back : lischemur_take_back)(&record, heap, lent, number);
    }
    say(r);
    if (kind == 1 && r.number == LISCHEMUR_DONE)
        handed_out(r.value);
    show();
}

/* Does the damage of a line that begins with !. */
static void damage(const char *line)
{
    char name[16];
    unsigned index, value;
    if (sscanf(line, "!%15s %u %u", name, &index, &value) != 3 || index >= MOST)
        exit(2);
    if (strcmp(name, "memory") == 0) heap[index] = value;
    if (strcmp(name, "lent") == 0) lent = value;
    if (strcmp(name, "prev") == 0) record.prev[index % 6] = (uint16_t)value;
    if (strcmp(name, "next") == 0) record.next[index % 6] = (uint16_t)value;
    if (strcmp(name, "words") == 0) record.words = value;
    if (strcmp(name, "in_use") == 0) record.in_use = value;
    if (strcmp(name, "committed") == 0) record.committed = value;
    if (strcmp(name, "peak") == 0) record.peak = value;
    if (strcmp(name, "high") == 0) record.high = value;
    if (strcmp(name, "cached") == 0) record.cached[index % 4] = (uint16_t)value;
    if (strcmp(name, "fresh") == 0) record.fresh = value;
}

/* Answers a line; its line feed was there, or it was not. */
static void answer(const char *line, size_t length, bool fed)
{
    static const lischemur_reply no_frame = {LISCHEMUR_NO_FRAME, 0, 0};
    if (fed && line[0] == '!') {
        damage(line);
    } else if (fed && length == 10 && strspn(line, "0123456789ABCDEF") == 10 && line[0] == '0' && line[1] <= '2') {
        serve((uint32_t)(line[1] - '0'), (uint32_t)strtoul(line + 2, NULL, 16));
    } else {
        say(no_frame);
        show();
    }
}

/* Reads the options. */
static void options(int count, char **values)
{
    for (int i = 1; i < count; i++) {
        bool more = i + 1 < count;
        if (strcmp(values[i], "--words") == 0 && more) {
            words = (uint32_t)strtoul(values[++i], NULL, 10);
        } else if (strcmp(values[i], "--fill") == 0 && more) {
            seed = (uint32_t)strtoul(values[++i], NULL, 10), filling = true;
        } else if (strcmp(values[i], "--marks") == 0 && more) {
            stacklets = (uint32_t)strtoul(values[++i], NULL, 10), marking = true;
        } else if (strcmp(values[i], "--one") == 0) {
            one = true;
        } else if (strcmp(values[i], "--dump") != 0) {
            words = MOST;
        }
    }
    if (words >= MOST) {
        fprintf(stderr, "usage: trace [--one] [--words N] [--fill SEED] [--marks STACKLETS] < lines\n");
        exit(2);
    }
}

int main(int count, char **values)
{
    char line[64];
    size_t length = 0;
    int c;
    options(count, values);
    unwritten_end = words;
    fill();
    memory.unused = heap[words] = outside;
    while ((c = getchar()) != EOF) {
        if (c != '\n') {
            line[length < sizeof line - 1 ? length++ : length] = (char)c;
            continue;
        }
        line[length] = '\0';
        answer(line, length, true);
        length = 0;
    }
    if (length > 0)
        answer(line, length, false);
    return 0;
}

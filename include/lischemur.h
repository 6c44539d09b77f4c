/*
 * lischemur.h: the heap's door, for C99 and later and C++11 and later. Link libdoor.a, which has the heap and nothing else.
 *
 * A heap is a run of 32-bit words that you lend to each call, and a record beside it. Both are yours: the library keeps
 * nothing between calls. Offsets are bytes from the run's start, and a payload is named by its offset.
 *
 *     static LISCHEMUR_MEMORY(1023) memory;
 *     static lischemur_record record;
 *
 *     lischemur_make(&record, memory.heap, 1023, 1023);
 *     lischemur_reply r = lischemur_hand_out(&record, memory.heap, 1023, 100);
 *     if (r.number == LISCHEMUR_DONE) {
 *         void *payload = lischemur_pointer(memory.heap, r.value);
 *         ...
 *         lischemur_take_back(&record, memory.heap, 1023, r.value);
 *     }
 *
 * Every call accepts any record, words, room and number: what is damaged or makes no sense is refused by number, and a
 * refusal changes nothing. That is proved. What a caller owes, because no proof can see it:
 *   - `heap` is not null, not even for 0 words, is aligned for uint32_t, and is followed by `heap_words` words;
 *   - `room` is not null, not even for 0 bytes, and is followed by `room_bytes` bytes;
 *   - record, words and room do not overlap, and nothing else reads or writes them during a call (mask interrupts, or hold
 *     a lock).
 *
 * A Rattle slice is a pointer and a 64-bit count in C, on every processor. `./run lib DIR` builds the library for Linux on x86-64,
 * with --cpu aarch64 for 64-bit Arm, and with --cpu NAME for Cortex-M and 32-bit RISC-V; the assertions at the end of this file stop
 * a compiler that lays things out differently.
 *
 * What the library calls but does not contain, since every C program for the processor links it anyway (-lc -lgcc, say):
 *   64 bits    memset, on x86-64 and on 64-bit Arm
 *   Cortex-M   __aeabi_memcpy, __aeabi_memclr and __aeabi_memclr4; for the map __aeabi_uldivmod; on a Cortex-M0+ also
 *              __aeabi_lmul and __clzsi2
 *   RISC-V     memcpy and memset; for the map __udivdi3
 *
 * Header and library belong together. What crosses the door has a layout with a number, LISCHEMUR_LAYOUT, and the library's
 * functions carry it in their names. If the linker says that lischemur_make_needs_library_of_layout_4 is undefined (the number
 * is this header's), the library is of another layout: take header and library from the same build. If it says that
 * lischemur_make is undefined, a source was compiled with a header from before layout 2: compile it again with this one. For a
 * microcontroller the names end in its architecture too (_for_armv7em), so that the library of one does not go into an image
 * for another: link the one that `meter/build --cpu NAME` makes for the part.
 */
#ifndef LISCHEMUR_H
#define LISCHEMUR_H

#if defined(__cplusplus) ? __cplusplus < 201103L : !defined(__STDC_VERSION__) || __STDC_VERSION__ < 199901L
#error "lischemur.h needs C99 or C++11: compile with -std=c99, -std=c++11 or later"
#elif !defined(__cplusplus) && __STDC_VERSION__ < 201112L && !defined(__GNUC__)
#error "lischemur.h needs C11 from a compiler without GNU's __attribute__: C99 alone cannot align LISCHEMUR_MEMORY"
#else

#include <stdbool.h>
#include <stddef.h>
#include <stdint.h>

#if defined(__cplusplus)
#define LISCHEMUR_ALIGNED(bytes) alignas(bytes)
#define LISCHEMUR_ASSERT(holds, text) static_assert(holds, text)
extern "C" {
#elif __STDC_VERSION__ >= 201112L
#define LISCHEMUR_ALIGNED(bytes) _Alignas(bytes)
#define LISCHEMUR_ASSERT(holds, text) _Static_assert(holds, text)
#else
#define LISCHEMUR_ALIGNED(bytes) __attribute__((aligned(bytes)))
#define LISCHEMUR_ASSERTED(line) lischemur_asserted_in_line_##line
#define LISCHEMUR_ASSERT_IN(holds, line) typedef char LISCHEMUR_ASSERTED(line)[(holds) ? 1 : -1]
#define LISCHEMUR_ASSERT(holds, text) LISCHEMUR_ASSERT_IN(holds, __LINE__)
#endif

/* The version, and the number of the layout of what crosses the door, which is the version's second number too. */
#define LISCHEMUR_VERSION "0.4.2"
#define LISCHEMUR_LAYOUT 4

/* How the library's names end on a microcontroller: in the architecture that it is compiled for (meter/parts has the list). The compiler
   names it by the macros that Arm and RISC-V define for C. */
#if defined(__ARM_ARCH_PROFILE) && __ARM_ARCH_PROFILE == 'M' && __ARM_ARCH == 6
#define LISCHEMUR_PART _for_armv6m
#elif defined(__ARM_ARCH_PROFILE) && __ARM_ARCH_PROFILE == 'M' && __ARM_ARCH == 7 && defined(__ARM_FEATURE_DSP)
#define LISCHEMUR_PART _for_armv7em
#elif defined(__ARM_ARCH_PROFILE) && __ARM_ARCH_PROFILE == 'M' && __ARM_ARCH == 7
#define LISCHEMUR_PART _for_armv7m
#elif defined(__ARM_ARCH_PROFILE) && __ARM_ARCH_PROFILE == 'M' && __ARM_ARCH_ISA_THUMB == 2
#define LISCHEMUR_PART _for_armv8m_main
#elif defined(__arm__) || defined(__ICCARM__)
#define LISCHEMUR_PART _for_other_arm
#elif defined(__riscv) && __riscv_xlen == 32 && defined(__riscv_compressed) && defined(__riscv_div) && defined(__riscv_atomic)
#define LISCHEMUR_PART _for_rv32imac
#elif defined(__riscv) && __riscv_xlen == 32 && defined(__riscv_compressed) && defined(__riscv_div)
#define LISCHEMUR_PART _for_rv32imc
#elif defined(__riscv) && __riscv_xlen == 32
#define LISCHEMUR_PART _for_other_rv32
#else
#define LISCHEMUR_PART
#endif

/* The library's name of each function, by which programs of another layout, or for another architecture, do not link. */
#define LISCHEMUR_NAMED(name, layout, part) name##_needs_library_of_layout_##layout##part
#define LISCHEMUR_OF(name, layout, part) LISCHEMUR_NAMED(name, layout, part)
#define lischemur_make LISCHEMUR_OF(lischemur_make, LISCHEMUR_LAYOUT, LISCHEMUR_PART)
#define lischemur_hand_out LISCHEMUR_OF(lischemur_hand_out, LISCHEMUR_LAYOUT, LISCHEMUR_PART)
#define lischemur_take_back LISCHEMUR_OF(lischemur_take_back, LISCHEMUR_LAYOUT, LISCHEMUR_PART)
#define lischemur_audit LISCHEMUR_OF(lischemur_audit, LISCHEMUR_LAYOUT, LISCHEMUR_PART)
#define lischemur_write_map LISCHEMUR_OF(lischemur_write_map, LISCHEMUR_LAYOUT, LISCHEMUR_PART)
#define lischemur_mark LISCHEMUR_OF(lischemur_mark, LISCHEMUR_LAYOUT, LISCHEMUR_PART)
#define lischemur_in_use LISCHEMUR_OF(lischemur_in_use, LISCHEMUR_LAYOUT, LISCHEMUR_PART)
#define lischemur_committed LISCHEMUR_OF(lischemur_committed, LISCHEMUR_LAYOUT, LISCHEMUR_PART)
#define lischemur_peak LISCHEMUR_OF(lischemur_peak, LISCHEMUR_LAYOUT, LISCHEMUR_PART)
#define lischemur_high_water LISCHEMUR_OF(lischemur_high_water, LISCHEMUR_LAYOUT, LISCHEMUR_PART)
#define lischemur_one_hand_out LISCHEMUR_OF(lischemur_one_hand_out, LISCHEMUR_LAYOUT, LISCHEMUR_PART)
#define lischemur_one_take_back LISCHEMUR_OF(lischemur_one_take_back, LISCHEMUR_LAYOUT, LISCHEMUR_PART)
#define lischemur_one_audit LISCHEMUR_OF(lischemur_one_audit, LISCHEMUR_LAYOUT, LISCHEMUR_PART)
#define lischemur_one_write_map LISCHEMUR_OF(lischemur_one_write_map, LISCHEMUR_LAYOUT, LISCHEMUR_PART)

/* The limits: a heap has an odd number of words, and a size above the largest is refused. */
#define LISCHEMUR_LEAST_WORDS UINT32_C(5)
#define LISCHEMUR_MOST_WORDS UINT32_C(65529)
#define LISCHEMUR_MOST_SIZE UINT32_C(4294967284)

/*
 * How large a heap has to be. A payload takes a chunk of LISCHEMUR_CHUNK(size) bytes: 8 more if those would be left over, up
 * to 512 more if a cached chunk serves it. A search for less than 512 bytes looks only at chunks of at least the next power
 * of two, so the free chunk that serves a size has LISCHEMUR_SERVES(size) bytes or more, and a handout is refused though a
 * shorter one would hold the payload: a just-made heap of 127 words is one free chunk of 504 bytes and says 8, never, to 245 bytes,
 * which would take 256 of them, since 512 are looked for. A just-made heap of LISCHEMUR_WORDS(count, size) words, and none of
 * fewer, serves `count` handouts of `size` bytes each before any is taken back.
 *
 * For constants, as in LISCHEMUR_MEMORY(LISCHEMUR_WORDS(20, 48)): an argument is evaluated more than once. `size` is from 1
 * to 262,108, the most that the largest heap serves.
 */
#define LISCHEMUR_CHUNK(size) ((size) <= 12 ? UINT32_C(16) : ((size) + UINT32_C(11)) / 8 * 8)
#define LISCHEMUR_SERVES(size)                                                                         \
    (LISCHEMUR_CHUNK(size) >= 512 ? LISCHEMUR_CHUNK(size)                                              \
        : LISCHEMUR_CHUNK(size) >= 256 ? UINT32_C(512)                                                 \
        : LISCHEMUR_CHUNK(size) >= 128 ? UINT32_C(256)                                                 \
        : LISCHEMUR_CHUNK(size) >= 64 ? UINT32_C(128)                                                  \
        : LISCHEMUR_CHUNK(size) >= 32 ? UINT32_C(64) : UINT32_C(32))
#define LISCHEMUR_WORDS(count, size) ((((count) - 1) * LISCHEMUR_CHUNK(size) + LISCHEMUR_SERVES(size)) / 4 + 1)

/* The bytes of a map's line, and of room that suffices for the map of any heap of that many words, 5 or more. */
#define LISCHEMUR_MAP_LINE UINT32_C(19)
#define LISCHEMUR_MAP_ROOM(words) (((words) - 1) / 4 * LISCHEMUR_MAP_LINE)

/*
 * The type of a run of `words` words whose start is 4 mod 8. Payload offsets are 4 mod 8 too, so that every payload is
 * 8-aligned. The calls do not mind another start; the payloads are then only 4-aligned.
 */
#define LISCHEMUR_MEMORY(words)                 \
    struct {                                    \
        LISCHEMUR_ALIGNED(8) uint32_t unused;   \
        uint32_t heap[words];                   \
    }

/* What a reply says. */
enum lischemur_number {
    LISCHEMUR_DONE = 0,       /* the value is the payload's offset for a handout, the number of lines for a map, else 0 */
    LISCHEMUR_ZERO_SIZE = 1,  /* zero bytes were asked for */
    LISCHEMUR_TOO_LARGE = 2,  /* more than LISCHEMUR_MOST_SIZE bytes were asked for */
    LISCHEMUR_NO_FIT = 3,     /* no cached chunk serves and no free one reaches LISCHEMUR_SERVES(size), not even with the cache emptied; may be
                                 served later */
    LISCHEMUR_NOT_LIVE = 4,   /* no payload that is handed out starts at this offset: a second free, say */
    LISCHEMUR_DAMAGED = 5,    /* record and words are not sound together, or no heap was made */
    LISCHEMUR_BAD_LENGTH = 6, /* from making: not an accepted number of words (odd, 5 to 65,529) */
    LISCHEMUR_NO_FRAME = 7,   /* for the trace program only: no call here gives it */
    LISCHEMUR_NEVER_FITS = 8  /* no heap of this length can ever serve it: do not retry */
};

/* From the map's call, the same 6: the map is longer than the room. One number, so a switch has one case for both names. */
#define LISCHEMUR_NO_ROOM LISCHEMUR_BAD_LENGTH

/*
 * What the heap knows besides its words. All bytes zero is the empty record, as static memory is at reset. Read it freely;
 * only the calls may write it. A link is 0 to 5 for a list's sentinel, and w + 6 for the chunk whose header is word w.
 */
typedef struct lischemur_record {
    uint16_t prev[6];   /* of each list, the link of its last chunk */
    uint16_t next[6];   /* of each list, the link of its first chunk */
    uint16_t cached[4]; /* the links of the cached chunks, oldest first; 0 for an unused place, and those come last */
    uint32_t words;     /* how many words the heap has; 0 before one is made */
    uint32_t in_use;    /* what tasks hold: the sum of the live chunks' lengths, headers included */
    uint32_t committed; /* that and the cached chunks: the sum of the used chunks' lengths */
    uint32_t peak;      /* the largest that committed has been */
    uint32_t high;      /* high water: the largest end, in bytes, of a chunk that was handed out */
    uint32_t fresh;     /* 1 if high water has risen since the mark was last read, else 0; any other value is damaged */
} lischemur_record;

/* What making, handing out, taking back and writing the map reply. */
typedef struct lischemur_reply {
    uint32_t number;   /* an enum lischemur_number */
    uint32_t value;    /* the payload's offset for a handout that is done, the number of lines for a map that is, else 0 */
    uint32_t compared; /* how many free chunks were compared with the size, in both searches where there were two */
} lischemur_reply;

/* What the mark says. */
typedef struct lischemur_marking {
    int64_t mark;            /* high water less 108 bytes per stacklet; 0 if nothing changed */
    uint32_t changed;        /* 1 if high water has risen since the mark was last read, else 0 */
    lischemur_record record; /* the record with its flag off: store it in the old one's place */
} lischemur_marking;

/*
 * Makes a heap of the whole run, and starts its record anew, whatever that held. `words` repeats how many words the heap
 * is to have: unless it equals `heap_words`, is odd, and lies between LISCHEMUR_LEAST_WORDS and LISCHEMUR_MOST_WORDS, the
 * reply is 6 and the record stays as it was. No payload of an earlier heap on these words is live afterwards.
 */
lischemur_reply lischemur_make(lischemur_record *record, uint32_t *heap, uint64_t heap_words, uint32_t words);

/*
 * Hands out a payload of at least `size` bytes, or replies 1, 2, 5, 8 or 3, tested in that order. Every word of the payload
 * is 0, up to its chunk's end. 8 says that LISCHEMUR_SERVES(size) exceeds the heap's bytes less the guard's four, whatever is
 * cached. Before it replies 3 it empties the cache: every cached chunk is released and merged with its free neighbours, and
 * the lists are searched once more. If that does not help either, the cache and every word are as they were.
 */
lischemur_reply lischemur_hand_out(lischemur_record *record, uint32_t *heap, uint64_t heap_words, uint32_t size);

/* Takes back the payload that begins at this offset, or replies 5 or 4, tested in that order. */
lischemur_reply lischemur_take_back(lischemur_record *record, uint32_t *heap, uint64_t heap_words, uint32_t payload);

/* 1 if record and words are sound together, else 0. Handing out and taking back test this themselves. */
uint32_t lischemur_audit(lischemur_record record, const uint32_t *heap, uint64_t heap_words);

/*
 * Writes the heap's map at the start of the room: a line for each chunk, left to right, as many lines as the reply's value says.
 * A line has two digits of kind (10 free, 11 live, 12 cached), eight of the header's offset and eight of the chunk's length,
 * hexadecimal in upper case, and a line feed; no zero byte ends the map. Replies 5, or 6 if the room is too short, tested in
 * that order. The room past the lines keeps its bytes, and after a 5 or a 6 all of it does.
 */
lischemur_reply lischemur_write_map(
    lischemur_record record, const uint32_t *heap, uint64_t heap_words, char *room, uint64_t room_bytes);

/* The mark: high water less 108 bytes for each stacklet, if it has risen since it was last read. */
lischemur_marking lischemur_mark(lischemur_record record, uint32_t stacklets);

/*
 * In use: what tasks hold, which is the figure to show. Committed: that and the cached chunks, each of which is free for the next handout
 * that it fits. Peak follows committed. With high water these are the record's fields of these names, of any record.
 */
uint32_t lischemur_in_use(lischemur_record record);
uint32_t lischemur_committed(lischemur_record record);
uint32_t lischemur_peak(lischemur_record record);
uint32_t lischemur_high_water(lischemur_record record);

/*
 * One cache place
 *
 * A chunk that is taken back is cached, for the next handout that it fits: up to four of them, and a fifth first releases the oldest. These
 * are the calls of a heap that caches one chunk alone and in all else is the same. Making, the mark and the readers serve both. Choose for
 * each heap once: to a call here a record with two or more cached chunks is damaged, 5.
 */
lischemur_reply lischemur_one_hand_out(lischemur_record *record, uint32_t *heap, uint64_t heap_words, uint32_t size);
lischemur_reply lischemur_one_take_back(lischemur_record *record, uint32_t *heap, uint64_t heap_words, uint32_t payload);
uint32_t lischemur_one_audit(lischemur_record record, const uint32_t *heap, uint64_t heap_words);
lischemur_reply lischemur_one_write_map(
    lischemur_record record, const uint32_t *heap, uint64_t heap_words, char *room, uint64_t room_bytes);

/* The payload at an offset that a handout replied. */
static inline void *lischemur_pointer(uint32_t *heap, uint32_t payload)
{
    return (unsigned char *)heap + payload;
}

/* The offset of a payload, for taking it back. A pointer from elsewhere gives an offset that is not live. */
static inline uint32_t lischemur_offset(const uint32_t *heap, const void *payload)
{
    uintptr_t offset = (uintptr_t)payload - (uintptr_t)heap;
    return offset < UINT32_MAX ? (uint32_t)offset : UINT32_MAX;
}

/* The largest size that a free chunk of this length serves, as the map shows it; 0 if it serves none. So does a run of touching chunks that are
   free or cached, by its length in all: the cache is emptied before a 3. */
static inline uint32_t lischemur_served(uint32_t chunk)
{
    uint32_t power = 512;
    if (chunk >= 512)
        return chunk - 4;
    while (power > chunk)
        power /= 2;
    return power < 32 ? 0 : power - 12;
}

/* Whether payloads of a heap that starts here are 8-aligned. */
static inline bool lischemur_aligned(const uint32_t *heap)
{
    return (uintptr_t)heap % 8 == 4;
}

LISCHEMUR_ASSERT(offsetof(lischemur_record, prev) == 0, "the record's layout");
LISCHEMUR_ASSERT(offsetof(lischemur_record, next) == 12, "the record's layout");
LISCHEMUR_ASSERT(offsetof(lischemur_record, cached) == 24, "the record's layout");
LISCHEMUR_ASSERT(offsetof(lischemur_record, words) == 32, "the record's layout");
LISCHEMUR_ASSERT(offsetof(lischemur_record, in_use) == 36, "the record's layout");
LISCHEMUR_ASSERT(offsetof(lischemur_record, committed) == 40, "the record's layout");
LISCHEMUR_ASSERT(offsetof(lischemur_record, peak) == 44, "the record's layout");
LISCHEMUR_ASSERT(offsetof(lischemur_record, high) == 48, "the record's layout");
LISCHEMUR_ASSERT(offsetof(lischemur_record, fresh) == 52, "the record's layout");
LISCHEMUR_ASSERT(sizeof(lischemur_record) == 56, "the record's size");
LISCHEMUR_ASSERT(offsetof(lischemur_reply, number) == 0, "the reply's layout");
LISCHEMUR_ASSERT(offsetof(lischemur_reply, value) == 4, "the reply's layout");
LISCHEMUR_ASSERT(offsetof(lischemur_reply, compared) == 8, "the reply's layout");
LISCHEMUR_ASSERT(sizeof(lischemur_reply) == 12, "the reply's size");
LISCHEMUR_ASSERT(offsetof(lischemur_marking, mark) == 0, "the marking's layout");
LISCHEMUR_ASSERT(offsetof(lischemur_marking, changed) == 8, "the marking's layout");
LISCHEMUR_ASSERT(offsetof(lischemur_marking, record) == 12, "the marking's layout");
LISCHEMUR_ASSERT(sizeof(lischemur_marking) == 72, "the marking's size");

#ifdef __cplusplus
}
#endif

#endif /* C99 or C++11 */
#endif /* LISCHEMUR_H */

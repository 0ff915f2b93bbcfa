/*
 * The board for a C host: load, store, begin, step, format and recovery.
 *
 * Link with libdoor.a (x86-64, System V). The archive needs memcpy, memmove and memset from the host. C99 or later, or C++.
 *
 * What the host lends to every call:
 *
 *   memory  the nonvolatile memory: HOME, CHECKPOINT, backup A, backup B, mark
 *   cache   CACHE, one block for each slot
 *   table   the table, one 8-byte little-endian word for each slot
 *   record  the controller record, 90 bytes
 *
 * Their exact lengths follow from N blocks and B slots; see the macros below. No alignment is asked for. All state is in
 * these four: the calls keep nothing between two calls.
 *
 * What no call can check, and the host must see to:
 *
 *   - Each pointer is valid for its length. It is not null, also where the length is 0.
 *   - The buffers of one call do not overlap.
 *   - Nothing else writes to them during the call.
 *   - 6 KiB of stack are free at the call, and what the host's own memcpy, memmove and memset take. No heap is used.
 *
 * What a call changes:
 *
 *   DONE     what is said at the call.
 *   CUT      the first `words` words of the call's list, in the memory. In the record the phase is Off and the count 0;
 *            after a format the sizes are those given. No other byte changes.
 *   refused  (every other number) nothing, and `words` is 0.
 *
 * The numbers are checked in this order: 12, then 1 to 11 ascending. The first that applies is given. A 64-bit number is
 * compared whole: a block of 2^16 is not block 0.
 */
#ifndef ROSTIMELY_H
#define ROSTIMELY_H

#include <stddef.h>
#include <stdint.h>

#ifdef __cplusplus
extern "C" {
#endif

/* The numbers that a call returns. */
enum {
    ROSTIMELY_DONE = 0,           /* accepted */
    ROSTIMELY_GEOMETRY = 1,       /* sizes outside the bounds: those given to format or recovery, else the record's */
    ROSTIMELY_BUFFER = 2,         /* the length of memory, cache, table or begin's registers is not exact */
    ROSTIMELY_RECORD = 3,         /* Writing with a count above B + 8 */
    ROSTIMELY_OFF = 4,            /* the phase is Off */
    ROSTIMELY_TABLE = 5,          /* a word of the table is not well formed */
    ROSTIMELY_RANGE = 6,          /* block >= N, offset > 63, length 0 or offset + length > 64 */
    ROSTIMELY_FULL = 7,           /* the block has no entry and no slot is free */
    ROSTIMELY_BUSY = 8,           /* begin while Writing */
    ROSTIMELY_IDLE = 9,           /* step while Running */
    ROSTIMELY_NO_CHECKPOINT = 10, /* the mark is not 1, 2 or 3 */
    ROSTIMELY_BACKUP = 11,        /* the finished backup's table has a word that is neither 0 nor clean with block < N, or a block twice */
    ROSTIMELY_RECORD_BYTES = 12,  /* the bytes encode no record; for recovery: they are not 90. Checked first of all */
    ROSTIMELY_CUT = 20            /* the supply was lost; not a refusal */
};

/* Sizes in bytes, and the bounds of the board's sizes. */
enum {
    ROSTIMELY_WORD = 8,
    ROSTIMELY_BLOCK = 64,
    ROSTIMELY_REGISTERS = 64,
    ROSTIMELY_RECORD_LENGTH = 90,
    ROSTIMELY_MIN_BLOCKS = 1,
    ROSTIMELY_MAX_BLOCKS = 4096,
    ROSTIMELY_MIN_SLOTS = 1,
    ROSTIMELY_MAX_SLOTS = 512
};

/* The codes of a table word, 256 * block + code. A free slot is the word 0. */
enum {
    ROSTIMELY_CLEAN = 1,
    ROSTIMELY_DIRTY = 2,      /* while Running only */
    ROSTIMELY_HIDDEN = 3,     /* while Running only */
    ROSTIMELY_PRE_HIDDEN = 4,
    ROSTIMELY_PRE_DIRTY = 5
};

/* The mark, the last word of the memory. Every other value: no backup is finished. */
enum {
    ROSTIMELY_MARK_A = 1,           /* backup A is finished */
    ROSTIMELY_MARK_B = 2,           /* backup B is finished */
    ROSTIMELY_MARK_NO_REGISTERS = 3 /* A is finished and has no registers: a format ends so */
};

/* The phase in the record. */
enum {
    ROSTIMELY_PHASE_RUNNING = 0,
    ROSTIMELY_PHASE_WRITING = 1,
    ROSTIMELY_PHASE_OFF = 2
};

/* The sizes of what is lent, in bytes, for N blocks and B slots. */
#define ROSTIMELY_MEMORY_WORDS(N, B) (8 * (size_t)(N) + 10 * (size_t)(B) + 17)
#define ROSTIMELY_MEMORY_LENGTH(N, B) (ROSTIMELY_WORD * ROSTIMELY_MEMORY_WORDS(N, B))
#define ROSTIMELY_CACHE_LENGTH(N, B) (ROSTIMELY_BLOCK * (size_t)(B))
#define ROSTIMELY_TABLE_LENGTH(N, B) (ROSTIMELY_WORD * (size_t)(B))

/* The words of a format, and of all steps of a checkpoint. */
#define ROSTIMELY_FORMAT_WORDS(N, B) (8 * (size_t)(N) + (size_t)(B) + 10)
#define ROSTIMELY_CHECKPOINT_WORDS(N, B) ((size_t)(B) + 9)

/* The allowance p or the n of a step where nothing limits it. */
#define ROSTIMELY_UNLIMITED (~(uint64_t)0)

/*
 * The record: house fields, each a tag, a two-byte length and a value. Numbers are big-endian. Each record has exactly
 * one encoding.
 *
 *   byte   0  01 0002  N
 *          5  02 0002  B
 *         10  03 0040  the 64 registers
 *         77  04 0001  the finished backup, 1 (A) or 2 (B)
 *         81  05 0001  the phase: 0 Running, 1 Writing, 2 Off
 *         85  06 0002  the count of words already stored, 0 unless Writing
 */
enum {
    ROSTIMELY_AT_BLOCKS = 3,
    ROSTIMELY_AT_SLOTS = 8,
    ROSTIMELY_AT_REGISTERS = 13,
    ROSTIMELY_AT_BACKUP = 80,
    ROSTIMELY_AT_PHASE = 84,
    ROSTIMELY_AT_COUNT = 88
};

#define ROSTIMELY_ZEROS_16 0, 0, 0, 0, 0, 0, 0, 0, 0, 0, 0, 0, 0, 0, 0, 0

/*
 * The record of a new host: sizes 0, registers 0, backup 1, Off.
 *   uint8_t record[ROSTIMELY_RECORD_LENGTH] = ROSTIMELY_NEW_RECORD;
 */
#define ROSTIMELY_NEW_RECORD                                                                                           \
    {                                                                                                                  \
        1, 0, 2, 0, 0,                                                                                                 \
        2, 0, 2, 0, 0,                                                                                                 \
        3, 0, 64, ROSTIMELY_ZEROS_16, ROSTIMELY_ZEROS_16, ROSTIMELY_ZEROS_16, ROSTIMELY_ZEROS_16,                       \
        4, 0, 1, 1,                                                                                                    \
        5, 0, 1, ROSTIMELY_PHASE_OFF,                                                                                  \
        6, 0, 2, 0, 0                                                                                                  \
    }

/* The number of a call, and how many words it stored in the memory. */
typedef struct {
    uint64_t number;
    uint64_t words;
} rostimely_answer;

/* The same of a recovery. registers: 1 they are in the record, 0 there are none (always 0 when refused). */
typedef struct {
    uint64_t number;
    uint64_t words;
    uint64_t registers;
} rostimely_recovery;

/*
 * Copies into_length bytes of a block, from an offset on, as the block shows.
 *
 * Numbers: 0, 1 to 6, 12. It stores no words.
 * DONE     changes `into` only.
 * refused  changes nothing, `into` included.
 */
rostimely_answer rostimely_load(const uint8_t *memory, size_t memory_length, const uint8_t *cache, size_t cache_length,
                                const uint8_t *table, size_t table_length, const uint8_t *record, size_t record_length,
                                uint64_t block, uint64_t offset, uint8_t *into, size_t into_length);

/*
 * Lays 1 to 64 bytes into a block, from an offset on. The supply lasts for p words.
 *
 * Numbers: 0, 1 to 7, 12, 20. DONE stores no words while Writing, and 8 while Running; but where the entry is dirty or
 * hidden (the block was stored while Running since the last begin, format or recovery) only those that the bytes touch.
 * DONE     while Running changes a block of the memory, while Writing one of the cache; and a word of the table.
 * CUT      changes the stored words and the record.
 * refused  changes nothing.
 */
rostimely_answer rostimely_store(uint8_t *memory, size_t memory_length, uint8_t *cache, size_t cache_length, uint8_t *table,
                                 size_t table_length, uint8_t *record, size_t record_length, uint64_t block, uint64_t offset,
                                 const uint8_t *bytes, size_t bytes_length, uint64_t p);

/*
 * Begins a checkpoint of all blocks and the 64 registers. The supply lasts for p words.
 *
 * Numbers: 0, 1 to 5, 8, 12, 20. DONE stores 8 words for each pre-hidden and each pre-dirty entry.
 * DONE     changes the blocks of those entries in the memory, the table, and in the record the registers and the phase:
 *          Writing with count 0.
 * CUT      changes the stored words and the record.
 * refused  changes nothing.
 */
rostimely_answer rostimely_begin(uint8_t *memory, size_t memory_length, const uint8_t *cache, size_t cache_length,
                                 uint8_t *table, size_t table_length, uint8_t *record, size_t record_length,
                                 const uint8_t *registers, size_t registers_length, uint64_t p);

/*
 * Stores the next words of the checkpoint, at most n: 8 register words, B table words, the mark. With the mark stored
 * the checkpoint is finished. The supply lasts for p words.
 *
 * Numbers: 0, 1 to 5, 9, 12, 20. DONE stores n words, or all that are left.
 * DONE     changes those words of the memory, and in the record the count; with the mark stored the phase is Running,
 *          the count 0, and the finished backup the other one.
 * CUT      changes the stored words and the record.
 * refused  changes nothing.
 */
rostimely_answer rostimely_step(uint8_t *memory, size_t memory_length, const uint8_t *cache, size_t cache_length,
                                const uint8_t *table, size_t table_length, uint8_t *record, size_t record_length, uint64_t n,
                                uint64_t p);

/*
 * Makes an empty board of the sizes given, every byte of its blocks `fill`. The bytes of the record must encode one, a
 * new host's for example; what it says is not looked at. The supply lasts for p words.
 *
 * Numbers: 0, 1, 2, 12, 20. DONE stores 8N + B + 10 words.
 * DONE     changes HOME, backup A and the mark in the memory, the table (all 0) and the record: the sizes given,
 *          registers 0, backup 1, Running.
 * CUT      changes the stored words and the record, its sizes included. At p = 0 the memory is the old one; later its
 *          mark is 0.
 * refused  changes nothing.
 */
rostimely_answer rostimely_format(uint8_t *memory, size_t memory_length, const uint8_t *cache, size_t cache_length,
                                  uint8_t *table, size_t table_length, uint8_t *record, size_t record_length, uint64_t blocks,
                                  uint64_t slots, uint8_t fill, uint64_t p);

/*
 * Goes back to the last finished checkpoint, or to the format if none was finished since. The 90 bytes of the record may
 * be anything, and so may the table and the cache: a loss of supply leaves them so.
 *
 * Numbers: 0, 1, 2, 10, 11, 12. It stores no words.
 * DONE     changes the table and the record: the sizes given, the registers of the checkpoint (0 if there are none), its
 *          backup, Running.
 * refused  changes nothing.
 */
rostimely_recovery rostimely_recover(const uint8_t *memory, size_t memory_length, const uint8_t *cache, size_t cache_length,
                                     uint8_t *table, size_t table_length, uint8_t *record, size_t record_length,
                                     uint64_t blocks, uint64_t slots);

#ifdef __cplusplus
}
#endif

#endif

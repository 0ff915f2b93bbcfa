// The board of document 01 for a C host: its sizes, record, lent memory and calls.
#ifndef PLAIN_H
#define PLAIN_H

#include "base.h"

enum {
    WORD = 8,
    BLOCK = 64,
    BLOCK_WORDS = 8,
    REGISTER_WORDS = 8,
    MAX_BLOCKS = 4096,
    MAX_SLOTS = 512,
};

enum number {
    NUMBER_DONE = 0,
    NUMBER_GEOMETRY = 1,
    NUMBER_BUFFER = 2,
    NUMBER_RECORD = 3,
    NUMBER_OFF = 4,
    NUMBER_TABLE = 5,
    NUMBER_RANGE = 6,
    NUMBER_FULL = 7,
    NUMBER_BUSY = 8,
    NUMBER_IDLE = 9,
    NUMBER_NO_CHECKPOINT = 10,
    NUMBER_BACKUP = 11,
    NUMBER_CUT = 20,
};

// The codes of table words.
enum state { FREE = 0, CLEAN = 1, DIRTY = 2, HIDDEN = 3, PRE_HIDDEN = 4, PRE_DIRTY = 5 };

enum phase { PHASE_RUNNING, PHASE_WRITING, PHASE_OFF };

// The mark that calls the backup finished.
enum backup { BACKUP_A = 1, BACKUP_B = 2 };

// The mark of a format: A is finished and has no registers.
enum { MARK_NO_REGISTERS = 3 };

struct sizes {
    size_t blocks;
    size_t slots;
};

// The controller record. The count is that of the words already stored, and is of use only while Writing.
struct record {
    struct sizes sizes;
    uint8_t registers[BLOCK];
    enum backup finished;
    enum phase phase;
    size_t count;
};

// What a host lends to every call. The lengths are as lent: in bytes, the table's in words.
struct lent {
    uint8_t *memory;
    size_t memory_length;
    uint8_t *cache;
    size_t cache_length;
    uint64_t *table;
    size_t table_length;
};

struct answer {
    enum number number;
    size_t words;
};

// The answer of a recovery, and whether there are registers.
struct recovery {
    struct answer answer;
    bool registers;
};

// The parts of the nonvolatile memory, in words; HOME starts at 0.

static inline size_t checkpoint_start(struct sizes sizes)
{
    return BLOCK_WORDS * sizes.blocks;
}

static inline size_t backup_words(struct sizes sizes)
{
    return REGISTER_WORDS + sizes.slots;
}

static inline size_t backup_start(struct sizes sizes, enum backup backup)
{
    size_t start = checkpoint_start(sizes) + BLOCK_WORDS * sizes.slots;
    return backup == BACKUP_A ? start : start + backup_words(sizes);
}

static inline size_t mark_start(struct sizes sizes)
{
    return backup_start(sizes, BACKUP_B) + backup_words(sizes);
}

static inline size_t memory_words(struct sizes sizes)
{
    return mark_start(sizes) + 1;
}

// The words of a checkpoint's steps: the registers, the table and the mark.
static inline size_t checkpoint_words(struct sizes sizes)
{
    return backup_words(sizes) + 1;
}

enum number board_load(const struct lent *lent, const struct record *record, size_t block, size_t offset, uint8_t *destination,
                       size_t length);
struct answer board_store(const struct lent *lent, struct record *record, size_t block, size_t offset, const uint8_t *bytes,
                          size_t length, size_t p);
struct answer board_sweep(const struct lent *lent, struct record *record, size_t limit, size_t p);
struct answer board_begin(const struct lent *lent, struct record *record, const uint8_t *registers, size_t length, size_t p);
struct answer board_step(const struct lent *lent, struct record *record, size_t n, size_t p);
struct answer board_format(const struct lent *lent, struct record *record, struct sizes sizes, uint8_t fill, size_t p);
struct recovery board_recover(const struct lent *lent, struct record *record, struct sizes sizes);

#endif

// The floor of each call of the board: the bytes that it has to move, and one scan of its table. No rule is checked.
#include "plain.h"

// Takes the scan's sum, so that the compiler keeps the scan.
uint64_t scanned;

static inline void scan(const uint64_t *table, size_t slots)
{
    uint64_t sum = 0;
    for (size_t slot = 0; slot < slots; slot++)
        sum += table[slot];
    scanned = sum;
}

static inline struct answer nothing(void)
{
    return (struct answer){NUMBER_DONE, 0};
}

enum number board_load(const struct lent *lent, const struct record *record, size_t block, size_t offset, uint8_t *destination,
                       size_t length)
{
    (void)offset, (void)length;
    scan(lent->table, record->sizes.slots);
    memcpy(destination, lent->memory + BLOCK * block, BLOCK);
    return NUMBER_DONE;
}

struct answer board_store(const struct lent *lent, struct record *record, size_t block, size_t offset, const uint8_t *bytes,
                          size_t length, size_t p)
{
    (void)offset, (void)length, (void)p;
    scan(lent->table, record->sizes.slots);
    memcpy(lent->memory + BLOCK * block, bytes, BLOCK);
    return nothing();
}

struct answer board_sweep(const struct lent *lent, struct record *record, size_t limit, size_t p)
{
    (void)limit, (void)p;
    uint64_t *table = lent->table;
    const uint8_t *checkpoint = lent->memory + WORD * checkpoint_start(record->sizes);
    size_t slots = record->sizes.slots;
    for (size_t slot = 0; slot < slots; slot++) {
        if (table[slot] % 256 != CLEAN)
            continue;
        memcpy(lent->memory + BLOCK * (table[slot] / 256), checkpoint + BLOCK * slot, BLOCK);
        table[slot] += HIDDEN - CLEAN;
    }
    return nothing();
}

struct answer board_begin(const struct lent *lent, struct record *record, const uint8_t *registers, size_t length, size_t p)
{
    (void)length, (void)p;
    const uint64_t *table = lent->table;
    const uint8_t *cache = lent->cache;
    uint8_t *checkpoint = lent->memory + WORD * checkpoint_start(record->sizes);
    size_t slots = record->sizes.slots;
    uint64_t sum = 0;
    for (size_t slot = 0; slot < slots; slot++) {
        sum += table[slot];
        if (table[slot] % 256 >= PRE_HIDDEN)
            memcpy(checkpoint + BLOCK * slot, cache + BLOCK * slot, BLOCK);
    }
    scanned = sum;
    memcpy(record->registers, registers, BLOCK);
    return nothing();
}

// A step of less than the whole checkpoint is of one word.
struct answer board_step(const struct lent *lent, struct record *record, size_t n, size_t p)
{
    (void)p;
    struct sizes sizes = record->sizes;
    uint8_t *backup = lent->memory + WORD * backup_start(sizes, BACKUP_B);
    scan(lent->table, sizes.slots);
    if (n < checkpoint_words(sizes)) {
        memcpy(backup, record->registers, WORD);
        return nothing();
    }
    memcpy(backup, record->registers, BLOCK);
    memcpy(backup + BLOCK, lent->table, WORD * sizes.slots);
    memset(lent->memory + WORD * mark_start(sizes), 0, WORD);
    return nothing();
}

// The table is only written, so there is no scan.
struct answer board_format(const struct lent *lent, struct record *record, struct sizes sizes, uint8_t fill, size_t p)
{
    (void)p;
    memset(lent->memory, fill, WORD * (BLOCK_WORDS * sizes.blocks + backup_words(sizes) + 2));
    memset(lent->table, 0, WORD * sizes.slots);
    memset(record->registers, 0, BLOCK);
    return nothing();
}

struct recovery board_recover(const struct lent *lent, struct record *record, struct sizes sizes)
{
    const uint8_t *backup = lent->memory + WORD * backup_start(sizes, BACKUP_B);
    memcpy(record->registers, backup, BLOCK);
    memcpy(lent->table, backup + BLOCK, WORD * sizes.slots);
    scan(lent->table, sizes.slots);
    return (struct recovery){nothing(), true};
}

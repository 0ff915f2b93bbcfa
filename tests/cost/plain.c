// The calls of document 01 in plain C (a store by document 02, No. 5), as a measure for the cost of the Rattle calls.
#include "plain.h"

_Static_assert(__BYTE_ORDER__ == __ORDER_LITTLE_ENDIAN__, "words of the memory are read and written as the machine's own numbers");

enum place { HOME, CHECKPOINT, CACHE };

struct move {
    enum place place;
    enum state state;
};

static const enum place shows[] = {
    [FREE] = HOME, [HIDDEN] = HOME, [CLEAN] = CHECKPOINT, [DIRTY] = CHECKPOINT, [PRE_HIDDEN] = CACHE, [PRE_DIRTY] = CACHE,
};

// Where a store's new block goes and what becomes of its entry. FREE stands for no entry.
static const struct move moves[][PRE_DIRTY + 1] = {
    [PHASE_RUNNING] = {
        [FREE] = {CHECKPOINT, DIRTY},
        [CLEAN] = {HOME, HIDDEN},
        [DIRTY] = {CHECKPOINT, DIRTY},
        [HIDDEN] = {HOME, HIDDEN},
        [PRE_HIDDEN] = {HOME, HIDDEN},
        [PRE_DIRTY] = {CHECKPOINT, DIRTY},
    },
    // no table with a dirty or hidden entry gets here
    [PHASE_WRITING] = {
        [FREE] = {CACHE, PRE_DIRTY},
        [CLEAN] = {CACHE, PRE_HIDDEN},
        [PRE_HIDDEN] = {CACHE, PRE_HIDDEN},
        [PRE_DIRTY] = {CACHE, PRE_DIRTY},
    },
};

static inline uint64_t entry(size_t block, enum state state)
{
    return 256 * block + state;
}

static inline enum state state_of(uint64_t word)
{
    return word % 256;
}

static inline size_t block_of(uint64_t word)
{
    return word / 256;
}

static inline uint64_t word_at(const uint8_t *bytes)
{
    uint64_t word;
    memcpy(&word, bytes, WORD);
    return word;
}

static inline void put_word(uint8_t *bytes, uint64_t word)
{
    memcpy(bytes, &word, WORD);
}

static inline size_t least(size_t a, size_t b)
{
    return a < b ? a : b;
}

static inline struct answer done(size_t words)
{
    return (struct answer){NUMBER_DONE, words};
}

static inline struct answer refused(enum number number)
{
    return (struct answer){number, 0};
}

static inline struct answer cut(struct record *record, size_t words)
{
    record->phase = PHASE_OFF;
    return (struct answer){NUMBER_CUT, words};
}

// Words of the list as far as the rest of the allowance goes; tells whether it went to their end.

static inline bool lay_bytes(uint8_t *to, const uint8_t *from, size_t words, size_t *left)
{
    if (words > *left) {
        memcpy(to, from, WORD * *left);
        return false;
    }
    memcpy(to, from, WORD * words);
    *left -= words;
    return true;
}

static inline bool lay_fill(uint8_t *to, uint8_t fill, size_t words, size_t *left)
{
    if (words > *left) {
        memset(to, fill, WORD * *left);
        return false;
    }
    memset(to, fill, WORD * words);
    *left -= words;
    return true;
}

static inline bool lay_number(uint8_t *to, uint64_t number, size_t *left)
{
    return lay_bytes(to, (const uint8_t *)&number, 1, left);
}

// GEOMETRY and BUFFER.
static inline enum number check_lent(const struct lent *lent, struct sizes sizes)
{
    if (sizes.blocks < 1 || sizes.blocks > MAX_BLOCKS || sizes.slots < 1 || sizes.slots > MAX_SLOTS)
        return NUMBER_GEOMETRY;
    if (lent->memory_length != WORD * memory_words(sizes) || lent->cache_length != BLOCK * sizes.slots
        || lent->table_length != sizes.slots)
        return NUMBER_BUFFER;
    return NUMBER_DONE;
}

static inline bool allowed(enum state state, enum phase phase)
{
    switch (state) {
    case CLEAN:
    case PRE_HIDDEN:
    case PRE_DIRTY:
        return true;
    case DIRTY:
    case HIDDEN:
        return phase == PHASE_RUNNING;
    default:
        return false;
    }
}

static inline bool well_formed(const uint64_t *table, struct sizes sizes, enum phase phase)
{
    for (size_t slot = 0; slot < sizes.slots; slot++) {
        uint64_t word = table[slot];
        if (word != 0 && (block_of(word) >= sizes.blocks || !allowed(state_of(word), phase)))
            return false;
    }
    return true;
}

// The numbers 1 to 5. The registers' length is begin's; the other calls give 64.
static inline enum number check(const struct lent *lent, const struct record *record, size_t registers_length)
{
    struct sizes sizes = record->sizes;
    enum number number = check_lent(lent, sizes);
    if (number != NUMBER_DONE)
        return number;
    if (registers_length != BLOCK)
        return NUMBER_BUFFER;
    if (record->phase == PHASE_WRITING && record->count >= checkpoint_words(sizes))
        return NUMBER_RECORD;
    if (record->phase == PHASE_OFF)
        return NUMBER_OFF;
    if (!well_formed(lent->table, sizes, record->phase))
        return NUMBER_TABLE;
    return NUMBER_DONE;
}

// The numbers 1 to 6 of load and store.
static inline enum number check_range(const struct lent *lent, const struct record *record, size_t block, size_t offset,
                                      size_t length)
{
    enum number number = check(lent, record, BLOCK);
    if (number != NUMBER_DONE)
        return number;
    if (block >= record->sizes.blocks || offset >= BLOCK || length == 0 || length > BLOCK - offset)
        return NUMBER_RANGE;
    return NUMBER_DONE;
}

// The lowest slot that names the block, or the number of slots. The words are well formed.
static inline size_t find_block(const uint64_t *table, size_t slots, size_t block)
{
    for (size_t slot = 0; slot < slots; slot++)
        if (table[slot] != 0 && block_of(table[slot]) == block)
            return slot;
    return slots;
}

// The lowest free slot, or the number of slots.
static inline size_t find_free(const uint64_t *table, size_t slots)
{
    for (size_t slot = 0; slot < slots; slot++)
        if (table[slot] == 0)
            return slot;
    return slots;
}

static inline uint8_t *block_at(const struct lent *lent, struct sizes sizes, enum place place, size_t block, size_t slot)
{
    switch (place) {
    case HOME:
        return lent->memory + BLOCK * block;
    case CHECKPOINT:
        return lent->memory + WORD * checkpoint_start(sizes) + BLOCK * slot;
    default:
        return lent->cache + BLOCK * slot;
    }
}

enum number board_load(const struct lent *lent, const struct record *record, size_t block, size_t offset, uint8_t *destination,
                       size_t length)
{
    enum number number = check_range(lent, record, block, offset, length);
    if (number != NUMBER_DONE)
        return number;
    struct sizes sizes = record->sizes;
    size_t slot = find_block(lent->table, sizes.slots, block);
    enum state state = slot < sizes.slots ? state_of(lent->table[slot]) : FREE;
    memcpy(destination, block_at(lent, sizes, shows[state], block, slot) + offset, length);
    return NUMBER_DONE;
}

struct answer board_store(const struct lent *lent, struct record *record, size_t block, size_t offset, const uint8_t *bytes,
                          size_t length, size_t p)
{
    enum number number = check_range(lent, record, block, offset, length);
    if (number != NUMBER_DONE)
        return refused(number);
    struct sizes sizes = record->sizes;
    enum state state = FREE;
    size_t slot = find_block(lent->table, sizes.slots, block);
    if (slot < sizes.slots) {
        state = state_of(lent->table[slot]);
    } else {
        slot = find_free(lent->table, sizes.slots);
        if (slot == sizes.slots)
            return refused(NUMBER_FULL);
    }

    struct move move = moves[record->phase][state];
    uint8_t fresh[BLOCK];
    memcpy(fresh, block_at(lent, sizes, shows[state], block, slot), BLOCK);
    memcpy(fresh + offset, bytes, length);
    uint8_t *to = block_at(lent, sizes, move.place, block, slot);
    size_t first = 0;
    size_t count = BLOCK_WORDS;
    if (record->phase == PHASE_RUNNING && (state == DIRTY || state == HIDDEN)) {
        first = offset / WORD;
        count = (offset + length + WORD - 1) / WORD - first;
    }
    size_t left = p;
    if (move.place == CACHE)
        memcpy(to, fresh, BLOCK);
    else if (!lay_bytes(to + WORD * first, fresh + WORD * first, count, &left))
        return cut(record, p);
    lent->table[slot] = entry(block, move.state);
    return done(p - left);
}

struct answer board_sweep(const struct lent *lent, struct record *record, size_t limit, size_t p)
{
    enum number number = check(lent, record, BLOCK);
    if (number != NUMBER_DONE)
        return refused(number);
    if (record->phase == PHASE_WRITING)
        return refused(NUMBER_BUSY);
    struct sizes sizes = record->sizes;
    uint64_t *table = lent->table;
    uint8_t *home = lent->memory;
    const uint8_t *checkpoint = lent->memory + WORD * checkpoint_start(sizes);

    size_t left = p;
    size_t swept = 0;
    size_t end = 0;
    for (; end < sizes.slots && swept < limit; end++) {
        if (state_of(table[end]) != CLEAN)
            continue;
        if (!lay_bytes(home + BLOCK * block_of(table[end]), checkpoint + BLOCK * end, BLOCK_WORDS, &left))
            return cut(record, p);
        swept++;
    }
    // only now, as a cut leaves the table as it was
    for (size_t slot = 0; slot < end; slot++)
        if (state_of(table[slot]) == CLEAN)
            table[slot] = entry(block_of(table[slot]), HIDDEN);
    return done(p - left);
}

// A table word as begin leaves it.
static inline uint64_t begun(uint64_t word)
{
    switch (state_of(word)) {
    case CLEAN:
    case DIRTY:
    case PRE_DIRTY:
        return entry(block_of(word), CLEAN);
    default:
        return 0;
    }
}

struct answer board_begin(const struct lent *lent, struct record *record, const uint8_t *registers, size_t length, size_t p)
{
    enum number number = check(lent, record, length);
    if (number != NUMBER_DONE)
        return refused(number);
    if (record->phase == PHASE_WRITING)
        return refused(NUMBER_BUSY);
    struct sizes sizes = record->sizes;
    uint64_t *table = lent->table;
    uint8_t *home = lent->memory;
    uint8_t *checkpoint = lent->memory + WORD * checkpoint_start(sizes);
    const uint8_t *cache = lent->cache;

    size_t left = p;
    for (size_t slot = 0; slot < sizes.slots; slot++) {
        uint8_t *to;
        if (state_of(table[slot]) == PRE_HIDDEN)
            to = home + BLOCK * block_of(table[slot]);
        else if (state_of(table[slot]) == PRE_DIRTY)
            to = checkpoint + BLOCK * slot;
        else
            continue;
        if (!lay_bytes(to, cache + BLOCK * slot, BLOCK_WORDS, &left))
            return cut(record, p);
    }
    // only now, as a cut leaves the table as it was
    for (size_t slot = 0; slot < sizes.slots; slot++)
        table[slot] = begun(table[slot]);
    memcpy(record->registers, registers, BLOCK);
    record->phase = PHASE_WRITING;
    record->count = 0;
    return done(p - left);
}

// A word of the backup's table for a word of the table.
static inline uint64_t saved(uint64_t word)
{
    switch (state_of(word)) {
    case CLEAN:
    case PRE_HIDDEN:
        return entry(block_of(word), CLEAN);
    default:
        return 0;
    }
}

// The words of a checkpoint from one index to before another: the registers, the table, the mark.
static inline void save(const struct lent *lent, const struct record *record, enum backup backup, size_t from, size_t to)
{
    struct sizes sizes = record->sizes;
    uint8_t *start = lent->memory + WORD * backup_start(sizes, backup);
    const uint64_t *table = lent->table;
    size_t index = from;
    if (index < REGISTER_WORDS) {
        size_t end = least(to, REGISTER_WORDS);
        memcpy(start + WORD * index, record->registers + WORD * index, WORD * (end - index));
        index = end;
    }
    for (size_t end = least(to, backup_words(sizes)); index < end; index++)
        put_word(start + WORD * index, saved(table[index - REGISTER_WORDS]));
    if (index < to)
        put_word(lent->memory + WORD * mark_start(sizes), backup);
}

struct answer board_step(const struct lent *lent, struct record *record, size_t n, size_t p)
{
    enum number number = check(lent, record, BLOCK);
    if (number != NUMBER_DONE)
        return refused(number);
    if (record->phase == PHASE_RUNNING)
        return refused(NUMBER_IDLE);
    size_t all = checkpoint_words(record->sizes);
    size_t words = least(n, all - record->count);
    enum backup backup = record->finished == BACKUP_A ? BACKUP_B : BACKUP_A;
    save(lent, record, backup, record->count, record->count + least(words, p));
    if (words > p)
        return cut(record, p);
    record->count += words;
    if (record->count == all) {
        record->phase = PHASE_RUNNING;
        record->finished = backup;
    }
    return done(words);
}

struct answer board_format(const struct lent *lent, struct record *record, struct sizes sizes, uint8_t fill, size_t p)
{
    enum number number = check_lent(lent, sizes);
    if (number != NUMBER_DONE)
        return refused(number);
    uint8_t *mark = lent->memory + WORD * mark_start(sizes);
    uint8_t *a = lent->memory + WORD * backup_start(sizes, BACKUP_A);
    size_t left = p;
    bool whole = lay_number(mark, 0, &left) && lay_fill(lent->memory, fill, BLOCK_WORDS * sizes.blocks, &left)
                 && lay_fill(a, 0, backup_words(sizes), &left) && lay_number(mark, MARK_NO_REGISTERS, &left);
    record->sizes = sizes;
    if (!whole)
        return cut(record, p);
    memset(lent->table, 0, WORD * sizes.slots);
    memset(record->registers, 0, BLOCK);
    record->finished = BACKUP_A;
    record->phase = PHASE_RUNNING;
    return done(p - left);
}

// BACKUP: each word is 0, or clean with a block of the board that no lower slot names.
static inline bool sound(const uint8_t *table, struct sizes sizes)
{
    uint64_t seen[MAX_BLOCKS / 64] = {0};
    for (size_t slot = 0; slot < sizes.slots; slot++) {
        uint64_t word = word_at(table + WORD * slot);
        if (word == 0)
            continue;
        size_t block = block_of(word);
        if (state_of(word) != CLEAN || block >= sizes.blocks)
            return false;
        uint64_t bit = (uint64_t)1 << block % 64;
        if (seen[block / 64] & bit)
            return false;
        seen[block / 64] |= bit;
    }
    return true;
}

static inline struct recovery no_recovery(enum number number)
{
    return (struct recovery){refused(number), false};
}

struct recovery board_recover(const struct lent *lent, struct record *record, struct sizes sizes)
{
    enum number number = check_lent(lent, sizes);
    if (number != NUMBER_DONE)
        return no_recovery(number);
    uint64_t mark = word_at(lent->memory + WORD * mark_start(sizes));
    if (mark != BACKUP_A && mark != BACKUP_B && mark != MARK_NO_REGISTERS)
        return no_recovery(NUMBER_NO_CHECKPOINT);
    bool exist = mark != MARK_NO_REGISTERS;
    enum backup backup = exist ? mark : BACKUP_A;
    const uint8_t *registers = lent->memory + WORD * backup_start(sizes, backup);
    const uint8_t *table = registers + WORD * REGISTER_WORDS;
    if (!sound(table, sizes))
        return no_recovery(NUMBER_BACKUP);
    memcpy(lent->table, table, WORD * sizes.slots);
    if (exist)
        memcpy(record->registers, registers, BLOCK);
    else
        memset(record->registers, 0, BLOCK);
    record->sizes = sizes;
    record->finished = backup;
    record->phase = PHASE_RUNNING;
    return (struct recovery){done(0), exist};
}

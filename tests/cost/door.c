// The calls of plain.h through the door, so that the driver can make them. The table's words are the door's bytes as they stand; the record is
// turned into the door's bytes before each call and back after it. With NO_CALL all that is done and no call is made: measure subtracts it.
#include "plain.h"
#include "rostimely.h"

_Static_assert(__BYTE_ORDER__ == __ORDER_LITTLE_ENDIAN__, "the table's words are lent as they are");

static uint8_t bytes[ROSTIMELY_RECORD_LENGTH] = ROSTIMELY_NEW_RECORD;

#ifdef NO_CALL
// In the place of a call: takes the registers that a call may change.
static inline rostimely_answer no_call(void)
{
    __asm__ volatile("" ::: "rax", "rcx", "rdx", "rsi", "rdi", "r8", "r9", "r10", "r11", "memory");
    return (rostimely_answer){0, 0};
}
#define CALL(call) no_call()
#define RECOVER(call) ((void)no_call(), (rostimely_recovery){0, 0, 0})
#else
#define CALL(call) call
#define RECOVER(call) call
#endif

#define LENT                                                                                                                              \
    lent->memory, lent->memory_length, lent->cache, lent->cache_length, (uint8_t *)lent->table, WORD * lent->table_length, bytes,         \
        sizeof bytes

static inline void put_two(size_t at, size_t number)
{
    bytes[at] = (uint8_t)(number >> 8);
    bytes[at + 1] = (uint8_t)number;
}

static inline size_t two(size_t at)
{
    return 256 * (size_t)bytes[at] + bytes[at + 1];
}

// Neither of the two branches, so that they always take the same instructions.

static inline void encode(const struct record *record)
{
    put_two(ROSTIMELY_AT_BLOCKS, record->sizes.blocks);
    put_two(ROSTIMELY_AT_SLOTS, record->sizes.slots);
    memcpy(bytes + ROSTIMELY_AT_REGISTERS, record->registers, BLOCK);
    bytes[ROSTIMELY_AT_BACKUP] = (uint8_t)record->finished;
    bytes[ROSTIMELY_AT_PHASE] = (uint8_t)record->phase;
    put_two(ROSTIMELY_AT_COUNT, (record->phase == PHASE_WRITING) * record->count);
}

static inline void decode(struct record *record)
{
    record->sizes = (struct sizes){two(ROSTIMELY_AT_BLOCKS), two(ROSTIMELY_AT_SLOTS)};
    memcpy(record->registers, bytes + ROSTIMELY_AT_REGISTERS, BLOCK);
    record->finished = bytes[ROSTIMELY_AT_BACKUP];
    record->phase = bytes[ROSTIMELY_AT_PHASE];
    record->count = two(ROSTIMELY_AT_COUNT);
}

static inline struct answer decoded(struct record *record, rostimely_answer answer)
{
    decode(record);
    return (struct answer){(enum number)answer.number, answer.words};
}

enum number board_load(const struct lent *lent, const struct record *record, size_t block, size_t offset, uint8_t *destination,
                       size_t length)
{
    (void)lent, (void)block, (void)offset, (void)destination, (void)length;
    encode(record);
    rostimely_answer answer = CALL(rostimely_load(LENT, block, offset, destination, length));
    return (enum number)answer.number;
}

struct answer board_store(const struct lent *lent, struct record *record, size_t block, size_t offset, const uint8_t *from,
                          size_t length, size_t p)
{
    (void)lent, (void)block, (void)offset, (void)from, (void)length, (void)p;
    encode(record);
    return decoded(record, CALL(rostimely_store(LENT, block, offset, from, length, p)));
}

// The door has no sweep, and tests/cost/measure asks it for none.
struct answer board_sweep(const struct lent *lent, struct record *record, size_t limit, size_t p)
{
    (void)lent, (void)record, (void)limit, (void)p;
    return (struct answer){NUMBER_DONE, 0};
}

struct answer board_begin(const struct lent *lent, struct record *record, const uint8_t *registers, size_t length, size_t p)
{
    (void)lent, (void)registers, (void)length, (void)p;
    encode(record);
    return decoded(record, CALL(rostimely_begin(LENT, registers, length, p)));
}

struct answer board_step(const struct lent *lent, struct record *record, size_t n, size_t p)
{
    (void)lent, (void)n, (void)p;
    encode(record);
    return decoded(record, CALL(rostimely_step(LENT, n, p)));
}

struct answer board_format(const struct lent *lent, struct record *record, struct sizes sizes, uint8_t fill, size_t p)
{
    (void)lent, (void)sizes, (void)fill, (void)p;
    encode(record);
    return decoded(record, CALL(rostimely_format(LENT, sizes.blocks, sizes.slots, fill, p)));
}

struct recovery board_recover(const struct lent *lent, struct record *record, struct sizes sizes)
{
    (void)lent, (void)sizes;
    encode(record);
    rostimely_recovery recovery = RECOVER(rostimely_recover(LENT, sizes.blocks, sizes.slots));
    return (struct recovery){decoded(record, (rostimely_answer){recovery.number, recovery.words}), recovery.registers == 1};
}
